"""FASTA files, said a second time: the sequences of a file, and the one that is chosen."""
import re

GZIP = b"\x1f\x8b"
NAME_ENDS = re.compile(rb"[ \t]")


class Unfit(Exception):
    """Why a file is not what it has to be."""


def lines(text):
    """The lines, without their ends; a carriage return is part of an end before a line feed and as the last byte."""
    *ended, last = text.split(b"\n")
    return [line.removesuffix(b"\r") for line in (*ended, last)]


def sequences(text):
    """The name and the residues of each sequence, in the file's order."""
    found = []
    for line in lines(text):
        if line.startswith(b">"):
            found.append((NAME_ENDS.split(line[1:])[0], []))
        else:
            found[-1][1].append(line.upper())
    return [(name, b"".join(rows)) for name, rows in found]


def chosen(text, name):
    """The name and the residues of the sequence that has this name, or where no name is given of the only one."""
    if text.startswith(GZIP):
        raise Unfit("compressed, unpack it first")
    if not text.startswith(b">"):
        raise Unfit("not FASTA, its first byte is not >")
    found = sequences(text)
    if name is None:
        if len(found) != 1:
            raise Unfit(f"has {len(found)} sequences, choose one with --name")
        return found[0]
    named = [sequence for sequence in found if sequence[0] == name]
    if len(named) != 1:
        raise Unfit(f"has {'two sequences' if named else 'no sequence'} {name.decode('latin-1')}")
    return named[0]
