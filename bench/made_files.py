"""Makes a reference of 5 million residues, as FASTA, and a VCF file of 100 thousand lines on it, always the same two.

usage: made_files.py REF.fa CALLS.vcf
"""
import random
import sys
from typing import NamedTuple

SEED = 60
RESIDUES, LINES, WIDTH = 5_000_000, 100_000, 60
# Every fifth slot has a microsatellite; the longest fits into one.
REPEATS, SLOT = 4_000, 250
UNITS, COPIES = (1, 1, 2, 2, 2, 3, 3, 4, 5, 6), range(5, 31)
NUCLEOTIDE = bytes(b"ACGT"[byte % 4] for byte in range(256))
HEADER = f"""##fileformat=VCFv4.2
##contig=<ID=chr1,length={RESIDUES}>
##FILTER=<ID=PASS,Description="All filters passed">
##INFO=<ID=DP,Number=1,Type=Integer,Description="Depth">
##FORMAT=<ID=GT,Number=1,Type=String,Description="Genotype">
##FORMAT=<ID=GQ,Number=1,Type=Integer,Description="Quality">
#CHROM\tPOS\tID\tREF\tALT\tQUAL\tFILTER\tINFO\tFORMAT\tSAMPLE
"""


class Repeat(NamedTuple):
    start: int
    unit: int  # its length
    copies: int


class Call(NamedTuple):
    start: int
    ref: bytes
    alternates: tuple


def letters(rng, length):
    return rng.randbytes(length).translate(NUCLEOTIDE)


def reference(rng):
    """Random residues with repeats among them, and the repeats."""
    residues, repeats = bytearray(letters(rng, RESIDUES)), []
    for slot in rng.sample(range(1, RESIDUES // SLOT - 1), REPEATS):
        repeat = Repeat(SLOT * slot, rng.choice(UNITS), rng.choice(COPIES))
        residues[repeat.start:repeat.start + repeat.unit * repeat.copies] = letters(rng, repeat.unit) * repeat.copies
        repeats.append(repeat)
    return bytes(residues), repeats


def substituted(rng, residues, start, alternates):
    ref = residues[start:start + 1]
    others = rng.sample(sorted(set(b"ACGT") - set(ref)), alternates)
    return Call(start, ref, tuple(bytes([other]) for other in others))


def inserted(rng, residues, start):
    anchor = residues[start:start + 1]
    return Call(start, anchor, (anchor + letters(rng, some_length(rng)),))


def deleted(rng, residues, start):
    ref = residues[start:start + 1 + some_length(rng)]
    return Call(start, ref, (ref[:1],))


def some_length(rng):
    """Mostly few, and 40 at most."""
    return min(1 + int(rng.expovariate(0.4)), 40)


def stuttered(rng, residues, repeat):
    """Units of a microsatellite come in, go, or both in one line; before its first residue, or anywhere in it."""
    room = repeat.unit * (repeat.copies - 3)
    start = repeat.start - 1 + rng.choice((0, rng.randrange(room)))
    anchor, change = residues[start:start + 1], residues[start + 1:start + 1 + repeat.unit * rng.choice((1, 1, 2))]
    return rng.choice((Call(start, anchor, (anchor + change,)), Call(start, anchor + change, (anchor,)),
                       Call(start, anchor + change, (anchor, anchor + change * 2))))


def some_call(rng, residues, repeats):
    what, start = rng.random(), rng.randrange(RESIDUES - 100)
    if what < 0.80:
        return substituted(rng, residues, start, 1)
    if what < 0.82:
        return substituted(rng, residues, start, 2)
    if what < 0.86:
        return inserted(rng, residues, start)
    if what < 0.90:
        return deleted(rng, residues, start)
    return stuttered(rng, residues, rng.choice(repeats))


def line(rng, call):
    columns = (f"chr1\t{call.start + 1}\t.", call.ref.decode(), b",".join(call.alternates).decode(),
               f"{rng.randint(30, 900)}\tPASS\tDP={rng.randint(20, 90)}\tGT:GQ\t0/1:{rng.randint(20, 99)}")
    return "\t".join(columns) + "\n"


def main(fasta, vcf):
    rng = random.Random(SEED)
    residues, repeats = reference(rng)
    with open(fasta, "w", encoding="ascii") as file:
        file.write(">chr1\n")
        file.writelines(residues[at:at + WIDTH].decode() + "\n" for at in range(0, RESIDUES, WIDTH))
    calls = sorted(some_call(rng, residues, repeats) for _ in range(LINES))
    with open(vcf, "w", encoding="ascii") as file:
        file.write(HEADER)
        file.writelines(line(rng, call) for call in calls)


main(*sys.argv[1:])
