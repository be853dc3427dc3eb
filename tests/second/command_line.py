"""The words behind the program's name, read: a command, what stands behind it, and its options. Words are bytes."""
import re
from typing import NamedTuple

LARGEST = 2**64 - 1
SPELLED = {b"-r": "reference", b"--reference": "reference", b"--name": "name", b"--vcf": "vcf", b"--every": "every",
           b"--records": "records", b"--journal": "journal", b"--pool": "pool", b"--force": "force", b"--tsv": "tsv"}
FLAGS = {"force", "tsv"}
NUMBERS = {"every", "records", "journal", "pool"}
ON_A_REFERENCE = {"reference", "name"}
# The options of each command but tsv, which all have, and how many words stand behind it.
COMMANDS = {
    b"blank": (ON_A_REFERENCE | {"records", "journal", "pool", "force"}, 1),
    b"enter": (ON_A_REFERENCE | {"vcf", "every"}, 4),
    b"withdraw": (set(), 2),
    b"undo": (set(), 1),
    b"seal": (set(), 1),
    b"list": (ON_A_REFERENCE, 1),
    b"show": (ON_A_REFERENCE, 2),
    b"form": (ON_A_REFERENCE | {"vcf"}, 3),
    b"identify": (ON_A_REFERENCE, 3),
    b"check": (set(), 1),
}
NEED_A_REFERENCE = {b"blank", b"enter", b"form", b"identify"}
ALLELE_WORDS = 3


class BadUsage(Exception):
    """Words that make no command."""


class Asked(NamedTuple):
    """What the words ask for."""

    command: bytes
    words: list
    reference: bytes = None
    name: bytes = None
    vcf: bytes = None
    every: int = None
    records: int = 10_000
    journal: int = 10_000
    pool: int = 1_000_000
    force: bool = False
    tsv: bool = False

    def register(self):
        return self.words[0]

    def number(self):
        return number(self.words[1])

    def allele(self):
        """The start, the end and the replacement."""
        start, end, replacement = self.words[-ALLELE_WORDS:]
        return number(start), number(end), b"" if replacement == b"." else replacement


def number(word):
    if not re.fullmatch(rb"[0-9]+", word) or int(word) > LARGEST:
        raise BadUsage(f"{word} is no number")
    return int(word)


def parted(words):
    """The words that are no options, and the options with their values; the last of one given twice counts."""
    plain, options = [], {}
    words = list(words)
    while words:
        word = words.pop(0)
        if word == b"--":
            return plain + words, options
        if not word.startswith(b"-") or word == b"-":
            plain.append(word)
        elif word not in SPELLED:
            raise BadUsage(f"no option {word}")
        elif SPELLED[word] in FLAGS:
            options[SPELLED[word]] = True
        elif not words:
            raise BadUsage(f"{word} without a value")
        else:
            options[SPELLED[word]] = words.pop(0)
    return plain, options


def check_numbers(asked):
    """Every number among the words is one."""
    if asked.command in (b"withdraw", b"show"):
        asked.number()
    if asked.command in (b"enter", b"form", b"identify") and asked.vcf is None:
        asked.allele()
    if asked.every == 0:
        raise BadUsage("--every 0")


def asked(words):
    """What a command line asks for."""
    command, *behind = words or [b""]
    if command not in COMMANDS:
        raise BadUsage(f"no command {command}")
    taken, expected = COMMANDS[command]
    plain, options = parted(behind)
    if set(options) - taken - {"tsv"}:
        raise BadUsage("an option that the command does not take")
    if len(plain) != expected - (ALLELE_WORDS if "vcf" in options else 0):
        raise BadUsage("too few words, or too many")
    if command in NEED_A_REFERENCE and "reference" not in options or "name" in options and "reference" not in options:
        raise BadUsage("no reference")
    if "every" in options and "vcf" not in options:
        raise BadUsage("--every without --vcf")
    options |= {option: number(options[option]) for option in NUMBERS & set(options)}
    found = Asked(command, plain, **options)
    check_numbers(found)
    return found
