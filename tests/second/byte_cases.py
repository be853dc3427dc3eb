"""Calls with every byte value among residues, in each slice that has to be of them: at its first place, in its middle,
at its last, and beside the ends of the blocks in which it may be tested. A residue is taken; any other byte is refused
under the slice's own number.
"""
from itertools import product

import texts
from arguments import FOREIGN, any_residues, letters, with_byte
from exchange import Disagreement
from form_cases import normal_form
from images import image_of
from model import RESIDUES
from read_cases import read_allele
from register import ACTIVE, Record, Register
from register_calls import check, entry, read_record, seal, undo, withdraw
from running_cases import any_state, feed_case
from sequence_cases import sequence_identifier
from text_cases import ALLELE_IDENTIFIER, ALLELE_TEXT, some_digest

BLOCK = 1024
LONG = 2 * BLOCK + 2
# A text's length, and an offset at its ends or beside the end of a block.
EDGES = ((BLOCK, 0), (BLOCK, BLOCK - 1), (LONG, 0), (LONG, BLOCK - 2), (LONG, BLOCK - 1), (LONG, BLOCK),
         (LONG, BLOCK + 1), (LONG, 2 * BLOCK - 1), (LONG, 2 * BLOCK), (LONG, LONG - 1))


def among_residues(rng):
    """A byte's offset, and a text that has it there. Among letters alone a block may be tested in another way."""
    for byte, (length, drawn) in product(range(256), ((1, letters), (9, any_residues), (LONG, letters))):
        for offset in sorted({0, length // 2, length - 1}):
            yield offset, with_byte(drawn(rng, length), offset, byte)
    for byte, (length, offset), drawn in product(b"*-AZ" + FOREIGN, EDGES, (letters, any_residues)):
        yield offset, with_byte(drawn(rng, length), offset, byte)


def as_sequence(rng, text):
    """The text as a whole reference, as a part of one, and as a replacement in a text that is read."""
    yield 4, sequence_identifier(text, rng.randbytes(41), 0)
    yield 4, feed_case(any_state(rng, rng.randint(0, 300)), text)
    yield 8, read_allele(texts.allele(some_digest(rng), text))


def as_replacement(rng, text):
    """The text as the replacement that is given, and as the normal one: one of two goes from a reference, and the other
    is rolled over, to the right or to the left."""
    digest, length, two = some_digest(rng), len(text), text * 2
    for refusal, allele in ((4, (b"", 0, 0, text)), (5, (two, 0, length, b"")), (5, (two, length, 2 * length, b""))):
        yield refusal, normal_form(*allele, rng.randbytes(length), 0)
        yield refusal, ALLELE_TEXT.case(*allele, digest, rng.randbytes(length + 200), 0)
        yield refusal, ALLELE_IDENTIFIER.case(*allele, digest, rng.randbytes(41), 0)
        image = image_of(rng, Register(1, 1, length, len(allele[0]), digest))
        yield refusal, entry(image, digest, *allele)


def as_pool(rng, text):
    """The text as all that a pool has in use: the first record has its first byte, the third begins in its middle."""
    digest, middle = some_digest(rng), len(text) // 2
    parts = text[:1], text[1:middle], text[max(middle, 1):]
    issued = tuple(Record(0, 1, part, ACTIVE) for part in parts)
    image = image_of(rng, Register(4, 4, len(text) + 1, 3, digest, issued, (1,)), 1)
    for case in (check(image), read_record(image, 3), withdraw(image, 1), undo(image), seal(image),
                 entry(image, digest, b"AC*", 2, 3, b"")):
        yield 10, case


def byte_cases(rng):
    for offset, text in among_residues(rng):
        foreign = text[offset] not in RESIDUES
        for refusal, case in (*as_sequence(rng, text), *as_replacement(rng, text), *as_pool(rng, text)):
            if case.answer[0] != (refusal if foreign else 0):
                raise Disagreement(f"{case.call} is to answer {case.answer} to the byte {text[offset]:#04x}")
            yield case
