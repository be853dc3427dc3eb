"""Prints what the program `register_vectors` has to print: document 01's register, and one of a protein.

A line for each call with its answer, then the buffer: the bytes that the image takes and some behind it, all of them
0xAA before the first call, 16 to a line. At the end calls that only read it, a line each, and some once more after a
byte of the image was changed.
"""
import model
import register
from arguments import with_byte
from shown import moved, outcome, shown

REPEAT = b"TCAGCAGCAGT"
PROTEIN = b"MKTAYIAKQR*"
UNWRITTEN = b"\xAA" * 160
LINE = 16


def blank(reference, records, journal, pool):
    def call(image):
        digest = model.digest(reference)
        refusal, value, after = register.blank(image, len(reference), digest, records, journal, pool)
        given = f"blank {len(reference)} {digest.decode('ascii')} {records} {journal} {pool} "
        return given + outcome(refusal, value, "done"), after
    return call


def entry(reference, start, end, replacement):
    def call(image):
        refusal, value, found, number, *far, after = register.entry(
            image, model.digest(reference), reference, start, end, replacement)
        given = f"entry {start} {end} {replacement.decode('ascii')} "
        return given + outcome(refusal, value, f"{register.FOUND.get(found)} {number}{moved(*far)}"), after
    return call


def withdraw(number):
    def call(image):
        refusal, value, after = register.withdraw(image, number)
        return f"withdraw {number} " + outcome(refusal, value, "done"), after
    return call


def undo(image):
    refusal, value, number, image = register.undo(image)
    return "undo " + outcome(refusal, value, f"{number}"), image


def seal(image):
    refusal, value, image = register.seal(image)
    return "seal " + outcome(refusal, value, "done"), image


def check(image):
    return "check " + outcome(*register.check(image), "done")


def record(number):
    def reading(image):
        refusal, value, start, end, status, offset, length = register.read_record(image, number)
        residues = shown(image[offset:offset + length])
        said = f"{register.STATUS[status]} {start} {end} at {offset} {length} {residues}"
        return f"record {number} " + outcome(refusal, value, said)
    return reading


def left(line, image):
    """A call, and the buffer that it leaves."""
    print(line)
    for at in range(0, len(image), LINE):
        print(image[at:at + LINE].hex())


def called(image, *calls):
    """The image after the calls."""
    for call in calls:
        line, image = call(image)
        left(line, image)
    return image


def read(image, *readings):
    for reading in readings:
        print(reading(image))


def changed(image, at, byte):
    """The image with another byte, checked."""
    image = with_byte(image, at, byte)
    left(f"byte {at} set to {byte}", image)
    read(image, check)
    return image


def worked():
    image = called(
        UNWRITTEN,
        blank(REPEAT, 2, 3, 15),
        entry(REPEAT, 4, 4, b"CAG"),  # case 1: new
        undo,
        entry(REPEAT, 2, 3, b"T"),  # case 4: new
        entry(REPEAT, 1, 2, b"CAGC"),  # case 2: again
        entry(REPEAT, 3, 5, b"TTT"),  # case 6: no record left
        entry(REPEAT, 1, 5, b"CTGC"),  # case 5: known
        withdraw(1),
        seal,
        undo,  # nothing is left to undo
    )
    read(image, record(1), record(2), record(0), record(3), check)
    # the last letter in the pool, in lower case
    read(changed(image, 140, 0x74), record(1))


def protein():
    image = called(
        UNWRITTEN,
        blank(PROTEIN, 2, 4, 4),
        entry(PROTEIN, 8, 9, b"*"),  # a stop gained: new
        withdraw(1),
        entry(PROTEIN, 8, 9, b"*"),  # again
        entry(PROTEIN, 7, 10, b"K*R"),  # the same: known
        entry(PROTEIN, 3, 5, b"W-"),  # a gap: new
    )
    read(image, record(1), record(2), check)
    # a byte beside the residues, then a gap, at the front and at the end of what is used of the pool
    for at, byte in ((132, b"+"), (132, b"-"), (134, b"."), (134, b"-")):
        image = changed(image, at, *byte)
    read(image, record(1))


worked()
protein()
