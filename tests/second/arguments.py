"""Arguments to try in more calls than one, and ways to spoil them."""
from itertools import product

import alleles
from model import REFERENCE_LIMIT, RESIDUES

# The bytes on either side of a residue, lower-case letters, and the ends of a byte's range.
FOREIGN = b")+,.@[az\x00\xff"
# SHA-512 takes blocks of 128 bytes, and pads into one more where under 17 bytes of the last are left.
EDGES = tuple(128 * k + offset for k in range(5) for offset in (0, 1, 110, 111, 112, 113, 126, 127) if 128 * k + offset <= 600)
# Positions far past the end of any reference; some come back to its start where a call cuts them to 32 bits.
FAR_POSITIONS = (2**31, 2**32, 2**32 + 1, 2**32 + 5, 2**63 - 1, 2**63, 2**64 - 2, 2**64 - 1)

LETTER_OF = bytes(ord("A") + byte % 26 for byte in range(256))
RESIDUE_OF = bytes(RESIDUES[byte % len(RESIDUES)] for byte in range(256))


def far(length):
    """Places at which a sum of place and length passes the end of 64 bits, or its sign."""
    places = (2**32, 2**63 - 1, 2**63, 2**64 - length - 1, 2**64 - length, 2**64 - length + 1, 2**64 - 1)
    return tuple(place for place in places if place < 2**64)


def extreme(rng):
    """Any number of 64 bits, as often short as long, or one beside a power of two or the longest reference's length."""
    power = 2**rng.randint(0, 64)
    beside = rng.choice((power, power, REFERENCE_LIMIT)) + rng.randint(-2, 2)
    return rng.choice((rng.randrange(power), beside % 2**64))


def some_extreme(rng, *numbers):
    """The numbers, about every second one an extreme one instead."""
    return tuple(rng.choice((number, extreme(rng))) for number in numbers)


def letters(rng, length):
    return rng.randbytes(length).translate(LETTER_OF)


def any_residues(rng, length):
    return rng.randbytes(length).translate(RESIDUE_OF)


def with_byte(text, offset, byte):
    return text[:offset] + bytes([byte]) + text[offset + 1:]


def spoiled(rng, text):
    """The text with a foreign byte at its start, its end, an edge or anywhere, and now and then more after it."""
    offset = rng.choice((0, len(text) - 1, min(rng.choice(EDGES), len(text) - 1), rng.randrange(len(text))))
    text = with_byte(text, offset, rng.choice(FOREIGN))
    if rng.random() < 0.3:
        text = with_byte(text, rng.randrange(offset, len(text)), rng.choice(FOREIGN))
    return text


def room_and_place(rng, needed):
    """A buffer's length and a place in it or past it, mostly at or beside where the answer turns."""
    before = rng.choice((0, 0, 1, rng.randint(0, 20)))
    room = max(needed + before + rng.choice((-1, 0, 0, 1, rng.randint(0, 20))), 0)
    turns = (room - needed - 1, room - needed, room - needed + 1, room - 1, room, room + 1)
    return room, rng.choice((before, before, before, max(rng.choice(turns), 0), rng.choice(far(needed))))


def misplaced(rng, reference, start, end):
    """Positions of which one or both are out of order, past the end, or far past it."""
    n = len(reference)
    other = (0, n, n + 1, n + 2, n + 2**32, rng.randint(0, n), *FAR_POSITIONS)
    return rng.choice(((start, rng.choice(other)), (rng.choice(other), end), (rng.choice(other), rng.choice(other)),
                       (end, start), (end + 1, end), (start, n + 1), (n + 1, n + 1)))


def residue_lost(rng, reference):
    """The reference with every one of some residue turned to one foreign byte, so that its repeats still repeat."""
    return reference.replace(bytes([rng.choice(reference)]), bytes([rng.choice(FOREIGN)]))


def marred(rng, reference, start, end, replacement):
    """The allele with some of what speaks against one, now and then several at once."""
    if reference and rng.random() < 0.6:
        reference = rng.choice((spoiled, residue_lost, residue_lost))(rng, reference)
    if replacement and rng.random() < 0.3:
        replacement = spoiled(rng, replacement)
    if rng.random() < 0.3:
        start, end = misplaced(rng, reference, start, end)
    return reference, start, end, replacement


def every_foreign(longest):
    """Every allele on a reference of up to so many bytes, each A, a stop or a foreign one, which comes at least once,
    with a replacement of up to 2 residues."""
    replacements = list(alleles.texts(2, b"A*"))
    for reference in alleles.texts(longest, b"A*+"):
        if b"+" in reference:
            yield from alleles.every_on(reference, replacements)


def every_interval():
    """Every two positions up to some past the end of a short reference, and far ones, in any order."""
    for reference in (b"", b"A", b"AC", b"ACA"):
        positions = *range(len(reference) + 4), *FAR_POSITIONS
        for start, end, replacement in product(positions, positions, (b"", b"A", b"Ca")):
            yield reference, start, end, replacement


def foreign_units():
    """Units with a foreign byte in them, of which some go from a repeat, the byte behind them given or not:
    others are rolled over. And residues that come into the same repeat."""
    for unit in (b"x", b"xA", b"Ax", b"xx", b"CAx", b"xAG", b"CxxG", b"x@A", b"[Z", b"*+", b"-,", b".-", b")*"):
        for times in range(5):
            reference = b"T" + unit * times + unit[:1] + b"T"
            for start in range(len(reference) + 1):
                yield reference, start, start, b"CAG"
                for gone in range(len(unit), len(reference) - start + 1, len(unit)):
                    end = start + gone
                    yield reference, start, end, b""
                    yield reference, start, end + len(reference[end:end + 1]), reference[end:end + 1]
