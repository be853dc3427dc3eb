"""Alleles to try: a reference, a start, an end and a replacement each.

Each of these lies on its reference and is of residues; whoever wants a refusal spoils one.
"""
from itertools import combinations_with_replacement, product

from model import RESIDUES

LETTERS = b"ACGT"
# Few kinds of residues, so that much repeats, and all of them.
ALPHABETS = b"A", b"AC", LETTERS, b"*", b"-", b"*-", b"AC*-", RESIDUES
# A comparison may take 8 or more bytes at a step, and turn where a block of them ends.
STEPS = (7, 8, 9, 15, 16, 17, 31, 32, 33, 63, 64, 65, 127, 128, 129, 1023, 1024, 1025, 2048)


def texts(longest, alphabet=b"AC"):
    """Every text of these residues with up to so many of them."""
    for length in range(longest + 1):
        for text in product(alphabet, repeat=length):
            yield bytes(text)


def every_small(longest=6, alphabet=b"AC", most=3):
    """Every allele on a reference of up to so many of these residues, with a replacement of up to so many."""
    replacements = list(texts(most, alphabet))
    for reference in texts(longest, alphabet):
        yield from every_on(reference, replacements)


def every_on(reference, replacements):
    """Every interval of the reference, with each of the replacements."""
    for end in range(len(reference) + 1):
        for start in range(end + 1):
            for replacement in replacements:
                yield reference, start, end, replacement


def every_way(reference, made):
    """Every allele on the reference that makes this sequence of it."""
    n, m = len(reference), len(made)
    for start, end in combinations_with_replacement(range(n + 1), 2):
        after = n - end
        if start + after <= m and made[:start] == reference[:start] and made[m - after:] == reference[end:]:
            yield start, end, made[start:m - after]


def residues(rng, length, alphabet=LETTERS):
    return bytes(rng.choices(alphabet, k=length))


def repeat(rng, alphabet):
    """A unit of up to 7 residues many times over, the last time perhaps in part."""
    unit = residues(rng, rng.randint(1, 7), alphabet)
    length = rng.choice((rng.randint(0, 40), rng.randint(0, 40), rng.choice(STEPS)))
    return unit, (unit * (length // len(unit) + 1))[:length]


def in_repeat(rng):
    """One or more units, begun anywhere in the unit, that come or go somewhere in a repeat."""
    alphabet = rng.choice((LETTERS, b"A*", b"AC*-", RESIDUES))
    unit, middle = repeat(rng, alphabet)
    left, right = (residues(rng, rng.randint(0, 12), alphabet) for _ in range(2))
    reference = left + middle + right
    start = len(left) + rng.randint(0, len(middle))
    end = min(start + rng.choice((0, 0, 1, 2)) * len(unit), len(left) + len(middle))
    turn = (start - len(left)) % len(unit)
    return reference, start, end, rng.choice((0, 0, 1, 3)) * (unit[turn:] + unit[:turn])


def anywhere(rng):
    """Any interval and any replacement, on a reference of few kinds of residues or of all."""
    alphabet = rng.choice(ALPHABETS)
    reference = residues(rng, rng.choice((0, 1, rng.randint(0, 9), rng.randint(0, 80))), alphabet)
    start, end = sorted((rng.randint(0, len(reference)), rng.randint(0, len(reference))))
    return reference, start, end, residues(rng, rng.choice((0, 1, rng.randint(0, 6), rng.randint(0, 40))), alphabet)


def unchanged(rng):
    reference, start, end, _ = anywhere(rng)
    return reference, start, end, reference[start:end]


def at_an_end(rng):
    """At the very start or end of the reference, or all of it."""
    reference, _, _, replacement = anywhere(rng)
    n = len(reference)
    start, end = rng.choice(((0, 0), (n, n), (0, n), (0, min(1, n)), (max(n - 1, 0), n)))
    return reference, start, end, rng.choice((replacement, b"", reference[:3], reference[-3:]))


def overlapping(rng):
    """A deletion or an insertion whose common prefix and suffix overlap by far."""
    residue = residues(rng, 1, rng.choice(ALPHABETS))
    n, more = rng.randint(0, 50), rng.randint(0, 50)
    start = rng.randint(0, n)
    end = rng.randint(start, n)
    return residue * n, start, end, residue * more


def one_residue_changed(rng):
    """A stretch whose copy has one other residue, so that the trimming ends there from both sides."""
    length = rng.choice((rng.randint(1, 40), rng.choice(STEPS)))
    reference = residues(rng, length + rng.randint(0, 20), rng.choice(ALPHABETS))
    start = rng.randint(0, len(reference) - length)
    offset = rng.randrange(length)
    text = reference[start:start + length]
    others = RESIDUES.replace(text[offset:offset + 1], b"")
    return reference, start, start + length, text[:offset] + residues(rng, 1, others) + text[offset + 1:]


def widened(rng, reference, start, end, replacement):
    """The same change, given on a wider interval."""
    left, right = rng.randint(0, min(start, 12)), rng.randint(0, min(len(reference) - end, 12))
    return (reference, start - left, end + right,
            reference[start - left:start] + replacement + reference[end:end + right])


SHAPES = (in_repeat, in_repeat, anywhere, unchanged, at_an_end, overlapping, one_residue_changed)


def any_allele(rng):
    allele = rng.choice(SHAPES)(rng)
    return widened(rng, *allele) if rng.random() < 0.3 else allele


def long_rolls():
    """A unit that goes, or comes, at one end of a repeat or in it, so that the roll has every length
    around the ends of steps, to either side."""
    for unit in (b"A", b"AB", b"ABC", b"ABCDEFGH", b"*", b"A-", b"*BCDEFG-"):
        size = len(unit)
        for step in STEPS:
            reference = b"X" + (unit * (step + size))[:step + size] + b"Y"
            end = len(reference) - 1
            for start in (1, 1 + step // size * size, 1 + step // 2 // size * size):
                yield reference, start, start + size, b""
                yield reference, start, start, unit
            yield reference, end - size, end, b""
            yield reference, end, end, reference[end - size:end]


def long_moves():
    """A residue comes in, and each side of the interval moves by more than 16 bits can say: over a run of that residue
    it widens, over a stretch that is given with the residue it shrinks."""
    left, right = b"AC" * 35_000, b"GT" * 40_000
    run_before, run_behind = b"N" * len(left), b"N" * len(right)
    start, end = len(left), len(left) + len(right)
    yield run_before + run_behind, start, start, b"N"
    yield run_before + right, start, end, b"N" + right
    yield left + run_behind, 0, start, left + b"N"
    yield left + right, 0, end, left + b"N" + right
