"""Calls for the normal form of an allele."""
from itertools import chain

import alleles
import model
from arguments import (any_residues, every_foreign, every_interval, far, foreign_units, marred, room_and_place,
                       some_extreme, with_byte)
from exchange import Case, Untouched
from model import UNMOVED
from shapes import shape


def normal_form(reference, start, end, replacement, out, place):
    *answer, after = model.normal_form(reference, start, end, replacement, out, place)
    return normal_form_case(reference, start, end, replacement, out, place, answer, after)


def normal_form_case(reference, start, end, replacement, out, place, answer, after):
    return Case("fv_normal_form", b"n", (start, end, place), (reference, replacement, out), tuple(answer), (after,),
                shape(answer))


def placed(rng, reference, start, end, replacement):
    """The call with this allele, in a buffer that has room for the answer or narrowly has not."""
    refusal, _, normal = model.formed(reference, start, end, replacement)
    room, place = room_and_place(rng, len(normal.replacement) if refusal == 0 else len(replacement))
    return normal_form(reference, start, end, replacement, rng.randbytes(room), place)


def every_room(rng):
    """Normal replacements of 0, 1 and 12 bytes: every short buffer, with every place in it, one past it and far."""
    for allele in ((b"ACGT", 1, 3, b""), (b"ACGT", 2, 2, b""), (b"ACGT", 1, 2, b"T"), (b"TCAGCAGCAGT", 4, 4, b"CAG")):
        *_, normal = model.formed(*allele)
        for room in range(16):
            for place in (*range(room + 2), *far(len(normal.replacement))):
                yield normal_form(*allele, rng.randbytes(room), place)


def at_the_limits(rng):
    """Each length at its limit and one over it, with and without what later refusals speak of."""
    limit = model.REPLACEMENT_LIMIT
    most = any_residues(rng, limit)
    more = most + b"A"
    for replacement in (most, more, with_byte(most, limit - 1, 0x5B), Untouched(limit), Untouched(limit + 1)):
        for reference, start, end in ((b"", 0, 0), (b"ACGT", 1, 2), (b"ACGT", 2, 1), (b"ACGT", 1, 5)):
            for room in (limit, limit - 1):
                yield normal_form(reference, start, end, replacement, bytes(room), 0)
    longest, longer = Untouched(model.REFERENCE_LIMIT), Untouched(model.REFERENCE_LIMIT + 1)
    for replacement in (b"", b"A", b"a", more):
        for start, end in ((0, 0), (1, 0), (0, len(longer)), (0, 2**64 - 1)):
            yield normal_form(longer, start, end, replacement, rng.randbytes(3), 1)
    for replacement in (b"", b"A", b"a", more):
        for start, end in ((1, 0), (2**64 - 1, 2**64 - 2), (len(longest), len(longer)), (0, 2**64 - 1)):
            yield normal_form(longest, start, end, replacement, rng.randbytes(3), 1)
    for replacement in (b"A", b"CAG", b"*-", most):
        yield from beside_zeros(rng, longest, replacement)
    yield from nothing_beside_zeros(longest)


def beside_zeros(rng, reference, replacement):
    """A reference of zero bytes, too long to be compared here. Residues are unlike all that is around them,
    so they stay as they are given."""
    n, length = len(reference), len(replacement)
    for start, end in ((0, 0), (0, 1), (5, 7), (n - 1, n), (n, n), (0, n), (1, n), (0, n - 1)):
        allele = reference, start, end, replacement
        kind = model.SUBSTITUTION if start < end else model.INDEL
        out = rng.randbytes(length + 2)
        after = model.written(out, 1, replacement)
        yield normal_form_case(*allele, out, 1, (0, 0, kind, start, end, length, *UNMOVED), after)
        yield normal_form_case(*allele, out, 3, (6, length, 0, 0, 0, 0, *UNMOVED), out)


def nothing_beside_zeros(reference):
    """The same reference, and nothing in the place of none of it, of all of it, and of one byte: the rest is
    then rolled over, and is not of residues."""
    n = len(reference)
    for start in (0, n // 2, n):
        unchanged = 0, 0, model.UNCHANGED, start, start, 0, *UNMOVED
        yield normal_form_case(reference, start, start, b"", b"", 0, unchanged, b"")
    yield normal_form_case(reference, 0, n, b"", b"", 0, (0, 0, model.INDEL, 0, n, 0, *UNMOVED), b"")
    for start in (0, n // 2, n - 1):
        yield normal_form_case(reference, start, start + 1, b"", b"", 0, (5, 0, 0, 0, 0, 0, *UNMOVED), b"")


def extreme_numbers(rng):
    for _ in range(20_000):
        reference, start, end, replacement = alleles.any_allele(rng)
        start, end, place = some_extreme(rng, start, end, 0)
        yield normal_form(reference, start, end, replacement, rng.randbytes(100), place)


def normal_form_cases(rng):
    small = alleles.every_small(7), alleles.every_small(5, b"A*-", 2), alleles.every_small(1, model.RESIDUES, 1)
    for allele in chain(*small, every_foreign(5), every_interval()):
        yield normal_form(*allele, rng.randbytes(13), 3)
    for allele in chain(alleles.long_rolls(), alleles.long_moves(), foreign_units()):
        yield placed(rng, *allele)
    for _ in range(20_000):
        yield placed(rng, *alleles.any_allele(rng))
    for _ in range(30_000):
        yield placed(rng, *marred(rng, *alleles.any_allele(rng)))
    yield from extreme_numbers(rng)
    yield from every_room(rng)
    yield from at_the_limits(rng)
