"""Calls that write the text or the identifier of a location or of an allele."""
from itertools import chain, product
from typing import Callable, NamedTuple

import alleles
import model
import published
import texts
from arguments import (FAR_POSITIONS, any_residues, every_foreign, every_interval, far, foreign_units, marred,
                       room_and_place, some_extreme, with_byte)
from exchange import Case, Untouched
from shapes import shape

BASE64URL = sorted(model.BASE64URL)
REPEAT = b"TCAGCAGCAGT"
LIMIT = model.REFERENCE_LIMIT
# Every power of ten up to the limit, and the numbers beside it: decimals of every length.
POWERS = tuple(sorted({n for k in range(10) for n in (10**k - 1, 10**k, 10**k + 1, 9 * 10**k) if n <= LIMIT}))


class Call(NamedTuple):
    name: str
    code: bytes
    says: Callable  # the model's answer
    writes: Callable  # what is written where this text is made
    unmoved: tuple = ()  # what is answered behind the length where the interval has not moved

    def expecting(self, arguments, answer, after):
        numbers = tuple(x for x in arguments if isinstance(x, int))
        slices = tuple(x for x in arguments if not isinstance(x, int))
        accepted = shape(answer) if self.unmoved else "accepted"
        return Case(self.name, self.code, numbers, slices, tuple(answer), (after,), accepted)

    def case(self, *arguments):
        *answer, after = self.says(*arguments)
        return self.expecting(arguments, answer, after)

    def needed(self, *given):
        """The bytes to be written, or an identifier's where the call is refused anyhow."""
        refusal, value, *_ = self.says(*given, b"", 0)
        return value if refusal == 6 else 42

    def placed(self, rng, *given):
        """The call in a buffer that has room for the answer or narrowly has not."""
        room, place = room_and_place(rng, self.needed(*given))
        return self.case(*given, rng.randbytes(room), place)


def itself(text):
    return text


LOCATION_TEXT = Call("fv_location_text", b"L", texts.location_text, itself)
LOCATION_IDENTIFIER = Call("fv_location_identifier", b"l", texts.location_identifier, texts.location_named)
ALLELE_TEXT = Call("fv_allele_text", b"A", texts.allele_text, itself)
ALLELE_IDENTIFIER = Call("fv_allele_identifier", b"a", texts.allele_identifier, texts.allele_named, model.UNMOVED)


def some_digest(rng):
    return bytes(rng.choices(BASE64URL, k=32))


def spoiled_digest(rng):
    """A digest with one foreign byte or two, or of another length."""
    digest = some_digest(rng)
    for _ in range(rng.choice((1, 1, 2))):
        digest = with_byte(digest, rng.randrange(32), rng.choice(b"+/=.:@[^`{\x00\x7f\xff"))
    return rng.choice((digest, digest, digest[:-1], digest + b"A", some_digest(rng)[:-1], b""))


def digests(rng):
    """Every length to 40, every byte, and lengths that come back to 32 where a call cuts them to 32 bits."""
    digest = some_digest(rng) + some_digest(rng)
    for length in range(41):
        yield digest[:length]
        yield with_byte(digest, 0, 0x2B)[:length]
    for byte in range(256):
        for offset in (0, 1, 7, 8, 15, 16, 30, 31):
            yield with_byte(digest[:32], offset, byte)
    for first, second in product((0, 8, 30, 31), repeat=2):
        yield with_byte(with_byte(digest[:32], first, 0x2F), second, 0x3D)
    yield b"ga4gh:SQ." + digest[:32]
    yield Untouched(32)
    yield Untouched(2**32 + 32)


def every_room(rng, call, *given):
    """Buffers without and with room, and each place at which the answer turns, is near, or is far."""
    needed = call.needed(*given)
    for room in (0, 1, needed - 1, needed, needed + 1, needed + 7):
        for place in {*range(9), max(room - needed, 0), room - 1, room, room + 1, *far(needed)} - {-1}:
            yield call.case(*given, rng.randbytes(room), place)


def location_orders(rng, call):
    """What may speak against a location, each with each."""
    positions = ((1, 10), (10, 1), (1, 12), (13, 12), (LIMIT, LIMIT + 1))
    given = (some_digest(rng), some_digest(rng)[:-1], with_byte(some_digest(rng), 31, 0x2B))
    for length, (start, end), digest in product((11, LIMIT, LIMIT + 1), positions, given):
        needed = call.needed(length, start, end, digest)
        for room in (needed, needed - 1, 0):
            yield call.case(length, start, end, digest, rng.randbytes(room), 0)


def location_cases(call, rng):
    for start, end in product(POWERS, repeat=2):
        for length in (end, LIMIT):
            yield call.placed(rng, length, start, end, some_digest(rng))
    for length, start, end in product((0, 1, 11, LIMIT, LIMIT + 1, *FAR_POSITIONS), repeat=3):
        yield call.placed(rng, length, start, end, some_digest(rng))
    for digest in digests(rng):
        yield call.placed(rng, 11, 1, 10, digest)
    for location in published.LOCATIONS:
        for length in (location.end, location.end + 1, LIMIT):
            yield call.placed(rng, length, location.start, location.end, location.sequence)
    for positions in ((0, 0), (1, 10), (LIMIT, LIMIT)):
        yield from every_room(rng, call, LIMIT, *positions, some_digest(rng))
    yield from location_orders(rng, call)
    for _ in range(12_000):
        length, start, end, place = some_extreme(rng, LIMIT, 1, 10, 0)
        yield call.case(length, start, end, some_digest(rng), rng.randbytes(150), place)
    for _ in range(12_000):
        length, start, end = (rng.randint(0, 10**rng.randint(0, 10)) for _ in range(3))
        start, end = rng.choice(((start, end), (min(start, end), max(start, end))))
        digest = rng.choice((some_digest, some_digest, spoiled_digest))(rng)
        yield call.placed(rng, rng.choice((length, LIMIT)), start, end, digest)


def allele_orders(rng, call):
    """What may speak against an allele, each with each."""
    references = (REPEAT, b"TxxT", Untouched(LIMIT + 1))
    replacements = (b"", b"A", b"Aa", Untouched(model.REPLACEMENT_LIMIT + 1))
    given = (some_digest(rng), some_digest(rng)[:-1], with_byte(some_digest(rng), 31, 0x2B))
    for reference, replacement, digest in product(references, replacements, given):
        n = len(reference)
        for start, end in ((1, 2), (2, 1), (1, n + 1), (n + 2, n + 1)):
            needed = call.needed(reference, start, end, replacement, digest)
            for room in (needed, needed - 1, 0):
                yield call.case(reference, start, end, replacement, digest, rng.randbytes(room), 0)


def as_given(rng, call, reference, start, end, replacement):
    """An allele that is its own normal form, on a reference too long to be compared here."""
    digest = some_digest(rng)
    text = texts.allele(model.digest(texts.location(start, end, digest)), replacement)
    yield from standing(rng, call, (reference, start, end, replacement, digest), text)


def standing(rng, call, given, text):
    """The call with these arguments, which makes this text of the interval given: with room for it, and without."""
    made = call.writes(text)
    out = rng.randbytes(len(made) + 2)
    yield call.expecting((*given, out, 1), (0, 0, len(made), *call.unmoved), model.written(out, 1, made))
    yield call.expecting((*given, out, 3), (6, len(made), 0, *call.unmoved), out)


def published_alleles(rng, call):
    """No sequence is at hand, but its digest is given, and only what is around the spot comes into a normal
    form. Where that is all of one byte other than the replacement's, the allele stays as it is given; and where
    it is all of the replacement's, the allele is unchanged and stays so too."""
    for allele in published.ALLELES:
        sequence, start, end, _ = allele.location
        for n in (end, end + 1000):
            yield from standing(rng, call, (Untouched(n), start, end, allele.replacement, sequence), allele.text())
    unchanged, *_ = published.ALLELES
    sequence, start, end, _ = unchanged.location
    given = unchanged.replacement * end, start, end, unchanged.replacement, sequence
    yield from standing(rng, call, given, unchanged.text())


def long_alleles(rng, call):
    """Long replacements, long rolls, and the longest reference."""
    most = any_residues(rng, model.REPLACEMENT_LIMIT)
    for reference, replacement in ((b"", most), (b"", most + b"A"), (b"ACGT", with_byte(most, len(most) - 1, 0x5B))):
        yield call.placed(rng, reference, 0, len(reference), replacement, some_digest(rng))
    for run in (99_999, 100_000):
        yield call.placed(rng, b"A" * run, run // 3, run // 3, b"A", some_digest(rng))
        yield call.placed(rng, b"A" * run + b"x", run // 3, run // 3 + 1, b"", some_digest(rng))
    longest, n = Untouched(LIMIT), LIMIT
    for start, end in ((0, 0), (0, 1), (5, 7), (n - 1, n), (n, n), (0, n)):
        for replacement in (b"A", b"CAG", b"*-"):
            yield from as_given(rng, call, longest, start, end, replacement)
    for start, end in ((0, 0), (n, n), (0, n)):
        yield from as_given(rng, call, longest, start, end, b"")


def allele_cases(call, rng):
    every = alleles.every_small(6), alleles.every_small(4, b"A*-", 2), every_foreign(4), every_interval()
    for allele in chain(*every, alleles.long_rolls(), alleles.long_moves(), foreign_units()):
        yield call.placed(rng, *allele, some_digest(rng))
    for _ in range(8000):
        reference, start, end, replacement = alleles.any_allele(rng)
        start, end, place = some_extreme(rng, start, end, 0)
        yield call.case(reference, start, end, replacement, some_digest(rng), rng.randbytes(200), place)
    for _ in range(10_000):
        yield call.placed(rng, *alleles.any_allele(rng), some_digest(rng))
    for _ in range(16_000):
        digest = rng.choice((some_digest, some_digest, spoiled_digest))(rng)
        yield call.placed(rng, *marred(rng, *alleles.any_allele(rng)), digest)
    for digest in digests(rng):
        yield call.placed(rng, REPEAT, 4, 4, b"CAG", digest)
    for allele in ((REPEAT, 0, 11, b""), (REPEAT, 4, 4, b"CAG"), (REPEAT, 1, 4, b"CAG")):
        yield from every_room(rng, call, *allele, some_digest(rng))
    yield from allele_orders(rng, call)
    yield from published_alleles(rng, call)
    yield from long_alleles(rng, call)


def location_text_cases(rng):
    return location_cases(LOCATION_TEXT, rng)


def location_identifier_cases(rng):
    return location_cases(LOCATION_IDENTIFIER, rng)


def allele_text_cases(rng):
    return allele_cases(ALLELE_TEXT, rng)


def allele_identifier_cases(rng):
    return allele_cases(ALLELE_IDENTIFIER, rng)
