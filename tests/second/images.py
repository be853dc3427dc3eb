"""Register images to try: well formed, of any content, and damaged in all ways.

Slots that are not issued, room that is not used and bytes behind an image are random.
"""
from struct import pack, unpack_from

import alleles
import model
from arguments import residue_lost, with_byte
from register import ACTIVE, ENTRY_SIZE, HEADER_SIZE, INACTIVE, RECORD_SIZE, Record, Register, laid

# The header's numbers are at 0, 4 and so on to 40.
NUMBERS_AT = range(0, 44, 4)
RECORDS_CAPACITY_AT, JOURNAL_CAPACITY_AT, POOL_CAPACITY_AT = 4, 16, 28
ISSUED_AT, JOURNALLED_AT, USED_AT = 8, 20, 32
# Within and over the limits, and values whose sums come back to something small at 32 bits.
VALUES = (0, 1, 2, 75, 76, 77, 9_999, 10_000, 10_001, 9_999_999, 10_000_000, 10_000_001, 999_999_999, 1_000_000_000,
          1_000_000_001, 2**30, 2**31 - 1, 2**31, 2**32 // 20 + 1, 2**32 - 76, 2**32 - 20, 2**32 - 4, 2**32 - 1)


def image_of(rng, register, behind=0):
    return laid(register, rng.randbytes(register.size() + behind))


def number_at(image, place):
    number, = unpack_from("<I", image, place)
    return number


def with_number(image, place, number):
    return model.written(image, place, pack("<I", number))


def record_at(number):
    return HEADER_SIZE + RECORD_SIZE * (number - 1)


def few_residues(rng, length):
    """Mostly of few kinds, so that they repeat, and repeat what others have drawn."""
    return alleles.residues(rng, length, rng.choice((b"AC", b"CAG", b"A*", b"*-", model.RESIDUES)))


def small_reference(rng):
    """Few residues, mostly in a repeat, and now and then foreign bytes in the place of one of them."""
    unit = few_residues(rng, rng.randint(1, 3))
    reference = few_residues(rng, rng.randint(0, 2)) + unit * rng.randint(0, 4) + few_residues(rng, rng.randint(0, 2))
    return residue_lost(rng, reference) if reference and rng.random() < 0.2 else reference


def small_allele(rng, reference):
    start, end = sorted((rng.randint(0, len(reference)), rng.randint(0, len(reference))))
    end = min(end, start + rng.choice((0, 1, 3, end)))
    return start, end, few_residues(rng, rng.choice((0, 1, 1, 2, 3)))


def some_record(rng, reference):
    """The normal form of some allele, or an allele as it was given."""
    start, end, replacement = small_allele(rng, reference)
    refusal, _, form = model.formed(reference, start, end, replacement)
    if refusal == 0 and rng.random() < 0.7:
        _, start, end, replacement = form
    return Record(start, end, replacement, rng.choice((INACTIVE, ACTIVE, ACTIVE)))


def from_elsewhere(rng, reference, digest):
    """A register that no history need have made: alleles held twice or not in their normal form, a journal
    with any numbers in it."""
    issued = []
    for _ in range(rng.randint(0, 8)):
        held_twice = issued and rng.random() < 0.3
        issued.append(rng.choice(issued)._replace(status=rng.randint(0, 1)) if held_twice else some_record(rng, reference))
    journalled = [rng.randint(1, len(issued)) for _ in range(rng.randint(0, 6))] if issued else []
    register = Register(len(issued) + rng.choice((0, 1, 3, 12)), len(journalled) + rng.choice((0, 1, 3, 12)), 0,
                        len(reference), digest, tuple(issued), tuple(journalled))
    return register._replace(pool=register.used() + rng.choice((0, 1, 2, 12, 90)))


def bytes_damaged(image, places):
    """Another byte at each of these places, several values each."""
    for place in places:
        byte = image[place]
        others = {byte ^ 1, byte ^ 0x80, (byte + 1) % 256, (byte - 1) % 256, 0, 1, 2, 0xFF, *b")*+,-./:@[`{_AZaz"}
        for other in sorted(others - {byte}):
            yield with_byte(image, place, other)


def numbers_damaged(image, places):
    """Another number at each of these places."""
    for place in places:
        number = number_at(image, place)
        for other in sorted({*VALUES, number + 1, max(number - 1, 0), number ^ 2**16, number ^ 2**24} - {number}):
            yield with_number(image, place, other)


def nudged(rng, register):
    """The register's image with a number or two a little off, and its offsets perhaps as its capacities then ask."""
    image = image_of(rng, register, rng.randint(0, 5))
    for _ in range(rng.choice((1, 1, 2))):
        place = rng.choice((*NUMBERS_AT, *NUMBERS_AT, *range(HEADER_SIZE, register.pool_at(), 4)))
        image = with_number(image, place, (number_at(image, place) + rng.choice((-20, -4, -1, 1, 4, 20))) % 2**32)
    return with_offsets(image) if rng.random() < 0.5 else image


def with_offsets(image):
    """The image with the offsets that its capacities ask for."""
    journal_at = (HEADER_SIZE + RECORD_SIZE * number_at(image, RECORDS_CAPACITY_AT)) % 2**32
    pool_at = (journal_at + ENTRY_SIZE * number_at(image, JOURNAL_CAPACITY_AT)) % 2**32
    return with_number(with_number(image, 24, journal_at), 36, pool_at)


def cut(image):
    """Every beginning of the image."""
    return (image[:length] for length in range(len(image) + 1))


def counts_over(rng, digest):
    """One count above its capacity by one, the bytes behind such that nothing else speaks against the image."""
    one = Record(1, 2, b"", ACTIVE)
    over = Register(1, RECORD_SIZE // ENTRY_SIZE, 9, 11, digest, (one,), (1,))
    slot = pack("<5I", 1, 2, 0, 0, ACTIVE)
    image = model.written(image_of(rng, over), over.journal_at(), pack("<I", 1))
    # the second record would stand in the journal
    yield with_number(model.written(with_number(image, JOURNALLED_AT, 0), over.journal_at(), slot), ISSUED_AT, 2)
    # the sixth entry would stand in the pool
    journal = pack("<6I", *[1] * 6)
    yield with_number(model.written(image, over.journal_at(), journal), JOURNALLED_AT, 6)
    # the tenth residue would stand behind the pool
    full = over._replace(pool=10, issued=(one._replace(replacement=b"ACGTACGTAC"),))
    yield with_number(image_of(rng, full, 8), POOL_CAPACITY_AT, 9)


def sums_past_32_bits(rng, digest):
    """Lengths that make up the pool used, and offsets that make up the lengths before, where sums are cut to 32 bits."""
    three = Register(3, 2, 20, 11, digest, tuple(Record(i, i, b"ACG", ACTIVE) for i in range(3)), (1,))
    for first, second in ((2**32 - 1, 4), (2**32 - 6, 9), (2**31, 2**31), (3, 2**32 - 3), (2**32 - 3, 3)):
        image = image_of(rng, three)
        third = 9 - (first + second) % 2**32
        offset = 0
        for number, length in enumerate((first, second, third), 1):
            image = with_number(image, record_at(number) + 8, offset % 2**32)
            image = with_number(image, record_at(number) + 12, length)
            offset += length
        yield image
        # as if the lengths were right in all but their sum
        yield with_number(image, USED_AT, offset % 2**32)
        yield with_number(image, USED_AT, 3)
    # offsets of the header, the same
    for records in (2**32 // 20 + 1, 2**32 // 20 + 4, 2**31 // 5):
        image = image_of(rng, three._replace(issued=(), journalled=()))
        yield with_offsets(with_number(image, RECORDS_CAPACITY_AT, records))
