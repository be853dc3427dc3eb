"""Calls on registers as large as they get, in each direction."""
from itertools import product

import model
from arguments import with_byte
from exchange import Untouched
from images import POOL_CAPACITY_AT, image_of, record_at, with_number
from readings import every_reading
from register import ACTIVE, COUNT_LIMIT, POOL_LIMIT, Record, Register
from register_calls import after, check, entry, entry_as, read_record, seal, undo, withdraw

DIGEST = model.digest(b"")


def limits_of_the_header(rng):
    """Each capacity and the reference's length at its limit and one over it, all else as it has to be."""
    none = Register(0, 0, 0, 0, DIGEST)
    for over in (0, 1):
        for register in (none._replace(records=COUNT_LIMIT + over), none._replace(journal=COUNT_LIMIT + over),
                         none._replace(pool=POOL_LIMIT + over), none._replace(residues=model.REFERENCE_LIMIT + over)):
            image = image_of(rng, register)
            yield seal(image)
            yield entry(image, DIGEST, b"", 0, 0, b"")
            yield check(image)
            yield read_record(image, 0)


def longest_reference(rng):
    """A reference of zero bytes, too long to be compared here: residues are unlike all that is around them, so
    they stay as they are given. Records differ from the allele in one byte of a position."""
    n = model.REFERENCE_LIMIT
    reference = Untouched(n)
    intervals = [(5, 5), (5, 7), (0, n), (n, n), (n - 1, n)]
    for power in (8, 16, 24):
        intervals += [(5 + 2**power, 7 + 2**power), (5, 7 + 2**power)]
    issued = tuple(Record(start, end, b"CAG", number % 2) for number, (start, end) in enumerate(intervals))
    images = [image_of(rng, Register(20, 9, 60, n, DIGEST, some)) for some in (issued, issued[::-1], issued[:3], ())]
    for image in images:
        yield check(image)
        for number in range(len(issued) + 2):
            yield read_record(image, number)
    yield entry(images[0], DIGEST, Untouched(n + 1), 5, 5, b"CAG")
    yield entry(images[0], DIGEST, Untouched(n - 1), 5, 5, b"CAG")
    for image, (start, end) in product(images, intervals):
        for replacement in (b"CAG", b"CAT"):
            form = model.Form(model.INDEL, start, end, replacement)
            yield entry_as(image, DIGEST, reference, start, end, replacement, form)


def coded(number, length):
    """A number as so many residues: A, a stop or a gap."""
    return bytes(b"A*-"[number // 3**place % 3] for place in range(length))


def many_records(rng):
    """As many records and journal entries as there may be, each an insertion into a run of T."""
    count, reference = COUNT_LIMIT, b"T" * 50
    issued = tuple(Record(number % 51, number % 51, coded(number, 9), number % 3 % 2) for number in range(1, count + 1))
    full = Register(count, count, 9 * count, len(reference), DIGEST, issued, tuple(rng.choices(range(1, count + 1), k=count - 1)))

    def enter(image, number):
        record = issued[number - 1]
        return entry(image, DIGEST, reference, record.start, record.end, record.replacement)

    image = image_of(rng, full, 3)
    known, again, last_again = 9_997, 9_998, 9_999
    for number in (1, 2, 3, 5_000, known, again, last_again, count):
        yield enter(image, number)
    yield entry(image, DIGEST, reference, 0, 0, b"A*-A")
    for number in (1, known, count, count + 1):
        yield withdraw(image, number)
    last = enter(image, again)
    yield enter(after(last), last_again)
    yield withdraw(after(last), known)
    yield undo(after(last))
    yield undo(image)
    yield seal(image)
    yield from every_reading(image)
    yield from every_reading(after(last))
    yield enter(image_of(rng, full._replace(issued=issued[:-1], journalled=())), count)
    yield enter(with_number(image, record_at(count) + 16, 2), 1)


def large_pool(rng):
    """As many residues as there may be: the pool filled exactly, or all but one."""
    longest = b"*CGTACG-" * (model.REPLACEMENT_LIMIT // 8)
    issued = tuple(Record(position, position, longest, ACTIVE) for position in range(10))
    register = Register(12, 2, POOL_LIMIT, 11, DIGEST, issued)
    reference = b"X" * 11
    image = image_of(rng, register)
    yield entry(image, DIGEST, reference, 9, 9, longest)
    yield entry(image, DIGEST, reference, 0, 11, b"")
    yield entry(image, DIGEST, reference, 11, 11, b"A")
    for number in (1, 2, 10, 11):
        yield read_record(image, number)
    for damaged in (with_byte(image, len(image) - 1, 0x2B), image[:-1]):
        yield seal(damaged)
        yield check(damaged)
        yield read_record(damaged, 1)
    short = issued[:-1] + (issued[-1]._replace(replacement=longest[1:]),)
    yield entry(image_of(rng, register._replace(issued=short)), DIGEST, reference, 11, 11, b"A")
    room = image_of(rng, register._replace(issued=issued[:-1]))
    for replacement in (longest, longest + b"A", with_byte(longest, len(longest) - 1, 0x5B)):
        yield entry(room, DIGEST, reference, 11, 11, replacement)


def long_replacement(rng):
    """A stop into a run of so many that the normal replacement has more residues than one that is given may have."""
    run = b"*" * (model.REPLACEMENT_LIMIT + 1)
    image = image_of(rng, Register(1, 3, len(run) + 1, len(run), DIGEST))
    for room in (image, with_number(image, POOL_CAPACITY_AT, len(run))):
        yield entry(room, DIGEST, run, 5, 5, b"*")
    new = entry(image, DIGEST, run, 5, 5, b"*")
    yield entry(after(new), DIGEST, run, 9, 10, b"**")
    yield withdraw(after(new), 1)
    yield undo(after(new))
    yield from every_reading(after(new))


def large_cases(rng):
    for cases in (limits_of_the_header, longest_reference, many_records, large_pool, long_replacement):
        yield from cases(rng)
