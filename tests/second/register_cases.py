"""Calls on register images that are full, from elsewhere or as large as they get.

The images here are small, and most are of document 01's reference.
"""
from itertools import chain, product

import alleles
import model
from arguments import FAR_POSITIONS, every_foreign, every_interval, extreme, some_extreme, with_byte
from exchange import Untouched
from images import image_of
from large_cases import large_cases
from readings import read_back
from register import ACTIVE, INACTIVE, Record, Register
from register_calls import after, check, entry, read_record, seal, undo, withdraw
from text_cases import some_digest

REPEAT = b"TCAGCAGCAGT"
DIGEST = model.digest(REPEAT)
# Of document 01's cases: 1 and what is as 1; 4 and what is as 4; a deletion with nothing left; unchanged ones.
INSERTION, SAME_INSERTION = (4, 4, b"CAG"), (1, 2, b"CAGC")
SUBSTITUTION, SAME_SUBSTITUTION = (2, 3, b"T"), (1, 5, b"CTGC")
DELETION = (0, 11, b"")
UNCHANGED = (1, 4, b"CAG")


def recorded(allele, status=ACTIVE):
    """An allele's normal form as a record."""
    return Record(*model.form(REPEAT, *allele)[1:], status)


def on_repeat(image, allele):
    return entry(image, DIGEST, REPEAT, *allele)


def enter_insertion(image):
    return on_repeat(image, INSERTION)


def withdraw_first(image):
    return withdraw(image, 1)


def read_first(image):
    return read_record(image, 1)


CALLS = enter_insertion, withdraw_first, undo, seal, check, read_first


def every_call(image):
    return (call(image) for call in CALLS)


def some_registers():
    """One with something everywhere, a full one, a blank one, and one without any room."""
    issued = recorded(INSERTION), recorded(SUBSTITUTION, INACTIVE), recorded(DELETION)
    full = Register(3, 4, 13, len(REPEAT), DIGEST, issued, (1, 2, 2, 3))
    yield full._replace(records=5, journal=6, pool=20)
    yield full
    yield Register(2, 3, 15, len(REPEAT), DIGEST)
    yield Register(0, 0, 0, len(REPEAT), DIGEST)


def held_more_than_once(rng):
    """An allele in three records or two, with every status, among others; each record withdrawn, each undone."""
    other = recorded(SUBSTITUTION)
    for first, second, third in product((INACTIVE, ACTIVE, None), repeat=3):
        statuses = [status for status in (first, second, third) if status is not None]
        issued = [other]
        for status in statuses:
            issued += [recorded(INSERTION, status), other._replace(start=1, status=status)]
        for journalled in ((), (2,), (2, len(issued)), (1, 1, 1)):
            journalled = tuple(number for number in journalled if number <= len(issued))
            register = Register(len(issued) + 1, 4, 80, len(REPEAT), DIGEST, tuple(issued), journalled)
            image = image_of(rng, register, 3)
            for allele in (INSERTION, SAME_INSERTION, SUBSTITUTION, DELETION):
                yield on_repeat(image, allele)
            for number in range(len(issued) + 2):
                yield withdraw(image, number)
            yield undo(image)


def every_way(rng):
    """One molecule in every way that it can be given, with no record of it, an inactive one and an active one."""
    for allele in (INSERTION, SUBSTITUTION, DELETION, (1, 4, b"")):
        made = model.altered(REPEAT, *allele)
        for issued in ((), (recorded(allele, INACTIVE),), (recorded(allele),)):
            image = image_of(rng, Register(2, 2, 30, len(REPEAT), DIGEST, issued))
            for way in alleles.every_way(REPEAT, made):
                yield on_repeat(image, way)


def moved_far(rng):
    for reference, *allele in alleles.long_moves():
        image = image_of(rng, Register(1, 1, 200_000, len(reference), DIGEST))
        yield entry(image, DIGEST, reference, *allele)


def beside_the_form(rng):
    """Records that differ from an allele in one thing only, before the equal one or without it."""
    equal = recorded(INSERTION)
    text = equal.replacement
    others = [equal._replace(start=0), equal._replace(start=2), equal._replace(end=9), equal._replace(end=11),
              equal._replace(replacement=text[:-1]), equal._replace(replacement=text + b"A"), equal._replace(replacement=b"")]
    others += [equal._replace(replacement=with_byte(text, *other)) for other in product(range(len(text)), b"T*")]
    for issued in (others, [*others, equal], [*others, equal._replace(status=INACTIVE)], [equal, *others]):
        for statuses in (lambda record: record, lambda record: record._replace(status=1 - record.status)):
            given = tuple(map(statuses, issued))
            yield from every_call(image_of(rng, Register(40, 9, 400, len(REPEAT), DIGEST, given, (1,))))


def not_in_normal_form(rng):
    """Records that have an allele as it might be given; entered are its normal form, and unchanged alleles."""
    given = INSERTION, SAME_INSERTION, SAME_SUBSTITUTION, UNCHANGED, (1, 4, b""), (2, 2, b"")
    for status in (ACTIVE, INACTIVE):
        issued = tuple(Record(*allele, status) for allele in given)
        image = image_of(rng, Register(9, 3, 60, len(REPEAT), DIGEST, issued))
        for allele in given:
            yield on_repeat(image, allele)


def any_room(rng):
    """Every choice of what is full, or has no capacity at all, with what each call might want of it."""
    issued = recorded(INSERTION), recorded(SUBSTITUTION, INACTIVE)
    for records, journal, residues in product((0, 1), (0, 1), (0, 1, 2, 3)):
        for journalled in ((), (2,), (1, 2)):
            register = Register(2 + records, len(journalled) + journal, 13 + residues, len(REPEAT), DIGEST, issued,
                                journalled)
            yield from room_wanted(image_of(rng, register, 2))
    for records, journal, pool in product((0, 1), (0, 1), (0, 1, 2, 3)):
        yield from room_wanted(image_of(rng, Register(records, journal, pool, len(REPEAT), DIGEST), 2))


def room_wanted(image):
    """Alleles that are known, again or new, of no residues to four, after one another too."""
    new = DELETION, (3, 5, b""), (11, 11, b"*"), (11, 11, b"-*"), (11, 11, b"A-*"), (11, 11, b"*A--")
    for allele in (INSERTION, SUBSTITUTION, *new):
        case = on_repeat(image, allele)
        yield case
        yield on_repeat(after(case), allele)
        yield undo(after(case))
    for number in range(4):
        yield withdraw(image, number)
    yield undo(image)
    yield seal(image)


def orders(rng):
    """What may speak against an entry, each with each."""
    sound = image_of(rng, Register(1, 1, 12, len(REPEAT), DIGEST, (recorded(DELETION),), (1,)))
    given = DIGEST, some_digest(rng), DIGEST[:-1], DIGEST + b"A", with_byte(DIGEST, 31, 0x2B), b""
    references = REPEAT, REPEAT + b"A", REPEAT[:-1], b"TCxGCxGCxGT", Untouched(model.REFERENCE_LIMIT + 1)
    replacements = b"", b"CAG", b"Aa", Untouched(model.REPLACEMENT_LIMIT + 1)
    positions = (1, 4), (4, 4), (4, 1), (4, 12), (13, 12), (2**64 - 1, 2**64 - 1), (2**32 + 1, 2**32 + 4)
    for image, digest in product((sound, with_byte(sound, 0, 2), sound[:-1]), given):
        for reference, replacement, (start, end) in product(references, replacements, positions):
            yield entry(image, digest, reference, start, end, replacement)


def numbers_given(rng):
    """Numbers that are issued, beside them and far, withdrawn and read."""
    for register in some_registers():
        image = image_of(rng, register)
        extremes = (extreme(rng) for _ in range(500))
        for number in (*range(6), *FAR_POSITIONS, 2**32 + 2, 2**32 + 3, 2**64 - 2**32 + 1, *extremes):
            yield withdraw(image, number)
            yield read_record(image, number)


def entered_positions(rng):
    """Alleles beside foreign bytes, or with positions out of order or past the end, into an image without records."""
    for reference, start, end, replacement in chain(every_foreign(3), every_interval()):
        image = image_of(rng, Register(1, 1, 9, len(reference), DIGEST))
        yield entry(image, DIGEST, reference, start, end, replacement)
    image = image_of(rng, Register(1, 1, 20, len(REPEAT), DIGEST))
    for _ in range(5000):
        yield on_repeat(image, (*some_extreme(rng, 4, 5), rng.choice((b"", b"CAG", b"T"))))


def register_cases(rng):
    for cases in (held_more_than_once, every_way, moved_far, beside_the_form, not_in_normal_form, any_room, orders,
                  numbers_given, entered_positions):
        yield from read_back(rng, cases(rng))
    yield from large_cases(rng)
