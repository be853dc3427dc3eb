"""The register, said a second time: an image is read into numbers and lists, changed as these, and laid out again.

A call answers its refusal and value, then what else it answers, and the image afterwards; the two that only read
one, check and read_record, answer no image.
"""
from functools import lru_cache
from struct import iter_unpack, pack, unpack_from
from typing import NamedTuple

import model

EDITION = 1
HEADER_SIZE, RECORD_SIZE, ENTRY_SIZE = 76, 20, 4
COUNT_LIMIT = 10_000
POOL_LIMIT = 10_000_000
INACTIVE, ACTIVE = range(2)
STATUS = "inactive", "active"

# How an allele was found is its number in the C library; FOUND has its name.
NEW, AGAIN, KNOWN = 1, 2, 3
FOUND = {NEW: "new", AGAIN: "again", KNOWN: "known"}


class Record(NamedTuple):
    start: int
    end: int
    replacement: bytes
    status: int


class Register(NamedTuple):
    """What an image says. A replacement's offset in the pool is the length of those before it."""

    records: int  # the three capacities
    journal: int
    pool: int
    residues: int  # the reference's length
    digest: bytes
    issued: tuple = ()  # of records; the first has number 1
    journalled: tuple = ()  # of numbers, the last change last

    def journal_at(self):
        return HEADER_SIZE + RECORD_SIZE * self.records

    def pool_at(self):
        return self.journal_at() + ENTRY_SIZE * self.journal

    def size(self):
        return self.pool_at() + self.pool

    def used(self):
        return sum(len(record.replacement) for record in self.issued)

    def with_status(self, number, status):
        issued = list(self.issued)
        issued[number - 1] = issued[number - 1]._replace(status=status)
        return self._replace(issued=tuple(issued))

    def with_change(self, number):
        return self._replace(journalled=(*self.journalled, number))


def header(register):
    return pack("<11I", EDITION, register.records, len(register.issued), HEADER_SIZE,
                register.journal, len(register.journalled), register.journal_at(),
                register.pool, register.used(), register.pool_at(), register.residues) + register.digest


def laid(register, image):
    """The image with all of the register laid out in it; slots and room that nothing takes stay as they were."""
    records, pool = [], []
    offset = 0
    for start, end, replacement, status in register.issued:
        records.append(pack("<5I", start, end, offset, len(replacement), status))
        pool.append(replacement)
        offset += len(replacement)
    journal = [pack("<I", number) for number in register.journalled]
    image = bytearray(image)
    for place, part in ((0, header(register)), (HEADER_SIZE, b"".join(records)),
                        (register.journal_at(), b"".join(journal)), (register.pool_at(), b"".join(pool))):
        image[place:place + len(part)] = part
    return bytes(image)


@lru_cache(1)  # often asked several times in a row
def read(image):
    """The register in an image, or None where the image is not well formed."""
    if len(image) < HEADER_SIZE:
        return None
    (edition, records, issued, records_at, journal, journalled, journal_at,
     pool, used, pool_at, residues) = unpack_from("<11I", image)
    register = Register(records, journal, pool, residues, bytes(image[44:HEADER_SIZE]))
    if (edition, records_at, journal_at, pool_at) != (EDITION, HEADER_SIZE, register.journal_at(), register.pool_at()):
        return None
    if issued > records or journalled > journal or used > pool:
        return None
    if records > COUNT_LIMIT or journal > COUNT_LIMIT or pool > POOL_LIMIT or residues > model.REFERENCE_LIMIT:
        return None
    if model.digest_text(register.digest) != model.ACCEPTED or len(image) < register.size():
        return None
    slots = iter_unpack("<5I", image[HEADER_SIZE:HEADER_SIZE + RECORD_SIZE * issued])
    entries = iter_unpack("<I", image[journal_at:journal_at + ENTRY_SIZE * journalled])
    return with_lists(register, list(slots), [number for number, in entries], image[pool_at:pool_at + used])


def with_lists(register, slots, entries, pool):
    """The register with these records, journal and used pool, or None where one of them is not as it has to be."""
    taken, issued = 0, []
    for start, end, offset, length, status in slots:
        if not start <= end <= register.residues or status not in (INACTIVE, ACTIVE) or offset != taken:
            return None
        issued.append(Record(start, end, pool[offset:offset + length], status))
        taken += length
    if taken != len(pool) or model.first_outside(model.RESIDUES, pool) is not None:
        return None
    if not all(1 <= number <= len(slots) for number in entries):
        return None
    return register._replace(issued=tuple(issued), journalled=tuple(entries))


def blank(image, residues, digest, records, journal, pool):
    """Refusal, value, and the image afterwards."""
    if residues > model.REFERENCE_LIMIT:
        return 1, 0, image
    refusal, value = model.digest_text(digest)
    if refusal != 0:
        return refusal, value, image
    if records > COUNT_LIMIT or journal > COUNT_LIMIT or pool > POOL_LIMIT:
        return 9, 0, image
    register = Register(records, journal, pool, residues, digest)
    if len(image) < register.size():
        return 9, register.size(), image
    return *model.ACCEPTED, laid(register, image)


def entry(image, digest, reference, start, end, replacement):
    """Refusal, value, how the allele was found, its number, how far its interval moved, and the image afterwards."""
    register = read(image)
    if register is None:
        return 10, 0, 0, 0, *model.UNMOVED, image
    if digest != register.digest:
        return 11, 0, 0, 0, *model.UNMOVED, image
    if len(reference) != register.residues:
        return 11, 1, 0, 0, *model.UNMOVED, image
    refusal, value, form = model.formed(reference, start, end, replacement)
    if refusal != 0:
        return refusal, value, 0, 0, *model.UNMOVED, image
    return entry_of(image, start, end, form)


def entry_of(image, start, end, form):
    """The same for a normal form that was given on this interval, and a well-formed image that is of its reference."""
    refusal, value, found, number, after = numbered(image, form)
    moved = model.moved(start, end, form) if refusal == 0 else model.UNMOVED
    return refusal, value, found, number, *moved, after


def numbered(image, form):
    """The entry but for how far it moved, which no record says."""
    if form.kind == model.UNCHANGED:
        return 12, 0, 0, 0, image
    register = read(image)
    allele = form.start, form.end, form.replacement
    equal = [number for number, record in enumerate(register.issued, 1) if record[:3] == allele]
    active = [number for number in equal if register.issued[number - 1].status == ACTIVE]
    if active:
        return 0, 0, KNOWN, active[0], image
    no_journal_room = len(register.journalled) == register.journal
    if equal:
        if no_journal_room:
            return 15, register.journal, 0, 0, image
        changed = register.with_status(equal[0], ACTIVE).with_change(equal[0])
        return 0, 0, AGAIN, equal[0], laid(changed, image)
    if len(register.issued) == register.records:
        return 13, register.records, 0, 0, image
    if register.used() + len(form.replacement) > register.pool:
        return 14, register.pool, 0, 0, image
    if no_journal_room:
        return 15, register.journal, 0, 0, image
    number = len(register.issued) + 1
    changed = register._replace(issued=(*register.issued, Record(*allele, ACTIVE))).with_change(number)
    return 0, 0, NEW, number, laid(changed, image)


def withdraw(image, number):
    """Refusal, value, and the image afterwards."""
    register = read(image)
    if register is None:
        return 10, 0, image
    if not 1 <= number <= len(register.issued):
        return 16, len(register.issued), image
    if register.issued[number - 1].status != ACTIVE:
        return 17, number, image
    if len(register.journalled) == register.journal:
        return 15, register.journal, image
    return *model.ACCEPTED, laid(register.with_status(number, INACTIVE).with_change(number), image)


def undo(image):
    """Refusal, value, the number, and the image afterwards."""
    register = read(image)
    if register is None:
        return 10, 0, 0, image
    if not register.journalled:
        return 18, 0, 0, image
    *before, number = register.journalled
    flipped = register.with_status(number, 1 - register.issued[number - 1].status)
    return *model.ACCEPTED, number, laid(flipped._replace(journalled=tuple(before)), image)


def seal(image):
    """Refusal, value, and the image afterwards."""
    register = read(image)
    if register is None:
        return 10, 0, image
    return *model.ACCEPTED, laid(register._replace(journalled=()), image)


def check(image):
    """Refusal and value."""
    return (10, 0) if read(image) is None else model.ACCEPTED


def read_record(image, number):
    """Refusal, value, start, end, status, where in the image the replacement begins, and its length."""
    register = read(image)
    if register is None:
        return 10, 0, 0, 0, 0, 0, 0
    if not 1 <= number <= len(register.issued):
        return 16, len(register.issued), 0, 0, 0, 0, 0
    *before, (start, end, replacement, status) = register.issued[:number]
    offset = register.pool_at() + sum(len(record.replacement) for record in before)
    return *model.ACCEPTED, start, end, status, offset, len(replacement)
