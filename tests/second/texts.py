"""The texts of locations and alleles and their identifiers, written and read, said a second time.

Each layout stands here once: texts are written by filling it, and accepted by its regular expression.
"""
import re
from functools import lru_cache

import model

LOCATION = b'{"interval":{"end":%s,"start":%s,"type":"SimpleInterval"},"sequence_id":"%s","type":"SequenceLocation"}'
ALLELE = b'{"location":"%s","state":{"sequence":"%s","type":"SequenceState"},"type":"Allele"}'
RESIDUES_LIMIT = 1_001_000_000

DECIMAL = rb"(0|[1-9][0-9]{0,9})"
DIGEST = rb"([A-Za-z0-9_-]{32})"
RESIDUES = rb"([%s]*)" % re.escape(model.RESIDUES)
LOCATIONS = re.compile(re.escape(LOCATION) % (DECIMAL, DECIMAL, DIGEST))
ALLELES = re.compile(re.escape(ALLELE) % (DIGEST, RESIDUES))


def location(start, end, digest):
    """The location text."""
    return LOCATION % (b"%d" % end, b"%d" % start, digest)


def allele(location_digest, replacement):
    """The allele text."""
    return ALLELE % (location_digest, replacement)


def location_named(text):
    """The identifier of the location with this text."""
    return b"ga4gh:VSL." + model.digest(text)


def allele_named(text):
    """The identifier of the allele with this text."""
    return b"ga4gh:VA." + model.digest(text)


def located(reference_length, start, end, digest):
    """Refusal, value, and the location text, empty where refused. There is no refusal 6 yet."""
    if reference_length > model.REFERENCE_LIMIT:
        return 1, 0, b""
    if start > end:
        return 2, 0, b""
    if end > reference_length:
        return 3, reference_length, b""
    refusal, value = model.digest_text(digest)
    if refusal != 0:
        return refusal, value, b""
    return *model.ACCEPTED, location(start, end, digest)


def serialized(reference, start, end, replacement, digest):
    """Refusal, value, and the text of the allele's normal form, empty where refused. There is no refusal 6 yet."""
    refusal, value = model.offered(reference, start, end, replacement)
    if refusal == 0:
        refusal, value = model.digest_text(digest)
    if refusal == 0:
        refusal, value, normal = model.formed(reference, start, end, replacement)
    if refusal != 0:
        return refusal, value, b""
    location_digest = model.digest(location(normal.start, normal.end, digest))
    return *model.ACCEPTED, allele(location_digest, normal.replacement)


def written(refusal, value, text, out, place):
    """The text is to be written, where nothing has been refused: refusal, value, length, the buffer afterwards."""
    if refusal == 0 and model.no_room(len(out), place, len(text)):
        refusal, value = 6, len(text)
    if refusal != 0:
        return refusal, value, 0, out
    return 0, 0, len(text), model.written(out, place, text)


def location_text(reference_length, start, end, digest, out, place):
    return written(*located(reference_length, start, end, digest), out, place)


def location_identifier(reference_length, start, end, digest, out, place):
    refusal, value, text = located(reference_length, start, end, digest)
    return written(refusal, value, location_named(text), out, place)


def allele_text(reference, start, end, replacement, digest, out, place):
    return written(*serialized(reference, start, end, replacement, digest), out, place)


def allele_identifier(reference, start, end, replacement, digest, out, place):
    """Refusal, value, length, how far the normal interval moved, and the buffer afterwards."""
    refusal, value, text = serialized(reference, start, end, replacement, digest)
    refusal, value, length, after = written(refusal, value, allele_named(text), out, place)
    if refusal != 0:
        return refusal, value, 0, *model.UNMOVED, after
    return 0, 0, length, *model.moved(start, end, model.form(reference, start, end, replacement)), after


def accepted_location(text):
    """The start, the end and the offset of the digest, or None where the text is not accepted."""
    found = LOCATIONS.fullmatch(text)
    if not found or not int(found[2]) <= int(found[1]) <= model.REFERENCE_LIMIT:
        return None
    return int(found[2]), int(found[1]), found.start(3)


def accepted_allele(text):
    """The offsets of the location's digest and of the replacement, and the replacement's length, or None."""
    found = ALLELES.fullmatch(text)
    if not found or len(found[2]) > RESIDUES_LIMIT:
        return None
    return found.start(1), found.start(2), len(found[2])


def completed(accepted, specimen, fixed, more, prefix):
    """Whether some end of the specimen, an accepted text, makes an accepted text of the prefix. Ends are left out
    that make it too short, too long by more than what holes may hold more, or too long before the first such hole,
    which is behind so many fixed bytes."""
    earliest = max(min(len(prefix), fixed), len(prefix) - more)
    ends = range(earliest, min(len(prefix), len(specimen)) + 1)
    return any(accepted(prefix + specimen[i:]) for i in ends)


# Each specimen has the least in its holes: 0, no residue, any digest. So where a prefix can be completed
# at all, one of its ends does it: a number or the residues may end where they stand, and a digest may go
# on with any character.
SOME_LOCATION, SOME_ALLELE = location(0, 0, b"A" * 32), allele(b"A" * 32, b"")
BEFORE_END, BEFORE_RESIDUES = SOME_LOCATION.index(b"0"), SOME_ALLELE.index(b'","type":"SequenceState"')
MORE_DIGITS = 2 * (len(b"1000000000") - 1)


@lru_cache(4096)
def begins_location(prefix):
    return completed(accepted_location, SOME_LOCATION, BEFORE_END, MORE_DIGITS, prefix)


@lru_cache(4096)
def begins_allele(prefix):
    return completed(accepted_allele, SOME_ALLELE, BEFORE_RESIDUES, RESIDUES_LIMIT, prefix)


def longest(begins, text):
    """The length of the longest prefix of text that begins an accepted text. All shorter ones do so too."""
    most, too_many = 0, len(text) + 1
    while too_many - most > 1:
        middle = (most + too_many) // 2
        if begins(text[:middle]):
            most = middle
        else:
            too_many = middle
    return most


def read_location(text):
    """Refusal, value, start, end, the offset of the digest."""
    found = accepted_location(text)
    return (0, 0, *found) if found else (8, longest(begins_location, text), 0, 0, 0)


def read_allele(text):
    """Refusal, value, the offsets of the location's digest and of the replacement, and the latter's length."""
    found = accepted_allele(text)
    return (0, 0, *found) if found else (8, longest(begins_allele, text), 0, 0, 0)
