"""What each call answers, said a second time: plainly, from the rules, whatever it costs.

The digests are hashlib's and base64's. A refusal is its number and its value; (0, 0) stands for none.
"""
import base64
import hashlib
from bisect import bisect_left
from functools import lru_cache
from typing import NamedTuple

REFERENCE_LIMIT = 1_000_000_000
REPLACEMENT_LIMIT = 1_000_000
IDENTIFIER_LENGTH = 41
DIGEST_LENGTH = 32
# Letters, a stop and a gap.
RESIDUES = b"ABCDEFGHIJKLMNOPQRSTUVWXYZ*-"
BASE64URL = b"ABCDEFGHIJKLMNOPQRSTUVWXYZabcdefghijklmnopqrstuvwxyz0123456789-_"

ACCEPTED = (0, 0)

# A kind is its number in the C library; KINDS has its name.
UNCHANGED, SUBSTITUTION, INDEL = range(3)
KINDS = ("unchanged", "substitution", "indel")


class Form(NamedTuple):
    """A normal form."""

    kind: int
    start: int
    end: int
    replacement: bytes


class Moved(NamedTuple):
    """By how many residues the normal interval widened past the given one, and by how many it shrank, on each side."""

    left_widened: int
    left_shrunk: int
    right_widened: int
    right_shrunk: int


UNMOVED = Moved(0, 0, 0, 0)


def first_outside(alphabet, text):
    """The offset of the first byte of text that is not in the alphabet, or None."""
    inside = len(text) - len(text.lstrip(alphabet))
    return inside if inside < len(text) else None


def digest(*pieces):
    """sha512t24u of a message, whole or in pieces: the first 24 bytes of SHA-512, in base64url."""
    hasher = hashlib.sha512()
    for piece in pieces:
        hasher.update(piece)
    return base64.urlsafe_b64encode(hasher.digest()[:24])


def no_room(room, place, needed):
    """Whether a buffer of room bytes has fewer than needed from place on. Python's numbers do not wrap."""
    return place + needed > room


def written(out, place, text):
    """The buffer after text has been written from place on."""
    return out[:place] + text + out[place + len(text):]


def fed(total, part):
    """A running digest that has taken total bytes is given a part."""
    if total > REFERENCE_LIMIT or total + len(part) > REFERENCE_LIMIT:
        return 1, 0
    foreign = first_outside(RESIDUES, part)
    if foreign is not None:
        return 4, foreign
    return ACCEPTED


def finished(total, room, place):
    """A running digest that has taken total bytes writes its identifier into a buffer of room bytes."""
    if total > REFERENCE_LIMIT:
        return 1, 0
    if no_room(room, place, IDENTIFIER_LENGTH):
        return 6, IDENTIFIER_LENGTH
    return ACCEPTED


def sequence_identifier(reference, out, place):
    """The identifier of a whole reference: refusal, value, length, and the buffer afterwards."""
    refusal, value = fed(0, reference)
    if refusal == 0:
        refusal, value = finished(len(reference), len(out), place)
    if refusal != 0:
        return refusal, value, 0, out
    text = b"ga4gh:SQ." + digest(reference)
    return 0, 0, len(text), written(out, place, text)


def digest_text(text):
    """A digest that a caller gives."""
    if len(text) != DIGEST_LENGTH:
        return 7, DIGEST_LENGTH
    foreign = first_outside(BASE64URL, text)
    if foreign is not None:
        return 7, foreign
    return ACCEPTED


def common_prefix(one, other):
    """The length of the longest common prefix: the first with which one byte more makes a difference."""
    shorter = min(len(one), len(other))
    return bisect_left(range(shorter), True, key=lambda length: one[:length + 1] != other[:length + 1])


def common_suffix(one, other):
    """The length of the longest common suffix."""
    return common_prefix(one[::-1], other[::-1])


def altered(reference, start, end, replacement):
    return reference[:start] + replacement + reference[end:]


@lru_cache(1)  # often asked twice in a row
def form(reference, start, end, replacement):
    """The normal form of an allele that nothing speaks against: both whole sequences are compared, from
    either end, and the two lengths may overlap."""
    made = altered(reference, start, end, replacement)
    if made == reference:
        return Form(UNCHANGED, start, end, replacement)
    n, m = len(reference), len(made)
    p, q, k = common_prefix(reference, made), common_suffix(reference, made), min(n, m)
    a, b = min(p, max(k - q, 0)), min(q, max(k - p, 0))
    return Form(SUBSTITUTION if p + q < k else INDEL, a, n - b, made[a:m - b])


def moved(start, end, normal):
    """How far the normal interval moved from the given one."""
    return Moved(max(0, start - normal.start), max(0, normal.start - start),
                 max(0, normal.end - end), max(0, end - normal.end))


def offered(reference, start, end, replacement):
    """An allele is given on a reference: the refusals that come before its normal form."""
    if len(reference) > REFERENCE_LIMIT:
        return 1, 0
    if len(replacement) > REPLACEMENT_LIMIT:
        return 1, 1
    if start > end:
        return 2, 0
    if end > len(reference):
        return 3, len(reference)
    foreign = first_outside(RESIDUES, replacement)
    if foreign is not None:
        return 4, foreign
    return ACCEPTED


def formed(reference, start, end, replacement):
    """Refusal, value, and the normal form, None where refused. Nothing is written, so there is no refusal 6."""
    refusal, value = offered(reference, start, end, replacement)
    if refusal != 0:
        return refusal, value, None
    normal = form(reference, start, end, replacement)
    foreign = first_outside(RESIDUES, normal.replacement)
    if foreign is not None:
        return 5, foreign, None
    return *ACCEPTED, normal


def normal_form(reference, start, end, replacement, out, place):
    """Refusal, value, kind, start, end, length of the normal replacement, how far the interval moved, and the buffer
    afterwards."""
    refusal, value, normal = formed(reference, start, end, replacement)
    if refusal == 0 and no_room(len(out), place, len(normal.replacement)):
        refusal, value = 6, len(normal.replacement)
    if refusal != 0:
        return refusal, value, 0, 0, 0, 0, *UNMOVED, out
    text = normal.replacement
    return (0, 0, normal.kind, normal.start, normal.end, len(text), *moved(start, end, normal),
            written(out, place, text))
