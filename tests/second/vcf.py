"""VCF lines, said a second time: document 02, Q-1, with Python's own splitting and matching."""
import re
from typing import NamedTuple

import model

COLUMNS = 5
LETTERS = re.compile(rb"[A-Za-z]+")
# A decimal with more digits is above 64 bits, and so above every reference's length.
DECIMAL = re.compile(rb"[1-9][0-9]{0,19}")


class Site(NamedTuple):
    """What the first five columns say, where nothing speaks against them."""

    start: int
    end: int
    alternates: list  # as they stand in the line


def read(reference, line):
    """Refusal, value, and the site, None where refused. What ALT holds is not looked at."""
    if len(reference) > model.REFERENCE_LIMIT:
        return 1, 0, None
    columns = line.split(b"\t")
    if len(columns) < COLUMNS:
        return 19, 0, None
    _, pos, _, ref, alt = columns[:COLUMNS]
    if not LETTERS.fullmatch(ref) or not DECIMAL.fullmatch(pos) or int(pos) > len(reference):
        return 19, 0, None
    start = int(pos) - 1
    end = start + len(ref)
    agreeing = model.common_prefix(reference[start:end], ref.upper())
    if agreeing < len(ref):
        return 20, agreeing, None
    return *model.ACCEPTED, Site(start, end, alt.split(b","))


def count(reference, line):
    """Refusal, value and how many places ALT has."""
    refusal, value, site = read(reference, line)
    return refusal, value, 0 if refusal else len(site.alternates)


def allele(reference, line, alternate):
    """Refusal, value, and the start, the end and the replacement of the alternate at this place, None where refused."""
    refusal, value, site = read(reference, line)
    if refusal != 0:
        return refusal, value, None
    start, end, alternates = site
    if not 1 <= alternate <= len(alternates) or not LETTERS.fullmatch(alternates[alternate - 1]):
        return 21, alternate, None
    return *model.ACCEPTED, (start, end, alternates[alternate - 1].upper())


def form(reference, line, alternate, out, place):
    """Refusal, value, kind, start, end, length of the normal replacement, how far the line's own interval moved, and
    the buffer afterwards."""
    refusal, value, given = allele(reference, line, alternate)
    if refusal != 0:
        return refusal, value, 0, 0, 0, 0, *model.UNMOVED, out
    return model.normal_form(reference, *given, out, place)
