"""Lines as callers write one molecule: shifted within a repeat, anchored by the residue before or behind, padded with
more of the reference, several alternates over one REF, in lower case or upper.

All lines that make one molecule have to give one normal form, and lines that make two have to give two.
"""
from collections import defaultdict
from functools import lru_cache

import alleles
import model
import vcf
from exchange import Disagreement
from vcf_calls import count, form, line

REFERENCES = (b"TCAGCAGCAGT", b"AAAAAAAAAA", b"GATTACAGATTACATTT", b"ACACACACGTGTGTGT", b"CTCTTTCTCTTTGAG",
              b"*CAGCAGCAG-AAAA*", b"-ACACAC--GTGTGT*")
LINES = 10_000


def lettered(text):
    return vcf.LETTERS.fullmatch(text) is not None


@lru_cache  # often asked again
def ways(reference, made):
    """Every interval of the reference, with letters in it and letters in its place, outside of which nothing changes:
    each way to write this altered sequence in VCF, the shortest first."""
    n, m = len(reference), len(made)
    found = [(start, end) for start in range(model.common_prefix(reference, made) + 1)
             for end in range(n - model.common_suffix(reference, made), n + 1)
             if lettered(reference[start:end]) and lettered(made[start:max(start, end + m - n)])]
    return sorted(found, key=lambda interval: interval[1] - interval[0])


def mixed_case(rng, text):
    return bytes(rng.choice((byte, ord(chr(byte).lower()))) for byte in text)


def cased(rng, text):
    """Upper case, lower case or both, as callers mask what repeats."""
    return rng.choice((text, text, text.lower(), mixed_case(rng, text)))


def some_rest(rng):
    """Columns behind ALT: none, plain ones, or any bytes."""
    return rng.choice(((), (b"50", b"PASS", b"DP=30", b"GT", b"0/1"), (rng.randbytes(rng.randint(0, 20)),)))


def written(rng, reference, interval, molecules):
    """The line that says these molecules over this interval."""
    start, end = interval
    after = len(reference) - end
    alternates = [cased(rng, made[start:len(made) - after]) for made in molecules]
    return line(start + 1, cased(rng, reference[start:end]), b",".join(alternates), rest=some_rest(rng))


def some_molecules(rng, reference, how_many):
    """Altered sequences, the reference itself among them now and then."""
    for _ in range(how_many):
        start, end = sorted(rng.choices(range(len(reference) + 1), k=2))
        end = rng.choice((start, min(start + 1, len(reference)), min(start + 3, len(reference)), end))
        replacement = rng.choice((b"", alleles.residues(rng, rng.randint(0, 4)), reference[start:end][:3] * 2,
                                  reference[max(start - 3, 0):start]))
        yield model.altered(reference, start, end, replacement)


def interval_for(rng, reference, molecules):
    """An interval over which all of them can be written: short mostly, or any."""
    common = set.intersection(*(set(ways(reference, made)) for made in molecules))
    shortest = sorted(common, key=lambda interval: (interval[1] - interval[0], interval))
    return rng.choice((*shortest[:4] * 3, *shortest)) if shortest else None


def held(reference, made, answer, out, forms):
    """Keeps the form of a molecule; it has to make that molecule, and to be the only one."""
    _, _, kind, start, end, length, *_ = answer
    found = start, end, out[:length]
    if model.altered(reference, *found) != made:
        raise Disagreement(f"{found} does not make {made!r} of {reference!r}")
    if (kind == model.UNCHANGED) != (made == reference):
        raise Disagreement(f"{made!r} of {reference!r} is answered with kind {kind}")
    if made != reference:
        forms[made].add(found)


def one_form_each(reference, forms):
    """Each molecule has one form, and no two have the same."""
    for made, found in forms.items():
        if len(found) != 1:
            raise Disagreement(f"one molecule, {made!r} of {reference!r}, has the forms {sorted(found)}")
    if len(set.union(*forms.values())) != len(forms):
        raise Disagreement(f"two molecules of {reference!r} have one form")


def lines_on(rng, reference, how_many):
    """So many lines on this reference, each with all of its alternates."""
    forms, made = defaultdict(set), list(dict.fromkeys(some_molecules(rng, reference, 120)))
    while how_many > 0:
        molecules = rng.choices(made, k=rng.choice((1, 1, 1, 2, 3)))
        interval = interval_for(rng, reference, molecules)
        if interval is None:
            continue
        how_many -= 1
        text = written(rng, reference, interval, molecules)
        yield count(reference, text)
        for place, molecule in enumerate(molecules, 1):
            case = form(reference, text, place, rng.randbytes(50), 0)
            held(reference, molecule, case.answer, case.lent[0], forms)
            yield case
    one_form_each(reference, forms)


def vcf_molecule_cases(rng):
    for reference in REFERENCES:
        yield from lines_on(rng, reference, LINES // len(REFERENCES))
