"""Calls at full size on memory that is filled: all residues, as many as there may be.

Nothing here is compared residue by residue: what each call answers is known from the one that repeats, and digests are
hashlib's, over pieces.
"""
from functools import lru_cache

import model
import texts
from exchange import Case, Repeated
from images import image_of
from readings import every_reading
from register import Register
from register_calls import entry_as
from text_cases import ALLELE_IDENTIFIER, ALLELE_TEXT, some_digest
from vcf_calls import form_case, line

LIMIT = model.REFERENCE_LIMIT
RESIDUES_LIMIT = texts.RESIDUES_LIMIT
LONGEST = Repeated(b"A", LIMIT - 1, b"-")
FOREIGN_LAST = Repeated(b"A", LIMIT - 2, b"*", b"+")
# As many stops as may be given, put into a reference of as many as there may be, are rolled over all of it: the normal
# form is from 0 to its end, with RESIDUES_LIMIT stops.
INSERTION = Repeated(b"*", LIMIT), LIMIT // 3, LIMIT // 3, b"*" * model.REPLACEMENT_LIMIT


@lru_cache
def identifier(reference):
    return b"ga4gh:SQ." + model.digest(*reference.pieces())


def allele_text(location_digest, stops):
    """The text of an allele whose replacement is so many stops."""
    head, tail = texts.allele(location_digest, b"%").split(b"%")
    return Repeated(b"*", stops, head, tail)


def read_texts(rng):
    """A text with as many stops as there may be, without its end, and with one stop more."""
    most, more = (allele_text(some_digest(rng), RESIDUES_LIMIT + over) for over in (0, 1))
    cut = Repeated(b"*", RESIDUES_LIMIT, most.head, most.tail[:-1])
    for text, answer in ((most, (0, 0, 13, 68, RESIDUES_LIMIT)), (cut, (8, len(cut), 0, 0, 0)),
                         (more, (8, len(more.head) + RESIDUES_LIMIT, 0, 0, 0))):
        yield Case("fv_read_allele", b"r", (), (text,), answer, ())


def sequence_identifiers(rng):
    """The longest reference, and the same with a foreign byte at its end."""
    out = rng.randbytes(43)
    for reference, answer, after in ((LONGEST, (0, 0, 41), model.written(out, 1, identifier(LONGEST))),
                                     (FOREIGN_LAST, (4, LIMIT - 1, 0), out)):
        yield Case("fv_sequence_identifier", b"s", (1,), (reference, out), answer, (after,))


def in_parts(rng):
    """The longest reference in two parts, and then a residue too many, which is refused and leaves no trace."""
    more, out = Repeated(b"A", LIMIT, LONGEST.head), rng.randbytes(43)
    after = model.written(out, 1, identifier(LONGEST))
    outcomes = *model.ACCEPTED, *model.ACCEPTED, 1, 0
    yield Case("fv_running_* in a row", b"P", (LIMIT // 3, LIMIT, 1), (more, out), (0, 0, 41, *outcomes), (after,))


def normal_forms():
    """Without room for the normal replacement."""
    reference, start, end, replacement = INSERTION
    answer = 6, RESIDUES_LIMIT, 0, 0, 0, 0, *model.UNMOVED
    yield Case("fv_normal_form", b"n", (start, end, 0), (reference, replacement, b""), answer, (b"",))


def alleles_said(rng):
    """The text without room for it, and its identifier."""
    digest = some_digest(rng)
    text = allele_text(model.digest(texts.location(0, LIMIT, digest)), RESIDUES_LIMIT)
    yield ALLELE_TEXT.expecting((*INSERTION, digest, b"", 0), (6, len(text), 0), b"")
    out = rng.randbytes(43)
    after = model.written(out, 1, b"ga4gh:VA." + model.digest(*text.pieces()))
    _, start, end, _ = INSERTION
    moved = start, 0, LIMIT - end, 0
    yield ALLELE_IDENTIFIER.expecting((*INSERTION, digest, out, 1), (0, 0, 41, *moved), after)


def entries(rng):
    """Into a pool without room for it."""
    digest = some_digest(rng)
    form = model.Form(model.INDEL, 0, LIMIT, Repeated(b"*", RESIDUES_LIMIT))
    image = image_of(rng, Register(1, 1, 100, LIMIT, digest))
    yield entry_as(image, digest, *INSERTION, form)
    yield from every_reading(image)


def vcf_forms(rng):
    """A residue in the place of the last one; a REF that runs past the end; and letters that come in, without room."""
    out, most = rng.randbytes(3), model.REPLACEMENT_LIMIT
    accepted = 0, 0, model.SUBSTITUTION, LIMIT - 1, LIMIT, 1, *model.UNMOVED
    for ref, alt, answer, after in ((b"a", b"c", accepted, model.written(out, 1, b"C")),
                                    (b"aA", b"c", (20, 1, 0, 0, 0, 0, *model.UNMOVED), out),
                                    (b"A", b"a" * most, (6, LIMIT + most - 2, 0, 0, 0, 0, *model.UNMOVED), out)):
        yield form_case(LONGEST, line(LIMIT, ref, alt), 1, out, 1, answer, after)


def full_cases(rng):
    yield from read_texts(rng)
    yield from sequence_identifiers(rng)
    yield from in_parts(rng)
    yield from normal_forms()
    yield from alleles_said(rng)
    yield from entries(rng)
    yield from vcf_forms(rng)
