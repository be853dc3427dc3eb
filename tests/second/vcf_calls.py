"""A VCF line, and a call on one with its expected answer."""
import vcf
from arguments import room_and_place
from exchange import Case
from shapes import shape


def line(pos, ref, alt, chrom=b"chr1", identifier=b".", rest=()):
    """The columns, joined; POS as a number or as it stands."""
    return b"\t".join((chrom, b"%d" % pos if isinstance(pos, int) else pos, identifier, ref, alt, *rest))


def count(reference, text):
    return Case("fv_vcf_count", b"c", (), (reference, text), vcf.count(reference, text), ())


def form(reference, text, alternate, out, place):
    *answer, after = vcf.form(reference, text, alternate, out, place)
    return form_case(reference, text, alternate, out, place, answer, after)


def form_case(reference, text, alternate, out, place, answer, after):
    return Case("fv_vcf_form", b"v", (alternate, place), (reference, text, out), tuple(answer), (after,),
                shape(answer))


def needed(reference, text, alternate):
    """The bytes to be written, or a few where the call is refused anyhow."""
    refusal, value, *_ = vcf.form(reference, text, alternate, b"", 0)
    return value if refusal == 6 else 3


def placed(rng, reference, text, alternate):
    """The form of an alternate, in a buffer that has room for the answer or narrowly has not."""
    room, place = room_and_place(rng, needed(reference, text, alternate))
    return form(reference, text, alternate, rng.randbytes(room), place)


def every_call(rng, reference, text):
    """The count, and the form at every place, at the two beside them, and far."""
    yield count(reference, text)
    _, _, places = vcf.count(reference, text)
    for alternate in (*range(places + 2), 2**32 + 1, 2**64 - 1):
        yield placed(rng, reference, text, alternate)
