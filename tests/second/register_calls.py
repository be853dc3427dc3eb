"""A call to the register with its expected answer, for each of the seven."""
import register
from exchange import Case
from shapes import shape


def blank(image, residues, digest, records, journal, pool):
    *answer, after = register.blank(image, residues, digest, records, journal, pool)
    return Case("fv_blank", b"b", (residues, records, journal, pool), (image, digest), tuple(answer), (after,))


def entry(image, digest, reference, start, end, replacement):
    said = register.entry(image, digest, reference, start, end, replacement)
    return entry_case(image, digest, reference, start, end, replacement, said)


def entry_as(image, digest, reference, start, end, replacement, form):
    """An entry on a reference too long to be compared here, where the normal form is known otherwise."""
    said = register.entry_of(image, start, end, form)
    return entry_case(image, digest, reference, start, end, replacement, said)


def entry_case(image, digest, reference, start, end, replacement, said):
    *answer, after = said
    _, _, found, *_ = answer
    return Case("fv_entry", b"e", (start, end), (image, digest, reference, replacement), tuple(answer), (after,),
                f"{register.FOUND.get(found)} {shape(answer)}")


def withdraw(image, number):
    *answer, after = register.withdraw(image, number)
    return Case("fv_withdraw", b"w", (number,), (image,), tuple(answer), (after,))


def undo(image):
    *answer, after = register.undo(image)
    return Case("fv_undo", b"u", (), (image,), tuple(answer), (after,))


def seal(image):
    *answer, after = register.seal(image)
    return Case("fv_seal", b"S", (), (image,), tuple(answer), (after,))


def check(image):
    return Case("fv_check", b"C", (), (image,), register.check(image), ())


def read_record(image, number):
    answer = register.read_record(image, number)
    *_, status, _, length = answer
    counted_as = f"{register.STATUS[status]}{'' if length else ' empty'}"
    return Case("fv_read_record", b"N", (number,), (image,), answer, (), counted_as)


def after(case):
    """The image that the call leaves."""
    image, = case.lent
    return image
