"""What the program's tables say of an allele, of a record and of an entry: the cells of their rows."""
from typing import NamedTuple

import model
import register
import texts
from picture import signed
from refusals import ReferenceRefused, accepted

RECORD = ("number", "status", "start", "end", "replacement")
FORM = ("start", "end", "replacement", "left", "right")
ENTRY = ("answer", "number", *FORM, "identifier")
STATUS = {register.ACTIVE: b"active", register.INACTIVE: b"inactive"}


class Sequence(NamedTuple):
    """The chosen sequence of a reference's file."""

    name: bytes
    residues: bytes

    def digest(self):
        refusal, value = model.fed(0, self.residues)
        if refusal != 0:
            raise ReferenceRefused(refusal, value)
        return model.digest(self.residues)


def number_cell(number):
    return b"%d" % number


def kind_cell(normal):
    return model.KINDS[normal.kind].encode()


def form_cells(given, normal):
    """The normal form, and how far each side widened: below 0 where it shrank."""
    left, right = signed(given[0] - normal.start), signed(normal.end - given[1])
    return number_cell(normal.start), number_cell(normal.end), normal.replacement, left.encode(), right.encode()


def record_cells(image, number):
    start, end, replacement, status = register.read(image).issued[number - 1]
    return number_cell(number), STATUS[status], number_cell(start), number_cell(end), replacement


def allele_name(sequence, digest, allele):
    """The identifier of an allele."""
    text, = accepted(*texts.serialized(sequence.residues, *allele, digest))
    return texts.allele_named(text)


def entered(image, sequence, digest, given):
    """How an allele was found, its cells and the image afterwards."""
    found, number, *_, after = accepted(*register.entry(image, digest, sequence.residues, *given))
    normal = model.form(sequence.residues, *given)
    cells = (register.FOUND[found].encode(), number_cell(number), *form_cells(given, normal),
             allele_name(sequence, digest, given))
    return found, cells, after
