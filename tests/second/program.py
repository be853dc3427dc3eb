"""The program, said a second time: what each command prints, its status, and what each file then holds.

Files are a dictionary from names to bytes; a folder stands as FOLDER. Nothing here reads or writes a real file.
"""
import errno
import os
from typing import NamedTuple

import fasta
import model
import register
import texts
from calls import enter_calls, form_calls
from cells import ENTRY, FORM, RECORD, Sequence, allele_name, entered, form_cells, kind_cell, number_cell, record_cells
from command_line import BadUsage, asked
from picture import picture
from refusals import Refused, accepted
from tables import Refusal, printed

FOLDER = None
ACCEPTED, REFUSED, FAILED = 0, 1, 2
BLANK = ("answer", "records", "journal", "pool", "sequence", "residues", "identifier")


class Answer(NamedTuple):
    """What a run of the program leaves. Of bad usage only the beginning of what is said is fixed."""

    status: int
    out: bytes
    said: bytes
    files: dict
    saved: bool = False  # whether the register's file is another one now
    bad_usage: bool = False


class FileFails(Exception):
    """A file, and why it is not read or made."""


class Run:
    """One run: what it was asked, the files as it changes them, and what it has printed and said so far."""

    def __init__(self, what, files, given):
        self.asked = what
        self.files = dict(files)
        self.given = given
        self.out = self.said = b""
        self.refused = self.saved = False

    def file(self, name):
        if name not in self.files:
            raise FileFails(name, os.strerror(errno.ENOENT))
        if self.files[name] is FOLDER:
            raise FileFails(name, os.strerror(errno.EISDIR))
        return self.files[name]

    def lock(self):
        """Before a change; nobody else holds it here."""
        self.files.setdefault(self.asked.register() + b".lock", b"")

    def locked_image(self):
        """Of a register that is to be changed. Where there is no file, there is no lock."""
        self.file(self.asked.register())
        self.lock()
        return self.image()

    def image(self):
        image = self.file(self.asked.register())
        if register.read(image) is None:
            raise Refused(10, 0)
        return image

    def save(self, image):
        """What a killed run left is gone then."""
        self.saved = True
        self.files[self.asked.register()] = image
        self.files.pop(self.asked.register() + b".new", None)

    def save_change(self, image):
        if image != self.files.get(self.asked.register()):
            self.save(image)

    def sequence(self):
        try:
            return Sequence(*fasta.chosen(self.file(self.asked.reference), self.asked.name))
        except fasta.Unfit as unfit:
            raise FileFails(self.asked.reference, str(unfit)) from unfit

    def calls(self):
        """The lines of the VCF file."""
        text = self.given if self.asked.vcf == b"-" else self.file(self.asked.vcf)
        if text.startswith(fasta.GZIP):
            raise FileFails(self.calls_name(), "compressed, unpack it first")
        return fasta.lines(text)

    def calls_name(self):
        return b"standard input" if self.asked.vcf == b"-" else self.asked.vcf

    def print(self, columns, *batches):
        self.out += printed(columns, batches, self.asked.tsv)

    def draw(self, *what):
        if not self.asked.tsv:
            self.out += b"\n" + picture(*what)


def of_this_register(image, sequence):
    """The digest of the sequence, which the register has to be of."""
    digest = sequence.digest()
    read = register.read(image)
    if digest != read.digest:
        raise Refused(11, 0)
    if len(sequence.residues) != read.residues:
        raise Refused(11, 1)
    return digest


def blank(run):
    run.lock()
    name = run.asked.register()
    if name in run.files and not run.asked.force:
        raise FileFails(name, "exists, --force makes it blank again")
    if name in run.files:
        run.image()
    sequence = run.sequence()
    digest = sequence.digest()
    capacities = run.asked.records, run.asked.journal, run.asked.pool
    within = max(capacities) <= register.POOL_LIMIT
    room = register.Register(*capacities, 0, b"").size() if within else 0
    image, = accepted(*register.blank(bytes(room), len(sequence.residues), digest, *capacities))
    run.save_change(image)
    run.print(BLANK, [(b"blank", *map(number_cell, capacities), sequence.name, number_cell(len(sequence.residues)),
                       b"ga4gh:SQ." + digest)])


def enter(run):
    image, sequence = run.locked_image(), run.sequence()
    if run.asked.vcf is not None:
        enter_calls(run, image, sequence, of_this_register(image, sequence))
        return
    _, row, after = entered(image, sequence, sequence.digest(), run.asked.allele())
    run.save_change(after)
    run.print(ENTRY, [row])


def withdraw(run):
    image, = accepted(*register.withdraw(run.locked_image(), run.asked.number()))
    run.save_change(image)
    run.print(("answer", *RECORD), [(b"withdrawn", *record_cells(image, run.asked.number()))])


def undo(run):
    number, image = accepted(*register.undo(run.locked_image()))
    run.save_change(image)
    run.print(("answer", *RECORD), [(b"undone", *record_cells(image, number))])


def seal(run):
    image, = accepted(*register.seal(run.locked_image()))
    run.save_change(image)
    run.print(("answer",), [(b"sealed",)])


def image_and_sequence(run):
    """The register's image, and the sequence that it is of where one is given."""
    image = run.image()
    if run.asked.reference is None:
        return image, None
    sequence = run.sequence()
    of_this_register(image, sequence)
    return image, sequence


def identifier_cell(run, sequence, record):
    """The identifier of a record, or why it has none."""
    try:
        return allele_name(sequence, sequence.digest(), record[:3])
    except Refused as refused:
        run.refused = True
        return Refusal(refused.said)


def print_records(run, image, numbers, sequence):
    rows = [record_cells(image, number) for number in numbers]
    if sequence is None:
        run.print(RECORD, rows)
        return
    issued = register.read(image).issued
    named = [(*row, identifier_cell(run, sequence, issued[number - 1])) for number, row in zip(numbers, rows)]
    run.print((*RECORD, "identifier"), named)


def list_records(run):
    image, sequence = image_and_sequence(run)
    print_records(run, image, range(1, len(register.read(image).issued) + 1), sequence)


def show(run):
    image, sequence = image_and_sequence(run)
    issued, number = register.read(image).issued, run.asked.number()
    if not 1 <= number <= len(issued):
        raise Refused(16, len(issued))
    print_records(run, image, [number], sequence)
    if sequence:
        run.draw(sequence.residues, issued[number - 1][:3])


def form(run):
    sequence = run.sequence()
    if run.asked.vcf is not None:
        form_calls(run, sequence)
        return
    given = run.asked.allele()
    normal, = accepted(*model.formed(sequence.residues, *given))
    run.print(("kind", *FORM), [(kind_cell(normal), *form_cells(given, normal))])
    run.draw(sequence.residues, normal[1:], given)


def identify(run):
    sequence, given = run.sequence(), run.asked.allele()
    digest = sequence.digest()
    allele = allele_name(sequence, digest, given)
    normal = model.form(sequence.residues, *given)
    location = texts.location_named(texts.location(normal.start, normal.end, digest))
    rows = [(b"sequence", b"ga4gh:SQ." + digest), (b"location", location), (b"allele", allele)]
    run.print(("of", "identifier"), rows)


def check(run):
    issued = register.read(run.image()).issued
    active = sum(record.status == register.ACTIVE for record in issued)
    run.print(("answer", "numbers", "active"), [(b"well formed", number_cell(len(issued)), number_cell(active))])


COMMANDS = {b"blank": blank, b"enter": enter, b"withdraw": withdraw, b"undo": undo, b"seal": seal,
            b"list": list_records, b"show": show, b"form": form, b"identify": identify, b"check": check}


def answer(words, files, given=b""):
    """The answer to a command line, with these files and this standard input."""
    try:
        run = Run(asked(words), files, given)
    except BadUsage:
        return Answer(FAILED, b"", b"fearnavult: ", files, bad_usage=True)
    try:
        COMMANDS[run.asked.command](run)
        return Answer(REFUSED if run.refused else ACCEPTED, run.out, run.said, run.files, run.saved)
    except Refused as refused:
        return Answer(REFUSED, b"", refused.said + b"\n", run.files)
    except FileFails as failure:
        name, why = failure.args
        return Answer(FAILED, b"", b"fearnavult: " + name + b": " + why.encode("latin-1") + b"\n", run.files)
