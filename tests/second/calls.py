"""The program's commands on VCF files, said a second time: rows for their lines, entered or only formed."""
from collections import Counter

import model
import register
import vcf
from cells import ENTRY, FORM, entered, form_cells, kind_cell
from refusals import Refused, accepted
from tables import Refusal, masked

SITE = ("CHROM", "POS", "REF", "ALT")


def chrom(line):
    return line.split(b"\t")[0]


def of_the_sequence(lines, name):
    """The lines that are read, and the names of those of other sequences."""
    data = [line for line in lines if line and not line.startswith(b"#")]
    return ([line for line in data if b"\t" not in line or chrom(line) == name],
            [chrom(line) for line in data if b"\t" in line and chrom(line) != name])


def line_rows(sequence, line, answer):
    """The rows of a line: its site, then what answers an alternate's allele, or the refusal."""
    name, pos, _, ref, alt = (line.split(b"\t") + [b""] * vcf.COLUMNS)[:vcf.COLUMNS]
    refusal, value, site = vcf.read(sequence.residues, line)
    if refusal != 0:
        return [(name, pos, ref, alt, Refusal(Refused(refusal, value).said))]
    return [(name, pos, ref, alternate, *alternate_cells(sequence, line, place, answer))
            for place, alternate in enumerate(site.alternates, 1)]


def alternate_cells(sequence, line, place, answer):
    try:
        given, = accepted(*vcf.allele(sequence.residues, line, place))
        normal, = accepted(*model.formed(sequence.residues, *given))
        return answer(given, normal)
    except Refused as refused:
        return [Refusal(refused.said)]


class Entering:
    """Lines entered into an image, one after the other."""

    def __init__(self, image, sequence, digest):
        self.image, self.sequence, self.digest = image, sequence, digest
        self.found = Counter()

    def answer(self, given, _):
        found, cells, self.image = entered(self.image, self.sequence, self.digest, given)
        self.found[found] += 1
        return cells

    def batches(self, lines, every):
        """The rows of so many lines at a time, of all where that is not said. After each the image is what is saved."""
        step = every or max(1, len(lines))
        for first in range(0, len(lines), step):
            yield [row for line in lines[first:first + step] for row in line_rows(self.sequence, line, self.answer)]


def enter_calls(run, image, sequence, digest):
    entering = Entering(image, sequence, digest)
    lines, others = of_the_sequence(run.calls(), sequence.name)
    batches = list(entering.batches(lines, run.asked.every))
    run.save_change(entering.image)
    run.print(SITE + ENTRY, *batches)
    counts = [f"{entering.found[found]} {word}" for found, word in register.FOUND.items()]
    summarize(run, sequence, lines, others, counts, sum(map(refused_rows, batches)))


def form_calls(run, sequence):
    def answer(given, normal):
        return kind_cell(normal), *form_cells(given, normal)

    lines, others = of_the_sequence(run.calls(), sequence.name)
    rows = [row for line in lines for row in line_rows(sequence, line, answer)]
    run.print((*SITE, "kind", *FORM), rows)
    refused = refused_rows(rows)
    summarize(run, sequence, lines, others, [f"{len(rows) - refused} formed"], refused)


def refused_rows(rows):
    return sum(isinstance(row[-1], Refusal) for row in rows)


def name_said(name):
    return (masked(name) or b".").decode()


def summarize(run, sequence, lines, others, counts, refused):
    """What is said after a VCF file, and the status."""
    own = f"{len(lines)} line{'' if len(lines) == 1 else 's'} of {name_said(sequence.name)}"
    of_others = f"; {len(others)} of other sequences, the first of {name_said(others[0])}" if others else ""
    run.said += run.calls_name() + f": {own}: {', '.join(counts)}, {refused} refused{of_others}\n".encode()
    run.refused = refused > 0
