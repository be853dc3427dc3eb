"""Prints the normal form of each alternate in a VCF file, as tests/vcf/forms.c has to.

usage: vcf_files.py REFERENCES.fa LINES.vcf
"""
import sys
from pathlib import Path

import model
import vcf
from shown import shown


def references(fasta):
    """The residues under each name."""
    found = {}
    for record in fasta.split(b">")[1:]:
        heading, *rows = record.split(b"\n")
        found[heading.split(b" ")[0]] = b"".join(rows)
    return found


def data(fasta, lines):
    """The data lines of a VCF file, each with its reference; one of no known name has the empty one."""
    known = references(Path(fasta).read_bytes())
    for line in Path(lines).read_bytes().split(b"\n"):
        if line and not line.startswith(b"#"):
            yield known.get(line.split(b"\t")[0], b""), line


def front(line):
    """The first five columns; a byte that does not show stands as its number."""
    columns = b" ".join(line.split(b"\t")[:5]).decode("latin-1")
    return "".join(letter if " " <= letter <= "~" else f"\\x{ord(letter):02x}" for letter in columns)


def form(reference, line, alternate):
    refusal, value, allele = vcf.allele(reference, line, alternate)
    if refusal == 0:
        refusal, value, normal = model.formed(reference, *allele)
    if refusal != 0:
        return f"refused {refusal} {value}"
    start, end, _ = allele
    moved = " ".join(map(str, model.moved(start, end, normal)))
    return f"{normal.start} {normal.end} {model.KINDS[normal.kind]} {shown(normal.replacement)} {moved}"


def main(fasta, lines):
    for reference, line in data(fasta, lines):
        refusal, value, places = vcf.count(reference, line)
        print(f"{front(line)}: " + (f"refused {refusal} {value}" if refusal else f"{places}"))
        for alternate in range(1, places + 1):
            print(f"  {alternate}: {form(reference, line, alternate)}")


if __name__ == "__main__":
    main(*sys.argv[1:])
