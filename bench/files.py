"""Times the program on the files of made_files.py, and other ways through the same files, and prints lines of the
table, then how many VCF lines each takes in a second.

usage: files.py FOLDER BCFTOOLS [WORD...]    (the folder has the two files and the programs fearnavult and files;
BCFTOOLS is the name of that program, or empty; the words, where there are any, start a program of the folder)

Times are the processor's, the system's work for a program included, the best of ten turns.
"""
import resource
import subprocess
import sys
from functools import partial
from pathlib import Path

TURNS = 10
WHAT = "100 thousand VCF lines on 5 million residues"
OURS, PLAIN, NORM = "`fearnavult form --vcf --tsv`", "plain C, the same files and columns", "`bcftools norm`"
IN_MEMORY = "`fv_vcf_count`, `fv_vcf_form` in memory"


def seconds(command, output):
    before = resource.getrusage(resource.RUSAGE_CHILDREN)
    with open(output, "wb") as file:
        subprocess.run(command, stdout=file, stderr=subprocess.DEVNULL, check=True)
    after = resource.getrusage(resource.RUSAGE_CHILDREN)
    return after.ru_utime + after.ru_stime - before.ru_utime - before.ru_stime


def said(command):
    """The seconds of a command that prints its nanoseconds."""
    return float(subprocess.run(command, stdout=subprocess.PIPE, check=True).stdout) / 1e9


def best(timers):
    """The least time of each, all of them once in each turn."""
    turns = [[timer() for timer in timers.values()] for _ in range(TURNS)]
    return dict(zip(timers, map(min, zip(*turns))))


def measured(folder, bcftools, starts):
    """The seconds that each way takes, by its name in the table."""
    reference, calls, rows = (str(folder / name) for name in ("ref.fa", "calls.vcf", "rows"))
    ours = [*starts, str(folder / "fearnavult"), "form", "-r", reference, "--vcf", calls, "--tsv"]
    columns, forms = ([*starts, str(folder / "files"), way, reference, calls] for way in ("columns", "forms"))
    timers = {OURS: partial(seconds, ours, rows), PLAIN: partial(seconds, columns, rows),
              IN_MEMORY: partial(said, forms)}
    if bcftools:
        timers[NORM] = partial(seconds, [bcftools, "norm", "-f", reference, calls], rows)
        timers[NORM]()  # the first time it writes an index of the reference beside it
    return best(timers)


def main(folder, bcftools, *starts):
    times = measured(Path(folder), bcftools, starts)
    with open(Path(folder, "calls.vcf"), encoding="ascii") as file:
        lines = sum(not line.startswith("#") for line in file)
    for ours, other in ((OURS, PLAIN), (OURS, NORM), (IN_MEMORY, OURS)):
        if other in times:
            print(f"| {WHAT} | {ours} | {other} | {times[ours] / times[other]:.2f} |")
    print(f"\n{WHAT}, lines in a second:")
    for name, time in times.items():
        print(f"- {name}: {lines / time:,.0f}")


main(*sys.argv[1:])
