"""Random commands, one after the other on a small register, as scenarios: numbers known and again, changes undone,
registers that are full.
"""
import random

from cases import Scenario, allele_words
from images import small_allele, small_reference
from model import RESIDUES
from started import words


def some_allele_words(rng, reference):
    start, end, replacement = small_allele(rng, reference)
    if rng.random() < 0.1:
        start, end = rng.choice(((end + 1, end), (start, len(reference) + 1)))
    return allele_words(start, end, replacement if rng.random() > 0.05 else replacement + b"x")


def call_line(rng, reference):
    """A data line, mostly with a REF that is the reference's."""
    start, end, alternate = small_allele(rng, reference)
    ref = reference[start:end] or reference[start:start + 1] or b"A"
    ref = ref if rng.random() > 0.1 else ref + b"G"
    alternates = [alternate, ref + alternate, rng.choice((b"*", b"<DEL>", b"", alternate.lower()))]
    shown = b",".join(rng.sample(alternates, rng.randint(1, 3)))
    name = b"s" if rng.random() > 0.1 else rng.choice((b"t", b"other"))
    return b"%s\t%d\t.\t%s\t%s" % (name, start + 1, ref, shown)


def entered_file(rng, reference, lines):
    text = b"\n".join(call_line(rng, reference) for _ in range(lines)) + rng.choice((b"", b"\n", b"\r\n"))
    every = rng.choice(("", "", " --every 1", " --every 2", " --every 3"))
    return words(f"enter r.fv -r s.fa --vcf -{every}"), text


def some_command(rng, reference):
    number = rng.choice((0, 1, 1, 2, 2, 3, 4, 5, 6, 9))
    kind = rng.choices(("enter", "calls", "withdraw", "undo", "seal", "list", "show", "check", "form", "blank"),
                       (30, 8, 16, 8, 2, 4, 4, 3, 3, 1))[0]
    if kind == "calls":
        return entered_file(rng, reference, rng.randint(1, 6))
    behind = {"enter": f" -r s.fa {some_allele_words(rng, reference)}", "withdraw": f" {number}", "show": f" {number}",
              "form": f" -r s.fa {some_allele_words(rng, reference)}",
              "blank": " -r s.fa --force --records 3 --journal 4 --pool 9"}.get(kind, "")
    on_reference = " -r s.fa" if kind in ("list", "show") and rng.random() < 0.5 else ""
    register = "" if kind == "form" else " r.fv"
    return words(kind + on_reference + rng.choice(("", " --tsv")) + register + behind), b""


def history(rng, length):
    reference = small_reference(rng).translate(None, delete=bytes(set(range(256)) - set(RESIDUES)))
    room = f"--records {rng.randint(2, 8)} --journal {rng.randint(3, 12)} --pool {rng.randint(3, 30)}"
    commands = [words(f"blank r.fv -r s.fa {room}")]
    commands += [some_command(rng, reference) for _ in range(length)]
    return Scenario(f"a history on {reference.decode()}", {b"s.fa": b">s\n" + reference + b"\n"}, commands)


def history_scenarios():
    rng = random.Random(73)
    for _ in range(10):
        yield history(rng, 35)
