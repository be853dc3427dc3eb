"""Gives the program and the second program the same command lines in the same folders, and compares standard output,
standard error, the status and every file's bytes.

usage: commands.py WORD...      (the words that start the program)
"""
import re
import sys
from collections import Counter

import started
from cases import plain_scenarios
from command_line import ALLELE_WORDS, asked
from drawings import drawing_scenarios
from failures import failures
from file_shapes import file_scenarios
from helps import helps
from histories import history_scenarios
from oversized import oversized
from refusals import CHOSEN
from terminal import terminal

FOREIGN_REFERENCE = "4 of the reference"
# For each command the refusals that it has to meet; it has to be accepted too, for people and with tabs.
WANTED = {
    "blank": {FOREIGN_REFERENCE, "9", "10"},
    "enter": {"2", "3", "4", FOREIGN_REFERENCE, "10", "11/0", "11/1", "12", "13", "14", "15"},
    "enter --vcf": {"1/1", FOREIGN_REFERENCE, "10", "11/0", "11/1", "12", "13", "14", "15", "19", "20", "21"},
    "withdraw": {"10", "15", "16", "17"},
    "undo": {"10", "18"},
    "seal": {"10"},
    "list": {"1/1", FOREIGN_REFERENCE, "10", "11/0", "11/1"},
    "show": {"1/1", FOREIGN_REFERENCE, "10", "11/0", "11/1", "16"},
    "form": {"2", "3", "4", "5"},
    "form --vcf": {"1/1", "19", "20", "21"},
    "identify": {"2", "3", "4", FOREIGN_REFERENCE},
    "check": {"10"},
}
# What the first column, or the one behind ALT, says of an accepted allele, and what a replacement given has in it.
GIVEN = {"a stop": b"*", "a gap": b"-"}
ANSWERS = {"enter": {"new", "again", "known", *GIVEN}, "enter --vcf": {"new", "again", "known"},
           "form": {"unchanged", "substitution", "indel", *GIVEN}, "form --vcf": {"unchanged", "substitution", "indel"},
           "identify": set(GIVEN)}
SAID = re.compile(rb"refused ([0-9]+): ([^\t\n]*)")
ANSWERED = re.compile(rb"\b(new|again|known|unchanged|substitution|indel)[ \t]")


def kind(number, words):
    """A refusal by its number, and where one number has several sentences by which of them it is."""
    for (refusal, value), chosen in CHOSEN.items():
        if number == str(refusal) and words == chosen:
            return f"{refusal}/{value}"
    return FOREIGN_REFERENCE if number == "4" and "of the reference" in words else number


def replacement_of(command):
    """The replacement that a command gives, empty where it gives no allele."""
    what = asked(command)
    return what.allele()[-1] if len(what.words) >= ALLELE_WORDS else b""


def outcomes(command, left):
    """What a run is counted as."""
    for number, words in SAID.findall(left.out + left.said):
        yield kind(number.decode(), words.decode())
    yield from (found.decode() for found in ANSWERED.findall(left.out))
    if left.status == 0:
        yield "with tabs" if b"--tsv" in command else "for people"
        yield from (what for what, residue in GIVEN.items() if residue in replacement_of(command))
    if left.status == 2:
        yield "status 2"


def called(command):
    """The command's name in WANTED."""
    name = b"".join(command[:1]).decode("latin-1")
    return f"{name} --vcf" if b"--vcf" in command and f"{name} --vcf" in WANTED else name


def played(starting, scenario, met):
    """Gives a scenario's commands, one after the other, and counts what they meet."""
    with started.Folder(scenario.files) as folder:
        for step in scenario.commands:
            command, given = step if isinstance(step, tuple) else (step, b"")
            left = started.compared(starting, folder, command, given)
            met.update((called(command), outcome) for outcome in set(outcomes(command, left)))
    return len(scenario.commands)


def check(met):
    """Ends the program where a command has not met all that it had to."""
    for command, refusals in WANTED.items():
        wanted = refusals | ANSWERS.get(command, set()) | {"for people", "with tabs", "status 2"}
        missed = wanted - {outcome for name, outcome in met if name == command}
        if missed:
            sys.exit(f"commands: FAILED: {command}: never met {sorted(missed)}")
        found = ", ".join(f"{outcome} {met[command, outcome]} times" for outcome in sorted(refusals, key=refusal_order))
        print(f"commands: {command}: refused by {found}")


def refusal_order(name):
    return int(re.match("[0-9]+", name)[0]), name


def main(starting):
    starting, met, count = started.absolute(starting), Counter(), 0
    for scenarios in (plain_scenarios, file_scenarios, drawing_scenarios, history_scenarios):
        count += sum(played(starting, scenario, met) for scenario in scenarios())
    check(met)
    special = sum(tests(starting) for tests in (failures, helps, terminal, oversized))
    print(f"commands: ok, {count} commands answered as the second program says, byte for byte; {special} more where "
          "the system says no, where help is asked for, on a terminal and on too long a reference")


if __name__ == "__main__":
    try:
        main(sys.argv[1:])
    except started.Disagreement as found:
        print(found)
        sys.exit("commands: FAILED")
