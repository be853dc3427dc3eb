"""Calls the C library with made-up arguments and compares every answer and byte with the model.

usage: differential.py WORD...      (the words that start the driver)
"""
import random
import sys
from concurrent.futures import ProcessPoolExecutor
from functools import partial

from blank_cases import blank_cases
from byte_cases import byte_cases
from damage_cases import damage_cases
from exchange import Disagreement, Skipped, exchange
from form_cases import normal_form_cases
from full_cases import full_cases
from history_cases import history_cases
from model import RESIDUES
from read_cases import read_allele_cases, read_location_cases
from register import STATUS
from register_cases import register_cases
from running_cases import running_cases
from sequence_cases import sequence_identifier_cases
from shapes import SHAPES
from text_cases import allele_identifier_cases, allele_text_cases, location_identifier_cases, location_text_cases
from vcf_cases import vcf_cases
from vcf_molecules import vcf_molecule_cases

# Every entry in every shape.
ENTERED = {f"{found} {shape}" for found in ("new", "again", "known") for shape in SHAPES}
# A record in every status, with residues and without.
READ = {f"{status}{residues}" for status in STATUS for residues in ("", " empty")}
# seed, cases, and for each call the outcomes that they have to meet: accepted, in its shapes or statuses where it has
# them, and refusals by number
SUITES = (
    (40, full_cases, {
        "fv_sequence_identifier": {"accepted", 4},
        "fv_running_* in a row": {"accepted"},
        "fv_normal_form": {6},
        "fv_allele_text": {6},
        "fv_allele_identifier": {"widened-widened"},
        "fv_read_allele": {"accepted", 8},
        "fv_entry": {14},
        "fv_check": {"accepted"},
        "fv_read_record": {16},
        "fv_vcf_form": {"kept-kept", 6, 20},
    }),
    (41, sequence_identifier_cases, {"fv_sequence_identifier": {"accepted", 1, 4, 6}}),
    (42, running_cases, {
        "fv_running_begin": {"accepted"},
        "fv_running_feed": {"accepted", 1, 4},
        "fv_running_finish": {"accepted", 1, 6},
        "fv_running_* in a row": {"accepted", 6},
    }),
    (43, normal_form_cases, {"fv_normal_form": {*SHAPES, 1, 2, 3, 4, 5, 6}}),
    (44, location_text_cases, {"fv_location_text": {"accepted", 1, 2, 3, 6, 7}}),
    (45, location_identifier_cases, {"fv_location_identifier": {"accepted", 1, 2, 3, 6, 7}}),
    (46, allele_text_cases, {"fv_allele_text": {"accepted", 1, 2, 3, 4, 5, 6, 7}}),
    (47, allele_identifier_cases, {"fv_allele_identifier": {*SHAPES, 1, 2, 3, 4, 5, 6, 7}}),
    (48, read_location_cases, {"fv_read_location": {"accepted", 8}}),
    (49, read_allele_cases, {"fv_read_allele": {"accepted", 8}}),
    (50, blank_cases, {
        "fv_blank": {"accepted", 1, 7, 9},
        "fv_check": {"accepted", 10},
        "fv_read_record": {10, 16},
    }),
    (51, register_cases, {
        "fv_entry": {*ENTERED, 1, 2, 3, 4, 5, 10, 11, 12, 13, 14, 15},
        "fv_withdraw": {"accepted", 15, 16, 17},
        "fv_undo": {"accepted", 18},
        "fv_seal": {"accepted", 10},
        "fv_check": {"accepted", 10},
        "fv_read_record": {*READ, 10, 16},
    }),
    (52, history_cases, {
        "fv_blank": {"accepted"},
        "fv_entry": {*ENTERED, 1, 2, 3, 4, 5, 11, 12, 13, 14, 15},
        "fv_withdraw": {"accepted", 15, 16, 17},
        "fv_undo": {"accepted", 18},
        "fv_seal": {"accepted"},
        "fv_check": {"accepted"},
        "fv_read_record": {*READ, 16},
    }),
    (53, damage_cases, {
        "fv_entry": {"new widened-widened", "again widened-widened", "known widened-widened", 10, 11, 13, 14, 15},
        "fv_withdraw": {"accepted", 10, 15, 16, 17},
        "fv_undo": {"accepted", 10, 18},
        "fv_seal": {"accepted", 10},
        "fv_check": {"accepted", 10},
        "fv_read_record": {*READ, 10, 16},
    }),
    (54, vcf_cases, {"fv_vcf_count": {"accepted", 1, 19, 20}, "fv_vcf_form": {*SHAPES, 1, 6, 19, 20, 21}}),
    (55, vcf_molecule_cases, {"fv_vcf_count": {"accepted"}, "fv_vcf_form": SHAPES}),
    (56, byte_cases, {
        "fv_sequence_identifier": {"accepted", 4},
        "fv_running_feed": {"accepted", 4},
        "fv_normal_form": {"kept-kept", "kept-widened", "widened-kept", 4, 5},
        "fv_allele_text": {"accepted", 4, 5},
        "fv_allele_identifier": {"kept-kept", "kept-widened", "widened-kept", 4, 5},
        "fv_read_allele": {"accepted", 8},
        "fv_entry": {"new kept-kept", "new kept-widened", "new widened-kept", 4, 5, 10},
        "fv_withdraw": {"accepted", 10},
        "fv_undo": {"accepted", 10},
        "fv_seal": {"accepted", 10},
        "fv_check": {"accepted", 10},
        "fv_read_record": {"active", 10},
    }),
)
# Which slices of a call are a reference, a part or a replacement. In each of them some accepted call has to have each
# residue, those of byte_cases aside, which have it by their making.
OF_RESIDUES = {"fv_sequence_identifier": (0,), "fv_running_feed": (1,), "fv_normal_form": (0, 1), "fv_entry": (2, 3),
               "fv_allele_text": (0, 1), "fv_allele_identifier": (0, 1), "fv_vcf_form": (0,)}
# So many suites run at a time. Each has its own seed, so that it makes the same calls in any company.
SIDE_BY_SIDE = 2


def report(call, met, skipped):
    accepted = ", ".join(f"{met[name]} {name}" for name in sorted(name for name in met if isinstance(name, str)))
    refused = ", ".join(f"{number} {met[number]} times" for number in sorted(n for n in met if isinstance(n, int)))
    outcomes = "; ".join(filter(None, (accepted, refused and f"refused by {refused}",
                                       skipped and f"{sum(skipped.values())} left out for want of memory")))
    print(f"differential: {call}: {sum(met.values())} calls, {outcomes}", flush=True)


def check(wanted, met):
    """Reports each call, and ends the program where one has not met all that it had to. A call that was left out waives
    the outcome that it was to have, and no other.
    """
    for call, outcomes in wanted.items():
        of_call = {outcome: count for (name, outcome), count in met.items() if name == call}
        skipped = {kind.outcome: of_call.pop(kind) for kind in list(of_call) if isinstance(kind, Skipped)}
        report(call, of_call, skipped)
        missed = outcomes - set(of_call) - set(skipped)
        if missed:
            sys.exit(f"differential: FAILED: {call}: never met {sorted(missed, key=str)}")


def noting(cases, undrawn):
    """The cases. What an accepted one has in a slice of residues is taken out of what is undrawn there."""
    for case in cases:
        for place in OF_RESIDUES.get(case.call, ()):
            left = undrawn[case.call, place]
            if left and isinstance(case.outcome(), str) and isinstance(case.slices[place], bytes):
                left.difference_update(case.slices[place])
        yield case


def run(command, suite):
    seed, cases, _ = suite
    undrawn = {(call, place): set(RESIDUES) for call, places in OF_RESIDUES.items() for place in places}
    return exchange(command, noting(cases(random.Random(seed)), undrawn)), undrawn


def check_drawn(undrawn):
    """Ends the program where a slice of residues has never had one of them, whatever the suite."""
    for call, place in undrawn[0]:
        never = set.intersection(*(left[call, place] for left in undrawn))
        if never:
            sys.exit(f"differential: FAILED: {call}: never drew {bytes(sorted(never))} in slice {place}")


def main(command):
    total, undrawn = 0, []
    with ProcessPoolExecutor(SIDE_BY_SIDE) as pool:
        for (seed, cases, wanted), (met, left) in zip(SUITES, pool.map(partial(run, command), SUITES)):
            print(f"differential: {cases.__name__}, seed {seed}")
            check(wanted, met)
            total += sum(count for (_, outcome), count in met.items() if not isinstance(outcome, Skipped))
            undrawn += [left] if cases is not byte_cases else []
    check_drawn(undrawn)
    print(f"differential: ok, {total} calls answered as the second program says, byte for byte")


if __name__ == "__main__":
    try:
        main(sys.argv[1:])
    except Disagreement as found:
        print(found)
        sys.exit("differential: FAILED")
