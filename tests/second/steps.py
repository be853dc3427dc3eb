"""The normal form by the steps of VRS 1.1.2, and by the two lengths of the model: the same for each allele, and it
makes the allele's altered sequence. The given interval and how far it moved tell the normal one.

usage: steps.py      (compares both and says how many alleles it has tried)
"""
import random
import sys
from itertools import chain

import alleles
from model import INDEL, SUBSTITUTION, UNCHANGED, Form, altered, form, moved

SEED = 42
GENERATED = 4000


def trimmed(start, end, old, new):
    """Step 1: what both end in, then what both begin with, is taken off."""
    while old and new and old[-1] == new[-1]:
        old, new, end = old[:-1], new[:-1], end - 1
    while old and new and old[0] == new[0]:
        old, new, start = old[1:], new[1:], start + 1
    return start, end, old, new


def left_roll(reference, start, moving):
    """Step 4 a: while the last residue of what moves is the one before it, it turns by one and goes left by one."""
    steps = 0
    while start > steps and reference[start - steps - 1] == moving[-1]:
        moving = moving[-1:] + moving[:-1]
        steps += 1
    return steps


def right_roll(reference, end, moving):
    """Step 4 b: likewise to the right, by its first residue and the one after it."""
    steps = 0
    while end + steps < len(reference) and reference[end + steps] == moving[0]:
        moving = moving[1:] + moving[:1]
        steps += 1
    return steps


def trim_and_roll(reference, given_start, given_end, replacement):
    start, end, old, new = trimmed(given_start, given_end, reference[given_start:given_end], replacement)
    if not old and not new:
        return Form(UNCHANGED, given_start, given_end, replacement)
    if old and new:
        return Form(SUBSTITUTION, start, end, new)
    left, right = left_roll(reference, start, old or new), right_roll(reference, end, old or new)
    return Form(INDEL, start - left, end + right, reference[start - left:start] + new + reference[end:end + right])


def told(start, end, by):
    """The interval that lies so far from the given one."""
    return start - by.left_widened + by.left_shrunk, end + by.right_widened - by.right_shrunk


def one_way(by):
    """On a side at most one number is above zero."""
    return min(by.left_widened, by.left_shrunk) == min(by.right_widened, by.right_shrunk) == 0


def main():
    rng = random.Random(SEED)
    generated = (alleles.any_allele(rng) for _ in range(GENERATED))
    tried = 0
    for allele in chain(alleles.every_small(), alleles.every_small(4, b"A*-", 2), alleles.long_rolls(), generated):
        steps, lengths = trim_and_roll(*allele), form(*allele)
        if steps != lengths:
            print(f"DISAGREEMENT at {allele}\n  by steps    {steps}\n  by lengths  {lengths}")
            sys.exit("steps: FAILED")
        if altered(allele[0], lengths.start, lengths.end, lengths.replacement) != altered(*allele):
            print(f"DISAGREEMENT at {allele}\n  another sequence is made by {lengths}")
            sys.exit("steps: FAILED")
        by = moved(allele[1], allele[2], lengths)
        if told(allele[1], allele[2], by) != (steps.start, steps.end) or not one_way(by):
            print(f"DISAGREEMENT at {allele}\n  moved {by}, to {steps}")
            sys.exit("steps: FAILED")
        tried += 1
    print(f"steps: ok, {tried} alleles have the same normal form by steps and by lengths, and it makes their sequence; "
          "how far they moved tells where it lies")


if __name__ == "__main__":
    main()
