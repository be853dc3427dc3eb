"""Alleles whose pictures have every shape, as scenarios: on short and long references, with up to three gaps."""
import random

import alleles
import model
from cases import Scenario, allele_words
from picture import laid_out, layout, moves, residues
from started import words

DISTANCES = (0, 0, 1, 2, 3, 5, 7, 8, 9, 10, 11, 13, 19, 20, 21, 22, 23, 24, 25, 30, 60)
LONGEST_WORD = 100_000  # that the system takes, or nearly
# What the pictures have to show somewhere.
WANTED = {*(f"{runs} runs" for runs in (1, 2, 3, 4)), *(f"cut {side}" for side in ("before", "behind")), "whole",
          *(f"near {near}" for near in range(3, 11)), "<", ">", "X", ".", "a stop", "a gap"}


def shrinking(rng, reference):
    """Given wider than need be on both sides: four edges, at any distance from each other and from the ends."""
    n = len(reference)
    edges = [min(n, rng.choice((0, 1, 3, 9, 10, 11, 12, 14, rng.randint(0, n))))]
    while len(edges) < 4:
        edges.append(min(n, edges[-1] + rng.choice((*DISTANCES, rng.randint(0, n)))))
    start, left, right, end = edges
    return start, end, reference[start:left] + b"WSK"[:rng.randint(0, 3)] + reference[right:end]


def in_a_repeat(rng):
    """A unit that comes or goes within a repeat; the interval may be given past the repeat's end, on either side."""
    unit = alleles.residues(rng, rng.randint(1, 5))
    before, behind = (alleles.residues(rng, rng.choice((0, 1, 5, 12, 40, 200)), b"WSKM") for _ in range(2))
    times = rng.choice((1, 2, 4, 9, 14, 40, 400))
    reference = before + unit * times + behind
    at = len(before) + len(unit) * rng.randint(0, times)
    last = at + len(unit) if rng.random() < 0.5 and at + len(unit) <= len(before + unit * times) else at
    replacement = b"" if last > at else unit
    wider = rng.choice((0, 0, rng.choice(DISTANCES)))
    if rng.random() < 0.5:
        start = max(0, at - wider)
        return reference, start, last, reference[start:at] + replacement
    end = min(len(reference), last + wider)
    return reference, at, end, replacement + reference[last:end]


def some_alleles(rng):
    for _ in range(70):
        yield alleles.any_allele(rng)
    for _ in range(70):
        yield in_a_repeat(rng)
    for length in (0, 1, 2, 7, 30, 31, 32, 33, 34, 60, 200, 1200):
        reference = alleles.residues(rng, length)
        for _ in range(6):
            yield reference, *shrinking(rng, reference)
    for _ in range(3):
        yield rng.choice(list(alleles.every_small(longest=4)))


def seen(reference, start, end, replacement):
    """What of WANTED the picture of an allele shows."""
    normal = model.form(reference, start, end, replacement)
    points, n = (start, end, normal.start, normal.end), len(reference)
    laid = layout(points, n)
    found = {f"{len(laid.runs)} runs", *moves(laid, (start, end), (normal.start, normal.end)).values()}
    found |= {f"near {near}" for near in range(3, 11) if laid_out(points, n, near) == laid}
    shown = residues(laid, reference)
    found |= {what for what, residue in (("a stop", "*"), ("a gap", "-")) if residue in shown}
    found |= {"cut before"} if laid.cut_before else set()
    found |= {"cut behind"} if laid.cut_behind else set()
    return found | ({"whole"} if not laid.cut_before and not laid.cut_behind and len(laid.runs) == 1 else set())


def many_references(rng):
    tried = list(some_alleles(rng))
    missed = WANTED.difference(*(seen(*allele) for allele in tried))
    if missed:
        raise SystemExit(f"commands: FAILED: no picture shows {sorted(missed)}")
    text = b"".join(b">s%d\n%s\n" % (i, reference) for i, (reference, *_) in enumerate(tried))
    yield Scenario("pictures", {b"many.fa": text}, [
        words(f"form -r many.fa --name s{i} {allele_words(*allele)}") for i, (_, *allele) in enumerate(tried)])


def long_reference(rng):
    """Numbers of many digits, and edges far apart; the alleles are entered and shown too. The last have a number at
    every place of a run, also where it would touch the next run."""
    reference = alleles.residues(rng, 40_000) + b"CAG" * 7000 + alleles.residues(rng, 1_000_000) + b"A" * 10
    n = len(reference)
    given = [(50_000, 50_000, b"CAG"), (40_000, 61_000, b""), (n - 10, n - 5, b""), (n, n, b"AA"), (0, 0, b"G"),
             (0, n, b""), (12_345, 12_346, b"N"), (9_998, 10_003, b"NN"), (n - 1, n, b"C"), (0, 99_999, b"N")]
    given += [allele for allele in (shrinking(rng, reference) for _ in range(25)) if len(allele[2]) < LONGEST_WORD]
    given += [(start + i, 1_000_000 + 3 * i, b"W") for start in (2000, 90_000, 123_450) for i in range(5)]
    given += [(70_000, 1_000_000 + i, reference[70_000:80_000] + b"W" + reference[900_000:1_000_000 + i][-9000:])
              for i in range(5)]
    commands = [words("blank r.fv -r long.fa --pool 3000000")]
    commands += [words(f"form -r long.fa --name chr9 {allele_words(*allele)}") for allele in given]
    commands += [words(f"enter r.fv -r long.fa {allele_words(*allele)}") for allele in given[:12]]
    commands += [words(f"show r.fv {number} -r long.fa") for number in range(1, 12)]
    yield Scenario("a long reference", {b"long.fa": b">chr9 long\n" + reference + b"\n"},
                   [*commands, words("list r.fv -r long.fa")])


def drawing_scenarios():
    yield from many_references(random.Random(71))
    yield from long_reference(random.Random(72))
