"""Kills the program at many moments while it enters a VCF file, and starts several at once: the register always holds
one of the images that the second program works out, and nothing that was printed is lost.

usage: survival.py WORD...      (the words that start the program)
"""
import random
import signal
import subprocess
import sys
import time
from collections import Counter
from contextlib import contextmanager
from typing import NamedTuple

import started
from started import PATIENCE, Disagreement, Folder, Left, compared, same, words
from writers import writers

import alleles
import program
from calls import Entering
from cells import Sequence

LINES, EVERY = 1000, 10
SAVES = LINES // EVERY
# How many kills at the very beginning, anywhere in the running time, and while it saves.
EARLY, ANYWHERE, SAVING = 30, 50, 120
KILLS = EARLY + ANYWHERE + SAVING
FEWEST_BETWEEN = 50
COMMAND = words(f"enter r.fv -r ref.fa --vcf calls.vcf --tsv --every {EVERY}")
OUT = "printed"


class Work(NamedTuple):
    """What is to be entered, and the register before it and after each save: how many saves each image holds."""

    files: dict
    images: dict


def data_lines(reference):
    """So many lines that no two of them make the same sequence: at each place another letter, or some more."""
    step = len(reference) // LINES
    for i in range(LINES):
        at = i * step
        ref = reference[at:at + 1]
        others = [letter for letter in (b"A", b"C", b"G", b"T") if letter != ref]
        yield b"chr1\t%d\t.\t%s\t%s" % (at + 1, ref, others[i % 3] if i % 2 else ref + others[i % 3] * 9)


def work():
    reference = alleles.residues(random.Random(81), 5 * LINES)
    lines = list(data_lines(reference))
    files = {b"ref.fa": b">chr1\n" + reference + b"\n", b"calls.vcf": b"\n".join(lines) + b"\n"}
    files = program.answer(words("blank r.fv -r ref.fa --records 1100 --journal 1200 --pool 60000"), files).files
    sequence = Sequence(b"chr1", reference)
    entering = Entering(files[b"r.fv"], sequence, sequence.digest())
    images = {entering.image: 0}
    for saves, _ in enumerate(entering.batches(lines, EVERY), 1):
        images[entering.image] = saves
    if len(images) != SAVES + 1:
        raise SystemExit(f"survival: FAILED: {len(images)} images, not {SAVES + 1}")
    return Work(files, images)


def saves_in(folder, images):
    """How many saves the register holds. Whenever it is read, it is one of the images as a whole."""
    image = folder.at("r.fv").read_bytes()
    if image not in images:
        raise Disagreement(f"the register is none of the {len(images)} images: {started.summary(image)}")
    return images[image]


@contextmanager
def begun(starting, folder):
    """The program at work. Whatever comes between, it does not outlast this."""
    with open(folder.at(OUT), "wb") as out:
        process = subprocess.Popen([*starting, *COMMAND], cwd=folder.path, stdin=subprocess.DEVNULL, stdout=out,
                                   stderr=subprocess.PIPE)
    try:
        yield process
    finally:
        process.kill()
        process.communicate(timeout=PATIENCE)


def full_run(starting, task):
    """How long it takes until something is saved, and until the end."""
    before = time.perf_counter()
    with Folder(task.files) as folder, begun(starting, folder) as process:
        while saves_in(folder, task.images) == 0 and process.poll() is None:
            time.sleep(0.0005)
        first = time.perf_counter() - before
        _, said = process.communicate(timeout=PATIENCE)
        whole = time.perf_counter() - before
        left = Left(process.returncode, folder.at(OUT).read_bytes(), said)
        same(COMMAND, "without a kill", left, Left(*program.answer(COMMAND, task.files)[:3]))
        same(COMMAND, "the saves", saves_in(folder, task.images), SAVES)
        return first, whole


def by_the_clock(delay):
    """A moment so long after the start."""
    def wait(_process, _folder, _images):
        time.sleep(delay)
    return wait


def by_the_saves(saves, delay):
    """A moment so long after so many saves."""
    def wait(process, folder, images):
        while saves_in(folder, images) < saves and process.poll() is None:
            time.sleep(0.0002)
        time.sleep(delay)
    return wait


def moments(rng, first, whole):
    """Some by the clock, over the time until the first save and over all of the running time; most by how far it has
    come, so that they fall between two saves on any machine."""
    interval = (whole - first) / SAVES
    chosen = [by_the_clock(first * rng.random()) for _ in range(EARLY)]
    chosen += [by_the_clock(whole * rng.random()) for _ in range(ANYWHERE)]
    chosen += [by_the_saves(rng.randint(1, SAVES - 1), interval * rng.random()) for _ in range(SAVING)]
    rng.shuffle(chosen)
    return chosen


def kill(starting, folder, moment, images):
    """Starts the program, kills it at that moment, and answers how many saves the register holds then."""
    before = saves_in(folder, images)
    with begun(starting, folder) as process:
        moment(process, folder, images)
        seen = saves_in(folder, images)
        process.kill()
        _, said = process.communicate(timeout=PATIENCE)
    if process.returncode not in (0, -signal.SIGKILL):
        raise Disagreement(f"the program ended with {process.returncode}: {started.shown(said)}")
    saves = saves_in(folder, images)
    printed = folder.at(OUT).read_bytes().count(b"\n") - 1
    if saves < max(before, seen) or printed > EVERY * saves:
        raise Disagreement(f"after {before} saves, then {seen}, and {printed} rows printed the register holds {saves}")
    folder.at(OUT).unlink()
    return saves


def when(saves):
    return "before" if saves == 0 else "after" if saves == SAVES else "between"


def start_afresh(folder, files):
    """What a kill has left is gone, and the register is as it was at first."""
    for path in folder.path.glob("r.fv*"):
        path.unlink()
    folder.put(b"r.fv", files[b"r.fv"])


def kills(starting, task):
    """Each kill is of a fresh register, or goes on with what the last one left. Then the next run ends the work."""
    rng = random.Random(82)
    met = Counter()
    first, whole = full_run(starting, task)
    with Folder(task.files) as folder:
        for moment in moments(rng, first, whole):
            if rng.random() < 0.7:
                start_afresh(folder, task.files)
            else:
                met["going on"] += 1
            met[when(kill(starting, folder, moment, task.images))] += 1
            met["half-written"] += folder.at("r.fv.new").exists()
            compared(starting, folder, words("check r.fv"))
        compared(starting, folder, COMMAND)
        same(COMMAND, "the saves at the end", saves_in(folder, task.images), SAVES)
    return met, whole


def main(starting):
    starting = started.absolute(starting)
    tried = writers(starting)
    print(f"survival: {tried} commands beside a program that is changing the register, or at once")
    met, whole = kills(starting, work())
    print(f"survival: {KILLS} kills of a run of {whole:.2f} s: {met['before']} before the first of {SAVES} saves, "
          f"{met['between']} between two, {met['after']} after the last; {met['half-written']} left a new image, "
          f"{met['going on']} went on from the kill before")
    if met["between"] < FEWEST_BETWEEN:
        sys.exit(f"survival: FAILED: fewer than {FEWEST_BETWEEN} kills fell between two saves")
    print("survival: ok, every image is one that the second program works out, and holds all that was printed")


if __name__ == "__main__":
    try:
        main(sys.argv[1:])
    except Disagreement as found:
        print(found)
        sys.exit("survival: FAILED")
