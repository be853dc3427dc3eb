"""Works out what a power cut leaves. The program, with power.c in it, notes the calls by which it changes files. After
each of them the power is cut: whatever disk.py then finds that the register may hold has to be the image before or
after a save, as the second program works it out, and has to hold all that was printed.

usage: power.py WORD...      (the words that start the program with power.c in it)
"""
import os
import sys
from collections import Counter
from io import BytesIO

import started
from cases import CAG, SMALL, image_of, some_register
from disk import Disk, texts_in
from started import Disagreement, Folder, Left, run, same, script

import program
from command_line import asked

IMAGE = image_of(some_register(records=9, journal=14, pool=90))
# New, known, again, known, new and refused, new, new.
CALLS = (b"chr1\t3\t.\tA\tC\n", b"chr1\t4\t.\tG\tGCAG\n", b"chr1\t3\t.\tA\tT\n", b"chr1\t3\t.\tA\tT\n",
         b"chr1\t3\t.\tA\tG,*\n", b"chr1\t1\t.\tT\tA\n", b"chr1\t1\t.\tT\tC\n")
# The rows of the long one are more than a table with tabs keeps back where nothing is to be saved.
FILES = {b"cag.fa": CAG, b"calls.vcf": b"".join(CALLS), b"known.vcf": CALLS[1] * 3,
         b"long.vcf": CALLS[0] + CALLS[1] * 1000, b"sub": program.FOLDER,
         b"r.fv": IMAGE, b"sub/r.fv": IMAGE, b"blank.fv": image_of(some_register(issued=(), journalled=())),
         b"left.fv": IMAGE, b"left.fv.lock": b"", b"left.fv.new": IMAGE[3:] * 2}
# The second program knows no links.
LINK, LEADS_TO = b"link.fv", b"sub/r.fv"
PLACES = "r.fv", "sub/r.fv", "link.fv", "left.fv"
CHANGES = f"""
    blank NAME -r cag.fa {SMALL} --force [--tsv]
    enter NAME -r cag.fa 2 3 C [--tsv]
    enter NAME -r cag.fa 2 3 T
    enter NAME -r cag.fa --vcf calls.vcf [--tsv]
    enter NAME -r cag.fa --vcf calls.vcf --every 1 [--tsv]
    enter NAME -r cag.fa --vcf calls.vcf --every 3 [--tsv]
    withdraw NAME 1
    undo NAME
    seal NAME
"""
MORE_CHANGES = script(f"""
    blank new.fv -r cag.fa {SMALL}
    blank sub/new.fv -r cag.fa {SMALL} --tsv
    enter r.fv -r cag.fa --vcf long.vcf [--tsv]
""")
NO_CHANGES = """
    blank NAME -r cag.fa
    enter NAME -r cag.fa 4 4 CAG
    enter NAME -r cag.fa 4 4 .
    enter NAME -r cag.fa --vcf known.vcf --every 1 [--tsv]
    withdraw NAME 2
    list NAME -r cag.fa [--tsv]
    show NAME 1 -r cag.fa
    check NAME
"""
MORE_NO_CHANGES = script(f"""
    blank blank.fv -r cag.fa {SMALL} --force
    undo blank.fv
    seal blank.fv
""")


def steps(command, files):
    """The register, and what is printed by then: before the command, and whenever it may have saved."""
    what = asked(command)
    yield files.get(what.register()), b""
    lines = files[what.vcf].splitlines(True) if what.vcf else [b""]
    size = what.every or len(lines)
    for end in range(size, len(lines) + size, size):
        answer = program.answer(command, files | {what.vcf: b"".join(lines[:end])})
        yield answer.files.get(what.register()), answer.out


def noted(starting, folder, command):
    """What a run leaves, and the calls that it has noted, each with how much was printed before it."""
    with Folder({}) as beside:
        with open(beside.at("printed"), "wb") as out:
            environment = os.environ | {"POWER_NOTES": str(beside.at("notes"))}
            left = run(starting, folder, command, stdout=out, env=environment)
        printed, notes = beside.at("printed").read_bytes(), BytesIO(beside.at("notes").read_bytes())
    calls = []
    for line in notes:
        before, name, *words = line.split()
        if name == b"write":
            words[1] = notes.read(int(words[1]))
        calls.append((int(before), name.decode(), words))
    return left._replace(out=printed), calls


def cut(command, disk, printed, images):
    """Whatever a power cut may leave now is one of the images, and holds what is printed. Answers how many may be."""
    found = disk.may_hold()
    for image in found:
        held = max((len(out) for known, out in images if known == image), default=None)
        if held is None:
            kept = "no file" if image is None else started.summary(image)
            started.differ(command, "after a power cut", kept, "an image before or after a save")
        if held < printed:
            started.differ(command, "after a power cut, bytes held of what is printed", held, printed)
    return len(found)


def tried(starting, command, changes):
    """A command, and the power cut after each of its calls. Answers how often that was, and what was met."""
    files, met = FILES | {LINK: FILES[LEADS_TO]}, Counter()
    images, answer = list(steps(command, files)), program.answer(command, files)
    with Folder(FILES) as folder:
        folder.at(LINK).symlink_to(os.fsdecode(LEADS_TO))
        disk = Disk(str(folder.path), os.fsdecode(command[1]))
        left, calls = noted(starting, folder, command)
        same(command, "what is left", left, Left(*answer[:3]))
        for printed, name, words in calls:
            met["states"] += cut(command, disk, printed, images)
            getattr(disk, name)(*words)
        met["states"] += cut(command, disk, len(left.out), images)
        same(command, "the files, by the calls noted", disk.texts(), texts_in(folder.path))
    met["cuts"] = len(calls) + 1
    met["saves"] = sum(one != other for (one, _), (other, _) in zip(images, images[1:]))
    same(command, "whether it is to change the register", met["saves"] > 0, changes)
    same(command, "the saves", disk.saves, met["saves"])
    same(command, "the writes in place", disk.writes_in_place, 0)
    endings = ["", ".new"] * changes + [".lock"] * (command[1] + b".lock" in answer.files.keys() - files.keys())
    place, name = disk.register
    same(command, "the files that it changed", disk.changed, {(place, name + ending) for ending in endings})
    return met


def main(starting):
    starting, met = started.absolute(starting), Counter()
    changes = [command for name in PLACES for command in script(CHANGES.replace("NAME", name))] + MORE_CHANGES
    no_changes = [command for name in PLACES for command in script(NO_CHANGES.replace("NAME", name))] + MORE_NO_CHANGES
    for command in changes:
        met += tried(starting, command, True)
    for command in no_changes:
        met += tried(starting, command, False)
    print(f"power: ok, {len(changes)} commands save {met['saves']} times and {len(no_changes)} write nothing; "
          f"{met['cuts']} power cuts may leave {met['states']} images, all whole and with all that was printed")


if __name__ == "__main__":
    try:
        main(sys.argv[1:])
    except Disagreement as found:
        print(found)
        sys.exit("power: FAILED")
