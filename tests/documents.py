"""Holds the documents to the tree: every file that they name is there, every definition, law and call that
docs/DEMANDS.md and docs/CALLS.md name is written somewhere, and what a row of DEMANDS.md states stands in a file that
the row names.

With words, which start the program fearnavult, it holds the consoles of README.md and docs/PROGRAM.md to the program
instead: every command that one shows, in a copy of examples/lab, prints what stands under it.
"""
import os
import re
import shlex
import shutil
import subprocess
import sys
from difflib import unified_diff
from glob import glob
from pathlib import Path
from tempfile import TemporaryDirectory

DOCUMENTS = ("README.md", "CHANGELOG.md", *sorted(glob("docs/*.md")))
QUOTING = ("docs/DEMANDS.md", "docs/CALLS.md")
CONSOLES = "README.md", "docs/PROGRAM.md"
FILE = re.compile(r"[\w.*/-]+/[\w.*-]+\.(?:antt|rt|md|py|c|h|sh|txt|edit)\b")
# Words that stand for a name.
STANDS_FOR = re.compile(r"NAME|MODULE|FUNCTION|LABEL|PREFIX")


def files_missing(document):
    """The files that a document names and that are not there: below the root, tests/, crates/ or a crate, or beside it."""
    text = Path(document).read_text("utf-8")
    places = (Path("."), Path("tests"), Path("crates"), Path("crates", "*"), Path(document).parent)
    for name in sorted(set(FILE.findall(text))):
        if not STANDS_FOR.search(name) and not any(glob(str(place / name)) for place in places):
            yield name


def names_written():
    """The words of all sources, of what the programs print, and of the list of crates."""
    sources = (path for suffix in ("antt", "rt") for path in Path("crates").rglob(f"*.{suffix}"))
    printed = Path("crates").glob("*/stdout")
    return {word for path in (*sources, *printed, Path("crates.txt")) for word in re.findall(r"[\w-]+", path.read_text("utf-8"))}


def names_missing(document, words):
    """The names that a document quotes and that are not among the words, but for the beginnings of names."""
    quoted = re.findall(r"`([A-Za-z][\w:-]*)`", Path(document).read_text("utf-8"))
    parts = {part for name in quoted for part in name.split("::")}
    return sorted(part for part in parts - words if not part.endswith("-"))


def files_of(cell):
    """The files of crates/ that a cell names; one without a folder stands beside the one before it."""
    folder = Path()
    for name in re.findall(r"[\w/]+\.(?:antt|rt)\b", cell):
        folder = Path("crates", name).parent if "/" in name else folder
        yield folder / Path(name).name


def statements_elsewhere():
    """The names that a row of docs/DEMANDS.md states and that none of its files has."""
    for line in Path("docs/DEMANDS.md").read_text("utf-8").splitlines():
        cells = line.split(" | ")
        if not line.startswith("|") or len(cells) < 4:
            continue
        texts = [path.read_text("utf-8") for path in files_of(cells[2])]
        words = {word for text in texts for word in re.findall(r"[\w-]+", text)}
        yield from (name for name in re.findall(r"`([A-Za-z][\w-]*)`", cells[1]) if texts and name not in words)


def commands_shown(document):
    """The commands of a document's indented blocks, a line `$ COMMAND` each, with the lines that stand under them."""
    blocks = re.findall(r"(?m)(?:^    .*\n(?:\n(?=    ))*)+", Path(document).read_text("utf-8"))
    for block in blocks:
        for shown in re.split(r"(?m)^    \$ ", block)[1:]:
            command, *lines = shown.splitlines()
            yield command, [line.removeprefix("    ") for line in lines]


def lines_printed(command, folder, programs):
    """The lines that a command prints, on standard output and standard error as they come."""
    environment = {**os.environ, "LC_ALL": "C", "PATH": f"{programs}:{os.environ['PATH']}"}
    done = subprocess.run(["sh", "-c", command], cwd=folder, env=environment, stdin=subprocess.DEVNULL,
                          stdout=subprocess.PIPE, stderr=subprocess.STDOUT, check=False)
    return done.stdout.decode("utf-8", "replace").splitlines()


def follow(document, words):
    """Types the commands of a document's consoles, in order, and tells the first that prints something else."""
    with TemporaryDirectory() as folder:
        laboratory, programs = Path(folder, "lab"), Path(folder, "bin")
        shutil.copytree("examples/lab", laboratory)
        programs.mkdir()
        program = programs / "fearnavult"
        program.write_text(f'#!/bin/sh\nexec {shlex.join(words)} "$@"\n', "utf-8")
        program.chmod(0o755)
        commands = list(commands_shown(document))
        for command, shown in commands:
            lines = lines_printed(command, laboratory, programs)
            if lines != shown:
                difference = unified_diff(shown, lines, document, "printed", lineterm="")
                sys.exit("\n".join((f"documents: FAILED: $ {command}", *difference)))
    print(f"documents: ok, {len(commands)} commands of {document}")


def hold_to_tree():
    words = names_written()
    missing = [f"{document} names {name}" for document in DOCUMENTS for name in files_missing(document)]
    missing += [f"{document} names {name}" for document in QUOTING for name in names_missing(document, words)]
    missing += [f"docs/DEMANDS.md states {name} in no file of its row" for name in statements_elsewhere()]
    if missing:
        sys.exit("documents: FAILED: " + "; ".join(missing))
    print(f"documents: ok, {len(DOCUMENTS)} of them")


def main():
    words = [os.path.abspath(word) if os.path.exists(word) else word for word in sys.argv[1:]]
    if not words:
        hold_to_tree()
    for document in CONSOLES if words else ():
        follow(document, words)


main()
