"""Runs the program in a folder of its own, beside the second program, and compares all that both leave."""
import os
import shutil
import subprocess
import sys
import tempfile
from contextlib import ExitStack, contextmanager
from pathlib import Path
from typing import NamedTuple

# Both scripts import this file first, so that all others find the second program too.
sys.path.insert(1, str(Path(__file__).resolve().parents[1] / "second"))

import program
from command_line import COMMANDS, asked

# Long enough for a slow machine.
PATIENCE = 120
BOTH = "[--tsv]"
# Nothing here hangs on a disk, and without one a save is much quicker.
MEMORY = "/dev/shm" if os.access("/dev/shm", os.W_OK) else None


class Disagreement(Exception):
    """What the program left, and what it had to leave."""


class Left(NamedTuple):
    """What a run has left on the standard streams, and its status."""

    status: int
    out: bytes
    said: bytes


def words(line):
    """The words of a command line in which no word has a blank."""
    return line.encode().split()


def script(text):
    """The commands of a text, one in a line; one that ends in [--tsv] is given for people and with tabs."""
    lines = [line.strip() for line in text.splitlines() if line.strip()]
    return [words(given) for line in lines
            for given in ([line[:-len(BOTH)], line[:-len(BOTH)] + "--tsv"] if line.endswith(BOTH) else [line])]


def absolute(starting):
    """The words that start the program, from any folder."""
    return [os.path.abspath(word) if os.path.exists(word) else word for word in starting]


class Folder:
    """A folder that is removed at the end, with these files in it."""

    def __init__(self, files):
        self.path = Path(tempfile.mkdtemp(prefix="fearnavult-", dir=MEMORY)).resolve()
        for name, text in files.items():
            self.put(name, text)

    def __enter__(self):
        return self

    def __exit__(self, *_):
        self.remove()

    def remove(self):
        shutil.rmtree(self.path)

    def at(self, name):
        return self.path / os.fsdecode(name)

    def put(self, name, text):
        if text is program.FOLDER:
            self.at(name).mkdir()
        else:
            self.at(name).write_bytes(text)

    def files(self):
        return {os.fsencode(path.name): program.FOLDER if path.is_dir() else path.read_bytes()
                for path in self.path.iterdir()}

    @contextmanager
    def held(self):
        """The files, held open, so that no later file is taken for one of them."""
        with ExitStack() as stack:
            yield {path: stack.enter_context(path.open("rb")) for path in self.path.iterdir() if path.is_file()}


def run(starting, folder, command, given=b"", **more):
    """One run of the program. Names in what it says are those within the folder."""
    done = subprocess.run([*starting, *command], input=given, cwd=folder.path, timeout=PATIENCE, check=False,
                          stdout=more.pop("stdout", subprocess.PIPE), stderr=subprocess.PIPE, **more)
    return Left(done.returncode, done.stdout, done.stderr.replace(os.fsencode(folder.path) + b"/", b""))


def shown(text, most=3000):
    return text[:most].decode("latin-1") + ("" if len(text) <= most else f"... of {len(text)} bytes")


def differ(command, what, left, expected):
    said = b" ".join(command).decode("latin-1")
    raise Disagreement(f"fearnavult {said}\n--- {what}, as it was:\n{left}\n--- as it had to be:\n{expected}")


def same(command, what, left, expected):
    if left != expected:
        differ(command, what, *(shown(text) if isinstance(text, bytes) else text for text in (left, expected)))


def usage_line(command):
    """The last line that is said about bad usage."""
    named = command[0] + b" " if command and command[0] in COMMANDS else b""
    return b"fearnavult " + named + b"--help tells how it is used\n"


def compare_said(command, left, expected):
    if not expected.bad_usage:
        same(command, "standard error", left.said, expected.said)
        return
    if not left.said.startswith(b"fearnavult: ") or not left.said.endswith(b"\n" + usage_line(command)):
        differ(command, "standard error", shown(left.said), "fearnavult: WHAT\n" + usage_line(command).decode())


def compare_files(command, left, expected):
    same(command, "the folder's files", sorted(left), sorted(expected))
    for name in sorted(expected):
        if left[name] != expected[name]:
            differ(command, f"the file {name.decode()}", summary(left[name]), summary(expected[name]))


def summary(text):
    return f"{len(text)} bytes: {text[:400].hex(' ', 4)}"


def compare_kept(command, held, expected):
    """A register that is saved is replaced by another file as a whole, and no other file is."""
    for path, file in held.items():
        if path.exists():
            kept = os.path.samestat(os.fstat(file.fileno()), path.stat())
            saved = expected.saved and os.fsencode(path.name) == register_of(command)
            same(command, f"whether {path.name} is the same file", kept, not saved)


def register_of(command):
    return asked(command).register()


def compared(starting, folder, command, given=b""):
    """Runs the program and the second one, and answers what the program left on the standard streams."""
    expected = program.answer(command, folder.files(), given)
    with folder.held() as held:
        left = run(starting, folder, command, given)
        same(command, "the status", (left.status, left.said), (expected.status, left.said))
        same(command, "standard output", left.out, expected.out)
        compare_said(command, left, expected)
        compare_files(command, folder.files(), expected.files)
        compare_kept(command, held, expected)
    return left
