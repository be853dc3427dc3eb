"""Asks for help, and for the version."""
import re
from pathlib import Path

from command_line import COMMANDS, SPELLED
from started import Folder, differ, run, same, shown

HEADER = Path(__file__).resolve().parents[2] / "include" / "fearnavult.h"


def options_of(command):
    """The spellings of the options that a command takes."""
    taken = COMMANDS[command][0] | {"tsv"}
    return [spelled for spelled, option in SPELLED.items() if option in taken and spelled != b"--reference"]


def names(text, name):
    """Whether a name stands in a text by itself, not only within another."""
    return re.search(rb"(?<![\w-])" + re.escape(name) + rb"(?![\w-])", text)


def check_help(starting, folder, command, named):
    left = run(starting, folder, command)
    same(command, "the status, and standard error", (left.status, left.said), (0, b""))
    missing = [name.decode() for name in named if not names(left.out, name)]
    if missing:
        differ(command, "standard output", shown(left.out), f"something that names {missing}")


def check_version(starting, folder):
    parts = re.findall(r"^#define FV_VERSION_(?:MAJOR|MINOR|PATCH) ([0-9]+)$", HEADER.read_text("utf-8"), re.MULTILINE)
    left = run(starting, folder, [b"--version"])
    same([b"--version"], "all that it says", left, (0, f"fearnavult {'.'.join(parts)}\n".encode(), b""))


def helps(starting):
    asked = 1
    with Folder({}) as folder:
        for option in (b"--help", b"-h"):
            check_help(starting, folder, [option], [*COMMANDS, b"--help", b"--version"])
            for command in COMMANDS:
                check_help(starting, folder, [command, option], [command, *options_of(command)])
                asked += 1
        check_version(starting, folder)
        same([b"--help"], "the folder's files", folder.files(), {})
    return asked + 2
