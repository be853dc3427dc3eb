"""The second program as a command: the words, the files of the folder that it is started in, and what they come to.

usage: fearnavult.py WORD... (as the program fearnavult)
"""
import os
import sys
from pathlib import Path

import program


def files_here():
    return {os.fsencode(path.name): program.FOLDER if path.is_dir() else path.read_bytes() for path in Path().iterdir()}


def main():
    before = files_here()
    answer = program.answer([os.fsencode(word) for word in sys.argv[1:]], before)
    for name, text in answer.files.items():
        if before.get(name) != text:
            Path(os.fsdecode(name)).write_bytes(text)
    sys.stdout.buffer.write(answer.out)
    sys.stdout.buffer.flush()
    sys.stderr.buffer.write(answer.said)
    sys.exit(answer.status)


main()
