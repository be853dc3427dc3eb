"""The line program, said a second time: reads standard input and prints what is to be printed."""
import re
import sys

import model

MOST_READ = 65_536
NUMBER = re.compile(rb"0|[1-9][0-9]{0,19}")


def number(field):
    """The number that a field is the decimal of, or None."""
    if NUMBER.fullmatch(field) and int(field) < 2 ** 64:
        return int(field)
    return None


def answer(reference, line):
    """The answer to a line, without its line feed."""
    fields = line.split(b" ")
    if len(fields) != 3 or not fields[2]:
        return b"unread"
    start, end = number(fields[0]), number(fields[1])
    if start is None or end is None:
        return b"unread"
    refusal, _, form = model.formed(reference, start, end, b"" if fields[2] == b"." else fields[2])
    if refusal != 0:
        return b"refused %d" % refusal
    kind, moved = model.KINDS[form.kind].encode(), model.moved(start, end, form)
    return b"%d %d %s %s %d %d %d %d" % (form.start, form.end, kind, form.replacement or b".", *moved)


def output(given):
    """What is printed for a whole input."""
    reference, *lines = given[:MOST_READ].split(b"\n")
    if lines and not lines[-1]:
        lines.pop()
    return b"".join(answer(reference, line) + b"\n" for line in lines)


if __name__ == "__main__":
    sys.stdout.buffer.write(output(sys.stdin.buffer.read()))
