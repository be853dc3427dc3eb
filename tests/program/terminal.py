"""The bar that tells how far a VCF file is read: drawn where standard error is a terminal, and wiped at the end."""
import os
import pty
import re
import subprocess
import threading

import program
from cases import CAG, image_of, some_register
from file_shapes import HEADER
from started import PATIENCE, Folder, differ, same, shown, words

LINES = 6000
CELLS = 20
DRAWN = re.compile(rb"\r\[(#*)(\.*)\] ([ 0-9]{3}) % ([0-9]+) lines")
COUNTED = re.compile(rb"\r([0-9]+) lines")
WIPED = b"\r\x1b[K"


def terminal_text(master):
    """All that a terminal gets until nobody has it open any more."""
    text = b""
    while True:
        try:
            read = os.read(master, 65536)
        except OSError:  # how a terminal ends
            return text
        if not read:
            return text
        text += read


def feed(process, given):
    with process.stdin:
        process.stdin.write(given)


def run_on_terminal(starting, folder, command, given):
    """Standard output, and what the terminal got, its line ends as they were written."""
    master, slave = pty.openpty()
    with open(folder.at("out"), "wb+") as out:
        process = subprocess.Popen([*starting, *command], cwd=folder.path, stdin=subprocess.PIPE, stdout=out,
                                   stderr=slave)
        os.close(slave)
        feeding = threading.Thread(target=feed, args=(process, given))
        feeding.start()
        text = terminal_text(master)
        feeding.join()
        process.wait(PATIENCE)
        os.close(master)
        out.seek(0)
        return out.read(), text.replace(b"\r\n", b"\n")


def bars(command, text):
    """How far the bar says it is, each time it is drawn: in parts of a hundred, and in lines."""
    drawn = list(DRAWN.finditer(text))
    same(command, "what is drawn", b"".join(bar[0] for bar in drawn), text)
    for bar in drawn:
        filled = int(bar[3]) * CELLS // 100
        same(command, "the bar", (len(bar[1]), len(bar[2])), (filled, CELLS - filled))
    return [int(bar[3]) for bar in drawn], [int(bar[4]) for bar in drawn]


def check_bar(command, text):
    """Drawn again only where it has something new to say."""
    parts, lines = bars(command, text)
    same(command, "the parts of a hundred", parts, sorted(set(parts) & set(range(101))))
    same(command, "the lines", lines, sorted(lines))
    if len(parts) < 90 or max(lines) > LINES:
        differ(command, "the bar", shown(text), "a bar that is drawn for nearly every part of a hundred")


def check_count(command, text):
    same(command, "the lines so far", text, b"".join(b"\r%d lines" % count for count in range(1000, LINES + 1, 1000)))


def check_terminal(starting, line, given, check):
    command = words(line)
    files = {b"cag.fa": CAG, b"r.fv": image_of(some_register()), b"a.vcf": given}
    with Folder(files) as folder:
        expected = program.answer(command, files, given)
        out, text = run_on_terminal(starting, folder, command, b"" if b"a.vcf" in command else given)
        same(command, "standard output", out, expected.out)
        drawn, wiped, summary = text.rpartition(WIPED)
        same(command, "what is said after the bar is wiped", wiped + summary, WIPED + expected.said)
        check(command, drawn.replace(WIPED, b""))  # it may be wiped for rows, too


def terminal(starting):
    calls = HEADER + b"chr1\t4\t.\tG\tGCAG\n" * (LINES - HEADER.count(b"\n"))
    tests = (("form -r cag.fa --vcf a.vcf --tsv", check_bar),
             ("enter r.fv -r cag.fa --vcf a.vcf", check_bar),
             ("form -r cag.fa --vcf -", check_count),
             ("enter r.fv -r cag.fa --vcf - --every 999", check_count))
    for line, check in tests:
        check_terminal(starting, line, calls, check)
    return len(tests)
