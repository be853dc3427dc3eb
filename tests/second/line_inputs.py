"""Inputs for the line program: it has to print for each what lines.py says.

usage: line_inputs.py PROGRAM [WORD...]
"""
import random
import subprocess
import sys
import time

import lines
from model import RESIDUES

SEED = 1
RANDOM_INPUTS = 60

ODD_FIELDS = (
    b"", b".", b"..", b".A", b"A.", b"a", b"A", b"ACGT", b"*", b"**", b"-", b"-*", b"*.", b".-", b"+", b",", b")",
    b"0", b"00", b"01", b"1", b"+1", b"-1", b"1.0", b"0x1", b"1e3",
    b"9", b"10", b"18446744073709551615", b"18446744073709551616", b"18446744073709551620", b"20000000000000000000",
    b"99999999999999999999", b"100000000000000000000", b"1" * 40, b"1" * 5000, b"A\r", b"\r", b"\t", b"1\t", b"\x00",
    b"\xa0", b"\xff", b"/", b":", "\u00b2".encode(), "\uff11".encode(),
)
FEW = b"ACGT*-"
BYTES = FEW * 8 + b" .019\n\r\tax)+,\x00\xff"
# The most bytes of an answer, with its line feed, where the input has the 65,536 bytes that are read.
LONGEST_ANSWER = 65_558


def fixed():
    """Inputs whose ends, lengths and line feeds are the point."""
    yield b""
    yield b"\n"
    yield b"\n\n"
    yield b"ACGT"
    yield b"ACGT\n"
    yield b"ACGT\n\n"
    yield b"ACGT\n\n\n"
    yield b"ACGT\n1 2 T"
    yield b"ACGT\n1 2 T\n"
    yield b"ACGT\r\n1 2 T\r\n4 5 .\n4 5 ."
    yield b"\n0 0 ACGT\n0 0 .\n0 1 A\n1 0 A"
    yield b"A C\n0 1 C\n1 2 .\n3 3 A"
    yield b"MKTAY--IAK**\n3 4 *\n10 10 *\n12 12 *\n5 5 -\n6 7 .\n5 7 .\n0 0 -1\n4 4 -.\n4 4 *.\n4 4 .*\n2 -1 A\n* 2 A"
    yield b"%s\n0 0 %s\n0 28 %s\n0 28 ." % (RESIDUES, RESIDUES, RESIDUES[::-1])
    # Every byte as a replacement, and those beside residues, too, in a normal one.
    yield b"ACGT\n" + b"\n".join(b"1 2 %c" % byte for byte in range(256))
    for byte in b")*+,-.@AZ[":
        yield b"T%c%cT\n1 2 .\n1 1 A" % (byte, byte)
    for length in range(65_531, 65_542):
        yield b"A" * length
        yield b"A" * (length - 4) + b"\n0 0"
    yield from longest_answers()
    yield from long_answers()
    # Around the edge of what is read: a run of one residue takes all of the reference into the answer.
    for length in range(65_510, 65_537):
        yield b"*" * length + b"\n0 0 *\n"
    # Cut within a line: in its replacement, its numbers, behind its line feed.
    for cut in range(1, 14):
        line = b"\n1 2 ACGTACGT\n3 4 T"
        yield b"C" * (65_536 - cut) + line
    yield b"ACGT" + b"\n" * 70_000
    yield b"ACGT\n" + b"1 2 T\n" * 12_000


def filled(reference, start, end, residue):
    """The reference and one allele, whose replacement fills the input."""
    front = b"%s\n%d %d " % (reference, start, end)
    return front + residue * (lines.MOST_READ - len(front))


def longest_answers():
    """One residue or more, put in at the front of a run of that residue: all of the run comes into the answer.

    This has 22 bytes more than the input, and none has more. An answer has 8 separators where the input has 3, and an
    indel's kind has 5 letters. Its replacement has the residues of the reference and of the replacement given, less one
    for each residue before the normal interval, behind it or in the given interval. So the start and the numbers of
    what shrank are best at one digit each: 3. left_widened is no more than the given start, and has no more digits.
    The end and right_widened have 5 digits at most and the given end has one at least: 9. A substitution has 20 more
    at most: the 7 more letters of its kind are worth less than the digits, which take a long reference, of which
    nothing comes into its replacement. Nothing does where an allele is unchanged either."""
    for residues in (65_530, 65_521, 32_768, 10_009):
        for position in (0, 9):
            yield filled(b"A" * residues, position, position, b"A")
            yield filled(b"-" * residues, position, position, b"-")


def long_answers():
    """Others that are nearly as long, and numbers of five digits on each side, widened or shrunk."""
    yield filled(b"C", 0, 1, b"A")
    for residues in (10_000, 20_001, 65_000):
        for position in (0, 9_999, residues // 2, residues):
            yield filled(b"A" * residues, position, position, b"A")
            yield b"%s\n%d %d ." % (b"A" * residues, position, min(position + 1, residues))
    apart, run = b"CG" * 6_000, b"A" * 11_000
    for reference, inserted in ((apart + apart, 12_000), (apart + run, 12_000), (run + apart, 11_000)):
        given = reference[:inserted] + b"A" + reference[inserted:]
        yield b"%s\n0 %d %s" % (reference, len(reference), given)
        yield b"%s\n0 %d %s" % (reference, inserted, given[:inserted + 1])
        yield b"%s\n%d %d %s" % (reference, inserted, len(reference), given[inserted:])


def odd(rng):
    """Three fields, mostly, of odd ones and plain ones."""
    fields = [rng.choice(ODD_FIELDS) for _ in range(rng.choice((1, 2, 3, 3, 3, 3, 4)))]
    return rng.choice((b" ", b" ", b" ", b" ", b"  ", b"\t", b" \r")).join(fields)


def plain(rng, reference):
    start, end = sorted(rng.randint(0, len(reference) + 1) for _ in range(2))
    if rng.random() < 0.1:
        start, end = end, start
    replacement = bytes(rng.choices(FEW, k=rng.randint(0, 6)))
    if rng.random() < 0.1:
        replacement += bytes(rng.choices(BYTES.replace(b"\n", b""), k=2))
    return b"%d %d %s" % (start, end, replacement or b".")


def generated(rng):
    unit = bytes(rng.choices(FEW, k=rng.randint(1, 5)))
    reference = unit * rng.randint(0, 12) + bytes(rng.choices(RESIDUES, k=rng.randint(0, 5)))
    if rng.random() < 0.3:
        place = rng.randint(0, len(reference))
        reference = reference[:place] + bytes(rng.choices(b"axN\r.+ ", k=2)) + reference[place:]
    made = [reference]
    for _ in range(rng.randint(0, 80)):
        any_bytes = bytes(rng.choices(BYTES.replace(b"\n", b""), k=rng.randint(0, 12)))
        made.append(rng.choice((plain(rng, reference), plain(rng, reference), odd(rng), any_bytes)))
    return b"\n".join(made) + rng.choice((b"", b"\n", b"\n\n", b"\r\n"))


def inputs():
    yield from fixed()
    rng = random.Random(SEED)
    for _ in range(RANDOM_INPUTS):
        yield generated(rng)
    for _ in range(RANDOM_INPUTS):
        yield bytes(rng.choices(BYTES, k=rng.randint(0, 400)))


def at_once(command, given):
    return subprocess.run(command, input=given, stdout=subprocess.PIPE, check=True).stdout


def in_parts(command, given, length):
    """What is printed where the input comes a part at a time, so that a read gets less than it asks for."""
    with subprocess.Popen(command, stdin=subprocess.PIPE, stdout=subprocess.PIPE) as running:
        for place in range(0, len(given), length):
            running.stdin.write(given[place:place + length])
            running.stdin.flush()
            time.sleep(0.02)
        running.stdin.close()
        return running.stdout.read()


def ends(text):
    """Where a text is long, its front and its end."""
    return f"{text!r}" if len(text) <= 200 else f"{text[:100]!r} ... {text[-100:]!r}"


def tries(command):
    """Inputs, each with what is printed for it."""
    for given in inputs():
        yield given, at_once(command, given)
    given = b"ACGT\n" + b"1 2 T\n0 0 A\n" * 20
    for length in (1, 7, 100):
        yield given[:length * 20], in_parts(command, given[:length * 20], length)


def main(command):
    tried = longest = 0
    for given, printed in tries(command):
        wanted = lines.output(given)
        if printed != wanted:
            print(f"FAILED: input {ends(given)} of {len(given)} bytes: printed {ends(printed)}, not {ends(wanted)}")
            return 1
        tried += 1
        longest = max(longest, *(len(line) + 1 for line in wanted.split(b"\n")))
    if longest != LONGEST_ANSWER:
        print(f"FAILED: the longest answer has {longest} bytes, not {LONGEST_ANSWER}")
        return 1
    print(f"lines: ok, {tried} inputs are answered as the second program says, the longest with {longest} bytes")
    return 0


if __name__ == "__main__":
    sys.exit(main(sys.argv[1:]))
