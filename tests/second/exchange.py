"""Sends calls to the driver and holds each answer, and every byte lent, to what is expected.

tests/driver/driver.c says how a request and an answer are laid out.
"""
import subprocess
import tempfile
from collections import Counter
from dataclasses import dataclass
from itertools import islice
from typing import NamedTuple

# One run of the driver makes this many calls, while the next as many are being made up.
CALLS_IN_A_RUN = 20_000
UNTOUCHED = 1 << 63
REPEATED = 1 << 62
NO_MEMORY = b"\xff" * 8
# So many characters of a slice are shown where an answer disagrees.
SHOWN = 2000


class Untouched:
    """A slice of zero bytes that stands on memory nothing has touched, however long it is."""

    def __init__(self, length):
        self.length = length

    def __len__(self):
        return self.length

    def lstrip(self, alphabet):
        """Zero is in no alphabet."""
        return self

    def __getitem__(self, part):
        return bytes(len(range(self.length)[part]))

    def __repr__(self):
        return f"{self.length} untouched zero bytes"

    def sent(self):
        return number(self.length + UNTOUCHED)


@dataclass(frozen=True)
class Repeated:
    """A slice that the driver makes: a head, so many copies of one byte, and a tail."""

    byte: bytes
    copies: int
    head: bytes = b""
    tail: bytes = b""

    def __len__(self):
        return len(self.head) + self.copies + len(self.tail)

    def pieces(self):
        many = self.byte * 2**20
        return self.head, *[many] * (self.copies // len(many)), many[:self.copies % len(many)], self.tail

    def sent(self):
        return numbers((len(self.head) + REPEATED, self.copies, len(self.tail))) + self.byte + self.head + self.tail


class Case(NamedTuple):
    call: str  # the name in the header
    code: bytes  # the driver's code for it
    numbers: tuple
    slices: tuple
    answer: tuple  # the numbers expected, the refusal first
    lent: tuple  # the slices that the call may write, as expected afterwards
    accepted: str = "accepted"  # what an accepted answer is counted as

    def outcome(self):
        """The refusal, or what an accepted answer is counted as."""
        refusal = self.answer[0] if self.answer else 0
        return refusal or self.accepted


class Skipped(NamedTuple):
    """What a call is counted as that the driver has no memory for: the outcome that it was to have."""

    outcome: object


class Disagreement(Exception):
    """What there is to say of the first call that is not answered as expected."""


def number(x):
    return x.to_bytes(8, "little")


def numbers(xs):
    return b"".join(map(number, xs))


def sent(part):
    return number(len(part)) + part if isinstance(part, bytes) else part.sent()


def request(case):
    return case.code + numbers(case.numbers) + b"".join(map(sent, case.slices))


def expected(case):
    unharmed = 0
    return number(len(case.answer)) + numbers(case.answer) + number(unharmed) + b"".join(case.lent)


def shown(case):
    yield f"DISAGREEMENT at {case.call}"
    for x in case.numbers:
        yield f"  number    {x}"
    for x in case.slices:
        yield f"  slice     {len(x)}: {x!r:.{SHOWN}}"
    yield f"  expected  {list(case.answer)}"


def difference(case, got):
    words = [int.from_bytes(got[i:i + 8], "little") for i in range(0, 8 * (len(case.answer) + 2), 8)]
    harm, lent, wanted = words[-1], got[8 * len(words):], b"".join(case.lent)
    yield f"  answered  {words[1:-1]}"
    if harm != 0:
        yield f"  slice {harm} was changed where the call may not write"
    if lent != wanted:
        yield f"  lent bytes expected  {wanted!r:.{SHOWN}}"
        yield f"  lent bytes found     {lent!r:.{SHOWN}}"


def start(command, cases):
    calls, answers = tempfile.TemporaryFile(), tempfile.TemporaryFile()
    calls.writelines(map(request, cases))
    calls.seek(0)
    return cases, subprocess.Popen(command, stdin=calls, stdout=answers), answers


def outcome(case, answers, status):
    """What the next answer is counted as: the case's outcome, where the answer is the one expected."""
    want, place = expected(case), answers.tell()
    got = answers.read(len(want))
    if got == want:
        return case.outcome()
    if got.startswith(NO_MEMORY):
        answers.seek(place + len(NO_MEMORY))
        return Skipped(case.outcome())
    if len(got) < len(want):
        end = [f"  the driver ended with status {status} before it had answered this call"]
    else:
        end = difference(case, got)
    raise Disagreement("\n".join((*shown(case), *end)))


def settle(cases, driver, answers):
    """How often each call had each outcome, once the driver has ended."""
    status = driver.wait()
    answers.seek(0)
    met = Counter((case.call, outcome(case, answers, status)) for case in cases)
    if status != 0 or answers.read(1):
        raise Disagreement(f"the driver ended with status {status}, or answered more than it was asked")
    return met


def exchange(command, cases):
    """Makes all calls, up to the first disagreement. Answers how often each call had each outcome."""
    cases, met, running = iter(cases), Counter(), None
    while some := list(islice(cases, CALLS_IN_A_RUN)):
        following = start(command, some)
        if running:
            met += settle(*running)
        running = following
    return met + settle(*running) if running else met
