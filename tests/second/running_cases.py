"""Calls on a running digest: parts of a reference one after another, and states that no reference has made."""
from itertools import product

import model
import sha512
from arguments import EDGES, FAR_POSITIONS, FOREIGN, any_residues, extreme, far, room_and_place, spoiled, with_byte
from exchange import Case, Untouched
from running import BEGUN, STATE_SIZE, State, feed, finish

LIMIT = model.REFERENCE_LIMIT
NEEDED = model.IDENTIFIER_LENGTH
# At the limit, beside it, and totals from which a part comes back to something small where a sum is cut.
TOTALS = (*range(LIMIT - 3, LIMIT + 4), 2**32 - 1, 2**32, 2**32 + 100, *FAR_POSITIONS, *range(2**64 - 6, 2**64))


def begin_case(rng):
    return Case("fv_running_begin", b"B", (), (rng.randbytes(STATE_SIZE),), (), (BEGUN.laid(),))


def feed_case(state, part):
    *answer, after = feed(state, part)
    return Case("fv_running_feed", b"f", (), (state.laid(), part), tuple(answer), (after.laid(),))


def finish_case(state, out, place):
    return finish_says(state, out, place, finish(state, out, place))


def finish_says(state, out, place, said):
    *answer, after = said
    return Case("fv_running_finish", b"F", (place,), (state.laid(), out), tuple(answer), (after,))


def in_parts_case(reference, cuts, out, place):
    """All three calls on one state: what is written is the identifier of the parts that were not refused."""
    first, second = cuts
    taken, outcomes = b"", []
    for part in (reference[:first], reference[first:second], reference[second:]):
        outcome = model.fed(len(taken), part)
        outcomes += outcome
        if outcome == model.ACCEPTED:
            taken += part
    *answer, after = model.sequence_identifier(taken, out, place)
    return Case("fv_running_* in a row", b"P", (*cuts, place), (reference, out), (*answer, *outcomes), (after,))


def any_state(rng, total):
    """A state with any words, and any bytes behind those that wait."""
    words = tuple(rng.getrandbits(64) for _ in range(8))
    return State(words, rng.choice((rng.randbytes(128), any_residues(rng, 128))), total)


def parts_of(rng, *parts):
    """A reference in parts, finished after each of them: the identifier is hashlib's of all so far."""
    state, whole = BEGUN, b""
    for part in parts:
        yield feed_case(state, part)
        *_, state = feed(state, part)
        whole += part
        room, place = room_and_place(rng, NEEDED)
        out = rng.randbytes(room)
        yield finish_says(state, out, place, model.sequence_identifier(whole, out, place))


def cut_at_edges(rng):
    """References that end at every edge, cut at every edge before, and once more behind it."""
    for length, cut in product(EDGES, repeat=2):
        if cut <= length:
            reference = any_residues(rng, length)
            second = rng.randint(cut, length)
            yield from parts_of(rng, reference[:cut], reference[cut:])
            yield in_parts_case(reference, (cut, second), rng.randbytes(44), 3)


def cut_anywhere(rng):
    """References in any number of parts, some empty, and refused ones between them."""
    for _ in range(400):
        reference = any_residues(rng, rng.choice((*EDGES, rng.randint(0, 600))))
        cuts = sorted(rng.randint(0, len(reference)) for _ in range(rng.randint(0, 6)))
        yield from parts_of(rng, *(reference[i:j] for i, j in zip((0, *cuts), (*cuts, len(reference)))))
    for _ in range(5000):
        reference = any_residues(rng, rng.choice((rng.choice(EDGES), rng.randint(0, 600))))
        if reference and rng.random() < 0.3:
            reference = spoiled(rng, reference)
        cuts = sorted(rng.randint(0, len(reference)) for _ in range(2))
        room, place = room_and_place(rng, NEEDED)
        yield in_parts_case(reference, cuts, rng.randbytes(room), place)


def every_fill(rng):
    """States with every fill, given parts that end before, at and behind the next two blocks' ends, or none."""
    for fill in range(128):
        near = {edge - fill + offset for edge in (0, 128, 256) for offset in range(-2, 3)}
        for length in sorted(length for length in {0, 1, 2, 127, 128, 129, *near} if length >= 0):
            for total in (fill, fill + 128 * rng.randint(0, LIMIT // 128 - 4)):
                yield feed_case(any_state(rng, total), any_residues(rng, length))
        for blocks in (0, 1, rng.randint(2, LIMIT // 128 - 1), LIMIT // 128 - 1):
            yield finish_case(any_state(rng, fill + 128 * blocks), rng.randbytes(45), 2)


def every_byte(rng):
    """Every byte value, at the offsets where a loop begins, turns and ends."""
    for byte, offset in product(range(256), (0, 1, 7, 8, 15, 16, 31, 32, 63, 64, 99)):
        yield feed_case(any_state(rng, rng.randint(0, 20)), with_byte(any_residues(rng, 100), offset, byte))
    for byte, offset in product(b"*-AZ" + FOREIGN, (100, 127, 128, 129, 255, 256, 1023, 1024, 1499)):
        yield feed_case(any_state(rng, rng.randint(0, 300)), with_byte(any_residues(rng, 1500), offset, byte))


def totals(rng):
    """Totals at the limit and over it, each with parts that fit, narrowly do not, or are foreign."""
    for total, length in product((0, 5, *TOTALS), (0, 1, 2, 3, 4, 5, 6, 100, 130)):
        part = any_residues(rng, length)
        yield feed_case(any_state(rng, total), part)
        if part:
            yield feed_case(any_state(rng, total), spoiled(rng, part))
    for total in (0, 1, 128, *TOTALS):
        for room, place in product((0, 40, 41, 42, 50), (0, 1, 9, 10, *far(NEEDED))):
            yield finish_case(any_state(rng, total), rng.randbytes(room), place)


def untouched_parts(rng):
    """Zero bytes: they are foreign, unless there are too many of them for the total."""
    for total in (0, 1, 100, 128, LIMIT - 128, LIMIT - 1, LIMIT, LIMIT + 1, 2**64 - LIMIT, 2**64 - 1):
        left = max(LIMIT - total, 0)
        for length in sorted({left, left + 1, LIMIT, LIMIT + 1, 2**32, 2**32 + left} - {0}):
            yield feed_case(any_state(rng, total), Untouched(length))


def every_room(rng):
    """Every length of the buffer, with each place at which the answer turns."""
    for room in range(101):
        near = (place for place in (0, 1, room - 42, room - 41, room - 40, room - 1, room, room + 1) if place >= 0)
        for place in (*near, *far(NEEDED)):
            yield finish_case(any_state(rng, rng.choice((3, 120, LIMIT, LIMIT + 1))), rng.randbytes(room), place)


def untouched_state(rng):
    """A state of zeros, on memory that cannot be written."""
    zeros = State((0,) * 8, bytes(128), 0)
    for room in (40, 41, 42):
        case = finish_case(zeros, rng.randbytes(room), 0)
        yield case._replace(slices=(Untouched(STATE_SIZE), *case.slices[1:]))


def at_random(rng):
    """All of it at once, on any state."""
    for _ in range(12_000):
        total = rng.choice((rng.randint(0, 700), rng.randint(0, LIMIT), LIMIT + rng.randint(-700, 70), extreme(rng)))
        part = any_residues(rng, rng.choice((0, rng.randint(0, 30), rng.randint(0, 300), rng.choice(EDGES))))
        if part and rng.random() < 0.3:
            part = spoiled(rng, part)
        yield feed_case(any_state(rng, total), part)
        room, place = room_and_place(rng, NEEDED)
        yield finish_case(any_state(rng, total), rng.randbytes(room), place)


def running_cases(rng):
    sha512.check()
    for _ in range(10):
        yield begin_case(rng)
    for cases in (cut_at_edges, cut_anywhere, every_fill, every_byte, totals, untouched_parts, untouched_state,
                  every_room, at_random):
        yield from cases(rng)
