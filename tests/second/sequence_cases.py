"""Calls for the identifier of a whole reference."""
import model
from arguments import EDGES, any_residues, extreme, far, spoiled, with_byte
from exchange import Case, Untouched

FAR = far(model.IDENTIFIER_LENGTH)


def sequence_identifier(reference, out, place):
    *answer, after = model.sequence_identifier(reference, out, place)
    return Case("fv_sequence_identifier", b"s", (place,), (reference, out), tuple(answer), (after,))


def sequence_identifier_cases(rng):
    # every length, so every padding
    for length in range(1201):
        yield sequence_identifier(any_residues(rng, length), rng.randbytes(41), 0)
    # every byte value, at the offsets where a loop begins, turns and ends
    for byte in range(256):
        for offset in (0, 1, 7, 8, 15, 16, 31, 32, 63, 64, 127, 128, 199):
            yield sequence_identifier(with_byte(any_residues(rng, 200), offset, byte), rng.randbytes(50), 9)
    # every length of the buffer, with each place at which the answer turns
    for room in range(201):
        near = (place for place in (0, 1, room - 42, room - 41, room - 40, room - 1, room, room + 1) if place >= 0)
        for place in (*near, *FAR):
            yield sequence_identifier(any_residues(rng, 4), rng.randbytes(room), place)
    # all of it at once
    for _ in range(20_000):
        reference = any_residues(rng, rng.choice((rng.choice(EDGES), rng.randint(0, 600))))
        if reference and rng.random() < 0.4:
            reference = spoiled(rng, reference)
        out = rng.randbytes(rng.choice((rng.randint(0, 200), 40, 41, 42)))
        place = rng.choice((0, max(len(out) - 41, 0), rng.randint(0, 250), rng.choice(FAR), extreme(rng)))
        yield sequence_identifier(reference, out, place)
    # the limit, and one byte over it, each with and without room
    for length in (model.REFERENCE_LIMIT, model.REFERENCE_LIMIT + 1):
        for room in (41, 0):
            yield sequence_identifier(Untouched(length), rng.randbytes(room), 0)
