"""Calls that make an image without records."""
from itertools import product

import model
import register
from arguments import FAR_POSITIONS, some_extreme, with_byte
from readings import read_back
from register_calls import blank
from text_cases import digests, some_digest, spoiled_digest

LIMITS = register.COUNT_LIMIT, register.COUNT_LIMIT, register.POOL_LIMIT
# Capacities with which a sum comes back to something small where it is cut to 32 or 64 bits.
WRAPPING = (2**32 // 20 + 1, 2**30, 2**32 - 76, 2**32, 2**32 + 1, 2**64 // 20 + 1, 2**62, 2**63, 2**64 - 76, 2**64 - 1)


def size(records, journal, pool):
    return register.Register(records, journal, pool, 0, b"").size()


def every_room(rng, *capacities):
    """Buffers of every length around the one needed and around the header's, longer ones too."""
    needed = size(*capacities)
    for room in sorted({*range(needed - 3, needed + 9), *range(70, 80), 0, 1, 44, needed + 500}):
        yield blank(rng.randbytes(room), 11, some_digest(rng), *capacities)


def every_capacity(rng):
    """Each capacity at its limit, beside it and far over it, alone and with others, with little room."""
    for which, limit in enumerate(LIMITS):
        for capacity in (0, 1, limit - 1, limit, limit + 1, *WRAPPING, *FAR_POSITIONS):
            for others in (0, 1, register.COUNT_LIMIT, register.COUNT_LIMIT + 1):
                capacities = [others] * 3
                capacities[which] = capacity
                for room in (0, 76, 200):
                    yield blank(rng.randbytes(room), 11, some_digest(rng), *capacities)


def orders(rng):
    """What may speak against a blank image, each with each."""
    given = (some_digest(rng), some_digest(rng)[:-1], with_byte(some_digest(rng), 31, 0x2B))
    capacities = ((2, 3, 15), (10_001, 3, 15), (2, 10_001, 15), (2, 3, 10_000_001), (0, 0, 0))
    for residues, digest, sizes in product((0, 11, model.REFERENCE_LIMIT, model.REFERENCE_LIMIT + 1), given, capacities):
        for room in (75, 76, 142, 143, 200):
            yield blank(rng.randbytes(room), residues, digest, *sizes)


def at_the_limits(rng):
    """The largest image, and one byte less room than it needs."""
    image = rng.randbytes(size(*LIMITS))
    yield blank(image + b"behind", model.REFERENCE_LIMIT, some_digest(rng), *LIMITS)
    yield blank(image[:-1], model.REFERENCE_LIMIT, some_digest(rng), *LIMITS)


def made_blank(rng):
    for capacities in ((0, 0, 0), (2, 3, 15), (1, 0, 0), (0, 1, 0), (0, 0, 1), (5, 0, 30), (300, 400, 500)):
        yield from every_room(rng, *capacities)
    yield from every_capacity(rng)
    for residues in (0, 1, 255, 256, 2**24, model.REFERENCE_LIMIT, model.REFERENCE_LIMIT + 1, *FAR_POSITIONS):
        yield blank(rng.randbytes(150), residues, some_digest(rng), 2, 3, 15)
    for digest in digests(rng):
        yield blank(rng.randbytes(150), 11, digest, 2, 3, 15)
    yield from orders(rng)
    for _ in range(10_000):
        residues, *capacities = some_extreme(rng, 11, 2, 3, 15)
        yield blank(rng.randbytes(150), residues, some_digest(rng), *capacities)
    for _ in range(10_000):
        capacities = rng.randint(0, 40), rng.randint(0, 40), rng.randint(0, 300)
        room = max(size(*capacities) + rng.choice((-1, 0, 0, 0, 1, rng.randint(-100, 100))), 0)
        digest = rng.choice((some_digest, some_digest, some_digest, spoiled_digest))(rng)
        yield blank(rng.randbytes(room), rng.randint(0, 10**rng.randint(0, 10)), digest, *capacities)
    yield from at_the_limits(rng)


def blank_cases(rng):
    return read_back(rng, made_blank(rng))
