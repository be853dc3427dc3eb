"""Calls that only read an image, to be made wherever an image has been made or changed."""
import register
from exchange import Repeated
from register_calls import after, check, read_record


def issued(image):
    """How many numbers an image has issued; as if it were one, where the image is not well formed."""
    held = register.read(image)
    return len(held.issued) if held else 1


def asked(count):
    """Numbers to ask for where so many are issued: at either end of them, in the middle, beside them, and far, of
    which some are issued where they are cut to 32 bits."""
    return sorted({0, 1, (count + 1) // 2, count, count + 1, 2**32, 2**32 + 1, 2**32 + count, 2**64 - 1})


def every_reading(image):
    yield check(image)
    for number in asked(issued(image)):
        yield read_record(image, number)


def some_reading(rng, image):
    what, count = rng.random(), issued(image)
    if what < 0.25:
        return check(image)
    return read_record(image, rng.randint(1, count) if count and what < 0.6 else rng.choice(asked(count)))


def read_back(rng, cases):
    """The calls, and after each that may write an image some reading of what it leaves."""
    for case in cases:
        yield case
        if case.lent:
            yield some_reading(rng, after(case))


def at_the_edge(case):
    """The reading on memory of which nothing may be written, and nothing beside the image even read."""
    image, = case.slices
    return case._replace(slices=(Repeated(b"A", 0, image),))
