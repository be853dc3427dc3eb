"""Calls on register images that are damaged, most of them no longer well formed."""
from itertools import chain, product

import images
from arguments import with_byte
from images import image_of, with_number
from readings import at_the_edge, every_reading, some_reading
from register_calls import check
from register_cases import CALLS, DIGEST, REPEAT, every_call, some_registers


def damaged_images(rng):
    for register in some_registers():
        image = image_of(rng, register, 5)
        yield image
        yield from images.bytes_damaged(image, range(len(image)))
        yield from images.cut(image)
        numbers_end = register.journal_at() + 4 * register.journal
        yield from images.numbers_damaged(image, (*images.NUMBERS_AT, *range(76, numbers_end, 4)))
    yield from images.counts_over(rng, DIGEST)
    yield from images.sums_past_32_bits(rng, DIGEST)


def every_byte(rng):
    """Every value at each byte of an image that has something everywhere."""
    something, *_ = some_registers()
    image = image_of(rng, something, 2)
    for place, byte in product(range(len(image)), range(256)):
        yield with_byte(image, place, byte)


def damaged_twice(rng):
    """Two or three bytes or numbers changed."""
    registers = list(some_registers())
    for _ in range(20_000):
        image = image_of(rng, rng.choice(registers), 3)
        for _ in range(rng.choice((2, 2, 3))):
            if rng.random() < 0.5:
                image = with_byte(image, rng.randrange(len(image)), rng.randrange(256))
            else:
                image = with_number(image, rng.choice(images.NUMBERS_AT), rng.choice(images.VALUES))
        yield image


def nudged(rng):
    """Registers of any content, of which half stay well formed."""
    for _ in range(30_000):
        yield images.nudged(rng, images.from_elsewhere(rng, REPEAT, DIGEST))


def read_to_the_end(rng):
    """Readings of every beginning of an image, and of all of it, with nothing behind."""
    for register in some_registers():
        for image in images.cut(image_of(rng, register)):
            yield from map(at_the_edge, every_reading(image))


def damage_cases(rng):
    for image in damaged_images(rng):
        yield from every_call(image)
        yield some_reading(rng, image)
    for image in chain(every_byte(rng), damaged_twice(rng), nudged(rng)):
        yield rng.choice(CALLS)(image)
        yield check(image)
    yield from read_to_the_end(rng)
