"""Histories of a register: calls of all kinds on small references and small capacities, one after another."""
import alleles
import model
from arguments import marred, with_byte
from exchange import Untouched
from images import ISSUED_AT, from_elsewhere, image_of, number_at, small_allele, small_reference
from readings import read_back
from register import Register
from register_calls import after, blank, entry, seal, undo, withdraw
from text_cases import some_digest, spoiled_digest


def first_image(rng, reference, digest):
    """The call that makes a blank image, or none, and the image that a history begins with."""
    if rng.random() < 0.4:
        return [], image_of(rng, from_elsewhere(rng, reference, digest), rng.randint(0, 9))
    capacities = rng.randint(0, 20), rng.randint(0, 24), rng.choice((0, rng.randint(0, 60), rng.randint(60, 300)))
    room = 76 + 20 * capacities[0] + 4 * capacities[1] + capacities[2] + rng.randint(0, 9)
    made = blank(rng.randbytes(room), len(reference), digest, *capacities)
    return [made], after(made)


def said_otherwise(rng, reference, start, end, replacement):
    """The same change: as it was, on a wider interval, or in its normal form."""
    refusal, _, form = model.formed(reference, start, end, replacement)
    if refusal == 0 and rng.random() < 0.4:
        _, start, end, replacement = form
    if start <= end <= len(reference) and rng.random() < 0.5:
        _, start, end, replacement = alleles.widened(rng, reference, start, end, replacement)
    return start, end, replacement


def spoiled_entry(rng, image, reference, digest, allele):
    """An entry with a wrong digest or reference, or with an allele that is turned away."""
    what = rng.random()
    if what < 0.15:
        given = rng.choice((some_digest(rng), spoiled_digest(rng), digest[:-1], digest + b"A",
                            with_byte(digest, rng.randrange(32), 0x5F), Untouched(2**32 + 32)))
        return entry(image, given, reference, *allele)
    if what < 0.3:
        other = rng.choice((reference + b"A", reference[:-1], b"", reference * 2, Untouched(2**32 + len(reference))))
        return entry(image, rng.choice((digest, digest, some_digest(rng))), other, *allele)
    if what < 0.35:
        start, end, _ = allele
        return entry(image, digest, reference, start, end, Untouched(model.REPLACEMENT_LIMIT + 1))
    return entry(image, digest, *marred(rng, reference, *allele))


def any_number(rng, issued):
    far = (0, issued + 1, issued + 2, 2**32, 2**32 + 1, 2**32 + issued, 2**63, 2**64 - 1)
    return rng.randint(1, issued) if issued and rng.random() < 0.85 else rng.choice(far)


def step(rng, image, reference, digest, given):
    """Some call; an allele that is entered is kept in given, and often entered once more."""
    kind = rng.random()
    if kind < 0.2:
        return withdraw(image, any_number(rng, number_at(image, ISSUED_AT)))
    if kind < 0.31:
        return undo(image)
    if kind < 0.37:
        return seal(image)
    if given and rng.random() < 0.7:
        allele = said_otherwise(rng, reference, *rng.choice(given))
    else:
        allele = small_allele(rng, reference)
        given.append(allele)
    if kind < 0.43:
        return spoiled_entry(rng, image, reference, digest, allele)
    return entry(image, digest, reference, *allele)


def history(rng):
    reference, digest, given = small_reference(rng), some_digest(rng), []
    made, image = first_image(rng, reference, digest)
    yield from made
    for _ in range(rng.randint(20, 60)):
        case = step(rng, image, reference, digest, given)
        yield case
        image = after(case)


def every_small_entered(rng, longest):
    """Every allele on each reference of up to so many residues, A or a stop, one after another into one register: those
    that make the same sequence have one number."""
    replacements = list(alleles.texts(3, b"A*"))
    for reference in alleles.texts(longest, b"A*"):
        digest = some_digest(rng)
        image = image_of(rng, Register(120, 120, 320, len(reference), digest))
        for _, start, end, replacement in alleles.every_on(reference, replacements):
            case = entry(image, digest, reference, start, end, replacement)
            yield case
            image = after(case)


def history_cases(rng):
    yield from read_back(rng, every_small_entered(rng, 5))
    for _ in range(5000):
        yield from read_back(rng, history(rng))
