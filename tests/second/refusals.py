"""What the program says of a refusal, in words."""
from model import REFERENCE_LIMIT, REPLACEMENT_LIMIT
from register import COUNT_LIMIT, POOL_LIMIT

WORDS = {
    2: "the start is above the end",
    3: "the end is past the reference, which has {} residues",
    4: "byte {} of the replacement is no residue",
    5: "byte {} of the normal replacement is no residue",
    9: f"over a limit: {COUNT_LIMIT} records, {COUNT_LIMIT} journal entries, {POOL_LIMIT} residues in the pool",
    10: "not a well-formed register",
    12: "unchanged, it makes the reference itself",
    13: "no free record, capacity {}",
    14: "no room in the pool, capacity {}",
    15: "no free journal entry, capacity {}",
    16: "no such number, {} issued",
    17: "number {} is not active",
    18: "nothing to undo",
    19: "not a data line on this reference",
    20: "letter {} of REF is not the reference's",
    21: "alternate {} is not made of letters",
}
# Those whose value chooses the words.
CHOSEN = {
    (1, 0): f"the reference has over {REFERENCE_LIMIT} residues",
    (1, 1): f"the replacement has over {REPLACEMENT_LIMIT} residues",
    (11, 0): "the reference has another digest than the register's",
    (11, 1): "the reference has another length than the register's",
}


class Refused(Exception):
    """A refusal, by its number and value, and the words for it where they are not the usual ones."""

    def __init__(self, refusal, value, words=None):
        super().__init__(refusal, value)
        chosen = words or CHOSEN.get((refusal, value)) or WORDS[refusal]
        self.said = f"refused {refusal}: {chosen.format(value)}".encode()


class ReferenceRefused(Refused):
    """A refusal of the reference itself, by the call that makes its identifier."""

    def __init__(self, refusal, value):
        super().__init__(refusal, value, "byte {} of the reference is no residue" if refusal == 4 else None)


def accepted(refusal, value, *rest):
    """What is behind an accepted answer's refusal and value; a refused one is raised."""
    if refusal != 0:
        raise Refused(refusal, value)
    return rest
