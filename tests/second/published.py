"""The locations and alleles whose identifiers source document 001 prints, as our copy of it has them.

Our copy has misread some characters: 0 stands for O and for o, and a few letters have the other case. So the
second program computes each digest, and each printed form has to be it, but for these.

usage: published.py      (compares them, and says how many are printed letter for letter)
"""
import json
import sys
from typing import NamedTuple

import model
import texts

# The digests of the sequences are given: no sequence is at hand. The second is printed with a 1 at its end too,
# from which none of the digests printed below comes.
CHROMOSOME_13 = b"_0wi-qoDrvram155UmcSC-zA5ZK4fpLT"
CHROMOSOME_19 = b"IIB53T8CNeJJdUqzn9V_JnRtQadwWCbl"


class Location(NamedTuple):
    sequence: bytes  # the digest of the sequence
    start: int
    end: int
    printed: tuple  # the digest of the location, in each printed form

    def text(self):
        return texts.location(self.start, self.end, self.sequence)

    def object(self):
        interval = {"type": "SimpleInterval", "start": self.start, "end": self.end}
        return {"type": "SequenceLocation", "sequence_id": self.sequence.decode("ascii"), "interval": interval}

    def digest(self):
        return model.digest(self.text())


class Allele(NamedTuple):
    location: Location
    replacement: bytes
    printed: tuple  # the digest of the allele, in each printed form

    def text(self):
        return texts.allele(self.location.digest(), self.replacement)

    def object(self):
        state = {"type": "SequenceState", "sequence": self.replacement.decode("ascii")}
        return {"type": "Allele", "location": self.location.digest().decode("ascii"), "state": state}

    def digest(self):
        return model.digest(self.text())


RS7412 = Location(CHROMOSOME_19, 44908821, 44908822, (b"u5fspwVbQ79QkX6GHLF8tXPCAXFJqRPx",))
RS429358 = Location(CHROMOSOME_19, 44908683, 44908684, ())
G_32936732 = Location(CHROMOSOME_13, 32936731, 32936732, (b"v9K0mcjQVugxTDIcdi7GBJ_R6fZ1lsYq",))
LOCATIONS = (RS7412, RS429358, G_32936732)

# Of rs7412 and rs429358 the first allele is what the sequence itself has there.
ALLELES = (
    Allele(RS7412, b"C", (b"UUvQpMYU5x8XXBS-RhBhmipTWe2AALzj",)),
    Allele(RS7412, b"T", (b"EgHPXXhULTwoP4-ACfs-YCXaeUQJBjH_",)),
    Allele(RS429358, b"T", (b"LQrGFIOAP8wEAybwNB08pJ3yIG7tXWoh", b"LQrGFIOAP8wEaybwnBo8pJ3yIG7tXWoh")),
    Allele(RS429358, b"C", (b"iXjilHZiyCEoD3wVMPMXG3B8BtYfL88H",)),
    Allele(G_32936732, b"C", (b"n9ax-9x6gOC00Et73VMYqCBfqfxG1XUH",)),
)


def folded(digest):
    """The digest without what our copy may have misread."""
    return digest.lower().replace(b"0", b"o")


def serialized(thing):
    """By source document 001's rules: keys in order, and no spaces."""
    return json.dumps(thing.object(), sort_keys=True, separators=(",", ":")).encode("ascii")


def forms():
    """Each digest with each form in which it is printed."""
    for thing in (*LOCATIONS, *ALLELES):
        yield from ((thing.digest(), form) for form in thing.printed)


def main():
    for thing in (*LOCATIONS, *ALLELES):
        if thing.text() != serialized(thing):
            sys.exit(f"published: FAILED: {thing.text()} is laid out where {serialized(thing)} is serialized")
    exact = total = 0
    for digest, form in forms():
        if folded(form) != folded(digest):
            sys.exit(f"published: FAILED: {form.decode('ascii')} is printed where {digest.decode('ascii')} is computed")
        exact += form == digest
        total += 1
    print(f"published: ok, {total} printed digests are those computed, {exact} of them letter for letter")


if __name__ == "__main__":
    main()
