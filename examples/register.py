"""examples/register.c, line for line, by the shared library: a register from blank to seal, its records read back.

    ./install PREFIX
    python3 examples/register.py PREFIX/lib/libfearnavult.so
"""
import ctypes
import sys
from ctypes import POINTER, byref, c_char_p, c_size_t, c_uint8, c_uint64, create_string_buffer

DIGEST_LENGTH, IDENTIFIER_LENGTH = 32, 41
ANSWERS = {1: "new", 2: "again", 3: "known"}
STATES = ("inactive", "active")
NO_SUCH_NUMBER = 16

RECORDS, JOURNAL, POOL = 2, 3, 15
REFERENCE = b"TCAGCAGCAGT"


class Running(ctypes.Structure):
    _fields_ = [("words", c_uint64 * 8), ("block", c_uint8 * 128), ("total", c_uint64)]


def answer(name, *fields):
    """The structure of an answer, all of whose fields are uint64_t."""
    numbers = [(field, c_uint64) for field in ("refusal", "value", *fields)]
    return type(name, (ctypes.Structure,), {"_fields_": numbers})


MOVED = "left_widened", "left_shrunk", "right_widened", "right_shrunk"
Outcome = answer("Outcome")
Written = answer("Written", "length")
Identified = answer("Identified", "length", *MOVED)
Entered = answer("Entered", "answer", "number", *MOVED)
Undone = answer("Undone", "number")
Record = answer("Record", "start", "end", "status", "offset", "length")

SLICE = c_char_p, c_size_t
CALLS = {
    "fv_running_begin": (Running,),
    "fv_running_feed": (Outcome, POINTER(Running), *SLICE),
    "fv_running_finish": (Written, POINTER(Running), *SLICE, c_uint64),
    "fv_allele_identifier": (Identified, *SLICE, c_uint64, c_uint64, *SLICE, *SLICE, *SLICE, c_uint64),
    "fv_blank": (Outcome, *SLICE, c_uint64, *SLICE, c_uint64, c_uint64, c_uint64),
    "fv_entry": (Entered, *SLICE, *SLICE, *SLICE, c_uint64, c_uint64, *SLICE),
    "fv_withdraw": (Outcome, *SLICE, c_uint64),
    "fv_undo": (Undone, *SLICE),
    "fv_seal": (Outcome, *SLICE),
    "fv_check": (Outcome, *SLICE),
    "fv_read_record": (Record, *SLICE, c_uint64),
}


def load(path):
    """The shared library, told what its calls take and answer. Without that, ctypes takes every number for an int."""
    library = ctypes.CDLL(path)
    for name, (answered, *taken) in CALLS.items():
        call = getattr(library, name)
        call.restype, call.argtypes = answered, taken
    return library


def lent(memory):
    """A slice: bytes that are only read, or a string buffer that is written."""
    return memory, len(memory)


def tell(call, answered, accepted="done"):
    """Says what a call answered, and whether it was accepted."""
    refused = f"refused {answered.refusal}, {answered.value}"
    print(f"{call}: {refused if answered.refusal else accepted}")
    return not answered.refusal


def sides(entered):
    """How far the interval moved; a side that stayed where it was is passed over."""
    numbers = ((field.replace("_", " "), getattr(entered, field)) for field in MOVED)
    return "".join(f", {moved} by {number}" for moved, number in numbers if number)


class Register:
    """A register of one reference in an image of its own."""

    def __init__(self, library):
        self.library = library
        self.image = create_string_buffer(76 + 20 * RECORDS + 4 * JOURNAL + POOL)
        self.digest = self.identify_reference()[-DIGEST_LENGTH:]
        tell("blank", library.fv_blank(*lent(self.image), len(REFERENCE), *lent(self.digest), RECORDS, JOURNAL, POOL))

    def identify_reference(self):
        """A long reference comes in parts; this one needn't."""
        identifier = create_string_buffer(IDENTIFIER_LENGTH)
        state = self.library.fv_running_begin()
        for part in (REFERENCE[:5], REFERENCE[5:]):
            fed = self.library.fv_running_feed(byref(state), *lent(part))
            if fed.refusal:
                sys.exit(f"refused {fed.refusal}, {fed.value}")
        finished = self.library.fv_running_finish(byref(state), *lent(identifier), 0)
        if not tell(REFERENCE.decode(), finished, identifier.raw.decode()):
            sys.exit(1)
        return identifier.raw

    def enter(self, start, end, replacement):
        entered = self.library.fv_entry(*lent(self.image), *lent(self.digest), *lent(REFERENCE), start, end,
                                        *lent(replacement))
        if tell(f"{start} {end} {replacement.decode()}, enter", entered,
                f"{ANSWERS.get(entered.answer)}, number {entered.number}{sides(entered)}"):
            identifier = create_string_buffer(IDENTIFIER_LENGTH)
            identified = self.library.fv_allele_identifier(*lent(REFERENCE), start, end, *lent(replacement),
                                                           *lent(self.digest), *lent(identifier), 0)
            tell("  identify", identified, identifier.raw.decode())

    def withdraw(self, number):
        tell(f"withdraw {number}", self.library.fv_withdraw(*lent(self.image), number))

    def undo(self):
        undone = self.library.fv_undo(*lent(self.image))
        tell("undo", undone, f"number {undone.number}")

    def seal(self):
        tell("seal", self.library.fv_seal(*lent(self.image)))

    def check(self):
        tell("check", self.library.fv_check(*lent(self.image)))

    def read_records(self):
        """Number 0 is refused with how many are issued, or since the image is not well formed."""
        none = self.library.fv_read_record(*lent(self.image), 0)
        if none.refusal != NO_SUCH_NUMBER:
            tell("read", none)
            return
        for number in range(1, none.value + 1):
            record = self.library.fv_read_record(*lent(self.image), number)
            residues = self.image[record.offset:record.offset + record.length].decode()
            tell(f"number {number}, read", record,
                 f"{STATES[record.status]}, {record.start} to {record.end}, {residues}")


def main():
    if len(sys.argv) != 2:
        sys.exit("usage: register.py LIBRARY")
    register = Register(load(sys.argv[1]))
    register.enter(4, 4, b"CAG")
    register.enter(1, 2, b"CAGC")
    register.enter(0, 4, b"TCAGCAG")
    register.enter(1, 4, b"CAG")
    register.enter(2, 3, b"T")
    register.withdraw(1)
    register.undo()
    register.withdraw(2)
    register.seal()
    register.undo()
    register.check()
    register.read_records()


main()
