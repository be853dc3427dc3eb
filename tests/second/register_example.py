"""Prints what examples/register.c and examples/register.py have to print."""
import model
import register
import texts
from shown import sides

REPEAT = b"TCAGCAGCAGT"
DIGEST = model.digest(REPEAT)
UNWRITTEN = bytes(register.Register(2, 3, 15, len(REPEAT), DIGEST).size())


def tell(call, refusal, value, accepted):
    print(f"{call}: " + (accepted if refusal == 0 else f"refused {refusal}, {value}"))


def blank(_):
    refusal, value, image = register.blank(UNWRITTEN, len(REPEAT), DIGEST, 2, 3, 15)
    tell("blank", refusal, value, "done")
    return image


def enter(start, end, replacement):
    def call(image):
        refusal, value, found, number, *moved, after = register.entry(image, DIGEST, REPEAT, start, end, replacement)
        tell(f"{start} {end} {replacement.decode()}, enter", refusal, value,
             f"{register.FOUND.get(found)}, number {number}{sides(*moved)}")
        if refusal == 0:
            refusal, value, *_, identifier = texts.allele_identifier(REPEAT, start, end, replacement, DIGEST,
                                                                     bytes(41), 0)
            tell("  identify", refusal, value, identifier.decode())
        return after
    return call


def withdraw(number):
    def call(image):
        refusal, value, after = register.withdraw(image, number)
        tell(f"withdraw {number}", refusal, value, "done")
        return after
    return call


def undo(image):
    refusal, value, number, after = register.undo(image)
    tell("undo", refusal, value, f"number {number}")
    return after


def seal(image):
    refusal, value, after = register.seal(image)
    tell("seal", refusal, value, "done")
    return after


def check(image):
    tell("check", *register.check(image), "done")
    return image


def read_records(image):
    _, issued, *_ = register.read_record(image, 0)
    for number in range(1, issued + 1):
        refusal, value, start, end, status, offset, length = register.read_record(image, number)
        tell(f"number {number}, read", refusal, value,
             f"{register.STATUS[status]}, {start} to {end}, {image[offset:offset + length].decode()}")


def main():
    *_, identifier = model.sequence_identifier(REPEAT, bytes(41), 0)
    print(f"{REPEAT.decode()}: {identifier.decode()}")
    image = UNWRITTEN
    for call in (blank, enter(4, 4, b"CAG"), enter(1, 2, b"CAGC"), enter(0, 4, b"TCAGCAG"), enter(1, 4, b"CAG"),
                 enter(2, 3, b"T"), withdraw(1), undo, withdraw(2), seal, undo, check):
        image = call(image)
    read_records(image)


main()
