"""A text and an answer, as the programs that print test vectors and the example programs show them."""


def shown(text):
    """An empty text shows as a point."""
    return text.decode("ascii") or "."


def outcome(refusal, value, accepted):
    return accepted if refusal == 0 else f"refused {refusal} {value}"


def moved(*numbers):
    """How far an interval moved, behind an accepted answer."""
    return " moved {} {} {} {}".format(*numbers)


def sides(left_widened, left_shrunk, right_widened, right_shrunk):
    """The same in words, of the sides that moved."""
    said = (("left widened", left_widened), ("left shrunk", left_shrunk),
            ("right widened", right_widened), ("right shrunk", right_shrunk))
    return "".join(f", {what} by {residues}" for what, residues in said if residues)
