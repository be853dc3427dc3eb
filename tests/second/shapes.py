"""What an accepted answer is counted as where it says how far the interval moved: what became of either side of it."""
from itertools import product


def side(widened, shrunk):
    return "widened" if widened else "shrunk" if shrunk else "kept"


def shape(answer):
    """That of an answer which ends in the four numbers."""
    *_, left_widened, left_shrunk, right_widened, right_shrunk = answer
    return f"{side(left_widened, left_shrunk)}-{side(right_widened, right_shrunk)}"


SHAPES = {f"{left}-{right}" for left, right in product(("kept", "widened", "shrunk"), repeat=2)}
