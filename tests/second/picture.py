"""The picture of an allele on its reference, said a second time: a drawing is a character for each column.

Positions lie between residues. Those near the points of interest are shown, in runs; what lies between is left out.
"""
from typing import NamedTuple

from tables import elided, masked

WIDEST = 64
NEAREST, FARTHEST = 3, 10
FILLED = 2  # so few hidden positions between shown ones are shown too
BEFORE, BETWEEN, BEHIND = 4, 5, 4  # columns for what is left out
STEP = 5  # of the positions that get a number
LABEL_WIDTH = 11


class Layout(NamedTuple):
    """Where everything stands."""

    runs: list  # of the first and the last position of each
    columns: dict  # of each position shown
    width: int
    cut_before: bool  # whether the reference begins before the first run
    cut_behind: bool

    def gaps(self):
        """The five columns of each gap between two runs."""
        for _, last in self.runs[:-1]:
            yield range(self.columns[last] + 1, self.columns[last] + 1 + BETWEEN)


def positions_shown(points, n, near):
    shown = {p for point in points for p in range(max(0, point - near), min(n, point + near) + 1)}
    ordered = sorted(shown)
    for one, following in zip(ordered, ordered[1:]):
        if following - one - 1 <= FILLED:
            shown.update(range(one, following))
    return sorted(shown)


def runs_of(positions):
    firsts = [p for p in positions if p - 1 not in positions]
    lasts = [p for p in positions if p + 1 not in positions]
    return list(zip(firsts, lasts))


def laid_out(points, n, near):
    runs = runs_of(positions_shown(points, n, near))
    column = BEFORE if runs[0][0] > 0 else 0
    columns = {}
    for first, last in runs:
        columns.update({p: column + 2 * (p - first) for p in range(first, last + 1)})
        column = columns[last] + 1 + BETWEEN
    end = runs[-1][1]
    width = columns[end] + 1 + (BEHIND if end < n else 0)
    return Layout(runs, columns, width, runs[0][0] > 0, end < n)


def layout(points, n):
    """The layout that shows most and is not too wide."""
    for near in range(FARTHEST, NEAREST, -1):
        tried = laid_out(points, n, near)
        if tried.width <= WIDEST:
            return tried
    return laid_out(points, n, NEAREST)


def put(drawing, column, text):
    """Writes a text from a column on."""
    drawing.update({column + i: letter for i, letter in enumerate(text)})


def drawn(drawing):
    return "".join(drawing.get(column, " ") for column in range(max(drawing, default=-1) + 1))


def numbers(laid):
    """The row of positions."""
    drawing = {}
    for run, (first, last) in enumerate(laid.runs):
        put(drawing, laid.columns[first], str(first))
        room = laid.columns[last] + BETWEEN - 1 if run + 1 < len(laid.runs) else float("inf")
        for p in range(first + 1, last + 1):
            column, number = laid.columns[p], str(p)
            if p % STEP == 0 and max(drawing) + 1 < column and column + len(number) - 1 <= room:
                put(drawing, column, number)
    return drawn(drawing)


def residues(laid, reference):
    drawing = {column + 1: chr(masked(reference[p:p + 1])[0])
               for p, column in laid.columns.items() if p + 1 in laid.columns}
    for gap in laid.gaps():
        put(drawing, gap[1], "...")
    if laid.cut_before:
        put(drawing, 0, "...")
    if laid.cut_behind:
        put(drawing, laid.width - 3, "...")
    return drawn(drawing)


def line(laid, one, other):
    """A line between two positions, with dots where something is left out."""
    ends = sorted((laid.columns[one], laid.columns[other]))
    drawing = {column: "-" for column in range(ends[0], ends[1] + 1)}
    dots = {column for gap in laid.gaps() for column in gap[1:-1]}
    return drawing | {column: "." for column in dots & set(drawing)}


def interval(laid, start, end):
    return line(laid, start, end) | {laid.columns[start]: "|", laid.columns[end]: "|"}


def moves(laid, given, normal):
    """An arrow on each side that moved, from the given edge to the normal one."""
    drawing, heads = {}, []
    for before, after in zip(given, normal):
        if before != after:
            drawing |= line(laid, before, after)
            heads.append((laid.columns[after], "<" if after < before else ">"))
    for column, head in heads:
        drawing[column] = head if [place for place, _ in heads].count(column) == 1 else "X"
    return drawing


def beside(laid, drawing, text):
    return drawn(drawing).ljust(laid.width) + "  " + text


def allele(start, end, replacement):
    return f"{start} {end} {elided(replacement).decode() or '.'}"


def signed(widened):
    """How far one side moved."""
    return f"{widened:+d}" if widened else "0"


def moved_words(given, normal):
    return f"left {signed(given[0] - normal[0])}, right {signed(normal[1] - given[1])}"


def picture(reference, normal, given=None):
    """The rows of an allele, its normal form and what was given where that is known. Each is a start, an end and a
    replacement."""
    laid = layout((*normal[:2], *(given or normal)[:2]), len(reference))
    rows = [("position", numbers(laid)), ("reference", residues(laid, reference))]
    if given:
        rows += [("given", beside(laid, interval(laid, *given[:2]), allele(*given))),
                 ("moved", beside(laid, moves(laid, given[:2], normal[:2]), moved_words(given, normal)))]
    rows += [("normal", beside(laid, interval(laid, *normal[:2]), allele(*normal)))]
    return "".join((label.ljust(LABEL_WIDTH) + row).rstrip(" ") + "\n" for label, row in rows).encode()
