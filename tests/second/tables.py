"""The tables that the program prints: a header, then rows, of cells with tabs between or in columns for people.

A row's cells are bytes. Where the last of them is a Refusal, it ends the row.
"""
FLUSH_RIGHT = {"POS", "records", "journal", "pool", "residues", "numbers", "active", "number", "start", "end", "left",
               "right"}
FROM_FILES = {"CHROM", "POS", "REF", "ALT", "sequence", "replacement"}
MAY_BE_LONG = {"REF", "ALT", "replacement"}
LONGEST, KEPT = 23, 10


class Refusal(bytes):
    """A cell that takes the rest of its row."""


def masked(text):
    """Bytes of a file as they may be shown to people."""
    return bytes(byte if 0x21 <= byte <= 0x7E else ord("?") for byte in text)


def elided(text):
    return text if len(text) <= LONGEST else text[:KEPT] + b"..." + text[-KEPT:]


def in_full(column, cell):
    return (masked(cell) if column in FROM_FILES else cell) or b"."


def for_people(column, cell):
    return elided(in_full(column, cell)) if column in MAY_BE_LONG else in_full(column, cell)


def shown(columns, row, show):
    """The cells of a row as they are shown, each by the name of its column."""
    return [cell if isinstance(cell, Refusal) else show(column, cell) for column, cell in zip(columns, row)]


def parted_by_tabs(columns, row):
    cells = shown(columns, row, in_full)
    return b"\t".join(cells + [b""] * (len(columns) - len(cells))) + b"\n"


def padded(column, cell, width):
    return cell.rjust(width) if column in FLUSH_RIGHT else cell.ljust(width)


def in_columns(columns, cells, widths):
    return b"  ".join(map(padded, columns, cells, widths)).rstrip(b" ") + b"\n"


def wide_enough(widths, rows):
    """The widths, made wider where a cell is. A refusal does not count."""
    for row in rows:
        lengths = [0 if isinstance(cell, Refusal) else len(cell) for cell in row]
        widths = [max(width, length) for width, length in zip(widths, lengths + [0] * len(widths))]
    return widths


def printed_for_people(columns, batches):
    """Batches come one after the other; a column that one has made wide stays so for the next."""
    names = [column.encode() for column in columns]
    widths = list(map(len, names))
    text, header = b"", [names]
    for batch in batches or [[]]:
        rows = [shown(columns, row, for_people) for row in batch]
        widths = wide_enough(widths, rows)
        text += b"".join(in_columns(columns, row, widths) for row in header + rows)
        header = []
    return text


def printed(columns, batches, tsv):
    """The whole table, printed a batch of rows at a time."""
    if not tsv:
        return printed_for_people(columns, batches)
    header = "\t".join(columns).encode() + b"\n"
    return header + b"".join(parted_by_tabs(columns, row) for batch in batches for row in batch)
