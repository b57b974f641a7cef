"""Cells, records and rows in JSON, as scripts have them and as replies print them."""
import json


def cell_of(given):
    """The cell that a value in JSON stands for."""
    return bytes.fromhex(given["hex"]) if isinstance(given, dict) else given


def cells_of(given):
    return tuple(cell_of(it) for it in given)


def cell_given(cell):
    """The value in JSON of a cell."""
    return {"hex": cell.hex()} if isinstance(cell, bytes) else cell


def compact(value):
    """Compact JSON, with nothing escaped but what has to be."""
    return json.dumps(value, separators=(",", ":"), ensure_ascii=False)


def cells_text(cells):
    return compact([cell_given(it) for it in cells])


def rows_text(rows):
    return compact([[cell_given(it) for it in row] for row in rows])
