"""opcodes.txt: what the tracer does with each instruction. One that the replayer has as a line, by the names of bin/lib/record_text.py, is written as one."""
import collections
import functools
import pathlib

from lib.calls import Bad
from lib.record_text import OPCODES

TABLE = pathlib.Path(__file__).resolve().parent / "opcodes.txt"
COUNTS = {"loop": "BY_LOOP", "loop+1": "BY_LOOP_AND_ONE"}
LINE, HANDLINGS = "line", ("line", "move", "value", "switch")

Row = collections.namedtuple("Row", "first last name operands handling points references")


@functools.lru_cache(None)
def rows():
    """The rows of the table, as the replayer of today has them."""
    lines = TABLE.read_text().splitlines()
    return [row_of(*line.split()) for line in lines if line and not line.startswith("#")]


def row_of(codes, name, operands, handling, points, references):
    first, _, last = codes.partition("-")
    first, last = int(first, 16), int(last or first, 16)
    is_line = all(code in OPCODES for code in range(first, last + 1))
    if handling not in HANDLINGS or handling == LINE and not is_line:
        raise Bad(f"{TABLE.name}: {name} is no {handling}")
    return Row(first, last, name, operands, LINE if is_line else handling, zones(points), zones(references))


def zones(pointers):
    """Zone pointers as bits; none is -."""
    return sum(1 << int(pointer) for pointer in pointers.strip("-"))


def included():
    """The table as C."""
    lines = []
    for row in rows():
        for code in range(row.first, row.last + 1):
            lines.append(f"    [0x{code:02X}] = {{{row.handling.upper()}, {COUNTS.get(row.operands, row.operands)}, {row.points}, {row.references}}},\n")
    return "".join(lines)


@functools.lru_cache(None)
def names():
    """The row of each code that is in the table."""
    return {code: row for row in rows() for code in range(row.first, row.last + 1)}
