"""The bytes of every area that a case lends to a run, before the run and after it.

A case has the fields of vectors/FORMAT.md. It may have two more: string, the bytes lent as its plan, and rest, numbers behind the
last whole table. Where there is a string, plan is what it reads as, or None.
"""

import struct

import reader
from arrange import plan_bytes
from door import MOST, WRITTEN

LONGEST = max(size * MOST[name] for name, size in WRITTEN.items())
# no byte is 0, so that what was cleared is told from what was not touched
PATTERNS = [bytes(range(1, 256)) * (LONGEST // 255 + 1), bytes(range(255, 0, -1)) * (LONGEST // 255 + 1)]


def packed(numbers, form):
    return struct.pack(f"<{len(numbers)}{form}", *numbers)


def with_string(case, string):
    """The case with other bytes for its plan."""
    return case | {"plan": reader.read(string), "string": string}


def plan_string(case):
    return case["string"] if "string" in case else plan_bytes(case["plan"])


def table_numbers(case):
    return [number for table in case["tables"] for number in table] + case.get("rest", [])


def areas_before(case, pattern):
    return {
        "plan": plan_string(case),
        "tables": packed(table_numbers(case), "Q"),
        "cells": packed(case["cells"], "q"),
        "marks": bytes(case["marks"]),
        "work": pattern[: 8 * case["work"][0]],
        "work_marks": pattern[: case["work"][1]],
        "result": pattern[: 8 * case["result"][0]],
        "result_marks": pattern[: case["result"][1]],
        "rows": pattern[:8],
    }


def result_cells(ran):
    return [cell for row in ran.rows for cell in row]


def onto(front, area):
    return front + area[len(front) :]


def areas_after(before, ran):
    """What every area holds once a run has answered so."""
    after = before | {"rows": packed([len(ran.rows)], "Q")}
    if ran.number in (0, 7):
        after["work"], after["work_marks"] = bytes(len(before["work"])), bytes(len(before["work_marks"]))
    if ran.number == 0:
        cells = result_cells(ran)
        after["result"] = onto(packed([cell or 0 for cell in cells], "q"), before["result"])
        after["result_marks"] = onto(bytes(cell is None for cell in cells), before["result_marks"])
    return after
