"""Cases near a case of a run: for each kind of damage, every damaged case in turn. Some of them are as good as the case itself.

Fields are those of vectors/FORMAT.md and of lending.py.
"""

import runner
from reader import MOST_PLAIN

WORD = 1 << 64
# near the limits, near what wraps in 32 or 64 bits, and near where a place in bytes would
FAR = [1_024, 1_025, 4_096, 65_536, 1 << 31, 1 << 32, 1 << 60, 1 << 61, (1 << 63) - 1, 1 << 63, WORD - 1]
WRONG_CELLS = [MOST_PLAIN + 1, -MOST_PLAIN - 1, 1 << 32, -(1 << 32), (1 << 63) - 1, -(1 << 63)]
EDGE_CELLS = [MOST_PLAIN, -MOST_PLAIN, 0]
WRONG_MARKS = [2, 3, 128, 254, 255]


def changed(items, at, value):
    return items[:at] + [value] + items[at + 1 :]


def with_table(case, at, field, value):
    return case | {"tables": changed(case["tables"], at, changed(case["tables"][at], field, value))}


def other_numbers(table, field):
    """Numbers for a field of a table: near its own, far, and such that a product or a sum wraps back to its own."""
    width, rows, _ = table
    own = table[field]
    wraps = [own + (1 << 32), own + (1 << 61), own + (1 << 63), WORD - width * rows, WORD - width * rows + 1]
    near = [0, 1, own - 1, own + 1, own + 2, 2 * own, own + 256]
    return sorted({number for number in near + wraps + FAR if 0 <= number < WORD} - {own})


def tables(case):
    for at, table in enumerate(case["tables"]):
        for field in range(len(table)):
            for number in other_numbers(table, field):
                yield with_table(case, at, field, number)


def table_lists(case):
    """Tables left out, doubled or in another order, and numbers that make no whole table."""
    listed = case["tables"]
    for at in range(len(listed)):
        yield case | {"tables": listed[:at]}
        yield case | {"tables": listed[:at], "rest": listed[at][:2]}
        yield case | {"tables": listed[:at], "rest": listed[at][:1]}
        yield case | {"tables": listed[: at + 1] + listed[at:]}
        yield case | {"tables": listed[:at] + listed[at + 1 :]}
    yield case | {"tables": listed[::-1]}
    for rest in ([0], [WORD - 1], [0, 0], [WORD - 1, WORD - 1]):
        yield case | {"rest": rest}


def leaves(case):
    """Another table number or another width at a leaf; a width may make another number of the check."""
    for at, node in enumerate(case["plan"]):
        if node["op"] == "leaf":
            for table in {0, 1, 2, 3, 127, 128, 255, len(case["tables"])} - {node["table"]}:
                yield case | {"plan": changed(case["plan"], at, node | {"table": table})}
            for width in {1, node["width"] - 1, node["width"] + 1, 16, 17} - {node["width"]}:
                yield case | {"plan": changed(case["plan"], at, node | {"width": width})}


def cells(case):
    for at, cell in enumerate(case["cells"]):
        for value in WRONG_CELLS + EDGE_CELLS + [cell + 1, cell - 1]:
            if -(1 << 63) <= value < 1 << 63:
                yield case | {"cells": changed(case["cells"], at, value)}


def marks(case):
    for at, mark in enumerate(case["marks"]):
        for value in WRONG_MARKS + [1 - mark if mark < 2 else 0]:
            yield case | {"marks": changed(case["marks"], at, value)}
        # a null that is one
        if at < len(case["cells"]):
            yield case | {"marks": changed(case["marks"], at, 1), "cells": changed(case["cells"], at, 0)}


def runs(case):
    """The lent run cut short or made longer, its cells and its marks alike or apart."""
    for name in ("cells", "marks"):
        for length in {0, 1, len(case[name]) // 2, len(case[name]) - 1}:
            yield case | {name: case[name][: max(0, length)]}
        yield case | {name: case[name] + [0]}
        yield case | {name: [0] + case[name]}
        yield case | {name: case[name][1:]}
    yield case | {"cells": case["cells"][:-1], "marks": case["marks"][:-1]}
    yield case | {"cells": [], "marks": []}
    yield case | {"cells": [WRONG_CELLS[0]] + case["cells"], "marks": [255] + case["marks"]}


def limits(case):
    own = case["L"]
    wraps = [own + (1 << 32), own + (1 << 60), own + (1 << 61), own + (1 << 63), WORD - own]
    for limit in {0, 1, own - 1, own + 1, 4_095, 4_096, 4_097} | set(wraps) | set(FAR):
        if 0 <= limit < WORD:
            yield case | {"L": limit}


def areas(case):
    """Each of the four lengths at what is needed, one to either side of it, and at 0."""
    plan, limit = case["plan"], min(case["L"], runner.MOST_LIMIT)
    for name, needed in (("work", runner.work_needed(plan, limit)), ("result", runner.root_width(plan) * limit)):
        for at in (0, 1):
            for length in {0, 1, needed - 1, needed, needed + 1, needed + 100, needed // 2}:
                yield case | {name: changed(case[name], at, max(0, length))}
        yield case | {name: [max(0, needed - 1)] * 2}
        yield case | {name: [0, 0]}
    # enough in all, but not in each
    yield case | {"work": [2 * case["work"][0], 0], "result": [0, 2 * case["result"][1]]}


KINDS = [tables, table_lists, leaves, cells, marks, runs, limits, areas]
