"""Random cases of a run, in the form of vectors/FORMAT.md: plans with tables, row limits and areas, some of them damaged."""

import damage
import runner
from random_plans import MOST_PLAIN, NOTHING_BROKEN, random_plan

# what the cells of a column are drawn from: few values, so that rows match and groups have rows
CELLS = [
    [0],
    [None],
    [0, 1],
    [None, 0],
    [None, 0, 1, 2],
    [-1, 0, 1],
    list(range(-3, 4)),
    [None, *range(10)],
    [MOST_PLAIN, -MOST_PLAIN, None, 0],
]
ROWS = [0, 1, 2, 2, 3, 3, 4, 5, 6, 8, 12]
# what lies beside the tables in the lent run
JUNK_CELLS = [0, 1, -(1 << 63), (1 << 63) - 1, MOST_PLAIN + 1]
JUNK_MARKS = [0, 1, 2, 255]
# beyond every row limit, and few enough to be worked out
ENOUGH = 5_000


class LentRun:
    """A lent run that tables are put into, with junk beside them."""

    def __init__(self, random):
        self.random = random
        self.tables, self.cells, self.marks = [], [], []
        self.named = []

    def put_junk(self):
        for _ in range(self.random.choice([0, 0, 0, 1, 5])):
            self.cells.append(self.random.choice(JUNK_CELLS))
            self.marks.append(self.random.choice(JUNK_MARKS))

    def put_table(self, width, rows):
        self.put_junk()
        self.tables.append([width, rows, len(self.cells)])
        drawn = [self.random.choice(CELLS) for _ in range(width)]
        for _ in range(rows):
            row = [self.random.choice(values) for values in drawn]
            self.cells += [cell or 0 for cell in row]
            self.marks += [int(cell is None) for cell in row]
        self.put_junk()

    def table_for(self, width, rows):
        """The number of a table of this width: one that is there, or a new one behind tables that no leaf names."""
        there = [number for number in self.named if self.tables[number][0] == width]
        if there and self.random.random() < 0.3:
            return self.random.choice(there)
        if self.random.random() < 0.1:
            self.tables.append([self.random.choice([0, width, 255]), self.random.choice(damage.FAR), 7])
        self.named.append(len(self.tables))
        self.put_table(width, rows)
        return self.named[-1]


def random_tables(random, plan, rows=ROWS):
    """The plan's leaves each get a table; gives what is lent."""
    run = LentRun(random)
    for node in plan:
        if node["op"] == "leaf":
            node["table"] = run.table_for(node["width"], random.choice(rows))
    return {"plan": plan, "tables": run.tables, "cells": run.cells, "marks": run.marks}


def most_rows(case):
    """The rows of the node that has most; ENOUGH where it has more."""
    try:
        return max(map(len, runner.rows_of(case, ENOUGH)))
    except runner.TooManyRows:
        return ENOUGH


def random_limit(random, case):
    """Often just the row limit that the plan needs, or one less."""
    needed = most_rows(case)
    return random.choice([needed, needed, needed, needed - 1, needed + 1, 1, random.randrange(1, 30)])


def random_lengths(random, needed):
    return [needed + random.choice([0, 0, 0, 1, 20]) for _ in range(2)]


def with_room(random, case, limit):
    """The case with a row limit that may be refused, and with room enough for it."""
    plan, used = case["plan"], min(max(limit, 1), runner.MOST_LIMIT)
    work = random_lengths(random, runner.work_needed(plan, used))
    result = random_lengths(random, runner.root_width(plan) * used)
    return case | {"L": max(limit, 0), "work": work, "result": result}


def random_damage(random, case):
    return random.choice(list(random.choice(damage.KINDS)(case)) or [case])


def random_case(random):
    """A random plan over random tables, within every rule but now and then the row limit's."""
    case = random_tables(random, random_plan(random, NOTHING_BROKEN))
    return with_room(random, case, random_limit(random, case))


def random_refused(random):
    """A random plan that may break a rule of the check, with a table for each of its leaves."""
    case = random_tables(random, random_plan(random))
    return with_room(random, case, random.randrange(1, 30))
