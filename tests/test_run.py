"""The run's door against the vectors, and against the runner on random and on damaged cases."""

import collections
import itertools
import json
import random
import unittest

import damage
import reader
import runner
from arrange import node_bytes, plan_bytes
from cases import SEED, Tally, vectors
from door import RunDoor
from lending import PATTERNS, areas_after, areas_before, with_string
from random_runs import random_case, random_damage, random_limit, random_refused, random_tables, with_room

VECTORS = vectors("run.jsonl")
DEPOT = VECTORS[0]
ACCEPTED = [case for case in VECTORS if case["expect"]["number"] == 0]
SMALL = [case for case in ACCEPTED if case["work"][0] < 2_000 and len(case["cells"]) < 60]
PLANS = [case["plan"] for case in ACCEPTED]

TALLY = Tally()


def tearDownModule():
    TALLY.say("run")


def shown(case):
    text = json.dumps({name: value.hex(" ") if name == "string" else value for name, value in case.items()})
    return text if len(text) < 4_000 else f"{text[:4_000]} .. ({len(text)} characters)"


def roomy(case):
    """The case with just the room that its row limit needs."""
    needed = runner.work_needed(case["plan"], case["L"]), runner.root_width(case["plan"]) * case["L"]
    return case | {"work": [needed[0]] * 2, "result": [needed[1]] * 2}


class Compared(unittest.TestCase):
    @classmethod
    def setUpClass(cls):
        cls.door = RunDoor()

    def hold(self, case, ran, before, number):
        """Holds a number that was given, and every area whole, to what a run answers."""
        changed = self.door.changed(areas_after(before, ran))
        if number != ran.number or changed:
            self.fail(f"{number} given and {ran.number} expected, not as expected: {changed}, for {shown(case)}")

    def give(self, case, ran):
        """Holds the door to an answer, with the areas against the fences behind them and against those before them."""
        for behind in (True, False):
            before = areas_before(case, PATTERNS[behind])
            self.hold(case, ran, before, self.door.call(before, case["L"], behind))
        TALLY[ran.number] += 1

    def compare(self, case):
        """Holds the door to the runner; gives the number."""
        ran = runner.run(case)
        self.give(case, ran)
        return ran.number


def expected(case):
    answer = case["expect"]
    return runner.Ran(answer["number"], [tuple(row) for row in answer["rows"]], answer.get("node_rows", []))


class Vectors(Compared):
    def test_every_case(self):
        for case in VECTORS:
            with self.subTest(case["id"]):
                self.assertEqual(runner.run(case), expected(case))
                self.give(case, expected(case))

    def test_all_numbers_but_1_are_there(self):
        self.assertEqual({case["expect"]["number"] for case in VECTORS}, {0, 2, 3, 4, 5, 6, 7})


USES = [(1, 10, 5), (1, 10, 7), (1, 20, 4), (2, 30, None)]
RELEASES = [(10, 1, 30), (10, 1, 40), (20, 2, 50), (40, 2, 20)]
P2 = [(None, 2, 1, None, 20, 0), (1, 1, 4, 24, 140, 4), (1, 2, 1, 4, 50, 1), (2, None, 1, None, None, 0)]
JOIN_LEFT = {"op": "join", "kind": "left", "pairs": [[1, 0]], "right_defaults": [None] * 3}


def leaf(table, width):
    return {"op": "leaf", "table": table, "width": width}


def grouping(columns, *aggregates):
    return {"op": "group", "cols": columns, "aggs": list(aggregates)}


def inner(*pairs):
    return {"op": "join", "kind": "inner", "pairs": list(pairs)}


def over(plan, tables, limit, width=3):
    """A plan over tables that are lists of rows of one width, one behind the other."""
    lists, cells = [], []
    for rows in tables:
        lists.append([width, len(rows), len(cells)])
        cells += [cell for row in rows for cell in row]
    case = {"plan": plan, "tables": lists, "L": limit}
    return roomy(case | {"cells": [cell or 0 for cell in cells], "marks": [int(cell is None) for cell in cells]})


class WorkedDepot(Compared):
    def give_depot(self, case, number, rows=()):
        self.give(case, runner.Ran(number, list(rows)))

    def test_plan_a(self):
        """P2 and P7."""
        depot = over(DEPOT["plan"], [USES, RELEASES], 7)
        self.give_depot(depot, 0, P2)
        self.give_depot(roomy(depot | {"L": 4_096}), 0, P2)
        self.give_depot(roomy(depot | {"L": 6}), 7)

    def test_empty_tables(self):
        """P9."""
        self.give_depot(over(DEPOT["plan"], [[], []], 1), 0)

    def test_null_tile(self):
        """P10."""
        plan = DEPOT["plan"][:2] + [JOIN_LEFT]
        self.give_depot(over(plan, [[(3, None, 9)], RELEASES], 4), 0, [(3, None, 9, None, None, None)])

    def test_cells(self):
        for cell, number in ((2_147_483_647, 0), (2_147_483_648, 5), (-2_147_483_647, 0), (-2_147_483_648, 5)):
            for at in range(3):
                row = damage.changed([0, 0, 0], at, cell)
                self.give_depot(over([leaf(0, 3)], [[row]], 1), number, [row] if number == 0 else [])

    def test_rows(self):
        for rows, number in ((1_024, 0), (1_025, 5)):
            table = [(row, 0, None) for row in range(rows)]
            self.give_depot(over([leaf(0, 3)], [table], 1_025), number, table if number == 0 else [])

    def test_limits(self):
        depot = over(DEPOT["plan"], [USES, RELEASES], 4_096)
        for limit, number in ((0, 6), (1, 7), (4_096, 0), (4_097, 6)):
            self.give_depot(depot | {"L": limit}, number, P2 if number == 0 else [])


class Order(Compared):
    """Of several refusals the first is given: 5, then 6, then 7; and the check's before them."""

    def test_two_at_once(self):
        wrong_mark = DEPOT | {"marks": [2] + DEPOT["marks"][1:]}
        no_room = {"work": [0, 0]}
        too_many = roomy(DEPOT | {"L": 6})
        self.assertEqual(self.compare(wrong_mark | {"L": 0}), 5)
        self.assertEqual(self.compare(wrong_mark | no_room), 5)
        self.assertEqual(self.compare(too_many | {"marks": wrong_mark["marks"]}), 5)
        self.assertEqual(self.compare(too_many | no_room), 6)
        self.assertEqual(self.compare(too_many), 7)

    def test_the_check_first(self):
        for case in VECTORS:
            if case["expect"]["number"] in (2, 3, 4):
                worse = case | {"tables": [], "L": 0, "work": [0, 0], "result": [0, 0]}
                self.assertEqual(self.compare(worse), case["expect"]["number"])


class Lending(Compared):
    def test_read_only(self):
        """What is only read may stand in pages that cannot be written."""
        for case in VECTORS:
            before = areas_before(case, PATTERNS[0])
            self.hold(case, expected(case), before, self.door.call_read_only(before, case["L"]))
            TALLY[case["expect"]["number"]] += 1

    def test_null(self):
        """Areas of length 0 at NULL: all of them, one at a time, and those of tables without rows."""
        empty = {"tables": [], "cells": [], "marks": [], "work": [0, 0], "result": [0, 0]}
        cases = [with_string(DEPOT | empty, b""), DEPOT | empty]
        cases += [DEPOT | {name: length} for name, length in empty.items()]
        cases += [DEPOT | {"cells": [], "marks": [], "tables": [[3, 0, 0], [3, 0, 99]]}]
        for case in cases:
            ran = runner.run(case)
            before = areas_before(case, PATTERNS[0])
            self.hold(case, ran, before, self.door.call(before, case["L"], True, null=True))
            TALLY[ran.number] += 1

    def test_what_the_work_area_held(self):
        """Zeros, ones and bytes of 255 all over give the same as the patterns do."""
        for case in ACCEPTED:
            ran = runner.run(case)
            for held in (bytes(1), b"\1", b"\xff"):
                before = areas_before(case, held * len(PATTERNS[0]))
                self.hold(case, ran, before, self.door.call(before, case["L"], True))
            TALLY[0] += 1

    def test_more_room(self):
        """Longer areas are cleared to their ends, and a result stays at the front of its own."""
        for case in SMALL:
            work, result = case["work"], case["result"]
            self.compare(case | {"work": [work[0] + 1_000, work[1] + 3], "result": [result[0] + 1, result[1] + 77]})
            self.compare(case | {"work": [work[0] + 1, work[1] + 9_999], "result": [result[0] + 200, result[1]]})

    def test_many_tables(self):
        """A leaf's byte names any of 256 tables; tables behind them are not looked at."""
        nowhere = [damage.WORD - 1] * 3
        for number in (0, 1, 127, 128, 254, 255):
            tables = [nowhere] * number + [[1, 1, 0]] + [nowhere] * (300 - number)
            case = {"plan": [leaf(number, 1)], "tables": tables, "cells": [number], "marks": [0], "L": 1}
            self.assertEqual(self.compare(roomy(case)), 0)
            self.assertEqual(self.compare(roomy(case | {"tables": tables[:number]})), 5)

    def test_tables_over_each_other(self):
        """Two tables may share cells of the lent run."""
        for first, second in itertools.product(range(10), repeat=2):
            self.compare(DEPOT | {"tables": [[3, 4, first], [3, 4, second]]})


class Damaged(Compared):
    """Every damage of every kind to a case, one at a time."""

    # each kind, and to every how many-th of the small cases it is done
    KINDS = {
        damage.tables: 12,
        damage.table_lists: 3,
        damage.leaves: 6,
        damage.cells: 50,
        damage.marks: 40,
        damage.runs: 4,
        damage.limits: 12,
        damage.areas: 6,
    }

    def test_kinds(self):
        for kind, step in self.KINDS.items():
            with self.subTest(kind.__name__):
                seen = collections.Counter(self.compare(damaged) for case in SMALL[::step] for damaged in kind(case))
                self.assertGreater(len(seen), 1, f"only {seen}")

    def test_two_damages(self):
        chance = random.Random(SEED)
        for _ in range(3_000):
            self.compare(random_damage(chance, random_damage(chance, chance.choice(SMALL))))


class DamagedPlans(Compared):
    """Bytes that are no plan's, or another plan's, in place of the plan's."""

    def test_cut_short(self):
        for case in SMALL[::20]:
            string = plan_bytes(case["plan"])
            for length in range(len(string)):
                self.compare(with_string(case, string[:length]))

    def test_bytes_added(self):
        for case in SMALL[::10]:
            for more in (b"\0", b"\4", b"\5", bytes(3), node_bytes(case["plan"][-1]), plan_bytes(case["plan"])):
                self.compare(with_string(case, plan_bytes(case["plan"]) + more))

    def test_byte_changed(self):
        for case in SMALL[::25]:
            string = plan_bytes(case["plan"])
            for at, old in enumerate(string):
                for value in {(old + 1) % 256, (old - 1) % 256, old ^ 128, 0, 1, 2, 255} - {old}:
                    self.compare(with_string(case, string[:at] + bytes([value]) + string[at + 1 :]))

    def test_long_strings(self):
        """A plan of very many nodes is refused before anything else is looked at."""
        grouped = node_bytes(grouping([0]))
        string = node_bytes(leaf(0, 1)) + grouped * ((1 << 19) // len(grouped))
        for damaged, number in ((string, 2), (string + b"\0", 1), (string[:-1], 1)):
            self.assertEqual(self.compare(with_string(DEPOT, damaged)), number)


class RandomRuns(Compared):
    def test_random_plans_and_tables(self):
        chance = random.Random(SEED)
        seen = collections.Counter(self.compare(random_case(chance)) for _ in range(14_000))
        self.assertGreater(min(seen[0], seen[7]), 2_000, f"too few cases of a number for a test: {seen}")

    def test_damaged(self):
        chance = random.Random(SEED + 1)
        seen = collections.Counter(self.compare(random_damage(chance, random_case(chance))) for _ in range(5_000))
        self.assertGreater(min(seen[5], seen[6]), 500, f"too few cases of a number for a test: {seen}")

    def test_plans_of_every_number(self):
        chance = random.Random(SEED + 2)
        seen = collections.Counter(self.compare(random_refused(chance)) for _ in range(1_500))
        self.assertGreater(min(seen[number] for number in (2, 3, 4)), 50, f"too few cases of a number for a test: {seen}")

    def test_known_plans(self):
        """The vectors' plans over other tables, with more rows."""
        chance = random.Random(SEED + 3)
        for _ in range(3_000):
            plan = [dict(node) for node in chance.choice(PLANS)]
            case = random_tables(chance, plan, [0, 1, 5, 10, 20, 40])
            self.compare(with_room(chance, case, random_limit(chance, case)))


def column_table(rows, *columns):
    """A table of as many rows, each column a function of the row's place."""
    return [tuple(column(place) for column in columns) for place in range(rows)]


def constant(value):
    return lambda place: value


def place_itself(place):
    return place


def shuffled(place):
    """A number of its own for each place below 1,024, out of order."""
    return (place * 389 + 7) % 1_024


SUM, COUNT = ["sum", 2], ["count_rows"]


class LargeRuns(Compared):
    def compare_in(self, plan, tables, limit, number, width=3):
        self.assertEqual(self.compare(over(plan, tables, limit, width)), number)

    def four_by_1024(self):
        """A join of 4,096 rows: 1,024 left rows with 4 right rows each."""
        left = column_table(1_024, constant(0), shuffled, lambda place: place % 8)
        right = column_table(4, constant(0), lambda place: 3 - place, constant(None))
        return [leaf(0, 3), leaf(1, 3), inner([0, 0])], [left, right]

    def test_join_at_the_row_limit(self):
        plan, tables = self.four_by_1024()
        for limit, number in ((4_096, 0), (4_095, 7), (1_024, 7), (1_023, 7)):
            self.compare_in(plan, tables, limit, number)

    def test_join_beyond_every_row_limit(self):
        """241 x 17 are 4,097 rows."""
        plan, (left, right) = self.four_by_1024()
        for rows, number in ((240, 0), (241, 7), (1_024, 7)):
            self.compare_in(plan, [left[:rows], right * 4 + right[:1]], 4_096, number)

    def test_groupings(self):
        plan, tables = self.four_by_1024()
        distinct = [["distinct_sum", 1], ["distinct_count", 2], ["distinct_count", 5], ["distinct_sum", 4]]
        for columns in ([1, 4], [4, 1], [2], [5], [2, 5, 4], []):
            for aggregates in ([COUNT, ["sum", 1], ["least", 4], ["greatest", 1]], distinct, []):
                if columns or aggregates:
                    self.compare_in(plan + [grouping(columns, *aggregates)], tables, 4_096, 0)

    def test_full_join_without_a_match(self):
        """2,048 rows, half of them last."""
        left = column_table(1_024, constant(None), shuffled, constant(1))
        right = column_table(1_024, shuffled, constant(2), constant(3))
        plan = [leaf(0, 3), leaf(1, 3), dict(DEPOT["plan"][2], pairs=[[0, 0]], left_defaults=[-7, None, 5])]
        self.compare_in(plan, [left, right], 2_048, 0)
        self.compare_in(plan, [left, right], 2_047, 7)

    def test_widest(self):
        """16 columns in every node, and as many rows as there is room for."""
        distinct = [[name, v] for v in range(8) for name in ("distinct_sum", "distinct_count")]
        ascending = list(range(16))
        plan = [leaf(0, 16), grouping(ascending), grouping(ascending[::-1]), grouping([], *distinct)]
        for limit in (1, 2, 3, 16, 33, 1_024):
            columns = [lambda place, k=k: ((place * 37 + k * 11) % 1_024) % (k + 5) or None for k in range(16)]
            self.compare_in(plan, [column_table(limit, *columns)], limit, 0, 16)

    def test_fullest(self):
        """4,096 rows of 16 columns in a join and in a grouping of it, then distinct aggregates over all of them."""
        left = column_table(1_024, constant(0), shuffled, *[constant(k) for k in range(6)])
        right = column_table(4, constant(0), place_itself, *[constant(None)] * 6)
        distinct = [[name, v] for v in (1, 9, 10, 15) for name in ("distinct_sum", "distinct_count", "greatest", "count")]
        plan = [leaf(0, 8), leaf(1, 8), inner([0, 0]), grouping(list(range(16))), grouping([], *distinct)]
        self.compare_in(plan[:4], [left, right], 4_096, 0, 8)
        self.compare_in(plan, [left, right], 4_096, 0, 8)

    def test_twelve_nodes(self):
        left = column_table(1_024, shuffled, lambda place: place % 300, place_itself)
        right = column_table(900, place_itself, shuffled, constant(4))
        grouped = grouping([0, 1], ["sum", 2])
        joined = [inner([1, 0]), grouping([0, 1], ["sum", 5])]
        plan = [leaf(0, 3), grouped, grouped, leaf(1, 3), grouped, *joined, grouped, leaf(1, 3), *joined, grouped]
        self.assertEqual(len(plan), reader.MOST_NODES)
        given = [self.compare(over(plan, [left, right], limit)) for limit in (4_096, 1_024, 1_023)]
        self.assertEqual(given, [0, 0, 7])

    def test_largest_sums(self):
        """2^30 joined rows stand behind one row of a pushed plan: the largest cell there is."""
        counted = grouping([0], SUM, COUNT)
        plan = [leaf(0, 3), counted, leaf(1, 3), counted, inner([0, 0]), grouping([0], ["weighted_sum", 1, 5])]
        plan += [leaf(2, 3), counted, inner([0, 0]), grouping([0], ["weighted_sum", 1, 4])]
        for cell in (2_147_483_647, -2_147_483_647):
            table = column_table(1_024, constant(0), constant(1), constant(cell))
            case = over(plan, [table] * 3, 1_024)
            self.assertEqual(runner.run(case).rows, [(0, cell << 30)])
            self.compare(case)


if __name__ == "__main__":
    unittest.main()
