"""The check's door against the vectors, and against the reader on strings that are near a plan's and far from it."""

import collections
import random
import re
import unittest

import reader
from arrange import node_bytes, plan_bytes
from cases import HERE, SEED, Tally, vectors
from door import CheckDoor, check_null
from random_plans import random_plan

MIB = 1 << 20
ALL_NULL = [None] * 3
PLAN_A = [
    {"op": "leaf", "table": 0, "width": 3},
    {"op": "leaf", "table": 1, "width": 3},
    {"op": "join", "kind": "full", "pairs": [[1, 0]], "left_defaults": ALL_NULL, "right_defaults": ALL_NULL},
    {"op": "group", "cols": [0, 4], "aggs": [["count_rows"], ["sum", 2], ["sum", 5], ["count", 2]]},
]
VECTORS = vectors("check.jsonl")
ACCEPTED = [PLAN_A] + [case["plan"] for case in VECTORS if case["expect"]["number"] == 0]

TALLY = Tally()


def tearDownModule():
    TALLY.say("check")


def shown(string):
    return string[:512].hex(" ") + (f" .. ({len(string)} bytes)" if len(string) > 512 else "")


class Compared(unittest.TestCase):
    @classmethod
    def setUpClass(cls):
        cls.door = CheckDoor(2 * MIB)

    def give(self, string, expected):
        """Holds the door to a number."""
        given = self.door.check(string)
        TALLY[expected] += 1
        if given != expected:
            self.fail(f"{given} given and {expected} expected for {shown(string)}")

    def compare(self, string):
        """Holds the door to the reader, and the reader to one string for one plan; gives the number."""
        nodes = reader.read(string)
        number = 1 if nodes is None else reader.number_of(nodes)
        if nodes is not None and plan_bytes(nodes) != string:
            self.fail(f"a second string of one plan: {shown(string)}")
        self.give(string, number)
        return number


class Vectors(Compared):
    def test_every_case(self):
        for case in VECTORS:
            with self.subTest(case["id"]):
                string, number = plan_bytes(case["plan"]), case["expect"]["number"]
                self.assertEqual(reader.read(string), case["plan"])
                self.assertEqual(reader.check(string), number)
                self.give(string, number)

    def test_root_kinds(self):
        """The reader's kinds are those of the vectors, so that its 4 can be trusted."""
        for case in VECTORS:
            if case["expect"]["number"] == 0:
                self.assertEqual(reader.root_kinds(case["plan"]), case["expect"]["kinds"], case["id"])

    def test_all_numbers_but_1_are_there(self):
        self.assertEqual({case["expect"]["number"] for case in VECTORS}, {0, 2, 3, 4})


class PlanA(Compared):
    def test_document(self):
        """The bytes printed in docs/ARRANGEMENT.md are plan A's."""
        text = (HERE.parent / "docs" / "ARRANGEMENT.md").read_text()
        block = re.search(r"^## Plan A$.*?^```$(.*?)^```$", text, re.MULTILINE | re.DOTALL).group(1)
        # bytes stand before the first two blanks of a line, words behind
        printed = " ".join(re.split(r" {2,}", line)[0] for line in block.splitlines())
        self.assertEqual(bytes.fromhex(printed), plan_bytes(PLAN_A))

    def test_passes(self):
        self.give(plan_bytes(PLAN_A), 0)


class Size(Compared):
    """docs/ARRANGEMENT.md, Size: a node of a plan within the limits has at most 156 bytes."""

    MOST_BYTES = 156

    def test_largest_node(self):
        sides = {"left_defaults": [None] * 8, "right_defaults": [None] * 8}
        join = {"op": "join", "kind": "full", "pairs": [[k, k] for k in range(reader.MOST_PAIRS)], **sides}
        plan = [{"op": "leaf", "table": table, "width": 8} for table in (0, 1)] + [join]
        self.assertEqual(len(node_bytes(join)), self.MOST_BYTES)
        self.give(plan_bytes(plan), 0)

    def test_every_node(self):
        self.assertLessEqual(max(len(node_bytes(node)) for plan in ACCEPTED for node in plan), self.MOST_BYTES)


class Lending(Compared):
    def test_no_bytes(self):
        self.assertEqual(check_null(), 1)
        self.assertEqual(self.door.check(b""), 1)
        TALLY[1] += 2

    def test_read_only(self):
        """A string in pages that cannot be written gets the same number."""
        for case in VECTORS:
            self.assertEqual(self.door.check_read_only(plan_bytes(case["plan"])), case["expect"]["number"], case["id"])
            TALLY[case["expect"]["number"]] += 1


class Damaged(Compared):
    def changed(self, string, at, values):
        for value in values:
            self.compare(string[:at] + bytes([value]) + string[at + 1 :])

    def test_cut_short(self):
        for plan in ACCEPTED:
            string = plan_bytes(plan)
            for length in range(len(string)):
                self.compare(string[:length])

    def test_bytes_added(self):
        for plan in ACCEPTED:
            string = plan_bytes(plan)
            for value in (0, 1, 2, 3, 4, 5, 255):
                self.compare(string + bytes([value]))
                self.compare(bytes([value]) + string)
            for more in (bytes(2), bytes(3), bytes(8), node_bytes(plan[-1]), string):
                self.compare(string + more)

    def test_byte_left_out_or_doubled(self):
        for plan in ACCEPTED:
            string = plan_bytes(plan)
            for at in range(len(string)):
                self.compare(string[:at] + string[at + 1 :])
                self.compare(string[: at + 1] + string[at:])

    def test_byte_changed(self):
        chance = random.Random(SEED)
        for plan in ACCEPTED:
            string = plan_bytes(plan)
            for at, old in enumerate(string):
                near = {(old + 1) % 256, (old - 1) % 256, old ^ 128, 0, 1, 255, chance.randrange(17), chance.randrange(256)}
                self.changed(string, at, near - {old})

    def test_every_other_value(self):
        for plan in ACCEPTED[::40]:
            string = plan_bytes(plan)
            for at, old in enumerate(string):
                self.changed(string, at, set(range(256)) - {old})

    def test_nodes_moved(self):
        for plan in ACCEPTED:
            nodes = [node_bytes(node) for node in plan]
            for at in range(len(nodes)):
                self.compare(b"".join(nodes[:at] + nodes[at + 1 :]))
                self.compare(b"".join(nodes[: at + 1] + nodes[at:]))
                self.compare(b"".join(nodes[:at] + nodes[at : at + 2][::-1] + nodes[at + 2 :]))


class RandomStrings(Compared):
    def test_any_bytes(self):
        chance = random.Random(SEED)
        for _ in range(10_000):
            self.compare(chance.randbytes(chance.randrange(200)))

    def test_small_bytes(self):
        """Small bytes are nodes far more often than any bytes are."""
        chance = random.Random(SEED)
        for _ in range(60_000):
            most = chance.choice([2, 4, 5])
            self.compare(bytes(chance.choices(range(most), k=chance.randrange(1, 30))))

    def test_nodes_in_any_order(self):
        chance = random.Random(SEED)
        nodes = [node_bytes(node) for case in VECTORS for node in case["plan"]]
        for _ in range(30_000):
            self.compare(b"".join(chance.choices(nodes, k=chance.randrange(1, 8))))


class RandomPlans(Compared):
    def test_within_and_beyond_the_rules(self):
        chance = random.Random(SEED)
        seen = collections.Counter()
        for _ in range(20_000):
            plan = random_plan(chance)
            string = plan_bytes(plan)
            self.assertEqual(reader.read(string), plan)
            seen[self.compare(string)] += 1
        for number in (0, 2, 3, 4):
            self.assertGreater(seen[number], 1_000, f"too few plans of {number} for a test")


# Nodes that long strings are made of.
TABLE = node_bytes({"op": "leaf", "table": 0, "width": 1})
INNER = node_bytes({"op": "join", "kind": "inner", "pairs": [[0, 0]]})
FULL = node_bytes(PLAN_A[2])
GROUPING = node_bytes({"op": "group", "cols": [0], "aggs": []})
MANY = 255
LONGEST_JOIN = node_bytes(
    {"op": "join", "kind": "full", "pairs": [[0, 0]] * MANY, "left_defaults": [-1] * MANY, "right_defaults": [None] * MANY}
)
LONGEST_GROUPING = node_bytes({"op": "group", "cols": [0] * MANY, "aggs": [["weighted_sum", MANY, MANY]] * MANY})
LONGEST_FILLING = 3 + MANY


def grouping_of_length(length):
    return bytes([4, length - 3, 0]) + bytes(length - 3)


def filled(body, length):
    """Groupings behind a body, up to this length; at least 3 bytes must be left for them."""
    while length - len(body) > LONGEST_FILLING:
        body += grouping_of_length(200)
    return body + grouping_of_length(length - len(body))


def chain(start, unit, length=MIB):
    """A string of this length: a start, a unit again and again, and groupings that fill up."""
    return filled(start + unit * ((length - len(start) - 3) // len(unit)), length)


def tables_then_joins(length=MIB):
    """Every table before every join, the most trees that a reader can have waiting."""
    tables = (length - 3) // (len(TABLE) + len(INNER))
    return filled(TABLE * tables + INNER * (tables - 1), length)


def long_plans():
    yield chain(TABLE, GROUPING)
    yield chain(TABLE, TABLE + INNER)
    yield chain(TABLE, TABLE + FULL + GROUPING)
    yield chain(TABLE, TABLE + LONGEST_JOIN + LONGEST_GROUPING)
    yield tables_then_joins()


class LongStrings(Compared):
    def test_too_many_nodes(self):
        for string in long_plans():
            self.assertEqual(len(string), MIB)
            self.assertEqual(self.compare(string), 2)

    def test_no_plan_at_the_very_end(self):
        for string in long_plans():
            for damaged in (string[:-1], string + b"\0", string + TABLE, string + INNER, string + b"\5", TABLE + string):
                self.give(damaged, 1)

    def test_no_plan_in_the_last_default(self):
        plan = chain(TABLE, TABLE + FULL, MIB)
        last = plan.rindex(FULL) + len(FULL) - 9
        for at, value in ((last, 2), (last + 1, 1), (last + 8, 1)):
            self.assertEqual(self.compare(plan[:at] + bytes([value]) + plan[at + 1 :]), 1)

    def test_one_byte_again_and_again(self):
        for value in range(256):
            self.assertEqual(self.compare(bytes([value]) * 65_536), 1)
        for value in range(6):
            self.assertEqual(self.compare(bytes([value]) * MIB), 1)


class Counters(Compared):
    """Counts that would pass if they were kept in too few bits."""

    def test_trees_left(self):
        for trees in (256, 257, 65_536, 65_537):
            self.assertEqual(self.compare(TABLE * trees), 1)

    def test_nodes(self):
        for nodes in (1, 11, 12, 13, 14, 255, 256, 257, 267, 268, 269, 65_537, 65_548):
            self.assertEqual(self.compare(TABLE + GROUPING * (nodes - 1)), 0 if nodes <= 12 else 2)

    def test_leaves(self):
        for leaves in (1, 2, 3, 4, 5, 255, 256, 257, 258, 259, 65_537):
            self.assertEqual(self.compare(TABLE + (TABLE + INNER) * (leaves - 1)), 0 if leaves <= 3 else 2)

    def test_widths(self):
        for left in range(256):
            for right in (0, 1, 2, 8, 16, 128, 255):
                string = bytes([0, 0, left]) + bytes([0, 1, right]) + INNER
                passes = left >= 1 and right >= 1 and left + right <= 16
                self.assertEqual(self.compare(string), 0 if passes else 2)

    def test_grouping_widths(self):
        for columns in (0, 1, 2, 15, 16, 17, 127, 128, 254, 255):
            for aggregates in (0, 1, 2, 15, 16, 17, 127, 128, 129, 254, 255):
                grouping = bytes([4, columns, aggregates]) + bytes(range(columns)) + bytes(3 * aggregates)
                passes = 1 <= columns + aggregates <= 16
                self.assertEqual(self.compare(bytes([0, 0, 16]) + grouping), 0 if passes else 2)

    def test_pairs(self):
        for pairs in range(256):
            join = bytes([1, pairs, 0, 0]) + bytes(2 * pairs)
            self.assertEqual(self.compare(TABLE + TABLE + join), 0 if 1 <= pairs <= 4 else 2)

    def test_how_many_defaults(self):
        null = b"\1" + bytes(8)
        for left in range(256):
            for right in (0, 1, 2, 3, 255):
                join = bytes([3, 1, left, right, 0, 0]) + null * (left + right)
                passes = left == 1 and right == 2
                self.assertEqual(self.compare(TABLE + bytes([0, 1, 2]) + join), 0 if passes else 3)


class Defaults(Compared):
    """Every number of bits in a default, of a plain column and of a weight."""

    def give_default(self, input_nodes, number, allowed):
        right = b"".join(map(node_bytes, input_nodes))
        join = bytes([2, 1, 0, 1, 0, 0]) + b"\0" + number.to_bytes(8, "little")
        self.assertEqual(self.compare(TABLE + right + join), 0 if allowed else 4)

    def numbers(self):
        edges = {2**bits + more for bits in range(64) for more in (-3, -2, -1, 0, 1, 2, 3)}
        return sorted(number for number in edges | {2**64 - 1, 2**64 - 2} if 0 <= number < 2**64)

    def test_plain(self):
        for number in self.numbers():
            # numbers 0 to 2 (2^31 - 1) stand for -(2^31 - 1) to 2^31 - 1
            self.give_default([PLAN_A[0] | {"width": 1}], number, number <= 2 * (2**31 - 1))

    def test_weight(self):
        counted = [PLAN_A[0], {"op": "group", "cols": [], "aggs": [["count_rows"]]}]
        for number in self.numbers():
            self.give_default(counted, number, number in (0, 2))


if __name__ == "__main__":
    unittest.main()
