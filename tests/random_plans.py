"""Random plans, in the form of vectors/FORMAT.md: some within every rule, some with a rule or several broken."""

from dataclasses import dataclass

from arrange import AGGREGATE_NUMBERS, KIND_NUMBERS
from reader import MOST_PLAIN

AGGREGATES = list(AGGREGATE_NUMBERS)
KINDS = list(KIND_NUMBERS)
FAR_DEFAULTS = [MOST_PLAIN + 1, -MOST_PLAIN - 1, 2**32, 2**32 + 1, 2**63 - 1, -(2**63)]
# the largest field of one byte
MOST = 255
NOTHING_BROKEN = {2: 0, 3: 0, 4: 0}


class Chance:
    """Choices that now and then break a rule; the plan has a rate of its own for each of refusals 2, 3 and 4."""

    def __init__(self, random, rates):
        self.random = random
        self.rates = rates or {refusal: random.choice([0, 0, 0.02, 0.2]) for refusal in (2, 3, 4)}

    def breaks(self, refusal):
        return self.random.random() < self.rates[refusal]

    def pick(self, usual, wrong, refusal):
        return self.random.choice(wrong if self.breaks(refusal) else usual)


@dataclass
class Tree:
    """What the nodes above must know of a tree: which columns are weights, and where the right input of a join begins."""

    weights: list
    left_width: int = None


def random_table(chance):
    width = chance.pick(range(1, 6), [0, 16, 17, 128, MOST], 2)
    node = {"op": "leaf", "table": chance.random.randrange(MOST + 1), "width": width}
    return node, Tree([False] * width)


def random_column(chance, width):
    return min(MOST, chance.pick(range(width) or [0], [width, width + 1, MOST], 3))


def random_default(chance, weight):
    if weight:
        return chance.pick([None, 0, 1], [-1, 2, 256] + FAR_DEFAULTS, 4)
    return chance.pick([None, 0, 1, -1, 2, 257, MOST_PLAIN, -MOST_PLAIN], FAR_DEFAULTS, 4)


def random_defaults(chance, side):
    width = len(side.weights)
    count = chance.pick([width], [0, max(0, width - 1), width + 1], 3)
    weights = side.weights + [False]
    return [random_default(chance, weight) for weight in weights[: min(count, MOST)]]


def random_join(chance, left, right):
    count = chance.pick([1, 1, 1, 2, 3, 4], [0, 5, MOST], 2)
    widths = len(left.weights), len(right.weights)
    pairs = [[random_column(chance, width) for width in widths] for _ in range(count)]
    node = {"op": "join", "kind": chance.random.choice(KINDS), "pairs": pairs}
    if node["kind"] == "full":
        node["left_defaults"] = random_defaults(chance, left)
    if node["kind"] != "inner":
        node["right_defaults"] = random_defaults(chance, right)
    return node, Tree(left.weights + right.weights, widths[0])


def random_weighted(chance, tree, name):
    width, split = len(tree.weights), tree.left_width
    if chance.breaks(4):
        return [name, random_column(chance, width), random_column(chance, width)]
    weights = [column for column, weight in enumerate(tree.weights) if weight]
    if split in (None, 0, width) or not weights:
        return ["count_rows"]
    c = chance.random.choice(weights)
    other_side = range(split, width) if c < split else range(split)
    return [name, min(MOST, chance.random.choice(other_side)), min(MOST, c)]


def random_aggregate(chance, tree):
    name = chance.random.choice(AGGREGATES)
    if name == "count_rows":
        return [name]
    if name.startswith("weighted"):
        return random_weighted(chance, tree, name)
    return [name, random_column(chance, len(tree.weights))]


def is_weight(aggregate, tree):
    if "count" in aggregate[0]:
        return True
    return aggregate[1] < len(tree.weights) and tree.weights[aggregate[1]]


def random_grouping_columns(chance, width):
    columns = chance.random.sample(range(width), chance.random.randint(0, min(width, 3)))
    if chance.breaks(3):
        columns.append(random_column(chance, width))
    return [min(MOST, column) for column in columns]


def random_grouping(chance, tree):
    width = len(tree.weights)
    columns = random_grouping_columns(chance, width)
    least = 0 if columns else 1
    count = chance.pick(range(least, 5), [0, 16 - len(columns), 17 - len(columns), 40], 2)
    # an aggregate other than the count of rows has no column to read in a tree of no columns
    aggregates = [random_aggregate(chance, tree) if width else ["count_rows"] for _ in range(count)]
    weights = [column < width and tree.weights[column] for column in columns]
    weights += [is_weight(aggregate, tree) for aggregate in aggregates]
    return {"op": "group", "cols": columns, "aggs": aggregates}, Tree(weights)


def random_plan(random, rates=None):
    chance = Chance(random, rates)
    leaves = chance.pick([1, 2, 2, 3, 3, 3], [4, 5, 6], 2)
    groupings = chance.pick(range(8), [8, 9, 10, 11, 12], 2)
    nodes, trees = [], []
    while leaves or groupings or len(trees) > 1:
        moves = ["leaf"] * bool(leaves) + ["join"] * (len(trees) > 1) + ["group"] * bool(trees and groupings)
        move = random.choice(moves)
        if move == "leaf":
            leaves -= 1
            node, tree = random_table(chance)
        elif move == "join":
            right, left = trees.pop(), trees.pop()
            node, tree = random_join(chance, left, right)
        else:
            groupings -= 1
            node, tree = random_grouping(chance, trees.pop())
        nodes.append(node)
        trees.append(tree)
    return nodes
