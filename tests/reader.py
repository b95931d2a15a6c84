"""The check of a plan once more, for comparison: bytes to nodes, then refusals 2, 3 and 4 over the tree.

Nodes have the form of vectors/FORMAT.md. Nothing here recurses, so a string may be of any length.
"""

import struct

TABLE, INNER, FULL, GROUPING = 0, 1, 3, 4
KINDS = {1: "inner", 2: "left", 3: "full"}
# name, and how many columns it reads
AGGREGATES = [
    ("count_rows", 0),
    ("count", 1),
    ("sum", 1),
    ("least", 1),
    ("greatest", 1),
    ("distinct_sum", 1),
    ("distinct_count", 1),
    ("weighted_sum", 2),
    ("weighted_count", 2),
]
ALWAYS_WEIGHT = {"count_rows", "count", "distinct_count", "weighted_count"}
INPUTS = {"leaf": 0, "group": 1, "join": 2}
DEFAULT = struct.Struct("<BQ")

MOST_NODES, MOST_LEAVES, MOST_COLUMNS, MOST_PAIRS = 12, 3, 16, 4
MOST_PLAIN = 2_147_483_647


# 1: bytes to nodes. A reader of a node gives the node and the place behind it, or None.


def read_table(string, at):
    if at + 3 > len(string):
        return None
    return {"op": "leaf", "table": string[at + 1], "width": string[at + 2]}, at + 3


def whole_number(number):
    return -1 - number // 2 if number % 2 else number // 2


def read_defaults(string):
    defaults = []
    for mark, number in DEFAULT.iter_unpack(string):
        if mark > 1 or (mark == 1 and number != 0):
            return None
        defaults.append(None if mark else whole_number(number))
    return defaults


def read_join(string, at):
    if at + 4 > len(string):
        return None
    kind, pairs, left, right = string[at : at + 4]
    if (left and kind != FULL) or (right and kind == INNER):
        return None
    left_at = at + 4 + 2 * pairs
    right_at = left_at + 9 * left
    end = right_at + 9 * right
    if end > len(string):
        return None
    left_defaults = read_defaults(string[left_at:right_at])
    right_defaults = read_defaults(string[right_at:end])
    if left_defaults is None or right_defaults is None:
        return None
    node = {"op": "join", "kind": KINDS[kind]}
    node["pairs"] = [[string[i], string[i + 1]] for i in range(at + 4, left_at, 2)]
    if kind == FULL:
        node["left_defaults"] = left_defaults
    if kind != INNER:
        node["right_defaults"] = right_defaults
    return node, end


def read_aggregate(number, v, c):
    if number >= len(AGGREGATES):
        return None
    name, reads = AGGREGATES[number]
    if any((v, c)[reads:]):
        return None
    return [name, v, c][: 1 + reads]


def read_grouping(string, at):
    if at + 3 > len(string):
        return None
    columns, aggregates = string[at + 1], string[at + 2]
    aggregates_at = at + 3 + columns
    end = aggregates_at + 3 * aggregates
    if end > len(string):
        return None
    aggs = [read_aggregate(*string[i : i + 3]) for i in range(aggregates_at, end, 3)]
    if None in aggs:
        return None
    return {"op": "group", "cols": list(string[at + 3 : aggregates_at]), "aggs": aggs}, end


def read_node(string, at):
    first = string[at]
    if first == TABLE:
        return read_table(string, at)
    if first in KINDS:
        return read_join(string, at)
    if first == GROUPING:
        return read_grouping(string, at)
    return None


def read(string):
    """The nodes of the one plan that has this string, or None where there is no such plan."""
    nodes, at, trees = [], 0, 0
    while at < len(string):
        step = read_node(string, at)
        if step is None:
            return None
        node, at = step
        taken = INPUTS[node["op"]]
        if trees < taken:
            return None
        trees += 1 - taken
        nodes.append(node)
    return nodes if trees == 1 else None


# The tree: what follows from a node's inputs.


def inputs_of(nodes):
    """For each node the numbers of its inputs, left before right."""
    inputs, roots = [], []
    for number, node in enumerate(nodes):
        start = len(roots) - INPUTS[node["op"]]
        inputs.append(roots[start:])
        roots[start:] = [number]
    return inputs


def widths_of(nodes, inputs):
    widths = []
    for node, below in zip(nodes, inputs):
        if node["op"] == "leaf":
            widths.append(node["width"])
        elif node["op"] == "join":
            widths.append(widths[below[0]] + widths[below[1]])
        else:
            widths.append(len(node["cols"]) + len(node["aggs"]))
    return widths


def aggregate_kind(aggregate, kinds):
    return "weight" if aggregate[0] in ALWAYS_WEIGHT else kinds[aggregate[1]]


def kinds_of(nodes, inputs):
    """For each node the kinds of its columns; every column named must be there."""
    kinds = []
    for node, below in zip(nodes, inputs):
        if node["op"] == "leaf":
            kinds.append(["plain"] * node["width"])
        elif node["op"] == "join":
            kinds.append(kinds[below[0]] + kinds[below[1]])
        else:
            of_input = kinds[below[0]]
            kept = [of_input[column] for column in node["cols"]]
            kinds.append(kept + [aggregate_kind(a, of_input) for a in node["aggs"]])
    return kinds


# 2: limits.


def outside_limits(nodes, widths):
    leaves = sum(node["op"] == "leaf" for node in nodes)
    if len(nodes) > MOST_NODES or leaves > MOST_LEAVES:
        return True
    if not all(1 <= width <= MOST_COLUMNS for width in widths):
        return True
    return not all(1 <= len(node["pairs"]) <= MOST_PAIRS for node in nodes if node["op"] == "join")


# 3: columns.


def join_column_missing(node, left, right):
    if any(i >= left or j >= right for i, j in node["pairs"]):
        return True
    # one default for each column of a padded side
    if len(node.get("left_defaults", [0] * left)) != left:
        return True
    return len(node.get("right_defaults", [0] * right)) != right


def grouping_column_missing(node, width):
    columns = node["cols"]
    named = columns + [column for aggregate in node["aggs"] for column in aggregate[1:]]
    return any(column >= width for column in named) or len(set(columns)) != len(columns)


def column_missing(node, widths):
    if node["op"] == "join":
        return join_column_missing(node, *widths)
    return node["op"] == "group" and grouping_column_missing(node, *widths)


# 4: weights and defaults.


def default_outside(default, kind):
    if default is None:
        return False
    return default not in (0, 1) if kind == "weight" else abs(default) > MOST_PLAIN


def join_default_outside(node, left_kinds, right_kinds):
    left = zip(node.get("left_defaults", []), left_kinds)
    right = zip(node.get("right_defaults", []), right_kinds)
    return any(default_outside(*pad) for side in (left, right) for pad in side)


def weighted_misplaced(aggregate, left_width, kinds):
    """left_width is None where the grouping is not directly above a join."""
    if not aggregate[0].startswith("weighted"):
        return False
    if left_width is None:
        return True
    _, v, c = aggregate
    one_side = (v < left_width) == (c < left_width)
    return one_side or kinds[c] != "weight"


def weight_wrong(nodes, inputs, widths, kinds, number):
    node, below = nodes[number], inputs[number]
    if node["op"] == "join":
        return join_default_outside(node, kinds[below[0]], kinds[below[1]])
    if node["op"] == "leaf":
        return False
    (source,) = below
    left_width = widths[inputs[source][0]] if nodes[source]["op"] == "join" else None
    return any(weighted_misplaced(a, left_width, kinds[source]) for a in node["aggs"])


# The check.


def number_of(nodes):
    """0, or the first of 2, 3, 4 that holds of the whole plan."""
    inputs = inputs_of(nodes)
    widths = widths_of(nodes, inputs)
    if outside_limits(nodes, widths):
        return 2
    if any(column_missing(node, [widths[i] for i in below]) for node, below in zip(nodes, inputs)):
        return 3
    kinds = kinds_of(nodes, inputs)
    if any(weight_wrong(nodes, inputs, widths, kinds, number) for number in range(len(nodes))):
        return 4
    return 0


def root_kinds(nodes):
    return kinds_of(nodes, inputs_of(nodes))[-1]


def check(string):
    """The number that firuvanta_check gives for this string."""
    nodes = read(string)
    return 1 if nodes is None else number_of(nodes)
