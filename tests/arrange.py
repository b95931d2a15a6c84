"""The bytes of a plan, as docs/ARRANGEMENT.md arranges them.

A plan is a list of nodes in the form of vectors/FORMAT.md. Any plan that the fields can hold has bytes, within the limits or not.
"""

KIND_NUMBERS = {"inner": 1, "left": 2, "full": 3}
AGGREGATE_NUMBERS = {
    "count_rows": 0,
    "count": 1,
    "sum": 2,
    "least": 3,
    "greatest": 4,
    "distinct_sum": 5,
    "distinct_count": 6,
    "weighted_sum": 7,
    "weighted_count": 8,
}
NULL_BYTES = bytes([1, 0, 0, 0, 0, 0, 0, 0, 0])


def default_bytes(default):
    if default is None:
        return NULL_BYTES
    number = 2 * default if default >= 0 else 2 * (-1 - default) + 1
    return b"\0" + number.to_bytes(8, "little")


def table_bytes(node):
    return bytes([0, node["table"], node["width"]])


def join_bytes(node):
    left, right = node.get("left_defaults", []), node.get("right_defaults", [])
    head = bytes([KIND_NUMBERS[node["kind"]], len(node["pairs"]), len(left), len(right)])
    pairs = b"".join(map(bytes, node["pairs"]))
    return head + pairs + b"".join(map(default_bytes, left + right))


def aggregate_bytes(aggregate):
    name, *columns = aggregate
    unread = [0] * (2 - len(columns))
    return bytes([AGGREGATE_NUMBERS[name], *columns, *unread])


def grouping_bytes(node):
    columns, aggregates = node["cols"], node["aggs"]
    head = bytes([4, len(columns), len(aggregates)])
    return head + bytes(columns) + b"".join(map(aggregate_bytes, aggregates))


NODE_BYTES = {"leaf": table_bytes, "join": join_bytes, "group": grouping_bytes}


def node_bytes(node):
    return NODE_BYTES[node["op"]](node)


def plan_bytes(plan):
    return b"".join(map(node_bytes, plan))
