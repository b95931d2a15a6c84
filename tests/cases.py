"""The outside cases, and how many cases were compared, by the number that was expected."""

import collections
import faulthandler
import json
import pathlib

HERE = pathlib.Path(__file__).resolve().parent
SEED = 2024

# says where, should a call touch a fence
faulthandler.enable()


def vectors(name):
    """The outside cases of a file."""
    return [json.loads(line) for line in (HERE / "vectors" / name).read_text().splitlines()]


class Tally(collections.Counter):
    def say(self, what):
        numbers = ", ".join(f"{self[number]} of {number}" for number in sorted(self))
        print(f"\n{what}: {sum(self.values())} cases compared ({numbers})", flush=True)
