"""Writes a sample of the run's cases with their answers, for run_sample.c: numbers in lines, each list behind its length.

Usage: write_sample.py FILE
"""

import pathlib
import random
import sys

import runner
from cases import vectors
from lending import plan_string, result_cells, table_numbers, with_string
from random_runs import random_case, random_damage, random_refused

SEED = 2025
VECTORS = vectors("run.jsonl")


def line(numbers):
    return " ".join(map(str, [len(numbers), *numbers]))


def written(case):
    ran = runner.run(case)
    cells = result_cells(ran)
    lists = [plan_string(case), table_numbers(case), case["cells"], case["marks"]]
    answer = [[cell or 0 for cell in cells], [int(cell is None) for cell in cells]]
    plain = [case["L"], *case["work"], *case["result"], ran.number, len(ran.rows)]
    return "\n".join([*map(line, lists), " ".join(map(str, plain)), *map(line, answer)])


def cut_short(random, case):
    string = plan_string(case)
    return with_string(case, string[: random.randrange(len(string))])


def sample():
    """The vectors, then random cases as they are, damaged, and with a plan that is refused or cut short."""
    chance = random.Random(SEED)
    yield from VECTORS
    for _ in range(300):
        yield random_case(chance)
        yield random_damage(chance, random_case(chance))
        yield random_refused(chance)
        yield cut_short(chance, random_case(chance))


def main():
    cases = list(map(written, sample()))
    pathlib.Path(sys.argv[1]).write_text("\n".join([str(len(cases)), *cases]) + "\n")


if __name__ == "__main__":
    main()
