"""The tables of tables/*.tsv, and functions over them that several generated blocks use."""

import re
import sys
from pathlib import Path

ROOT = Path(__file__).resolve().parent.parent.parent
errors = []  # of the tables


def table(name):
    """The rows of tables/NAME.tsv, as dictionaries by the names in its first line."""
    path = f"tables/{name}.tsv"
    first, *lines = (ROOT / path).read_text(encoding="utf-8").splitlines()
    columns = first.split("\t")
    rows = []
    for number, line in enumerate(lines, 2):
        fields = line.split("\t")
        if len(fields) != len(columns):
            sys.exit(f"{path}:{number}: {len(fields)} fields, not {len(columns)}")
        rows.append(dict(zip(columns, fields)))
    return rows


REFUSALS = table("refusals")  # in the order of the checks
BY_NUMBER = sorted(REFUSALS, key=lambda row: int(row["number"]))
OF_CODE = [row for row in BY_NUMBER if row["asked by"] != "reread"]  # the variants of Refusal; the line of a log's end is a text of its own
ENTRIES = table("entries")
LISTS = table("lists")
WORDS = table("words")
LIMITS = table("limits")
RECORD = table("record")


def constant(variant):
    """The C name of a refusal: CHARUCO_TWO_WORDS of TwoWords."""
    return "CHARUCO" + re.sub(r"([A-Z])", r"_\1", variant).upper()


def values(row):
    """Name and type of each value that a refusal returns."""
    return [tuple(value.split(":")) for value in row["values"].split() if not value.startswith("+")]


def numbers(asked):
    """The checks of an entry point in order, runs of three and more as `a to b`."""
    runs = []
    for n in (int(row["number"]) for row in REFUSALS if asked in row["asked by"].split()):
        if runs and n == runs[-1][-1] + 1:
            runs[-1].append(n)
        else:
            runs.append([n])
    return ", ".join(f"{r[0]} to {r[-1]}" if len(r) > 2 else ", ".join(map(str, r)) for r in runs)


def words_of(name):
    return [row for row in WORDS if row["list"] == name]


def count_of(name):
    """The number of words of an item of the array."""
    place = 0
    for row in words_of(name):
        first, _, last = row["words"].partition("-")
        if int(first) != place:
            errors.append(f"tables/words.tsv: word {place} of {name} is missing")
        place = int(last or first) + 1
    return place
