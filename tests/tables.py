#!/usr/bin/env python3
"""tests/tables.py [--check]: writes what tables/*.tsv and the code state into the files that repeat it, between lines with
BEGIN generated NAME and END generated NAME. With --check it writes nothing, prints each block that differs, and exits with status 1 if one does.

It also compares the tables with the definitions: numbers, variants and values of refusals.tsv with `number_of`, `values_of` and `cut_line`, the order of
its rows with the chains of `ask` of each entry point, the functions of entries.tsv with the header, and limits that follow from others with these. The
words of each array have no gap, the first line of each crate is a sentence, and AUDIT's minutes add up.
"""

import re
import sys
from functools import partial

sys.dont_write_bytecode = True

from generated import c_and_rust, documents, proofs  # noqa: E402
from generated.sources import ENTRIES, LIMITS, LISTS, OF_CODE, RECORD, REFUSALS, ROOT, count_of, errors, values  # noqa: E402

FOR_EACH_CELL = next(row for row in RECORD if row["field"] == "then for each cell")


def chain(place):
    """The variants that a definition names, in order."""
    path, _, name = place.partition(":")
    text = (ROOT / "crates" / path).read_text(encoding="utf-8")
    body = re.search(rf"^{re.escape(name)} [^:\n]*=(.*?)(?=\n\n|\Z)", text, re.M | re.S)
    if body is None:
        errors.append(f"tables/entries.tsv: {name} is not in crates/{path}")
        return []
    return re.findall(r"refusal\.(\w+)", body[1])


def check_numbers():
    """Numbers, variants and values of the refusals are those of the lines of `number_of` and `values_of`, and of `cut_line` for the end of a log."""
    path = "crates/refusal/specs/Numbers.antt"
    text = (ROOT / path).read_text(encoding="utf-8")
    listed = set()
    for row in OF_CODE:
        name = " ".join([row["variant"], *(value for value, _ in values(row))])
        name = f"({name})" if values(row) else name
        words = [f"to_bits binary32 {value}" if kind == "f32" else value for value, kind in values(row)]
        listed |= {f"number_of {name} = {row['number']}", f"values_of {name} = {' ∷ '.join([*words, '[]'])}"}
    defined = set(re.findall(r"^(?:number_of|values_of) .* = .*$", text, re.M))
    errors.extend(f"{path}: '{line}' is missing, by tables/refusals.tsv" for line in sorted(listed - defined))
    errors.extend(f"tables/refusals.tsv: no row for '{line}' of {path}" for line in sorted(defined - listed))
    path = "crates/log_text/specs/Lines.antt"
    text = (ROOT / path).read_text(encoding="utf-8")
    for row in REFUSALS:
        line = f"cut_line count = line the_refused (decimal {row['number']} ∷ decimal count ∷ [])"
        if row not in OF_CODE and line not in text.splitlines():
            errors.append(f"{path}: '{line}' is missing, by tables/refusals.tsv")


def check_limits():
    """Limits that follow from others: the values that a board of the largest size, a link, and a record of the greatest length give."""
    limit = {row["limit"]: int(row["value"]) for row in LIMITS}
    fixed = sum(int(row["bytes"]) for row in RECORD[: RECORD.index(FOR_EACH_CELL)] if row["bytes"].isdigit() and not row["present"])
    room = limit["bytes of a record"] - fixed
    cells = max(n for n in range(room // 4 + 1) if (n + 7) // 8 + 4 * n <= room)
    specs = (ROOT / "crates/link_check/specs/Entry.antt").read_text(encoding="utf-8")
    per_link = int(re.search(r"leb \((\d+) \* link_count", specs)[1])
    follows = {
        "corners of a board": (limit["rows"] - 1) ** 2,
        "scores": limit["cells"] * (limit["rows"] ** 2 // 2) * 4,
        "codes of a record": room // 8,
        "cells of a record": cells,
        "violations of a link": per_link // count_of("violation"),
    }
    for name, value in follows.items():
        if limit[name] != value:
            errors.append(f"tables/limits.tsv: '{name}' is {limit[name]}, not {value}, which follows from the others")


def check_words():
    """An array of which lists.tsv names the definition has as many words as its list there."""
    for row in LISTS:
        path, _, start = row["definition"].partition(":")
        if path:
            body = re.search(rf"^{re.escape(start)} =(.*?)\[\]", (ROOT / "crates" / path).read_text(encoding="utf-8"), re.M | re.S)
            defined = body[1].count("∷") if body else 0
            if defined != count_of(row["list"]):
                errors.append(f"tables/words.tsv: {row['list']} has {count_of(row['list'])} words, in crates/{path} {defined}")


def check_entries():
    """entries.tsv has every function of the header, and every entry point that refusals.tsv names."""
    declared = set(re.findall(r"^uint32_t (charuco_\w+)\(", (ROOT / "include/charuco.h").read_text(encoding="utf-8"), re.M))
    for function in sorted(declared ^ {function for entry in ENTRIES for function in entry["functions"].split(", ")}):
        errors.append(f"tables/entries.tsv: {function} is in one of it and include/charuco.h")
    known = {entry["entry"] for entry in ENTRIES} | {"place", "reread"}
    for row in REFUSALS:
        for name in sorted(set(row["asked by"].split()) - known):
            errors.append(f"tables/refusals.tsv: refusal {row['number']} names {name}, which is not in tables/entries.tsv")


def check_order():
    """Several chains of definitions, with | between them, are those of functions that make the same checks."""
    for entry in ENTRIES:
        listed = [row["variant"] for row in REFUSALS if entry["entry"] in row["asked by"].split()]
        for places in entry["definitions"].split("|"):
            asked = [variant for place in places.split() for variant in chain(place)]
            if asked != listed:
                errors.append(f"tables/refusals.tsv: {entry['entry']} checks {' '.join(listed)}, in the definitions {' '.join(asked)}")


BLOCKS = {
    "include/charuco.h": {
        "record": c_and_rust.header_record,
        "checks": c_and_rust.header_checks,
        "refusals": c_and_rust.header_refusals,
        "constants": c_and_rust.header_constants,
        **{f"words-{x['list']}": partial(c_and_rust.header_words, x["list"]) for x in LISTS if x["list"] != "count"},
    },
    "bindings/charuco/src/refusal.rs": {
        "variants": c_and_rust.rust_variants,
        "from-number": c_and_rust.rust_from_number,
        "number": c_and_rust.rust_number,
        "messages": c_and_rust.rust_messages,
        "filled": c_and_rust.rust_filled,
    },
    "bindings/charuco/src/words.rs": {"constants": c_and_rust.rust_constants},
    "docs/SHEETS.md": {
        "refusals-of-place": partial(documents.refusal_table, True),
        "refusals-of-others": partial(documents.refusal_table, False),
    },
    "docs/LAYOUT.md": {"limits": documents.layout_limits, "record": documents.layout_record},
    "docs/AUDIT.md": {"reading-lines": documents.reading_lines, "must-fail": documents.must_fail_list},
    "docs/PROVING.md": {"requires": documents.requires_list},
    "docs/CHANGING.md": {"crates": documents.crate_list},
    "crates/charuco/proofs/Giving.antt": {"values-are": partial(proofs.proof_cases, "values-are", "refl")},
    "crates/place_text/proofs/Lengths.antt": {"number_small": partial(proofs.proof_cases, "number_small", "lit< tt")},
}


def written(path, blocks):
    """The text of a file with its blocks updated."""
    out, block, name = [], [], None
    missing = set(blocks)
    for line in (ROOT / path).read_text(encoding="utf-8").splitlines():
        mark = re.search(r"\b(BEGIN|END) generated ([\w-]+)", line)
        if mark is None:
            (out if name is None else block).append(line)
        elif mark[1] == "BEGIN" and name is None and mark[2] in missing:
            out.append(line)
            name, block = mark[2], []
            missing.remove(name)
        elif mark[1] == "END" and name == mark[2]:
            lines = blocks[name](block) if name == "reading-lines" else blocks[name]()
            if lines != block and sys.argv[1:]:
                errors.append(f"{path}: the block {name} is not what tests/tables.py writes")
            out += [*lines, line]
            name = None
        else:
            sys.exit(f"{path}: '{line.strip()}' is out of place")
    if name is not None or missing:
        sys.exit(f"{path}: {'the end of ' + name if name else ', '.join(sorted(missing))} is missing")
    return "\n".join(out) + "\n"


def main():
    if sys.argv[1:] not in ([], ["--check"]):
        sys.exit("usage: tests/tables.py [--check]")
    check_numbers()
    check_limits()
    check_words()
    check_entries()
    check_order()
    for path, blocks in BLOCKS.items():
        before = (ROOT / path).read_text(encoding="utf-8")
        after = written(path, blocks)
        if after != before and not sys.argv[1:]:
            (ROOT / path).write_text(after, encoding="utf-8")
            print(f"tables: wrote {path}")
    for line in errors:
        print(line)
    if errors:
        sys.exit(1)
    print(f"tables: {sum(map(len, BLOCKS.values()))} blocks agree with the tables")


main()
