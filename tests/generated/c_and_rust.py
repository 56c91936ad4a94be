"""Blocks of include/charuco.h and of the Rust wrapper."""

import textwrap

from generated.sources import BY_NUMBER, ENTRIES, LIMITS, LISTS, RECORD, REFUSALS, constant, count_of, numbers, values, words_of

COLUMNS = 150  # of a line in C


def ascii_text(text):
    for sign, plain in (("−", "-"), ("×", "*"), ("²", "^2"), ("`", "")):
        text = text.replace(sign, plain)
    return text


def commented(code, column, text):
    """A line of C with a comment that starts at a column, wrapped as needed."""
    if not text:
        return [code.rstrip()]
    lines = textwrap.wrap(ascii_text(text), COLUMNS - column - 6, break_on_hyphens=False)
    out = [code.ljust(column) + "/* " + lines[0]] + [" " * (column + 3) + line for line in lines[1:]]
    out[-1] += " */"
    return out


def enum_lines(pairs):
    """The lines of an enum: name, number, comment."""
    codes = [f"    {name} = {number}," for name, number, _ in pairs]
    codes[-1] = codes[-1].rstrip(",")
    column = max(map(len, codes)) + 1
    return [line for code, (_, _, text) in zip(codes, pairs) for line in commented(code, column, text)]


def header_refusals():
    pairs = [("CHARUCO_OK", 0, "every check passes")]
    for row in BY_NUMBER:
        names = ", ".join(name + (" as its bit pattern" if kind == "f32" else "") for name, kind in values(row))
        pairs.append((constant(row["variant"]), row["number"], row["question"] + (f" values: {names}" if names else "")))
    return ["enum {"] + enum_lines(pairs) + ["};"]


def header_checks():
    checks = [numbers(entry["entry"]) for entry in ENTRIES]
    width = max(map(len, checks)) + 2
    return [f" *     {check:<{width}}{entry['functions']}" for check, entry in zip(checks, ENTRIES)]


def defines():
    """Name, value and comment of each constant of the header, by sections."""
    words = {kind: [(f"{x['list'].upper()}_WORDS", count_of(x["list"]), "") for x in LISTS if x["kind"] == kind] for kind in ("values", "item")}
    words["values"].append(("REFUSAL_WORDS", max(len(values(row)) for row in REFUSALS), "at most"))
    limits = [(row["constant"], row["value"], row["questions"]) for row in LIMITS if row["constant"]]
    return [("Words in `values`.", words["values"]), ("Words of an item of an array.", words["item"]), ("Limits and their checks.", limits)]


def header_constants():
    lines = []
    for title, rows in defines():
        lines += ["", f"/* {title} */"]
        codes = [f"#define CHARUCO_{name} {value}" for name, value, _ in rows]
        column = max(map(len, codes)) + 1
        for code, (_, _, text) in zip(codes, rows):
            lines += commented(code, column, text)
    return lines[1:]


def header_words(name):
    """The words of an array: an enum where they have names, else lines of a comment."""
    rows = words_of(name)
    if rows[0]["name"]:
        pairs = []
        for row in rows:
            first, _, last = row["words"].partition("-")
            pairs.append(("CHARUCO_" + row["name"], first, f"to {last}: {row['meaning']}" if last else row["meaning"]))
        return [f"enum charuco_{name}_word {{"] + enum_lines(pairs) + ["};"]
    text = "; ".join(f"[{row['words'].replace('-', ' to ')}] {row['meaning']}" for row in rows)
    return [" *   " + line for line in textwrap.wrap(ascii_text(text) + ".", COLUMNS - 6, break_on_hyphens=False)]


def header_record():
    lines = []
    for row in RECORD:
        size = ascii_text(row["bytes"]) + (f", if {row['present']}" if row["present"] else "")
        text = ascii_text(row["field"] + (": " + row["meaning"] if row["meaning"] else ""))
        if not size:
            lines.append(f" *   {text}")
            continue
        first, *rest = textwrap.wrap(text, COLUMNS - 26, break_on_hyphens=False)
        lines.append(f" *     {size:<19}{first}")
        lines += [" *" + " " * 24 + line for line in rest]
    return lines


def rust_constants():
    lines = []
    for title, rows in defines():
        lines += ["", f"// {title}", *(f"pub const {name}: usize = {value};" + (f" // {text}" if text else "") for name, value, text in rows)]
    return lines[1:]


def shown_values(row):
    """Name and type of each value in the message of a refusal; + marks one that is read from the record."""
    return [tuple(value.lstrip("+").split(":")) for value in row["values"].split()]


def fields(row, form):
    """A variant with its fields, each written by `form`."""
    names = shown_values(row)
    if not names:
        return row["variant"], []
    return row["variant"] + " {", [form(k, name, kind) for k, (name, kind) in enumerate(names)]


def rust_variants():
    lines = []
    for row in BY_NUMBER:
        head, parts = fields(row, lambda k, name, kind: f"        {name}: {kind},")
        lines += ["    " + head, *parts, "    },"] if parts else [f"    {head},"]
    return lines


def rust_from_number():
    lines = []
    for row in BY_NUMBER:
        head, parts = fields(
            row, lambda k, name, kind: f"                {name}: " + (f"f32::from_bits(values[{k}])," if kind == "f32" else f"values[{k}],")
        )
        head = f"            {row['number']} => Self::{head}"
        lines += [head, *parts, "            },"] if parts else [f"{head},"]
    return lines


def rust_number():
    return [f"            Self::{row['variant']}{' { .. }' if row['values'] else ''} => {row['number']}," for row in BY_NUMBER]


def rust_filled():
    lines = []
    for row in BY_NUMBER:
        names = [name for name, _ in shown_values(row)]
        calls = [f'.replace("{{{name}}}", &{name}.to_string())' for name in names]
        head = f"            Self::{row['variant']} {{ {', '.join(names)} }} => message"
        if len(names) == 1:
            lines.append(f"{head}{calls[0]},")
        elif names:
            lines += [head, *("                " + call for call in calls)]
            lines[-1] += ","
    return lines


def rust_messages():
    lines = ["#[rustfmt::skip]", f"const MESSAGES: [(u32, &str); {len(BY_NUMBER)}] = ["]
    return lines + [f'    ({row["number"]}, "{row["message"]}"),' for row in BY_NUMBER] + ["];"]
