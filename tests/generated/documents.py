"""Blocks of the documents."""

import re

from generated.sources import LIMITS, RECORD, REFUSALS, ROOT, errors


def shown(text):
    """ASCII text of a table in a document."""
    return re.sub(r"(?<![\w)])-(?=\d)", "−", re.sub(r"\{(\w+)\}", r"*\1*", text)).replace("bits*bits", "bits²")


def refusal_table(of_place):
    lines = ["| number | name | what is wrong | what to do |", "|---|---|---|---|"]
    for row in REFUSALS:
        if ("place" in row["asked by"].split()) == of_place:
            lines.append(f"| {row['number']} | `{row['variant']}` | {shown(row['message'])} | {row['remedy']} |")
    return lines


def layout_limits():
    lines = ["| what | limit | question | constant |", "|---|---|---|---|"]
    for row in LIMITS:
        name = f"`CHARUCO_{row['constant']}`" if row["constant"] else ""
        value = row["range"].replace("#", f"{int(row['value']):,}")
        lines.append(f"| {row['what']} | {value} | {row['questions']} | {name} |")
    return lines


def layout_record():
    lines = ["| bytes | present | field | meaning |", "|---|---|---|---|"]
    return lines + [f"| {row['bytes']} | {row['present']} | {row['field']} | {row['meaning']} |" for row in RECORD]


def crates():
    """The crates in the order of crates.txt."""
    lines = (ROOT / "crates.txt").read_text(encoding="utf-8").splitlines()
    return [line.partition(":")[0].split()[0] for line in lines if line and not line.startswith("#")]


def crate_list():
    lines = []
    for name in crates():
        path = next(p for p in (f"crates/{name}/src/{file}.rt" for file in ("lib", "main")) if (ROOT / p).exists())
        said = (ROOT / path).read_text(encoding="utf-8").splitlines()[0].removeprefix("// ")
        if not said.endswith((".", ")")):
            errors.append(f"{path}: its first line is not a complete sentence")
        lines.append(f"- [`{name}`](../{path}): {said}")
    return lines


def must_fail_list():
    lines = []
    for path in sorted(ROOT.glob("crates/*/must-fail/*.edit")):
        said, *rest = path.read_text(encoding="utf-8").splitlines()
        of = " (d)" if any(line.startswith("file: specs/") for line in rest) else ""
        lines.append(f"- `{path.parts[-3]}:{path.stem}`{of}: {said.removeprefix('# ')}")
    return lines


def requires_list():
    lines = []
    for name in sorted(crates()):
        modules = []
        for path in sorted((ROOT / "crates" / name / "src").rglob("*.rt")):
            found = with_requires(path.read_text(encoding="utf-8"))
            if found:
                module = "" if path.stem in ("lib", "main") else f"`{path.stem}`: "
                modules.append(module + ", ".join(f"`{function}`" for function in found))
        if modules:
            lines.append(f"- `{name}`: {'; '.join(modules)}")
    return lines


def with_requires(code):
    """The public functions that have a `requires`."""
    found = []
    function = None
    for line in code.splitlines():
        if match := re.match(r"\s*(pub )?fn (\w+)", line):
            function = match[2] if match[1] else None
        elif re.match(r"\s*requires\b", line) and function and function not in found:
            found.append(function)
    return found


def reading_lines(block):
    """AUDIT's table of the reading order; its last column counts the lines that are neither blank nor imports."""
    out = []
    minutes = sum(int(row.split("|")[1]) for row in block[2:])
    if f"Together {minutes} minutes" not in (ROOT / "docs/AUDIT.md").read_text(encoding="utf-8"):
        errors.append(f"docs/AUDIT.md: the minutes of its reading order add up to {minutes}")
    for row in block:
        paths = re.findall(r"`([\w/]+\.antt)`", row)
        lines = [line for path in paths for line in (ROOT / "crates" / path).read_text(encoding="utf-8").splitlines()]
        count = sum(1 for line in lines if line.strip() and not line.startswith("use "))
        out.append(re.sub(r"\| *[0-9]* *\|$", f"| {count} |", row) if paths else row)
    return out
