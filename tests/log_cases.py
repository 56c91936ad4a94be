"""Writes the logs of tests/reread: python3 tests/log_cases.py RECORDS DIRECTORY

NAME.log is a log, NAME.txt what `reread` prints for it by the model samples/logs.py. The records and what `place` prints for each are in RECORDS
(`make_records` in tests/lib.sh). cut-N.log is the log `short`, cut off after N bytes, for each N.
"""

import sys
from pathlib import Path

sys.dont_write_bytecode = True
sys.path.insert(0, str(Path(__file__).resolve().parent.parent / "samples"))

from logs import entry, line, lines

HIGHEST = 2**32 - 1
LONGEST = 65535

# Name -> sequence numbers, records by name, and how many of the last bytes are missing.
CASES = {
    "empty": ([], [], 0),
    "from-0": ([0, 1, 2], ["none", "even", "none"], 0),
    "from-1000": ([1000, 1001], ["none", "none"], 0),
    "equal": ([5, 5, 5, 6], ["none", "none", "even", "even"], 0),
    "falling": ([9, 8, 7, 0, 10], ["none"] * 5, 0),
    "gaps": ([1, 3, 4, 100, 1000], ["none"] * 5, 0),
    "gap-after-backward": ([5, 3, 4, 7, 2, 8, 10], ["none"] * 7, 0),
    "highest-first": ([HIGHEST, HIGHEST, 0, HIGHEST - 1, HIGHEST], ["none", "even", "none", "even", "none"], 0),
    "highest-last": ([0, HIGHEST], ["none", "none"], 0),
    "highest-next": ([HIGHEST - 1, HIGHEST], ["none", "none"], 0),
    "no-bytes": ([1, 2, 9, 9], ["", "", "", ""], 0),
    "long": ([1, 2, 4, 3], ["whole", "whole", "zeros", "none"], 0),
    "long-cut-by-1": ([1, 9], ["whole", "whole"], 1),
    "long-header": ([1, 9], ["none", "whole"], LONGEST),
    "zeros-cut-by-1": ([7], ["zeros"], 1),
    "header-after-gap": ([1, 9], ["none", ""], 1),
    "byte-after-gap": ([1, 9], ["none", ""], 5),
    "short": ([5, 5, 9, 2, 10, 12], ["none", "", "zero", "none", "even", ""], 0),
}


def main(records, out):
    shots = {sheet.stem: sheet.read_bytes() for sheet in sorted(records.glob("*.shot"))}
    texts = {data: (records / f"{name}.txt").read_text() for name, data in shots.items()}
    # document 01, question 21: a field is cut short; bytes follow the last field
    for name, data in ("", b""), ("zero", b"\0"), ("zeros", bytes(LONGEST)):
        shots[name], texts[data] = data, "refused 21\n"

    def write(name, log):
        (out / f"{name}.log").write_bytes(log)
        (out / f"{name}.txt").write_text("".join(lines(log, lambda record: line(texts[record]))))

    possible = [name for name, data in shots.items() if len(data) <= LONGEST]
    for name, (numbers, names, missing) in {**CASES, "all": (range(len(possible)), possible, 0)}.items():
        log = b"".join(entry(number, shots[record]) for number, record in zip(numbers, names, strict=True))
        write(name, log[:len(log) - missing])
        if name == "short":
            for end in range(len(log)):
                write(f"cut-{end}", log[:end])


if __name__ == "__main__":
    main(*map(Path, sys.argv[1:]))
