"""A log of shot records and what `reread` should print for it (document 02, 2.9), in plain Python.

usage: python3 logs.py [directory]     writes the sample logs, from the sheets beside this file, to the directory, or to that of this file

`check_samples.py --write` stores their texts.
"""

import struct
import sys
from pathlib import Path

sys.dont_write_bytecode = True  # no __pycache__ beside the sources

HERE = Path(__file__).resolve().parent
HEADER = "<IH"  # sequence number and length of the record

# Sequence number and sheet of each entry; '' is an empty record.
SHELF = [(100, "lane4"), (101, "turned"), (102, "glare"), (103, "part"),
         (106, "blank"),                                # 104 and 105 are missing
         (107, "other"), (107, "other"),                # the same number again
         (108, "narrow"),
         (105, "turned"),                               # a late entry
         (110, "repeated"),                             # after it the numbers still count from 108
         (111, "table"), (112, "legacy"), (113, "legacy-restated"), (114, "far-wall"), (115, "glare-two-squares"),
         (116, "splash-one-cell"), (117, ""), (121, "lane4")]
CUT, CUT_BYTES = [(1, "lane4"), (2, "blank"), (7, "narrow")], 500     # the last entry has these bytes


def entry(number, record):
    return struct.pack(HEADER, number, len(record)) + record


def line(text):
    """The line of an entry after its number, from what `place` prints for its record."""
    first, *others = text.splitlines()
    return others[0] if first == "placed" else first


def lines(log, line_of):
    """Yields the lines of each entry, one string for each; line_of(record) is the line of an entry after its number."""
    highest, at, header = None, 0, struct.calcsize(HEADER)
    while at < len(log):
        left = len(log) - at
        number, length = struct.unpack_from(HEADER, log, at) if left >= header else (None, 0)
        if left < header + length:
            yield f"refused 26 {left}\n"
            return
        record = log[at + header:at + header + length]
        out = ""
        if highest is not None and number > highest + 1:
            out = f"gap {highest + 1} {number - 1}\n"
        if highest is not None and number <= highest:
            out = "backward\n"
        yield out + f"entry {number} {line_of(record)}\n"
        highest = number if highest is None else max(highest, number)
        at += header + length


def sample_logs():
    """Name -> bytes of each sample log."""
    def joined(rows):
        return b"".join(entry(number, (HERE / f"{name}.shot").read_bytes() if name else b"") for number, name in rows)
    whole = joined(CUT[:-1])
    return {"shelf": joined(SHELF), "cut": joined(CUT)[:len(whole) + CUT_BYTES]}


if __name__ == "__main__":
    folder = Path(sys.argv[1]) if sys.argv[1:] else HERE
    for stem, data in sample_logs().items():
        (folder / f"{stem}.log").write_bytes(data)
