#!/usr/bin/env python3
"""Writes the stored test of the program `place`: document 01's example, with the counts of document 02.

    python3 samples/make_example.py SCOPE

SCOPE is the file of document 01. It writes the record described there to crates/place/stdin, and the lines printed there to
crates/place/stdout, with the count 1 of document 02, 2.5, appended to `best` and `next`.
"""
import pathlib
import re
import struct
import sys

paper = pathlib.Path(sys.argv[1]).read_text(encoding="utf-8")
folder = pathlib.Path(__file__).resolve().parent.parent / "crates" / "place"

record = bytes([0x08])  # map 08
record += struct.pack("<511f", *([-1.0] * 256 + [0.0] * 255))  # table 256 entries -1 then 255 entries 0
record += bytes([2, 2, 2, 1])  # 2 rows, 2 cols, bits 2, border 1
record += struct.pack("<2f", 1.0, 0.5)  # sizes 1.0 and 0.5
record += struct.pack("<H2Q", 2, 1, 15)  # codes 1, 15
record += struct.pack("<H", 1) + bytes([0x01])  # one cell, sampled
record += struct.pack("<2hfB", 0, 0, 1.0, 128)  # at (0, 0), fraction 1.0, threshold 128
record += bytes.fromhex("00000000 0000FF00 00FFFF00 00000000")  # grid rows

printed = re.search(r"It prints\n\n```\n(.*?)```", paper, re.S).group(1)
printed = re.sub(r"^(best|next) .*$", r"\g<0> 1", printed, flags=re.M)  # document 02, 2.5

(folder / "stdin").write_bytes(record)
(folder / "stdout").write_text(printed, encoding="ascii", newline="\n")
