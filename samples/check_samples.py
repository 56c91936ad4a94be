"""What `place` should print for a shot record, and `reread` for a log: a plain model of Match, written from documents 01 and 02.

usage: python3 check_samples.py              compare the model's text for every sheet and log with its stored text, and truth.tsv
       python3 check_samples.py --write      store the texts, then compare
       python3 check_samples.py FILE...      print the model's text for each record, or log if its name ends in .log

Of the library it uses only the likelihood table's bit patterns, which it reads from the definition `patterns` in
crates/score_matrix/specs/Table.antt. All arithmetic is in numpy's float32, one operation at a time.

Exit status 0: everything agrees. 1: something differs. 2: a file is missing.
"""

import re
import struct
import sys
from pathlib import Path

import numpy as np

sys.dont_write_bytecode = True  # no __pycache__ beside the sources

from fields import LEAST_WEIGHT, LEGACY, TABLE, without
from logs import line, lines, sample_logs
from restated import restated, turned

HERE = Path(__file__).resolve().parent
PATTERNS = HERE / "../crates/score_matrix/specs/Table.antt"

f32 = np.float32
LN_2 = np.array([0x3F317218], np.uint32).view(f32)[0]
TURNS = [lambda u, v: (u, v), lambda u, v: (v, -u), lambda u, v: (-u, -v), lambda u, v: (-v, u)]


def hex_bits(x):
    return f"{int(np.array([x], f32).view(np.uint32)[0]):08X}"


def built_in_table():
    """`patterns`: lists of bit patterns and runs `replicate COUNT BITS`, concatenated in the order of the text."""
    text = PATTERNS.read_text(encoding="utf-8").split("patterns =", 1)[1].split("\n\n", 1)[0]
    bits = []
    for count, run, one in re.findall(r"replicate (\d+) 0x([0-9A-F]{8})|0x([0-9A-F]{8})", text):
        bits += [int(run, 16)] * int(count) if count else [int(one, 16)]
    if len(bits) != 511:
        raise ValueError(f"{PATTERNS} has {len(bits)} entries, not 511")
    return np.array(bits, np.uint32).view(f32)


class Refused(Exception):
    pass


def ask(number, yes, values=""):
    if not yes:
        raise Refused(f"refused {number}{values}\n")


# ---------------------------------------------------------------- the record

class Shot:
    """A shot record, field by field; question 21."""

    def __init__(self, data):
        ask(21, len(data) <= 65535)
        self.data, self.at = data, 0
        given = self.take("B")
        ask(21, given < 64)
        self.legacy = bool(given & LEGACY)
        self.minimum = self.take("f") if given & 1 else f32(0.05)
        self.border_threshold = self.take("f") if given & 2 else f32(0.5)
        self.px_per_square = self.take("f") if given & 4 else f32(60)
        self.table = [self.take("f") for _ in range(511)] if given & TABLE else built_in_table()
        self.least_weight = self.take("f") if given & LEAST_WEIGHT else f32(0)
        self.rows, self.cols, self.bits, self.border = (self.take("B") for _ in range(4))
        self.cell_size, self.marker_size_rel = self.take("f"), self.take("f")
        self.codes = [self.take("Q") for _ in range(self.take("H"))]
        count = self.take("H")
        cell_map = sum(self.take("B") << (8 * k) for k in range((count + 7) // 8))
        ask(21, cell_map >> count == 0)
        self.side = self.bits + 2 * self.border
        self.cells = [self.cell(cell_map >> k & 1) for k in range(count)]
        ask(21, self.at == len(data))

    def take(self, kind):
        size = struct.calcsize("<" + kind)
        ask(21, self.at + size <= len(self.data))
        raw = self.data[self.at:self.at + size]
        self.at += size
        return np.frombuffer(raw, "<f4")[0] if kind == "f" else struct.unpack("<" + kind, raw)[0]

    def cell(self, sampled):
        u, v = self.take("h"), self.take("h")
        if not sampled:
            return u, v, None
        fraction, threshold = self.take("f"), self.take("B")
        return u, v, (fraction, threshold, [self.take("B") for _ in range(self.side ** 2)])


# ---------------------------------------------------------------- Match

class Match:
    def __init__(self, shot):
        self.shot = shot
        parity = 0 if shot.legacy and shot.rows % 2 == 0 else 1
        self.squares = [(i, j) for j in range(shot.rows) for i in range(shot.cols) if (i + j) % 2 == parity]
        self.questions()
        self.ids = {square: id for id, square in enumerate(self.squares)}
        self.null = f32(shot.bits ** 2) * -LN_2
        self.weights = [self.cut(self.weight(samples)) for _, _, samples in shot.cells]
        self.scores = {}

    def questions(self):
        """1 to 13, 22 and 23. The program's output array has room for 256 cells, so check 14 always passes."""
        s = self.shot
        ask(1, s.rows >= 2 and s.cols >= 2)
        ask(2, np.isfinite(s.cell_size) and s.cell_size > 0)
        ask(3, np.isfinite(s.marker_size_rel) and 0 < s.marker_size_rel <= 1)
        ask(4, s.border >= 1)
        ask(5, len(s.codes) > 0)
        ask(6, s.rows <= 32 and s.cols <= 32 and s.border <= 4 and 1 <= s.bits <= 8 and len(s.codes) <= 1024)
        ask(7, len(s.codes) >= len(self.squares))
        ask(8, all(code < 1 << s.bits ** 2 for code in s.codes))
        # document 02: after 8, before 9
        used = [min(turned(code, s.bits, turn) for turn in range(4)) for code in s.codes[:len(self.squares)]]
        ask(22, len(set(used)) == len(used))
        ask(9, np.isfinite([s.minimum, s.border_threshold, s.px_per_square]).all() and 0 <= s.least_weight <= 1)
        ask(10, all(-8 <= entry <= 0 for entry in s.table))
        ask(11, len(s.cells) > 0)
        ask(12, len(s.cells) <= 256 and all(abs(u) <= 4096 and abs(v) <= 4096 for u, v, _ in s.cells))
        # document 02: after 12, before 13
        ask(23, len({(u, v) for u, v, _ in s.cells}) == len(s.cells))
        ask(13, all(samples is None or 0 <= samples[0] <= 1 for _, _, samples in s.cells))

    def weight(self, samples):
        if samples is None:
            return f32(0)
        if self.shot.border_threshold <= 0:
            return f32(1)
        return min(max(samples[0] / self.shot.border_threshold, f32(0)), f32(1))

    def cut(self, weight):
        """Document 02: a weight below the least one is 0; an equal one stays."""
        return f32(0) if weight < self.shot.least_weight else weight

    def inner(self, grid):
        """The grey levels at the code's bits, in the order of the bits."""
        n, border = self.shot.bits, self.shot.border
        return [grid[(border + k // n) * self.shot.side + border + k % n] for k in range(n * n)]

    def score(self, cell, id, turn):
        if (cell, id, turn) not in self.scores:
            _, threshold, grid = self.shot.cells[cell][2]
            code = turned(self.shot.codes[id], self.shot.bits, turn)
            total = f32(0)
            for k, grey in enumerate(self.inner(grid)):
                d = threshold - grey
                total = total + self.shot.table[(d if code >> k & 1 else -d) + 255]
            self.scores[cell, id, turn] = total
        return self.scores[cell, id, turn]

    def expected(self, cell, turn, tx, ty):
        u, v = TURNS[turn](*self.shot.cells[cell][:2])
        return self.ids.get((u + tx, v + ty))

    def placement(self, turn, tx, ty):
        """Evidence (None if no cell contributes), capacity, and number of contributing cells."""
        evidence, capacity, contributing_cells = f32(0), f32(0), 0
        for cell, weight in enumerate(self.weights):
            id = self.expected(cell, turn, tx, ty)
            if id is not None and weight > 0:
                evidence = evidence + weight * (self.score(cell, id, turn) - self.null)
                capacity = capacity + weight * -self.null
                contributing_cells += 1
        return (evidence if contributing_cells else None), capacity, contributing_cells

    def placements(self):
        for turn in range(4):
            points = [TURNS[turn](u, v) for u, v, _ in self.shot.cells]
            us, vs = [u for u, _ in points], [v for _, v in points]
            for tx in range(-min(us), self.shot.cols - max(us)):
                for ty in range(-min(vs), self.shot.rows - max(vs)):
                    yield turn, tx, ty, *self.placement(turn, tx, ty)

    def search(self):
        all_placements = list(self.placements())
        ask(15, all_placements)
        # `max` returns the first of equal elements
        key = lambda p: -np.inf if p[3] is None else p[3]
        best = max(all_placements, key=key)
        rest = [p for p in all_placements if p is not best]
        runner_up = max(rest, key=key) if rest else None
        if best[3] is None or best[3] <= 0:
            margin = f32(0)
        elif runner_up is None or runner_up[3] is None:
            margin = f32(1)
        else:
            margin = (best[3] - runner_up[3]) / max(best[4], f32(2.0 ** -23))
        return best, runner_up, margin, len(all_placements)

    def emitted(self, turn, tx, ty):
        for cell, (u, v, samples) in enumerate(self.shot.cells):
            id = self.expected(cell, turn, tx, ty)
            if id is None or samples is None or not self.weights[cell] > 0:
                continue
            score = self.score(cell, id, turn)
            if not score - self.null > 0:
                continue
            _, threshold, grid = samples
            code = sum(1 << k for k, grey in enumerate(self.inner(grid)) if grey < threshold)
            differing = bin(code ^ turned(self.shot.codes[id], self.shot.bits, turn)).count("1")
            du, dv = [(0, 0), (1, 0), (1, 1), (0, 1)][turn]
            quotient = score / f32(self.shot.bits ** 2)
            yield f"marker {cell} {id} {u + du} {v + dv} {turn} {differing} {code:016X} {hex_bits(quotient)}\n"

    def text(self):
        best, runner_up, margin, count = self.search()
        ask(16, not margin < self.shot.minimum, " " + hex_bits(margin))
        turn, tx, ty = best[:3]
        markers = list(self.emitted(turn, tx, ty))
        ask(17, markers)
        dx, dy = [(0, 0), (0, 1), (1, 1), (1, 0)][turn]
        shown = lambda p: f"{p[0]} {p[1]} {p[2]} {'none' if p[3] is None else hex_bits(p[3])} {p[5]}"
        return ("placed\n"
                + f"best {shown(best)}\n"
                + f"next {shown(runner_up) if runner_up else 'absent'}\n"
                + f"margin {hex_bits(margin)}\n"
                + f"placements {count}\n"
                + f"corners {turn} {tx + dx} {ty + dy}\n"
                + "".join(markers))


def model(data, changed=lambda shot: shot):
    try:
        return Match(changed(Shot(data))).text()
    except Refused as refusal:
        return str(refusal)


def model_of_log(log):
    return "".join(lines(log, lambda record: line(model(record))))


def model_of_file(path):
    return (model_of_log if path.suffix == ".log" else model)(path.read_bytes())


# ---------------------------------------------------------------- document 01's own example, with document 02's counts

EXAMPLE = (b"\x08" + struct.pack("<511f", *[-1.0] * 256, *[0.0] * 255) + bytes([2, 2, 2, 1]) + struct.pack("<ff", 1.0, 0.5)
           + struct.pack("<HQQ", 2, 1, 15) + struct.pack("<HB", 1, 1) + struct.pack("<hhfB", 0, 0, 1.0, 128)
           + bytes.fromhex("00000000 0000FF00 00FFFF00 00000000"))

EXAMPLE_TEXT = """placed
best 0 1 0 40317218 1
next 1 1 0 3F45C860 1
margin 3F38AA3B
placements 16
corners 0 1 0
marker 0 0 0 0 0 0 0000000000000001 00000000
"""


def truth_rows():
    """Per sheet its name, its true placement or None, and the last word: `wrong`, `repeats`, `restated` or ''."""
    for line in (HERE / "truth.tsv").read_text().splitlines():
        name, *placement = line.split("\t")
        word = placement.pop() if placement[3:] in (["wrong"], ["repeats"], ["restated"]) else ""
        yield name, None if placement == ["none"] else tuple(int(number) for number in placement), word


def without_repeats(shot):
    """The shot with only the first cell at each point."""
    first = {}
    for u, v, samples in shot.cells:
        first.setdefault((u, v), (u, v, samples))
    shot.cells = list(first.values())
    return shot


def placement(text):
    """Turn, tx and ty of the line `best`, or None for a refused record."""
    return tuple(int(number) for number in text.splitlines()[1].split()[1:4]) if text.startswith("placed") else None


def paired(text, shot):
    """The text for the record restated, from the text for a legacy record with even rows and odd cols (document 02, 2.7)."""
    markers = shot.rows * shot.cols // 2
    lines = []
    for line in text.splitlines():
        word, *values = line.split()
        if word in ("best", "next", "corners"):
            turn, tx, ty = map(int, values[:3])
            last = 0 if word == "corners" else 1
            values[:3] = (turn + 2) % 4, shot.cols - last - tx, shot.rows - last - ty
        if word == "marker":
            cell, id, u, v, turn = map(int, values[:5])
            left, top, _ = shot.cells[cell]
            # the opposite corner of the cell, from (left, top) to (left + 1, top + 1)
            values[1:5] = markers - 1 - id, 2 * left + 1 - u, 2 * top + 1 - v, (turn + 2) % 4
        lines.append(" ".join(map(str, [word, *values])) + "\n")
    return "".join(lines)


def restating_faults(name, data, text, word):
    """Yields a message for each check of the record restated that fails."""
    if bool(data[0] & LEGACY) == (restated(data) == data):
        yield "restating changes it without a legacy flag, or not with one"
    if restated(restated(data)) != restated(data):
        yield "restating twice differs from restating once"
    if word == "restated":
        source = (HERE / f"{name.removesuffix('-restated')}.shot").read_bytes()
        if restated(source) != data:
            yield "not the other sheet restated"
        if paired(model(source), Shot(source)) != text:
            yield "its text does not pair with that of the other sheet"


def faults(name, truth, word):
    """Yields a message for each check that fails for one sheet."""
    data = (HERE / f"{name}.shot").read_bytes()
    text = model(data)
    if text != (HERE / f"{name}.txt").read_text():
        yield "not the stored text"
    if word not in ("repeats", "restated") and not (HERE / f"{name}.png").exists():
        yield "no image"
    placed = placement(text)
    if word == "wrong":
        if placed is None or placed == truth:
            yield f"placed {placed}, and wrongly was expected: drawn {truth}"
        if truth not in [placement[:3] for placement in Match(Shot(data)).placements()]:
            yield f"drawn {truth}, which does not put every cell on the board"
    elif word == "repeats":
        if text != "refused 23\n":
            yield f"{text.splitlines()[0]}, and refused 23 was expected"
        if placement(model(data, without_repeats)) != truth:
            yield f"without its repeats it is not placed at {truth}"
    elif placed != truth:
        yield f"placed {placed}, drawn {truth}"
    if data[0] & TABLE and model(without(data, TABLE)) == text:
        yield "its own table changes nothing"
    for bit, field in (LEGACY, "legacy flag"), (LEAST_WEIGHT, "least weight"):
        if data[0] & bit and placement(model(without(data, bit))) == truth:
            yield f"without its {field} it is placed the same"
    yield from restating_faults(name, data, text, word)


def log_faults(name, data):
    """Yields a message for each check that fails for one log, which should have these bytes."""
    log = (HERE / f"{name}.log").read_bytes()
    if log != data:
        yield "not the log that logs.py writes"
    if model_of_log(log) != (HERE / f"{name}.txt").read_text():
        yield "not the stored text"


def check():
    wrong = []
    if model(EXAMPLE) != EXAMPLE_TEXT:
        wrong.append("document 01's example")
    rows = list(truth_rows())
    if sorted(name for name, *_ in rows) != sorted(sheet.stem for sheet in HERE.glob("*.shot")):
        wrong.append("truth.tsv does not name the sheets")
    for row in rows:
        wrong += [f"{row[0]}: {fault}" for fault in faults(*row)]
    logs = sample_logs()
    for name, data in logs.items():
        wrong += [f"{name}: {fault}" for fault in log_faults(name, data)]
    print("\n".join(wrong) if wrong else f"{len(rows)} sheets, {len(logs)} logs and document 01's example agree")
    return 1 if wrong else 0


def main():
    words = sys.argv[1:]
    try:
        if words == ["--write"]:
            for file in sorted([*HERE.glob("*.shot"), *HERE.glob("*.log")]):
                file.with_suffix(".txt").write_text(model_of_file(file))
        elif words:
            for word in words:
                sys.stdout.write(model_of_file(Path(word)))
            return 0
        return check()
    except OSError as error:
        print(error, file=sys.stderr)
        return 2


if __name__ == "__main__":
    sys.exit(main())
