#!/usr/bin/env python3
"""Brings the repository's own definitions, lemmas and their variables to the spelling of the installed Rattle: words in snake case, types and
modules in camel case. A dash stays in a lemma's name where it joins the names of two definitions, as in `placements-length`; every other word is
joined by `_`. Run once, after port.py: `python3 tools/respell.py KIT` (KIT: the toolchain's folder, whose own names are left alone). It prints the
names that would fall together in one file; with --write it rewrites the files. Functions of src/, exported names, strings and data keep theirs.
"""
import collections
import glob
import os
import re
import sys

KIT = sys.argv[1]
WRITE = "--write" in sys.argv
TOKEN = re.compile(r"[^\s(){}.;,\[\]«»:`\"]+")
DECLARED = re.compile(r"^(\s*)((?:abbrev |unfoldable |opaque |shadow |pub )*)([^\s(){}.;,:]+) :(?:\s|$)")
# A lemma that would have its definition's name gets `_lem`, a field `_is`.
FIELDS = {
    "all-bytes", "cell-count", "cell-map", "cell-map-at", "cell-size", "code-count", "finite-scores", "first-codes", "grid-size", "is-table", "least-weight",
    "least-weight-at", "new-board", "px-at", "runner-up", "scored-answer", "scored-list", "threshold-at", "without-flag",
}
# lemmas that had a snake name which a definition now takes: in these files alone
EARLIER = {
    "from_bits": ("matcher/proofs/Bits.antt", "matcher/proofs/Turns.antt", "shot_record/proofs/CellMaps.antt"),
    "by_turn": ("matcher/proofs/Turns.antt", "grid_alignment/proofs/Entries.antt"),
    "same_point": ("points/proofs/Twice.antt",),
    "by_bit": ("score_matrix/proofs/turned/sum_eight/Proof.antt",),
    "codes_at": ("legacy_record/proofs/Written.antt", "legacy_record/proofs/writing/put_restated/Proof.antt", "worked_examples/proofs/UsedOfRecords.antt"),
}


def own_files(kind):
    return sorted(f for f in glob.glob("crates/*/" + kind + "/**/*.antt", recursive=True) if "/out/" not in f)


def words_of(path):
    with open(path, encoding="utf8", errors="replace") as f:
        return f.read()


def library_names():
    names = set()
    for top in ("rattle/antt", "rattle/logic", "rattle/std", "rattle/std_alloc", "rattle/std_io", "rattle/std_heap", "rattle/core", "rattle/std_collections"):
        for f in glob.glob(os.path.join(KIT, top) + "/**/*.antt", recursive=True):
            for line in words_of(f).splitlines():
                m = DECLARED.match(line)
                if m:
                    names.add(m.group(3))
    return names


def snake(piece):
    if piece[:1].isupper():
        return piece
    return re.sub(r"(?<=[a-z0-9])([A-Z])", lambda m: "_" + m.group(1).lower(), piece)


def pieces(name):
    return [snake(p) for p in name.split("-")]


def joined(name, definitions):
    """The lemma's name: runs of words that name a definition stay joined to one another by a dash."""
    ps = pieces(name)
    parts, i = [], 0
    while i < len(ps):
        for n in range(len(ps) - i, 0, -1):
            if "_".join(ps[i:i + n]) in definitions:
                parts.append(("_".join(ps[i:i + n]), True))
                i += n
                break
        else:
            parts.append((ps[i], False))
            i += 1
    out = parts[0][0]
    for (a, b) in zip(parts, parts[1:]):
        out += ("-" if a[1] and b[1] else "_") + b[0]
    return out


def stands_apart(name):
    return re.search(r"[a-z0-9][A-Z]", name) and not name[:1].isupper() or re.match(r"[^\W\d_].*-", name)


def main():
    library = library_names()
    defined, lemmas = set(), set()
    for f in own_files("specs"):
        for line in words_of(f).splitlines():
            m = DECLARED.match(line)
            if m and not line.lstrip().startswith("--"):
                defined.add(m.group(3))
    for f in own_files("proofs"):
        for line in words_of(f).splitlines():
            m = DECLARED.match(line)
            if m and not line.lstrip().startswith("--"):
                lemmas.add(m.group(3))
    lemmas -= defined
    names = {"_".join(pieces(d)) for d in defined if not d.startswith("+")} | {"length", "take", "drop", "map", "get_or", "replicate", "reverse", "sum"}
    spelled = {}
    for d in defined | lemmas:
        if d in library or d.startswith("+") or not stands_apart(d):
            continue
        spelled[d] = "_".join(pieces(d)) if d in defined else joined(d, names)
    # variables and local names
    seen = collections.Counter()
    for kind in ("specs", "proofs"):
        for f in own_files(kind):
            for line in words_of(f).splitlines():
                if line.lstrip().startswith(("--", "use ")):
                    continue
                for t in re.findall(r"\(([^()]+?) :", line) + re.findall(r"\{([^{}]+?) :", line) + re.findall(r"λ ([^.()]+)\.", line) + re.findall(r"let ([^\s:=]+)", line):
                    for v in t.split():
                        seen[v] += 1
    for v in seen:
        if v not in spelled and v not in library and stands_apart(v) and TOKEN.fullmatch(v):
            spelled[v] = "_".join(pieces(v))
    spelled = {k: v for k, v in spelled.items() if k != v}
    taken = {v for k, v in spelled.items() if "-" not in k}
    for k in list(spelled):
        if "-" in k and (spelled[k] in taken or k in ("id-of", "bit-xor")):
            spelled[k] += "_is" if k in FIELDS else "_lem"
    # falls together
    back = collections.defaultdict(set)
    for k, v in spelled.items():
        back[v].add(k)
    for v, ks in sorted(back.items()):
        if len(ks) > 1:
            print("two names for", v, sorted(ks))
    clashes = collections.Counter()
    for kind in ("specs", "proofs"):
        for f in own_files(kind):
            text = words_of(f)
            tokens = set(TOKEN.findall("\n".join(l for l in text.splitlines() if not l.lstrip().startswith("--"))))
            for t in tokens:
                if t in spelled and spelled[t] in tokens:
                    clashes[(t, spelled[t])] += 1
                    if "--where" in sys.argv:
                        print("both in", f, t, spelled[t])
    for (a, b), n in clashes.most_common():
        print("both in", n, "files:", a, b)
    print(len(spelled), "names")

    def turn(text):
        return TOKEN.sub(lambda m: spelled.get(m.group(0), m.group(0)), text)

    def turn_rt(text):
        # in code only ghost imports, clauses and ghost fields name definitions
        out = []
        depth, clause = 0, False
        for line in text.splitlines(keepends=True):
            s = line.lstrip()
            if s.startswith("ghost use "):
                out.append(turn(line))
                continue
            if not clause and re.match(r"(requires|ensures|ghost|decreases|invariant)\b", s) and "{" in s:
                clause, depth = True, 0
            if clause:
                out.append(turn(line))
                depth += line.count("{") - line.count("}")
                if depth <= 0:
                    clause = False
            else:
                out.append(line)
        return "".join(out)

    if WRITE:
        for kind in ("specs", "proofs"):
            for f in own_files(kind):
                text = words_of(f)
                for name, files in EARLIER.items():
                    if f[len("crates/"):] in files:
                        text = re.sub(r"(?<![\w'-])" + name + r"(?![\w'-])", name + "_lem", text)
                new = "".join(turn(l) for l in text.splitlines(keepends=True))
                if new != text:
                    with open(f, "w", encoding="utf8") as o:
                        o.write(new)
        for f in sorted(glob.glob("crates/*/src/**/*.rt", recursive=True)):
            text = words_of(f)
            new = turn_rt(text)
            if new != text:
                with open(f, "w", encoding="utf8") as o:
                    o.write(new)
        with open("tools/respelled.tsv", "w", encoding="utf8") as o:
            for k, v in sorted(spelled.items()):
                o.write(f"{k}\t{v}\n")


main()
