#!/usr/bin/env python3
"""Turns the Proof.antt files of the older form, which hand a list of answers to `tie.spec`, into Invariants.antt and Answers.antt.

usage: tools/to_answers.py NAMES CRATE..   (NAMES: a folder with CRATE/names.json of `rt check --generated NAMES/CRATE --old-names`)

Names of goals, steps, arms and arguments go by names.json. It prints what it could not turn.
"""
import json
import os
import re
import sys

with open(os.path.join(os.path.dirname(os.path.realpath(__file__)), "respelled.tsv"), encoding="utf8") as _f:
    RESPELLED = {line.split("\t")[0] for line in _f}
OLDER = {"taken": "true", "left": "false", "inv": "invariant", "ok": "type_inv"}
WORD = r"[A-Za-z_][\w'\-₀₁₂₃₄₅₆₇₈₉]*"


def norm(name):
    return name.replace("-", "_")


def closing(text, at):
    """The index of the bracket that closes the one at `at`."""
    depth = 0
    for i in range(at, len(text)):
        if text[i] in "([{":
            depth += 1
        elif text[i] in ")]}":
            depth -= 1
            if depth == 0:
                return i
    return -1


def split_top(text, sep):
    parts, depth, last = [], 0, 0
    for i, c in enumerate(text):
        if c in "([{":
            depth += 1
        elif c in ")]}":
            depth -= 1
        elif c == sep and depth == 0:
            parts.append(text[last:i])
            last = i + 1
    parts.append(text[last:])
    return [p for p in parts if p.strip()]


def arguments(text):
    """The arguments of an application, as texts."""
    out, i = [], 0
    while i < len(text):
        if text[i].isspace():
            i += 1
        elif text[i] == "(":
            j = closing(text, i)
            out.append(text[i:j + 1])
            i = j + 1
        else:
            j = i
            while j < len(text) and not text[j].isspace() and text[j] != "(":
                j += 1
            out.append(text[i:j])
            i = j
    return out


def items(text):
    """Top-level items: [comment lines], text."""
    out, comment, body = [], [], []
    for line in text.split("\n"):
        if line.startswith("--"):
            if body:
                out.append((comment, body))
                comment, body = [], []
            comment.append(line)
        elif line.strip() == "":
            if body:
                body.append(line)
            elif comment:
                comment.append(line)
        elif line[0].isspace():
            body.append(line)
        else:
            body_is_signature = body and re.match(r"^(?:abbrev |pub |unfoldable )*(\S+) :", body[0])
            if body:
                # a definition or an unfolding line goes with the signature above it
                name = body_is_signature.group(1) if body_is_signature else None
                first = line.split()[0]
                if (name and (first == name or first == "unfolding")) or first == "where":
                    body.append(line)
                    continue
                out.append((comment, body))
                comment, body = [], []
            body.append(line)
    if body:
        out.append((comment, body))
    return [(c, "\n".join(b).rstrip()) for c, b in out]


class File:
    def __init__(self, path, crate, names):
        self.path, self.crate = path, crate
        self.folder = os.path.dirname(path)
        inside = os.path.relpath(self.folder, f"crates/{crate}/proofs")
        self.module = f"Rattle.{crate}.proofs." + inside.replace("/", ".")
        self.names = names.get(f"Rattle-{crate}-proofs." + inside.replace("/", ".") + ".Lts")
        self.said = []
        with open(path, encoding="utf8") as f:
            self.text = f.read()

    def say(self, what):
        self.said.append(f"{self.path}: {what}")

    def turn(self):
        if self.names is None:
            self.say("no names")
            return
        if " as tie" not in self.text:
            self.say("no tie")
            return
        v = self.names
        text = self.text
        text = re.sub(r"(?m)^use \S+\.Statement\.\{statement\}\n", "", text)
        text = re.sub(r"(?m)^use \S+\.Tie as tie\n", "", text)
        m = re.search(r"(?ms)^pub \S+_spec : .*?\n(\S+_spec) =\s*(.*)\Z", text)
        if not m:
            self.say("no spec item")
            return
        body, text = m.group(2).strip(), text[:m.start()].rstrip() + "\n"
        at = body.find("tie.close")
        # leading lets are kept out
        if at != 0 or "(tie.spec" not in body and "tie.spec" not in body:
            self.say("the spec item is of another form: " + body[:80])
            return
        inner = body[len("tie.close"):].strip()
        if inner.startswith("("):
            inner = inner[1:closing(inner, 0)]
        inner = inner.strip()
        inner = inner[len("tie.spec"):]
        args = arguments(inner)
        leading = [a for a in args if re.match(r"^(invariant|decreases)-", a)]
        loops = v["loops"]
        n_lead = len(leading)
        answers = args[n_lead:]
        needs = v["needs"]
        if len(answers) != len(needs):
            # some goals are settled now: answers go by the goal that their signature names
            kept, by = [], {norm(o): (o, n) for o, n in needs}
            for a in answers:
                if re.fullmatch(WORD, a):
                    s = re.search(r"(?m)^" + re.escape(a) + r" : tie\.Need-(\S+)", text)
                    key = norm(s.group(1)) if s else ""
                    found = [by[k] for k in (key, re.sub(r"^(overflow|nonzero|slice_bounds|slice)_", "", key)) if k in by]
                    if found:
                        kept.append((a, found[0]))
                    else:
                        self.say(f"no goal for {a}: {[n[1] for n in needs]}")
                elif not re.match(r"\(λ[^.]*\.\s*(search rules|tt)\)$", a):
                    self.say(f"{len(answers)} answers for {len(needs)} goals, and one more is {a[:300]}")
            answers, needs = [a for a, _ in kept], [n for _, n in kept]
        text, inline = self.renamed(text, answers, needs)
        self.write(text, inline, loops)

    def renamed(self, text, answers, needs):
        v = self.names
        inline, given = [], {}
        for a, (old, new) in zip(answers, needs):
            if re.fullmatch(WORD, a) and not re.search(r"(?m)^(?:pub )?" + re.escape(a) + r" :\s*tie\.Need-", text):
                inline.append((new, f"@@ c = {a} c"))
            elif re.fullmatch(WORD, a):
                if a in given:
                    inline.append((new, f"@@ c = {given[a]} c"))
                    self.say(f"{a} answers two goals: {new}")
                else:
                    given[a] = new
            elif a.startswith("(λ"):
                t = a[1:-1].strip()
                m = re.match(r"λ\s+([^.]*?)\.\s*(.*)\Z", t, re.S)
                vs, e = m.group(1).split(), m.group(2)
                if e.strip() in ("search rules", "tt", "refl"):
                    continue
                inline.append((new, f"@@ {vs[0]} = {e}"))
            else:
                inline.append((new, f"@@ = {a}"))
                self.say(f"an answer of another form: {a[:60]}")
        # old forms of places and needs
        places = {}
        for p, new in zip(v["places"], v["places_by_name"]):
            places[norm(p[0])] = new
        need_of = {}
        for old, new in needs:
            need_of[norm(old)] = new
        used = set()

        def whole(i):
            """The last of the stages of an arm, which alone has the arm's names."""
            arms = v["arms"]
            while arms[i]:
                below = [j for j, q in enumerate(v["places"]) if q[1] == v["places"][i][0] and arms[j] and arms[j][0] == arms[i][0] and arms[j][1] > arms[i][1]]
                if not below:
                    break
                i = below[0]
            return i

        for i, p in enumerate(v["places"]):
            places[norm(p[0])] = v["places_by_name"][whole(i)]

        def tie(m):
            word = m.group(1)
            if word.startswith("Need-"):
                key = norm(word[5:])
                for k in (key, key.replace("overflow_", ""), re.sub(r"^(overflow|nonzero|offset)_", "", key)):
                    if k in need_of:
                        return "goal." + need_of[k]
                self.say("no need " + word)
                return "goal." + word[5:]
            if word.startswith(("invariant-", "decreases-")):
                return "tie." + word
            key = norm(word)
            if key in places:
                used.add(places[key])
                return places[key]
            self.say("no place " + word)
            return word

        def code(t):
            t = re.sub(r"tie\.(" + WORD + r")((?:[ ]+(?:invariant|decreases)-[\w\-]+)*)", tie, t)
            return t

        text = code(text)
        inline = [(n, code(t)) for n, t in inline]
        # names of the answers, all at once
        if given:
            pat = r"(?<![.\w'\-])(" + "|".join(re.escape(x) for x in sorted(given, key=len, reverse=True)) + r")(?![\w'\-])"
            text = re.sub(pat, lambda m: given[m.group(1)], text)
            inline = [(n, re.sub(pat, lambda m: given[m.group(1)], t) if t else t) for n, t in inline]
        inline = [(n, t.replace("@@", n, 1)) for n, t in inline]
        for a, new in given.items():
            text = re.sub(r"(?m)^" + re.escape(new) + r" :\s*goal\.\S+", f"pub {new} : goal.{new}", text)
        text = re.sub(r"(?m)^(\S+ c) κs(\s+=)", r"\1\2", text)
        self.used = used
        self.given = given
        return text, inline

    def source(self, name):
        """A name of the source, that the respelling of lemmas had changed."""
        for end in ("_is", "_lem"):
            if name.endswith(end) and name[: -len(end)].replace("_", "-") in RESPELLED:
                name = name[: -len(end)]
        return name.replace("-", "_")

    def above(self, place):
        """The indices of a place and of those above it, the nearest first."""
        v = self.names
        of = {p[0]: i for i, p in enumerate(v["places"])}
        i = v["places_by_name"].index(place) if place in v["places_by_name"] else None
        out = []
        while i is not None:
            out.append(i)
            i = of.get(v["places"][i][1])
        return out

    def steps(self, t, place, bases, makers=()):
        v = self.names
        steps, subs, callee = {}, {}, {}
        line = self.above(place)
        for i in line:
            p = v["places"][i]
            old, new = p[2]
            if old:
                steps.setdefault(norm(old), new)
                if p[4]:
                    subs.setdefault(norm(old), dict((a, b) for a, b in p[4]))
                if p[3]:
                    callee.setdefault(norm(old), v["params"].get(p[3]))
        clauses = {}
        for i in line:
            p = v["places"][i]
            c = v["clauses"][i] if i < len(v["clauses"]) else None
            if c and p[2][0]:
                clauses.setdefault(norm(p[2][0]), c["fields"])
        arms = {}
        for i in line:
            a = v["arms"][i]
            if a:
                for field, old, path in a[2]:
                    if path and not field.endswith("-own"):
                        arms.setdefault((norm(old), ".".join(path)), f"{a[0]}.{field}")
        typed = {}
        for i in line:
            for var, old in v["typed"][i]:
                typed.setdefault(norm(old), var)
        # other names for the place
        alias = set(bases)
        again = True
        while again:
            again = False
            some = "(?:" + "|".join(re.escape(x) for x in sorted(alias, key=len, reverse=True)) + r")(?:\.before)*"
            made = "(?:" + "|".join(re.escape(x) for x in sorted(makers, key=len, reverse=True)) + r") (?:" + some + r"|\(" + some + r"\))" if makers else "(?!x)x"
            for m in re.finditer(r"(?<![\w'.\-])(" + WORD + r") =\s+(?:" + some + "|" + made + r")(?=\s+in\b|\s*\n|\s*$)", t):
                if m.group(1) not in alias:
                    alias.add(m.group(1))
                    again = True
            for m in makers:
                if m not in alias and re.search(r"(?m)^  " + re.escape(m) + r" =", t):
                    alias.add(m)
                    again = True
        t = re.sub(r"\.pre(?![\w\-])", ".requires", t)
        t = t.replace(".type-inv", ".type_inv")
        for a, b in v["args"]:
            t = t.replace(a.replace(" ", ""), b.replace(" ", ""))
        # alias names bound to a step, its clauses or the requirements
        alias_step, alias_ens, alias_req = {}, {}, set()
        for m in re.finditer(r"(?<![\w'.\-])(" + WORD + r")\s*=\s*(\(?[^=\n]*?)\.(" + WORD + r")(?:\s+in\b|\s*$)", t, re.M):
            name, _, last = m.groups()
            if last == "requires":
                alias_req.add(name)
            elif norm(last) in steps:
                alias_step[name] = norm(last)
        for m in re.finditer(r"(?<![\w'.\-])(" + WORD + r")\s*=\s*[^=\n]*?\.?(" + WORD + r")\.ensures(?:\s+in\b|\s*$)", t, re.M):
            name, last = m.groups()
            key = norm(last) if norm(last) in steps else alias_step.get(last)
            if key:
                alias_ens[name] = key
        pre = v["pre"]["fields"] if v["pre"] else None

        def field_of(fields, path):
            ds = [d for d in path.split(".") if d]
            k = 0
            while k < len(ds) and ds[k] == "1" and k < len(fields) - 1:
                k += 1
            if k == len(fields) - 1:
                return "." + fields[k] + "".join("." + d for d in ds[k:])
            if k < len(ds) and ds[k] == "0":
                return "." + fields[k] + "".join("." + d for d in ds[k + 1:])
            return None

        def clause_path(t, before, fields, word):
            def put(m):
                new = field_of(fields, m.group(2))
                if new is None:
                    self.say(f"part of clauses: {m.group(0)}")
                    return m.group(0)
                return m.group(1) + new
            return re.sub("(" + before + ")" + r"((?:\.\d)+)", put, t)

        for old, fields in clauses.items():
            pat = r"[.](?:" + "|".join({re.escape(old), re.escape(old).replace("_", "[-_]")}) + r")\.ensures"
            t = clause_path(t, pat, fields, old)
        for name, old in alias_step.items():
            if old in clauses:
                t = clause_path(t, r"(?<![\w'.\-])" + re.escape(name) + r"\.ensures", clauses[old], name)
        for name, old in alias_ens.items():
            if old in clauses:
                t = clause_path(t, r"(?<![\w'.\-])" + re.escape(name) + r"(?![\w'\-])", clauses[old], name)
        if pre:
            t = clause_path(t, r"\.requires", pre, "requires")
            for name in alias_req:
                t = clause_path(t, r"(?<![\w'.\-])" + re.escape(name) + r"(?![\w'\-])", pre, name)
        # last values of arguments
        for old, ps in callee.items():
            if not ps:
                continue
            names = [n for n, o in alias_step.items() if o == old]
            heads = [r"\.(?:" + re.escape(old).replace("_", "[-_]") + r")"] + [r"(?<![\w'.\-])" + re.escape(n) for n in names]
            for h in heads:
                def put(m, ps=ps):
                    k = m.group(2).count("1")
                    if m.group(3) is None and k == len(ps) - 1 or m.group(3) is not None and k < len(ps):
                        return m.group(1) + ".new." + ps[k]
                    self.say("part of new: " + m.group(0))
                    return m.group(0)
                t = re.sub("(" + h + r")\.new((?:\.1)*)(\.0)?(?!\.\d)", put, t)

        # arms and types
        def arm(m):
            old, path = norm(m.group(1)), m.group(2)[1:]
            parts = path.split(".")
            for n in range(len(parts), 0, -1):
                key = (old, ".".join(parts[:n]))
                if key in arms:
                    return "." + arms[key] + "".join("." + x for x in parts[n:])
            if old in typed and parts[0] == "given":
                return ".type_inv." + typed[old] + "".join("." + x for x in parts[1:])
            return m.group(0)
        t = re.sub(r"\.(" + WORD + r")((?:\.(?:given|keys\d+|rest|\d+))+)", arm, t)

        alias_args = set(re.findall(r"(?<![\w'.\-])(" + WORD + r")\s*=\s*[^=\n]*?\.args(?:\s+in\b|\s*$)", t, re.M))

        ended = ("args", "ranges", "requires", "ensures", "new", "result", "now", "initial", "invariant", "type_inv")

        def chain(m):
            comps = m.group(0).split(".")
            base, comps = comps[0], comps[1:]
            out, closed, i = [], base in alias_args or (base != ")" and base not in alias), 0
            if base in alias_args and comps:
                comps[0] = self.source(comps[0])
            while i < len(comps):
                x = comps[i]
                old = norm(x) if norm(x) in steps else norm(self.source(x))
                if closed or old not in steps or x == "before":
                    closed = closed or x in ended
                    if out and out[-1] in ("args", "ranges", "initial", "new"):
                        x = self.source(x)
                    if not (x == "before" and i + 1 < len(comps) and comps[i + 1] != "before" and not closed):
                        out.append(x)
                    i += 1
                    continue
                out.append(steps[old])
                if i + 1 < len(comps) and comps[i + 1] in OLDER:
                    comps[i + 1] = OLDER[comps[i + 1]]
                if old.startswith("loop") and i + 1 < len(comps) and comps[i + 1] not in ("true", "false", "invariant"):
                    comps[i + 1] = self.source(comps[i + 1])
                if i + 1 < len(comps) and old in subs and comps[i + 1] in subs[old]:
                    out.append(subs[old][comps[i + 1]])
                    i += 1
                closed = True
                i += 1
            # fields of the places before need no path
            while len(out) > 1 and out[0] == "before" and any(y != "before" for y in out):
                out = out[1:]
            return base + "." + ".".join(out)
        t = "\n".join(
            line if line.startswith("use ") else re.sub(r"(?:" + WORD + r"|\))(?:\.(?:" + WORD + r"|\d+))+", chain, line) for line in t.split("\n")
        )
        return t

    def is_view(self, place):
        """A place with facts on types or an arm has a record of its own above that of the step."""
        v = self.names
        i = v["places_by_name"].index(place) if place in v["places_by_name"] else None
        return i is not None and bool(v["typed"][i] or v["arms"][i])

    def hops(self, place, above):
        """How many `.before` lead from a place to one above it."""
        v = self.names
        new = dict(zip([p[0] for p in v["places"]], v["places_by_name"]))
        parent = {new[p[0]]: new.get(p[1]) for p in v["places"]}
        n = 1 if self.is_view(place) else 0
        while place and place != above:
            place = parent.get(place)
            n += 1
        return n if place else None

    def helpers(self, parts):
        """Of each lemma that takes a place first: that place; of each that gives a place back: its own."""
        takes, gives = {}, {}
        for _, t in parts:
            first = t.split("\n")[0]
            m = re.match(r"module _ \((\w+) : ([\w\-]+)\)", first)
            if m and m.group(2) in self.names["places_by_name"]:
                for d in re.findall(r"(?m)^  (?:abbrev |pub |unfoldable )*(\S+) :\s*([^\n]*)", t):
                    takes[d[0]] = m.group(2)
                    if d[1].strip() in self.names["places_by_name"]:
                        gives[d[0]] = d[1].strip()
                continue
            m = re.match(r"(?:abbrev |pub |unfoldable )*(\S+) : \((\w+) : ([\w\-]+)\)\s*→\s*([^\n]*)", first) or re.match(r"(?:abbrev |pub |unfoldable )*(\S+) : (())([\w\-]+) → ([\w\-]+)$", first)
            if m:
                g = m.groups()
                place, res = (g[2], g[3]) if g[1] else (g[3], g[4])
                if place in self.names["places_by_name"]:
                    takes[g[0]] = place
                    if res.strip() in self.names["places_by_name"]:
                        gives[g[0]] = res.strip()
        return takes, gives

    def paths(self, parts):
        """The names that a module gives to a path from its place."""
        out = {}
        for _, t in parts:
            m = re.match(r"module _ \((\w+) : ([\w\-]+)\)", t)
            if m and m.group(2) in self.names["places_by_name"]:
                for name, path in re.findall(r"(?m)^  (\S+) =\s*" + re.escape(m.group(1)) + r"((?:\.[\w\-]+)+)[ ]*$", t):
                    if ".before" not in path and "abbrev " + name in t:
                        out[name] = path
        return out

    def flat(self, t, var, place, takes, gives, goal, paths):
        """An item whose variable is at a place: its fields by their names alone, and places above it where a lemma takes one."""
        V = r"(?<![\w'.\-])"
        E = r"(?![\w'\-])"
        alias = {var}
        chain = lambda: "(?:" + "|".join(re.escape(x) for x in sorted(alias, key=len, reverse=True)) + ")(?:\\.before)*"
        maker = "(?:" + "|".join(re.escape(x) for x in sorted(gives, key=len, reverse=True)) + ")" if gives else None
        again = True
        while again:
            again = False
            pat = r"(?:let |  abbrev [^\n]*\n  )" + r"(" + WORD + r") =\s+(" + chain() + r"|" + (maker + r" (?:" + chain() + r"|\(" + chain() + r"\))" if maker else "(?!x)x") + r")(?=\s+in\b|\s*\n|\s*$)"
            for m in re.finditer(pat, t):
                if m.group(1) not in alias:
                    alias.add(m.group(1))
                    again = True
            if goal is None:
                for g in gives:
                    if g not in alias and re.search(r"(?m)^  " + re.escape(g) + r" =", t):
                        alias.add(g)
                        again = True
        names = "(?:" + "|".join(re.escape(x) for x in sorted(alias, key=len, reverse=True)) + ")"
        # a lemma that gives a place, read at a field
        if maker:
            t = re.sub(V + r"\(" + maker + r" (?:" + names + r"(?:\.before)*|\(" + names + r"(?:\.before)*\))\)(?:\.before)*(?=\.(?!before))", var, t)
        t = re.sub(V + names + r"(?:\.before)*(?=\.(?!before\b)[A-Za-z_\d])", var, t)
        # a name for a path from another place
        if paths:
            pather = "(" + "|".join(re.escape(x) for x in sorted(paths, key=len, reverse=True)) + ")"
            arg = r"(?:" + names + r"(?:\.before)*(?![\w'.\-])|\(" + names + r"(?:\.before)+\)(?!\.)" + (r"|\(" + maker + " " + names + r"(?:\.before)*\)(?!\.)" if maker else "") + r")"
            t = re.sub(r"\(" + pather + r" " + arg + r"\)", lambda m: var + paths[m.group(1)], t)
            t = re.sub(V + pather + r" " + arg, lambda m: var + paths[m.group(1)], t)
        # a lemma that takes a place
        if takes:
            taker = "(" + "|".join(re.escape(x) for x in sorted(takes, key=len, reverse=True)) + ")"
            arg = r"(?:" + names + r"(?:\.before)*(?![\w'.\-])|\(" + names + r"(?:\.before)+\)(?!\.)" + (r"|\(" + maker + " " + names + r"(?:\.before)*\)(?!\.)" if maker else "") + r")"

            def put(m):
                want = takes[m.group(1)]
                if goal is not None:
                    if want == place:
                        return f"{m.group(1)} {var}"
                    return f"{m.group(1)} (goal.at.{goal} {var}).{want}"
                if want == place:
                    return f"{m.group(1)} {var}"
                n = self.hops(place, want)
                i = self.names["places_by_name"].index(want)
                if n is None or self.names["arms"][i]:
                    self.say(f"{m.group(0)}: a place {want} from {place}")
                    return m.group(0)
                if self.is_view(want):
                    here = self.names["places_by_name"].index(place)
                    known = {x for x, _ in self.names["typed"][here]}
                    steps = dict(zip([p[2][0] for p in self.names["places"]], [p[2][1] for p in self.names["places"]]))
                    facts = [f"{x} = {var}.type_inv.{x}" if x in known else f"{x} = {var}.{steps.get(o, o)}.given" for x, o in self.names["typed"][i]]
                    up = f"record {{ before = {var}{'.before' * n}; type_inv = record {{ {'; '.join(facts)} }} }}"
                    return f"{m.group(1)} ({up})"
                return f"{m.group(1)} {var}" + ".before" * n
            t = re.sub(V + taker + r" " + arg, put, t)
        if goal is None:
            for g in gives:
                n = self.hops(place, gives[g])
                if n is not None:
                    t = re.sub(r"(?m)^(  " + re.escape(g) + r" =)\s*" + re.escape(var) + r"(?:\.before)+$", r"\1 " + var + ".before" * n, t)
        # names that nothing uses now
        again = True
        while again:
            again = False
            for m in re.finditer(r"let (" + WORD + r") =\s+(?:" + chain() + r"|" + (maker + r" (?:\([^()]*\)(?:\.[\w\-]+)?|\S+)" if maker else "(?!x)x") + r")\s+in\s+", t):
                rest = t[:m.start()] + t[m.end():]
                if not re.search(V + re.escape(m.group(1)) + E, rest):
                    t = rest
                    again = True
                    break
        return t

    def shaped(self, name, t):
        """An answer for several clauses as a record."""
        old = {new: o for o, new in self.names["needs"]}.get(name)
        fields = self.names["asked"].get(old)
        if not fields:
            return t
        t = t.rstrip()

        def projected():
            depth, at = 0, t.find(" =") + 2
            for k in range(len(t)):
                if t[k] in "([{":
                    depth += 1
                elif t[k] in ")]}":
                    depth -= 1
                elif depth == 0 and re.match(r" in(\s)", t[k:k + 4]):
                    at = k + 3
            e = t[at:].strip()
            if len(e) > 400 or "\n" in e and "let " in e:
                self.say(f"{name}: not a tuple, for {fields}")
                return t
            paths = [".1" * k + ".0" for k in range(len(fields) - 1)] + [".1" * (len(fields) - 1)]
            return t[:at] + " record {\n      " + ";\n      ".join(f"{f} = ({e}){p}" for f, p in zip(fields, paths)) + ";\n    }"
        if not t.endswith(")"):
            return projected()
        # the bracket that opens the last expression
        depth, i = 0, len(t) - 1
        while i >= 0:
            if t[i] == ")":
                depth += 1
            elif t[i] == "(":
                depth -= 1
                if depth == 0:
                    break
            i -= 1
        before = t[:i].rstrip()
        if not re.search(r"(=|\bin)$", before):
            return projected()
        parts, e = [], t[i:]
        while len(parts) < len(fields) - 1:
            two = split_top(e[1:-1], ",") if e.startswith("(") and closing(e, 0) == len(e) - 1 else []
            if len(two) != 2:
                return projected()
            parts.append(two[0].strip())
            e = two[1].strip()
        parts.append(e)
        return before + " record {\n      " + ";\n      ".join(f"{f} = {p}" for f, p in zip(fields, parts)) + ";\n    }"

    def write(self, text, inline, loops):
        parts = items(text)
        uses = [t for c, t in parts if t.startswith("use ")]
        uses = [l for t in uses for l in t.split("\n") if l.startswith("use ")]
        head = []
        rest = []
        for c, t in parts:
            if t.startswith("use "):
                if c and not head:
                    head = c
                continue
            rest.append((c, t))
        renames = {}
        for (pair, vs), changed in zip(loops, self.names["changed"]):
            renames[pair[0]] = (pair[1], vs, changed)
        invariants, answers = [], []
        for c, t in rest:
            m = re.match(r"(?:abbrev |pub )*((?:invariant|decreases)-[\w\-]+) : tie\.((?:invariant|decreases)-[\w\-]+)\n(?:unfolding [^\n]*\n)?(\S+) (.*?)=(.*)\Z", t, re.S)
            if not m:
                answers.append((c, t))
                continue
            word = m.group(2)
            kind, loop = word.split("-", 1)
            found = [k for k in renames if norm(k) == norm(loop)]
            if not found:
                self.say("no loop " + loop)
                continue
            new, vs, changed = renames[found[0]]
            params = m.group(4).split()
            n = len(vs)
            if len(params) != n + sum(changed):
                self.say(f"{word}: {len(params)} variables, {n} + {sum(changed)} wanted: {vs}")
            where = {}
            for p, x, ch in zip(params, vs, changed):
                where[p] = f"l.initial.{x}" if ch else f"l.{x}"
            for p, x in zip(params[n:], [x for x, ch in zip(vs, changed) if ch]):
                where[p] = f"l.{x}"
            where.pop("_", None)
            e = m.group(5)
            e = re.sub(r"(?<![\w'.\-])(" + WORD + r")(?![\w'\-])", lambda k: where.get(k.group(1), k.group(1)), e)
            invariants.append((c, f"abbrev pub {kind}-{new} : goal.{kind}-{new}\n{kind}-{new} l ={e}"))
        # steps by their names, and answers for several clauses
        out = []
        asked = {n[1]: a[1] for n, a in zip(self.names["needs"], self.names["asked_at"])}
        makers = self.helpers(answers)[1]
        for c, t in answers:
            m = re.match(r"pub (\S+) : goal\.(\S+)\n", t)
            b = re.match(r"module _ \((\w+) : ([\w\-]+)\)", t) or re.match(r"\S+ : \((\w+) : ([\w\-]+)\) →", t)
            if not b:
                b2 = re.match(r"(?:abbrev |pub )*(\S+) : ([\w\-]+) → [\w\-]+\n\1 (\w+) =", t)
                if b2 and b2.group(2) in self.names["places_by_name"]:
                    t = self.steps(t, b2.group(2), {b2.group(3)}, makers)
            if b and b.group(2) in self.names["places_by_name"]:
                t = self.steps(t, b.group(2), {b.group(1)}, makers)
            elif m and m.group(1) in asked:
                t = self.steps(t, asked[m.group(1)], {"c"}, makers)
            if m and m.group(1) in [x[1] for x in self.names["needs"]]:
                t = self.shaped(m.group(1), t)
            out.append((c, t))
        inline = [(n, self.shaped(n, self.steps(t, asked[n], {"c"}, makers) if n in asked else t)) for n, t in inline]
        takes, gives = self.helpers(out)
        # paths first, through those that lead to a place
        first = []
        for c, t in out:
            b = re.match(r"module _ \((\w+) : ([\w\-]+)\)", t)
            first.append((c, self.flat(t, b.group(1), b.group(2), {}, gives, None, {}) if b else t))
        paths = self.paths(first)
        flat = []
        for c, t in out:
            m = re.match(r"pub (\S+) : goal\.(\S+)\n", t)
            b = re.match(r"module _ \((\w+) : ([\w\-]+)\)", t) or re.match(r"\S+ : \((\w+) : ([\w\-]+)\) →", t)
            if m and m.group(1) in asked:
                t = self.flat(t, "c", asked[m.group(1)], takes, gives, m.group(1), paths)
            elif b:
                t = self.flat(t, b.group(1), b.group(2), takes, gives, None, paths)
            flat.append((c, t))
        # names of places that nothing uses now
        whole = "\n".join(t for _, t in flat) + "\n".join(t or "" for _, t in inline)
        again = True
        while again:
            again = False
            for g in list(gives):
                count = len(re.findall(r"(?<![\w'.\-])" + re.escape(g) + r"(?![\w'\-])", whole))
                if count == 2:
                    cut = re.compile(r"(?m)^(  |)(?:abbrev )?" + re.escape(g) + r" : [^\n]*\n\1" + re.escape(g) + r" [^\n]*\n?\n?")
                    flat = [(c, cut.sub("", t)) for c, t in flat]
                    whole = cut.sub("", whole)
                    del gives[g]
                    again = True
                    break
        flat = [(c, t) for c, t in flat if t.strip() and not re.fullmatch(r"module _ [^\n]* where\s*", t)]
        answers = flat
        inline = [(n, self.flat(t, "c", asked[n], takes, gives, n, paths) if n in asked else t) for n, t in inline]
        # helpers of the invariants
        words = set(re.findall(WORD, "\n".join(t for _, t in invariants)))
        shared = []
        again = True
        while again:
            again = False
            for c, t in list(answers):
                m = re.match(r"(?:abbrev |pub |unfoldable )*(\S+) :", t)
                if m and m.group(1) in words and "goal." not in t and (c, t) not in shared:
                    shared.append((c, t))
                    answers.remove((c, t))
                    words |= set(re.findall(WORD, t))
                    again = True
        order = [x for x in rest if x in shared]
        shared_names = []
        if invariants:
            lines = list(head) + uses + [f"use {self.module}.Given as goal", ""]
            for c, t in order:
                name = re.match(r"(?:abbrev |pub |unfoldable )*(\S+) :", t).group(1)
                shared_names.append(name)
                if "pub " not in t.split("\n")[0]:
                    t = re.sub(r"^((?:abbrev |unfoldable )?)", r"\1pub ", t, count=1)
                lines += list(c) + [t, ""]
            for c, t in invariants:
                lines += list(c) + [t, ""]
            with open(self.folder + "/Invariants.antt", "w", encoding="utf8") as f:
                f.write("\n".join(lines).rstrip() + "\n")
        goals = [t for c, t in answers if True]
        if answers or inline:
            lines = list(head) + uses
            if shared_names:
                lines.append(f"use {self.module}.Invariants.{{{', '.join(shared_names)}}}")
            lines.append(f"use {self.module}.Goals as goal")
            if self.used:
                lines.append(f"use {self.module}.Goals.{{{', '.join(sorted(self.used))}}}")
            lines.append("")
            for c, t in answers:
                lines += list(c) + [t, ""]
            for n, t in inline:
                lines += [f"pub {n} : goal.{n}", t, ""]
            with open(self.folder + "/Answers.antt", "w", encoding="utf8") as f:
                f.write("\n".join(lines).rstrip() + "\n")
        os.remove(self.path)


def main():
    names_at = sys.argv[1]
    for crate in sys.argv[2:]:
        with open(f"{names_at}/{crate}/names.json") as f:
            names = json.load(f)
        turned = left = 0
        for folder, dirs, files in os.walk(f"crates/{crate}/proofs"):
            if "Proof.antt" in files:
                it = File(folder + "/Proof.antt", crate, names)
                it.turn()
                for s in it.said:
                    print(s)
                if os.path.exists(it.path):
                    left += 1
                else:
                    turned += 1
        print(f"{crate}: {turned} turned, {left} left")


main()
