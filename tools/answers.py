#!/usr/bin/env python3
"""Turns the proofs of a crate that close a `tie` (proofs/F/Proof.antt) into Invariants.antt and Answers.antt.

usage: tools/answers.py CRATE_FOLDER NAMES_JSON [FUNCTION ..]

NAMES_JSON is what `rt check --generated DIR --old-names` writes there: each goal and step with its old and its new name. A path that climbs,
as `c.before.before.if1.true`, becomes the flat one, as `c.if-x-y.true`; a name that stands for a place is written out. Answers that only
say `search rules` go, since the check tries that and more. What could not be resolved is said and left as it is.
"""
import json
import os
import re
import sys

PLAIN = {"args", "requires", "ranges", "well_formed", "lifetimes", "type_inv"}
PATH = re.compile(r"(?<![\w.'₀-])([A-Za-z_][\w'₀]*(?:[-_][\w'₀]+)*)((?:\.[\w'₀-]+)+)")
TOKEN = re.compile(r"[^\s(){}\[\];,.\"`]+")


def norm(x):
    x = x.replace("_", "-").lower()
    return x[:-4] if x.endswith("-lem") else x


def key(x):
    k = norm(x)
    for made in ("overflow-", "nonzero-"):
        if k.startswith(made):
            return k[len(made):]
    return k


class Function:
    def __init__(self, names, params, own):
        self.params = params
        self.own = own
        self.places = {p[0]: p for p in names["places"]}
        self.arms = {p[0]: a for p, a in zip(names["places"], names["arms"])}
        self.asked = {}
        self.needs = {}
        self.double = set()
        for (old, new), at in zip(names["needs"], names["asked_at"]):
            k = key(old)
            if k in self.needs:
                self.double.add(k)
            self.needs[k] = new
            self.asked[k] = at[0]
        self.loops = names["loops"]
        self.changed = names["changed"]
        self.lemmas = {}
        self.opened = set()
        self.said = []

    def need(self, tie_name):
        k = key(tie_name)
        if k in self.needs:
            return self.needs[k], self.asked[k]
        self.said.append(f"no goal for {tie_name}")
        return None, None

    def covers(self, goal):
        """For each place from a goal's own upward: the arm that has taken its step in, or None. An arm counts the steps that it takes."""
        out, arm, left, at = {}, None, 0, goal
        while at is not None:
            if left == 0:
                arm, left = (self.arms[at], self.arms[at][1]) if self.arms.get(at) else (None, 1)
            out[at] = arm
            left -= 1
            at = self.places[at][1]
        return out

    def resolve(self, goal, place, comps):
        """A path of a goal, from a place: ('place', P) where it only climbs, else ('term', text)."""
        covers = self.covers(goal)
        i = 0
        while i < len(comps) and comps[i] == "before":
            parent = self.places[place][1]
            if parent is None:
                self.said.append("climbs past the start: " + ".".join(comps))
                return "term", "c." + ".".join(comps)
            place = parent
            i += 1
        if i == len(comps):
            return "place", place
        x, rest = comps[i], comps[i + 1:]
        if x == "args" and rest and re.fullmatch(r"t\d+", rest[0]) and len(self.params.get(self.own, [])) >= int(rest[0][1:]):
            rest = [self.params[self.own][int(rest[0][1:]) - 1]] + rest[1:]
        if x.replace("-", "_") in PLAIN:
            x = x.replace("-", "_")
            return "term", ".".join(["c", x] + rest)
        at = place
        while at is not None:
            old, new = self.places[at][2]
            if norm(old) == norm(x):
                callee = self.params.get(self.places[at][3], [])
                if rest and rest[0] in ("new", "auto"):
                    k = 1
                    while k < len(rest) and rest[k] == "1":
                        k += 1
                    if k < len(rest) and rest[k] == "0" and k - 1 < len(callee):
                        rest = [rest[0], callee[k - 1]] + rest[k + 1:]
                arm = covers[at]
                best = None
                for field, step, path in arm[2] if arm else []:
                    if norm(step) == norm(x) and rest[:len(path)] == path and (best is None or len(path) > len(best[1])):
                        best = (field, path)
                if best:
                    return "term", ".".join(["c", arm[0], best[0]] + rest[len(best[1]):])
                return "term", ".".join(["c", new] + rest)
            at = self.places[at][1]
        bare = re.sub(r"-?\d+$", "", norm(x))
        if bare != norm(x):
            return self.resolve(goal, place, [bare] + rest)
        self.said.append(f"no step {x} at {place}: " + ".".join(comps))
        return "term", ".".join(["c"] + comps[i:])

    def body(self, text, goal, place=None):
        """The answer's text with its paths resolved; names that stand for places are written out, and lemmas on a place become typed lets."""
        alias = {"c": place or goal}
        prefix = {}
        lines, lets = [], {}
        for line in text.split("\n"):
            # a step that was matched on, or whose parts go by number: its name is written out
            m = re.match(r"^(\s*)let ([A-Za-z_][\w'₀-]*) = (c|[A-Za-z_][\w'₀-]*)((?:\.[\w'₀-]+)+) in\s*$", line)
            if m and m.group(3) in alias and m.group(3) not in prefix:
                path = m.group(4)[1:].split(".")
                step = [x for x in path if x != "before"]
                if path[-1] == "given" or len(step) == 1 and re.search(r"(?<![\w.'-])" + re.escape(m.group(2)) + r"\.(?:new|auto|given)\.", text):
                    alias[m.group(2)] = alias[m.group(3)]
                    prefix[m.group(2)] = path
                    continue
            m = re.match(r"^(\s*)(.*?)let ([A-Za-z_][\w'₀-]*) = (c|[A-Za-z_][\w'₀-]*)((?:\.before)*) in\s*(.*)$", line)
            if m and m.group(4) in alias and not m.group(2):
                kind, p = self.resolve(goal, alias[m.group(4)], [c for c in m.group(5).split(".") if c])
                alias[m.group(3)] = p
                if not m.group(6):
                    continue
                line = m.group(1) + m.group(6)
            for name, (at, kind_of, proof, opens) in self.lemmas.items():
                call = re.compile(r"(?<![\w.'-])" + re.escape(name) + r" (" + "|".join(map(re.escape, alias)) + r")((?:\.before)*)(?![\w.'-])")
                if call.search(line):
                    line = re.sub(r"\(" + re.escape(name) + r"\)", name, call.sub(name, line))
                    if name not in lets:
                        inner, before = self.body(proof, goal, at)
                        said, _ = self.body(kind_of, goal, at)
                        lets.update(before)
                        lets[name] = f"let {name} : {' '.join(said.split())} = {' '.join(inner.split())} in"
                        self.opened |= set(opens)

            def turn(m):
                head = m.group(1)
                if head not in alias:
                    return m.group(0)
                comps = prefix.get(head, []) + m.group(2)[1:].split(".")
                kind, t = self.resolve(goal, alias[head], comps)
                if kind == "place":
                    self.said.append("a place is passed on: " + m.group(0))
                    return "c"
                return t
            lines.append(PATH.sub(turn, line))
        for a in alias:
            if a != "c" and any(re.search(r"(?<![\w.'-])" + re.escape(a) + r"(?![\w'.-])", l) for l in lines):
                self.said.append(f"the place {a} is passed on")
        return "\n".join(lines), lets

    def lemma(self, text):
        """A lemma on a place of the code, `f : (c : tie.After-x ..) → ..`, is kept for the answers that cite it."""
        m = re.match(r"^((?:--[^\n]*\n)*)(?:pub )?(\S+) : \(c : tie\.(\S+?)(?: [^)]*)?\)\s*→ ([\s\S]*?)\n((?:unfolding[^\n]*\n)?)\2 c =\s*([\s\S]*)$", text)
        if not m:
            return False
        at = [p for p in self.places if norm(p) == norm(m.group(3))]
        if len(at) != 1:
            self.said.append(f"no place {m.group(3)}")
            return False
        self.lemmas[m.group(2)] = (at[0], m.group(4), m.group(6), m.group(5).split()[1:])
        return True

    def loop(self, tie_name):
        """(new name, the variables by position) of `invariant-loop`, `decreases-loop2` .."""
        m = re.match(r"(invariant|decreases)[-_](.*)$", tie_name)
        if not m:
            return None
        for ((old, new), names), changed in zip(self.loops, self.changed):
            if norm(old) == norm(m.group(2)):
                order = [("l.initial." if c else "l.") + n for n, c in zip(names, changed)]
                order += ["l." + n for n, c in zip(names, changed) if c]
                return m.group(1) + "-" + new, order
        self.said.append(f"no loop for {tie_name}")
        return None


def split(text):
    """The head's comments, the use lines, and the blocks of a file."""
    comments, uses, blocks = [], [], []
    current = []
    for line in text.split("\n"):
        if line.startswith(("use ", "pub use ")):
            uses.append(line)
        elif line.strip() == "":
            if current:
                blocks.append(current)
                current = []
        elif line.startswith("--") and not uses and not blocks and not current:
            comments.append(line)
        else:
            current.append(line)
    if current:
        blocks.append(current)
    return comments, uses, blocks


def words(text, names):
    return TOKEN.sub(lambda m: names.get(m.group(0), m.group(0)), text)


def used(uses, text):
    words = set(TOKEN.findall(text))
    kept = []
    for u in uses:
        m = re.match(r"^(use [^{]+\.)\{([^}]*)\}$", u)
        if not m:
            m2 = re.match(r"^use .* as (\S+)$", u)
            last = m2.group(1) if m2 else u.split(".")[-1]
            if last in words:
                kept.append(u)
            continue
        names = []
        for n in m.group(2).split(","):
            n = n.strip()
            name = n.split(" as ")[-1]
            if "◌" in name:
                parts = [p for p in name.split("◌") if p]
                if name in words or all(p in words for p in parts):
                    names.append(n)
            elif name == "[]":
                if "[]" in text:
                    names.append(n)
            elif name in words:
                names.append(n)
        if names:
            kept.append(m.group(1) + "{" + ", ".join(names) + "}")
    return kept


def turn(path, names, crate, where, params):
    f = Function(names, params, "::".join([crate] + where.split(".")))
    with open(path, encoding="utf-8") as h:
        comments, uses, blocks = split(h.read())
    uses = [u for u in uses if ".Statement." not in u and not u.endswith("Tie as tie")]
    invariants, answers, renamed = [], [], {}
    for b in blocks:
        joined = "\n".join(b)
        if re.search(r"^pub \S+ : \{M : Type 1\}", joined, re.M):
            continue
        m = re.search(r"^(?:abbrev )?(?:pub )?(\S+) : tie\.(\S+)(.*)$", joined, re.M)
        if not m:
            if not f.lemma(joined):
                answers.append(joined)
            continue
        name, goal = m.group(1), m.group(2)
        if goal.startswith("Need-"):
            new, place = f.need(goal[5:])
            if new is None and re.search(r"κs? =\s*search rules$| c =\s*search rules$", joined):
                f.said.pop()
                continue
            if new is None:
                answers.append(joined)
                continue
            if name != new:
                renamed[name] = new
            lines = joined.split("\n")
            rest = [l for l in lines if not re.match(r"^(?:pub )?\S+ : tie\.", l)]
            head = [l for l in rest if l.startswith(("--", "unfolding"))]
            body = [l for l in rest if not l.startswith(("--", "unfolding"))]
            text = "\n".join(body)
            text = re.sub(r"^" + re.escape(name) + r" c(?: κs)?(?= )", lambda k: new + " c", text, flags=re.M)
            clause, _, right = text.partition(" =")
            f.opened = set()
            right, lets = f.body(right, place)
            if lets:
                right = "\n    " + "\n    ".join(lets.values()) + "\n    " + right.strip()
            text = clause + " =" + right
            if re.sub(r"\s+", " ", text) in (new + " c = search rules", new + " c = tt"):
                continue
            notes = [h for h in head if h.startswith("--")]
            opens = [h for h in head if h.startswith("unfolding")]
            opened = sorted({w for h in opens for w in h.split()[1:]} | f.opened)
            opens = ["unfolding " + " ".join(opened)] if opened else []
            clause, _, rest = text.partition(" =")
            answers.append(("\n".join(notes + [f"pub {new} : goal.{new}"] + opens + [clause + " ="]), rest))
        else:
            l = f.loop(goal.split(" ")[0])
            if l is None:
                answers.append(joined)
                continue
            new, order = l
            lines = joined.split("\n")
            rest = [x for x in lines if not re.match(r"^(?:abbrev )?(?:pub )?\S+ : tie\.", x)]
            head = [x for x in rest if x.startswith(("--", "unfolding"))]
            text = "\n".join(x for x in rest if not x.startswith(("--", "unfolding")))
            m2 = re.match(r"^\S+ ([^=]*)=\s*([\s\S]*)$", text)
            params = m2.group(1).split()
            if len(params) != len(order):
                f.said.append(f"{name}: {len(params)} parameters, and {len(order)} variables")
                answers.append(joined)
                continue
            table = dict(zip(params, order))
            out = re.sub(r"(?<![\w.'₀-])([A-Za-z_][\w'₀]*(?:-[\w'₀]+)*)(?![\w'₀-])", lambda k: table.get(k.group(1), k.group(1)), m2.group(2))
            invariants.append("\n".join([h for h in head if h.startswith("--")] + [f"abbrev pub {new} : goal.{new}"] + [h for h in head if h.startswith("unfolding")] + [f"{new} l = " + out]))
    # an answer that cites another one
    answers = [a if isinstance(a, str) else a[0] + words(a[1], renamed) for a in answers]
    folder = os.path.dirname(path)
    module = f"Rattle.{crate}.proofs.{where}"
    if invariants:
        text = "\n\n".join(invariants)
        with open(os.path.join(folder, "Invariants.antt"), "w", encoding="utf-8") as h:
            h.write("\n".join(comments + used(uses, text) + [f"use {module}.Given as goal"]) + "\n\n" + text + "\n")
        comments = []
    if answers:
        text = "\n\n".join(answers)
        with open(os.path.join(folder, "Answers.antt"), "w", encoding="utf-8") as h:
            h.write("\n".join(comments + used(uses, text) + [f"use {module}.Goals as goal"]) + "\n\n" + text + "\n")
    os.remove(path)
    for s in f.said:
        print(f"{where}: {s}")
    for d in f.double:
        print(f"{where}: two goals are named {d}")


def main():
    folder, listing = sys.argv[1:3]
    only = sys.argv[3:]
    crate = os.path.basename(os.path.normpath(folder))
    with open(listing, encoding="utf-8") as h:
        names = json.load(h)
    params = {}
    for k, v in names.items():
        if k.endswith(".Lts"):
            params.update(v["params"])
    for at, dirs, files in os.walk(os.path.join(folder, "proofs")):
        dirs.sort()
        if "Proof.antt" in files:
            where = os.path.relpath(at, os.path.join(folder, "proofs")).replace(os.sep, ".")
            if only and where not in only:
                continue
            k = f"Rattle-{crate}-proofs.{where}.Lts"
            if k not in names:
                print(f"{where}: the check does not name its goals")
                continue
            turn(os.path.join(at, "Proof.antt"), names[k], crate, where, params)


if __name__ == "__main__":
    main()
