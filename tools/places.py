#!/usr/bin/env python3
"""places [COMMIT]: the places in crates/*/src that docs/DESIGN-PASS.md counts, point by point, in the tree as it stands or at a commit.

A place is a row of file, line and text. Points 1 to 7 are found by the shapes below; which of them are a place and which only look so is
said on the page. Point 8 counts answers, lemmas and lines of proof."""
import collections, re, subprocess, sys

commit = sys.argv[1] if len(sys.argv) > 1 else None


def listed(pattern):
    if commit:
        out = subprocess.run(["git", "ls-tree", "-r", "--name-only", commit], capture_output=True, text=True, check=True).stdout
    else:
        out = subprocess.run(["git", "ls-files", "-co", "--exclude-standard"], capture_output=True, text=True, check=True).stdout
    return sorted(f for f in out.split("\n") if re.fullmatch(pattern, f))


def text(name):
    if commit:
        return subprocess.run(["git", "show", f"{commit}:{name}"], capture_output=True, text=True, check=True).stdout
    try:
        return open(name, encoding="utf-8").read()
    except FileNotFoundError:
        return ""


sources = {f: text(f) for f in listed(r"crates/[^/]+/src/.*\.rt")}


class Function:
    """A function: its name, its parameters and result, its clauses, its body."""
    def __init__(self, name, file, line, head, body):
        self.name, self.file, self.line, self.head, self.body = name, file, line, head, body
        signature = re.split(r"\n +(?:requires|ensures|where)\b", head)[0]
        opening = re.search(r"fn \w+(?:<[^(]*>)?\(", signature).end()
        inside = signature[opening:signature.rfind(")")]
        self.params = [re.sub(r"\s+", " ", p.strip()) for p in re.split(r",(?![^<\[(]*[>\])])", inside) if p.strip()]
        result = re.search(r"\)\s*->\s*([^\n{]+)", signature)
        self.result = result.group(1).strip() if result else ""
        self.clauses = [re.sub(r"\s+", " ", c).strip() for c in re.findall(r"\n +((?:requires|ensures)[^\n]*)", head)]


def functions():
    found = []
    for file, source in sources.items():
        lines = source.split("\n")
        for at, line in enumerate(lines):
            m = re.match(r"( *)(?:pub(?:\([a-z]+\))? )?(?:extern \"C\" )?fn (\w+)", line)
            if not m:
                continue
            indent, end = m.group(1), at
            while end < len(lines) and lines[end] != indent + "}" and not (end > at and re.match(indent + r"\S.*;$", lines[end])):
                end += 1
            whole = "\n".join(lines[at:end + 1])
            cut = re.search(r"(?:^|\n)" + indent + r"\{\n|\{\n", whole)
            head, body = (whole[:cut.start()], whole[cut.end():]) if cut else (whole, "")
            found.append(Function(m.group(2), file, at + 1, head, body))
    return found


every = functions()


def rows(title, places):
    places = list(places)
    print(f"## {title}: {len(places)}")
    for place in places:
        print("  " + place)


def matches(pattern):
    for file, source in sources.items():
        for number, line in enumerate(source.split("\n"), 1):
            if re.search(pattern, line) and not line.strip().startswith("//"):
                yield f"{file}:{number}: {line.strip()}"


NUMBERS = r"(?:kind|refusal|fate|status|why)"
rows("1a own enums", matches(r"^(?:pub(?:\([a-z]+\))? )?enum \w+"))
rows("1b a number for a refusal, a kind or a fate in a struct", matches(rf"^ +(?:pub(?:\([a-z]+\))? )?{NUMBERS}: u(?:8|32),"))
rows("1c a number for a refusal, a kind or a fate handed in",
     (f"{f.file}:{f.line}: {f.name}({', '.join(p for p in f.params if re.match(NUMBERS + r': u(8|32)', p))})"
      for f in every if any(re.fullmatch(NUMBERS + r": u(8|32)", p) for p in f.params)))
rows("1d a number for a refusal, a status or a kind answered",
     (f"{f.file}:{f.line}: {f.name} -> {f.result}" for f in every if f.result == "u32"
      and re.search(r"refusal|status|fate|kind|own|standing|fault", f.name)))
rows("1e failure as false", (f"{f.file}:{f.line}: {f.name}" for f in every if f.result == "bool" and re.match(r"put|write|read|play", f.name)))


def shape(function):
    body = re.sub(r"//[^\n]*", "", function.body)
    body = re.sub(r"\b\d[\dxA-Fa-f_]*(?:u\d+|usize)?\b", "0", body)
    body = re.sub(r"\b(?!if|else|while|loop|for|in|match|return|let|mut|as)[A-Za-z_][\w:]*", "x", body)
    return re.sub(r"\s+", " ", body).strip()


alike = collections.defaultdict(list)
for f in every:
    if len(shape(f)) >= 18 and "test" not in f.file:
        alike[shape(f)].append(f)
groups = [fs for fs in alike.values() if len(fs) > 1]
rows("2 functions of one shape", (f"{' ~ '.join(f.file.split('/')[1] + '::' + f.name for f in fs)}" for fs in groups))
rows("3 loops that are no `for`", matches(r"^\s+(?:while|loop)\b"))
rows("4 conversions by hand", (f"{f.file}:{f.line}: {f.name} -> {f.result}" for f in every
     if re.fullmatch(r"\s*(?:\(?[\w.]+(?: % \w+)?\)? as \w+|if \w+ \{\s*(?:return )?1;?\s*\}(?: else \{)?\s*0\s*\}?)\s*\}?\s*", f.body)))
facts = collections.Counter(re.sub(r"\w+\.(now|old)", r"x", c) for f in every for c in f.clauses if c.startswith("requires"))
rows("5a a fact that three or more functions require", (f"{n} times {c}" for c, n in facts.most_common() if n >= 3))
handed = [frozenset(p for p in f.params if not re.match(r"rt|&?(?:mut )?self", p)) for f in every]
groups = {a & b for i, a in enumerate(handed) for b in handed[i + 1:] if len(a & b) >= 3}
groups = {g: sum(g <= h for h in handed) for g in groups}
groups = {g: n for g, n in groups.items() if n >= 4 and not any(g < h and groups[h] == n for h in groups)}
rows("5b three or more parameters that go together through four or more functions",
     (f"{n} functions ({', '.join(sorted(g))})" for g, n in sorted(groups.items(), key=lambda item: (-item[1], sorted(item[0])))))
rows("6 a buffer and the place or the length in it, handed in and answered",
     (f"{f.file}:{f.line}: {f.name}" for f in every if f.result == "usize" and any(re.match(r"(out|buf|row): &mut \[", p) for p in f.params)))
rows("7 a flag or a letter that says which step to run", (f"{f.file}:{f.line}: {f.name}({', '.join(f.params)})" for f in every
     if any(re.fullmatch(r"\w+: bool", p) for p in f.params) and re.search(r"if \w+ \{\s*return \w+\(", f.body)))
answers = lemmas = lines = 0
for name in listed(r"crates/[^/]+/proofs/.*\.antt"):
    source = text(name)
    lines += source.count("\n")
    if name.endswith(("/Answers.antt", "/Invariants.antt")):
        answers += len(re.findall(r"^(?:abbrev )?pub \S+ : goal\.", source, re.M))
    else:
        lemmas += len(re.findall(r"^(?:abbrev |unfoldable |pub )*[^\s:]+ : ", source, re.M))
print(f"## 8 proofs: {answers} answers, {lemmas} lemmas, {lines} lines")
