#!/usr/bin/env python3
"""Lists the places in src/ that older forms leave, a point after another, and how many each point has.

usage: tools/places.py [COMMIT]      the working tree where no commit is given
"""
import re
import subprocess
import sys
from collections import defaultdict


def sources(commit):
    if commit:
        names = subprocess.run(["git", "ls-tree", "-r", "--name-only", commit, "crates"], capture_output=True, text=True, check=True)
        read = lambda name: subprocess.run(["git", "show", f"{commit}:{name}"], capture_output=True, text=True, check=True).stdout
    else:
        names = subprocess.run(["git", "ls-files", "crates"], capture_output=True, text=True, check=True)
        read = lambda name: open(name, encoding="utf-8").read()
    for name in names.stdout.split():
        if re.fullmatch(r"crates/\w+/src/\w+\.rt", name):
            try:
                yield name, read(name)
            except FileNotFoundError:
                pass


def plain(text):
    """The text without comments, strings and rows of numbers, each line in its place."""
    text = re.sub(r"//[^\n]*", "", text)
    text = re.sub(r'"(\\.|[^"\\\n])*"', '""', text)
    return re.sub(r"\[[0-9, ]{24,}\]", "[]", text)


def closing(text, at):
    """The place behind the bracket that closes the one at `at`."""
    depth = 0
    for i in range(at, len(text)):
        if text[i] in "([{":
            depth += 1
        elif text[i] in ")]}":
            depth -= 1
            if depth == 0:
                return i + 1
    return len(text)


class Function:
    def __init__(self, name, params, result, clauses, body, line):
        self.name, self.params, self.result, self.clauses, self.body, self.line = name, params, result, clauses, body, line


def functions(text):
    for m in re.finditer(r"\bfn (\w+)", text):
        at = m.end()
        if text[at : at + 1] == "<":
            depth = 0
            while at < len(text):
                depth += {"<": 1, ">": -1}.get(text[at], 0) if text[at - 1] != "-" else 0
                at += 1
                if depth == 0:
                    break
        if text[at : at + 1] != "(":
            continue
        end = closing(text, at)
        params = text[at + 1 : end - 1]
        rest = end
        result = re.match(r"\s*->\s*((?:\[[^\]]*\]|[^{;\[])*?)\s*(?=\brequires\b|\bensures\b|\{|;)", text[rest:])
        answer = ""
        if result:
            answer = result.group(1)
            rest += result.end()
        clauses = []
        while True:
            c = re.match(r"\s*(requires|ensures)\b\s*\w*\s*\{", text[rest:])
            if not c:
                break
            open_at = rest + c.end() - 1
            rest = closing(text, open_at)
            clauses.append((c.group(1), " ".join(text[open_at + 1 : rest - 1].split())))
        b = re.match(r"\s*\{", text[rest:])
        body = text[rest + b.end() - 1 : closing(text, rest + b.end() - 1)] if b else ""
        yield Function(m.group(1), params, answer, clauses, body, text.count("\n", 0, m.start()) + 1)


def parts(clause):
    """The facts that `×` joins, each without needless brackets."""
    clause = clause.strip()
    while clause.startswith("(") and closing(clause, 0) == len(clause):
        clause = clause[1:-1].strip()
    depth = 0
    for i, c in enumerate(clause):
        depth += {"(": 1, ")": -1}.get(c, 0)
        if depth == 0 and c == "×":
            return parts(clause[:i]) + parts(clause[i + 1 :])
    return [clause]


def shape(body):
    """A body with names and numbers struck out."""
    body = re.sub(r"\b(?!(?:if|else|for|in|match|return|let|mut|while|true|false|self|Self|Ok|Err|Some|None)\b)[A-Za-z_]\w*\b", "n", body)
    return " ".join(re.sub(r"\b\d\w*\b", "0", body).split())


def main():
    commit = sys.argv[1] if len(sys.argv) > 1 else None
    found = defaultdict(list)
    shapes = defaultdict(list)
    types = defaultdict(list)
    facts = defaultdict(list)
    travel = defaultdict(list)
    for name, raw in sources(commit):
        text = plain(raw)
        crate = name.split("/")[1]
        where = lambda line: f"{name}:{line}"
        for number, line in enumerate(text.split("\n"), 1):
            if re.search(r"\w\(bool, |: \(bool, ", line):
                found[1].append((where(number), "a flag with a value beside it"))
            if re.search(r"\b(layer|cause): u8,|\bkind: u8\b|-> \(u8, usize\)|const (NOTE|LAST_KIND): u8", line):
                found[1].append((where(number), "a number for a kind or a refusal"))
            if re.search(r"Option<Refusal>", line):
                found[1].append((where(number), "a refusal as an Option"))
            if re.search(r"\bas (u32|u64)\b", line) and "fn" not in line:
                found[4].append((where(number), "a conversion by hand"))
            if re.search(r"match what\b|\bopens: bool\b", line):
                found[7].append((where(number), "a switch on which step to run"))
        for f in functions(text):
            here = where(f.line)
            if f.result == "bool" and re.search(r"&mut (?!self)", f.params):
                found[1].append((here, f"{f.name} answers a flag beside what it fills"))
            for m in re.finditer(r"\bNone => (None|false|0)\b|\bErr\(_\) => false", f.body):
                found[1].append((here, f"{f.name} hands on None or Err by a match"))
            for m in re.finditer(r"\bwhile\b|\bfor (\w+) in ([^{]*?\.\.[^{]*)\{", f.body):
                if m.group(0) == "while":
                    found[3].append((here, f"{f.name}: while"))
                    continue
                inner = f.body[m.end() - 1 : closing(f.body, m.end() - 1)]
                v = m.group(1)
                if re.search(r"\[[^\]]*\b{0}\b|[-+*/%] {0}\b|\b{0} [-+*/%]|return .*\b{0}\b".format(v), inner):
                    found[3].append((here, f"{f.name}: for {m.group(1)} in {m.group(2).strip()}"))
            arms = re.fullmatch(r"\{\s*match (\w+|self) \{(.*)\}\s*\}", f.body, re.S)
            if arms and all(re.fullmatch(r"\s*[\w:|() _']+=>\s*[\w:()']+\s*", a) for a in arms.group(2).strip().rstrip(",").split(",\n")):
                found[4].append((here, f"{f.name}: a conversion by match"))
            if f.name in ("same", "differing"):
                found[4].append((here, f"{f.name}: equality by hand"))
            if f.name in ("digit", "hex", "refusal", "print_refusal", "report", "line", "octets", "group_text") or re.search(r"octets\[at \+ 1\]|x << 8", f.body):
                found[4].append((here, f"{f.name}: text or octets by hand"))
            s = shape(f.body)
            if len(s) > 12 and f.name != "main":
                shapes[s].append((here, f.name))
            for p in sorted({p for k, c in f.clauses if k == "requires" for p in parts(c)}):
                facts[(crate, p)].append((here, f.name))
            ps = [" ".join(p.split()) for p in re.split(r",(?![^<(\[]*[>)\]])", f.params) if ":" in p]
            for i, p in enumerate(ps):
                for q in ps[i + 1 :]:
                    travel[(name, p, q)].append((here, f.name))
            lengths = [c for k, c in f.clauses if k == "requires" and re.search(r"\b\w+( \+ \w+)? ≤ length|\b\w+ < length", c)]
            if lengths and re.search(r"\[\w+(<F>)?\]", f.params) and re.search(r"\b\w+: usize", f.params):
                found[6].append((here, f"{f.name}: a buffer with a length or a place beside it"))
        for m in re.finditer(r"struct (\w+)[^{;]*\{([^}]*)\}", text):
            fields = re.findall(r"\w+: ([^,\n]+),", m.group(2))
            types[re.sub(r"\s+", " ", m.group(2)).strip()].append((where(text.count("\n", 0, m.start()) + 1), m.group(1)))
            if len([x for x in fields if x.startswith("[")]) > 2:
                found[6].append((where(text.count("\n", 0, m.start()) + 1), f"{m.group(1)}: parallel arrays"))
    for same in list(shapes.values()) + [t for t in types.values()]:
        if len(same) > 1:
            found[2].append((", ".join(p for p, _ in same), " and ".join(n for _, n in same)))
    for (crate, p), fs in facts.items():
        if len({f for f in fs}) > 2:
            found[5].append((crate, f"{p}: {', '.join(n for _, n in fs)}"))
    together = defaultdict(list)
    for (name, p, q), fs in travel.items():
        if len(fs) > 2:
            key = (name, ", ".join(n for _, n in fs))
            together[key] += [x for x in (p, q) if x not in together[key]]
    for (name, fs), ps in together.items():
        found[5].append((name, f"{', '.join(ps)} travel together: {fs}"))
    for point in range(1, 8):
        print(f"point {point}: {len(found[point])} places")
        for here, what in found[point]:
            print(f"  {here}  {what}")


main()
