#!/usr/bin/env python3
"""Brings the repository's own definitions and lemmas to snake case and its types to camel case.

usage: python3 tools/respell.py [FOLDER] [--kit KIT]     run once, at the top, behind the kit's own script

A definition, field or local name takes underscores for dashes. A lemma keeps a dash between two names of definitions, as in
length-field, and takes an underscore before a plain word. Names of std and names that the check makes stay. The pages of
docs/ and the README follow. It prints each name that changed.
"""
import os
import re
import subprocess
import sys

TOKEN = re.compile(r"[^\s(){}\[\],;.`]+")
DECLARED = re.compile(r"^(\s*)((?:(?:abbrev|unfoldable|pub)\s+)*)([^\s(){}\[\],;.:]+)\s+:\s")
MADE = re.compile(r"^\s*(?:pub\s+)?(?:record|data)\s+([^\s(){}\[\],;.:]+)")
USE = re.compile(r"^\s*(?:ghost )?use ([\w.+']+)\.\{([^}]*)\}", re.M)
# Names that would fall together with a function of the code, or with one of std, in a file that has both.
APART = {
    "group-in": "group_bits_in",
    "first-control": "first_control_place",
    "first-zero": "first_zero_place",
    "with-digit": "with_digit_at",
    "bit-xor": "bit-bit_xor",
    "payload-getD": "payload-get_or",
}
PLAIN = {"length", "take", "drop", "append", "set", "replicate", "map", "suc", "zero", "getD", "get_or", "div", "mod"}


def read(path):
    with open(path, encoding="utf-8") as f:
        return f.read()


def files(top, endings):
    for folder, dirs, names in os.walk(top):
        dirs[:] = sorted(d for d in dirs if d not in ("out", ".git", "target"))
        for name in sorted(names):
            if name.endswith(endings):
                yield os.path.join(folder, name)


def of_function(path):
    """A file of one function's proof, whose names the check makes."""
    return os.path.basename(path) in ("Answers.antt", "Invariants.antt", "Proof.antt")


def code(line, mark):
    return line.split(mark)[0]


def kit_library():
    """The kit's library, which lies beside the page that it names first."""
    page = subprocess.run(["rt", "doc"], capture_output=True, text=True, check=True).stdout.strip()
    return os.path.join(os.path.dirname(page), "rattle")


def dashed(name):
    return "-" in name.strip("-") and "◌" not in name and any(c.isalpha() for c in name)


def module_of(path):
    """The path by which other files import this one."""
    parts = path[: -len(".antt")].split(os.sep)
    at = parts.index("crates")
    return "Rattle." + ".".join(parts[at + 1 :])


def camel(name):
    return "".join(w[:1].upper() + w[1:] for w in name.split("-"))


def snake(name):
    if name in APART:
        return APART[name]
    return camel(name) if name[:1].isupper() else name.replace("-", "_")


def lemma(name, definitions):
    """A dash stays between two names of definitions; plain words take an underscore."""
    if name in APART:
        return APART[name]
    words = name.split("-")
    out, named = [], []
    at = 0
    while at < len(words):
        for end in range(len(words), at, -1):
            part = "-".join(words[at:end])
            if part in definitions or part.replace("-", "_") in definitions or part in PLAIN:
                out.append(snake(part))
                named.append(True)
                at = end
                break
        else:
            out.append(words[at])
            named.append(False)
            at += 1
    text = out[0]
    for i in range(1, len(out)):
        text += ("-" if named[i - 1] and named[i] else "_") + out[i]
    return text


def declared(path):
    """Top names and record fields that a file declares."""
    tops, fields, record = set(), set(), False
    for line in read(path).splitlines():
        line = code(line, "--")
        made = MADE.match(line)
        if made:
            tops.add(made.group(1))
            record = True
            continue
        if line and not line[0].isspace():
            record = False
        it = DECLARED.match(line)
        if it:
            (fields if record else tops).add(it.group(3))
    return tops, fields


def respell(text, new, fields):
    """New names for old, in code and in comments."""

    def one(match):
        old = match.group(0)
        before = text[: match.start()][-1:]
        if before == ".":
            return fields.get(old, new.get(old, old) if of_use(text, match.start()) else old)
        return new.get(old, fields.get(old, old))

    return TOKEN.sub(one, text)


def of_use(text, at):
    """Whether the place stands in an import's path."""
    line = text[text.rfind("\n", 0, at) + 1 : at]
    return re.match(r"\s*(ghost )?use ", line) is not None


def main(argv):
    top = argv[0] if argv and not argv[0].startswith("--") else "."
    kit = argv[argv.index("--kit") + 1] if "--kit" in argv else kit_library()
    known = set()
    for path in files(kit, (".antt",)):
        known.update(t for t in TOKEN.findall(read(path)) if "-" in t)
    antt = list(files(os.path.join(top, "crates"), (".antt",)))
    tops, fields = {}, {}
    definitions = set()
    for path in antt:
        tops[path], own = declared(path)
        if of_function(path):
            # The one lemma that such a file has of its own.
            tops[path] = {n for n in tops[path] if n == "four-bits"}
            continue
        for n in own:
            if dashed(n):
                fields[n] = snake(n)
        if os.sep + "specs" + os.sep in path:
            definitions |= tops[path]
    names = {}
    for path in antt:
        names[module_of(path)] = {
            n: snake(n) if n in definitions and os.sep + "specs" + os.sep in path or n[:1].isupper() else lemma(n, definitions)
            for n in tops[path]
            if dashed(n)
        }
    changed = {}
    for path in antt + list(files(os.path.join(top, "crates"), (".rt",))):
        text = read(path)
        new = {}
        if path.endswith(".antt"):
            new.update(names[module_of(path)])
        for module, items in USE.findall(text):
            for item in items.split(","):
                item = item.strip().split(" as ")[0].strip()
                new.update({k: v for k, v in names.get(module, {}).items() if k == item})
        if path.endswith(".antt") and not of_function(path):
            for line in text.splitlines():
                for t in TOKEN.findall(code(line, "--")):
                    if dashed(t) and t not in known and t not in new and t not in fields and re.fullmatch(r"[\w'-]+", t) and t[0].isalpha():
                        new[t] = snake(t)
        new = {k: v for k, v in new.items() if k != v}
        changed.update(new)
        after = respell(text, new, fields)
        if after != text:
            with open(path, "w", encoding="utf-8") as f:
                f.write(after)
    changed.update(fields)
    pages = {**{o: n for m in names.values() for o, n in m.items()}, **fields}
    for path in list(files(os.path.join(top, "docs"), (".md",))) + [os.path.join(top, "README.md")]:
        text = read(path)
        after = re.sub(r"`([^`\s]+)`", lambda m: "`" + pages.get(m.group(1), m.group(1)) + "`", text)
        if after != text:
            with open(path, "w", encoding="utf-8") as f:
                f.write(after)
    taken = {}
    for module, its in names.items():
        for old, new in its.items():
            if new in tops.get(module, ()) or new in [v for k, v in its.items() if k != old]:
                print(f"falls together: {module}: {old} and {new}")
    for old, new in sorted(changed.items()):
        print(old, new)


if __name__ == "__main__":
    main(sys.argv[1:])
