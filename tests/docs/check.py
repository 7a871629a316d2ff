"""Whether the pages speak of what is there: every link of README.md and docs/ has its file and its heading, and in
docs/claims.md every contract has its function and its clauses, every definition its name in the file, every edit its label.
The table of crates in README.md has the crates of crates.txt, and beside a library those that it stands on."""

import os
import re
import sys

TOP = os.path.normpath(os.path.join(os.path.dirname(os.path.abspath(__file__)), "..", ".."))
LINK = re.compile(r"\[([^\]]*)\]\(([^)]+)\)")
DEFINED = r"^ *(?:abbrev |unfoldable )?pub (?:record |data )?"


def read(path):
    with open(path, encoding="utf-8") as file:
        return file.read()


def anchors(path):
    """The anchors of a page's headings: small letters, spaces as dashes, other signs left out."""
    for line in read(path).split("\n"):
        if line.startswith("#"):
            yield re.sub(r"[^\w\- ]", "", line.lstrip("# ").lower()).replace(" ", "-")


def contracts_of(source, name):
    """Of each function of that name, its text up to the body, and that of the impl or trait that it stands in."""
    lines = source.split("\n")
    for at, line in enumerate(lines):
        if not re.search(rf"\bfn {re.escape(name)}\b", line):
            continue
        end = at
        while end < len(lines) - 1 and not re.search(r"^\s*\{$|;$|\) (-> .*)?\{$", lines[end]):
            end += 1
        start = at
        while start > 0 and not re.match(r"impl|pub trait|#\[", lines[start]):
            start -= 1
        last = at
        while last < len(lines) - 1 and lines[last] != "}":
            last += 1
        yield "\n".join(lines[at : end + 1]), "\n".join(lines[start : last + 1])


def wrong_contract(source, name, labels):
    found = list(contracts_of(source, name))
    if not found:
        yield f"there is no function {name}"
        return
    for label in labels:
        if not any(re.search(rf"ensures {label} \{{", own) or re.search(rf"ghost {label}\b", around) for own, around in found):
            yield f"{name} has no clause {label}"


def wrong_link(page, words, target, behind):
    """What is wrong with one link; `behind` is the text from there to the next link of the cell."""
    if target.startswith("http"):
        return
    file, _, anchor = target.partition("#")
    path = os.path.normpath(os.path.join(os.path.dirname(page), file)) if file else page
    name = words.strip("`").split("::")[-1]
    if not os.path.exists(path):
        yield f"there is no file {target}"
    elif anchor and anchor not in anchors(path):
        yield f"there is no heading {target}"
    elif not words.startswith("`"):
        return
    elif path.endswith(".rt"):
        yield from wrong_contract(read(path), name, re.findall(r"`([^`]+)`", behind))
    elif path.endswith(".antt"):
        if not re.search(rf"{DEFINED}{re.escape(name)}(?=[ :]|$)", read(path), re.M):
            yield f"there is no definition {name} in {target}"
    elif path.endswith(".edit") and os.path.basename(path) != name + ".edit":
        yield f"{name} is not the label of {target}"


def wrong_crates():
    """What is wrong with the README's table of crates."""
    stands_on = {}
    for line in read(os.path.join(TOP, "crates.txt")).split("\n"):
        crate = re.match(r"(\w+)(?: staticlib)?:(.*)", line)
        if crate:
            stands_on[crate.group(1)] = crate.group(2).split()
    table = read(os.path.join(TOP, "README.md")).partition("\n## Crates\n")[2].partition("\n## ")[0]
    seen = set()
    for row in re.findall(r"^\| (`.*) \|$", table, re.M):
        cells = row.split(" | ")
        names = re.findall(r"`(\w+)`", cells[0])
        seen.update(names)
        below = re.findall(r"`(\w+)`", cells[2]) if len(cells) > 2 else []
        for name in names:
            own = [crate for crate in stands_on.get(name, []) if crate in stands_on]
            if len(names) == 1 and sorted(own) != sorted(below):
                yield f"{name} stands on {' '.join(own) or 'nothing'}"
    for name in sorted(seen ^ set(stands_on)):
        yield f"{name} is in crates.txt or in the table of crates, and not in both"


def main():
    pages = [os.path.join(TOP, "README.md")]
    pages += sorted(os.path.join(TOP, "docs", name) for name in os.listdir(os.path.join(TOP, "docs")) if name.endswith(".md"))
    links = wrong = 0
    for page in pages:
        text = read(page)
        for link in LINK.finditer(text):
            links += 1
            behind = re.split(r"\[| \| |\n", text[link.end() :], maxsplit=1)[0]
            for slip in wrong_link(page, " ".join(link.group(1).split()), link.group(2), behind):
                wrong += 1
                print(f"{os.path.relpath(page, TOP)}:{text.count(chr(10), 0, link.start()) + 1}: {slip}")
    for slip in wrong_crates():
        wrong += 1
        print(f"README.md: {slip}")
    print(f"docs: {links} links, {wrong} wrong")
    return 1 if wrong else 0


if __name__ == "__main__":
    sys.exit(main())
