#!/usr/bin/env python3
"""Spells the repository's own definitions and lemmas in snake case: firstFrom is first_from, sum-more is sum_more, and a prime is an apostrophe.

usage: tools/spell_names.py [--check]      at the top of the repository, after port.py; --check says what it would do and writes nothing

It goes by text. A name is turned where an antt file of crates/ declares it, but in a file that brings a name so spelled in from a library. Types and
modules keep their capitals. Of the labels that Rattle makes (behind c., w. or tie. in proofs/F/) none is turned. In comments and pages only what
stands between backticks is. A lemma that would have its function's name gets _lem. Names that would fall together in a file are said.
"""
import collections
import glob
import os
import re
import sys

WORDS = r"(?:(?:pub|abbrev|unfoldable|opaque|private|ghost)\s+)*"
NAME = r"[^\s(){}.;,@\"«»`]+"
DECLARED = re.compile(rf"\s*{WORDS}({NAME}(?:\s+{NAME})*?)\s+:\s")
USE = re.compile(r"^(?:pub |ghost )*use ([^\s;{]+)(\{[^}]*\})?", re.M)
COMMENT = {".antt": "--", ".rt": "//"}


def snake(name):
    name = name.replace("′", "'")
    if "-" not in name and not re.match(r"[a-z].*[A-Z]", name):
        return name
    words = re.sub(r"(?<=[a-z0-9])[A-Z]", lambda m: "_" + m[0].lower(), name)
    return words.replace("-", "_")


def code_of(line, mark):
    """A line's code and its comment."""
    m = re.search(rf"(^|\s){mark}(\s|$)", line)
    return (line[: m.start()], line[m.start() :]) if m else (line, "")


def texts():
    found = [p for kind in ("antt", "rt") for p in glob.glob(f"crates/**/*.{kind}", recursive=True)]
    return sorted(p for p in found if "/out/" not in p)


def declared(paths):
    names = collections.defaultdict(set)
    for p in paths:
        if p.endswith(".antt"):
            for line in open(p, encoding="utf-8"):
                m = DECLARED.match(code_of(line, "--")[0])
                for name in m[1].split() if m else []:
                    names[name].add(p)
    return names


def bound(paths):
    """The names that binders have, as in (columns-after : List ℕ)."""
    found = set()
    for p in paths:
        if p.endswith(".antt") and not p.endswith("Proof.antt"):
            for names in re.findall(rf"[({{]((?:{NAME}\s+)+):\s", open(p, encoding="utf-8").read()):
                found |= set(names.split())
    return found


def from_libraries(text, crates):
    out = set()
    for path, items in USE.findall(text):
        steps = path.strip(".").split(".")
        if steps[0] != "Rattle" or len(steps) < 2 or steps[1] not in crates:
            out |= set(re.findall(NAME, items or steps[-1]))
    return out


def turned_code(code, table, in_function):
    def at(m):
        name = m[0]
        behind = code[: m.start()]
        if behind.endswith(".") and in_function and not re.search(r"Rattle(\.[^\s.]+)*\.$", behind):
            return name
        return table.get(name, name)

    return re.sub(NAME, at, code)


def ticked(text, table):
    return re.sub(r"`[^`\n]+`", lambda m: re.sub(NAME, lambda n: table.get(n[0], n[0]), m[0]), text)


def turn(path, text, table, said):
    mark = COMMENT[os.path.splitext(path)[1]]
    in_function = bool(re.search(r"/proofs/[^/]+/\w+\.antt$", path))
    out = []
    for line in text.split("\n"):
        code, comment = code_of(line, mark)
        parts = re.split(r'("[^"]*")', code) if mark == "//" else [code]
        out.append("".join(p if p.startswith('"') else turned_code(p, table, in_function) for p in parts) + ticked(comment, table))
    before = {n for l in text.split("\n") for n in re.findall(NAME, code_of(l, mark)[0])}
    meet = collections.defaultdict(set)
    for n in before:
        meet[table.get(n, n)].add(n)
    for new, olds in sorted(meet.items()):
        if len(olds) > 1:
            said.append(f"look: {path}: {', '.join(sorted(olds))} are all {new}")
    return "\n".join(out)


def main(argv):
    paths = texts()
    crates = set(os.listdir("crates"))
    names = declared(paths)
    table = {n: snake(n) for n in names if snake(n) != n}
    # A lemma that would have its function's name.
    functions = {snake(n) for n in names if "-" not in n}
    table = {n: new + "_lem" if "-" in n and new in functions else new for n, new in table.items()}
    # port.py has turned some lemmas already.
    table.update({new: new + "_lem" for n, new in table.items() if "-" not in n and new in names})
    table.update({n: snake(n) for n in bound(paths) if snake(n) != n and n not in table and snake(n) not in names})
    said = []
    written = {}
    for p in paths:
        text = open(p, encoding="utf-8").read()
        stay = from_libraries(text, crates)
        new = turn(p, text, {a: b for a, b in table.items() if a not in stay}, said)
        if new != text:
            written[p] = new
    own = {snake(n) for n in names}
    for p in sorted(glob.glob("crates/*/must-fail/*.edit")):
        text = open(p, encoding="utf-8").read()
        file = re.search(r"(?m)^file: (.*)$", text)
        source = os.path.join(os.path.dirname(os.path.dirname(p)), file[1])
        stay = from_libraries(open(source, encoding="utf-8").read(), crates) if os.path.exists(source) else set()
        new = re.sub(NAME, lambda m: table.get(m[0], m[0]) if m[0] not in stay else m[0], text)
        if new != text:
            written[p] = new
    for p in ["README.md", *sorted(glob.glob("docs/**/*.md", recursive=True))]:
        text = open(p, encoding="utf-8").read()
        here = {n: table.get(n, snake(n)) for n in re.findall(NAME, text) if snake(n) != n and n not in own and snake(n) in own}
        new = ticked(text, here)
        if new != text:
            written[p] = new
    print("\n".join(said))
    print(f"{len(table)} names turned, {len(written)} files, {len(said)} to look at")
    if "--check" not in argv:
        for p, text in written.items():
            with open(p, "w", encoding="utf-8") as f:
                f.write(text)
    return 0


if __name__ == "__main__":
    sys.exit(main(sys.argv[1:]))
