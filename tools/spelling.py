#!/usr/bin/env python3
"""Respells the repository's own definitions and lemmas as today's Rattle does, once, after its port.py: `goodPair` and `good-pair` become `good_pair`.

usage: python3 tools/spelling.py [--check]      at the top of the repository

A name of a library keeps its spelling, and so do functions, types, modules, strings and what stands in Rust code; of a .rt file only `ghost use` items and
clauses turn. Where two names of one file would fall together, the lemma (the name with a dash) gets `_lem`, in every file. A fact that was spelled like a value gets a
type's name (FACTS). Names in code spans of comments and of documents turn too. --check writes nothing, and prints each name that falls together with another.
"""

import os
import re
import sys

NAME = r'[^\s(){}.;,@"«»\[\]`|]+'
TURNS = re.compile(r"^[a-z][A-Za-z0-9]*(?:[A-Z]|-)|^[a-z0-9]+(?:-)", re.A)
PLAIN = re.compile(r"^[a-z][A-Za-z0-9_-]*'*$")
FACTS = {"when": "When"}
# Lemmas that the kit's script spelled like a definition that turns here.
LEMMAS = {"is_digit", "high_read", "low_read", "read_byte", "runs_on", "after_stop", "is_down", "is_open", "is_sum", "number_by"}


def files(root, ends, below=("crates",)):
    for top in below:
        for folder, dirs, names in os.walk(os.path.join(root, top)):
            dirs[:] = sorted(d for d in dirs if d not in ("out", ".git", "target"))
            for n in sorted(names):
                if n.endswith(ends):
                    yield os.path.join(folder, n)


def read(path):
    with open(path, encoding="utf-8") as f:
        return f.read()


def of_libraries(root):
    own = set(os.listdir(os.path.join(root, "crates")))
    found = set()
    for path in files(root, (".antt", ".rt")):
        for m in re.finditer(r"\buse ([^\s;{]+)\{([^}]*)\}", read(path)):
            head = re.match(r"Rattle\.(\w+)", m.group(1))
            if not (head and head.group(1) in own):
                found |= {w.split(" as ")[0].strip() for w in m.group(2).split(",")}
    return found


def snake(name):
    name = re.sub(r"Of(?=\d)", "_of_", name)
    name = re.sub(r"(?<=[a-z0-9])([A-Z])", lambda m: "_" + m.group(1).lower(), name)
    return name.replace("-", "_")


def is_own(name, libraries):
    return name in FACTS or (bool(PLAIN.match(name)) and name not in libraries and snake(name) != name)


def pieces(text):
    """The text of an antt file as code and comments, in turn."""
    at = 0
    for m in re.finditer(r"(?m)(?:^|(?<=[\s(){}.;,]))--(?=\s|-|$).*$", text):
        yield True, text[at : m.start()]
        yield False, m.group()
        at = m.end()
    yield True, text[at:]


def tokens(code, walk):
    """Each name of the code with the place where it may turn: in a proof that walks a function, what stands after a dot is the prover's own label."""
    for m in re.finditer(NAME, code):
        if walk and m.start() and code[m.start() - 1] == ".":
            continue
        yield m


def clauses(text, turn):
    out, at = [], 0
    for m in re.finditer(r"(?m)^\s*(?:ensures|requires)\*?(?: \w+)? \{", text):
        if m.end() < at:
            continue
        depth, end = 1, m.end()
        while depth:
            depth += {"{": 1, "}": -1}.get(text[end], 0)
            end += 1
        out += [text[at : m.end()], turn(text[m.end() : end])]
        at = end
    return "".join(out) + text[at:]


def main(argv):
    root = os.getcwd()
    libraries = of_libraries(root)
    antt = list(files(root, (".antt",)))
    lems, clashes = set(), []
    for path in antt:
        seen = {}
        walk = path.endswith("/Proof.antt")
        text = re.sub(r"(?m)^(\s*use )([^\s{]+)", lambda m: m.group(1), read(path))
        for is_code, piece in pieces(text):
            if is_code:
                for m in tokens(piece, walk):
                    w = m.group()
                    if PLAIN.match(w) and not (m.start() and piece[m.start() - 1] == "."):
                        seen.setdefault(w if w in libraries else snake(w), set()).add(w)
        for new, olds in seen.items():
            if len(olds) > 1:
                clashes.append((path, new, sorted(olds)))
                lems |= {o for o in olds if "-" in o and o not in libraries}

    left = {o for _, _, olds in clashes if not lems & set(olds) for o in olds if o not in libraries and "_" in o}
    if left - LEMMAS:
        print("LEFT:", *sorted(left - LEMMAS))

    def turned(w):
        if w in LEMMAS:
            return w + "_lem"
        if w in FACTS:
            return FACTS[w]
        return snake(w) + ("_lem" if w in lems else "")

    def turn(code, walk=False):
        out, at = [], 0
        for m in tokens(code, walk):
            w, end = m.group(), code[m.end() : m.end() + 1]
            if is_own(w, libraries) or (w in LEMMAS and end != "." and code[m.start() - 1 : m.start()] != "."):
                out += [code[at : m.start()], turned(m.group())]
                at = m.end()
        return "".join(out) + code[at:]

    declared = set()
    for path in antt:
        for is_code, piece in pieces(read(path)):
            if is_code:
                declared |= {w for w in re.findall(NAME, piece) if is_own(w, libraries)}

    def spans(text):
        one = lambda m: "`" + re.sub(NAME, lambda w: turned(w.group()) if w.group() in declared else w.group(), m.group(1)) + "`"
        return re.sub(r"`([^`\n]+)`", one, text)

    check = "--check" in argv
    for path, new, olds in clashes if check else ():
        print(f"{os.path.relpath(path, root)}: {new}: {' '.join(olds)}")
    if check:
        return 0

    def write(path, text, was):
        if text != was:
            with open(path, "w", encoding="utf-8") as f:
                f.write(text)

    for path in antt:
        was = read(path)
        walk = path.endswith("/Proof.antt")
        write(path, "".join(turn(p, walk) if c else spans(p) for c, p in pieces(was)), was)
    for path in files(root, (".rt",)):
        was = read(path)
        text = re.sub(r"(?m)^(\s*ghost use [^{;]*)(\{[^}]*\})", lambda m: m.group(1) + turn(m.group(2)), was)
        text = clauses(text, turn)
        text = re.sub(r"(?m)//.*$", lambda m: spans(m.group()), text)
        write(path, text, was)
    for path in files(root, (".edit",), ("crates", "tests")):
        was = read(path)
        kind, lines = "", []
        for line in was.splitlines(keepends=True):
            if line.startswith("file:"):
                kind = line.strip().rsplit(".", 1)[-1]
            elif line.startswith(("old:", "new:")) and kind == "antt":
                line = line[:4] + turn(line[4:])
            lines.append(line)
        write(path, "".join(lines), was)
    for path in [os.path.join(root, "README.md"), *files(root, (".md",), ("docs",))]:
        was = read(path)
        write(path, spans(was), was)
    return 0


if __name__ == "__main__":
    raise SystemExit(main(sys.argv[1:]))
