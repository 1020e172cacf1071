#!/usr/bin/env python3
"""Lists places of the sources that a plainer form may serve better. It is a finder: it counts too much rather than too little.

usage: python3 tools/places.py [--at COMMIT] [--list] [CRATE ..]      at the top of the repository

Seven points: 1 number codes and flags, 2 twins, 3 loops that count by hand, 4 equality, choices and copies by hand, 5 groups of
parameters and facts that are repeated, 6 buffers with a place beside them and parallel fields, 7 chains that choose a function. A
line has a finder's name, a crate and a count; a table of points and crates ends it. --list prints each place first (finder,
file:line, text), --at counts the sources as they are in a commit."""
import io, re, subprocess, sys, tarfile
from collections import Counter, defaultdict
from itertools import accumulate, combinations
from pathlib import Path
from types import SimpleNamespace as Item
CODE = r"(?:no|number|reason|why|choice|form|kind|side|code)"
NUMBER, TOKEN = ("u8", "u32", "usize"), re.compile(r"\w+|[^\w\s]")
PLAIN = set("if else while for in match return let mut as loop break continue ref move".split())

# What each match in a whole text is, and each match in a function's body.
IN_TEXT = [("1 number-constant", r"\bconst \w+: u8 = \d+;"), ("7 table-of-functions", r"[:\[]\s*(?:&\w* ?)?\[?fn\("),
           ("1 none-variant", r"^ +(?:Nowhere|Nobody|Nothing|Other|Foreign|None|Never)\b(?=,|\()")]
IN_BODY = [("1 number-compared", r"(?:\.|\b)%s\s*[!=]=\s*(?:\d|(?:\w+::)*[A-Z][A-Z_0-9]+\b)" % CODE),
           ("4 let-copy", r"\blet \w+ = \w+(?:\.\w+)+;"), ("4 field-of-its-name", r"(?<=[{,])\s*(\w+): \1\s*(?=[,}])"),
           ("4 let-of-a-bool", r"\blet (\w+) = [^;]*;\s*(?:!?\1\s*$|if !?\1 \{)"),
           ("4 field-copied", r"\b(\w+): \w+(?:\.\w+)*\.\1,"), ("4 earlier-same", r"\bunits::(?:earlier|same)\(")]

most = lambda found: max(Counter(found).values(), default=0)
fields = lambda s: re.findall(r"(?:[({,]|\bpub(?:\(\w+\))?)\s*(?:mut )?([a-z_]\w*): ([^,(){}]+?)\s*(?=[,)}])", s)
calls = lambda body: {c for c in re.findall(r"(?:=>\s*\{?|return|\{)\s*((?:\w+::)*[a-z_]\w*)\(", body)} - {"Ok", "Err"}

# What is a place once for a function, by its name, parameters, result and body; and for a struct, by its fields.
OF_FUNCTION = [
    ("1 number-answer", lambda f: f.result in NUMBER and re.search(r"reason|(?:^|_)no(?:_|$)|number|judge|refus|why|kind|code", f.name)),
    ("1 number-parameter", lambda f: any(re.fullmatch(CODE, n) and t in NUMBER for n, t in f.fields)),
    ("4 match-to-bool", lambda f: len(re.findall(r"=> (?:true|false)\b", f.body)) >= 2),
    ("4 match-to-value", lambda f: len(re.findall(r"\w+::\w+ => [\w:]*[\dA-Z]\w*,", f.body)) >= 3),
    ("4 if-chain", lambda f: most(re.findall(r"\bif ([\w.]+) (?:==|<=?) [\w:.+ ]+\{", f.body)) >= 3),
    ("4 asked-by-hand", lambda f: re.match(r"(is|same|may|takes)_|earlier$|number_of$|.*(_numbered|_by)$", f.name) and re.search(r"\b(match|if)\b", f.body)),
    ("4 equality-by-fields", lambda f: len(re.findall(r"\b\w+\.(\w+) == \w+\.\1\b", f.body)) >= 2),
    ("6 slice-and-place", lambda f: any(t.endswith("[u8]") for _, t in f.fields) and any(t == "usize" for _, t in f.fields)),
    ("6 search-by-hand", lambda f: re.search(r"\b(?:while|for|loop)\b", f.body) and re.search(r"return (?:true|false|Some\(|i\b)", f.body)),
    ("7 choice-of-function", lambda f: len(calls(f.body)) >= 3 <= len(re.findall(r"\bif [^{]*(?:==|starts|<)[^{]*\{|=> ", f.body)))]
OF_STRUCT = [
    ("1 number-field", lambda s: any(re.fullmatch(CODE, n) and t in NUMBER for n, t in s.fields)),
    ("1 flag-field", lambda s: len(s.fields) > 1 and any(t == "bool" for _, t in s.fields)),
    ("1 place-beside-value", lambda s: len(s.fields) > 1 and any(n in ("to", "put", "from") and t == "usize" for n, t in s.fields)),
    ("6 buffer-and-length", lambda s: any("[u8" in t for _, t in s.fields) and any(t in NUMBER for _, t in s.fields)),
    ("6 parallel-fields", lambda s: most(t for _, t in s.fields) >= 4)]

def sources(commit):
    """Path and text of each source, of the folder or of a commit."""
    if not commit:
        return sorted((str(p), p.read_text("utf-8")) for p in Path("crates").glob("*/src/**/*.rt"))
    with tarfile.open(fileobj=io.BytesIO(subprocess.check_output(["git", "archive", commit, "crates"]))) as t:
        return sorted((m.name, t.extractfile(m).read().decode()) for m in t if re.fullmatch(r"crates/\w+/src/.*\.rt", m.name))

def closing(s, at):
    """The place after the bracket that closes the one at a place."""
    ends = accumulate(((m.end(), 1 if m[0] in "([{" else -1) for m in re.compile(r"[(\[{)\]}]").finditer(s, at)), lambda a, b: (b[0], a[1] + b[1]))
    return next(end for end, depth in ends if depth == 0)

def items(s):
    """The functions and the structs of a text whose comments and quoted texts are blank."""
    fns, structs = [], []
    for m in re.finditer(r"\bfn (\w+)(?:<[^(]*>)?\(", s):
        at = end = closing(s, m.end() - 1)
        result = re.compile(r"\s*-> ((?:\[[^\]]*\]|[^;{\n])+)").match(s, at)
        at, clauses = result.end() if result else at, []
        while c := re.compile(r"\s*(?:requires|ensures)\*?(?: \w+)?\s*\{").match(s, at):
            at = closing(s, c.end() - 1)
            clauses.append(" ".join(s[c.end():at - 1].split()))
        start = s.find("{", at) + 1
        if start and ";" not in s[at:start]:
            body, result = s[start:closing(s, start - 1) - 1], result[1].strip() if result else ""
            fns.append(Item(name=m[1], at=m.start(), fields=fields(s[m.end() - 1:end]), result=result, clauses=clauses, body=body, start=start))
    for m in re.finditer(r"\bstruct (\w+)(?:<[^{;(]*>)?\s*\{", s):
        structs.append(Item(name=m[1], at=m.start(), body="", fields=fields(s[m.end() - 1:closing(s, m.end() - 1)])))
    return fns, structs

def loops(s, here):
    for m in re.finditer(r"\b(?:while|for (\w+) in ([^{\n]*))", s):
        inside = s[m.end():closing(s, s.find("{", m.end()))]
        if re.search(r"\b\w+ [+-]= |\b(\w+) = \(?\1 [-+*/] ", inside):
            here("3 for-counts-by-hand" if m[1] else "3 while-index", m.start())
        elif not m[1] or ".." in m[2] and re.search(r"\[[^\]\n]*\b%s\b" % m[1], inside):
            here("3 range-index" if m[1] else "3 while-other", m.start())

def of_crate(fns, structs, found):
    """Twins, groups of parameters, repeated facts: what several items of one crate have. Each item has its place."""
    report = lambda finder, who, what="": found.append((finder, who[0].crate, who[0].place, what + ", ".join(x.name for x in who)))
    twins, pairs, facts, groups = (defaultdict(list) for _ in range(4))
    for f in fns:
        tokens = ["x" if re.match(r"\w", t) and t not in PLAIN else t for t in TOKEN.findall(f.body)]
        twins[(len(f.fields), *tokens)].append(f)
        for two in combinations(sorted(set(f.fields)), 2):
            pairs[two].append(f)
        for fact in set(f.clauses):
            facts[fact].append(f)
    for two, who in pairs.items():
        groups[tuple(f.place for f in who)].append((two, who))
    for who in (who for key, who in twins.items() if len(who) >= 2 and len(key) > 12):
        report("2 twin-functions", who)
    for fact, who in ((fact, who) for fact, who in facts.items() if len(who) >= 3):
        report("5 repeated-fact", who, fact + ": ")
    for s, t in combinations((s for s in structs if len(s.fields) >= 2), 2):
        if len(s.fields) == len(t.fields) and sum(a != b for (_, a), (_, b) in zip(s.fields, t.fields)) <= 1:
            report("2 twin-types", [s, t])
    for group in (g for g in groups.values() if len(g[0][1]) >= 3):
        report("5 parameter-group", group[0][1], ", ".join(f"{n}: {t}" for n, t in sorted({p for two, _ in group for p in two})) + ": ")

def places(commit):
    found, crates, same = [], defaultdict(lambda: ([], [])), defaultdict(list)
    for path, text in sources(commit):
        crate, lines = path.split("/")[1], text.split("\n")
        s = re.sub(r'//[^\n]*|"(?:\\.|[^"\\])*"|\'(?:\\.|[^\'\\])\'', lambda m: re.sub(r"[^\n]", " ", m[0]), text)
        place, (fns, structs) = lambda at: f"{path}:{s.count(chr(10), 0, at) + 1}", items(s)
        here = lambda finder, at: found.append((finder, crate, place(at), lines[s.count("\n", 0, at)].strip()))
        for part, tests in [(Item(body=s, start=0), IN_TEXT)] + [(f, IN_BODY) for f in fns]:
            for finder, pattern in tests:
                for m in re.finditer(pattern, part.body, re.M):
                    here(finder, part.start + m.start() + len(m[0]) - len(m[0].lstrip()))
        for x, tests in [(f, OF_FUNCTION) for f in fns] + [(t, OF_STRUCT) for t in structs]:
            x.place, x.crate = place(x.at), crate
            crates[crate][tests is OF_STRUCT].append(x)
            same[(x.body, *x.fields)].append(x)
            for finder in (finder for finder, holds in tests if holds(x)):
                here(finder, x.at)
        loops(s, here)
    for fns, structs in crates.values():
        of_crate(fns, structs, found)
    for key, who in same.items():
        if len({x.crate for x in who}) >= 2 and len(TOKEN.findall(key[0])) + 3 * len(key) >= 9:
            found.extend(("2 same-in-two-crates", x.crate, x.place, f"{x.name}, of {len(who)}") for x in who)
    return sorted(found)

def main(words):
    commit = words.pop(words.index("--at") + 1) if "--at" in words else None
    found = [x for x in places(commit) if x[1] in words or all(w[0] == "-" for w in words)]
    for finder, _, place, what in found if "--list" in words else []:
        print(f"{finder}  {place}: {what}")
    for (finder, crate), n in sorted(Counter(x[:2] for x in found).items()):
        print(f"{finder:24}{crate:12}{n:5}")
    table, points = Counter((c, p) for x in found for c in (x[1], "all") for p in (x[0][0], "all")), [*"1234567", "all"]
    print("\ncrate       " + "".join(f"{p:>6}" for p in points))
    for crate in sorted({c for c, _ in table} - {"all"}) + ["all"]:
        print(f"{crate:12}" + "".join(f"{table[crate, p]:6}" for p in points))

if __name__ == "__main__":
    main(sys.argv[1:])
