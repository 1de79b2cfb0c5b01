#!/usr/bin/env python3
"""Spells the names that this repository's own specs/ and proofs/ declare in snake case.

usage: snake_names.py [--check] [FOLDER]

FOLDER is the repository's top, by default the working directory. A definition, a lemma, a field or a local lemma whose name has
a dash or a capital inside, as `gridLine` or `decimal-value`, gets its words joined by underscores: `grid_line`, `decimal_value`.
A name whose first letter is a capital (a type, a record, a fact) keeps its spelling up to its first dash. Names of libraries, of Rust's
functions and of what Rattle makes keep theirs: a name stays in a file that imports it from another library. With --check
nothing is written. It says which names would fall together with another name in some file, and leaves those as they are.
"""

import os
import re
import sys

NAME = r"[^\s(){}.;,@\"«»`|]+"
DECL = re.compile(r"^ *(?:(?:abbrev|unfoldable|pub)\s+)*(%s)((?: +\{[^{}]*\})*)\s+:\s" % NAME)
LIST = re.compile(r"^ *(?:pub )?((?:%s +)+%s) :\s" % (NAME, NAME))
RECORD = re.compile(r"^ *(?:abbrev |pub )*(?:record|data)\s+(%s)" % NAME)
OWN = re.compile(r"Rattle\.(\w+)\.(specs|proofs)\b")
USE = re.compile(r"\buse ([^\s;{]+?)\.?(\{[^}]*\})?(?: as (\S+?))?;?\s*$")
WORD = re.compile(NAME)
# What a function's proof answers has the names that Rattle makes.
ANSWERS = re.compile(r"/proofs/.+/(Answers|Invariants)\.antt$")


# Names that would meet another when it is respelled: each takes a name of its own.
APART = {
    "atFirst": "at_first_test",
    "test_words": "test_words_lem",
    "pairs_end": "pairs_end_lem",
    "size_fits": "size_fits_lem",
    "listed_by": "listed_by_lem",
    "handed_out": "handed_out_lem",
    "fine_of": "fine_of_lem",
    "count_at": "count_at_lem",
    "in_order": "in_order_lem",
}
# A field of this file has the spelling of a lemma of APART.
APART_NOT = {"crossings_laws/proofs/Build.antt": {"handed_out"}}


def files(root, ends):
    for folder in ("crates", "docs", "tools", ".ci", "examples", "compare", "bindings"):
        for d, dirs, fs in os.walk(os.path.join(root, folder)):
            dirs[:] = [x for x in dirs if x not in ("out", ".git")]
            for f in sorted(fs):
                if f.endswith(ends):
                    yield os.path.join(d, f)


def crates(root):
    with open(os.path.join(root, "crates.txt"), encoding="utf-8") as f:
        return {line.split(":")[0].strip() for line in f if line.strip() and not line.startswith("#")}


def spelled(name):
    """The name in snake case. A leading capital is a fact's or a type's, and stays."""
    if not re.search(r"[A-Za-z]", name) or "◌" in name or re.match(r"\d+e-\d", name):
        return name
    head, rest = "", name
    m = re.match(r"[A-Z][A-Za-z0-9']*", name)
    if m:
        head, rest = m.group(0), name[m.end():]
    rest = re.sub(r"(?<=[a-z0-9'₀₁₂₃₄])-(?=\S)", "_", rest) if not head else re.sub(r"-", "_", rest)
    rest = re.sub(r"-", "_", rest)
    rest = re.sub(r"(?<=[a-z0-9])([A-Z]+)(?![a-z])", lambda k: "_" + k.group(1).lower(), rest)
    rest = re.sub(r"(?<=[a-z0-9])([A-Z])", lambda k: "_" + k.group(1).lower(), rest)
    rest = re.sub(r"(?<=_)([A-Z])(?=[a-z])", lambda k: k.group(1).lower(), rest)
    return head + rest


def declared(text):
    for line in text.split("\n"):
        if line.lstrip().startswith(("--", "use ", "module ")):
            continue
        m = DECL.match(line)
        if m:
            yield m.group(1)
        m = LIST.match(line)
        if m:
            yield from m.group(1).split()
        m = RECORD.match(line)
        if m:
            yield m.group(1)


def imported(text, own):
    """The names that a file brings from another library than this repository's."""
    for line in text.split("\n"):
        m = USE.search(line)
        if m and m.group(2):
            o = OWN.match(m.group(1))
            if o and o.group(1) in own:
                continue
            for item in m.group(2)[1:-1].split(","):
                yield from item.replace(" as ", " ").split()


def in_scope(text):
    """The names that a file declares or brings."""
    scope = set(declared(text))
    for line in text.split("\n"):
        m = USE.search(line)
        if m and m.group(2):
            scope |= {item.split(" as ")[-1].strip() for item in m.group(2)[1:-1].split(",")}
    return scope


def turned(text, names, prose):
    """Text with each whole word of names respelled: in prose only within backquotes and code blocks."""
    if not prose:
        return WORD.sub(lambda k: names.get(k.group(0), k.group(0)), text)
    return re.sub(r"`[^`\n]+`", lambda k: WORD.sub(lambda w: names.get(w.group(0), w.group(0)), k.group(0)), text)


def lines_turned(text, names, comment):
    out = []
    for line in text.split("\n"):
        at = line.find(comment)
        if at < 0:
            out.append(turned(line, names, False))
        else:
            out.append(turned(line[:at], names, False) + turned(line[at:], names, True))
    return "\n".join(out)


def mine_of(p, t, names, brought):
    """The names that turn in a file: Rattle's goals in a file of answers keep theirs, and so does Rust's code."""
    keep = set(brought) | next((v for k, v in APART_NOT.items() if p.endswith(k)), set())
    if ANSWERS.search(p):
        keep |= set(declared(t))
    if p.endswith(".rt"):
        keep |= set(APART) - {"atFirst"}
    return {o: n for o, n in names.items() if o not in keep}


def shortened(root):
    """Takes `_lem` from each name that no longer meets another in any file, and from the fields that lie behind a dot alone."""
    sources = {p: open(p, encoding="utf-8").read() for p in files(root, (".antt", ".rt"))}
    names = {}
    for n in sorted({n for t in sources.values() for n in declared(t) if n.endswith("_lem")}):
        short = n[:-4]
        alone = rf"(?<![\w.'₀-₉-]){re.escape(short)}(?![\w'₀-₉-])"
        for t in sources.values():
            body = re.sub(r"(?m)(--|//).*$", "", t)
            if n in WORD.findall(body) and re.search(alone, re.sub(r"(?m)^ *(pub )?(ghost )?use [^{\n]*", "", body)):
                break
        else:
            names[n] = short
    names.update({f"{end}_{axis}_lem": f"{end}_{axis}" for end in ("start", "end") for axis in "xy"})
    for p in files(root, (".antt", ".rt", ".edit")):
        t = open(p, encoding="utf-8").read()
        new = lines_turned(t, names, "--" if p.endswith(".antt") else "//")
        if new != t:
            open(p, "w", encoding="utf-8").write(new)


def main():
    args = [a for a in sys.argv[1:] if a != "--check"]
    write = "--check" not in sys.argv
    root = args[0] if args else "."
    own = crates(root)
    sources = {p: open(p, encoding="utf-8").read() for p in files(root, (".antt", ".rt"))}
    names = {}
    for p, t in sources.items():
        if p.endswith(".antt") and not ANSWERS.search(p):
            for n in declared(t):
                if spelled(n) != n:
                    names[n] = spelled(n)
    names.update(APART)
    # A lemma that would have the name of a definition gets `_lem`.
    plain = {n for t in sources.values() for n in declared(t)} - set(names)
    camel = {names[n] for n in names if "-" not in n}
    for n in names:
        if "-" in n and names[n] in plain | camel and n not in APART:
            names[n] += "_lem"
    # Names that would still fall together in some file: two that it declares or brings, or one with a bound variable.
    for p, t in sources.items():
        brought = set(imported(t, own))
        scope = in_scope(t)
        new = {}
        for n in sorted(scope):
            new.setdefault(names.get(n, n) if n not in brought else n, []).append(n)
        for n, olds in new.items():
            if len(olds) > 1:
                print(f"together: {' and '.join(olds)} would be {n} in {p}")
        body = re.sub(r"(?m)^ *(pub )?(ghost )?use .*$|(--|//).*$", "", t)
        loose = set(re.findall(r"(?<![^\s(){};,@])(%s)" % NAME, body))
        for n in sorted(scope):
            if n in names and n not in brought and names[n] in loose and n in loose:
                print(f"bound: {names[n]}, as {n} would be, stands in {p}")
    if not write:
        for old in sorted(names):
            print(f"{old} -> {names[old]}")
        return
    brought = {p: set(imported(t, own)) for p, t in sources.items()}
    for p, t in sources.items():
        mine = mine_of(p, t, names, brought[p])
        new = lines_turned(t, mine, "--" if p.endswith(".antt") else "//")
        if new != t:
            open(p, "w", encoding="utf-8").write(new)
    names = {o: n for o, n in names.items() if o not in APART or o == "atFirst"}
    for p in files(root, (".edit",)):
        t = open(p, encoding="utf-8").read()
        new = lines_turned(t, names, "//")
        if new != t:
            open(p, "w", encoding="utf-8").write(new)
    shortened(root)
    # Pages and comments name some that have their new spelling in the sources already.
    now = {n for p in files(root, (".antt",)) for n in declared(open(p, encoding="utf-8").read())}
    for p in files(root, (".antt", ".rt", ".md")):
        for w in WORD.findall(open(p, encoding="utf-8").read()):
            if w not in names and w not in now and spelled(w) != w and spelled(w) in now:
                names[w] = spelled(w)
    for p in files(root, (".antt", ".rt")):
        t = open(p, encoding="utf-8").read()
        mark = "--" if p.endswith(".antt") else "//"
        new = re.sub(r"(?m)%s.*$" % mark, lambda k: turned(k.group(0), names, True), t)
        if new != t:
            open(p, "w", encoding="utf-8").write(new)
    pages = [os.path.join(root, "README.md"), os.path.join(root, "CONTRIBUTING.md"), *files(root, (".md",))]
    for p in pages:
        t = open(p, encoding="utf-8").read()
        new = turned(t, names, True)
        if new != t:
            open(p, "w", encoding="utf-8").write(new)


if __name__ == "__main__":
    main()
