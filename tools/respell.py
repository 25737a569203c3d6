#!/usr/bin/env python3
"""Brings the names of this repository's own definitions and lemmas to today's spelling: words in snake case, as std has them.

usage: tools/respell.py [FOLDER]     once, on what /opt/rattle/port/port.py has written there; FOLDER is the top of a checkout

It turned the repository once, in the commit that docs/PORT.md names, and is kept so that the turn can be made again and compared.
A name turns if a file of specs/ or proofs/ declares it and it has a dash or a capital inside. Where a definition and a lemma would fall
together, the definition has the plain name and the lemma ends in `_lem`. Names that Rattle makes (goals, invariants, labels) stay.
"""

import collections
import os
import re
import sys

WORD = re.compile(r'[^\s(){}.;,@"«»`|\[\]]+')
DECLARED = re.compile(r'(?m)^ *(?:(?:pub|abbrev|unfoldable|data|record|opaque) )*([^\s(){}.;,@"«»:`|\[\]]+)(?: \{[^{}\n]*\})* :(?!=)(.*)')
MADE = re.compile(r"returns(-\d+)?|(invariant|decreases)-.*|.*-requires(-\d+)?|loop(-.*)?")
COMMENT = re.compile(r"(?<![^\s(){}.;,])--[^\n]*|//[^\n]*")
SPAN = re.compile(r"`[^`\n]*`")
# Names that get another spelling than their own words': a name of std in them has today's, and a field may have a definition's name.
INSTEAD = {"no-pause": "no_pause", "noPause": "no_pause"}


def files(root):
    for folder, dirs, found in os.walk(os.path.join(root, "crates")):
        dirs[:] = sorted(d for d in dirs if d != "out")
        for f in sorted(found):
            if f.endswith((".antt", ".rt")):
                yield os.path.join(folder, f)


def in_snake_case(name):
    if name[:1].islower():
        name = re.sub(r"(?<=[a-z0-9'])[A-Z]+", lambda m: "_" + m[0].lower(), name)
    return name.replace("-", "_").replace("get_d_", "get_or_")


def read(path):
    with open(path, encoding="utf-8") as f:
        return f.read()


def table(root):
    """Each name that turns with its new spelling, and the fields of records, which turn behind a dot too."""
    declared, made, fields, spec = collections.defaultdict(set), set(), set(), set()
    for path in files(root):
        if not path.endswith(".antt"):
            continue
        text = read(path)
        for m in DECLARED.finditer(text):
            name, kind = m.group(1), m.group(2)
            if name.endswith(("-spec", "_spec")) and "statement" in kind:
                spec.add(name)
            elif re.search(r"\b(tie\.|goal\.)", kind) or MADE.fullmatch(name):
                made.add(name)
            else:
                declared[name].add(path)
        for m in re.finditer(r"(?m)^( *)(?:pub )?record .* where *\n((?:\1 +.*\n|\n)*)", text):
            fields |= {f.group(1) for f in DECLARED.finditer(m.group(2))}
    turned = {n: INSTEAD.get(n, in_snake_case(n)) for n in declared if n not in made}
    turned |= {n: INSTEAD[n] for n in INSTEAD if n in declared}
    turned |= {n: in_snake_case(n) for n in spec}
    same = collections.defaultdict(list)
    for n, to in turned.items():
        same[to].append(n)
    for to, names in same.items():
        if len(names) > 1 and not set(names) <= INSTEAD.keys():
            inner = [n for n in names if any("/specs/" in p for p in declared[n])] or [n for n in names if re.search("[A-Z]", n)]
            keep = inner[0] if len(inner) == 1 else None
            for n in names:
                if n != keep:
                    turned[n] = to + "_lem"
            if keep is None:
                print("left:", to, names)
    return {n: to for n, to in turned.items() if n != to}, fields, declared


def turn(text, row, fields, is_rt):
    def words(part):
        def spelled(m):
            name = m[0]
            behind_dot = m.start() and part[m.start() - 1] == "."
            stays = name not in row or (behind_dot and name not in fields) or (is_rt and row[name].endswith("_lem"))
            return name if stays else row[name]

        return WORD.sub(spelled, part)

    out, last = [], 0
    for m in COMMENT.finditer(text):
        out += [words(text[last : m.start()]), SPAN.sub(lambda s: words(s[0]), m[0])]
        last = m.end()
    return "".join(out) + words(text[last:])


def main():
    root = next((a for a in sys.argv[1:] if a[0] != "-"), ".")
    row, fields, declared = table(root)
    met = collections.defaultdict(list)
    for path in files(root):
        text = read(path)
        new = turn(text, row, fields, path.endswith(".rt"))
        bare = COMMENT.sub("", text)
        seen = {m[0] for m in WORD.finditer(bare) if not (m.start() and bare[m.start() - 1] == ".")}
        for n in seen & row.keys():
            if row[n] in seen and row[n] not in row:
                met[(n, row[n])].append(path)
        if new != text and "--check" not in sys.argv:
            with open(path, "w", encoding="utf-8") as f:
                f.write(new)
    for (n, to), paths in sorted(met.items()):
        print("look:", n, "->", to, "is in", *paths[:4])
    print(len(row), "names")


main()
