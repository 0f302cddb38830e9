#!/usr/bin/env python3
"""Brings the repository's own definitions and lemmas to one spelling: words in snake case, types and modules in camel case.

usage: tools/respell.py [--check]      at the top of the repository, once, right after the kit's port.py

`inAnyOrder` becomes `in_any_order`, `swept-start` becomes `swept_start`; a dash stays beside a type, as in `Address-once`. Where a
lemma would so get the name of a definition that some file has beside it, it ends in `_lem`. The name under which a file brings in the contract
of a function ends in `_fn` where the file has a definition of that name. Turned are the .antt files, the
clauses of the .rt files, the must-fail edits, and code spans of README.md and docs/. Functions, strings and outputs keep their spelling, and
so do names that a file brings in from a library, and the goals that the toolchain names.
"""

import collections
import os
import re
import sys

TOKEN = re.compile(r'[^\s(){}.;,@"«»]+')
COMMENT = re.compile(r'(?m)(?<![^\s(){}.;,@"«»])--.*$')
DECLARED = re.compile(r"(?m)^(?:(?:pub|abbrev|unfoldable|pattern) )*([^\s(){}:;,.]+)(?: \{[^{}\n]*\})* :")
FIELD = re.compile(r"(?m)^ +(?:pub )?([^\s(){}:;,.]+)(?: \{[^{}\n]*\})* : ")
USE = re.compile(r"(?m)^(?:ghost )?(?:pub )?use ([^\s;{]+?)\.?(\{[^}]*\})?(?: as ([^\s;]+))?;?$")
# Names that port.py had turned already, and that fall together with a definition of the same text.
HERE = {
    "crates/rings/": {"way_at": "way_at_lem", "joined_by": "joined_by_lem"},
    "crates/tasks/proofs/Freeing.antt": {"in_use": "used_now"},
}
CAMEL = re.compile(r"[a-z][a-z0-9]*(?:[A-Z][a-z0-9]*)+")
LABELS = re.compile(r"/proofs/(.*/)?(Proof|Answers|Invariants)\.antt$")


def files(*endings):
    for top in ("crates", "docs", "README.md"):
        for folder, dirs, names in os.walk(top) if os.path.isdir(top) else [(".", [], [top])]:
            dirs[:] = sorted(d for d in dirs if d != "out")
            yield from (os.path.join(folder, n) for n in sorted(names) if n.endswith(endings))


def read(path):
    with open(path, encoding="utf-8") as f:
        return dotless(f.read()) if path.endswith((".antt", ".rt", ".edit")) else f.read()


def is_type(part):
    return part[:1].isupper()


def respelled(name):
    parts = name.split("-")
    if not all(parts) or not parts[0][0].isalpha():
        return name
    parts = [p if is_type(p) else re.sub(r"(?<!^)[A-Z]", lambda m: "_" + m[0].lower(), p) for p in parts]
    out = parts[0]
    for a, b in zip(parts, parts[1:]):
        out += ("-" if is_type(a) or is_type(b) else "_") + b
    return out


def dotless(text):
    """Paths that port.py left with a middle dot, since no file of that name is read."""
    text = re.sub(r"Rattle·(\w+)·(specs|proofs)(?:\.\2)?(?=\.)", r"Rattle.\1.\2", text)
    return re.sub(r"Rattle·(\w+)", r"Rattle.\1", text)


def is_own(path):
    return path.startswith("Rattle.") and not re.match(r"Rattle\.(core|std\w*|libc|io|os)\b", path)


def items(group):
    return [it.split(" as ")[-1].strip(" «»\n") for it in (group or "").strip("{}").split(",") if it.strip()]


class Text:
    """A .antt file: its tokens that stand alone, what it declares and what it brings in from libraries."""

    def __init__(self, path):
        self.path, self.code = path, COMMENT.sub("", read(path))
        self.labels = bool(LABELS.search(path))
        self.declared = set(DECLARED.findall(self.code))
        self.fields = set() if self.labels else set(FIELD.findall(self.code))
        self.lent, self.aliases = set(), set()
        for where, group, alias in USE.findall(self.code):
            if not is_own(where):
                self.lent.update(items(group) or [alias or where.split(".")[-1]])
            elif alias and where.split(".")[-1] in ("Reads", "Tie", "Goals", "Given") and alias not in ("tie", "goal"):
                self.aliases.add(alias)
        bare = re.sub(r"(?m)^((?:pub )?use )[^\s{]+", r"\1", self.code)
        self.alone = {m[0] for m in TOKEN.finditer(bare) if bare[m.start() - 1 : m.start()] != "."}


def table(texts):
    """old: new, of the names that this repository declares."""
    own = set()
    for t in texts:
        if not t.labels:
            own |= t.declared | t.fields
        else:
            own |= {n for n in t.declared if re.search(r"[a-z0-9][A-Z]", n) and "-" not in n}
        own |= {n for n in t.alone if CAMEL.fullmatch(n) and n not in t.lent}
    for p in files(".rt"):
        for group in re.findall(r"ghost use [^;]*\{([^}]*)\}", read(p)):
            own |= {n for n in items(group) if CAMEL.fullmatch(n)}
    own = {n for n in own if n[0].isalpha()}
    turned = {n: respelled(n) for n in own}
    together = collections.defaultdict(set)
    for old, new in turned.items():
        together[new].add(old)
    for new, olds in together.items():
        dashed = sorted(o for o in olds if "-" in o and o != new)
        plain = olds - set(dashed)
        for old in dashed:
            if any(old in t.alone and (plain & t.alone) for t in texts):
                turned[old] = new + "_lem"
        for t in texts:
            here = {o for o in plain & t.alone if not any(t.path.startswith(p) and o in m for p, m in HERE.items())}
            if len(here) > 1 and not here & t.aliases:
                print(f"respell: falls together: {sorted(here)} in {t.path}")
    return {o: n for o, n in turned.items() if o != n}


def functions():
    """The functions of the sources, as the toolchain spelled them in its labels."""
    found = set()
    for p in files(".rt"):
        found.update(n.replace("_", "-") for n in re.findall(r"\bfn (\w+)", read(p)))
    return found


def turn(code, names, kept=(), steps=()):
    def one(m):
        # the toolchain's own names: of goals, and of the calls of functions, behind a dot
        if code[m.start() - 1 : m.start()] == ".":
            if m[0] in steps or re.search(r"\b(?:tie|goal)\.$", code[max(0, m.start() - 6) : m.start()]):
                return m[0]
        return names[m[0]] if m[0] in names and m[0] not in kept else m[0]

    return TOKEN.sub(one, code)


def antt(t, names, steps):
    mine = {**names}
    for place, more in HERE.items():
        mine.update(more if t.path.startswith(place) else {})
    for alias in t.aliases:
        others = {names.get(n, n) for n in t.alone if n != alias}
        mine[alias] = respelled(alias) + ("_fn" if respelled(alias) in others else "")
    mine = {o: n for o, n in mine.items() if o != n}
    return turn(read(t.path), mine, t.lent, steps if t.labels else ())


def rust(text, names):
    """Only camel case and dashes are turned, and a Rust name has neither; strings stay."""
    lent = set()
    for where, group, alias in USE.findall(text):
        if not is_own(where):
            lent.update(items(group))
    parts = re.split(r'("(?:[^"\\\n]|\\.)*")', text)
    return "".join(p if i % 2 else turn(p, names, lent) for i, p in enumerate(parts))


def prose(text, names):
    return re.sub(r"`[^`\n]+`", lambda m: turn(m[0].replace("`", " "), names).replace(" ", "`", 1)[:-1] + "`", text)


def main(check):
    """Everything is read before anything is written."""
    texts = [Text(p) for p in files(".antt")]
    names, steps = table(texts), functions()
    changed = {}
    for t in texts:
        changed[t.path] = antt(t, names, steps)
    for p in files(".rt"):
        changed[p] = rust(read(p), names)
    for p in files(".edit"):
        changed[p] = turn(read(p), names)
    for p in files(".md"):
        changed[p] = prose(read(p), names)
    n = 0
    for p, new in changed.items():
        with open(p, encoding="utf-8") as f:
            old = f.read()
        if new != old:
            n += 1
            if not check:
                with open(p, "w", encoding="utf-8") as f:
                    f.write(new)
    print(f"respell: {len(names)} names, {n} files")
    for old in sorted(o for o in names if names[o].endswith("_lem") and not o.endswith("lem")):
        print(f"respell: {old} is {names[old]}")


if __name__ == "__main__":
    main("--check" in sys.argv[1:])
