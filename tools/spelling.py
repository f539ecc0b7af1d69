#!/usr/bin/env python3
"""Brings the repository's own names in specs/ and proofs/ to today's spelling, once, after port.py.

usage: python3 tools/spelling.py [--list]        at the top of the repository; --list shows the names and writes nothing

A definition or a lemma is in snake case; a dash stands only between two names of definitions. A field of a record is in
snake case. A type keeps its capitals. Functions of src/, exported C names, strings, inputs and outputs are left alone.
Where a new name would fall together with another word of the files, the old one's first dash stays, or `_lem` is added.
"""
import collections
import glob
import os
import re
import sys

WORD = re.compile(r"[^\s(){}.;,@\"«»\[\]`]+")
DECLARED = re.compile(
    r"^(?P<gap> *)(?:private +)?(?P<mark>abbrev +|unfoldable +|opaque +)?(?P<pub>pub +)?(?P<name>[^\s(){}.;,@\"«»:]+)(?P<params>(?: *[({][^\n]*[)}])?) : ?(?P<type>.*)$"
)
TYPE = re.compile(r"^(?:pub +)?(?:record|data) +(\S+)")
USE = re.compile(r"use +([\w.'-]+)\.\{([^}]*)\}")
# the words by which std's lemmas name an operator
OPERATORS = set("append cons add mul sub div mod pow suc zero eq le lt xor and or not".split())
GENERATED = re.compile(r"tie\.(?:Need|invariant|decreases)|Statement|statement M")


def antt():
    return sorted(glob.glob("crates/*/specs/**/*.antt", recursive=True) + glob.glob("crates/*/proofs/**/*.antt", recursive=True))


def snake(word):
    return re.sub(r"(?<=[a-z0-9])([A-Z])", lambda m: "_" + m.group(1).lower(), word)


def strip_comments(text):
    return re.sub(r"(?m)(^|(?<=\s))--.*$", "", text)


class Names:
    def __init__(self, files):
        self.words, self.imported = set(), set()
        self.definitions, self.lemmas, self.fields = set(), set(), set()
        for path in files:
            with open(path, encoding="utf-8") as f:
                text = strip_comments(f.read())
            self.words |= set(WORD.findall(text))
            for module, names in USE.findall(text):
                if not module.startswith("Rattle.") or module.startswith("Rattle.std"):
                    self.imported |= {n.split(" as ")[0].strip() for n in names.split(",")}
            self.read(text, "/proofs/" in path)

    def read(self, text, proofs):
        lines = text.split("\n")
        inside_record, gap = False, 0
        for i, line in enumerate(lines):
            if not line.strip():
                continue
            depth = len(line) - len(line.lstrip())
            if TYPE.match(line.lstrip()):
                inside_record, gap = line.lstrip().split()[0] in ("record", "pub"), depth
                continue
            if inside_record and depth <= gap:
                inside_record = False
            m = DECLARED.match(line)
            if not m:
                continue
            name = m.group("name")
            whole = m.group("type")
            for later in lines[i + 1 :]:
                if not later.strip() or len(later) - len(later.lstrip()) <= depth:
                    break
                whole += " " + later.strip()
            if inside_record:
                if m.group("pub"):
                    self.fields.add(name)
                continue
            if depth > 2 or name in ("use", "module", "mod") or GENERATED.search(whole):
                continue
            if re.search(r"Type \d$", whole.strip()):
                continue
            (self.definitions if m.group("mark") else self.lemmas).add(name)


def spelled(name, units):
    """The parts between dashes: two are joined by a dash where each side is a name of its own, and otherwise by `_`."""
    parts = [snake(p) if not p[:1].isupper() else p for p in name.split("-")]
    whole, at = [], 0
    while at < len(parts):
        for end in range(len(parts), at, -1):
            if "_".join(parts[at:end]) in units or end == at + 1:
                whole.append(("_".join(parts[at:end]), "_".join(parts[at:end]) in units))
                at = end
                break
    out, known = whole[0]
    for part, is_name in whole[1:]:
        out += ("-" if known and is_name else "_") + part
        known = is_name
    return out


def bare(text):
    """The words of a file that are neither behind a dot nor the path of a `use`."""
    text = re.sub(r"use +[\w.'-]+(?=\.\{| as |;|\n|$)", "", text)
    return {m.group(0) for m in WORD.finditer(text) if not m.start() or text[m.start() - 1] != "."}


def hides(files, old, new):
    """Whether a file that has the old name has the new one already, for something else."""
    return any(old in words and new in words for words in files)


def table(names):
    old = {n for n in names.definitions | names.lemmas | names.fields if re.search(r"[a-z0-9][A-Z]|-|′", n)}
    old = {n for n in old if not re.match(r"[A-Z]", n) and not re.search(r"[◌≡∙×≢⊎]", n)}
    units = {snake(n) for n in names.definitions if "-" not in n} | {n for n in names.imported if "-" not in n} | OPERATORS
    files = []
    for path in antt():
        with open(path, encoding="utf-8") as f:
            files.append(bare(strip_comments(f.read())))
    for path in sorted(glob.glob("crates/*/src/**/*.rt", recursive=True)):
        with open(path, encoding="utf-8") as f:
            text = f.read()
        for item in re.split(r"(?m)^(?=(?:pub )?fn |unsafe |#\[)", text):
            head = re.match(r"(?:#\[[^\n]*\]\s*)?(?:pub )?(?:unsafe )?(?:extern \"C\" )?fn \w+\(", item)
            if head:
                clauses = item.split("\n{")[0]
                files.append(bare(clauses[head.end() :]))
    turned = {}
    for n in sorted(old, key=lambda n: (n not in names.definitions, "-" in n, n)):
        new = spelled(n, units).replace("′", "'")
        if new == n:
            continue
        settled = names.lemmas - names.definitions - old
        if n in names.definitions and new in settled and new not in turned.values():
            print(f"falls together: {n} -> {new}, so the lemma {new} -> {new}_lem")
            turned[new] = new + "_lem"
        elif new in turned.values() or new in (names.definitions | names.lemmas) - old or new in names.imported or hides(files, n, new):
            why = [w for w in ("turned" if new in turned.values() else "", "declared" if new in (names.definitions | names.lemmas) - old else "", "imported" if new in names.imported else "", "hides" if hides(files, n, new) else "") if w]
            print(f"falls together: {n} -> {new}, so {new}_lem" + ("" if n not in names.definitions else ", a definition"), *why)
            new += "_lem"
        turned[n] = new
    return turned


def respell(text, turned, fields, quoted):
    # a module under a name of its own: what stands behind its dot is a name of that module
    modules = set(re.findall(r"use [\w.'-]+ as ([\w'-]+)", text))

    def one(m):
        word = m.group(0)
        if word not in turned:
            return word
        if m.start() and m.string[m.start() - 1] == "." and word not in fields:
            head = re.search(r"([\w'-]+)\.$", m.string[: m.start()])
            if not head or head.group(1) not in modules:
                return word
        return turned[word]

    if not quoted:
        return WORD.sub(one, text)
    parts = re.split(r'("(?:\\.|[^"\\\n])*")', text)
    for i in range(0, len(parts), 2):
        parts[i] = WORD.sub(one, parts[i])
    return "".join(parts)


def spans(text, turned, fields):
    """A page: code spans alone."""
    return re.sub(r"`[^`\n]+`", lambda m: respell(m.group(0), turned, fields | set(turned), False), text)


def run():
    names = Names(antt())
    turned = table(names)
    if "--list" in sys.argv:
        for a, b in sorted(turned.items()):
            print(a, b)
        return 0
    changed = 0
    pages = ["README.md"] + glob.glob("docs/**/*.md", recursive=True)
    outside = {a: b for a, b in turned.items() if re.search(r"[A-Z-]", a)}
    for path in antt() + sorted(glob.glob("crates/*/src/**/*.rt", recursive=True)) + pages:
        with open(path, encoding="utf-8") as f:
            text = f.read()
        if path.endswith(".md"):
            new = spans(text, outside, names.fields)
        elif path.endswith(".rt"):
            new = respell(text, outside, names.fields, True)
        else:
            new = respell(text, turned, names.fields, False)
        if new != text:
            changed += 1
            with open(path, "w", encoding="utf-8") as f:
                f.write(new)
    print(f"{len(turned)} names turned, in {changed} files")
    return changed


# a name that was turned may be a part of another one
while run():
    pass
