#!/usr/bin/env python3
"""The places in src/ that the points of docs/DESIGN-PASS.md ask about, listed and counted.

Usage: tools/places.py [COMMIT]   (no commit: the files as they stand)

Point 8 counts proofs. Exports for C (desk_c) are left out, but for points 1 and 3. A line is a place to look at, not a fault.
"""
import collections
import glob
import re
import subprocess
import sys

COMMIT = sys.argv[1] if len(sys.argv) > 1 else None


def texts(pattern):
    """Each file that the pattern matches, with its text."""
    if COMMIT:
        names = subprocess.run(
            ["git", "ls-tree", "-r", "--name-only", COMMIT], capture_output=True, text=True, check=True
        ).stdout.split("\n")
        for name in names:
            if re.fullmatch(pattern, name):
                yield name, subprocess.run(
                    ["git", "show", f"{COMMIT}:{name}"], capture_output=True, text=True, check=True
                ).stdout
    else:
        for name in sorted(glob.glob("crates/**/*", recursive=True)):
            if re.fullmatch(pattern, name):
                yield name, open(name, encoding="utf-8").read()


SRC = {n: t for n, t in texts(r"crates/[^/]+/src/.*\.rt")}


def crate(name):
    return name.split("/")[1]


def show(title, places):
    print(f"  {title}: {len(places)}")
    for place in places:
        print("     ", place)


def lines(regex, but=()):
    return [
        f"{name[7:]}:{number} {line.strip()}"
        for name, text in SRC.items()
        if crate(name) not in but
        for number, line in enumerate(text.split("\n"), 1)
        if re.search(regex, line)
    ]


def functions():
    """Each function that no trait names: its file, name, parameters' names and the facts that it requires."""
    for name, text in SRC.items():
        rows = text.split("\n")
        of_trait = False
        for at, row in enumerate(rows):
            of_trait = bool(re.match(r"impl\b.* for |(pub )?trait ", row)) or of_trait and row != "}"
            if of_trait:
                continue
            found = re.match(r" *(?:pub )?(?:extern \"C\" )?fn (\w+)", row)
            if not found:
                continue
            head = []
            for later in rows[at:]:
                head.append(later.strip())
                if later.rstrip().endswith("{"):
                    break
            whole = " ".join(head)
            signature = re.split(r" (?:requires|ensures) ", whole)[0]
            parameters = re.findall(r"(\w+): ", signature[signature.find("(") :])
            facts = []
            for clause in re.split(r" (?=requires |ensures )", whole):
                if clause.startswith("requires ") and "}" in clause:
                    body = clause[clause.index("{") + 1 : clause.rindex("}")].strip()
                    facts += [re.sub(r"^\((.*)\)$", r"\1", part.strip()) for part in body.split(" × ")]
            yield name, found.group(1), parameters, facts


FUNCTIONS = list(functions())

print("1 enums, refusals and flags")
show("own enums", lines(r"^ *(pub )?enum "))
show("refusals as plain numbers", lines(r"\bnumber: [1-9]|\breturn (1|2|1[0-9]|2[0-3]);|refused_back\(1"))
show("a standing, a verdict or a place taken apart by hand", lines(r"if let Standing::Refused|let .*(Accepted|Nothing).* = .* else"))

print("2 twins: names that several functions or types have")
places = collections.defaultdict(list)
for name, function, _, _ in FUNCTIONS:
    if crate(name) != "desk_c":
        short = re.sub(r"^desk_|^wide_|(?<=desk_)wide_|_wide$|_rows$|^rows_|(?<=desk_)rows_", "", function)
        short = re.sub(r"^(wide_|rows_|wide_rows_)", "", short)
        places[short].append(f"{name[7:-3]}::{function}".replace("/src/lib", "").replace("/src/", "/"))
show("functions", [f"{len(w)} {' '.join(w)}" for k, w in sorted(places.items()) if len(w) > 1])
kinds = collections.defaultdict(list)
for name, text in SRC.items():
    for kind in re.findall(r"^(?:pub )?struct (\w+)", text, re.M):
        kinds[re.sub("^Wide", "", kind)].append(f"{crate(name)}::{kind}")
show("types", [" ".join(w) for k, w in sorted(kinds.items()) if len(w) > 1])

print("3 loops that count by hand")
show("while and loop", lines(r"^ *(while|loop)\b"))
show("for, for comparison", lines(r"^ *for "))

print("4 equality, order, copying, conversion and printing by hand")
WORDS = (
    r"^\s*(pub )?fn (finding_of|found|standing_of|refused\w*|narrow\w*|recovered_by|reading_by|same_\w+|put_(bytes|all|each|eights?|decimal|filled|left|record|span)"
    r"|copy_\w+|lay_given|plus|as_read|wide|misasked|\w+_of_refusal|zero\w*)\b"
)
show("functions whose name says so", lines(WORDS, ("desk_c",)))
show("impls of From, TryFrom and Display, for comparison", lines(r"^impl.* (From|TryFrom|Display)\b"))

print("5 facts and parameters that travel together")
facts = collections.defaultdict(list)
for name, function, _, required in FUNCTIONS:
    for fact in required:
        facts[fact].append(f"{crate(name)}::{function}")
show("facts that three or more functions require", [f"{len(w)} {k}: {' '.join(w)}" for k, w in sorted(facts.items()) if len(w) > 2])
GROUPS = (
    ("columns", "k", "rows"),
    ("start", "end", "stamp"),
    ("table", "halves"),
    ("r", "rows", "singles"),
    ("journal", "used"),
    ("list", "bad"),
    ("low", "high"),
    ("columns", "guesses"),
)
together = {g: [f"{crate(n)}::{f}" for n, f, p, _ in FUNCTIONS if crate(n) != "desk_c" and set(g) <= set(p)] for g in GROUPS}
show("parameters", [f"{len(w)} {' '.join(g)}: {' '.join(w)}" for g, w in together.items() if len(w) > 2])

print("6 buffers with a length beside, parallel arrays, searches by hand")
show("a buffer and how much of it is in use", [f"{crate(n)}::{f}" for n, f, p, _ in FUNCTIONS if crate(n) != "desk_c" and ({"journal", "used"} <= set(p) or {"list", "bad"} <= set(p) or {"out", "at"} <= set(p))])
show("buffers of a fixed size", lines(r"\[(0|NONE|0u\d+|0i\d+|0\.0)(u\d+|i\d+)?; ", ("desk_c",)))

print("7 switches on which step to run")
show("parameters that choose", [f"{crate(n)}::{f}" for n, f, p, _ in FUNCTIONS if {"halves", "singles"} & set(p)])
show("matches on a kind", lines(r"\bmatch (fault|limit|verdict)\b"))

print("8 proofs")
answers = {n: t for n, t in texts(r"crates/[^/]+/proofs/.*Answers\.antt") if n.count("/") > 3}
print("  folders with answers:", len(answers))
print("  answers:", sum(len(re.findall(r"^pub \S+ : goal\.", t, re.M)) for t in answers.values()))
print("  lines of proofs:", sum(t.count("\n") for _, t in texts(r"crates/[^/]+/proofs/.*\.antt")))
