#!/usr/bin/env python3
# tools/places.py [CRATES]: counts the places of docs/DESIGN-PASS.md in CRATES/*/src/*.rt (crates, where no folder is named; exports_c is left out, as
# it is generated). To count an older commit: git worktree add FOLDER COMMIT, and name FOLDER/crates.
# With -v before the folder each place is listed.
import collections, glob, os, re, sys

verbose = "-v" in sys.argv
named = [a for a in sys.argv[1:] if a != "-v"]
root = named[0] if named else "crates"


def bare(text):
    # without comments and strings, line for line
    return "\n".join(re.sub(r'"(\\.|[^"\\])*"', '""', re.sub(r"//.*", "", line)) for line in text.split("\n"))


files = []
for path in sorted(glob.glob(os.path.join(root, "*", "src", "*.rt"))):
    crate = os.path.relpath(path, root).split(os.sep)[0]
    if crate != "exports_c":
        files.append((crate, os.path.relpath(path, root), bare(open(path).read())))
programs = ("worked", "replay")
rim = ("exports",)


def show(title, places):
    inner = [p for p in places if p[0] not in programs]
    print(f"{title}: {len(places)} ({len(inner)} in libraries, {len(places) - len(inner)} in programs)")
    if verbose:
        for crate, where, what in places:
            print(f"    {where}: {what}")


def lines(pattern, leave=()):
    found = []
    for crate, path, text in files:
        if crate in leave:
            continue
        for i, line in enumerate(text.split("\n"), 1):
            for m in re.finditer(pattern, line):
                found.append((crate, f"{path}:{i}", m.group(0).strip()))
    return found


# 1. enums of two cases, at most one field each and one at least: the shape of Option or Result
shapes = []
for crate, path, text in files:
    for m in re.finditer(r"\benum (\w+)[^{]*\{(.*?)\n\}", text, re.S):
        cases = [c for c in re.split(r",\s*\n", m.group(2).strip()) if c.strip()]
        if len(cases) == 2 and all("{" not in c for c in cases) and any("(" in c for c in cases):
            shapes.append((crate, path, "enum " + m.group(1)))
show("1 own enums of the shape of Option or Result", shapes)
show("1 a refusal handed on by its number (`if v != 0 { return .. v`)", [
    (c, p, m.group(1)) for c, p, t in files if c not in rim
    for m in re.finditer(r"if (\w+) != 0 \{\s*return [^;]*\b\1\b", t)])
show("1 a question by its number", [
    (c, p, f"{m.group(1)} {w}") for c, p, t in files if c not in rim
    for m in re.finditer(r"fn (\w+)[^{]*?\{(.*?)\n\}", t, re.S)
    if re.search(r"verdict|door|questions|_code|_answer|outcome|rows_asked|asked", m.group(0))
    for w in re.findall(r"return \d+;|refused\(\d+\)|code: [1-9]\d*|_asked\(\d|delays_ok\(\d|question == \d", m.group(2))])
# 2, 3. what the language or its library has
show("2 `both`, `either` in place of `&&`, `||`", lines(r"\b(?:door::)?(?:both|either)\("))
show("2 own functions that the library has (`words::`, `flag`, `one`)", lines(r"\bwords::\w+\(|\bflag\(|\bone\("))
show("3 `while` loops", lines(r"\bwhile\b"))
show("3 of them with an index that is counted by hand", [
    (c, p, m.group(0).split("\n")[0].strip()) for c, p, t in files
    for m in re.finditer(r"( *)while [^\n]*\{\n(?:\1 [^\n]*\n|\n)*?\1    (\w+) \+= 1;\n(?:\1 [^\n]*\n|\n)*?\1\}", t)
    if re.search(r"\b" + m.group(2) + r"\b", m.group(0).split("\n")[0])])
show("3 `for` loops and chains", lines(r"\bfor \w+ in |\.all\(|\.any\(|\.find\(|\.position\(|\.map\(|\.fold\(|\.fill\("))
# 4
show("4 conversions by hand (a bool to a number, a field by its own name)", lines(r"\bif \w+ \{ 1 \} else \{ 0 \}|\b(\w+): \1,"))
# 5
clauses = collections.Counter()
pairs = collections.Counter()
functions = 0
for crate, path, text in files:
    if crate in programs + rim:
        continue
    for m in re.finditer(r"\bfn (\w+)(?:<[^>]*>)?\(([^{]*?)\)(?:\s*->[^\n{]*)?((?:\n {4,8}(?:requires|ensures)[^\n]*(?:\n {8,}[^\n]*)*)*)", text):
        functions += 1
        names = [re.sub(r"\s+", " ", p).strip() for p in m.group(2).split(",") if p.strip()]
        pairs.update(zip(names, names[1:]))
        for r in re.findall(r"requires(?: \w+)? \{ ([^\n]*(?:\n {8,}[^\n]*)*?) \}", m.group(3)):
            clauses[re.sub(r"\s+", " ", r)] += 1
often = [(r, n) for r, n in clauses.most_common() if n >= 3]
print(f"5 facts that stand in `requires` of three or more functions: {len(often)}, {sum(n for _, n in often)} clauses (of {functions} functions)")
together = [(p, n) for p, n in pairs.most_common() if n >= 8]
print(f"5 two parameters side by side in eight or more functions: {len(together)} pairs")
if verbose:
    for r, n in often:
        print(f"    {n} {r}")
    for p, n in together:
        print(f"    {n} {p[0]}, {p[1]}")
# 7
show("7 a switch on which step to run", lines(r"\bmatch k \{|\bquestion == \d|\brust: bool\b"))
# 8
count = lambda pattern: len(glob.glob(os.path.join(root, "*", "proofs", "**", pattern), recursive=True))
length = lambda ps: sum(len(open(p).read().split("\n")) - 1 for p in ps)
everything = [p for p in glob.glob(os.path.join(root, "*", "proofs", "**", "*.antt"), recursive=True)]
own = [p for p in everything if os.path.basename(p) in ("Answers.antt", "Invariants.antt")]
print(f"8 files of function proofs: {count('Invariants.antt')} Invariants, {count('Answers.antt')} Answers, {length(own)} lines; "
      f"lemma files {length(everything) - length(own)} lines")
