#!/usr/bin/env python3
"""Brings the repository's own names to the spelling of today's Rattle, once, after the kit's port.py.

usage: tools/respell.py ROOT

Definitions, lemmas, fields and constructors of antt are in snake case, and a dash stays only where a name would fall together with another one.
Types and modules, C names, strings, and names of Rust code stay. Where port.py split a clause into clauses fact_1, fact_2, .., they get labels from
what they say, and a clause of several facts becomes several. It turns crates/ (.antt, .rt, .edit) and, between backticks, the pages. It prints each name that it turned: old, a tab, new.

An edit's text is turned as far as the files' text was; what then does not fit is mended by hand.
"""
import collections
import os
import re
import sys

WORD = re.compile(r"(?<![\w'₀-₉-])[A-Za-z_][\w'₀-₉-]*")
RESERVED = {"open": "is_open", "ground": "on_ground", "record": "a_record", "data": "the_data", "ruleset": "a_ruleset", "assumption": "assumed"}


def snake(w):
    w = re.sub(r"([a-z0-9'])([A-Z])", r"\1_\2", w)
    return re.sub(r"([A-Z]+)([A-Z][a-z])", r"\1_\2", w).lower()


def files(root, *ends):
    for folder, dirs, names in os.walk(os.path.join(root, "crates")):
        dirs[:] = sorted(d for d in dirs if d not in ("out", ".git"))
        for n in sorted(names):
            if n.endswith(ends):
                yield os.path.join(folder, n)


def read(p):
    with open(p, encoding="utf-8") as f:
        return f.read()


def table(root):
    """The names to turn: old, new."""
    lib, decl, tok = set(), set(), collections.Counter()
    with open(os.path.join(root, "crates.txt")) as f:
        own = {l.split(":")[0].split()[0] for l in f if ":" in l and not l.startswith("#")}
    for p in files(root, ".antt"):
        t = read(p)
        for m in re.finditer(r"^(?:pub )?(?:ghost )?use ([\w+'-]+(?:\.[\w+'-]+)*)(?:\.\{([^}]*)\})?", t, re.M):
            ps = m.group(1).split(".")
            if not (ps[0] == "Rattle" and len(ps) > 1 and ps[1] in own):
                lib.update(WORD.findall(m.group(2) or ps[-1]))
        code = re.sub(r"--.*", "", t)
        tok.update(WORD.findall(code))
        for m in re.finditer(r"^ *(?:(?:pub|abbrev|unfoldable|mutual|record|data|private|ruleset) )*([A-Za-z_][\w'₀-₉-]*)(?= (?::|\(|\{))", code, re.M):
            if "/specs/" in p or "/" not in p.split("/proofs/")[1]:
                decl.add(m.group(1))
    camel = {w for w in tok if re.match(r"[a-z_]", w) and re.search(r"[A-Z]", w)} - lib
    dash = {w for w in decl if "-" in w and re.match(r"[a-z_]", w)} - lib
    # names that port.py made: a library's word was spelled alike
    turned = {w: snake(w).replace("-", "_") for w in camel | dash}
    plain = {w for w in tok if w not in turned} | lib
    count = collections.Counter(turned.values())
    for w in sorted(turned):
        if "-" in w and (count[turned[w]] > 1 or turned[w] in plain):
            turned[w] = "-".join(snake(part) for part in w.split("-"))
    count = collections.Counter(turned.values())
    return {w: w if count[turned[w]] > 1 and "-" in w else turned[w] for w in turned}


def words(text, turned):
    return WORD.sub(lambda m: turned.get(m.group(0), m.group(0)), text)


def split_strings(line):
    return re.split(r'("(?:[^"\\]|\\.)*")', line)


def outside_strings(line, turned):
    return "".join(part if part.startswith('"') else words(part, turned) for part in split_strings(line))


def tight(line):
    """An edit's text as port.py writes it in the files: names that it turned there, projections written tight."""
    line = re.sub(r"\bgetD\b", "get_or", line).replace("_≡_", "◌≡◌").replace("Rattle·", "Rattle.").replace("«", "").replace("»", "").replace("′", "'")
    line = WORD.sub(lambda m: snake(m.group(0)) if re.match(r"[a-z]", m.group(0)) else m.group(0), line)
    line = re.sub(r"(?<=[\w')₀-₉]) \.(?=[a-z0-9])", ".", line)
    return re.sub(r"(?<![\w)])\(([\w'₀-₉]+(?:\.[\w-]+)+)\)", r"\1", line)


def page(text, turned):
    """Between backticks alone."""
    return re.sub(r"`[^`\n]+`", lambda m: words(m.group(0), turned), text)


def label(text):
    t = text.strip()
    while t.startswith("(") and matching(t) == len(t) - 1:
        t = t[1:-1].strip()
    if re.match(r"\(?\((\w+ ?)+ : ", t) or "→" in t.split("≡")[0].split("≤")[0].split("<")[0]:
        m = re.match(r"result\.?\w* ≡ (true|false) →", t)
        return "if_" + m.group(1) if m else "meaning"
    m = re.match(r"result(\.(\w+))? (≡|<|≤)", t)
    if m:
        return (m.group(2) or ("value" if m.group(3) == "≡" else "bound"))
    m = re.match(r"(\w+)\.new ≡", t)
    if m:
        return m.group(1) + "_new"
    m = re.match(r"length (\w+)\.\w+ ", t)
    if m:
        return m.group(1) + "_length"
    m = re.match(r"([A-Z]\w*)", t)
    if m:
        return snake(m.group(1))
    m = re.match(r"get_or (\w+)\.\w+ ", t)
    if m:
        return m.group(1) + "_word"
    m = re.match(r"\d+ < (?:length )?(\w+)", t)
    if m:
        return m.group(1) + "_above"
    if "⊎" in t:
        return re.match(r"\(*([a-z]\w*)", t).group(1) + "_bound"
    m = re.match(r"(?:\d+ [*<≤] )?([a-z][\w.]*)( [+*/] .*?)? (<|≤|≡) ", t)
    if m:
        last = [w for w in m.group(1).split(".") if w not in ("now", "old", "new")][-1]
        return last + ("_is" if m.group(3) == "≡" else "_bound")
    m = re.match(r"([a-z]\w*)", t)
    return snake(m.group(1)) if m else "fact"


def matching(t):
    depth = 0
    for i, ch in enumerate(t):
        depth += ch == "("
        depth -= ch == ")"
        if depth == 0:
            return i
    return -1


def facts(t):
    """The facts of a clause: of A × B each of both, unless they stand under a quantifier."""
    t = t.strip()
    while t.startswith("(") and matching(t) == len(t) - 1:
        t = t[1:-1].strip()
    depth, cut = 0, None
    for i, ch in enumerate(t):
        depth += ch in "({["
        depth -= ch in ")}]"
        if depth == 0 and (ch == "→" or ch == "λ" or ch == "⊎"):
            return [t]
        if depth == 0 and ch == "×" and cut is None:
            cut = i
    return [t] if cut is None else facts(t[:cut]) + facts(t[cut + 1:])


def split(text):
    """One fact a clause: a clause of several, with no label or with the last one, becomes several, with labels fact_1, fact_2, .."""
    out, last, n = [], 0, {}
    for m in re.finditer(r"^( *)(requires|ensures)( fact_\d+)? \{|^ *(?:pub )?(?:unsafe )?(?:extern \"C\" )?(?:const )?fn ", text, re.M):
        if not m.group(2):
            n = {}
            continue
        depth, i = 1, m.end()
        while depth:
            depth += text[i] == "{"
            depth -= text[i] == "}"
            i += 1
        n[m.group(2)] = n.get(m.group(2), 0) + 1
        fs = facts(text[m.end():i - 1])
        if len(fs) == 1:
            continue
        lines = []
        for f in fs:
            lines.append(f"{m.group(1)}{m.group(2)} fact_{n[m.group(2)]} {{ {f} }}")
            n[m.group(2)] += 1
        out.append(text[last:m.start()] + "\n".join(lines))
        last = i
    return "".join(out) + text[last:]


def labels(text):
    """Labels for the clauses fact_1, fact_2, .. of each function."""
    out, last, used = [], 0, {}
    for m in re.finditer(r"^( *)(requires|ensures)( fact_\d+)? \{|^ *(?:pub )?(?:unsafe )?(?:extern \"C\" )?(?:const )?fn ", text, re.M):
        if not m.group(2):
            used = {}
            continue
        if not m.group(3):
            continue
        depth, i = 1, m.end()
        while depth:
            depth += text[i] == "{"
            depth -= text[i] == "}"
            i += 1
        name = label(text[m.end():i - 1])
        name = RESERVED.get(name, name)
        kind = used.setdefault(m.group(2), collections.Counter())
        kind[name] += 1
        if kind[name] > 1:
            name += f"_{kind[name]}"
        out.append(text[last:m.start(3)] + " " + name)
        last = m.end(3)
    return "".join(out) + text[last:]


def main(root):
    turned = table(root)
    for p in files(root, ".antt", ".rt"):
        old = read(p)
        new = "\n".join(outside_strings(l, turned) for l in old.split("\n"))
        if p.endswith(".rt"):
            new = labels(split(new))
        if new != old:
            with open(p, "w", encoding="utf-8") as f:
                f.write(new)
    for p in files(root, ".edit"):
        old = read(p)
        new = "\n".join(l if l.startswith("file:") else tight(outside_strings(l, turned)) for l in old.split("\n"))
        if new != old:
            with open(p, "w", encoding="utf-8") as f:
                f.write(new)
    pages = [os.path.join(root, "README.md")]
    for folder, _, names in os.walk(os.path.join(root, "docs")):
        pages += [os.path.join(folder, n) for n in names if n.endswith(".md")]
    for p in pages:
        old = read(p)
        new = page(old, turned)
        if new != old:
            with open(p, "w", encoding="utf-8") as f:
                f.write(new)
    for w in sorted(turned):
        if turned[w] != w:
            print(f"{w}\t{turned[w]}")


main(sys.argv[1])
