#!/usr/bin/env python3
"""Respells this repository's own definitions, lemmas and variables of specs/ and proofs/: words joined by _ in place of -, and types in upper camel case.

usage: tools/spell.py [--check]        at the top, once, right after the kit's port.py

Names that Rattle makes (goals, steps, what Goals, Given and declared modules hold) and names of libraries stay as they are.
Names in backticks of README.md and docs/ are respelled alike. It also writes a bound's own record as .own in clauses: `Lawful G.Grade` is `Lawful G.Grade.own`.
--check writes nothing and lists names that fall together. A second run writes nothing more.
"""

import glob
import re
import sys

TOKEN = re.compile(r"[^\s(){}.;,@\"«»]+")
LIBRARY = re.compile(r"^(Rattle\.(std|core|std_alloc|std_collections)\b|mathlib\b|borrow\b|lib\b|native\b|Prim\b|logic\b)")
MADE = re.compile(r"\.(Goals|Given|Invariants|Answers|Choices)(\.|$)")
USE = re.compile(r"^( *(?:pub )?use +)([^\s{;]+?)(?:\.\{([^}]*)\})?((?: as \S+)?;?)\s*$", re.M)
GHOST_USE = re.compile(r"^( *ghost use +)([^\s{;]+?)(?:\.\{([^}]*)\})?((?: as \S+)?;)\s*$", re.M)
DECLARED = re.compile(r"(?m)^ *(?:pub +)?(?:(?:abbrev|unfoldable) +)?(?:pub +)?([^\s(){}.;,@\"«»:]+)(?: \{[^{}\n]*\})* :(?= |$)")
DATA = re.compile(r"(?m)^ *(?:pub +)?(?:data|record) +([^\s(){}.;,@\"«»:]+)")
GOAL = re.compile(r"(?m)^ *(?:abbrev +)?pub +(\S+) : goal\.(\S+)")
# what Rattle makes and our files name behind a dot
OF_RATTLE = re.compile(r"^(in|if|then|else|loop|index|returns|invariant|decreases|overflow|nonzero|ensures|is|view|from|match|call|elem|range|choice)-|-requires$|-\d+$|^(the|no)-row$")


def dashed(t):
    return "-" in t and re.search(r"\w", t) and not re.fullmatch(r"-+\d*|\d+(-\d+)*", t) and "◌" not in t


def new(t):
    if t[0].isupper() and re.fullmatch(r"[A-Z][A-Za-z0-9]*(-[A-Za-z0-9]+)+'*", t):
        first, *rest = t.split("-")
        return first + "".join(w[0].upper() + w[1:] for w in rest)
    return t.replace("-", "_")


def antt_files():
    return sorted(f for f in glob.glob("crates/*/specs/**/*.antt", recursive=True) + glob.glob("crates/*/proofs/**/*.antt", recursive=True))


def rt_files():
    return sorted(glob.glob("crates/*/src/**/*.rt", recursive=True))


def items(text):
    return [i.strip() for i in text.split(",") if i.strip()]


def own_names():
    own = set()
    for f in antt_files():
        s = open(f, encoding="utf-8").read()
        goals = {a for a, b in GOAL.findall(s)}
        for t in DECLARED.findall(s) + DATA.findall(s):
            if dashed(t) and t not in goals:
                own.add(t)
    return own


def library_names(s, use):
    """The names that a file imports from a library, or of what Rattle makes."""
    lib = set()
    for m in use.finditer(s):
        if m[3] is not None and (LIBRARY.match(m[2]) or MADE.search(m[2] + ".")):
            for i in items(m[3]):
                lib.add(i.split(" as ")[0].strip())
                lib.add(i.split(" as ")[-1].strip())
    return lib


def turn_antt(f, s, own):
    lib = library_names(s, USE)
    goals = {a for a, b in GOAL.findall(s)}
    out, at = [], 0
    for line in s.splitlines(keepends=True):
        code, dashes, comment = line, "", ""
        m = re.search(r"(?<![^\s(){}.;,@\"«»])--(?!\S*>)", line)
        if m:
            code, comment = line[: m.start()], line[m.start():]
        u = USE.match(code)
        library_line = u and (LIBRARY.match(u[2]) or MADE.search(u[2] + "."))

        def one(m):
            t = m[0]
            if not dashed(t) or t in lib or t in goals or library_line:
                return t
            before = code[: m.start()]
            if before.endswith("."):
                head = re.search(r"([^\s(){};,@\"«»]*)\.$", before)[1]
                if head in ("goal",) or OF_RATTLE.search(t):
                    return t
                if t in own:
                    return new(t)
                return t
            return new(t)

        code = TOKEN.sub(one, code)
        comment = re.sub(r"`[^`\n]*`", lambda q: TOKEN.sub(lambda m: new(m[0]) if m[0] in own else m[0], q[0]), comment)
        out.append(code + comment)
    return "".join(out)


def turn_rt(f, s, own):
    out = []
    for line in s.splitlines(keepends=True):
        m = re.match(r"\s*//", line)
        if m:
            out.append(line)
            continue
        u = GHOST_USE.match(line)
        if u and LIBRARY.match(u[2]):
            out.append(line)
            continue
        line = TOKEN.sub(lambda m: new(m[0]) if m[0] in own else m[0], line)
        if not u:
            line = re.sub(r"\b([A-Z])\.Grade(?![\w.])", r"\1.Grade.own", line)
        out.append(line)
    return "".join(out)


def main():
    check = "--check" in sys.argv
    own = own_names()
    by_new = {}
    for t in own:
        by_new.setdefault(new(t), set()).add(t)
    for n, ts in sorted(by_new.items()):
        if len(ts) > 1:
            print("together:", n, ts)
    texts = []
    for f in sorted(glob.glob("docs/*.md")) + ["README.md"]:
        s = open(f, encoding="utf-8").read()
        texts.append((f, s, re.sub(r"`[^`\n]*`", lambda q: TOKEN.sub(lambda m: new(m[0]) if m[0] in own else m[0], q[0].strip("`")).join("``"), s)))
    for f in antt_files() + rt_files():
        s = open(f, encoding="utf-8").read()
        t = turn_antt(f, s, own) if f.endswith(".antt") else turn_rt(f, s, own)
        before = set(TOKEN.findall(s))
        news = {new(x) for x in before if dashed(x) and new(x) != x}
        turned = set(TOKEN.findall(t)) - before
        meet = {x for x in news & before if any(new(y) == x and y not in set(TOKEN.findall(t)) for y in before if dashed(y))}
        for x in sorted(meet):
            print("meets:", f, x)
        texts.append((f, s, t))
    if check:
        print(len(own), "own names")
        for t in sorted(own):
            print("own:", t, "->", new(t))
        return
    n = 0
    for f, s, t in texts:
        if s != t:
            n += 1
            open(f, "w", encoding="utf-8").write(t)
    print(n, "files written")


main()
