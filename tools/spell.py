#!/usr/bin/env python3
"""Spells this repository's own definitions and lemmas as today's Rattle does: words in snake case, types and modules in camel case.

usage: python3 tools/spell.py           after port.py, once, at the top of the checkout: rewrites crates/, and the names that docs/ and README.md quote
       python3 tools/spell.py --list    prints old name, new name and the files that define it, and rewrites nothing

Exported names, strings and must-fail edits are left alone, and functions of src/ but two that bear a lemma's name (docs/PORT.md). A lemma that would have its definition's name gets '_lem'.
A name that stands in the library with the same dash stays. Proof files of one function are renamed in what they cite and not in what they define.
"""
import collections
import glob
import os
import re
import sys

os.chdir(os.path.join(os.path.dirname(os.path.realpath(__file__)), ".."))

# Names of the logic's own libraries that a file here defines or imports under that spelling.
LIBRARY = {"and-false", "and-true", "or-true"}
# What port.py itself respells, as it says; here for the pages, which it leaves alone.
PORTED = """
    add-at add-kept add-total after-none all-append all-held all-in askedOf at-5 at-edge atMost below-more bit-test bitOf block-room block-written
    both-ways by-last byKind cells-rest closed-on digits-of drop-past each-row entries-fit entry-named entryAt entryOf enum-told fields-fit fill-spec
    finish-spec fits-more fits-not fresh-on front-length front-same given-back goes-further goes-on in-order in-reach in-window isZero keep-spec
    kept-on kindAt laid-out length-spec lent-length line-read line-refused line-same linesFrom listed-next load-goes load-spec lower-spec made-of
    map-first mark-spec marked-all movedTo mul-left mul-wide never-both next-small no-more no-other no-room none-above none-more none-rest none-yet
    not-back not-short not-yet nothing-left number-more numberAt numberIn numbers-more one-byte one-kept one-less one-more one-piece open-spec
    placedAt program-runs put-spec read-spec run-spec same-asked same-end same-length same-number same-read same-size same-spec same-step same-taken
    same-target shortOf small-spec soFar spotOf step-spec take-from-spec take-put take-spec to-the-end too-few too-much valueOf view-of withList
    write-spec written-or-not written-read written-stands zero-number zero-same
""".split()
# A character of a name.
CH = r"[^\s(){}\[\],;.λ:\"@`«»|&]"
DEFINES = re.compile(r"^(\s*)(?:(?:abbrev|pub|unfoldable)\s+)*(record|data)?\s*(" + CH + r"+)(?:\s+(?:\{[^}]*\}|\([^)]*\)))*\s*:\s")
ALIAS = re.compile(r"\bas (" + CH + r"+)")


def files():
    for p in sorted(glob.glob("crates/**/*", recursive=True)):
        if os.path.isfile(p) and "/out/" not in p and p.endswith((".antt", ".rt")):
            yield p


def of_one_function(p):
    return re.search(r"proofs/[^/]+/\w+\.antt$", p)


def snake(name):
    if name[0].isupper() or name[0] == "◌":
        return name
    s = re.sub(r"(?<=[a-z0-9])([A-Z])(?=[a-z]|$)", lambda m: "_" + m[1].lower(), name)
    s = re.sub(r"(?<=[a-z])32(?=[A-Z]|_)", "_32", s)
    return re.sub(r"(?<=[a-z0-9₀-₉'A-Z])-(?=[a-z0-9])", "_", s)


def names():
    """old name -> new name, over the whole repository; and old name -> where it is defined."""
    where = collections.defaultdict(set)
    for p in files():
        if of_one_function(p):
            continue
        if p.endswith(".antt"):
            for line in open(p, encoding="utf-8"):
                m = DEFINES.match(line)
                if m:
                    where[m[3]].add(p)
        for line in open(p, encoding="utf-8"):
            if re.match(r"(ghost )?use ", line):
                for a in ALIAS.findall(line):
                    where[a].add(p)
    new = {n: snake(n) for n in where if n not in LIBRARY}
    new = {n: s for n, s in new.items() if n != s}
    taken = collections.defaultdict(list)
    for n in where:
        taken[new.get(n, n)].append(n)
    for s, ns in taken.items():
        if len(ns) > 1:
            # The definition keeps the name: it is the one of specs/, or the one that was written as one word.
            keeps = [n for n in ns if "-" not in n and n != s] or [n for n in ns if n == s]
            for n in ns:
                if n != keeps[0]:
                    new[n] = s + "_lem"
    return new, where


def rewrite(text, new, dashes):
    """Renames whole names; those with a dash only where `dashes` says so."""
    def one(m):
        w = m[0]
        return new[w] if w in new and (dashes or "-" not in w) else w
    return re.sub(CH + "+", one, text)


def turned(p, text, new):
    out = []
    for line in text.splitlines(keepends=True):
        mark = "//" if p.endswith(".rt") else "--"
        code, sep, said = line.partition(mark) if line.lstrip().startswith(mark) else (line, "", "")
        dashes = p.endswith(".antt") or line.startswith("ghost use ")
        parts = re.split(r'("(?:[^"\\]|\\.)*")', code)
        code = "".join(t if t.startswith('"') else rewrite(t, new, dashes) for t in parts)
        out.append(code + sep + rewrite(said, new, False))
    return "".join(out)


def quoted(text, new):
    new = {n: s for n, s in new.items() if n != s.removesuffix("_lem")} | {n: snake(n) for n in PORTED}
    return re.sub(r"`[^`\n]+`", lambda m: rewrite(m[0], new, True), text)


def main():
    new, where = names()
    if sys.argv[1:] == ["--list"]:
        for n in sorted(new):
            print(n, new[n], *sorted(where[n]))
        return
    for p in files():
        old = open(p, encoding="utf-8").read()
        t = turned(p, old, new)
        if t != old:
            open(p, "w", encoding="utf-8").write(t)
    for p in ["README.md", *sorted(glob.glob("docs/*.md"))]:
        old = open(p, encoding="utf-8").read()
        t = quoted(old, new)
        if t != old:
            open(p, "w", encoding="utf-8").write(t)


main()
