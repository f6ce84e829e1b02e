#!/usr/bin/env python3
"""Brings the repository's own definitions and lemmas to today's spelling: words in snake case, types in camel case; in a lemma's name a dash
stays where it joins two names that are there by themselves, as in 'begun-in_range'.

usage: python3 tools/spelling.py [--check]      at the top of the repository, once, right after port.py

What turns: the code and comments of .antt files, the clauses and comments of .rt files, the texts of must-fail edits, and what README.md and docs/ have
between backticks. Names that Rattle makes (steps, goals, Statement and Tie) are not the repository's and stay. With --check it writes nothing."""
import collections
import glob
import re
import sys

ID = r"[^\s(){}.;,@\"«»]+"
WORD = re.compile(ID)
HEAD = re.compile(r"^((?:pub |abbrev |unfoldable )*)(record|data)\s+(?:pub )?(" + ID + ")")
MEMBER = re.compile(r"^\s+(?:pub )?(" + ID + r")\s+:(?:\s|$)")
DEFINED = re.compile(r"^\s*((?:pub |abbrev |unfoldable )*)(" + ID + r")\s+(?:[({].*\s)?:(?:\s|$)")
# made by Rattle, or answers by the name of a goal
# spelled as those of the library, which the same files have
AS_THE_LIBRARY = {"and-true", "or-true", "or-false", "not-true", "not-false"}
MADE = {"invariant-loop", "decreases-loop", "Inv-loop", "μ-coast", "μ-decide", "μ-loop", "loop-check"}
# words of the library that a lemma's name may join
LIBRARY = set(
    "add sub mul div rem mod pow min max not and or zero one suc append cons nil length take drop map filter sum get_or get_opt set leb ltb eqb cond"
    " compare if1 getD be cat eq le lt".split()
)


def own_files():
    specs = sorted(glob.glob("crates/*/specs/**/*.antt", recursive=True))
    proofs = sorted(glob.glob("crates/*/proofs/**/*.antt", recursive=True))
    return specs, proofs


def of_a_function(path):
    return path.endswith("/Proof.antt") or "/Proof/" in path


def names():
    words, lemmas = {}, {}
    specs, proofs = own_files()
    for path in specs + [p for p in proofs if not of_a_function(p)]:
        inside = False
        for line in open(path, encoding="utf-8"):
            line = line.rstrip("\n")
            if line.lstrip().startswith("--"):
                continue
            head = HEAD.match(line)
            if head:
                inside = True
                words.setdefault(head[3], path)
                continue
            if line and not line[0].isspace():
                inside = False
            if inside:
                member = MEMBER.match(line)
                if member:
                    words.setdefault(member[1], path)
                continue
            defined = DEFINED.match(line)
            if not defined or defined[2] in ("use", "let", "where", "module", "=", "→", "λ"):
                continue
            word = "abbrev" in defined[1] or "unfoldable" in defined[1] or path in specs
            (words if word else lemmas).setdefault(defined[2], path)
    return words, lemmas


def snake(name):
    if name[0].isupper():
        return "".join(p[:1].upper() + p[1:] for p in name.split("-"))
    return name.replace("-", "_")


def dashed(name, known):
    """A lemma's name: the longest parts that are names stay joined to one another by dashes."""
    parts = name.split("-")
    groups, at = [], 0
    while at < len(parts):
        for end in range(len(parts), at, -1):
            whole = "_".join(parts[at:end])
            if whole in known:
                groups.append((whole, True))
                at = end
                break
        else:
            groups.append((parts[at], False))
            at += 1
    out = groups[0][0]
    for (_, before), (group, here) in zip(groups, groups[1:]):
        out += ("-" if before and here else "_") + group
    return out


def table():
    words, lemmas = names()
    turned = {w: snake(w) for w in words if "-" in w.strip("-") and w not in MADE and not w.startswith("◌") and "◌" not in w}
    for w in words:
        if "◌" in w and "-" in w:
            turned[w] = w.replace("-", "_")
            turned[w.strip("◌")] = w.strip("◌").replace("-", "_")
    known = {turned.get(w, w) for w in words} | LIBRARY
    for name in lemmas:
        if "-" in name.strip("-") and name not in turned and name not in MADE and name[0] != "-":
            turned[name] = dashed(name, known)
    return {a: b for a, b in turned.items() if a != b and a not in AS_THE_LIBRARY}


def clashes(turned, texts):
    """Names that would fall together, with one another or with a name that is there."""
    there = collections.Counter()
    for text in texts.values():
        there.update(WORD.findall(text))
    by_new = collections.defaultdict(list)
    for a, b in turned.items():
        by_new[b].append(a)
    bad = []
    for b, many in by_new.items():
        if len(many) > 1 or there[b]:
            bad.append((b, many, there[b]))
    return bad


def turn(text, turned):
    return WORD.sub(lambda m: turned.get(m[0], m[0]), text)


def spans(text, turned):
    return re.sub(r"`([^`\n]*)`", lambda m: "`" + turn(m[1], turned) + "`", text)


def main():
    check = "--check" in sys.argv
    turned = table()
    specs, proofs = own_files()
    paths = specs + proofs + sorted(glob.glob("crates/*/src/**/*.rt", recursive=True)) + sorted(glob.glob("crates/*/must-fail/*.edit"))
    texts = {p: open(p, encoding="utf-8").read() for p in paths}
    for b, many, there in sorted(clashes(turned, texts)):
        print("falls together:", b, many, there)
    count = 0
    for path, text in texts.items():
        new = turn(text, turned)
        if new != text:
            count += 1
            if not check:
                open(path, "w", encoding="utf-8").write(new)
    for path in ["README.md"] + sorted(glob.glob("docs/**/*.md", recursive=True)):
        text = open(path, encoding="utf-8").read()
        new = spans(text, turned)
        if new != text:
            count += 1
            if not check:
                open(path, "w", encoding="utf-8").write(new)
    print(f"spelling: {len(turned)} names, {count} files")
    if check:
        for a, b in sorted(turned.items()):
            print(" ", a, b)


main()
