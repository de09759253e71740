#!/usr/bin/env python3
"""Brings the repository's own definitions, fields and lemmas to today's spelling: words in snake case, joined by a dash
only where both sides are names themselves. It runs once, after the kit's port.py, at the top of the repository.

A name is ours where a file of specs/ or proofs/ declares it at its head or as a field. Functions, types, modules,
strings, inputs and outputs keep their names.
"""

import collections
import glob
import re
import sys

WORD = r"[^\s(){}.;,@\"«»\[\]\\`:]+"
TOKEN = re.compile(r"\"(?:[^\"\\\n]|\\.)*\"|" + WORD)
HEAD = re.compile(r"^(\s*)((?:pub |abbrev |unfoldable |field |mod )*)(" + WORD + r") ?:(?=\s)", re.M)
BLOCK = re.compile(r"^\s*(?:pub |abbrev |unfoldable )*(?:record|data|module) (?:pub )?(" + WORD + ")", re.M)
# Words of the kit that lemmas are named after.
KIT = set(
    "length take drop set append replicate map get_or head zero suc sum count filter reverse concat foldr fold nth "
    "find index min max insert remove add sub mul div mod pow abs neg round of_bits to_bits exact last at eq all any".split()
)


def snake(part):
    """One part of a name: camel case becomes snake case where it begins in lower case."""
    if not part or not part[0].islower():
        return part
    return re.sub(r"(?<=[a-z0-9ℕℤ?])([A-Z])", lambda m: "_" + m.group(1).lower(), part)


def files(*patterns):
    return sorted(f for p in patterns for f in glob.glob(p, recursive=True) if "/out/" not in f)


def main():
    written = files("crates/*/specs/**/*.antt", "crates/*/proofs/**/*.antt")
    text = {f: open(f, encoding="utf-8").read() for f in written}
    words, lemmas, types = set(KIT), set(), set()
    for f, t in text.items():
        if f.endswith("/Proof.antt"):
            continue
        types.update(BLOCK.findall(t))
        for m in HEAD.finditer(t):
            (words if "/specs/" in f else lemmas).add(m.group(3))
    # Names that are declared together, or brought in, are in camel case too.
    for t in text.values():
        code = re.sub(r"(?<!\S)--.*", "", t)
        words.update(it for it in TOKEN.findall(code) if it[0].islower() and snake(it) != it)
    functions = set()
    for f in files("crates/*/src/**/*.rt"):
        t = open(f, encoding="utf-8").read()
        functions.update(re.findall(r"\bfn (\w+)", t))
    words = {it for it in words if it not in types}
    names = {"-".join(map(snake, it.split("-"))) for it in words} | {it.replace("'", "") for it in words} | types

    def new(it):
        parts = [snake(p) for p in it.split("-")]
        out = parts[0]
        for before, after in zip(parts, parts[1:]):
            joined = before and after and not (before in names and after in names)
            joined = joined and re.fullmatch(r"\w+[?']*", after) and re.search(r"\w[?']*$", before)
            out += ("_" if joined else "-") + after
        return out

    own = {it for it in words | lemmas if it not in KIT and it not in functions and it not in types}
    turned = {it: new(it) for it in own if new(it) != it}
    # Where names fall together, a definition of specs/ has the name, and a lemma is called by it and `_lem`.
    used = {it for t in text.values() for it in TOKEN.findall(t)}
    taken = {turned.get(it, it) for it in words}
    lone = collections.Counter(turned.get(it, it) for it in lemmas if it not in words)
    for it in sorted(lemmas - words):
        to = turned.get(it, it)
        fell = to in taken or (it in turned and (to in used or to in functions or lone[to] > 1))
        if fell and (it in turned or it in own):
            turned[it] = to + "_lem"
            print("fell together:", it, "->", turned[it])
    for it in sorted(words & set(turned)):
        others = [o for o in words if o != it and turned.get(o, o) == turned[it]]
        if others:
            print("falls together, mend by hand:", it, others)

    def turn(t, comment):
        out = []
        for line in t.split("\n"):
            at = re.search(r"(?<!\S)" + comment, line)
            code, rest = (line[: at.start()], line[at.start() :]) if at else (line, "")
            code = TOKEN.sub(lambda m: turned.get(m.group(0), m.group(0)), code)
            rest = re.sub(r"`([^`]*)`", lambda m: "`" + TOKEN.sub(lambda n: turned.get(n.group(0), n.group(0)), m.group(1)) + "`", rest)
            out.append(code + rest)
        return "\n".join(out)

    count = 0
    for f in written + files("crates/*/src/**/*.rt"):
        t = open(f, encoding="utf-8").read()
        to = turn(t, "--" if f.endswith(".antt") else "//")
        if to != t:
            open(f, "w", encoding="utf-8").write(to)
            count += 1
    for f in files("crates/*/must-fail/*.edit"):
        lines = open(f, encoding="utf-8").read().split("\n")
        to = [
            re.sub(r"^((?:old|new): )(.*)$", lambda m: m.group(1) + TOKEN.sub(lambda n: turned.get(n.group(0), n.group(0)), m.group(2)), it)
            for it in lines
        ]
        if to != lines:
            open(f, "w", encoding="utf-8").write("\n".join(to))
            count += 1
    print(f"respelled: {len(turned)} names in {count} files")
    if "--list" in sys.argv:
        for it in sorted(turned):
            print(it, turned[it])


main()
