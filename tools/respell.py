#!/usr/bin/env python3
"""Brings the repository's own names to one spelling: definitions, lemmas, fields and constructors in snake case, facts in upper camel case.

usage: tools/respell.py LANDED [--check]

A dash in a lemma's name stays where it joins two names (`members-below`), and becomes `_` where it adds a plain word (`minus_make`). Each name of src/ stays.
LANDED is the commit before the toolchain's own scripts ran: what they renamed is turned in the documents and the edits too.
It was run twice, right after those scripts; after that it changes nothing."""
import glob
import re
import subprocess
import sys

WORD = r"[^\s(){}\[\].,;:@\"«»`|/\\]+"
ANTT = ["crates/*/specs/**/*.antt", "crates/*/proofs/**/*.antt"]
SOURCES = ["crates/*/src/**/*.rt"]
OTHERS = ["crates/*/must-fail/*.edit", "docs/*.md", "README.md", "rust/**/*.rs", "tests/**/*.c", "include/*.h"]
# Two definitions of one module that the rule would spell alike, a fact that is spelled as one, and lemmas on a word of the library that has another name now.
BY_HAND = {"getD-section": "get_or-section", "getD-table": "get_or-table", "carriedFrom": "carries_from"}
FACTS = {"crates/links/proofs/CallerTables.antt": {"goal": "Goal"}}
WORDS = set("and or not add sub mul div mod rem pow shl shr eq le lt ltb leb eqb beq zero suc nil cons append length take drop map get_or set reverse cond true false max min pos neg some none".split())
DECLARED = rf"(?m)^\s*((?:abbrev |unfoldable )*)(?:pub )?({WORD})(?: \{{[^}}\n]*\}})* :\s(.*)"
TYPES = rf"(?m)^\s*(?:pub )?(?:record|data) (?:pub )?({WORD})"


def paths(patterns):
    return sorted({p for it in patterns for p in glob.glob(it, recursive=True) if "/out/" not in p})


def code(text):
    return re.sub(r"--[^\n]*", "", text)


def snake(part):
    return re.sub(r"(?<=[a-z0-9])[A-Z]", lambda m: "_" + m[0].lower(), part) if part[:1].islower() else part


def main():
    texts = {p: open(p).read() for p in paths(ANTT)}
    # definitions, and members of records and data
    words, members, lemmas = set(WORDS), set(), set()
    for p, t in texts.items():
        t = code(t)
        words |= set(re.findall(TYPES, t))
        for indent, block in re.findall(r"(?ms)^( *)(?:pub )?(?:record|data) [^\n]*? where\n(.*?)(?=\n\n|\Z)", t):
            members |= set(re.findall(rf"(?m)^{indent} +(?:pub )?({WORD}) :\s", block))
        for kind, name, sort in re.findall(DECLARED, t):
            if kind.strip():
                words.add(name)
            elif not re.match(r"tie\.", sort) and not re.search(r"-spec$|_spec$", name):
                lemmas.add(name)
    lemmas -= members | words
    words |= members
    parts = {snake(it) for it in words}

    def turned(name):
        if name in BY_HAND:
            return BY_HAND[name]
        each = [snake(it) for it in name.split("-")]
        if name in lemmas:
            out = each[0]
            for a, b in zip(each, each[1:]):
                out += ("-" if a in parts and b in parts else "_") + b
            return out
        if name in members:
            return "_".join(each)
        return "-".join(each)

    def apart(name):
        it = turned(name)
        return it + "_lem" if name in lemmas and it != name and it in {turned(w) for w in words} else it

    table = {it: apart(it) for it in words | lemmas | members if it[:1].islower() or "-" in it}
    table = {a: b for a, b in table.items() if a != b and a[:1] not in "<>"}
    used = set()
    for t in texts.values():
        used |= set(re.findall(WORD, code(t)))
    for w in used:
        if w not in table and w[:1].islower() and all(not it[:1].isupper() for it in w.split("-")) and any(snake(it) != it for it in w.split("-")):
            table[w] = "-".join(snake(it) for it in w.split("-"))
    own = {it: sorted(a for a in table if table[a] == it) for it in table.values()}
    print(len(table), "names")
    print("already there:", {b: a for a, b in table.items() if b in used})
    print("fall together:", {b: a for b, a in own.items() if len(a) > 1})
    # what the toolchain's scripts renamed: declared in the same place then and now
    before = {}
    for p, t in texts.items():
        old = subprocess.run(["git", "show", f"{sys.argv[1]}:{p}"], capture_output=True, text=True).stdout
        a, b = [[n for _, n, _ in re.findall(DECLARED, code(it))] for it in (old, t)]
        if len(a) == len(b) and not p.endswith("Proof.antt"):
            before.update((x, table.get(y, y)) for x, y in zip(a, b) if x != y and not re.search("[_◌]", x))
    before.update((a, b) for a, b in table.items())
    if "--check" in sys.argv:
        for it in sorted(table.items()):
            print(*it)
        return
    for p in paths(ANTT + SOURCES + OTHERS):
        text = open(p).read()
        names = {**(table if p.endswith((".antt", ".rt")) else before), **FACTS.get(p, {})}
        modules = set(re.findall(r"\buse [\w.]+ as (\w+)", text))

        def put(m):
            word = m[0]
            if word not in names:
                return word
            # behind a value and a dot stand the names that Rattle makes, and members; behind a module and a dot its items
            if text[m.start() - 1 : m.start()] == "." and word not in members:
                behind = re.search(r"([\w']+)\.$", text[: m.start()][-60:])
                if not behind or not (behind[1][:1].isupper() or behind[1] in modules):
                    return word
            return names[word]

        new = re.sub(WORD, put, text)
        if new != text:
            open(p, "w").write(new)


main()
