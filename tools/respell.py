#!/usr/bin/env python3
"""Brings the repository's own definitions and lemmas to the library's spelling, after port.py.

usage: python3 tools/respell.py FOLDER [--list]

A name that begins with a small letter gets '_' for each '-'. A type or a fact that begins with a capital
is written in camel case; a lemma that is named after a fact keeps the dash behind the fact's name.
Names of the library, and names that the check itself makes for a function's goals, stay as they are.
"""
import os
import re
import sys

NAME = r"[A-Za-z][\w'-]*"
TOKEN = re.compile(r"(?<![\w'◌-])" + NAME)
USE = re.compile(r"(?ms)^(?:ghost )?use ([\w.'-]+)\.\{([^}]*)\}")
DEFINED = re.compile(r"(?m)^[ ]*(?:abbrev |unfoldable |opaque )*(?:pub )?(?:record |data )?(" + NAME + r")((?: \([^)]*\)| \{[^}]*\})*) :(?= )")
LOCAL = re.compile(r"(?:\blet |[(λ{] ?)(" + NAME + r")(?= [:=.]|(?: " + NAME + r")* [:.])")


def own_crates(root):
    return sorted(c for c in os.listdir(os.path.join(root, "crates")) if os.path.isdir(os.path.join(root, "crates", c, "src")))


def files(root, ending):
    for folder, dirs, names in os.walk(os.path.join(root, "crates")):
        dirs[:] = sorted(d for d in dirs if d not in ("out", ".git"))
        for n in sorted(names):
            if n.endswith(ending):
                yield os.path.join(folder, n)


def read(path):
    with open(path, encoding="utf-8") as f:
        return f.read()


def bare(text):
    """The text without comments."""
    return re.sub(r"(?m)(^|(?<=\s))--(?=\s|$).*$", "", text)


def of_function(path):
    """Whether a file is part of one function's proof, where the check makes the names of goals."""
    inside = path.split("/proofs/", 1)
    return len(inside) == 2 and "/" in inside[1]


def imported(text, own):
    """Names imported from the library, and names imported from this repository."""
    theirs, ours = set(), set()
    for module, names in USE.findall(text):
        where = ours if module.startswith(tuple(f"Rattle.{c}." for c in own)) else theirs
        for n in names.replace("\n", " ").split(","):
            for part in n.strip().split(" as "):
                if part.strip():
                    where.add(part.strip())
    return theirs, ours


def signature(text, at):
    """The text of the type that begins at a place, up to the definition's first clause."""
    rest = text[at:]
    end = re.search(r"\n(?! {4,})", rest)
    return rest[: end.start()] if end else rest


# Names that would be those of the library in the same file.
INSTEAD = {"put-mid": "put_mid-put_at"}


def turned(name, fact):
    if "-" not in name:
        return name
    if name in INSTEAD:
        return INSTEAD[name]
    if name[0].islower():
        return name.replace("-", "_")
    if fact:
        return "".join(w[0].upper() + w[1:] for w in name.split("-"))
    head, tail = name.split("-", 1)
    return head + "-" + tail.replace("-", "_")


def main(argv):
    root = argv[0]
    own = own_crates(root)
    facts, lemmas = set(), set()
    texts = {}
    for p in files(root, ".antt"):
        texts[p] = read(p)
        if of_function(p):
            continue
        t = bare(texts[p])
        for m in DEFINED.finditer(t):
            name = m.group(1)
            s = signature(t, m.end())
            is_fact = bool(re.search(r"Type 0( where)?\s*$", s.rstrip()))
            (facts if is_fact else lemmas).add(name)
    both = {n for n in facts & lemmas if "-" in n and n[0].isupper()}
    if both:
        print("a fact and a lemma have one name:", *sorted(both))
    table = {}
    changed = {}
    for p, text in texts.items():
        theirs, ours = imported(text, own)
        t = bare(text)
        here = {m.group(1) for m in DEFINED.finditer(t)} | {m.group(1) for m in LOCAL.finditer(t)}
        if of_function(p):
            goals = {m.group(1) for m in re.finditer(r"\bgoal\.(" + NAME + r")", t)}
            made = set()
            for module, names in USE.findall(text):
                if re.search(r"\.(Goals|Given)$", module):
                    made |= {n.strip().split(" as ")[0] for n in names.split(",")}
            mine = (ours | here | facts) - goals - made
        else:
            mine = ours | here | facts | lemmas
        mine = {n for n in mine if n not in theirs}

        def put(m):
            w = m.group()
            before = text[max(0, m.start() - 1):m.start()]
            if "-" not in w or w not in mine:
                return w
            if of_function(p) and before == "." and w not in ours | facts | lemmas:
                return w
            new = turned(w, w in facts)
            table.setdefault(w, set()).add(new)
            return new

        changed[p] = TOKEN.sub(put, text)
    for p in files(root, ".rt"):
        text = read(p)
        theirs, ours = imported(text, own)

        def put(m):
            w = m.group()
            if "-" not in w or w not in ours:
                return w
            new = turned(w, w in facts)
            table.setdefault(w, set()).add(new)
            return new

        changed[p] = TOKEN.sub(put, text)
        texts[p] = text
    # names that fall together: in one file, two names that are now spelled alike
    for p, text in texts.items():
        words = {m.group() for m in TOKEN.finditer(bare(text))}
        seen = {}
        for w in words:
            to = next(iter(table[w])) if w in table and w not in imported(text, own)[0] else w
            if to in seen and seen[to] != w and "-" in w + seen[to]:
                print(f"{p}: {w} and {seen[to]} fall together as {to}")
            seen[to] = w
    if "--list" in argv:
        for w in sorted(table):
            print(w, *sorted(table[w]))
        return 0
    for p, text in changed.items():
        if text != texts[p]:
            with open(p, "w", encoding="utf-8") as f:
                f.write(text)
    print(f"{len(table)} names")
    return 0


if __name__ == "__main__":
    raise SystemExit(main(sys.argv[1:]))
