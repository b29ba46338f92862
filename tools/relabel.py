#!/usr/bin/env python3
"""Turns the names that a crate's proof files give to goals and steps to those that the check makes today.

usage: python3 tools/relabel.py CRATE_FOLDER NAMES.json     (NAMES.json: what rt check --generated FOLDER --old-names writes)

A name is turned where just one of today's names of that function differs from it only in '-' and '_'.
"""
import json
import os
import re
import sys

TOKEN = re.compile(r"(?<![\w'◌])[A-Za-z][\w'+-]*")
USE = re.compile(r"(?ms)^use ([\w.'+-]+)\.\{([^}]*)\}")


def strings(x):
    if isinstance(x, str):
        yield x
    elif isinstance(x, dict):
        for k, v in x.items():
            yield from strings(k)
            yield from strings(v)
    elif isinstance(x, list):
        for v in x:
            yield from strings(v)


def plain(w):
    return w.replace("_", "-")


def main(crate, names):
    with open(names) as f:
        made = json.load(f)
    for key, value in made.items():
        if "-proofs." not in key:
            continue
        path = key.split("-proofs.", 1)[1].rsplit(".", 1)[0]
        folder = os.path.join(crate, "proofs", *path.split("."))
        labels = set()
        for s in strings(value):
            labels.add(s)
            if s.endswith("-requires"):
                labels.add(s[: -len("-requires")])
        by_plain = {}
        for s in labels:
            by_plain.setdefault(plain(s), set()).add(s)
        for file in ("Answers.antt", "Invariants.antt", "Proof.antt"):
            p = os.path.join(folder, file)
            if not os.path.exists(p):
                continue
            with open(p, encoding="utf-8") as f:
                text = f.read()
            taken = set()
            for module, items in USE.findall(text):
                if not re.search(r"\.(Goals|Given)$", module):
                    taken |= {n.strip().split(" as ")[-1] for n in items.split(",")}
            left = set()

            def put(m):
                w = m.group()
                if w in taken or "-" not in w or w in labels:
                    return w
                to = by_plain.get(plain(w), set())
                if len(to) == 1:
                    return next(iter(to))
                left.add(w)
                return w

            new = TOKEN.sub(put, text)
            if left:
                print(f"{p}: left", *sorted(left))
            if new != text:
                with open(p, "w", encoding="utf-8") as f:
                    f.write(new)


if __name__ == "__main__":
    main(*sys.argv[1:])
