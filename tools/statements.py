#!/usr/bin/env python3
"""Lays the statements and definitions of two checkouts beside one another.

usage: python3 tools/statements.py OLD NEW [CRATE ..]     what is gone, changed or new in NEW
       python3 tools/statements.py --list FOLDER          every law and example, by crate and module, as docs/PORT-THEOREMS.md has them

A statement is a signature of specs/*.antt or proofs/*.antt; of an abbrev or unfoldable, and of a module of definitions,
one that is not called ..Laws or ..Examples, what it is defined as belongs to it. A module counts as the same in specs/ and in proofs/. Spaces, line
breaks, comments and imports are not compared.
"""

import glob
import os
import re
import sys


def is_laws(module):
    return module.endswith(("Laws", "Examples"))


def entries(path, laws):
    """(name, text) of each declaration, in order; what a module without a name takes stands before its members."""
    with open(path, encoding="utf-8") as f:
        lines = [re.sub(r"(^|\s)--(\s.*|$)", "", line).rstrip() for line in f.read().split("\n")]
    found, inside = [], []  # inside: the depth of each module that is open
    for line in lines:
        depth = len(line) - len(line.lstrip())
        if not line.strip() or (depth == 0 and line.startswith("use ")):
            continue
        while inside and depth <= inside[-1]:
            inside.pop()
        at = inside[-1] + 2 if inside else 0
        m = re.match(r"\s*(?:(?:abbrev|unfoldable|pub|data|record)\s+)*([^\s:(){}.;,λ=]+) :(\s|$)", line)
        m = m or re.match(r"\s*(?:pub )?(?:data|record) (\S+)", line)
        if depth == at and line.strip().startswith("module "):
            found.append([line.strip(), [line.strip()]])
            inside.append(depth)
        elif m and depth == at:
            found.append([m.group(1), [line.strip()]])
        elif found:
            found[-1][1].append(line.strip())
    out = []
    for name, text in found:
        if not re.match(r"(pub )?(record|data|module)\b", text[0]):
            end = 1
            while end < len(text) and not re.match(re.escape(name) + r"(\s|$)", text[end]) and not text[end].startswith("unfolding"):
                end += 1
            plain = laws and not re.match(r"(pub )?(abbrev|unfoldable)\b", text[0])
            text = text[:end] + ([] if plain else ["||"] + text[end:])
        out.append((name, re.sub(r"\(\s+", "(", re.sub(r"\s+", " ", " ".join(text)))))
    return out


def load(top, crates=()):
    out = {}
    for path in sorted(glob.glob(top + "/crates/*/specs/*.antt") + glob.glob(top + "/crates/*/proofs/*.antt")):
        crate = os.path.relpath(path, top).split(os.sep)[1]
        module = os.path.basename(path)[: -len(".antt")]
        if module == "Lib" or (crates and crate not in crates):
            continue
        for name, text in entries(path, is_laws(module)):
            key, n = (crate, module, name), 2
            while key in out:
                key, n = (crate, module, name, n), n + 1
            out[key] = text
    return out


def show(top):
    last = None
    for (crate, module, name, *_), text in load(top).items():
        if not is_laws(module):
            continue
        if (crate, module) != last:
            print(f"\n## {crate} {module}\n")
            last = (crate, module)
        print("    " + text)


def main(argv):
    if argv[:1] == ["--list"] and len(argv) == 2:
        show(argv[1])
        return 0
    if len(argv) < 2 or argv[0].startswith("-"):
        print(__doc__)
        return 2
    old, new = load(argv[0], argv[2:]), load(argv[1], argv[2:])
    changed = 0
    for key, text in old.items():
        if key not in new:
            print("gone:", *key, "\n   ", text)
            changed += 1
        elif text != new[key]:
            print("changed:", *key, "\n  -", text, "\n  +", new[key])
            changed += 1
    for key, text in new.items():
        if key not in old:
            print("new:", *key, "\n   ", text)
    print(f"{len(old)} statements in {argv[0]}, {len(new)} in {argv[1]}, {changed} gone or changed")
    return 0


if __name__ == "__main__":
    raise SystemExit(main(sys.argv[1:]))
