#!/usr/bin/env python3
"""Brings the repository's own names to the spelling of Rattle's definitions and lemmas: snake case.

usage: python3 tools/respell.py     once, at the top, right after the toolchain's own script has turned the repository

A definition, lemma, field or constructor of specs/ and proofs/ that is written aBc or a-b becomes a_b, in the
definitions, the proofs, the sources' clauses, the must-fail edits, the pages and the tests. Functions of src/, types,
modules and strings keep their names. Where two names would fall together, the definition has the name, and the law
or the example gets _law or _example.
"""

import collections
import glob
import os
import re

BOUND = re.compile(r"(?:\blet\s+|[({]\s*|λ\s*)([a-z][\w'-]*(?:\s+[a-z][\w'-]*)*)\s*[:.]\s")
DECLARED = re.compile(r"\s*(?:(?:abbrev|unfoldable|pub|private|opaque)\s+)*([^\s:(){}.;,λ→=`]+)\s*:\s")
WORD = re.compile(r"[^\s(){}\[\],.;«»`\"]+")
# of the library, and cited through a module's alias
LIBRARY = {"nat_abs-le", "to_z-of_z"}
NAME = re.compile(r"^[a-z][\w'-]*$")


def snake(name):
    name = re.sub(r"([a-z0-9'])([A-Z]+)", lambda m: m.group(1) + "_" + m.group(2).lower(), name)
    return name.replace("-", "_")


def read(path):
    with open(path, encoding="utf-8") as f:
        return f.read()


def lemma_files():
    return sorted(glob.glob("crates/*/specs/*.antt") + glob.glob("crates/*/proofs/*.antt"))


def table():
    defined = collections.defaultdict(set)
    foreign = set()
    for path in lemma_files():
        for line in read(path).splitlines():
            m = DECLARED.match(line)
            if m and not line.lstrip().startswith("--"):
                defined[m.group(1)].add(path)
            for m in BOUND.finditer(line.split("-- ")[0]):
                for n in m.group(1).split():
                    if re.search("[A-Z-]", n):
                        defined[n].add(path)
        # constructors and fields in a row, names of imports, and the rest that a module of ours uses
        for line in read(path).splitlines():
            for n in WORD.findall(re.split(r"(?:^|\s)--(?:\s|$)", line)[0]):
                if NAME.match(n) and re.search("[A-Z-]", n):
                    defined[n].add(path)
    for path in glob.glob("crates/**/*.antt", recursive=True) + glob.glob("crates/*/src/*.rt"):
        for m in re.finditer(r"^(?:ghost use|use|pub use) Rattle\.(\w+)\.[^{;\n]*(?:\{([^}]*)\})?", read(path), re.M):
            if not os.path.isdir("crates/" + m.group(1)):
                foreign.update(WORD.findall(m.group(2) or ""))
    own = {n for n in defined if NAME.match(n) and (re.search("[A-Z-]", n) or "_" in n)} - foreign - LIBRARY
    groups = collections.defaultdict(list)
    for n in own:
        groups[snake(n)].append(n)
    to = {}
    for new, names in groups.items():
        def rank(n):
            return 0 if re.search("[A-Z]", n) else 1 if "-" not in n else 2
        names.sort(key=rank)
        for k, n in enumerate(names):
            if k == 0:
                to[n] = new
            else:
                laws = any("Laws" in p for p in defined[n])
                to[n] = new + ("_law" if laws else "_example")
    taken = collections.Counter(to.values())
    for n, c in taken.items():
        if c > 1:
            raise SystemExit(f"{n}: two names fall together")
    for n in to:
        if to[n] != n and to[n] in foreign:
            print("look:", n, "->", to[n], "is a library's name too")
    # names as the edits and the pages still have them
    old = {}
    for n, new in to.items():
        old[n] = new
    for n, new in to.items():
        if "_" in n and "-" not in n and not re.search("[A-Z]", n):
            parts = n.split("_")
            camel = parts[0] + "".join(p[:1].upper() + p[1:] for p in parts[1:])
            kebab = n.replace("_", "-")
            if new != n:
                old.setdefault(kebab, new)
            else:
                old.setdefault(camel, new)
                old.setdefault(kebab, new)
    return to, old


def words(text, to):
    """Names in code: what stands in quotes is no name."""
    parts = re.split(r'("(?:[^"\\]|\\.)*")', text)
    return "".join(p if i % 2 else plain(p, to) for i, p in enumerate(parts))


def plain(text, to):
    return WORD.sub(lambda m: to.get(m.group(0), m.group(0)), text)


def comment(text, to):
    """In prose a hyphen is a hyphen: only names that no English text has, or that stand in backticks."""
    text = re.sub(r"`[^`]*`", lambda m: words(m.group(0), to), text)
    return re.sub(r"\b[a-z][a-z0-9']*[A-Z]\w*\b", lambda m: to.get(m.group(0), m.group(0)), text)


def antt(text, to):
    out = []
    for line in text.split("\n"):
        m = re.search(r"(^|\s)--(\s|$)", line)
        if m:
            out.append(words(line[: m.start()], to) + comment(line[m.start() :], to))
        else:
            out.append(words(line, to))
    return "\n".join(out)


def rust_line(line, to):
    m = re.match(r"(\s*)//", line)
    if m:
        return comment(line, to)
    parts = re.split(r'("(?:[^"\\]|\\.)*")', line)
    return "".join(p if i % 2 else words(p, to) for i, p in enumerate(parts))


def rust(text, to):
    return "\n".join(rust_line(line, to) for line in text.split("\n"))


def edit(text, to):
    out = []
    antt_file = False
    for line in text.split("\n"):
        if line.startswith("file:"):
            antt_file = line.rstrip().endswith(".antt")
        m = re.match(r"(old|new): ", line)
        if m:
            body = line[m.end() :]
            out.append(m.group(0) + (antt(body, to) if antt_file else rust_line(body, to)))
        elif re.match(r"# \w+\.[A-Za-z0-9-]+: ", line):
            law, rest = line[2:].split(": ", 1)
            module, name = law.split(".")
            out.append("# " + module + "." + to.get(name, name) + ": " + comment(rest, to))
        else:
            out.append(comment(line, to))
    return "\n".join(out)


def page(text, to):
    # words of scripts and of their answers, which names of ours look like
    to = {n: new for n, new in to.items() if n not in ("get-paired", "empty-list")}
    out = []
    code = False
    for line in text.split("\n"):
        if line.startswith("```"):
            code = not code
        out.append(line if code else re.sub(r"`[^`]*`", lambda m: words(m.group(0), to), re.sub(r"\b[a-z][a-z0-9']*[A-Z]\w*\b", lambda m: to.get(m.group(0), m.group(0)), line)))
    return "\n".join(out)


def walk(text, to):
    """The proof of one function: what it does not import is a step, named by a function of src/."""
    brought = set()
    for m in re.finditer(r"^use [^{\n]*(?:\{([^}]*)\}|as ([^\s]+))", text, re.M):
        brought.update(WORD.findall(m.group(1) or m.group(2)))
    here = {n: new if n in brought else snake(n) for n, new in to.items() if n in brought or re.search("[A-Z-]", n)}
    return antt(text, here)


def turn(paths, how, to):
    for path in sorted(paths):
        if os.path.islink(path) or "/out/" in path:
            continue
        text = read(path)
        new = how(text, to)
        if new != text:
            with open(path, "w", encoding="utf-8") as f:
                f.write(new)


def main():
    to, old = table()
    turn(lemma_files(), antt, to)
    turn(set(glob.glob("crates/*/proofs/**/*.antt", recursive=True)) - set(lemma_files()), walk, to)
    turn(glob.glob("crates/*/src/**/*.rt", recursive=True), rust, to)
    turn(glob.glob("crates/*/must-fail/*.edit"), edit, old)
    turn(glob.glob("docs/**/*.md", recursive=True) + ["README.md"] + glob.glob("tests/**/*.md", recursive=True), page, old)
    print(len([n for n in to if to[n] != n]), "names respelled")


if __name__ == "__main__":
    main()
