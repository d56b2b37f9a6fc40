#!/usr/bin/env python3
"""Brings the names of this repository's definitions and lemmas to the spelling of today's Rattle, once, right after the kit's port.py.

usage: tools/names.py [--show]    at the top of the repository; --show writes nothing and prints what would change

Words are in snake case: `matrixCount` becomes `matrix_count`, and `list-past` becomes `list_past`, or
`list_past_lem` where a definition has that name. Types and modules, which begin with a capital, stay as they are,
and so do the names of Rattle's library, the names that Rattle makes, and those of src/.
"""

import os
import re
import sys

TOKEN = re.compile(r"(?<![\w'₀-₉-])[A-Za-zμ_][\w'₀-₉]*(?:-[\w'₀-₉μ]+)*(?![\w-])")
DECLARED = re.compile(r"^\s*(?:(?:abbrev|unfoldable|pub|ghost) )*([^\W\dA-Z_][\w'₀-₉-]*(?: [^\W\dA-Z_][\w'₀-₉-]*)*) :(?=\s|$)")
HEADED = re.compile(r"^\s*(?:(?:abbrev|unfoldable|pub) )*(?:ruleset|data|record) ([^\W\dA-Z_][\w'₀-₉-]*)")
IMPORT = re.compile(r"use ([^\s{};]+)\.\{([^}]*)\}")
OURS = re.compile(r"Rattle\.(design|step|clauses|search|verdict|text|replay|printer|entries)(\.|$)")


def files():
    for folder, dirs, names in os.walk("crates"):
        dirs[:] = sorted(d for d in dirs if d != "out")
        for name in sorted(names):
            if name.endswith((".antt", ".rt")):
                yield os.path.join(folder, name)


def read(path):
    with open(path, encoding="utf-8") as f:
        return f.read()


def snake(name):
    name = re.sub(r"(?<=[a-z0-9])(?=[A-Z])", "_", name)
    return name.replace("-", "_").lower() if name[0].islower() else name.replace("-", "_")


def code(line):
    return line.split("--")[0] if not line.lstrip().startswith("--") else ""


def library(texts):
    """Names that come from Rattle's library."""
    names = set()
    for text in texts.values():
        for m in IMPORT.finditer(text):
            if not OURS.match(m.group(1)):
                for n in m.group(2).split(","):
                    names.add(n.split(" as ")[0].strip())
    return names


def declared(texts):
    """What specs/ and the files of lemmas declare, with fields and constructors; a function's own proof file declares goals, which Rattle names."""
    names = set()
    for path, text in texts.items():
        if not path.endswith(".antt") or path.endswith("/Proof.antt"):
            continue
        for line in text.splitlines():
            m = DECLARED.match(code(line)) or HEADED.match(code(line))
            if m:
                names.update(m.group(1).split())
    return names


def fields(texts):
    """What the records of specs/ and of the files of lemmas have."""
    names = set()
    for path, text in texts.items():
        if not path.endswith(".antt") or path.endswith("/Proof.antt"):
            continue
        depth = None
        for line in text.splitlines():
            indent = len(line) - len(line.lstrip())
            if re.match(r"\s*(pub )?record ", line):
                depth = indent
            elif depth is not None and code(line).strip():
                if indent <= depth:
                    depth = None
                    continue
                m = DECLARED.match(code(line))
                if m:
                    names.update(m.group(1).split())
    return names


def main(argv):
    texts = {p: read(p) for p in files()}
    kept = library(texts)
    ours = declared(texts)
    turned = {n: snake(n) for n in ours - kept if snake(n) != n}
    camel = re.compile(r"^[a-z][a-z0-9']*[A-Z]")
    for path, text in texts.items():
        for m in TOKEN.finditer(text):
            n = m.group(0)
            if path.endswith(".antt") and camel.match(n) and "-" not in n and n not in kept:
                turned.setdefault(n, snake(n))
    # a lemma that would have its function's name
    functions = {n for n in ours if n not in turned} | {new for n, new in turned.items() if "-" not in n}
    for n, new in turned.items():
        if "-" in n and (new in functions or new in kept):
            turned[n] = new + "_lem"
    if "--show" in argv:
        for n in sorted(turned):
            print(n, turned[n])
        return 0
    members = fields(texts)

    def turn(m):
        n = m.group(0)
        before = m.string[m.string.rfind("\n", 0, m.start()) + 1 : m.start()]
        if "-" in n and re.search("--|//", before) and not before.endswith("`"):
            return n
        if "-" in n and m.string[: m.start()].endswith(".") and path.endswith("/Proof.antt") and n not in members:
            return n
        return turned.get(n, n)

    for path, text in texts.items():
        new = TOKEN.sub(turn, text)
        if new != text:
            with open(path, "w", encoding="utf-8") as f:
                f.write(new)
    return 0


if __name__ == "__main__":
    raise SystemExit(main(sys.argv[1:]))
