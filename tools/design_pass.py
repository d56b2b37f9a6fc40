#!/usr/bin/env python3
"""Counts, in the sources of all crates, the places that docs/DESIGN-PASS.md speaks of: tools/design_pass.py [-v] [ROOT]."""
import collections
import pathlib
import re
import sys

VERBOSE = "-v" in sys.argv
ROOT = pathlib.Path(([a for a in sys.argv[1:] if a != "-v"] or ["."])[0])
FILES = sorted(ROOT.glob("crates/*/src/**/*.rt"))
TEXT = {f: f.read_text() for f in FILES}
CODE = {f: "\n".join("" if re.match(r"\s*//|ghost use", line) else line for line in t.split("\n")) for f, t in TEXT.items()}


def functions():
    """File, name, parameters, clauses and body of every function."""
    for f, text in CODE.items():
        for m in re.finditer(r"^( *)(?:pub )?(?:extern \"C\" )?fn (\w+)(?:<[^(]*>)?\(", text, re.M):
            depth, i = 1, m.end()
            while depth:
                depth += {"(": 1, ")": -1}.get(text[i], 0)
                i += 1
            params = [p.strip() for p in re.split(r",(?![^\[(<]*[\])>])", text[m.end():i - 1]) if p.strip()]
            start = re.compile(r"^" + m.group(1) + r"\{$|\{$", re.M).search(text, i)
            body_at = re.compile(r"^" + m.group(1) + r"\{", re.M).search(text, i)
            one_line = re.compile(r"\{\n").search(text, i)
            j = body_at.start() if body_at and (not one_line or "ensures" in text[i:body_at.start()] or body_at.start() < one_line.start()) else one_line.start()
            end = re.compile(r"^" + m.group(1) + r"\}", re.M).search(text, j)
            yield f, m.group(2), params, text[i:j], text[j:end.start() if end else len(text)]


FUNCTIONS = list(functions())


def show(title, places):
    places = list(places)
    print(f"{len(places):4}  {title}")
    if VERBOSE:
        for p in places:
            print("       ", p)


def lines(pattern):
    for f, t in CODE.items():
        for n, line in enumerate(t.split("\n"), 1):
            if re.search(pattern, line):
                yield f"{f.relative_to(ROOT)}:{n}: {line.strip()}"


def shape(text):
    """A text with its names, numbers and types taken out, but for the words of the language."""
    words = {"if", "else", "match", "while", "for", "in", "return", "let", "mut", "loop", "true", "false", "as", "self", "Some", "None", "Ok", "Err", "break", "continue"}
    return re.sub(r"\s+", " ", re.sub(r"[A-Za-z_]\w*|\d\w*", lambda m: m.group(0) if m.group(0) in words else "_", text))


def twins():
    groups = collections.defaultdict(list)
    for f, name, params, clauses, body in FUNCTIONS:
        if body.count("\n") > 3:
            groups[shape(body)].append(f"{f.relative_to(ROOT)}: {name}")
    for f, t in CODE.items():
        for m in re.finditer(r"^pub (?:struct|enum) (\w+)[^{;]*\{(.*?)^\}", t, re.M | re.S):
            names = tuple(re.findall(r"pub (\w+):", m.group(2)))
            if names:
                groups["struct " + " ".join(names)].append(f"{f.relative_to(ROOT)}: {m.group(1)}")
    for g in groups.values():
        if len(g) > 1:
            yield " = ".join(g)


def facts():
    where = collections.defaultdict(set)
    for f, name, params, clauses, body in FUNCTIONS:
        for req in re.findall(r"requires (?:\w+ )?\{(.*?)\}\s*(?=requires|ensures|$)", clauses, re.S):
            for fact in re.split(r" × ", re.sub(r"\s+", " ", req)):
                where[fact.strip(" ()")].add(name)
    for fact, names in sorted(where.items(), key=lambda x: -len(x[1])):
        if len(names) > 2:
            yield f"{len(names)} functions: {fact}"


print("1. Option, Result, enums")
show("enums of the shape of Option or Result", (f"{f.relative_to(ROOT)}: {m.group(1)}" for f, t in CODE.items() for m in re.finditer(r"^(?:pub )?enum (\w+) \{(.*?)^\}", t, re.M | re.S)
     if re.search(r"Refused|Nowhere|Bad,|Stopped", m.group(2)) and m.group(2).count(",\n") <= 2))
show("numbers of refusals written out", lines(r"Refused\([0-9]+, |Stopped\([0-9]+, |number: [0-9]+,|\banswer\([0-9]+, |refuse_\w+\([0-9]+, |put_refusal\(out, [0-9]"))
show("refusals handed on by hand", lines(r"(Refused|Stopped)(\(number, place\)| \{ number, place \}) =>|number != 0|None => None|Bad => "))
show("a refusal beside the answer's fields", lines(r"pub refusal: Refusal"))
show("an index, or a number past all indices for none", (f"{f.relative_to(ROOT)}: {n}" for f, n, p, c, b in FUNCTIONS if n in ("wrong_value", "wrong_status", "wrong_entry", "first_over", "first_nonzero", "chosen", "first_bad", "first_step", "undo", "external")
     and "Option" not in c.split("ensures")[0].split("requires")[0]))
show("kinds compared as numbers", lines(r"\b(k|j|kind|file\[[^]]*\]) (==|!=) [0-2]\b"))
print("2. Twins")
show("functions or structs of one shape", twins())
print("3. Loops")
show("while and loop", lines(r"^\s*('\w+: )?(while|loop)\b"))
print("4. By hand what a derive or an operator does")
show("x = x + y", lines(r"\b(\w+) = \1 [-+*/] "))
show("0 and 1 for a truth value, and or written as if", lines(r"if \w+ \{ 1 \} else \{ 0 \}|if \w+ \{ true \} else \{|if \w+ \{ \w+ \} else \{ false \}"))
show("field: field", lines(r"^\s*(\w+): \1,$"))
print("5. What travels together")
show("functions with more than seven parameters", (f"{f.relative_to(ROOT)}: {n} ({len(p)})" for f, n, p, c, b in FUNCTIONS if len(p) > 7))
show("functions with the file and its shape", (f"{f.relative_to(ROOT)}: {n}" for f, n, p, c, b in FUNCTIONS if any(x.startswith("shape") for x in p) and any(x.startswith("file") for x in p)))
show("facts required by three functions or more", facts())
print("6. Buffers with a place beside them")
show("functions with a buffer and a place in it", (f"{f.relative_to(ROOT)}: {n}" for f, n, p, c, b in FUNCTIONS if any(x.startswith(("out:", "buf:")) for x in p) and any(x.split(":")[0] in ("at", "cur", "pen") for x in p)))
print("7. Switches")
show("decisions over an operator byte", lines(r"match op \{"))
