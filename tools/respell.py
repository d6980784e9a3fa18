#!/usr/bin/env python3
"""Brings the repository's own names to snake case, and its clauses to plain facts, after port.py.

usage: python3 tools/respell.py        at the top of the repository

In the files of crates/ (contracts, definitions, lemmas, proofs and must-fail edits) and in the pages:
- a name whose parts are in camel case gets underscores, as halvesEven halves_even; nothing in quotes is touched, and Rust code has
  no such name; in a page, where the crates have the name;
- `getD` in a lemma's name is `get_or`, std's word for the element at an index;
- the constructor `result` of an Answer is `gives`, since `result` names what a function returns;
- a clause that port.py left as `λ r. ⌜ fact ⌝` is its fact, with `result` for `r`;
- a must-fail edit, which port.py leaves alone, has port.py's spelling of operators, paths, projections and names too.
"""

import os
import re

CAMEL = re.compile(r"(?<![A-Za-z0-9_.])[a-z][a-z0-9]*(?:_[a-z0-9]+)*[A-Z][A-Za-z0-9]*(?:_[A-Za-z0-9]+)*|(?<=[.])[a-z][a-z0-9]*[A-Z][A-Za-z0-9]*")
CLAUSE = re.compile(r"(ensures|requires)\*?((?: \w+)?) \{\s*λ (\w+|_)\.\s*⌜\s*(.*?)\s*⌝\s*\}", re.S)
ANSWER = re.compile(r"use Rattle\.refusal\.specs\.Refused\.\{([^}]*)\}")
# What port.py turned among the names that must-fail edits cite.
TURNED = {"negℤ": "neg_ℤ", "andThen": "and_then", "getD": "get_or", "vec-len": "vec_len", "natAbs": "nat_abs", "isHeld": "is_held", "isZero": "is_zero", "at-least": "at_least", "edgeOf": "edge_of", "textOf": "text_of", "bytesOf": "bytes_of", "in-order": "in_order", "at-rest": "at_rest", "its-affine": "its_affine", "completed-is": "completed_is", "of-px": "of_px"}
SPECIAL = {"getD": "get_or", "leZ": "le_z", "ltZ": "lt_z"}


def snake(name):
    if name in SPECIAL:
        return SPECIAL[name]
    name = re.sub(r"([a-z0-9])([A-Z])", r"\1_\2", name)
    name = re.sub(r"([A-Z])([A-Z][a-z])", r"\1_\2", name)
    return name.lower()


def names(text):
    """Camel case to snake case, outside of double quotes."""
    parts = re.split(r'("(?:[^"\\\n]|\\.)*")', text)
    return "".join(p if i % 2 else CAMEL.sub(lambda m: snake(m.group(0)), p) for i, p in enumerate(parts))


def imports_answer(text):
    return any("result" in [n.strip() for n in m.group(1).split(",")] for m in ANSWER.finditer(text))


def code_lines(text, mark):
    """(line, comment) pairs: a comment keeps the word `result`."""
    for line in text.split("\n"):
        i = line.find(mark)
        yield (line, "") if i < 0 else (line[:i], line[i:])


def constructor(text, mark):
    word = re.compile(r"(?<![\w.'-])result(?![\w'-])")
    return "\n".join(word.sub("gives", code) + rest for code, rest in code_lines(text, mark))


def fact(m):
    kind, label, name, body = m.groups()
    if name != "_":
        body = re.sub(r"(?<![\w.'-])" + name + r"(?![\w'-])", "result", body)
    return f"{kind}{label} {{ {body} }}"


def edited(text):
    """A must-fail edit, its lines as port.py writes those of the file that it edits."""
    text = re.sub(r"Rattle\u00b7(\w+)\u00b7(specs|proofs)\.\2\.", r"Rattle.\1.\2.", text)
    text = re.sub(r"Rattle\u00b7(\w+)[\u00b7.]", r"Rattle.\1.", text)
    text = text.replace("\u2032", "'")
    text = re.sub(r"\((\w[\w']*) ((?:\.\w+ ?)+)\)", lambda m: m.group(1) + m.group(2).replace(" ", ""), text)
    text = re.sub(r"(?<=[\w')]) \.(?=[a-z])", ".", text)
    text = CLAUSE.sub(fact, text)
    for old, new in TURNED.items():
        text = re.sub(r"(?<![\w.'-])" + re.escape(old) + r"(?![\w'-])", new, text)
    return text


def turned(path, text):
    new = names(text)
    if path.endswith(".antt") and (imports_answer(text) or path.endswith("refusal/specs/Refused.antt")):
        new = constructor(new, "--")
    if path.endswith(".rt"):
        if imports_answer(text):
            new = constructor(new, "//")
        new = CLAUSE.sub(fact, new)
    return new


def turned_edit(path, text):
    crate = path.split("/must-fail/")[0]
    target = re.search(r"^file: (.*)$", text, re.M).group(1).strip()
    with open(os.path.join(crate, target), encoding="utf-8") as f:
        aim = f.read()
    head, cut, rest = text.partition("file:")
    rest = names(edited(rest))
    if imports_answer(aim.replace("gives", "result")) or target == "specs/Refused.antt":
        rest = constructor(rest, "\0")
    return names(head) + cut + rest


def walk(top, endings):
    for folder, dirs, found in os.walk(top):
        dirs[:] = sorted(d for d in dirs if d not in ("out", ".git", "target"))
        for n in sorted(found):
            if n.endswith(endings) and n != "PORT.md":
                yield os.path.join(folder, n)


def rewrite(paths, turn):
    changed = 0
    for path in paths:
        with open(path, encoding="utf-8") as f:
            text = f.read()
        new = turn(path, text)
        if new != text:
            changed += 1
            with open(path, "w", encoding="utf-8") as f:
                f.write(new)
    return changed


def main():
    sources = list(walk("crates", (".antt", ".rt")))
    own = set()
    for path in sources:
        with open(path, encoding="utf-8") as f:
            own.update(CAMEL.findall(f.read()))

    def page(path, text):
        return CAMEL.sub(lambda m: snake(m.group(0)) if m.group(0) in own else m.group(0), text)

    changed = rewrite(sources, turned)
    changed += rewrite(walk("crates", (".edit",)), turned_edit)
    changed += rewrite(list(walk("docs", (".md",))) + ["README.md", "host/README.md"], page)
    print(f"respell: {changed} files")


if __name__ == "__main__":
    main()
