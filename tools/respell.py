"""Respells the repository's own definitions and lemmas: words joined by underscores, types in camel case.

    python3 tools/respell.py

Run once at the top, after /opt/rattle/port/port.py. tools/respell.txt has a line for each name, old and new.
Whole names alone are replaced, in .antt files, in the ghost lines and clauses of .rt files (strings apart) and,
between backquotes, in docs/. Edits in must-fail/ are left to the hand."""
import os
import re

HERE = os.path.dirname(os.path.abspath(__file__))
NAMES = dict(line.split() for line in open(os.path.join(HERE, "respell.txt"), encoding="utf8"))
EDGE = r"\s(){}\[\];,.:`\"λ«»"
OLD = re.compile(r"(?<![^%s])([^%s]+)(?![^%s])" % (EDGE, EDGE, EDGE))
STRING = re.compile(r"\"(?:[^\"\\]|\\.)*\"")


def respell(text):
    # the library's word for every element of a list, by recursion, under its own name
    own = dict(NAMES, All="AllByRecursion") if "AllByRecursion as All" in text else NAMES
    text = text.replace("AllByRecursion as All", "AllByRecursion")
    return OLD.sub(lambda m: own.get(m.group(1), m.group(1)), text)


def respell_source(text):
    out, last = [], 0
    for m in STRING.finditer(text):
        out += [respell(text[last:m.start()]), m.group(0)]
        last = m.end()
    return "".join(out + [respell(text[last:])])


def respell_page(text):
    return re.sub(r"`[^`\n]+`", lambda m: respell(m.group(0)), text)


def files():
    for top, how in (("crates", None), ("docs", respell_page)):
        for folder, _, names in os.walk(top):
            for name in names:
                if name.endswith(".antt"):
                    yield os.path.join(folder, name), respell
                elif name.endswith(".rt"):
                    yield os.path.join(folder, name), respell_source
                elif name.endswith(".md") and how:
                    yield os.path.join(folder, name), how


def main():
    for path, how in files():
        with open(path, encoding="utf8") as f:
            old = f.read()
        new = how(old)
        if new != old:
            with open(path, "w", encoding="utf8") as f:
                f.write(new)


main()
