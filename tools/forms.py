"""Lists places in crates/*/src that are written in an older form, by the points of docs/DESIGN-PASS.md.

Run at the top of the repository: python3 tools/forms.py [POINT]. A line is a place to look at, not a verdict.
"""
import collections
import glob
import re
import sys

FILES = {p: open(p, encoding="utf-8").read().split("\n") for p in sorted(glob.glob("crates/*/src/*.rt"))}


def crate(path):
    return path.split("/")[1]


def grep(pattern):
    regex = re.compile(pattern)
    return [(p, i + 1, line.strip()) for p, lines in FILES.items() for i, line in enumerate(lines) if regex.search(line) and not line.strip().startswith(("//", "ghost use"))]


def functions():
    """(path, line, name, signature, clauses, body) of each function."""
    for path, lines in FILES.items():
        i = 0
        while i < len(lines):
            found = re.match(r"\s*(?:pub(?:\(crate\))? )?fn (\w+)", lines[i])
            if not found:
                i += 1
                continue
            start, signature, clauses, body = i, [], [], []
            while i < len(lines) and not re.match(r"\s*(requires|ensures)\b", lines[i]) and not lines[i].rstrip().endswith(("{", "{}", ";")):
                signature.append(lines[i].strip())
                i += 1
            if i < len(lines) and lines[i].rstrip().endswith(("{", "{}", ";")) and not re.match(r"\s*(requires|ensures)\b", lines[i]):
                signature.append(lines[i].strip())
            while i < len(lines) and re.match(r"\s*(requires|ensures)\b", lines[i]):
                clauses.append(lines[i].strip())
                i += 1
            indent = len(lines[start]) - len(lines[start].lstrip())
            while i < len(lines) and lines[i].rstrip() not in (" " * indent + "}", " " * indent + "{}"):
                body.append(lines[i])
                i += 1
            yield path, start + 1, found.group(1), " ".join(signature), clauses, body
            i += 1


def options_and_results():
    yield from (("enum of its own", *x) for x in grep(r"^\s*(pub(\(crate\))? )?enum \w+"))
    yield from (("number of a kind", *x) for x in grep(r"fn (number|place|rank_of)\("))
    yield from (("`?` by hand", *x) for x in grep(r"(Err\((\w+)\) => (return )?Err\(|None => (return )?None\b)"))
    for path, lines in FILES.items():
        for i, line in enumerate(lines):
            if re.search(r"let (Some|Ok)\(.*else \{\s*$", line) and i + 1 < len(lines) and re.search(r"return (None|true|false|Some\(\w+\));", lines[i + 1]):
                yield "`?` by hand", path, i + 1, line.strip()
            if re.match(r"\s*match ", line):
                arms = "\n".join(lines[i : i + 8])
                if re.search(r"(Some|Ok)\(", arms) and re.search(r"(None|Err\(_\)|_) => (false|true|0|None|Ok\(\(\)\)|SmallSet::empty\(\)|unreachable\(\))", arms):
                    yield "match on an option for a method", path, i + 1, line.strip()


def twins():
    groups = collections.defaultdict(list)
    for path, line, name, _, clauses, _ in functions():
        ensures = [re.sub(r"^ensures \w+ \{|^ensures \{", "{", c) for c in clauses if c.startswith("ensures")]
        if ensures:
            text = "\n".join(sorted(ensures))
            text = re.sub(r"self\.(old|new|now)\.\w+", r"self.\1", text)
            groups[re.sub(r"\b(self|slots|records|views|policy|book|broker)\b", "_", text)].append((path, line, name))
    for found in groups.values():
        if len(found) > 1:
            yield "same contract", found[0][0], found[0][1], " = ".join(f"{crate(p)}.{n}" for p, _, n in found)
    names = collections.defaultdict(list)
    for path, line, name, signature, _, _ in functions():
        if not re.match(r"(fn|pub fn) (new|fmt|main|chart|allows|enter|withdraw|nothing|join|at_most|price|view|number|place|text|next)\(", signature):
            names[name].append((path, line, name))
    for name, found in names.items():
        if len(found) > 1:
            yield "same name", found[0][0], found[0][1], " = ".join(f"{crate(p)}.{n}" for p, _, n in found)


def loops():
    yield from (("range", *x) for x in grep(r"for \w+ in .*\.\."))
    yield from (("while", *x) for x in grep(r"^\s*(while|loop)\b"))
    for path, line, name, _, _, body in functions():
        text = "\n".join(body)
        if re.search(r"\bfor\b", text) and re.search(r"return (true|false|Some\()", text):
            yield "search by hand", path, line, name
        if re.search(r"\bfor\b", text) and re.search(r"\+= 1|= \w+ \+ 1;", text):
            yield "count by hand", path, line, name


def by_hand():
    yield from (("equality", *x) for x in grep(r"is_same\("))
    yield from (("copied field", *x) for x in grep(r"^\s*(\w+): (self|seen|place)\.\1,"))
    yield from (("empty value", *x) for x in grep(r"^\s*(shown|path|filtered|attributes): (none|SmallSet::empty\(\)),"))
    yield from (("conversion", *x) for x in grep(r"Err\(\w+Refusal::(Rule|Tree)\((refusal|\w+)\)\)"))


def facts_and_parameters():
    uses = collections.Counter()
    for path, _, name, _, clauses, _ in functions():
        for clause in clauses:
            fact = re.sub(r"^(requires|ensures)( \w+)? \{|\}$", "", clause).strip()
            fact = re.sub(r"\b(\w+)\.(old|new|now|entry)\b", r"\1", fact)
            uses[(crate(path), fact)] += 1
    for (name, fact), n in sorted(uses.items()):
        if n >= 3:
            yield f"fact in {n} contracts", f"crates/{name}/src", 0, fact
    terms = collections.Counter()
    for path, _, _, _, clauses, _ in functions():
        for term in set(re.findall(r"pricing_of T\.Tariff[^)]*|P\.Policy\.reading policy\.now \(P\.Policy\.rules policy\.now\)|layout \(P\.Policy\.charted policy\.now\)", " ".join(clauses))):
            terms[(crate(path), re.sub(r" tariff.now$", "", term))] += 1
    for (name, term), n in sorted(terms.items()):
        if n >= 3:
            yield f"term in {n} contracts", f"crates/{name}/src", 0, term
    params = collections.Counter()
    for path, _, _, signature, _, _ in functions():
        inside = re.search(r"\((.*)\)", signature)
        names = [q.strip().split(":")[0] for q in re.split(r",(?![^<\[(]*[>\])])", inside.group(1))] if inside else []
        names = [n for n in names if n and "self" not in n and n != "rt"]
        for a in range(len(names)):
            for b in range(a + 2, len(names) + 1):
                params[(crate(path), tuple(names[a:b]))] += 1
    kept = {}
    for (name, group), n in params.items():
        if n >= 3 and len(group) >= 2:
            kept[(name, group)] = n
    for (name, group), n in sorted(kept.items()):
        if not any(o != group and name == m and n == kept[(m, o)] and set(group) <= set(o) for m, o in kept):
            yield f"parameters of {n} functions", f"crates/{name}/src", 0, ", ".join(group)


def buffers():
    yield from (("array field", *x) for x in grep(r"^\s*(pub(\(crate\))? )?\w+: \[.*; \w+\],"))
    yield from (("count field", *x) for x in grep(r"^\s*(pub(\(crate\))? )?(\w*count|releases|n): (usize|u16),"))
    for path, line, name, signature, _, _ in functions():
        if re.search(r"\[", signature) and re.search(r"\b(count|n|at|from|mut n): (&mut )?(usize|u16)\b", signature):
            yield "buffer with a length beside it", path, line, name


def switches():
    for path, line, name, _, _, body in functions():
        text = "\n".join(body)
        if len(re.findall(r"^\s+\w+::\w+(\(.*\)|\s*\{.*\})? =>", text, re.M)) >= 2:
            yield "match on own enum", path, line, name


POINTS = {
    "1": ("own options, results and numbers", options_and_results),
    "2": ("twins", twins),
    "3": ("loops", loops),
    "4": ("by hand what a derive or trait says", by_hand),
    "5": ("facts and parameters that travel together", facts_and_parameters),
    "6": ("buffers with a length beside", buffers),
    "7": ("switches", switches),
}


def main():
    wanted = sys.argv[1:] or list(POINTS)
    for point in wanted:
        title, places = POINTS[point]
        rows = sorted(set(places()), key=lambda r: (r[1], r[2]))
        kinds = collections.Counter(r[0].rstrip("0123456789") if not re.search(r"\d", r[0]) else re.sub(r"\d+", "N", r[0]) for r in rows)
        print(f"Point {point}, {title}: {len(rows)} ({', '.join(f'{k} {n}' for k, n in sorted(kinds.items()))})")
        for kind, path, line, text in rows:
            print(f"  {path}:{line}: {kind}: {text}")


main()
