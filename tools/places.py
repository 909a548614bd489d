#!/usr/bin/env python3
"""Lists the places in src/ that docs/DESIGN-PASS.md counts, point by point.

usage: python3 tools/places.py [POINT] [-v]     at the top of the repository; -v prints each place
"""
import collections
import glob
import re
import sys

FUNCTION = re.compile(r"^(?:    )?(?:pub )?(?:extern \"C\" )?fn (\w+)(?:<[^(]*>)?\((.*?)\)(?: -> ([^\n{]+?))?\n?((?:\s+(?:requires|ensures)\b.*?)?)\s*\{\n(.*?)^(?:    )?\}\n", re.S | re.M)
WORD = re.compile(r"[A-Za-z_]\w*|\d+")
KEPT = set("if else while for in let mut return match as true false loop break continue fn pub".split())


def sources():
    for path in sorted(glob.glob("crates/*/src/*.rt")):
        yield path, open(path).read()


def matching(pattern):
    """The lines that a pattern is found in; comments are not looked at."""
    found = []
    for path, text in sources():
        for number, line in enumerate(text.split("\n"), 1):
            if not line.lstrip().startswith("//") and re.search(pattern, line):
                found.append(f"{path}:{number}: {line.strip()}")
    return found


def functions():
    """Path, name, parameters, result, clauses and body of each function."""
    for path, text in sources():
        for match in FUNCTION.finditer(text):
            yield (path,) + tuple(part or "" for part in match.groups())


def shape(body):
    """A body with its names and numbers replaced by their order of occurrence."""
    order = {}
    return WORD.sub(lambda w: w[0] if w[0] in KEPT else f"_{order.setdefault(w[0], len(order))}", body)


def twins():
    """Functions of one shape in result, parameters and body, where it has two lines or more."""
    alike = collections.defaultdict(list)
    for path, name, parameters, result, _, body in functions():
        if body.count("\n") >= 2:
            alike[shape(body)].append(f"{path}: {name}")
    return ["; ".join(names) for names in alike.values() if len(names) > 1]


def facts():
    """Clauses that the requires of three or more functions of a crate repeat."""
    count = collections.Counter()
    for path, _, _, _, clauses, _ in functions():
        for clause in re.findall(r"requires(?: \w+)? \{ (.*?) \}\n", clauses + "\n", re.S):
            count[path.split("/")[1], " ".join(clause.split())] += 1
    return [f"{crate}: {n} times {clause}" for (crate, clause), n in sorted(count.items()) if n >= 3]


def together():
    """Three or more parameters of the same names and types that three or more functions of a crate have side by side."""
    count = collections.Counter()
    for path, _, parameters, _, _, _ in functions():
        names = [" ".join(p.split()) for p in parameters.split(",") if p.strip()]
        for i in range(len(names) - 2):
            count[path.split("/")[1], ", ".join(names[i : i + 3])] += 1
    return [f"{crate}: {n} times {names}" for (crate, names), n in sorted(count.items()) if n >= 3]


POINTS = {
    "1a own enums": lambda: matching(r"^(pub )?enum "),
    "1b flags in structs": lambda: matching(r"^    (pub )?\w+: bool,"),
    "1c numbers that say none": lambda: matching(r"const (NONE|NEVER|NO_TOTAL|INPUT_END|PAST_WIDTH)\b"),
    "1d numbers of refusals": lambda: matching(r"^(pub )?const \w+: u8 = \d+;|-> u8$"),
    "2 twins": twins,
    "3 loops by hand": lambda: matching(r"\b(while|loop)\b.*\{$"),
    "4a functions that convert or compare": lambda: [
        f"{path}: {name}" for path, name, _, _, _, body in functions()
        if re.fullmatch(r"\s*(?:\(?-?\w+\)?(?: as \w+)+|\w+ (?:==|<=|<) \w+|if (\w+) < (\w+) \{\s*(?:return )?\w+;?\s*\}(?: else \{ \w+ \}|\s*\w+))\s*", body)],
    "4b conversions that lose nothing, by as": lambda: matching(r" as (usize|u32|u64|i64)\b"),
    "5a facts in three contracts or more": facts,
    "5b parameters that travel together": together,
    "6 lengths beside slices": lambda: [
        f"{path}: {name}" for path, name, parameters, _, _, _ in functions()
        if re.search(r"\b(arcs|values|nodes): &(mut )?\[u32\], (count|m|n): usize", " ".join(parameters.split()))],
    "7 switches on the step to run": lambda: matching(r"match (format|letter)\b|\bback: bool"),
}


def main():
    arguments = [a for a in sys.argv[1:] if a != "-v"]
    for point, places in POINTS.items():
        if arguments and not point.startswith(arguments[0]):
            continue
        found = places()
        print(f"{len(found):4} {point}")
        if "-v" in sys.argv:
            print("\n".join("       " + place for place in found))
    if not arguments or arguments[0] == "8":
        answers = [len(re.findall(r"^pub \S+ :", open(p).read(), re.M)) for p in glob.glob("crates/*/proofs/**/Answers.antt", recursive=True)]
        print(f"{sum(answers):4} 8 answers, in {len(answers)} files")


main()
