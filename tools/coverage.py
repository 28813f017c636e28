"""Compares which switches `mo check` finds to miss a value with an answer by brute force, over generated cases.

Each case is a function whose parameter has a small type, and a `switch` on it with generated patterns. By brute force it misses a value
where one of the values of the type, up to the depth to which its patterns look, matches none of them. A type with no end of literals has
those that the patterns of its `switch` name, and one more. Below that depth one value of each type that has any is enough, since no
pattern looks there.
"""
import argparse
import concurrent.futures
import itertools
import os
import pathlib
import random
import subprocess
import sys
import tempfile

import cases

# Definitions that the types of cases name. R has no values, nor has a tuple with R in it.
DEFINED = {
    "L": ("option", ("tuple", ("bool",), ("name", "L"))),
    "T": ("variant", ("leaf", ("tuple",)), ("node", ("tuple", ("name", "T"), ("name", "T")))),
    "R": ("object", ("r", ("name", "R"))),
    "C": ("variant", ("red", ("tuple",)), ("green", ("tuple",)), ("blue", ("tuple",))),
}
LITERALS = {"nat": ["0", "1", "2", "7"], "int": ["0", "1", "-1", "5"], "nat8": ["0", "1", "255"], "text": ['""', '"a"', '"b"'], "char": ["'a'", "'b'", "'z'"]}
WRITTEN = {"nat": "Nat", "int": "Int", "nat8": "Nat8", "text": "Text", "char": "Char", "bool": "Bool", "null": "Null", "none": "None", "any": "Any", "array": "[Nat]", "func": "Nat -> Nat"}
LABELS = ["a", "b", "c"]


def head(kind):
    """Returns a type with the definitions at its head followed."""
    while kind[0] == "name":
        kind = DEFINED[kind[1]]
    return kind


def type_text(kind):
    """Returns a type as it is written."""
    what, *parts = kind
    if what in ("name", "parameter"):
        return parts[0]
    if what == "option":
        return f"?{type_text(parts[0])}" if parts[0][0] != "func" else f"?({type_text(parts[0])})"
    if what == "tuple":
        return f"({', '.join(map(type_text, parts))})"
    if what == "object":
        return "{ " + "; ".join(f"{label} : {type_text(part)}" for label, part in parts) + " }"
    if what == "variant":
        return "{ " + "; ".join(f"#{label} : {type_text(part)}" for label, part in parts) + " }" if parts else "{ # }"
    return WRITTEN[what]


def some_type(chance, depth):
    """Returns a type of at most this depth."""
    if depth == 0:
        return (chance.choice(["bool", "bool", "nat", "int", "nat8", "text", "char", "null", "none", "any", "array", "func"]),)
    what = chance.choice(["leaf", "leaf", "option", "option", "tuple", "tuple", "object", "variant", "variant", "variant", "name"])
    if what == "leaf":
        return some_type(chance, 0)
    if what == "name":
        return ("name", chance.choice(sorted(DEFINED)))
    if what == "option":
        return ("option", some_type(chance, depth - 1))
    if what == "tuple":
        return ("tuple", *(some_type(chance, depth - 1) for _ in range(chance.choice([0, 2, 2, 2, 3]))))
    labels = chance.sample(LABELS, chance.choice([1, 2, 2, 3]))
    return (what, *((label, some_type(chance, depth - 1)) for label in labels))


def some_pattern(chance, kind, depth):
    """Returns a pattern on a type that looks at most this deep."""
    kind = head(kind)
    what, *parts = kind
    if depth == 0 or what in ("none", "any", "array", "func", "parameter") or chance.random() < 0.2:
        return ("wild",)
    if chance.random() < 0.12:
        return ("or", some_pattern(chance, kind, depth), some_pattern(chance, kind, depth))
    if what in LITERALS:
        return ("literal", chance.choice(LITERALS[what]))
    if what == "bool":
        return ("literal", chance.choice(["true", "false"]))
    if what == "null":
        return ("literal", "null")
    if what == "option":
        return ("literal", "null") if chance.random() < 0.35 else ("some", some_pattern(chance, parts[0], depth - 1))
    if what == "tuple":
        return ("tuple", *(some_pattern(chance, part, depth - 1) for part in parts))
    if what == "object":
        chosen = [it for it in parts if chance.random() < 0.8]
        return ("object", *((label, some_pattern(chance, part, depth - 1)) for label, part in chosen))
    label, part = chance.choice(parts)
    return ("tag", label, some_pattern(chance, part, depth - 1))


def pattern_text(pattern):
    """Returns a pattern as it is written."""
    what, *parts = pattern
    if what == "wild":
        return "_"
    if what == "literal":
        return parts[0]
    if what == "or":
        return f"({pattern_text(parts[0])} or {pattern_text(parts[1])})"
    if what == "some":
        return f"(?{pattern_text(parts[0])})"
    if what == "tuple":
        return f"({', '.join(pattern_text(part) for part in parts)})"
    if what == "object":
        return "({ " + "; ".join(f"{label} = {pattern_text(part)}" for label, part in parts) + " })"
    return f"(#{parts[0]} {pattern_text(parts[1])})"


def literals_in(pattern):
    """Returns the literals of a pattern."""
    what, *parts = pattern
    if what == "literal":
        return {parts[0]}
    return set().union(*(literals_in(part[1] if isinstance(part[0], str) and what == "object" else part) for part in parts if isinstance(part, tuple)), set())


def one_value(kind, seen=()):
    """Returns a value of a type, if it has one."""
    if kind[0] == "name":
        if kind[1] in seen:
            return None
        return one_value(DEFINED[kind[1]], (*seen, kind[1]))
    what, *parts = kind
    if what == "none":
        return None
    if what == "tuple":
        inside = [one_value(part, seen) for part in parts]
        return None if None in inside else ("tuple", *inside)
    if what == "object":
        inside = [(label, one_value(part, seen)) for label, part in parts]
        return None if any(part is None for _, part in inside) else ("object", *inside)
    if what == "variant":
        for label, part in parts:
            inside = one_value(part, seen)
            if inside is not None:
                return ("tag", label, inside)
        return None
    if what == "bool":
        return ("literal", "true")
    return ("literal", "null") if what in ("option", "null") else ("other", what)


def values(kind, depth, literals):
    """Returns values of a type, all of them up to this depth."""
    if depth == 0:
        one = one_value(kind)
        return [] if one is None else [one]
    kind = head(kind)
    what, *parts = kind
    if what == "bool":
        return [("literal", "true"), ("literal", "false")]
    if what == "null":
        return [("literal", "null")]
    if what == "none":
        return []
    if what in LITERALS:
        return [("literal", literal) for literal in LITERALS[what] if literal in literals] + [("other", what)]
    if what == "option":
        return [("literal", "null"), *(("some", value) for value in values(parts[0], depth - 1, literals))]
    if what == "tuple":
        return [("tuple", *each) for each in itertools.product(*(values(part, depth - 1, literals) for part in parts))]
    if what == "object":
        every = itertools.product(*(values(part, depth - 1, literals) for _, part in parts))
        return [("object", *zip((label for label, _ in parts), each)) for each in every]
    if what == "variant":
        return [("tag", label, value) for label, part in parts for value in values(part, depth - 1, literals)]
    return [("other", what)]


def matches(pattern, value):
    """Whether a value matches a pattern."""
    what, *parts = pattern
    if what == "wild":
        return True
    if what == "or":
        return any(matches(part, value) for part in parts)
    if what == "literal":
        return value == pattern
    if value[0] != what:
        return False
    if what == "some":
        return matches(parts[0], value[1])
    if what == "tuple":
        return all(matches(part, inside) for part, inside in zip(parts, value[1:]))
    if what == "object":
        return all(matches(part, dict(value[1:])[label]) for label, part in parts)
    return parts[0] == value[1] and matches(parts[1], value[2])


def some_case(chance):
    """Returns the types of a case's parameter as it is written and as a bound, if it is one, its patterns, and whether a value is missed."""
    while True:
        kind = some_type(chance, chance.choice([0, 1, 1, 2, 2, 2]))
        depth = chance.choice([1, 2, 2, 3])
        patterns = [some_pattern(chance, kind, depth) for _ in range(chance.choice([0, 1, 1, 2, 2, 3, 3, 4, 5]))]
        literals = set().union(*(literals_in(pattern) for pattern in patterns), set())
        every = values(kind, depth + 1, literals)
        if len(every) <= 3000:
            return kind, patterns, any(not any(matches(pattern, value) for pattern in patterns) for value in every)


def source_of(chance, count):
    """Returns a source with so many cases, and the lines that are wanted of it."""
    lines = ["actor {", *(f"type {name} = {type_text(kind)};" for name, kind in sorted(DEFINED.items()))]
    wanted = []
    for number in range(count):
        kind, patterns, missed = some_case(chance)
        # A type parameter has the values of its bound, into which patterns look that are written with it.
        bounded = chance.random() < 0.15
        written = [pattern_text(pattern) for pattern in patterns]
        if bounded:
            written = [f"({pattern} : {type_text(kind)})" for pattern in written]
        front = f"func f{number}<P <: {type_text(kind)}>(x : P) {{ " if bounded else f"func f{number}(x : {type_text(kind)}) {{ "
        lines.append(front + "switch x { " + "; ".join(f"case {pattern} {{ }}" for pattern in written) + " } };")
        if missed:
            wanted.append(f"uncovered {len(lines)}:{len(front) + 1}")
    lines.append("}")
    return "\n".join(lines) + "\n", "".join(f"{line}\n" for line in wanted)


def differs(seed, count, program):
    """Runs a source and returns what is not as wanted of it, if anything."""
    source, wanted = source_of(random.Random(seed), count)
    with tempfile.TemporaryDirectory() as room:
        (pathlib.Path(room) / "a.mo").write_text(source, "utf-8")
        end = subprocess.run([program, "check", "a.mo"], cwd=room, stdin=subprocess.DEVNULL, capture_output=True, timeout=300)
    if (end.returncode, end.stderr.decode(), end.stdout.decode()) == (0, "", wanted):
        return None
    differ = sorted(set(wanted.splitlines()) ^ set(end.stdout.decode().splitlines()))
    rows = source.splitlines()
    shown = [f"  {line}: {rows[int(line.split()[1].split(':')[0]) - 1]}" for line in differ[:5]]
    return "\n".join([f"seed {seed}: status {end.returncode} {end.stderr.decode().strip()}, {len(differ)} lines differ", *shown])


def main():
    parser = argparse.ArgumentParser(description="Compares the coverage of switches with an answer by brute force.")
    parser.add_argument("--sources", type=int, default=210)
    parser.add_argument("--each", type=int, default=100, help="cases in one source")
    parser.add_argument("--seed", type=int, default=1)
    asked = parser.parse_args()
    program = cases.TOP / "crates" / "mo_cli" / "out" / "mo_cli"
    with concurrent.futures.ThreadPoolExecutor(os.cpu_count()) as pool:
        bad = [it for it in pool.map(lambda seed: differs(seed, asked.each, program), range(asked.seed, asked.seed + asked.sources)) if it]
    for line in bad:
        print(line)
    print(f"coverage: {asked.sources * asked.each} cases in {asked.sources} sources, {len(bad)} sources not as wanted")
    return 1 if bad or asked.sources == 0 else 0


if __name__ == "__main__":
    sys.exit(main())
