"""Closes generated switches with the cases that `mo explain` prints.

The switches are those of coverage.py. The case that `mo explain` prints of a switch is added to it, again and again: each time the source is
accepted, the places are those that `mo check` prints, and no case of a switch is printed twice. A switch on values with finitely many
shapes comes to an end so; with literals or types that contain themselves there may always be a further case.
"""
import argparse
import concurrent.futures
import os
import pathlib
import random
import re
import subprocess
import sys
import tempfile

import cases
import coverage

SHOWN = re.compile(r"(\d+):(\d+) The switch misses values\.\n.*\n *\^\nA case that it lacks: case \( (.*) \)\n")


def ran(program, command, source):
    """Returns the status of a command, what it printed, and its error stream."""
    with tempfile.TemporaryDirectory() as room:
        (pathlib.Path(room) / "a.mo").write_text(source, "utf-8")
        end = subprocess.run([program, command, "a.mo"], cwd=room, stdin=subprocess.DEVNULL, capture_output=True, timeout=300)
    return end.returncode, end.stdout.decode(), end.stderr.decode()


def with_case(line, case):
    """Returns the line of a function with a further case of its switch."""
    # On a type parameter a pattern that looks into values is written with the bound.
    bound = re.search(r"<P <: (.*)>\(x : P\)", line)
    case = f"(({case}) : {bound[1]})" if bound else f"({case})"
    front = line.removesuffix(" } };")
    return f"{front}{';' if front.endswith('}') else ''} case {case} {{ }} }} }};"


def closed(seed, count, rounds, program):
    """Returns how many switches missed a value and how many cases were added, and what is not as wanted, if anything."""
    source, _ = coverage.source_of(random.Random(seed), count)
    met, added, before = set(), 0, {}
    for turn in range(rounds):
        status, told, errors = ran(program, "explain", source)
        if status or errors:
            return len(before), added, f"seed {seed}, turn {turn}: status {status} {errors}{told}"
        found = SHOWN.findall(told)
        if "".join(f"uncovered {row}:{column}\n" for row, column, _ in found) != ran(program, "check", source)[1] or SHOWN.sub("", told):
            return len(before), added, f"seed {seed}, turn {turn}: other places than those of check, or another form: {told[:300]}"
        if not found:
            break
        rows = source.split("\n")
        for row, _, case in found:
            if (row, case) in met:
                return len(before), added, f"seed {seed}, turn {turn}: {case} again: {rows[int(row) - 1]}"
            met.add((row, case))
            before[row] = case
            rows[int(row) - 1] = with_case(rows[int(row) - 1], case)
            added += 1
        source = "\n".join(rows)
    return len(before), added, None


def main():
    parser = argparse.ArgumentParser(description="Closes generated switches with the cases that mo explain prints.")
    parser.add_argument("--sources", type=int, default=60)
    parser.add_argument("--each", type=int, default=100, help="switches in one source")
    parser.add_argument("--rounds", type=int, default=12, help="cases added to a switch at most")
    parser.add_argument("--seed", type=int, default=1)
    parser.add_argument("--program", default=str(cases.TOP / "crates" / "mo_cli" / "out" / "mo_cli"))
    asked = parser.parse_args()
    with concurrent.futures.ThreadPoolExecutor(os.cpu_count()) as pool:
        ends = list(pool.map(lambda seed: closed(seed, asked.each, asked.rounds, asked.program), range(asked.seed, asked.seed + asked.sources)))
    bad = [line for _, _, line in ends if line]
    for line in bad:
        print(line)
    missed, added = (sum(end[at] for end in ends) for at in (0, 1))
    print(f"explained: of {asked.sources * asked.each} switches {missed} missed values, {added} cases were added, {len(bad)} sources not as wanted")
    return 1 if bad or not missed else 0


if __name__ == "__main__":
    sys.exit(main())
