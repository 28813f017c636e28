"""Runs `mo check` and `mo explain` on the examples of docs/FAULTS.md and compares the lines and the meanings; and sees that each fault that the front end names stands there.

Below a heading `### GROUP.NAME` stands an example, as a block of `motoko` or, in the form of the contents of cases.py, of `json`, and then
the line that is wanted, indented by four spaces.
"""
import json
import pathlib
import re
import subprocess
import sys
import tempfile

import cases

TOP = cases.TOP
NOT_OF_CHECK = {"Build.NotYet"}
NAMES = {"Lex": ("mo_front", "FaultNames", r"^lex_name .*codes \"(\w+)\""), "Parse": ("mo_front", "FaultNames", r"^parse_name .*codes \"(\w+)\""),
         "Name": ("mo_front", "FaultNames", r"^name_name .*codes \"(\w+)\""), "Type": ("mo_check", "Names", r"^condition_name .*codes \"(\w+)\"")}


def named():
    """Returns the faults that the definitions of the front end name."""
    made = set()
    for group, (crate, module, pattern) in NAMES.items():
        text = (TOP / "crates" / crate / "specs" / f"{module}.antt").read_text("utf-8")
        made |= {f"{group}.{name}" for name in re.findall(pattern, text, re.M) if name != "Memory"}
    return made


def examples():
    """Returns each heading with its source, its line and its meaning, where they are there."""
    text = (TOP / "docs" / "FAULTS.md").read_text("utf-8")
    made = {}
    for part in re.split(r"^### ", text, flags=re.M)[1:]:
        name, rest = part.split("\n", 1)
        block = re.search(r"^```(motoko|json)\n(.*?)\n```$", rest, re.M | re.S)
        line = re.search(r"^    (refused .*)$", rest, re.M)
        source = block and (block[2].encode("utf-8") if block[1] == "motoko" else cases.contents(json.loads(block[2])))
        made[name] = (source, line and line[1], rest.strip().split("\n\n")[0].replace("\n", " "))
    return made


def main():
    found = examples()
    bad = [f"{name} is not in docs/FAULTS.md" for name in sorted(named() - set(found))]
    bad += [f"{name} is no fault" for name in sorted(set(found) - named() - NOT_OF_CHECK)]
    program = TOP / "crates" / "mo_cli" / "out" / "mo_cli"
    ran = 0
    for name, (source, line, meaning) in found.items():
        if name in NOT_OF_CHECK:
            continue
        if source is None or line is None:
            bad.append(f"{name} has no example, or no line")
            continue
        with tempfile.TemporaryDirectory() as room:
            (pathlib.Path(room) / "a.mo").write_bytes(source)
            end, told = (subprocess.run([program, command, "a.mo"], cwd=room, stdin=subprocess.DEVNULL, capture_output=True, timeout=cases.SECONDS)
                         for command in ("check", "explain"))
        ran += 1
        if (end.returncode, end.stdout, end.stderr) != (1, b"", f"{line}\n".encode("utf-8")):
            bad.append(f"{name}: status {end.returncode}, {end.stderr!r}, and not {line!r}")
        where = line.split(" ")
        first, last = f"{where[3]} {where[2]}\n", f"\n{meaning}\n"
        text = told.stdout.decode("utf-8", "replace")
        if told.returncode != 1 or told.stderr or not text.startswith(first) or not text.endswith(last):
            bad.append(f"{name}: mo explain says {text!r}")
    for line in bad:
        print(line)
    print(f"faults: {ran} examples, {len(bad)} not as wanted")
    return 1 if bad or not ran else 0


if __name__ == "__main__":
    sys.exit(main())
