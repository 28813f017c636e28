"""Runs cases: tests that are data, in files `cases/AREA/NAME.json`.

A file is an object of
  about    where its answers come from
  program  "mo", the compiler, "probe", the program mo_probe, whose commands are library calls, or "player", the program
           meaning_player, which plays scripts by the meaning of programs
  words    the words of the command line, for each case that has none of its own
  cases    a list of cases

and a case an object of
  name     what it is about
  words    the words of the command line
  files    what lies in the folder in which the program runs: contents by name
  out      what is wanted on the output ("" if left out), or null: anything
  err      what is wanted on the error stream; left out: anything
  status   the exit status that is wanted (0 if left out)
  makes    contents that files must have afterwards, by name; null: there is no such file
  each     [first, last]: the case stands for one of each number from the first to the last. In its texts `{n}` is the
           number, and a count may be [a, b] for a times the number and b

Contents are a text, or an object of one of
  hex      bytes in hexadecimal digits
  parts    a list of contents, one behind another
  repeat   [contents, count]
  numbers  [first, count]: numbers from the first on, one a line
  module   a WebAssembly module (see modules.py beside this)
"""
import argparse
import concurrent.futures
import json
import os
import pathlib
import subprocess
import sys
import tempfile

import modules

TOP = pathlib.Path(__file__).resolve().parent.parent
PROGRAMS = {"mo": "mo_cli", "probe": "mo_probe", "player": "meaning_player"}
SECONDS = 60


def contents(it):
    """Returns the bytes that contents stand for."""
    if isinstance(it, str):
        return it.encode("utf-8")
    if "hex" in it:
        return bytes.fromhex(it["hex"])
    if "parts" in it:
        return b"".join(contents(part) for part in it["parts"])
    if "repeat" in it:
        part, count = it["repeat"]
        return contents(part) * count
    if "numbers" in it:
        first, count = it["numbers"]
        return b"".join(b"%d\n" % number for number in range(first, first + count))
    return modules.assemble(it["module"])


def at(it, number):
    """Returns a part of a case that stands for one of each number, at this number."""
    if isinstance(it, str):
        return it.replace("{n}", str(number))
    if isinstance(it, list):
        return [at(part, number) for part in it]
    if not isinstance(it, dict):
        return it
    made = {key: at(part, number) for key, part in it.items()}
    for key in ("repeat", "numbers"):
        if key in made and isinstance(made[key][1], list):
            times, more = made[key][1]
            made[key][1] = times * number + more
    return made


def cases_for(case):
    """Returns the cases that a case stands for."""
    if "each" not in case:
        return [case]
    first, last = case["each"]
    return [at(case, number) for number in range(first, last + 1)]


def found_in(folder, name):
    """Returns what the file of that name holds, if there is one."""
    path = folder / name
    return path.read_bytes() if path.is_file() else None


def differences(case, words, program):
    """Runs a case and returns what is not as it wants it."""
    with tempfile.TemporaryDirectory() as room:
        folder = pathlib.Path(room)
        for name, held in case.get("files", {}).items():
            (folder / name).parent.mkdir(parents=True, exist_ok=True)
            (folder / name).write_bytes(contents(held))
        try:
            ran = subprocess.run([program, *words], cwd=folder, stdin=subprocess.DEVNULL, capture_output=True, timeout=SECONDS)
        except subprocess.TimeoutExpired:
            return [f"no end within {SECONDS} s"]
        bad = []
        wanted = {"status": case.get("status", 0), "out": case.get("out", ""), "err": case.get("err")}
        got = {"status": ran.returncode, "out": ran.stdout, "err": ran.stderr}
        for what, want in wanted.items():
            want = contents(want) if isinstance(want, (str, dict)) else want
            if want is not None and got[what] != want:
                bad.append(f"{what} is {shown(got[what])}, and not {shown(want)}")
        for name, held in case.get("makes", {}).items():
            want = None if held is None else contents(held)
            if found_in(folder, name) != want:
                bad.append(f"{name} holds {shown(found_in(folder, name))}, and not {shown(want)}")
        return bad


def shown(it):
    return repr(it.decode("utf-8", "replace"))[:1000] if isinstance(it, bytes) else repr(it)


def cases_of(file):
    """Returns the cases of a file, each with its name, its words and its program."""
    table = json.loads(file.read_text("utf-8"))
    program = TOP / "crates" / PROGRAMS[table["program"]] / "out" / PROGRAMS[table["program"]]
    area = f"{file.parent.name}/{file.stem}"
    every = [case for it in table["cases"] for case in cases_for(it)]
    return [(f"{area}: {case['name']}", case, case.get("words", table.get("words", [])), program) for case in every]


def main():
    parser = argparse.ArgumentParser(description="Runs the cases of files, or of all files below cases/.")
    parser.add_argument("files", nargs="*", type=pathlib.Path)
    files = parser.parse_args().files or sorted((TOP / "cases").glob("*/*.json"))
    every = [case for file in files for case in cases_of(file)]
    failed = 0
    with concurrent.futures.ThreadPoolExecutor(os.cpu_count()) as pool:
        for (name, *_), bad in zip(every, pool.map(lambda it: differences(*it[1:]), every)):
            failed += bool(bad)
            for line in bad:
                print(f"{name}: {line}")
    print(f"cases: {len(every) - failed} as wanted, {failed} not")
    return 1 if failed or not every else 0


if __name__ == "__main__":
    sys.exit(main())
