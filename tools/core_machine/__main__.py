"""python3 tools/core_machine CORE_LINES CASES.json..

Plays the scripts of cases on the programs of nested expressions that CORE_LINES prints of their sources, by a machine that is written here
from its definition, and compares the transcripts. It knows no limits of steps, stack and heap: cases that ask for one, or that end with
another status than 0, are passed over. CORE_LINES is the program `core_lines`, or a folder with what it printed of each source, by the
SHA-256 of the source."""
import hashlib
import json
import os
import subprocess
import sys
import tempfile

from actor import Actor
from lines import Program
from values import Stuck


def content(v):
    if isinstance(v, str):
        return v.encode()
    if "hex" in v:
        return bytes.fromhex(v["hex"])
    if "rep" in v or "repeat" in v:
        what, count = v.get("rep", v.get("repeat"))
        return content(what) * count
    return b"".join(content(p) for p in v["parts"])


def core_of(lines, source):
    if os.path.isdir(lines):
        path = os.path.join(lines, hashlib.sha256(source).hexdigest())
        return open(path).read() if os.path.exists(path) else None
    with tempfile.TemporaryDirectory() as d:
        path = os.path.join(d, "a.mo")
        open(path, "wb").write(source)
        p = subprocess.run([lines, path], stdout=subprocess.PIPE, stderr=subprocess.PIPE)
    return p.stdout.decode() if p.returncode == 0 else None


# `run SCRIPT SRC..` of `mo`, and `TURNS SCRIPT SRC..` of `meaning_player`
def asked(case):
    words, out = case.get("words", []), case.get("out")
    limits = ("trapped steps", "trapped stack", "trapped heap")
    plays = words[:1] == ["run"] or (words[:1] and words[0].isdigit())
    if not plays or "each" in case or case.get("status", 0) != 0 or not isinstance(out, str) or any(l in out for l in limits) or "still" in out:
        return False
    return all(w in case["files"] and (not isinstance(case["files"][w], dict) or not {"numbers", "module"} & set(case["files"][w])) for w in words[1:])


def main(argv):
    lines, passed, failed, left = argv[0], 0, 0, 0
    for path in argv[1:]:
        data = json.load(open(path))
        for case in data["cases"]:
            case.setdefault("words", data.get("words", []))
            if not asked(case):
                left += 1
                continue
            files = {f: content(v) for f, v in case["files"].items()}
            texts = [core_of(lines, files[w]) for w in case["words"][2:]]
            if None in texts:
                failed += 1
                print("FAIL %s: no program" % case["name"])
                continue
            actor = Actor([Program(t) for t in texts])
            try:
                out = actor.play(files[case["words"][1]].decode())
            except Stuck:
                out = "".join(l + "\n" for l in actor.lines) + "stuck\n"
            except TimeoutError:
                out = "".join(l + "\n" for l in actor.lines) + "still\n"
            if out == case["out"]:
                passed += 1
            else:
                failed += 1
                print("FAIL %s: %r, not %r" % (case["name"], out[:400], case["out"][:400]))
    print("%d passed, %d failed, %d passed over" % (passed, failed, left))
    return 1 if failed else 0


if __name__ == "__main__":
    import threading
    sys.setrecursionlimit(5_000_000)
    threading.stack_size(512 * 1024 * 1024)
    status = []
    t = threading.Thread(target=lambda: status.append(main(sys.argv[1:])))
    t.start()
    t.join()
    sys.exit(status[0] if status else 2)
