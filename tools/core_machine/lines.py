"""The lines that `core_lines` prints, read into a program."""
import json

from candid import Coding
from values import UNIT


class Body:
    def __init__(self, parts):
        self.parameters, self.nodes = parts[0], parts[1]
        self.expression = expression(parts[2])


def constant(c):
    if c[0] == "unit":
        return UNIT
    return datum(c)


def datum(c):
    kind = c[0]
    if kind in ("text", "blob", "principal", "actor"):
        return (kind, bytes.fromhex(c[1]))
    if kind == "method":
        return (kind, bytes.fromhex(c[1]), bytes.fromhex(c[2]))
    return tuple(c)


def primitive(p):
    if p[0] == "is":
        return ("is", datum(p[1]))
    if p[0] in ("tag", "field", "method", "fail"):
        return (p[0], bytes.fromhex(p[1]))
    if p[0] == "object":
        return ("object", tuple(bytes.fromhex(l) for l in p[1]))
    return tuple(p)


def goal(g):
    if g[0] in ("choose", "match"):
        what = primitive(g[1]) if g[0] == "choose" else tuple([g[1][0]] + [bytes.fromhex(x) for x in g[1][1:]])
        return (g[0], what, expression(g[2]), expression(g[3]))
    if g[0] in ("call", "tabulate", "throw", "await", "return"):
        return (g[0],)
    if g[0] == "send":
        return ("send", g[1], g[2])
    if g[0] == "break" and len(g) == 2 and isinstance(g[1], int):
        return ("break", g[1])
    return ("operate", primitive(g))


def expression(e):
    kind = e[0]
    if kind == "constant":
        return ("constant", constant(e[1]))
    if kind in ("name", "global"):
        return (kind, e[1])
    if kind == "do":
        return ("do", goal(e[1]), [expression(x) for x in e[2:]])
    if kind == "block":
        made = expression(e[2])
        for b in reversed(e[1]):
            if isinstance(b, int):
                made = ("functions", b, made)
            else:
                made = ("do", ("bind", made), [expression(b)])
        return made
    if kind in ("loop", "label"):
        return (kind, expression(e[1]))
    if kind == "try":
        return ("try", expression(e[1]), expression(e[2]))
    raise ValueError(e[0])


class Program:
    def __init__(self, text):
        self.types, self.groups, self.methods, self.stable = [], [], [], []
        for line in text.split("\n"):
            if not line:
                continue
            x = json.loads(line)
            if x[0] == "type":
                self.types.append(x[1])
            elif x[0] == "group":
                self.groups.append((x[1], [Body(b) for b in x[2]]))
            elif x[0] == "method":
                self.methods.append((bytes.fromhex(x[1]), x[2], x[3], x[4], Body(x[5])))
            elif x[0] == "stable":
                self.stable.append((bytes.fromhex(x[1]), x[2]))
            elif x[0] == "save":
                self.save = Body(x[1])
            elif x[0] == "start":
                self.start = Body(x[1])
            else:
                raise ValueError(x[0])
        self.coding = Coding(self.types)
