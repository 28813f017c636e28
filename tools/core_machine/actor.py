"""The run of an actor: the events of a script, and the lines of its items (mo_actor/specs, core_ir/specs/Actor)."""
from machine import MOST_BYTES, OWN, Context, Machine, World, short_message
from values import NULL, NoValue, Stuck, Trap, flag


def hexed(data):
    return data.hex() if data else "-"


class Actor:
    """One run: the events of a script, and the lines of its items."""

    def __init__(self, programs):
        self.programs, self.lines = programs, []
        self.program = None
        self.made, self.activations = 0, []

    def put_prints(self):
        for text in self.last_prints:
            self.lines.append("print " + hexed(text))

    def trapped(self, text):
        self.put_prints()
        self.lines.append("trapped text " + hexed(text))

    def start(self, program, kept):
        world = World([], [])
        self.last_prints = world.prints
        machine = Machine(Context(program, [], 0, []), world)
        values = [NULL] * len(program.stable) if kept is None else kept
        machine.enter(program.start, values + [flag(kept is not None)])
        end = machine.run()
        if end[0] != "replies" or end[1][0] != "tuple":
            raise Stuck
        return world, list(end[1][1])

    def install(self, number):
        program = self.programs[number]
        try:
            world, names = self.start(program, None)
        except Trap as t:
            self.trapped(t.text)
            return
        self.put_prints()
        self.lines.append("installed")
        self.begin(program, world, names, 0)

    def begin(self, program, world, names, first):
        self.program, self.cells, self.groups, self.names = program, world.store, world.groups, names
        self.table, self.first = [], first

    def upgrade(self, number):
        if self.program is None:
            self.lines.append("ignored")
            return
        new = self.programs[number]
        before = []
        try:
            self.last_prints = []
            if any(c["state"] == "open" for c in self.table):
                raise Trap(b"outstanding calls")
            world = World(self.cells, self.groups)
            self.last_prints = world.prints
            machine = Machine(Context(self.program, [], 0, self.names), world)
            machine.enter(self.program.save, [])
            end = machine.run()
            if end[0] != "replies" or end[1][0] != "tuple":
                raise Stuck
            saved = dict((name, (t, v)) for (name, t), v in zip(self.program.stable, end[1][1]))
            before = world.prints
            self.last_prints = before
            kept = []
            try:
                for name, u in new.stable:
                    if name in saved:
                        t, v = saved[name]
                        kept.append(("some", new.coding.keep(self.program.coding, t, u, v)))
                    else:
                        kept.append(NULL)
            except NoValue:
                raise Trap(b"incompatible stable types")
            world, names = self.start(new, kept)
            self.last_prints = before + world.prints
        except Trap as t:
            if self.last_prints is not before:
                self.last_prints = before + self.last_prints
            self.trapped(t.text)
            return
        self.put_prints()
        self.lines.append("upgraded")
        self.begin(new, world, names, self.first + len(self.table))

    def owns_open(self, owner):
        return any(c["owner"] == owner and c["state"] == "open" for c in self.table)

    def close(self, owner):
        if self.activations[owner][0] != "answered" and not self.owns_open(owner):
            self.lines.append("rejected %d 5 %s" % (owner, hexed(b"no answer")))
            self.activations[owner] = ("answered",)

    # the end of a body: its answer, and how it leaves its activation
    def ending(self, results, end):
        if end[0] == "waits":
            if end[1] is None:
                return None, ("nothing",)
            return None, ("waits", end[1], end[2], results)
        if end[0] == "rejects":
            if end[1][0] != "error":
                raise Stuck
            if len(end[1][2]) > MOST_BYTES:
                raise Trap(b"message too long")
            return ("rejected", 4, end[1][2]), ("answered",)
        v = end[1]
        values = [] if not results else [v] if len(results) == 1 else list(v[1])
        return ("replied", short_message(self.program.coding, results, values)), ("answered",)

    def put_answer(self, owner, answer):
        if answer is None:
            return
        if answer[0] == "replied":
            self.lines.append("replied %d %s" % (owner, hexed(answer[1])))
        else:
            self.lines.append("rejected %d %d %s" % (owner, answer[1], hexed(answer[2])))

    def complete(self, owner, world, answer, activation):
        self.put_prints()
        for r in world.requests:
            number = self.first + len(self.table)
            self.lines.append("call %d %s %s %s" % (number, hexed(r["callee"]), r["method"].decode(), hexed(r["argument"])))
            self.table.append({"owner": owner, "results": r["results"], "resumes": r["resumes"], "state": "open", "value": None})
        self.put_answer(owner, answer)
        self.cells, self.groups = world.store, world.groups
        if activation is not None:
            self.activations[owner] = activation
        self.close(owner)

    def call(self, query, name, caller, argument):
        owner = len(self.activations)
        if self.program is None:
            self.lines.append("rejected %d 3 %s" % (owner, hexed(b"no canister")))
            self.activations.append(("answered",))
            return
        wanted = [q for q in ([True] if query else [False, True])]
        method = next((m for q in wanted for m in self.program.methods if m[0] == name and m[1] == q), None)
        if method is None:
            self.lines.append("rejected %d 5 %s" % (owner, hexed(b"no method")))
            self.activations.append(("answered",))
            return
        self.activations.append(("dead",))
        world = World(self.cells, self.groups)
        self.last_prints = world.prints
        try:
            try:
                values = self.program.coding.read(method[2], argument)
            except NoValue:
                raise Trap(b"bad argument")
            machine = Machine(Context(self.program, self.table, self.first, self.names), world)
            machine.enter(method[4], [("object", (b"caller",), (("principal", caller),))] + values)
            answer, activation = self.ending(method[3], machine.run())
        except Trap as t:
            self.trapped(t.text)
            self.close(owner)
            return
        if method[1]:
            self.put_prints()
            self.put_answer(owner, answer)
            if answer is not None:
                self.activations[owner] = ("answered",)
            self.close(owner)
        else:
            self.complete(owner, world, answer, activation)

    def answer(self, number, received):
        at = number - self.first if self.program else -1
        if not (self.program and 0 <= at < len(self.table) and self.table[at]["state"] == "open"):
            self.lines.append("ignored")
            return
        call = self.table[at]
        owner = call["owner"]
        activation = self.activations[owner]
        waiting = activation if activation[0] == "waits" and activation[1] == number else None
        world = World(self.cells, self.groups)
        self.last_prints = world.prints
        try:
            if received[0] == "reject":
                given = ("throws", ("error", ("code", received[1]), received[2]))
            elif call["resumes"] is not None:
                given = self.table[call["resumes"] - self.first]["value"]
            else:
                try:
                    values = self.program.coding.read(call["results"], received[1])
                except NoValue:
                    raise Trap(b"bad reply")
                given = ("gets", values[0] if len(values) == 1 else ("tuple", tuple(values)))
            if given is None:
                raise Trap(b"bad reply")
            answer, after = None, None
            table = [dict(c) for c in self.table]
            table[at].update(state="answered", value=given)
            if waiting is not None:
                machine = Machine(Context(self.program, table, self.first, self.names), world)
                machine.stack = list(waiting[2])
                if given[0] == "gets":
                    machine.focus = ("give", given[1])
                    end = machine.run()
                else:
                    end = machine.throw(given[1]) or machine.run()
                answer, after = self.ending(waiting[3], end)
        except Trap as t:
            if waiting is not None:
                self.table[at].update(state="answered", value=None)
                self.activations[owner] = ("dead",)
            else:
                self.table[at].update(state="lost", value=None)
            self.trapped(t.text)
            self.close(owner)
            return
        self.table = table
        self.complete(owner, world, answer, after)

    def play(self, script):
        data = lambda w: b"" if w == "-" else bytes.fromhex(w)
        for line in script.split("\n"):
            words = line.split(" ")
            if words == [""]:
                continue
            if words[0] == "install":
                self.install(int(words[1]))
            elif words[0] == "upgrade":
                self.upgrade(int(words[1]))
            elif words[0] in ("call", "query"):
                self.call(words[0] == "query", words[1].encode(), data(words[2]), data(words[3]))
            elif words[0] == "reply":
                self.answer(int(words[1]), ("reply", data(words[2])))
            elif words[0] == "reject":
                self.answer(int(words[1]), ("reject", int(words[2]), data(words[3])))
            else:
                raise ValueError(line)
        return "".join(l + "\n" for l in self.lines)
