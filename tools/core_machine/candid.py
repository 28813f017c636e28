"""Messages (Candid): the type table of equal types, and values in the shortest numbers (mo_coding/specs). A type is its number, or a plain one."""
from values import NULL, UNIT, NoValue, WIDTHS, flag, is_of, nat


PLAIN = {"Nat": 0x7D, "Int": 0x7C, "Nat8": 0x7B, "Nat16": 0x7A, "Nat32": 0x79, "Nat64": 0x78, "Int8": 0x77, "Int16": 0x76, "Int32": 0x75, "Int64": 0x74}
PLAIN_CODES = set(range(0x70, 0x80)) | {0x6F, 0x68}


def leb(n):
    out = bytearray()
    while True:
        b = n & 127
        n >>= 7
        if not n:
            out.append(b)
            return bytes(out)
        out.append(b | 128)


def sleb(n):
    out = bytearray()
    while True:
        b = n & 127
        n >>= 7
        if (n == 0 and not b & 64) or (n == -1 and b & 64):
            out.append(b)
            return bytes(out)
        out.append(b | 128)


def label_id(label):
    n = 0
    for b in label:
        n = (n * 223 + b) % 2 ** 32
    return n


def parts_of(wire):
    kind = wire[0]
    if kind in ("opt", "vec"):
        return [wire[1]]
    if kind in ("record", "variant", "service"):
        return [e[1] for e in wire[1]]
    if kind == "func":
        return wire[1] + wire[2]
    return []


def same(head, a, other, b):
    todo, met = [(a, b)], set()
    while todo:
        pair = todo.pop()
        if pair in met:
            continue
        met.add(pair)
        v, w = head(pair[0]), other(pair[1])
        if v[0] != w[0]:
            return False
        if v[0] == "plain" and v[1] != w[1]:
            return False
        if v[0] in ("record", "variant", "service") and [e[0] for e in v[1]] != [e[0] for e in w[1]]:
            return False
        if v[0] == "func" and (len(v[1]) != len(w[1]) or len(v[2]) != len(w[2]) or v[3] != w[3]):
            return False
        todo += zip(parts_of(v), parts_of(w))
    return True


class Bytes:
    """What is left to read."""

    def __init__(self, data):
        self.data, self.at = data, 0

    def take(self, n):
        if self.at + n > len(self.data):
            raise NoValue
        self.at += n
        return self.data[self.at - n:self.at]

    def byte(self):
        return self.take(1)[0]

    def groups(self, bits):
        """A number of groups of 7 bits, how many bits these have, and whether the last one has its highest bit."""
        n, shift = 0, 0
        while True:
            b = self.byte()
            n |= (b & 127) << shift
            shift += 7
            if not b & 128:
                return n, shift, b & 64
            if shift >= bits:
                raise NoValue

    def unsigned(self, bits):
        n, _, _ = self.groups(bits)
        if n >= 2 ** bits:
            raise NoValue
        return n

    def signed(self, bits):
        n, shift, is_negative = self.groups(bits)
        if is_negative:
            n -= 1 << shift
        if not -2 ** (bits - 1) <= n < 2 ** (bits - 1):
            raise NoValue
        return n

    def string(self):
        return self.take(self.unsigned(32))


class Coding:
    def __init__(self, types):
        self.types = types
        self.wires = {}

    # a type is its number, or ("plain", code)
    def head(self, t):
        if isinstance(t, tuple):
            return t
        if t not in self.wires:
            self.wires[t] = self.wire(self.types[t])
        return self.wires[t]

    def fields(self, node):
        return sorted(((label_id(bytes.fromhex(f[0])), f[2], bytes.fromhex(f[0])) for f in node[1]), key=lambda f: f[0])

    def wire(self, node):
        kind = node[0]
        if kind == "number":
            return ("plain", PLAIN[node[1]])
        plain = {"bool": 0x7E, "char": 0x79, "text": 0x71, "principal": 0x68, "null": 0x7F, "any": 0x70}
        if kind in plain:
            return ("plain", plain[kind])
        if kind == "blob":
            return ("vec", ("plain", 0x7B))
        if kind == "opt":
            return ("opt", node[1])
        if kind == "array":
            return ("vec", node[1])
        if kind == "tuple":
            return ("record", [(i, t) for i, t in enumerate(node[1])])
        if kind == "object":
            return ("record", [(i, t) for i, t, _ in self.fields(node)])
        if kind == "variant":
            unit = lambda t: ("plain", 0x7F) if self.types[t][0] == "tuple" and not self.types[t][1] else t
            return ("variant", [(i, unit(t)) for i, t, _ in self.fields(node)])
        if kind == "actor":
            return ("service", sorted((bytes.fromhex(f[0]), f[2]) for f in node[1]))
        if kind == "func" and node[1] != "local":
            return ("func", node[2], node[3], [1] if node[1] == "query" else [])
        return ("plain", 0x6F)

    # ---- writing

    def order(self, head, args):
        order, todo = [], list(args)
        while todo:
            t = todo.pop(0)
            if head(t)[0] == "plain" or any(same(head, u, head, t) for u in order):
                continue
            order.append(t)
            todo = parts_of(head(t)) + todo
        return order

    def header(self, head, args):
        order = self.order(head, args)

        def ref(t):
            w = head(t)
            if w[0] == "plain":
                return bytes([w[1]])
            return sleb(next(i for i, u in enumerate(order) if same(head, u, head, t)))

        out = b"DIDL" + leb(len(order))
        for t in order:
            w = head(t)
            if w[0] in ("opt", "vec"):
                out += bytes([0x6E if w[0] == "opt" else 0x6D]) + ref(w[1])
            elif w[0] in ("record", "variant"):
                out += bytes([0x6C if w[0] == "record" else 0x6B]) + leb(len(w[1])) + b"".join(leb(i) + ref(p) for i, p in w[1])
            elif w[0] == "func":
                out += b"\x6a" + leb(len(w[1])) + b"".join(map(ref, w[1])) + leb(len(w[2])) + b"".join(map(ref, w[2])) + leb(len(w[3])) + bytes(w[3])
            else:
                out += b"\x69" + leb(len(w[1])) + b"".join(leb(len(m)) + m + ref(p) for m, p in w[1])
        return out + leb(len(args)) + b"".join(map(ref, args))

    def write(self, t, v):
        node = self.types[t]
        kind, form = node[0], v[0]
        if kind == "any":
            return b""
        if kind == "number" and form == "number" and is_of(node[1], v[1]):
            if node[1] == "Nat":
                return leb(v[1])
            if node[1] == "Int":
                return sleb(v[1])
            return v[1].to_bytes(WIDTHS[node[1]] // 8, "little", signed=node[1].startswith("I"))
        if kind == "bool" and form == "bool":
            return bytes([v[1]])
        if kind == "char" and form == "char":
            return v[1].to_bytes(4, "little")
        if kind == form and kind in ("text", "blob"):
            return leb(len(v[1])) + v[1]
        if kind == form and kind in ("principal", "actor"):
            return b"\x01" + leb(len(v[1])) + v[1]
        if kind == "null" and form == "null":
            return b""
        if kind == "opt":
            return self.write_options(node, v)
        if kind == "array" and form == "array":
            return leb(len(v[1])) + b"".join(self.write(node[1], w) for w in v[1])
        if kind == "tuple" and form == "tuple" and len(v[1]) == len(node[1]):
            return b"".join(self.write(u, w) for u, w in zip(node[1], v[1]))
        if kind == "object" and form == "object" and not any(f[1] for f in node[1]) and all(bytes.fromhex(f[0]) in v[1] for f in node[1]):
            return b"".join(self.write(u, v[2][v[1].index(l)]) for _, u, l in self.fields(node))
        if kind == "variant" and form == "tag":
            for i, (_, u, l) in enumerate(self.fields(node)):
                if l == v[1]:
                    return leb(i) + self.write(u, v[2])
        if kind == "func" and form == "method" and node[1] != "local":
            return b"\x01\x01" + leb(len(v[1])) + v[1] + leb(len(v[2])) + v[2]
        raise NoValue

    # options within options, which may be many
    def write_options(self, node, v):
        out = bytearray()
        while node[0] == "opt" and v[0] == "some":
            out.append(1)
            t, v = node[1], v[1]
            node = self.types[t]
        if node[0] != "opt":
            return bytes(out) + self.write(t, v)
        if v[0] != "null":
            raise NoValue
        return bytes(out) + b"\x00"

    def message(self, types, values):
        return self.header(self.head, types) + b"".join(self.write(t, v) for t, v in zip(types, values))

    # ---- reading

    def table(self, data):
        if data.take(4) != b"DIDL":
            raise NoValue
        count = data.unsigned(32)
        if count > 4096:
            raise NoValue

        def ref():
            if data.at < len(data.data) and data.data[data.at] in PLAIN_CODES:
                return ("plain", data.byte())
            n = data.signed(33)
            if not 0 <= n < count:
                raise NoValue
            return n

        table = []
        for _ in range(count):
            code = data.byte()
            if code in (0x6E, 0x6D):
                table.append(("opt" if code == 0x6E else "vec", ref()))
            elif code in (0x6C, 0x6B):
                entries = [(data.unsigned(32), ref()) for _ in range(data.unsigned(32))]
                ids = [e[0] for e in entries]
                if ids != sorted(set(ids)):
                    raise NoValue
                table.append(("record" if code == 0x6C else "variant", entries))
            elif code == 0x6A:
                ps = [ref() for _ in range(data.unsigned(32))]
                rs = [ref() for _ in range(data.unsigned(32))]
                notes = [data.byte() for _ in range(data.unsigned(32))]
                table.append(("func", ps, rs, notes))
            elif code == 0x69:
                ms = [(data.string(), ref()) for _ in range(data.unsigned(32))]
                names = [m[0] for m in ms]
                if names != sorted(set(names)):
                    raise NoValue
                table.append(("service", ms))
            else:
                raise NoValue
        for w in table:
            if w[0] == "service" and any(isinstance(m[1], tuple) or table[m[1]][0] != "func" for m in w[1]):
                raise NoValue
        return table, [ref() for _ in range(data.unsigned(32))]

    def read_value(self, t, data, depth):
        if depth > 20_000:
            raise NoValue
        node = self.types[t]
        kind = node[0]
        if kind == "any":
            return UNIT
        if kind == "number":
            k = node[1]
            if k == "Nat":
                n = data.unsigned(70)
            elif k == "Int":
                n = data.signed(70)
            else:
                n = int.from_bytes(data.take(WIDTHS[k] // 8), "little", signed=k.startswith("I"))
            if not is_of(k, n):
                raise NoValue
            return nat(n)
        if kind == "bool":
            b = data.byte()
            if b > 1:
                raise NoValue
            return flag(b == 1)
        if kind == "char":
            c = int.from_bytes(data.take(4), "little")
            if not (c < 0xD800 or 0xE000 <= c < 0x110000):
                raise NoValue
            return ("char", c)
        if kind == "text":
            s = data.string()
            try:
                s.decode()
            except UnicodeDecodeError:
                raise NoValue
            return ("text", s)
        if kind == "blob":
            return ("blob", data.string())
        if kind in ("principal", "actor"):
            return (kind, self.read_principal(data))
        if kind == "null":
            return NULL
        if kind == "opt":
            return self.read_options(node, data, depth)
        if kind == "array":
            n = data.unsigned(32)
            if n > 10000 and self.is_empty(node[1], set()):
                raise NoValue
            return ("array", tuple(self.read_value(node[1], data, depth + 1) for _ in range(n)))
        if kind == "tuple":
            return ("tuple", tuple(self.read_value(u, data, depth + 1) for u in node[1]))
        if kind == "object":
            fs = self.fields(node)
            return ("object", tuple(l for _, _, l in fs), tuple(self.read_value(u, data, depth + 1) for _, u, _ in fs))
        if kind == "variant":
            i, fs = data.unsigned(32), self.fields(node)
            if i >= len(fs):
                raise NoValue
            return ("tag", fs[i][2], self.read_value(fs[i][1], data, depth + 1))
        if kind == "func":
            if data.byte() != 1:
                raise NoValue
            p, name = self.read_principal(data), data.string()
            if not name or any(not 32 < b < 127 for b in name):
                raise NoValue
            return ("method", p, name)
        raise NoValue

    def read_options(self, node, data, depth):
        count = 0
        while node[0] == "opt":
            b = data.byte()
            if b > 1:
                raise NoValue
            if not b:
                v = NULL
                break
            count += 1
            t = node[1]
            node = self.types[t]
        else:
            v = self.read_value(t, data, depth + 1)
        for _ in range(count):
            v = ("some", v)
        return v

    def is_empty(self, t, met):
        w = self.head(t)
        if w[0] == "plain":
            return w[1] in (0x7F, 0x70)
        if w[0] != "record" or t in met:
            return False
        return all(self.is_empty(p, met | {t}) for _, p in w[1])

    def read_principal(self, data):
        if data.byte() != 1:
            raise NoValue
        n = data.unsigned(32)
        if n > 29:
            raise NoValue
        return data.take(n)

    def read(self, types, message):
        data = Bytes(message)
        table, args = self.table(data)
        head = lambda r: r if isinstance(r, tuple) else table[r]
        if len(args) != len(types) or not all(same(head, a, self.head, t) for a, t in zip(args, types)):
            raise NoValue
        values = [self.read_value(t, data, 0) for t in types]
        if data.at != len(data.data):
            raise NoValue
        return values

    # a value of one program at a type of the next one
    def keep(self, old, t, u, v):
        if not same(old.head, t, self.head, u):
            raise NoValue
        data = Bytes(old.write(t, v))
        value = self.read_value(u, data, 0)
        if data.at != len(data.data):
            raise NoValue
        return value
