"""Spells WebAssembly modules (WebAssembly 1.0, section 5), independently of the compiler, for cases.

A module is an object with, each if there is any,
  types      [[parameters, results], ..], each a list of "i32" and "i64"
  imports    [[module, name, type], ..]
  functions  objects of type, locals ([[count, type], ..]) and body (a list of instructions without the last end)
  table      [least, most or null], and memory likewise
  globals    [[type, is mutable, instruction], ..]
  exports    [[name, "function", "table", "memory" or "global", index], ..]
  start      the index of a function
  elements   [[instruction, [function, ..]], ..]
  data       [[instruction, contents], ..], contents a text, or an object of hex or repeat ([contents, count])
or an object of one of hex, parts (modules and parts one behind another), sections (those of a module without its header).
An instruction is a text by the standard's names: "i32.const 5", "block i32", "br_table 0 1", "call_indirect 1",
"i32.load 2 128" (the exponent of the alignment, and the offset). {"repeat": [instructions, count]} stands for copies.
"""

NAMES = {
    0x00: "unreachable nop block loop if else",
    0x0B: "end br br_if br_table return call call_indirect",
    0x1A: "drop select",
    0x20: "local.get local.set local.tee global.get global.set",
    0x28: "i32.load i64.load f32.load f64.load i32.load8_s i32.load8_u i32.load16_s i32.load16_u i64.load8_s i64.load8_u "
    "i64.load16_s i64.load16_u i64.load32_s i64.load32_u i32.store i64.store f32.store f64.store i32.store8 i32.store16 "
    "i64.store8 i64.store16 i64.store32 memory.size memory.grow i32.const i64.const",
    0x45: "i32.eqz i32.eq i32.ne i32.lt_s i32.lt_u i32.gt_s i32.gt_u i32.le_s i32.le_u i32.ge_s i32.ge_u "
    "i64.eqz i64.eq i64.ne i64.lt_s i64.lt_u i64.gt_s i64.gt_u i64.le_s i64.le_u i64.ge_s i64.ge_u",
    0x67: "i32.clz i32.ctz i32.popcnt i32.add i32.sub i32.mul i32.div_s i32.div_u i32.rem_s i32.rem_u i32.and i32.or "
    "i32.xor i32.shl i32.shr_s i32.shr_u i32.rotl i32.rotr "
    "i64.clz i64.ctz i64.popcnt i64.add i64.sub i64.mul i64.div_s i64.div_u i64.rem_s i64.rem_u i64.and i64.or "
    "i64.xor i64.shl i64.shr_s i64.shr_u i64.rotl i64.rotr",
    0xA7: "i32.wrap_i64",
    0xAC: "i64.extend_i32_s i64.extend_i32_u",
}
CODES = {name: first + place for first, names in NAMES.items() for place, name in enumerate(names.split())}
TYPES = {"i32": 0x7F, "i64": 0x7E, "f32": 0x7D, "f64": 0x7C}
KINDS = {"function": 0, "table": 1, "memory": 2, "global": 3}
HEADER = b"\0asm\x01\0\0\0"


def unsigned(n):
    """LEB128 (section 5.2.2)."""
    out = bytearray()
    while True:
        out.append(n & 0x7F | (0x80 if n > 0x7F else 0))
        n >>= 7
        if not n:
            return bytes(out)


def signed(n):
    """LEB128 of a signed integer (section 5.2.2)."""
    out = bytearray()
    while not -64 <= n <= 63:
        out.append(n & 0x7F | 0x80)
        n >>= 7
    out.append(n & 0x7F)
    return bytes(out)


def vector(items):
    items = list(items)
    return unsigned(len(items)) + b"".join(items)


def sized(content):
    return unsigned(len(content)) + content


def name(text):
    return sized(text.encode("utf-8"))


def types(kinds):
    return vector(bytes([TYPES[kind]]) for kind in kinds)


def contents(it):
    if isinstance(it, str):
        return it.encode("utf-8")
    if "hex" in it:
        return bytes.fromhex(it["hex"])
    part, count = it["repeat"]
    return contents(part) * count


def instruction(text):
    word, *rest = text.split()
    code = bytes([CODES[word]])
    if word in ("block", "loop", "if"):
        return code + bytes([TYPES[rest[0]] if rest else 0x40])
    if word in ("i32.const", "i64.const"):
        return code + signed(int(rest[0], 0))
    if word == "br_table":
        return code + vector(unsigned(int(label)) for label in rest[:-1]) + unsigned(int(rest[-1]))
    if word in ("call_indirect", "memory.size", "memory.grow"):
        return code + b"".join(unsigned(int(index)) for index in rest) + b"\0"
    if ".load" in word or ".store" in word:
        rest = rest or [0, 0]
    return code + b"".join(unsigned(int(number)) for number in rest)


def body(instructions):
    out = bytearray()
    for it in instructions:
        if isinstance(it, str):
            out += instruction(it)
        else:
            part, count = it["repeat"]
            out += body(part) * count
    return bytes(out)


def expression(instructions):
    return body(instructions) + b"\x0b"


def limits(pair):
    least, most = pair
    return b"\0" + unsigned(least) if most is None else b"\1" + unsigned(least) + unsigned(most)


def code(function):
    kept = vector(unsigned(count) + bytes([TYPES[kind]]) for count, kind in function.get("locals", []))
    return sized(kept + expression(function.get("body", [])))


def sections(module):
    """Returns each section that has contents, by its number."""
    yield 1, [b"\x60" + types(parameters) + types(results) for parameters, results in module.get("types", [])]
    yield 2, [name(source) + name(its) + b"\0" + unsigned(kind) for source, its, kind in module.get("imports", [])]
    yield 3, [unsigned(function["type"]) for function in module.get("functions", [])]
    yield 4, [b"\x70" + limits(module["table"])] if "table" in module else []
    yield 5, [limits(module["memory"])] if "memory" in module else []
    yield 6, [bytes([TYPES[kind], mutable]) + expression([init]) for kind, mutable, init in module.get("globals", [])]
    yield 7, [name(its) + bytes([KINDS[kind]]) + unsigned(index) for its, kind, index in module.get("exports", [])]
    yield 8, module.get("start")
    yield 9, [b"\0" + expression([at]) + vector(map(unsigned, entries)) for at, entries in module.get("elements", [])]
    yield 10, [code(function) for function in module.get("functions", [])]
    yield 11, [b"\0" + expression([at]) + sized(contents(held)) for at, held in module.get("data", [])]


def section(number, held):
    if number == 8:
        return b"" if held is None else b"\x08" + sized(unsigned(held))
    return bytes([number]) + sized(vector(held)) if held else b""


def assemble(module):
    """Returns the bytes of a module, each number in as few bytes as it takes (section 5.5)."""
    if "hex" in module or "repeat" in module:
        return contents(module)
    if "parts" in module:
        return b"".join(assemble(part) for part in module["parts"])
    if "sections" in module:
        return b"".join(section(*it) for it in sections(module["sections"]))
    return HEADER + b"".join(section(*it) for it in sections(module))
