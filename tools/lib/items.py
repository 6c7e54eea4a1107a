"""Random items: `ROWS` has, by the names that the programs and the models know, what makes the bytes of each kind of item.

`SECTIONS` has the row of the items of each section by its id, and `CUSTOM` that of each custom section's data by its name. What makes bytes takes
a source of random numbers.
"""
import standard as S
from streams import random_bytes, some_leb


def seq(*parts):
    """These parts, one after the other."""
    return lambda rng: b"".join(part(rng) for part in parts)


def one_of(*usual):
    """One of these parts."""
    return lambda rng: rng.choice(usual)(rng)


def byte(*usual):
    """One of these bytes, seldom another one."""
    return lambda rng: bytes([rng.choice(usual) if rng.random() < 0.97 else rng.randrange(256)])


def leb(*usual):
    """One of these numbers."""
    return lambda rng: some_leb(rng, rng.choice(usual))


def raw(*sizes):
    """Some bytes."""
    return lambda rng: random_bytes(rng, rng.choice(sizes))


def many(part, most=3):
    """A count and its parts, seldom with another count."""
    def make(rng):
        count = rng.randrange(most + 1)
        announced = count if rng.random() < 0.97 else rng.choice([count + 1, 2**32 - 1])
        return some_leb(rng, announced) + b"".join(part(rng) for _ in range(count))

    return make


def signed(bits):
    """A signed number of this many bits in LEB128, now and then with more bytes than it needs."""
    longest = (bits + 6) // 7

    def make(rng):
        if rng.random() < 0.04:
            # As many bytes as it may have, of which the last one may be wrong.
            return bytes([rng.getrandbits(7) | 128] * (longest - 1) + [rng.getrandbits(8)])
        value = rng.choice([0, 1, -1, 63, 64, -64, -65, 2 ** (bits - 1) - 1, -(2 ** (bits - 1)), rng.getrandbits(bits) - 2 ** (bits - 1)])
        out = bytearray()
        while not out or not (value == 0 and out[-1] < 64 or value == -1 and out[-1] >= 64):
            out = bytearray(one | 128 for one in out) + bytes([value & 127])
            value >>= 7
        while len(out) < longest - 1 and rng.random() < 0.1:
            out = out[:-1] + bytes([out[-1] | 128, 127 if out[-1] & 64 else 0])
        return bytes(out)

    return make


number = leb(0, 0, 1, 2, 5, 63, 64, 127, 128, 300, 16384, 2**31, 2**32 - 1)
small = leb(0, 1, 2, 3)


def wide(rng):
    if rng.random() < 0.03:
        return bytes([255] * 9 + [rng.getrandbits(2) | rng.choice([0, 128])])
    return number(rng) if rng.random() < 0.7 else leb(2**32, 2**33 - 1, 2**63, 2**64 - 1)(rng)


def name(rng):
    text = rng.choice([b"", b"a", b"a", b"memory", "\u00e9".encode(), "\U0001f600".encode(), b"\xc3\x28", b"\xff", b"x" * 130])
    size = len(text) if rng.random() >= 0.04 else rng.choice([0, len(text) + 1, 100000, 100001])
    return some_leb(rng, size) + text


# ---- types

heap_byte = lambda rng: bytes([rng.choice(range(0x69, 0x75))])
heap_type = one_of(*[heap_byte] * 6, *[number] * 3, signed(33))
ref_type = one_of(heap_byte, seq(byte(0x63, 0x64), heap_type))
val_type = one_of(*[byte(0x7F, 0x7E, 0x7D, 0x7C, 0x7B)] * 3, *[ref_type] * 2)
field = seq(one_of(*[byte(0x78, 0x77)] * 2, *[val_type] * 3), byte(0, 1))
composite = one_of(*[seq(byte(0x60), many(val_type), many(val_type))] * 25, *[seq(byte(0x5F), many(field))] * 15, *[seq(byte(0x5E), field)] * 9, raw(2))
subtype = one_of(*[composite] * 2, *[seq(byte(0x50, 0x4F), one_of(*[many(number, 1)] * 19, many(number, 2)), composite)] * 3)
rec_group = one_of(seq(byte(0x4E), many(subtype)), subtype)

# ---- constant expressions

OPERANDS = {0x41: signed(32), 0x42: signed(64), 0x43: raw(4), 0x44: raw(8), 0xFD: seq(leb(12), raw(16)), 0x23: number, 0xD2: number, 0xD0: heap_type}
AGGREGATE = one_of(*[seq(leb(which), *[number] * {8: 2}.get(which, which < 8)) for which in (0, 1, 6, 7, 8, 26, 27, 28)])


def instruction(rng):
    opcode = rng.choice([0x41, 0x42, 0x43, 0x44, 0xFD, 0x23, 0xD0, 0xD2, 0x6A, 0x6B, 0x6C, 0x7C, 0x7D, 0x7E, 0xFB, 0xFB])
    return bytes([opcode]) + {**OPERANDS, 0xFB: AGGREGATE}.get(opcode, raw(0))(rng)


def expression(rng):
    body = b"".join(instruction(rng) for _ in range(rng.choice([0, 1, 1, 1, 2, 3])))
    return body + (bytes([rng.randrange(256)]) if rng.random() < 0.03 else b"") + b"\x0b"


# ---- items of sections


def flagged(usual, rest, as_number=False):
    """Flags below a number, seldom others, and what follows them."""
    def make(rng):
        flags = rng.randrange(usual) if rng.random() < 0.96 else rng.randrange(256)
        return (some_leb(rng, flags) if as_number else bytes([flags])) + rest(rng, flags)

    return make


def limits(rng, flags):
    return wide(rng) + (wide(rng) if flags & 1 else b"") + (leb(0, 16, 63, 64, 65)(rng) if flags & 8 else b"")


def element_rest(rng, flags):
    start = b"" if flags & 1 else (number(rng) if flags & 2 else b"") + expression(rng)
    kind = b"" if not flags & 3 else ref_type(rng) if flags & 4 else byte(0)(rng)
    return start + kind + many(expression if flags & 4 else number, 5)(rng)


def data_rest(rng, flags):
    content = raw(0, 1, 5, 130)(rng)
    start = b"" if flags == 1 else (number(rng) if flags == 2 else b"") + expression(rng)
    return start + some_leb(rng, len(content)) + content


table_type = seq(ref_type, flagged(8, lambda rng, flags: limits(rng, flags & 1)))
table = one_of(seq(lambda rng: b"\x40", byte(0), table_type, expression), table_type)
memory = flagged(16, limits)
tag = seq(byte(0), number)
global_type = seq(val_type, flagged(4, lambda rng, flags: b""))
kind = byte(0, 1, 2, 3, 4, 0x20)


def type_ref(rng):
    which = kind(rng)
    return which + {1: table_type, 2: memory, 3: global_type, 4: tag}.get(which[0], number)(rng)


import_item, compact_item = seq(name, name, type_ref), seq(name, type_ref)
no_name = one_of(*[lambda rng: b"\0"] * 19, leb(0))
bundles = [seq(name, no_name, lambda rng: b"\x7f", many(compact_item)), seq(name, no_name, lambda rng: b"\x7e", type_ref, many(name))]
imports = one_of(*[import_item] * 4, *bundles * 3)

# ---- custom sections


def subsections(rows):
    """Some subsections in the order of their ids, seldom in another one; each of a row by its id."""
    def make(rng):
        ids, out = sorted(rng.choice(list(rows) + [127]) for _ in range(rng.randrange(5))), b""
        if rng.random() < 0.2:
            rng.shuffle(ids)
        for ident in ids:
            content = rows.get(ident, raw(0, 1, 2, 3))(rng)
            content = mutated(rng, content) if rng.random() < 0.1 else content
            out += bytes([ident]) + some_leb(rng, len(content)) + content
        return out

    return make


FLAGS = [0, 0, 16, 64, 80, 1, 4, 513, 4096]


def symbol(rng):
    which, flags = byte(0, 1, 2, 3, 4, 5)(rng), rng.choice(FLAGS)
    start = which + some_leb(rng, flags)
    if which[0] == 1:
        return start + name(rng) + (b"" if flags & 16 else seq(number, number, number)(rng))
    return start + number(rng) + (name(rng) if which[0] != 3 and (not flags & 16 or flags & 64) else b"")


def relocation(rng):
    which = byte(*range(27))(rng)
    addend = signed(32) if which[0] in (3, 4, 5, 8, 9, 11, 21, 23) else signed(64) if which[0] in (14, 15, 16, 17, 22, 25) else raw(0)
    return seq(lambda rng: which, number, number, addend)(rng)


def core_value(rng):
    which = byte(0x01, 0x7F, 0x7E, 0x7D, 0x7C)(rng)
    return which + {0x7F: signed(32), 0x7E: signed(64), 0x7D: raw(4), 0x7C: raw(8)}.get(which[0], raw(0))(rng)


def producers_name(rng):
    text = rng.choice([b"language", b"sdk", b"processed-by"]) if rng.random() < 0.96 else b"sdks"
    return some_leb(rng, len(text)) + text


def custom_section(rng):
    """The name and the data of a custom section that is known."""
    title = rng.choice(list(CUSTOM))
    return some_leb(rng, len(title)) + title.encode() + ROWS[CUSTOM[title]](rng)


name_map = many(seq(leb(0, 1, 2, 3, 4, 200), name))
indirect_map = many(seq(small, name_map))
NAMES = {**dict.fromkeys(range(1, 14), name_map), 0: name, **dict.fromkeys((2, 3, 10, 12, 13), indirect_map)}
comdat = seq(name, number, many(seq(byte(0, 1, 2, 3, 4, 5), number)))
LINKING = {5: many(seq(name, number, small)), 6: many(seq(number, number)), 7: many(comdat), 8: many(symbol), 9: name}
DYLINK = {1: seq(*[number] * 4), 2: many(name), 3: many(seq(name, leb(*FLAGS))), 4: many(seq(name, name, leb(*FLAGS))), 5: many(name), 6: name}
instance = seq(byte(0), number, many(number), many(number))
frame = seq(byte(0), number, number, number, many(core_value), many(core_value))
started_name = seq(byte(0), name)

# Each row: its name, which the program and the model know, and what makes whole items of it.
ROWS = {
    "kind": kind, "typeref": type_ref, "import": import_item, "compactitem": compact_item, "imports": imports, "flatimports": many(imports),
    "valtype": val_type, "reftype": ref_type, "heaptype": heap_type, "table": table, "memory": memory, "tag": tag, "global": seq(global_type, expression),
    "export": seq(name, kind, number), "constexpr": expression, "element": flagged(8, element_rest, True), "data": flagged(3, data_rest, True),
    "recgroup": rec_group, "hints": many(seq(number, many(seq(number, byte(1), byte(0, 1))))), "producers": many(seq(producers_name, many(seq(name, name)))),
    "producersvalue": seq(name, name), "features": many(seq(byte(0x2B, 0x2D, 0x3D), name)), "namemap": name_map, "indirect": indirect_map,
    "names": subsections(NAMES), "dylink": subsections(DYLINK), "linking": seq(one_of(*[leb(2)] * 32, number), subsections(LINKING)), "symbol": symbol,
    "comdat": comdat, "relocation": relocation, "reloc": seq(number, many(relocation)), "corevalue": core_value, "instance": instance, "frame": frame,
    "core": started_name, "coremodules": many(started_name), "coreinstances": many(instance), "corestack": seq(started_name, many(frame)),
    "known": custom_section,
}

# The row that makes the items of each kind of section, by its id.
SECTIONS = {
    S.TYPE_SECTION: "recgroup", S.IMPORT_SECTION: "imports", S.TABLE_SECTION: "table", S.MEMORY_SECTION: "memory", S.GLOBAL_SECTION: "global",
    S.EXPORT_SECTION: "export", S.ELEMENT_SECTION: "element", S.DATA_SECTION: "data", S.TAG_SECTION: "tag",
}

# The row that makes the data of each custom section that is known, by its name.
CUSTOM = {"name": "names", "target_features": "features", "metadata.code.branch_hint": "hints", "producers": "producers", "dylink.0": "dylink", "core": "core",
          "coremodules": "coremodules", "coreinstances": "coreinstances", "corestack": "corestack", "linking": "linking", "reloc.CODE": "reloc",
          "reloc.DATA": "reloc", "reloc.": "reloc"}


def mutated(rng, item):
    """The item with a byte or two changed, put in or taken out."""
    out = bytearray(item)
    for _ in range(rng.choice([1, 1, 2])):
        place, how = rng.randrange(len(out) + 1), rng.random()
        usual = rng.choice([0, 1, 2, 3, 4, 7, 8, 11, 0x20, 0x40, 0x41, 0x61, 0x63, 0x64, 0x70, 0x7E, 0x7F, 0x80, 0xFF, rng.randrange(256)])
        if how < 0.6 and place < len(out):
            out[place] = usual if rng.random() < 0.7 else out[place] ^ 1 << rng.randrange(8)
        elif how < 0.8:
            out.insert(place, usual)
        elif place < len(out):
            del out[place]
    return bytes(out)
