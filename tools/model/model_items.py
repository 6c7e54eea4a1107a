#!/usr/bin/env python3
"""A model of items: what each item of a section and each known custom section says.

  model_items.py --rows     its worked rows

Written from the standard, from the conventions of the custom sections, and from rows that were worked out by hand, and
knowing nothing of any reader. The features are 1 for memories and tables of 64 bits, and 2 for compact imports.

`listing` has the texts that the golden streams have. Each of them also has the lines that docs/DUMP.md describes, of which
tools/lib/texts.py makes a dump."""
import os
import re
import sys

sys.dont_write_bytecode = True
sys.path.insert(0, os.path.dirname(os.path.abspath(__file__)))
import model  # noqa: E402
from model import EOF, Fault  # noqa: E402


def lead(at, what, byte):
    return Fault(at, "invalid leading byte for " + what, byte)


class R:
    """A window: b[p:e], stream offset of place i is o + i."""

    def __init__(self, b, o=0, feats=3, p=0, e=None):
        self.b, self.o, self.f, self.p, self.e = b, o, feats, p, len(b) if e is None else e
        self.s = p

    def at(self, i=None):
        return self.o + (self.p if i is None else i)

    def left(self):
        return self.e - self.p

    def window(self, p, e):
        return R(self.b, self.o, self.f, p, e)

    def range(self):
        return "%d..%d" % (self.at(self.s), self.at(self.e))

    def peek(self):
        if self.p >= self.e:
            raise Fault(self.at(), EOF, missing=1)
        return self.b[self.p]

    def byte(self):
        x = self.peek()
        self.p += 1
        return x

    def raw(self, n):
        if self.left() < n:
            raise Fault(self.at(), EOF, missing=n - self.left())
        self.p += n
        return self.b[self.p - n:self.p]

    def num(self, kind):
        """A number in LEB128 of one of the model's KINDS."""
        found = model.leb(self.b, self.p, self.e, self.o, kind)
        if found is None:
            raise Fault(self.at(self.e), EOF, missing=1)
        value, self.p = found
        return value

    def u32(self):
        return self.num("u32")

    def u7(self):
        x = self.byte()
        if x >= 128:
            raise Fault(self.at() - 1, "invalid u7")
        return x

    def size(self, limited):
        n = self.u32()
        if limited and n > 100000:
            raise Fault(self.at() - 1, "string size out of bounds")
        return n

    def string(self, limited):
        t = self.raw(self.size(limited))
        try:
            t.decode("utf-8")
        except UnicodeDecodeError:
            raise Fault(self.at() - 1, "malformed UTF-8 encoding") from None
        return t

    def skip_string(self):
        self.raw(self.size(True))


# ---- texts and lines

class Item(str):
    """What is said of some bytes: a text as golden streams have it, with the line of a dump, and the lines under that."""

    def __new__(cls, text, line=None, under=()):
        item = super().__new__(cls, text)
        item.line, item.under = text if line is None else line, list(under)
        return item


def indented(lines):
    return ["  " + line for line in lines]


def lines_of(item, at=None):
    """The lines of an item, the first of them after its offset."""
    return [item.line if at is None else "%d %s" % (at, item.line), *indented(item.under)]


def said(names, values):
    """A line of these values, each after its name, or as it is for a star. What is false or absent has no field."""
    fields = []
    for name, value in zip(names.split(), values):
        line = getattr(value, "line", value)
        if name == "*":
            fields.append(line)
        elif line not in ("false", "-"):
            fields.append("%s=%s" % (name, line))
    return " ".join(filter(None, fields))


def below(values):
    return [line for value in values for line in getattr(value, "under", ())]


def item(kind, names, *values):
    """An item of this kind, of these values, which a dump has by these names."""
    return Item("%s(%s)" % (kind, "".join(value + " " for value in values)), said(names, values), below(values))


def seq(kind, names, *parts):
    """Reads an item of these parts, one after the other."""
    return lambda r: item(kind, names, *[part(r) for part in parts])


def together(names, values):
    """Values that a dump has by these names, and a text one after the other."""
    return Item(" ".join(values), said(names, values), below(values))


def called(names, *parts):
    """Reads parts that a dump has by these names."""
    return lambda r: together(names, [part(r) for part in parts])


def several(r, f):
    return [f(r) for _ in range(r.u32())]


def bracketed(items):
    return "[%s]" % "".join(i + " " for i in items)


def many(f, word=""):
    """Reads items after their count. In a dump they come under a line that may have the count, each after a word if there is one."""
    def read(r):
        items = several(r, f)
        under = [line for i in items for line in lines_of(Item(i, (word + " " + i.line).strip(), i.under))]
        return Item(bracketed(items), str(len(items)), under)
    return read


def walk(r, f, hints=False):
    """(offset, item) of each item, then (None, fault) if one ends them. With `hints` that has how many bytes are missing."""
    n, out = r.u32(), []
    for _ in range(n):
        at = r.at()
        try:
            out.append((at, f(r)))
        except Fault as e:
            return n, out + [fault(e, hints)]
    return n, out + ([fault(Fault(r.at(), MISMATCH))] if r.left() else [])


def fault(e, hints=False):
    return None, Item(e.line(hints))


def placed(got):
    """Items with their offsets, as a text."""
    return "".join(("%d:%s " % g if g[0] is not None else g[1] + " ") for g in got)


def placed_lines(got):
    return [line for at, i in got for line in lines_of(i, at)]


def listed(r, f):
    n, got = walk(r, f)
    return Item("%s #%d[%s]" % (r.range(), n, placed(got)), "%s count=%d" % (r.range(), n), placed_lines(got))


def listing_of(f):
    return lambda r: listed(r, f)


def counted(f, skip=None):
    """The items of a list inside an item, which are first skipped."""
    def read(r):
        start = r.p
        for _ in range(r.u32()):
            (skip or f)(r)
        return listed(r.window(start, r.p), f)
    return read


# ---- values

def x(b):
    return "x" + b.hex()


def quoted(b):
    """A text in double quotes; a quote, a backslash, and a byte outside 32 to 126 are a backslash and two hexadecimal digits."""
    return '"%s"' % "".join(chr(c) if 32 <= c <= 126 and c not in b'"\\' else "\\%02x" % c for c in b)


def name(r, limited=True):
    b = r.string(limited)
    return Item(x(b), quoted(b))


def text(r):
    return name(r, False)


def contents(b):
    """Raw bytes: a line has their count and the first sixteen, and a mark if there are more."""
    return Item(x(b), "%d:%s%s" % (len(b), b[:16].hex(), ".." if len(b) > 16 else ""))


def u32(r):
    return str(r.u32())


def boolean(r):
    b = r.byte()
    if b > 1:
        raise Fault(r.at() - 1, "invalid boolean value")
    return Item(yes(b), "bool=" + yes(b))


def yes(b):
    return "true" if b else "false"


def little(r, n):
    return int.from_bytes(r.raw(n), "little")


# The names of flags, each with its bit.
SYMBOL_FLAGS = {"BINDING_WEAK": 1, "BINDING_LOCAL": 2, "VISIBILITY_HIDDEN": 4, "UNDEFINED": 16, "EXPORTED": 32, "EXPLICIT_NAME": 64, "NO_STRIP": 128,
                "TLS": 256, "ABSOLUTE": 512}
SEGMENT_FLAGS = {"STRINGS": 1, "TLS": 2, "RETAIN": 4}


def flags_text(number, names):
    """Flags as a line has them: the names of those that are set, and other bits as a number, which is also 0 alone."""
    words = [name for name, bit in names.items() if number & bit]
    others = number & ~sum(names.values())
    return " | ".join(words + [str(others)] * (others > 0 or not words))


def symbol_flags(r, names=SYMBOL_FLAGS):
    number = r.u32()
    return Item(str(number), flags_text(number, names))


def segment_flags(r):
    return symbol_flags(r, SEGMENT_FLAGS)


# ---- types
HEAPS = {0x70: "func", 0x6F: "extern", 0x6E: "any", 0x6D: "eq", 0x6C: "i31", 0x6B: "struct", 0x6A: "array", 0x69: "exn",
         0x71: "none", 0x72: "noextern", 0x73: "nofunc", 0x74: "noexn"}
PLAIN = {0x7F: "i32", 0x7E: "i64", 0x7D: "f32", 0x7C: "f64", 0x7B: "v128"}
PACKED = {0x78: "i8", 0x77: "i16"}


def words(*parts):
    """Words and lines in parentheses, without those that are empty."""
    return "(%s)" % " ".join(filter(None, [getattr(part, "line", part) for part in parts]))


def heaptype(r):
    at, first = r.at(), r.peek()
    if first in HEAPS:
        r.byte()
        return HEAPS[first]
    v = r.num("s33")
    if v < 0:
        raise lead(at, "heap type", first)
    return str(v)


def reftype(r, what="reference type"):
    at, b = r.at(), r.byte()
    if b not in HEAPS and b not in (0x63, 0x64):
        raise lead(at, what, b)
    heap = HEAPS[b] if b in HEAPS else heaptype(r)
    return Item("ref:" + heap, words("ref", heap)) if b == 0x64 else Item("null:" + heap, words("ref", "null", heap))


def valtype(r):
    b = r.peek()
    if b in PLAIN:
        r.byte()
        return Item(PLAIN[b])
    return reftype(r, "value type")


def mutable(t, is_mutable):
    """A type that may be mutable."""
    return Item("%s %s" % (t, yes(is_mutable)), words("mut", t) if is_mutable else t.line)


def fieldtype(r):
    b = r.peek()
    if b in PACKED:
        r.byte()
    t = Item(PACKED[b]) if b in PACKED else valtype(r)
    at, m = r.at(), r.byte()
    if m > 1:
        raise lead(at, "field mutability", m)
    return item("field", "*", mutable(t, m))


def composite(r):
    at, b = r.at(), r.byte()
    if b == 0x60:
        lists = several(r, valtype), several(r, valtype)
        lines = [words(word, *types) if types else "" for word, types in zip(("param", "result"), lists)]
        return Item("func(%s %s )" % tuple(map(bracketed, lists)), words("func", *lines))
    if b == 0x5F:
        fields = several(r, fieldtype)
        return Item("struct " + bracketed(fields), words("struct", *[words("field", one) for one in fields]))
    if b == 0x5E:
        one = fieldtype(r)
        return Item("array " + one, words("array", one))
    raise lead(at, "composite type", b)


def subtype(r):
    b, final, sup = r.peek(), True, ""
    if b in (0x50, 0x4F):
        r.byte()
        final = b == 0x4F
        at, n = r.at(), r.u32()
        if n > 1:
            raise Fault(at, "more than one supertype")
        if n:
            sup = u32(r)
    t = composite(r)
    line = words("sub", "final" if final else "", sup, t) if sup or not final else t.line
    return Item("sub(%s %s %s )" % (yes(final), sup or "-", t), "type=" + line)


def recgroup(r):
    if r.peek() == 0x4E:
        r.byte()
        types = several(r, subtype)
        return Item("rec(true %s )" % bracketed(types), "explicit=true", [t.line for t in types])
    t = subtype(r)
    return Item("rec(false [%s ] )" % t, t.line)


# ---- constant expressions
def number(kind):
    return lambda r: str(r.num(kind))


def bits(n):
    return lambda r: "bits=%d" % little(r, n)


# The name of an instruction and its operands, by its opcode, and by the number after each of the two opcodes that have one.
CONSTANT = {0x41: ("i32.const", number("s32")), 0x42: ("i64.const", number("s64")), 0x43: ("f32.const", bits(4)), 0x44: ("f64.const", bits(8)),
            0x23: ("global.get", u32), 0xD2: ("ref.func", u32), 0xD0: ("ref.null", heaptype), 0x6A: ("i32.add",), 0x6B: ("i32.sub",),
            0x6C: ("i32.mul",), 0x7C: ("i64.add",), 0x7D: ("i64.sub",), 0x7E: ("i64.mul",)}
AGGREGATE = {0: ("struct.new", u32), 1: ("struct.new_default", u32), 6: ("array.new", u32), 7: ("array.new_default", u32),
             8: ("array.new_fixed", u32, u32), 26: ("any.convert_extern",), 27: ("extern.convert_any",), 28: ("ref.i31",)}
NUMBERED = {0xFB: AGGREGATE, 0xFD: {12: ("v128.const", lambda r: r.raw(16).hex())}}


def constexpr(r):
    s, instructions = r.at(), []
    while True:
        at, b = r.at(), r.byte()
        if b == 0x0B:
            return Item("%d..%d" % (s, r.at()), " ".join(instructions) or "()")
        instruction = NUMBERED[b].get(r.u32()) if b in NUMBERED else CONSTANT.get(b)
        if instruction is None:
            raise Fault(at, "not a constant instruction")
        instructions.append(words(instruction[0], *[operand(r) for operand in instruction[1:]]))


# ---- items of sections
KIND = {0: "func", 1: "table", 2: "memory", 3: "global", 4: "tag", 0x20: Item("funcexact", "func_exact")}
MISMATCH = "section size mismatch: unexpected data at the end of the section"


def flags(r, most, fault):
    at, f = r.at(), r.byte()
    if f > most:
        raise Fault(at, fault)
    return f


def zero(fault):
    """A byte that has to be 0."""
    return lambda r: flags(r, 0, fault)


def coded(names, what):
    """A byte that stands for something."""
    def read(r):
        at, b = r.at(), r.byte()
        if b not in names:
            raise lead(at, what, b)
        return names[b]
    return read


kind = coded(KIND, "external kind")
index = called("index", u32)


def limits(r, f):
    one = lambda: str(r.num("u64" if r.f & 1 else "u32"))
    low = one()
    return low, one() if f & 1 else "-"


def tabletype(r):
    t = reftype(r)
    f = flags(r, 7, "invalid table resizable limits flags")
    return item("table", "element_type table64 initial maximum shared", t, yes(f & 4), *limits(r, f), yes(f & 2))


def table(r):
    if r.peek() != 0x40:
        return item("table", "* init", tabletype(r), "null")
    r.byte()
    zero("invalid table encoding")(r)
    return item("table", "* init", tabletype(r), constexpr(r))


def memory(r):
    at, f = r.at(), flags(r, 15, "invalid memory limits flags")
    low, high = limits(r, f)
    page = r.u32() if f & 8 else 0
    if page >= 64:
        raise Fault(at, "invalid custom page size")
    return item("memory", "memory64 shared initial maximum page_size_log2", yes(f & 4), yes(f & 2), low, high, str(page) if f & 8 else "-")


def tag(r):
    zero("invalid tag attributes")(r)
    return item("tag", "kind func_type_idx", "exception", u32(r))


def globaltype(r):
    t = valtype(r)
    f = flags(r, 3, "malformed global flags")
    return item("global", "content_type shared", mutable(t, f & 1), yes(f & 2))


def typeref(r):
    k = kind(r)
    other = {"table": tabletype, "memory": memory, "global": globaltype, "tag": tag}
    if k in other:
        t = other[k](r)
        return Item(t, "ty=%s %s" % (k, t.line))
    return together("ty index", [k, u32(r)])


globl = seq("global", "* init_expr", globaltype, constexpr)
imp, compact = seq("import", "module name *", name, name, typeref), seq("item", "name *", name, typeref)


def imports_group(r, flat=False):
    """A group; or, flat, the list of its imports."""
    at = r.at()
    m, n = name(r), name(r)
    d = r.peek()
    if n != "x" or d not in (0x7F, 0x7E):
        i = item("import", "module name *", m, n, typeref(r))
        return [(at, i)] if flat else Item("single %d %s" % (at, i), "offset=%d %s" % (at, i.line))
    if not r.f & 2:
        raise Fault(r.at(), "invalid leading byte 0x%X with compact imports proposal disabled" % d)
    r.byte()
    t = typeref(r) if d == 0x7E else None
    start = r.p
    for _ in range(r.u32()):
        r.skip_string()
        if d == 0x7F:
            typeref(r)
    w = r.window(start, r.p)
    if flat:
        return walk(w, lambda r: item("import", "module name *", m, name(r), t or typeref(r)))[1]
    group = together("module * names", [m, t, listed(w, called("name", name))]) if t else together("module items", [m, listed(w, compact)])
    return Item("compact%d %s" % (2 if t else 1, group), group.line, group.under)


def imports_from(r, n):
    """The imports of groups one by one, to the end of the window."""
    for _ in range(n):
        try:
            yield from imports_group(r, True)
        except Fault as e:
            yield fault(e)
            return
    if r.left():
        yield fault(Fault(r.at(), MISMATCH))


def export(r):
    n, k = name(r), kind(r)
    if k == "funcexact":
        raise Fault(r.at(), "Exact type is not allowed in the exports")
    return item("export", "name kind index", n, k, u32(r))


def span(s, r):
    """The range from an offset to where the window is."""
    return "%d..%d" % (s, r.at())


def element(r):
    s = r.at()
    f = r.u32()
    if f > 7:
        raise Fault(r.at() - 1, "invalid flags byte in element segment")
    names, values, ty = "kind", ["declared" if f & 2 else "passive"], Item("null:func", "(ref null func)")
    if not f & 1:
        names, values = "kind table_index offset_expr", ["active", u32(r) if f & 2 else "-", constexpr(r)]
    at = r.at()
    if f & 3 and f & 4:
        ty = reftype(r)
    elif f & 3 and kind(r) != "func":
        raise Fault(at, "only the function external type is supported in elem segment")
    if f & 4:
        items = counted(called("expr", constexpr))(r)
        items = Item("%s %s" % (ty, items), "expressions=%s type=%s" % (items.line, ty.line), items.under)
    else:
        items = called("functions", counted(index))(r)
    return item("element", names + " * range", *values, items, span(s, r))


def data(r):
    s = r.at()
    f = r.u32()
    if f > 2:
        raise Fault(s, "invalid flags byte in data segment")
    names, values = "kind", ["passive"]
    if f != 1:
        names, values = "kind memory_index offset_expr", ["active", u32(r) if f else "0", constexpr(r)]
    return item("data", names + " data range", *values, contents(r.raw(r.u32())), span(s, r))


# ---- custom sections
def ascending(f, message):
    """Items after indices that must ascend."""
    def read(r):
        got, last = [], -1
        for _ in range(r.u32()):
            at = r.at()
            try:
                i = r.u32()
                one = f(i, r)
            except Fault as e:
                got.append(fault(e))
                break
            got.append((at, one) if i > last else fault(Fault(at, message)))
            last = max(i, last)
        else:
            got += [fault(Fault(r.at(), MISMATCH))] if r.left() else []
        return Item("{%s}" % "".join(one + " " for _, one in got), "", placed_lines(got))
    return read


namemap = ascending(lambda i, r: item("name", "index name", str(i), text(r)), "names out of order")


def names_below(i, r):
    start = r.p
    for _ in range(r.u32()):
        r.u32()
        r.skip_string()
    return item("names", "index", str(i), namemap(r.window(start, r.p)))


indirect = ascending(names_below, "indirect names out of order")


def parts(r, f, order=None):
    """The subsections of a window; where `order` is the fault, their ids must ascend."""
    got, last = [], None
    while r.left():
        at = r.at()
        try:
            ident, content = subsection(r)
            one = f(ident, content)
            if order and last is not None and ident <= last:
                raise Fault(at, order)
        except Fault as e:
            got.append(fault(e))
            continue
        last = ident
        got.append((at, one))
    return Item("<%s>" % "".join(one + " " for _, one in got), "", placed_lines(got))


def subsection(r):
    """The id of a subsection, and its window. After a wrong id or size the next one comes after what was read of it."""
    ident = r.u7()
    try:
        n = r.u32()
    except Fault as e:
        r.p = r.e if e.text == EOF else e.at - r.o + 1
        raise
    p = r.p
    r.raw(n)
    return ident, r.window(p, r.p)


def subsections(rows, order=None):
    """Subsections by their ids; each of `rows` has a form for texts, one for lines, and what reads it. One that is unknown is its bytes."""
    def one(ident, q):
        if ident in rows:
            form, line, f = rows[ident]
            value = f(q)
            return Item(form % value, line % value.line if "%" in line else line, value.under)
        b = contents(q.b[q.p:q.e])
        return Item("unknown %d %s %s" % (ident, b, q.range()), "unknown ty=%d contents=%s range=%s" % (ident, b.line, q.range()))
    return lambda r: parts(r, one, order)


def module_name(q):
    n = name(q)
    if q.left():
        raise Fault(q.at(), "trailing data at the end of a name")
    return together("name range", [n, q.range()])


# The subsections of names after that of the module, in the order of their ids, and those with names below each index.
OF_ITEMS = "function local label type table memory global element data field tag parameter tag_parameter".split()
INDIRECT = ("local", "label", "field", "parameter", "tag_parameter")
NAMES = {i: ("%d%%s" % i, word, indirect if word in INDIRECT else namemap) for i, word in enumerate(OF_ITEMS, 1)}
names = subsections({**NAMES, 0: ("module %s", "module %s", module_name)}, "name subsection out of order")


def hint(r):
    i = u32(r)
    coded({1: ""}, "invalid branch hint byte")(r)
    return item("hint", "func_offset taken", i, coded({0: "false", 1: "true"}, "invalid branch hint taken byte")(r))


hints = listing_of(seq("function", "func hints", u32, counted(hint)))
producers_value = seq("value", "name version", text, text)


PRODUCERS = {x(b"language"), x(b"sdk"), x(b"processed-by")}


def producers_field(r):
    at, n = r.at(), text(r)
    if n not in PRODUCERS:
        raise Fault(at, "invalid producers field name")
    return item("field", "name values", n, counted(producers_value, lambda q: (q.skip_string(), q.skip_string()))(r))


producers = listing_of(producers_field)


def prefix(r):
    """The sign of a feature. A line has another byte as a number."""
    b = r.byte()
    return Item(str(b), chr(b) if b in b"+-=" else "prefix=%d" % b)


features = listing_of(seq("feature", "* name", prefix, text))
named = called("name", text)
meminfo = seq("meminfo", "memory_size memory_alignment table_size table_alignment", u32, u32, u32, u32)
exported, imported = seq("export", "name flags", text, symbol_flags), seq("import", "module field flags", text, text, symbol_flags)
dylink = subsections({1: ("1 %s", "mem_info %s", meminfo), 2: ("2 %s", "needed", many(named, "library")), 3: ("3 %s", "export_info", many(exported, "export")),
                      4: ("4 %s", "import_info", many(imported, "import")), 5: ("5 %s", "runtime_path", many(named, "folder")),
                      6: ("6 %s", "target_arch=%s", text)})
segment, init = seq("segment", "name alignment flags", text, u32, segment_flags), seq("init", "priority symbol_index", u32, u32)
COMDAT = coded(dict(enumerate(["data", "func", "global", "event", "table", "section"])), "comdat symbol kind")
comdat = seq("comdat", "name flags symbols", text, u32, counted(seq("symbol", "kind index", COMDAT, u32)))
defined = seq("defined", "index offset size", u32, u32, u32)


def symbol(r):
    at, k, f = r.at(), r.byte(), symbol_flags(r)
    undefined, explicit = int(f) & 16, int(f) & 64
    if k in (0, 2, 4, 5):
        word = {0: "func", 2: "global", 4: "event", 5: "table"}[k]
        return together("* flags index name", [word, f, u32(r), text(r) if not undefined or explicit else "-"])
    if k == 1:
        return together("* flags name *", ["data", f, text(r), Item("-", "undefined") if undefined else defined(r)])
    if k == 3:
        return together("* flags section", ["section", f, u32(r)])
    raise lead(at, "symbol kind", k)


def symbols(r):
    """The symbols of a table. A line has the index of each."""
    table = listed(r, symbol)
    numbers = iter(range(len(table.under)))
    under = [re.sub(r"^(\d+) ", lambda found: "%s symbol[%d] " % (found[1], next(numbers)), line) for line in table.under]
    return Item(table, table.line, under)


# A counted subsection whose count is malformed is that subsection's own fault.
LINKING = {5: ("segment_info", listing_of(segment)), 6: ("init_funcs", listing_of(init)), 7: ("comdat_info", listing_of(comdat)), 8: ("symbol_table", symbols),
           9: ("target_arch", name)}
linking_parts = subsections({i: ("%d %%s" % i, word + "=%s", f) for i, (word, f) in LINKING.items()})


def linking(r):
    at, v = r.at(), r.u32()
    if v != 2:
        raise Fault(at, "unsupported linking section version", v)
    begin, parts_of_it = r.at(), linking_parts(r)
    return Item("version 2 at %d %s %s" % (begin, r.range(), parts_of_it), "version=2 range=%s subsections=%d" % (r.range(), begin), parts_of_it.under)


# The types of relocations in the order of their numbers, and those with an addend of 32 and of 64 bits.
RELOCATIONS = """FUNCTION_INDEX_LEB TABLE_INDEX_SLEB TABLE_INDEX_I32 MEMORY_ADDR_LEB MEMORY_ADDR_SLEB MEMORY_ADDR_I32 TYPE_INDEX_LEB
    GLOBAL_INDEX_LEB FUNCTION_OFFSET_I32 SECTION_OFFSET_I32 EVENT_INDEX_LEB MEMORY_ADDR_REL_SLEB TABLE_INDEX_REL_SLEB GLOBAL_INDEX_I32
    MEMORY_ADDR_LEB64 MEMORY_ADDR_SLEB64 MEMORY_ADDR_I64 MEMORY_ADDR_REL_SLEB64 TABLE_INDEX_SLEB64 TABLE_INDEX_I64 TABLE_NUMBER_LEB
    MEMORY_ADDR_TLS_SLEB FUNCTION_OFFSET_I64 MEMORY_ADDR_LOCREL_I32 TABLE_INDEX_REL_SLEB64 MEMORY_ADDR_TLS_SLEB64 FUNCTION_INDEX_I32""".split()
relocation_type = coded({i: Item(str(i), "R_WASM_" + word) for i, word in enumerate(RELOCATIONS)}, "RelocEntryType")
ADDENDS = {**dict.fromkeys(("3", "4", "5", "8", "9", "11", "21", "23"), "s32"), **dict.fromkeys(("14", "15", "16", "17", "22", "25"), "s64")}


def relocation(r):
    t = relocation_type(r)
    o, i = u32(r), u32(r)
    return item("reloc", "type offset index addend", t, o, i, str(r.num(ADDENDS[t])) if t in ADDENDS else "0")


def reloc(r):
    entries = together("section range entries", [u32(r), r.range(), listed(r.window(r.p, r.e), relocation)])
    return Item("section " + entries, entries.line, entries.under)


def finish(f):
    """All of a window's data."""
    def read(r):
        t = f(r)
        if r.left():
            raise Fault(r.at(), "trailing bytes at end of custom section")
        return t
    return read


def start(what, f):
    """What follows a byte 0."""
    def read(r):
        zero("invalid start byte for " + what)(r)
        return f(r)
    return read


def coremodules(r):
    begin = r.at()

    def one(q):
        if q.byte() != 0:
            raise Fault(begin, "invalid start byte for coremodule")
        return named(q)
    return called("modules", many(one, "module"))(r)


VALUES = {1: lambda r: "missing", 0x7F: lambda r: "i32:%d" % r.num("s32"), 0x7E: lambda r: "i64:%d" % r.num("s64"),
          0x7D: lambda r: "f32:%d" % little(r, 4), 0x7C: lambda r: "f64:%d" % little(r, 8)}


def corevalue(r):
    at, b = r.at(), r.byte()
    if b not in VALUES:
        raise Fault(at, "invalid CoreDumpValue type")
    value = VALUES[b](r)
    return Item(value, re.sub(r"^(f..)", r"\1_bits", value).replace(":", "="))


instance = start("core dump instance", seq("instance", "module_index", u32, many(called("memory", u32)), many(called("global", u32))))
frame = start("core dump stack frame", seq("frame", "instanceidx funcidx codeoffset", u32, u32, u32, many(corevalue, "local"), many(corevalue, "stack")))
core = finish(start("core dump name", called("process", text)))
coreinstances = finish(called("instances", many(instance, "instance")))
corestack = finish(start("core dump stack name", called("thread frames", text, many(frame, "frame"))))

KNOWN = {"name": names, "metadata.code.branch_hint": called("functions", hints), "producers": called("fields", producers), "dylink.0": dylink, "core": core,
         "coremodules": finish(coremodules), "coreinstances": coreinstances, "corestack": corestack, "linking": linking, "reloc.": reloc}
# A dump has the features too, which other callers of the parser have to ask for.
SHOWN = {**KNOWN, "target_features": called("features", features)}


def or_refused(f):
    """Reads what `f` reads; if that refuses the data, there is nothing but its fault."""
    def read(r):
        try:
            return f(r)
        except Fault as e:
            return Item("unknown", under=[e.line()])
    return read


# A check reports also why a reader refuses the data of its section.
CHECKED = {n: or_refused(f) for n, f in SHOWN.items()}


def known(n, r, readers=KNOWN):
    """What a custom section of this name says, if it is known."""
    f = readers.get("reloc." if n.startswith("reloc.") else n)
    try:
        return f(r) if f else Item("unknown")
    except Fault:
        return Item("unknown")


def custom(n, r, readers=KNOWN):
    """The name of a custom section, and what it says."""
    said_of = known(n.decode(), r, readers)
    return Item("%s %s" % (x(n), said_of), ("section name=%s %s" % (quoted(n), said_of.line)).strip(), said_of.under)


def in_section(names, f):
    """The rows of a section: a line of it, and under that its items."""
    def read(r):
        one = f(r)
        line = ("section " + said(names, [one])).strip()
        return Item(one, "", lines_of(Item(one, line, one.under)))
    return read


def types(r):
    groups = listed(r, recgroup)
    return Item(groups.partition(" ")[2], "", groups.under)


def flatimports(r):
    got = list(imports_from(r, r.u32()))
    return Item(placed(got), "", placed_lines(got))


def known_section(r):
    n = r.string(True)
    one = custom(n, r.window(r.p, r.e))
    return Item(one, "", lines_of(one))


ITEMS = {"bool": boolean, "u32": called("number", u32), "string": called("text", name), "kind": called("kind", kind), "typeref": typeref,
         "import": imp, "imports": imports_group, "valtype": called("type", valtype), "reftype": called("type", reftype),
         "heaptype": called("type", heaptype), "recgroup": recgroup, "table": table, "memory": memory, "tag": tag, "global": globl,
         "export": export, "element": element, "data": data, "constexpr": called("expr", constexpr), "symbol": symbol, "comdat": comdat,
         "relocation": relocation, "corevalue": corevalue, "instance": instance, "frame": frame, "compactitem": compact,
         "producersvalue": producers_value}
LISTED = {"bools": ITEMS["bool"], "u32s": ITEMS["u32"], "strings": ITEMS["string"]}
WHOLE = {"types": types, "namemap": namemap, "indirect": indirect, "names": names, "dylink": dylink, "linking": linking, "reloc": reloc, "core": core,
         "coremodules": KNOWN["coremodules"], "coreinstances": coreinstances, "corestack": corestack}
SECTIONS = {"flatimports": flatimports, "known": known_section, **{reader: in_section("*", f) for reader, f in WHOLE.items()},
            **{reader: in_section("items", listing_of(f)) for reader, f in LISTED.items()},
            **{reader: in_section("items", f) for reader, f in (("hints", hints), ("producers", producers), ("features", features))}}


def outcome(reader, b, o=0, feats=3):
    """What a reader says of some bytes. The lines under it are those of its row."""
    r = R(b, o, feats)
    try:
        if reader in ITEMS:
            one = ITEMS[reader](r)
            return Item("%s used %d" % (one, r.p), "", [*lines_of(one, o), "used=%d" % r.p])
        return SECTIONS[reader](r)
    except Fault as e:
        return Item(e.line(), "", [e.line()])


# ---- calls of a reader

def counted_window(r):
    b = r.raw(r.u32())
    return "range=%d..%d bytes=%s" % (r.at() - len(b), r.at(), contents(b).line)


def header_version(r):
    at = r.at()
    if r.raw(4) != model.MAGIC:
        raise Fault(at, "magic header not detected: bad magic number")
    return str(little(r, 4))


PAIR = called("number *", u32, boolean)
CALLS = {"u8": called("number", lambda r: str(r.byte())), "u7": called("number", lambda r: str(r.u7())), "u32": ITEMS["u32"],
         "i32": called("number", number("s32")), "s33": called("number", number("s33")), "u64": called("number", number("u64")),
         "i64": called("number", number("s64")), "fixed32": called("number", lambda r: str(little(r, 4))), "f32": bits(4), "f64": bits(8),
         "bool": boolean, "string": ITEMS["string"], "longstring": called("text", text), "stringpair": called("text text", name, name),
         "skipstring": lambda r: r.skip_string() or "", "skipu32s": lambda r: several(r, u32) and "", "window": counted_window,
         "header": called("number", header_version), "pair": PAIR}
LISTS = {**LISTED, "pairs": PAIR}


def call(r, f):
    """The line of a call. After a fault a number isn't consumed; a size is, and so is a byte that is wrong."""
    try:
        value = f(r)
        line = ("read %s" % getattr(value, "line", value or "")).strip()
    except Fault as e:
        line = e.line(True)
    return ["%s used=%d" % (line, r.p)]


def items(r, f):
    """The lines of a section."""
    try:
        n, got = walk(r, f, True)
    except Fault as e:
        return [e.line(True)]
    return ["section items=%s count=%d" % (r.range(), n), *indented(placed_lines(got))]


def numbered_subsections(r):
    """The lines of subsections that begin with a number."""
    out = []
    while r.left():
        try:
            ident, w = subsection(r)
            number = w.u32()
            line = "subsection id=%d number=%d after=%d" % (ident, number, w.at())
        except Fault as e:
            line = e.line()
        out.append("%s next=%d" % (line, r.at()))
    return out


def call_lines(reader, b, o=0, feats=3):
    """The lines of one of CALLS or LISTS, or of `subsections`."""
    r = R(b, o, feats)
    if reader in CALLS:
        return call(r, CALLS[reader])
    return items(r, LISTS[reader]) if reader in LISTS else numbered_subsections(r)


# ------------------------------------------------------------------ checks

def bytes_of(words):
    """The bytes of words in hexadecimal, of which `00*31` is a byte that comes 31 times."""
    return b"".join(bytes.fromhex(pairs) * int(times or 1) for pairs, _, times in (word.partition("*") for word in words))


def rows():
    """Checks the worked rows of items.txt: how many there are, and those that differ."""
    bad, n = [], 0
    with open(os.path.join(os.path.dirname(os.path.abspath(__file__)), "items.txt"), encoding="utf-8") as file:
        for n, line in enumerate((line for line in file if not line.startswith("#")), 1):
            row, _, expected = line.rstrip("\n").partition(" = ")
            reader, *words = row.split()
            marked = {word[0]: int(word[1:]) for word in words if word[0] in "@!"}
            got = outcome(reader, bytes_of([word for word in words if word[0] not in "@!"]), marked.get("@", 0), marked.get("!", 3))
            if got != expected:
                bad.append((row, got, expected))
    return n, bad


SECTION_ITEMS = {1: recgroup, 3: index, 4: table, 5: memory, 6: globl, 7: export, 9: element, 11: data, 13: tag}


def walked(s, feats=3, readers=KNOWN, at_once=False):
    """The line of each event, the id of a section with items, and these with their offsets. A custom section is one item."""
    for line in model.reading(s, 0, at_once):
        w = line.split(" ")
        if w[0] == "section":
            i, b, e = int(w[1]), int(w[2]), int(w[3])
            r = R(s, 0, feats, b, e)
            yield line, i, list(imports_from(r, r.u32())) if i == 2 else walk(r, SECTION_ITEMS[i])[1]
        elif w[0] == "custom":
            b, e, at = int(w[1]), int(w[2]), int(w[3])
            n = s[model.leb(s, b, e)[1]:at]
            yield line, 0, [(None, custom(n, R(s, 0, feats, at, e), readers))]
        else:
            yield line, None, []


def listing(s, feats=3, at_once=False):
    """The events of a stream, and under each the texts of its items."""
    out = []
    for line, _, got in walked(s, feats, KNOWN, at_once):
        out += [line, *indented("%d %s" % g if g[0] is not None else g[1] for g in got)]
    return out


if __name__ == "__main__":
    sys.exit(model.report(__doc__, rows))
