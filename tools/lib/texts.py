"""The lines of dumps, which are made of what the model of items says: with the numbers of items, and the names of items and symbols."""
import re
from collections import ChainMap, Counter

import standard as S

# ---- numbers in index spaces

# The index space of what each section defines, and the kind of an import in its text.
DEFINED = {S.TYPE_SECTION: "type", S.FUNCTION_SECTION: "func", S.TABLE_SECTION: "table", S.MEMORY_SECTION: "memory", S.TAG_SECTION: "tag",
           S.GLOBAL_SECTION: "global", S.ELEMENT_SECTION: "elem", S.DATA_SECTION: "data"}
IMPORTED = re.compile(r"import\(x[0-9a-f]* x[0-9a-f]* (func|table|memory|tag|global)")


class Numbers:
    """How many items each index space has so far."""

    def __init__(self):
        self.came = Counter()

    def next(self, space):
        self.came[space] += 1
        return "%s[%d]" % (space, self.came[space] - 1)

    def lines_of(self, model, ident, at, item):
        """The lines of an item of a section, with its number. A group of types that is explicit has none: its types have."""
        space = IMPORTED.match(item)[1] if ident == S.IMPORT_SECTION else DEFINED.get(ident)
        if not space:
            return model.lines_of(item, at)
        if item.line == "explicit=true":
            return model.lines_of(model.Item(item, item.line, ["%s %s" % (self.next(space), line) for line in item.under]), at)
        return model.lines_of(model.Item(item, "%s %s" % (self.next(space), item.line), item.under), at)


def custom_name(item):
    """The name of a custom section in quotes, by what the model says of it."""
    return CUSTOM.match("  " + item.line)[1]


def with_end(line, ident, bodies, items):
    """The line of an event, with what a dump adds to that of a listing: the name of its section, its size, the number of the function of a body, and
    the name of a custom section."""
    word, *numbers = line.split(" ")
    if word in ("version", "end", "fault"):
        return line
    start, end = numbers[word in ("section", "unknown") :][:2]
    name = " " + S.NAMES[ident] if word == "section" else ""
    last = " " + bodies.next("func") if word == "body" else " " + custom_name(items[0][1]) if word == "custom" else ""
    return "%s%s size=%d%s" % (line, name, int(end) - int(start), last)


def plain_events(model, data):
    """The lines of a dump of a stream, for each event those of it and of what is below it, without names of items and symbols."""
    numbers, bodies = Numbers(), Numbers()
    for line, ident, items in model.walked(data, readers=model.SHOWN, at_once=True):
        event = [with_end(line, ident, bodies, items)]
        for at, item in items:
            event += model.indented(model.lines_of(item) if at is None else numbers.lines_of(model, ident, at, item))
        yield event
        if ident == S.IMPORT_SECTION:
            bodies.came["func"] = numbers.came["func"]


# ---- names

# The lines that have a name after a number: those of items and bodies, and those of symbols without a field for it.
NUMBER = re.compile(r"((?:  \d+|   |body \d+ \d+ size=\d+) (type|func|table|memory|tag|global|elem|data)\[(\d+)\])(.*)\Z")
SYMBOL = re.compile(r'(      \d+ (symbol)\[(\d+)\])((?!.* name=").*)\Z')
# The lines that name a symbol or a type at their end, by its index.
REFERS = re.compile(r" +\d+ (?:type=R_WASM_\w+ offset=\d+ index=(\d+) addend=-?\d+|priority=\d+ symbol_index=(\d+))\Z")
# The lines that refer to an item, by its index: the start section, an export, a function of an element segment, and branch hints of a function.
ITEM = re.compile(r'((?:start \d+ \d+ |  \d+ name="[^"]*" kind=(\w+) index=|    \d+ (?:index|func)=)(\d+)(?: size=\d+)?)( hints=.*|)\Z')
# The index spaces that subsections of names are for, and those of imports and symbols of each kind.
SPACES = {"function": "func", "type": "type", "table": "table", "memory": "memory", "global": "global", "element": "elem", "data": "data", "tag": "tag"}
OF_SYMBOLS = {"func": "func", "global": "global", "event": "tag", "table": "table"}
# The lines of a dump that give names: an import, the first line of a custom section, a name with its index, and a symbol.
IMPORT = re.compile(r'  \d+ (\w+)\[(\d+)\] module="[^"]*" name=("[^"]*")')
CUSTOM = re.compile(r'  section name=("[^"]*")')
NAMING = re.compile(r'      \d+ index=(\d+) name=("[^"]*")')
OF_SYMBOL = re.compile(r'      \d+ symbol\[(\d+)\] (\w+) flags=')


class Names:
    """The names that the lines of a dump give, each in quotes by an index space and a number; the first of each.

    `items` are those of sections `name`, up to their first fault, or that of a list of names of items: faults of others, as of locals, don't
    matter. `symbols` are those of symbols, and `linked` those that symbols and segments give to items, up to the first fault of a section `linking`.
    """

    def __init__(self):
        self.items, self.symbols, self.linked, self.imports, self.sections = {}, {}, {}, {}, []
        self.custom = self.part = None
        self.has_section = self.has_fault = False

    def add(self, line):
        level, is_fault = (len(line) - len(line.lstrip(" "))) // 2, line.lstrip(" ").startswith("fault ")
        if level == 0:
            self.custom = self.part = None
            self.sections += [None] * (line.split(" ")[0] in ("section", "code", "start", "datacount", "unknown", "custom"))
        elif level == 1:
            self.add_item(line)
        elif level == 2:
            self.part, self.segments = None if is_fault else re.split("[ =]", line.lstrip(" "))[1], 0
            self.custom = None if is_fault and self.custom == '"linking"' else self.custom
        if self.custom == '"name"' and not self.has_fault and level > 1:
            self.add_name(line, level, is_fault)
        elif self.custom == '"linking"' and level == 3 and self.part:
            self.add_linked(line, is_fault)

    def add_item(self, line):
        imported, custom = IMPORT.match(line), CUSTOM.match(line)
        if imported:
            self.imports[imported[1], int(imported[2])] = imported[3]
        elif custom:
            self.custom = self.sections[-1] = custom[1]
            self.has_section = self.has_section or self.custom == '"name"'

    def add_name(self, line, level, is_fault):
        space, naming = SPACES.get(self.part), NAMING.match(line)
        if is_fault:
            self.has_fault = level == 2 or level == 3 and space is not None
        elif space and naming:
            self.items.setdefault((space, int(naming[1])), naming[2])

    def add_linked(self, line, is_fault):
        if is_fault:
            self.part = None
            return
        name, symbol = re.search(r' name=("[^"]*")', line), OF_SYMBOL.match(line)
        if self.part == "segment_info":
            self.linked.setdefault(("data", self.segments), name[1])
            self.segments += 1
        elif symbol:
            self.add_symbol(int(symbol[1]), symbol[2], name and name[1], re.search(r" (?:index|section)=(\d+)", line))

    def add_symbol(self, index, kind, name, item):
        """A symbol without a name has that of its section, or of what it imports."""
        space, item = OF_SYMBOLS.get(kind), int(item[1]) if item else None
        if kind == "section":
            name = self.sections[item] if item < len(self.sections) else None
        name = name or self.imports.get((space, item))
        if name:
            self.symbols.setdefault(("symbol", index), name)
            if space:
                self.linked.setdefault((space, item), name)

    def known(self):
        """The names that a dump shows with --names."""
        return {**self.items, **self.symbols, **({} if self.has_section else self.linked)}


def names_in(events):
    """The names that each event of a dump shows: those of symbols in it or before it; and with --names, for which the file is read before, also
    those up to the first fault of a section of names."""
    names, symbols, known = Names(), [{}], None
    for event in events:
        for line in event:
            names.add(line)
        symbols.append(symbols[-1] if len(symbols[-1]) == len(names.symbols) else dict(names.symbols))
        if names.has_fault and known is None:
            known = names.known()
    known = names.known() if known is None else known
    return [(before, ChainMap(known, before)) for before in symbols[1:]]


def named(line, names):
    """A line of a dump, with the name of its item, or of what it refers to."""
    numbered, refers, item = NUMBER.match(line) or SYMBOL.match(line), REFERS.match(line), ITEM.match(line)
    if numbered:
        start, space, number, rest = numbered.groups()
    elif refers:
        start, space, number, rest = line, "type" if "R_WASM_TYPE_INDEX_LEB" in line else "symbol", refers[1] or refers[2], ""
    elif item:
        start, kind, number, rest = item.groups()
        space = "func" if kind in (None, "func_exact") else kind
    else:
        return line
    name = names.get((space, int(number)))
    return line if name is None else "%s %s%s" % (start, name, rest)


def dumps(model, data):
    """The lines of a dump of a stream, and those with --names."""
    events, lines, with_names = list(plain_events(model, data)), [], []
    for event, (symbols, known) in zip(events, names_in(events)):
        lines += [named(line, symbols) for line in event]
        with_names += [named(line, known) for line in event]
    return lines, with_names


def dump_lines(model, data):
    return dumps(model, data)[0]


# ---- offsets in hexadecimal

# Which words of the line of an event are offsets.
OFFSETS = {"version": (1, 2), "section": (2, 3), "start": (1, 2), "datacount": (1, 2), "code": (1, 2), "body": (1, 2), "custom": (1, 2, 3),
           "unknown": (2, 3), "end": (1,), "fault": (1,)}
# A text in quotes, or a range as a field.
RANGE = re.compile(r'"[^"]*"|=(\d+)\.\.(\d+)(?= |$)')


def in_hex(line):
    """A line of a dump, or a row of bytes, with hexadecimal offsets."""
    text = line.lstrip(" ")
    words = text.split(" ")
    for place in (0,) if words[0].isdecimal() else OFFSETS[words[0]] if text == line or words[0] == "fault" else ():
        words[place] = "0x%x" % int(words[place])
    hexadecimal = line[: len(line) - len(text)] + " ".join(words)
    if words[0] == "fault":
        return hexadecimal
    return RANGE.sub(lambda found: "=0x%x..0x%x" % (int(found[1]), int(found[2])) if found[1] else found[0], hexadecimal)
