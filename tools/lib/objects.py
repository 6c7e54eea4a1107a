"""What the crate `object` 0.37.3 reads of a module, worked out from what the model of items says of it: as bindings/rust/examples/object prints it.

`object` makes symbols of imports, exports and names, or of a symbol table. An address is a distance from where the code section begins.
"""
import re

import standard as S

# What `object` calls a kind of section, by its id, where it isn't a custom one.
KINDS = {S.TYPE_SECTION: "Metadata", S.IMPORT_SECTION: "Linker", S.FUNCTION_SECTION: "Metadata", S.TABLE_SECTION: "UninitializedData",
         S.MEMORY_SECTION: "UninitializedData", S.GLOBAL_SECTION: "Data", S.EXPORT_SECTION: "Linker", S.START_SECTION: "Linker", S.ELEMENT_SECTION: "Data",
         S.CODE_SECTION: "Text", S.DATA_SECTION: "Data", S.DATA_COUNT_SECTION: "UninitializedData", S.TAG_SECTION: "Data"}
DATA_COUNT = '"<data_count>"'
IN_CODE, IN_DATA = ("Section(SectionIndex(%d))" % ident for ident in (S.CODE_SECTION, S.DATA_SECTION))
# What it makes of imports, exports and symbols, by the words of the model.
OF_IMPORTS = {"func": "Text", "func_exact": "Text", "tag": "Unknown"}
OF_SYMBOLS = {"func": "Text", "section": "Section", "event": "Unknown"}
# The lines of items, as the model has them.
QUOTED = r'("[^"]*")'
IMPORT = re.compile(r"module=%s name=%s ty=(\w+)( memory64=true)?" % (QUOTED, QUOTED))
CONSTANT = re.compile(r" init_expr=\((?:i32|i64)\.const (-?\d+)\)")
EXPORT = re.compile(r"name=%s kind=(\w+) index=(\d+)" % QUOTED)
NAMING = re.compile(r" +\d+ index=(\d+) name=%s" % QUOTED)
SYMBOL = re.compile(r" +\d+ symbol\[\d+\] (\w+) flags=([A-Z_0-9]+(?: \| [A-Z_0-9]+)*)(.*)")


class Refused(Exception):
    """The crate returns an error with this text."""


def good(items, why):
    """The lines of the items of a section. A fault is an error."""
    for at, item in items:
        if at is None:
            raise Refused(why)
        yield item.line


def parts(lines):
    """The subsections of a custom section: the line of each, and the lines below it."""
    found = []
    for line in lines:
        if line.startswith(" "):
            found[-1][1].append(line)
        else:
            found.append((line, []))
    return found


def below(lines, pattern, why):
    """The lines of the items of a subsection, matched. A fault is an error."""
    for line in lines:
        if line.lstrip().startswith("fault "):
            raise Refused(why)
        yield pattern.match(line)


class Module:
    """What is read of a module while its events come, in their order, and then its symbols."""

    def __init__(self):
        self.sections, self.symbols, self.globals, self.bodies = [], [], [], []
        self.is_64 = self.is_debugged = False
        self.functions, self.code, self.start = 0, 0, None
        self.imports, self.exports, self.names, self.table = [], None, None, None
        self.exported = set()

    # ---- events

    def add(self, line, items):
        """Adds an event."""
        word, *values = line.split(" ")
        numbers = [int(value) for value in values if value.isdecimal()]
        if word == "fault":
            raise Refused("Invalid Wasm section header")
        if word == "version" and values[-1] != "module":
            raise Refused("Unsupported Wasm encoding")
        if word == "custom":
            self.add_custom(items[0][1], *numbers)
        elif word == "body":
            self.bodies.append((numbers[0] - self.code, numbers[1] - numbers[0]))
        elif word in ("section", "start", "code", "datacount"):
            ident = numbers.pop(0) if word == "section" else {"start": S.START_SECTION, "code": S.CODE_SECTION}.get(word, S.DATA_COUNT_SECTION)
            self.add_section(ident, numbers, items)

    def add_section(self, ident, numbers, items):
        start, end = numbers[:2]
        name = DATA_COUNT if ident == S.DATA_COUNT_SECTION else '"<%s>"' % S.NAMES[ident]
        self.sections.append("section %d %s %d..%d bytes=%d %s" % (ident, KINDS[ident], start, end, end - start, name))
        if ident == S.FUNCTION_SECTION:
            self.functions = len(items)
        elif ident == S.START_SECTION:
            self.start = numbers[2]
        elif ident == S.CODE_SECTION:
            self.code = start
        elif ident == S.MEMORY_SECTION:
            self.is_64 |= any(["memory64=true" in line for line in good(items, "Couldn't read a memory item")])
        elif ident == S.GLOBAL_SECTION:
            for line in good(items, "Couldn't read a global item"):
                constant = None if line.startswith("content_type=(mut ") else CONSTANT.search(line)
                self.globals.append(int(constant[1]) % 2**64 if constant else None)
        elif ident == S.IMPORT_SECTION:
            self.imports = items
        elif ident == S.EXPORT_SECTION:
            self.exports = items

    def add_custom(self, item, _, end, start):
        name = re.search(r"name=" + QUOTED, item.line)[1]
        kind = "Linker" if name in ('"reloc."', '"linking"') else "Other"
        self.sections.append("section 0 %s %d..%d bytes=%d %s" % (kind, start, end, end - start, name))
        if name == '"name"':
            self.names = item.under
        elif name == '"linking"':
            if "version=2" not in item.line:
                raise Refused("Invalid Wasm linking section")
            for line, lines in parts(item.under):
                if line.startswith("fault "):
                    raise Refused("Invalid Wasm linking subsection")
                self.table = lines if line.split(" ")[1].startswith("symbol_table=") else self.table
        elif name.startswith('".debug_'):
            self.is_debugged = True

    # ---- symbols

    def add_symbol(self, kind, place, scope, name, at=(0, 0), is_weak=False):
        self.symbols.append("symbol %s %s %s weak=%s %d+%d %s" % (kind, place, scope, str(is_weak).lower(), *at, name))

    def body_of(self, index):
        """Where the body of a function is, and its size; zeros for one that is imported or absent."""
        local = index - len(self.of_functions)
        return self.bodies[local] if 0 <= local < len(self.bodies) else (0, 0)

    def add_imports(self):
        """Reads the imports, and adds a symbol for each unless there is a table of symbols."""
        self.of_functions, self.of_globals, last = [], [], None
        for line in good(self.imports, "Couldn't read an import item"):
            module, name, kind, is_64 = IMPORT.match(line).groups()
            self.is_64 |= is_64 is not None
            if kind in ("func", "func_exact"):
                self.of_functions.append(name)
            elif kind == "global":
                self.of_globals.append(name)
            if self.table is None:
                if module != last:
                    self.add_symbol("File", "None", "Dynamic", module)
                last = module
                self.add_symbol(OF_IMPORTS.get(kind, "Data"), "Undefined", "Dynamic", name)

    def add_table(self):
        for match in below(self.table, SYMBOL, "Invalid Wasm linking symbol"):
            kind, flags, rest = match.groups()
            flags, name, fields = set(flags.split(" | ")), re.search(r" name=" + QUOTED, rest), dict(re.findall(r" (\w+)=(\d+)", rest))
            index, name, at = int(fields.get("index", 0)), name[1] if name else '""', (0, 0)
            is_explicit = "EXPLICIT_NAME" in flags
            if kind == "func":
                at = self.body_of(index)
                name = self.of_functions[index] if index < len(self.of_functions) and not is_explicit else name
            elif kind == "global" and not is_explicit:
                name = self.of_globals[index] if index < len(self.of_globals) else '""'
            elif kind == "data":
                at = int(fields.get("offset", 0)), int(fields.get("size", 0))
            place = "Undefined" if "UNDEFINED" in flags else "Absolute" if "ABSOLUTE" in flags else IN_CODE if kind == "func" else "Unknown"
            scope = "Compilation" if "BINDING_LOCAL" in flags else "Linkage" if "VISIBILITY_HIDDEN" in flags else "Dynamic"
            self.add_symbol("Tls" if "TLS" in flags else OF_SYMBOLS.get(kind, "Data"), place, scope, name, at, "BINDING_WEAK" in flags)

    def add_exports(self):
        for line in good(self.exports, "Couldn't read an export item"):
            name, kind, index = EXPORT.match(line).groups()
            index, at = int(index), (0, 0)
            local = index - len(self.of_functions)
            if kind == "func" and local >= self.functions:
                raise Refused("Invalid Wasm export index")
            if kind == "func":
                self.exported.add(local)
                at = self.body_of(index)
            elif kind == "global" and index < len(self.globals):
                at = self.globals[index] or 0, 0
            if kind != "tag":
                self.add_symbol("Text" if kind == "func" else "Data", IN_CODE if kind == "func" else IN_DATA, "Dynamic", name, at)

    def add_names(self):
        for line, lines in parts(self.names):
            if line.startswith("fault "):
                raise Refused("Invalid wasm name section")
            if line.split(" ")[1] != "function":
                continue
            for match in below(lines, NAMING, "Couldn't read a function name"):
                local = int(match[1]) - len(self.of_functions)
                if 0 <= local < min(self.functions, len(self.bodies)) and local not in self.exported:
                    self.add_symbol("Text", IN_CODE, "Compilation", match[2], self.bodies[local])

    def lines(self):
        """The lines of a module whose events have come."""
        entry = self.bodies[self.start][0] if self.start is not None and self.start < len(self.bodies) else 0
        self.add_imports()
        if self.table is not None:
            self.add_table()
        elif self.exports is not None or self.names is not None:
            self.add_symbol("File", "None", "Compilation", '""')
            self.add_exports() if self.exports is not None else None
            self.add_names() if self.names is not None else None
        head = "file %s entry=%d debug=%s segments=0" % ("Wasm64" if self.is_64 else "Wasm32", entry, str(self.is_debugged).lower())
        return [head, *self.sections, *self.symbols]


def lines_of(model, data):
    """What the crate prints of a module."""
    module = Module()
    try:
        for line, _, items in model.walked(data):
            module.add(line, items)
        return module.lines()
    except Refused as error:
        return ["error %s" % error]
