"""Modules that are made of parts, one with names, and random ones, with items in their sections and with the custom sections that are known."""
import standard as S
from common import leb
from items import CUSTOM, ROWS, SECTIONS, mutated
from standard import ORDER
from streams import MODULE, random_bytes, some_stream


# ---- parts of modules


def section(ident, content):
    return bytes([ident]) + leb(len(content)) + content


def text(word):
    return leb(len(word.encode())) + word.encode()


def vector(items):
    return leb(len(items)) + b"".join(items)


def listed(number, items):
    """A section of items, after their count."""
    return section(number, vector(list(items)))


def custom(name, content):
    return section(S.CUSTOM_SECTION, text(name) + content)


def module(*parts):
    return MODULE + b"".join(parts)


# The names of items in each index space, and the subsection that has them.
NAMES = {"func": (1, ["log", "next", "roll"]), "table": (5, ["calls"]), "memory": (6, ["heap"]), "global": (7, ["state"]),
         "type": (4, ["unary"]), "data": (9, ["texts"]), "tag": (11, ["oops"]), "element": (8, ["callees"])}


def name_section(names, locals_of=b""):
    """A section of names, with a subsection of locals between those of functions and types."""
    maps = sorted((ident, vector([leb(i) + text(name) for i, name in enumerate(words)])) for ident, words in names.values())
    maps.insert(1, (2, locals_of or b"\0"))
    return custom("name", b"".join(section(ident, content) for ident, content in maps))


def other_names():
    """A section that names the same items otherwise, and one more of each index space."""
    return name_section({space: (ident, ["other" + word for word in words] + ["more"]) for space, (ident, words) in NAMES.items()})


def named_module():
    """A module whose name section names an item of each index space, and a local."""
    return module(
        section(1, vector([b"\x60\1\x7f\1\x7f"])), section(2, vector([text("env") + text("log_number") + b"\0\0"])),
        section(3, vector([b"\0", b"\0"])), section(4, vector([b"\x70\0\2"])), section(5, vector([b"\0\1"])),
        section(13, vector([b"\0\0"])),
        section(6, vector([b"\x7f\1\x41\7\x0b"])), section(7, vector([text("dice") + b"\0\2", text("mem") + b"\2\0"])), section(8, b"\1"),
        section(9, vector([b"\0\x41\0\x0b\2\1\2"])), section(12, b"\1"), section(10, vector([b"\2\0\x0b", b"\4\0\x20\0\x0b"])),
        section(11, vector([b"\0\x41\0\x0b" + text("hello")])), name_section(NAMES, vector([leb(1) + vector([leb(0) + text("sides")])])),
        custom("producers", vector([text("language") + vector([text("C11") + text("")])])),
    )


# ---- random modules


def plain(rng, row):
    """The bytes of an item, now and then with a fault."""
    item = ROWS[row](rng)
    return mutated(rng, item) if rng.random() < 0.02 else item


def counted(rng, items):
    """A count and items, seldom with another count or with bytes after them."""
    count = len(items) if rng.random() < 0.97 else rng.choice([len(items) + 1, max(len(items) - 1, 0), 2**32 - 1])
    return leb(count) + b"".join(items) + (random_bytes(rng, 2) if rng.random() < 0.01 else b"")


def custom_section(rng):
    name = rng.choice(list(CUSTOM)) if rng.random() < 0.9 else rng.choice(["", "names", ".debug_info", "reloc", 'a"\\\n', "\u00e9"])
    data = ROWS[CUSTOM[name]](rng) if name in CUSTOM else random_bytes(rng, rng.randrange(20))
    if rng.random() < 0.1:
        data = mutated(rng, data) if rng.random() < 0.5 else data[: rng.randrange(len(data) + 1)]
    return custom(name, data)


def sections_of(rng):
    """The sections of a module in their order, with custom ones between them."""
    functions, segments = rng.choice([0, 1, 2, 5]), rng.choice([0, 1, 2, 5])
    announces, has_code = rng.random() < 0.5, functions > 0
    for ident in ORDER:
        while rng.random() < 0.25:
            yield custom_section(rng)
        if ident == S.FUNCTION_SECTION and has_code:
            yield section(S.FUNCTION_SECTION, leb(functions) + b"".join(leb(rng.choice([0, 1, 127, 128, 300])) for _ in range(functions)))
        elif ident == S.DATA_COUNT_SECTION and announces:
            yield section(S.DATA_COUNT_SECTION, leb(segments))
        elif ident == S.CODE_SECTION and has_code:
            yield section(S.CODE_SECTION, leb(functions) + b"".join(b"\2\0\x0b" for _ in range(functions)))
        elif ident == S.START_SECTION and rng.random() < 0.2:
            yield section(S.START_SECTION, leb(rng.randrange(300)))
        elif ident == S.DATA_SECTION and (announces or rng.random() < 0.5):
            yield section(S.DATA_SECTION, leb(segments) + b"".join(plain(rng, "data") for _ in range(segments)))
        elif ident in SECTIONS and ident != S.DATA_SECTION and rng.random() < 0.6:
            yield section(ident, counted(rng, [plain(rng, SECTIONS[ident]) for _ in range(rng.choice([0, 1, 2, 5, 12]))]))
    while rng.random() < 0.5:
        yield custom_section(rng)


def stream_of(rng):
    """Mostly a module whose sections have many items, of which some have faults; some streams are changed or cut anywhere."""
    if rng.random() < 0.08:
        return some_stream(rng)
    data = MODULE + b"".join(sections_of(rng))
    if rng.random() < 0.1:
        data = mutated(rng, data)
    return data[: rng.randrange(len(data) + 1)] if rng.random() < 0.05 else data


def mutants(rng, sources, count):
    """As many streams, each made from one of the sources or from a random module with items by changing some bytes."""
    for _ in range(count):
        data = rng.choice(sources) if rng.random() < 0.5 else stream_of(rng)
        yield mutated(rng, data)
