"""The sections of a module as the standard has them, for the tools that judge what the programs write.

They are copied from the text of the core specification, version 3.0. `of_source` reads the same from our source.
`NAMES` has the word of each section by its id, as dumps write it, `ORDER` the ids in the order in which sections come, and the constants
TYPE_SECTION and so on are the ids.
"""
import re

# Binary Format, Modules, Sections: the table of ids.
TABLE = """
     0  custom section
     1  type section
     2  import section
     3  function section
     4  table section
     5  memory section
     6  global section
     7  export section
     8  start section
     9  element section
    10  code section
    11  data section
    12  data count section
    13  tag section
"""
# Binary Format, Modules, Modules: the sections of a module in order. Custom sections come between any two.
MODULE = "typesec importsec funcsec tablesec memsec tagsec globalsec exportsec startsec elemsec datacntsec codesec datasec".split()
PRODUCTIONS = {"func": "function", "mem": "memory", "elem": "element", "datacnt": "data count"}

IDS = {name.replace(" section", ""): int(number) for number, name in (line.split("  ") for line in map(str.strip, TABLE.split("\n")) if line)}
NAMES = {number: name.replace(" ", "") for name, number in IDS.items()}
CONSTANTS = {name.upper().replace(" ", "_") + "_SECTION": number for name, number in IDS.items()}
ORDER = [IDS[PRODUCTIONS.get(name[:-3], name[:-3])] for name in MODULE]
globals().update(CONSTANTS)


def of_source(text):
    """The names, the ids by their constants, and the order, as crates/wasm_grammar/src/sections.rt has them."""
    body = {name: text[text.index("fn %s(" % name) :].split("\n}\n")[0] for name in ("section_name", "section_place")}
    ids = {name: int(number) for name, number in re.findall(r"^pub const (\w+_SECTION): u8 = (\d+);", text, re.M)}
    names = {ids[name]: word for name, word in re.findall(r'^\s*(\w+) => Some\("(\w+)"\)', body["section_name"], re.M)}
    places = {ids[name]: int(place) for name, place in re.findall(r"^\s*(\w+_SECTION) => (\d+),", body["section_place"], re.M)}
    return names, ids, sorted(places, key=places.get)
