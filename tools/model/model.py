#!/usr/bin/env python3
"""A model of framing: what a stream's events are, which data is too short, and stripped and edited streams.

  model.py --rows           its worked rows
  model.py --laws [DEPTH]   what holds for any cutting, by brute force over short streams

Written from the standard and from rows that were worked out by hand, and knowing nothing of any parser: a front is folded
into what a parser must know of it, and every rule is a case on a byte string. With `at_once` a body that passes its section
is refused as soon as its size has been read; without, once its bytes are there.
"""
import argparse
import dataclasses
import itertools
import os
import sys
from dataclasses import replace
from typing import Optional

TOP = (1 << 64) - 1
MAGIC = b"\0asm"

EOF = "unexpected end-of-file"

# Ids in the order of their ranks.
RANKED = [1, 2, 3, 4, 5, 13, 6, 7, 8, 9, 12, 10, 11]
RANK = {ident: i + 1 for i, ident in enumerate(RANKED)}


class Fault(Exception):
    """A fault: its offset, its text, a number or None, and how many bytes are missing, where the stream ends within what is read, or None."""

    def __init__(self, at, text, number=None, missing=None):
        super().__init__(at, text, number, missing)
        self.at, self.text, self.number, self.missing = at, text, number, missing

    def line(self, hints=False):
        n = "" if self.number is None else ": %d" % self.number
        hint = "" if self.missing is None or not hints else " missing=%d" % self.missing
        return "fault %d %s%s%s" % (self.at, self.text, n, hint)


@dataclasses.dataclass(frozen=True)
class State:
    """What a parser must know of a front. `at` and `code_end` are offsets: where the front ends, and its code section. Counts that
    didn't come are None."""

    at: int = 0
    at_once: bool = False
    expects_header: bool = True
    is_module: bool = True
    rank: int = 0
    functions: Optional[int] = None
    code: Optional[int] = None
    data_count: Optional[int] = None
    data: Optional[int] = None
    in_code: bool = False
    bodies_left: int = 0
    code_end: int = 0


# ------------------------------------------------------------------ events

# Kinds of numbers: the most bytes, how many bits of the last of them count, whether there is a sign, and what faults call them.
KINDS = {"u32": (5, 4, False, "var_u32"), "s32": (5, 4, True, "var_i32"), "s33": (5, 5, True, "var_s33"),
         "u64": (10, 1, False, "var_u64"), "s64": (10, 1, True, "var_i64")}


def leb(d, p, end, o=0, kind="u32"):
    """A number in LEB128 over d[p:end], and the place after it; None if the bytes end within it. Place i has the offset o + i."""
    longest, bits, signed, word = KINDS[kind]
    value = 0
    for k, x in enumerate(d[p:min(end, p + longest)]):
        if k == longest - 1 and x >= 128:
            raise Fault(o + p + k, "invalid %s: integer representation too long" % word)
        # The unused bits of a signed number are copies of the one before them.
        copies = (1 << (7 - bits)) - 1 if signed and x >> (bits - 1) & 1 else 0
        if k == longest - 1 and x >> bits != copies:
            raise Fault(o + p + k, "invalid %s: integer too large" % word)
        value |= (x & 127) << 7 * k
        if x < 128:
            return value - (1 << 7 * k + 7 if signed and x & 64 else 0), p + k + 1
    return None


def number(d, p, end, o, missing=None):
    """A u32 that has to be there, and the place after it."""
    found = leb(d, p, end, o)
    if found is None:
        raise Fault(o + end, EOF, missing=missing)
    return found


def next_event(st, d, p=0):
    """The next event behind the front of `st`, where d[p:] is all the rest of the stream.

    Gives (line, bytes consumed, state behind), or raises Fault. `End` is a line
    that begins with "end"."""
    if st.expects_header:
        return header_event(st, d, p)
    if st.in_code and st.bodies_left:
        return body_event(st, d, p)
    if st.in_code and st.at < st.code_end:
        raise Fault(st.at, "trailing bytes at end of section")
    return section_event(st, d, p) if p < len(d) else end_event(st)


def header_event(st, d, p):
    n = len(d) - p
    if n < 4:
        raise Fault(st.at, EOF, missing=4 - n)
    if d[p:p + 4] != MAGIC:
        raise Fault(st.at, "magic header not detected: bad magic number")
    if n < 8:
        raise Fault(st.at + 4, EOF, missing=8 - n)
    field = int.from_bytes(d[p + 4:p + 8], "little")
    version, kind = field & 0xFFFF, field >> 16
    if (version, kind) not in ((1, 0), (13, 1)):
        raise Fault(st.at + 4, "unknown binary version", field)
    word = "module" if kind == 0 else "component"
    new = replace(st, expects_header=False, is_module=kind == 0, at=st.at + 8)
    return "version %d %d %d %s" % (st.at, new.at, version, word), 8, new


def body_event(st, d, p):
    o = st.at - p
    size, b = number(d, p, len(d), o, missing=1)
    passes_section = o + b + size > st.code_end
    if st.at_once and passes_section:
        raise Fault(st.at, EOF)
    if len(d) - b < size:
        raise Fault(o + b, EOF, missing=size - (len(d) - b))
    if passes_section:
        raise Fault(st.at, EOF)
    new = replace(st, bodies_left=st.bodies_left - 1, at=o + b + size)
    return "body %d %d" % (o + b, new.at), b + size - p, new


def end_event(st):
    if st.functions and st.code is None:
        raise Fault(st.at, "function section has non-zero count but code section is absent")
    if st.data_count and st.data is None:
        raise Fault(st.at, "data count is non-zero but data section is absent")
    return "end %d" % st.at, 0, st


def section_event(st, d, p):
    o = st.at - p
    if d[p:p + 4] == MAGIC:
        raise Fault(st.at, "expected section, got wasm magic number")
    ident = d[p]
    if ident >= 128:
        raise Fault(st.at, "malformed section id")
    n, c = number(d, p + 1, len(d), o, missing=1)
    e = c + n
    if o + e > TOP:
        raise Fault(st.at + 1, "section too large", n)
    is_ranked = st.is_module and ident in RANK
    if is_ranked and RANK[ident] <= st.rank:
        raise Fault(o + c, "section out of order")
    new = replace(st, in_code=False, rank=RANK[ident] if is_ranked else st.rank, at=o + e)
    if is_ranked and ident == 10:
        return code_event(new, d, p, c, e)
    if len(d) - c < n:
        raise Fault(o + c, EOF, missing=n - (len(d) - c))
    span = "%d %d" % (o + c, o + e)
    if ident == 0:
        return "custom %s %d" % (span, o + after_name(d, c, e, o)), e - p, new
    if not is_ranked:
        return "unknown %d %s" % (ident, span), e - p, new
    value, q = number(d, c, e, o)
    if ident in (8, 12) and q < e:
        raise Fault(o + q, "unexpected content in the start section" if ident == 8 else "unexpected content in the data count section")
    if ident == 11 and st.data_count not in (None, value):
        raise Fault(o + e, "data count and data section have inconsistent lengths")
    if ident in COUNTS:
        new = replace(new, **{COUNTS[ident]: value})
    word = {8: "start", 12: "datacount"}.get(ident, "section %d" % ident)
    return "%s %s %d" % (word, span, value), e - p, new


# The counts of a state that sections have.
COUNTS = {3: "functions", 11: "data", 12: "data_count"}


def code_event(st, d, p, c, e):
    """The head of a code section with the content d[c:e], whose end is that of the front."""
    o = st.at - e
    count, q = number(d, c, len(d), o, missing=1)
    if q > e:
        raise Fault(o + c, EOF)
    if st.functions is None and count:
        raise Fault(o + c, "function section is absent but code section has non-zero count")
    if st.functions not in (None, count):
        raise Fault(o + c, "function and code section have inconsistent lengths")
    new = replace(st, code=count, in_code=True, bodies_left=count, code_end=o + e, at=o + q)
    return "code %d %d %d %d" % (o + c, o + e, count, e - q), q - p, new


def after_name(d, c, e, o):
    """The place after the name of a custom section with the content d[c:e]."""
    size, q = number(d, c, e, o)
    if size > 100000:
        raise Fault(o + q - 1, "string size out of bounds")
    if e - q < size:
        raise Fault(o + q, EOF)
    try:
        d[q:q + size].decode("utf-8")
    except UnicodeDecodeError:
        raise Fault(o + q + size - 1, "malformed UTF-8 encoding") from None
    return q + size


def events(S, o=0, at_once=False):
    """Each event of a stream: its line, its bytes, and the state behind it. Raises Fault."""
    st, p, line = State(o, at_once), 0, ""
    while not line.startswith("end"):
        line, used, st = next_event(st, S, p)
        yield line, S[p:p + used], st
        p += used


def reading(S, o=0, at_once=False, hints=False):
    """The listing of the whole stream, a list of lines. With `hints` that of a fault has how many bytes are missing."""
    if o + len(S) > TOP:
        return [Fault(o, "data passes the offset range").line()]
    out = []
    try:
        out.extend(line for line, _, _ in events(S, o, at_once))
    except Fault as f:
        out.append(f.line(hints))
    return out


def answer(st, d, p=0):
    """The line of the next event or of a fault, how many bytes it takes, and the state behind."""
    try:
        return next_event(st, d, p)
    except Fault as f:
        return f.line(), 0, st


def state_of(C, o=0, at_once=False):
    """The state behind the front C, which is made of whole parts without a fault."""
    st, p = State(o, at_once), 0
    while p < len(C):
        line, used, st = next_event(st, C, p)
        p += used
    return st


# ------------------------------------------------------------------ requests

def short(st, d, p=0):
    """What the bytes d[p:] miss: how many bytes are asked for, how many bound them all, and where; None where they are enough."""
    try:
        return lacking(st, d, p)
    except Fault:
        return None


def lacking(st, d, p):
    """Like `short`; a fault of a number is raised."""
    n = len(d) - p
    if st.expects_header:
        if n < 4:
            return 4 - n, 8, "at 0"
        return (8 - n, 8, "at 0") if n < 8 and d[p:p + 4] == MAGIC else None
    if st.in_code and st.bodies_left:
        found = leb(d, p, len(d))
        if found is None:
            return 1, 5, "body"
        size, b = found
        if len(d) - b >= size or st.at_once and st.at - p + b + size > st.code_end:
            return None
        return size - (len(d) - b), b + size - p, "body bytes"
    if st.in_code and st.at < st.code_end:
        return None
    if n == 0:
        return 1, 4, "section start"
    if n < 4 and MAGIC.startswith(d[p:p + n]):
        return 4 - n, 4, "magic"
    ident = d[p]
    if ident >= 128 or d[p:p + 4] == MAGIC:
        return None
    found = leb(d, p + 1, len(d))
    if found is None:
        return 1, 6, "length"
    size, c = found
    if st.at - p + c + size > TOP or st.is_module and ident in RANK and RANK[ident] <= st.rank:
        return None
    if st.is_module and ident == 10:
        return (1, c + 5 - p, "code head") if leb(d, c, len(d)) is None else None
    return (size - (len(d) - c), c + size - p, "content") if len(d) - c < size else None


def ending(st, d):
    """Bytes that decide the event otherwise than the end of the stream does."""
    asked, _, where = short(st, d)
    if where == "at 0":
        return bytes((8 if len(d) >= 4 else 4) - len(d))
    if where == "magic":
        return MAGIC[len(d):]
    return bytes(asked) if where in ("content", "body bytes") else b"\x80" * 5


def steps(pieces, o=0, at_once=True):
    """Each step of a feeder of a stream in chunks, up to the second call that returns its end or fault: its request or the line of what it reads,
    how many bytes it consumes, how many are then held, and how many stored."""
    st, p, given, stored, is_all, lasts = State(o, at_once), 0, b"", 0, False, 0
    later = iter(pieces)
    while lasts < 2:
        request = None if is_all else short(st, given, p)
        line, used = "", 0
        if request is None:
            line, used, st = answer(st, given, p)
            lasts += line.startswith(("end", "fault"))
        p += used
        yield line or "need %d" % request[0], used, len(given) - p, stored
        if request is not None:
            piece = next(later, None)
            is_all = piece is None
            if not is_all:
                given += piece
                stored = len(given) - p


def prefix(S, o=0, at_once=False):
    """The results without the end of the stream, each event with how many bytes it takes, up to the first request or fault with the offset of the
    next event."""
    st, p, out = State(o, at_once), 0, []
    while True:
        request = short(st, S, p)
        line, used, behind = ("need %d" % request[0], 0, st) if request else answer(st, S, p)
        if line.startswith(("need", "fault")):
            return out + ["%s offset=%d" % (line, st.at)]
        out.append("%s used=%d" % (line, used))
        st, p = behind, p + used


# ------------------------------------------------------------------ edits

def parts(S):
    """The parts of a stream after its header: the bytes of each, and the name of a custom section or None."""
    for line, part, _ in events(S):
        words = line.split(" ")
        if words[0] == "custom":
            end_of_size = leb(S, int(words[1]), len(S))[1]
            yield part, S[end_of_size:int(words[3])]
        elif words[0] not in ("version", "end"):
            yield part, None


def changed(S, change):
    """The stream with other bytes for each part, by its bytes and its name, or the fault's line (a str)."""
    try:
        return b"".join([S[:8], *(change(part, name) for part, name in parts(S))])
    except Fault as f:
        return f.line()


def strip(S, keep=False):
    """The stripped bytes, or the fault's line (a str)."""
    return changed(S, lambda part, name: part if name is None or keep and name == b"name" else b"")


def shortest(n):
    """The LEB128 number with the fewest bytes."""
    return bytes([n]) if n < 128 else bytes([n % 128 + 128]) + shortest(n // 128)


def custom(name, data):
    """A custom section."""
    content = shortest(len(name)) + name + data
    return b"\0" + shortest(len(content)) + content


def matches(pattern, name):
    """Whether a name matches a pattern: one that ends with a star matches what begins with the bytes before it."""
    return name.startswith(pattern[:-1]) if pattern.endswith(b"*") else name == pattern


# What an edit of each kind makes of a part, by its bytes, its name, the name of the edit and the new section.
EDITS = {
    "append": lambda part, name, other, new: part,
    "replace": lambda part, name, other, new: new if name == other else part,
    "remove": lambda part, name, other, new: b"" if name == other else part,
    "keep": lambda part, name, other, new: part if name is None or matches(other, name) else b"",
}


def edit(S, kind, name, data=b""):
    """The bytes after an edit of the custom sections, or the fault's line (a str)."""
    new = custom(name, data)
    got = changed(S, lambda part, other: EDITS[kind](part, other, name, new))
    return got + new if kind == "append" and isinstance(got, bytes) else got


# ------------------------------------------------------------------ the rows

M = b"\0asm\1\0\0\0"


def H(text):
    """Bytes in hexadecimal, in which M is a module's header and - nothing."""
    return b"" if text == "-" else M * text.startswith("M") + bytes.fromhex(text.lstrip("M"))


def ask(front, d, eof=False, o=0, at_once=False):
    """What a parser after a front says of some bytes."""
    st = state_of(front, o, at_once)
    request = None if eof else short(st, d)
    if request is not None:
        return "need %d" % request[0]
    return Fault(st.at, "data passes the offset range").line() if st.at + len(d) > TOP else answer(st, d)[0]


def is_undecided(front, d, at_once):
    """"need" if more bytes are asked for, and the ending of the model decides otherwise than the end of the stream."""
    differs = ask(front, d, True, 0, at_once) != ask(front, d + ending(state_of(front, 0, at_once), d), True, 0, at_once)
    return ask(front, d, False, 0, at_once)[:4] if differs else "decided"


def fed(S, size):
    """The requests and events of a feeder while chunks of this size arrive."""
    for line, *_ in steps([S[place:place + size] for place in range(0, len(S), size)], at_once=False):
        yield line
        if line.startswith(("end", "fault")):
            return


def said(kind, words, count):
    """What the model says of a row: of lines, the last ones that the row has."""
    o, at_once = sum(int(word[1:]) for word in words if word[0] == "@"), "once" in words
    S = H(words[0])
    if kind == "ask":
        return ask(S, H(words[1]), "eof" in words, o, at_once)
    if kind == "short":
        return "/".join(sorted({is_undecided(S, H(words[1]), once) for once in (False, True)}))
    if kind in ("strip", "edit"):
        got = strip(S, "names" in words) if kind == "strip" else edit(S, words[1], *map(H, words[2:]))
        return got if isinstance(got, str) else "M" + got[8:].hex() if got.startswith(M) else got.hex()
    if kind == "feed":
        return " / ".join(line for line in fed(S, int(words[1])) if "hints" in words or not line.startswith("need"))
    if kind == "requests":
        return " / ".join([line for line in fed(S, int(words[1])) if line.startswith("need")][:count])
    lines = reading(S, o, at_once)
    return " / ".join(lines[-count:] if kind == "last" else lines)


def rows():
    """Checks the worked rows of streams.txt: how many there are, and those that differ."""
    with open(os.path.join(os.path.dirname(os.path.abspath(__file__)), "streams.txt"), encoding="ascii") as file:
        known = [line.rstrip("\n").partition(" = ") for line in file if not line.startswith("#")]
    got = [(row, said(*row.split(" ", 1)[:1], row.split()[1:], expected.count(" / ") + 1), expected) for row, _, expected in known]
    return len(got), [row for row in got if row[1] != row[2]]


# ------------------------------------------------------------------ the laws

# Fronts, bytes that may come after them, and what may follow these.
FRONTS = ["", "M", "M010100", "M03020100", "M0c0101", "M0c0100", "M0a0100", "M030201000a0401", "M030202000a0802", "M030202000a08020100",
          "M030201000a0101", "M030201000a020100", "M030201000a030100", "M030201000affffffff0f01", "M0b0100", "0061736d0d000100"]
ALPHABET = [0x00, 0x01, 0x02, 0x03, 0x05, 0x0A, 0x0B, 0x0C, 0x61, 0x73, 0x6D, 0x7F, 0x80, 0xFF]
TAILS = [bytes(tail) for n in range(4) for tail in itertools.product([0, 1, 0x61, 0x80], repeat=n)]
TAILS += [bytes(n) for n in (4, 5, 8, 9, 130)] + [b"\x80" * 5, b"\xff" * 6, b"asm", b"sm", b"m", M]


def short_streams(depth):
    """Each front, with up to this many bytes after it."""
    for front in map(H, FRONTS):
        for n in range(depth + 1):
            yield from ((front, bytes(more)) for more in itertools.product(ALPHABET, repeat=n))


def broken_law(st, d):
    """What doesn't hold of some bytes after a front: more bytes change no result, and where more are requested, two suffixes decide otherwise."""
    here, request = answer(st, d)[0], short(st, d)
    if here.startswith("fault") and not st.at <= int(here.split(" ")[1]) <= st.at + len(d):
        return "the offset of a fault"
    if request is None:
        return next(("more bytes change an answer: " + tail.hex() for tail in TAILS if answer(st, d + tail)[0] != here), None)
    hint, need, _ = request
    if hint < 1 or need <= len(d):
        return "hint"
    return "waits where all is decided" if hint <= 10000 and answer(st, d + ending(st, d))[0] == here else None


def laws(depth=3):
    """Checks the laws over short streams: how many there are, and those for which one doesn't hold."""
    total, wrong = 0, []
    for at_once in (False, True):
        for front, d in short_streams(depth):
            total += 1
            law = broken_law(state_of(front, 0, at_once), d)
            wrong += [(law, at_once, front.hex(), d.hex())] if law else []
    return total, wrong


def report(about, rows, laws=None):
    """The main part of a model: checks its rows or its laws, and returns the status."""
    line = argparse.ArgumentParser(description=about.strip(), formatter_class=argparse.RawDescriptionHelpFormatter)
    what = line.add_mutually_exclusive_group(required=True)
    what.add_argument("--rows", action="store_true", help="check the worked rows")
    if laws:
        what.add_argument("--laws", type=int, nargs="?", const=3, metavar="DEPTH", help="check the laws over streams of up to this many bytes after a front (3)")
    given = line.parse_args()
    n, bad = rows() if given.rows else laws(given.laws)
    for b in bad[:40]:
        print("DIFFERS", b)
    print("%d agree, %d differ" % (n - len(bad), len(bad)))
    return 1 if bad else 0


if __name__ == "__main__":
    sys.exit(report(__doc__, rows, laws))
