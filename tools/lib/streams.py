"""Random streams: modules and components whose sections are mostly in order, and whose counts mostly agree."""
import standard as S
from common import leb
from standard import ORDER

MODULE = b"\0asm\x01\0\0\0"
COMPONENT = b"\0asm\x0d\0\x01\0"


def random_bytes(rng, count):
    return bytes(rng.getrandbits(8) for _ in range(count))


def some_leb(rng, value):
    """A u32 in LEB128, now and then with more bytes than it needs, and seldom with more than it may have."""
    if rng.random() < 0.01:
        return rng.choice([b"\x80\x80\x80\x80\x10", b"\xff\xff\xff\xff\x7f", b"\x80\x80\x80\x80\x80", b"\x80\x80"])
    out = bytearray(leb(value))
    while len(out) < 5 and rng.random() < 0.08:
        out[-1] |= 128
        out.append(0)
    return bytes(out)


def some_number(rng):
    return rng.choice([0, 0, 0, 1, 1, 2, 3, 127, 128, 300, 16384, 2**32 - 1, rng.getrandbits(32)])


def some_name(rng):
    text = rng.choice([b"", b"a", b"name", "\u00e9".encode(), "\U0001f600".encode(), b"\xc3\x28", b"\xff", b"x" * 130])
    size = len(text) if rng.random() < 0.9 else rng.choice([0, len(text) + 1, 100000, 100001])
    return some_leb(rng, size) + text


def some_bodies(rng, count):
    """Bodies, mostly as many as are wanted."""
    if rng.random() < 0.05:
        count = max(0, count + rng.choice([-1, 1]))
    out = b""
    for _ in range(count):
        body = random_bytes(rng, rng.choice([0, 1, 2, 2, 9]))
        size = len(body) if rng.random() < 0.96 else rng.choice([len(body) + 1, some_number(rng)])
        out += some_leb(rng, size) + body
    return out


def some_content(rng, ident, functions, segments):
    if ident == S.CUSTOM_SECTION:
        return some_name(rng) + random_bytes(rng, rng.choice([0, 0, 1, 5]))
    if ident == S.START_SECTION:
        return some_leb(rng, some_number(rng)) + (b"\0" if rng.random() < 0.08 else b"")
    if ident == S.DATA_COUNT_SECTION:
        return some_leb(rng, segments) + (b"\0" if rng.random() < 0.05 else b"")
    if ident == S.FUNCTION_SECTION:
        return some_leb(rng, functions) + b"".join(some_leb(rng, rng.randrange(300)) for _ in range(functions))
    if ident == S.CODE_SECTION:
        announced = functions if rng.random() < 0.95 else rng.choice([0, 1, some_number(rng)])
        return some_leb(rng, announced) + some_bodies(rng, announced if announced < 9 else functions) + (b"\0" if rng.random() < 0.04 else b"")
    if ident == S.DATA_SECTION:
        return some_leb(rng, segments if rng.random() < 0.95 else some_number(rng)) + random_bytes(rng, rng.choice([0, 1, 4]))
    if ident in ORDER:
        return some_leb(rng, some_number(rng)) + random_bytes(rng, rng.choice([0, 1, 2, 7]))
    return random_bytes(rng, rng.choice([0, 1, 2, 7]))


def some_section(rng, ident, functions, segments):
    content = some_content(rng, ident, functions, segments)
    if rng.random() < 0.03:
        content = content[: rng.randrange(len(content) + 1)]
    size = len(content)
    if rng.random() < 0.03:
        size = rng.choice([size + 1, max(size - 1, 0), some_number(rng)])
    return bytes([ident]) + some_leb(rng, size) + content


def some_ids(rng):
    """Ids of sections: a module's mostly in their order, with custom and unknown ones among them."""
    often = rng.choice([0.3, 0.6, 1.0])
    chosen = {ident for ident in ORDER if rng.random() < often}
    if rng.random() < 0.6:
        # The sections whose counts must match come and go together. A data section may come alone.
        if chosen & {S.FUNCTION_SECTION, S.CODE_SECTION}:
            chosen |= {S.FUNCTION_SECTION, S.CODE_SECTION}
        if S.DATA_COUNT_SECTION in chosen:
            chosen.add(S.DATA_SECTION)
    ids = [ident for ident in ORDER if ident in chosen]
    if len(ids) > 1 and rng.random() < 0.08:
        first, second = rng.randrange(len(ids)), rng.randrange(len(ids))
        ids[first], ids[second] = ids[second], ids[first]
    others = [rng.choice(ids)] * (rng.random() < 0.05) if ids else []
    others += [rng.choice([S.CUSTOM_SECTION] * 3 + [14, 50, 127]) for _ in range(rng.choice([0, 0, 1, 2, 3]))]
    others += [rng.choice([128, 200, 255])] * (rng.random() < 0.02)
    for ident in others:
        ids.insert(rng.randrange(len(ids) + 1), ident)
    return ids


def some_header(rng):
    kind = rng.random()
    if kind < 0.82:
        return MODULE
    if kind < 0.97:
        return COMPONENT
    return rng.choice([MODULE[:4] + random_bytes(rng, 4), MODULE[:6] + b"\x01\0", random_bytes(rng, 8)])


def some_stream(rng):
    kind = rng.random()
    if kind < 0.03:
        return random_bytes(rng, rng.randrange(40))
    if kind < 0.08:
        return MODULE + bytes(rng.choice(b"\0\x01\x03\x08\x0a\x0b\x0c\x0eas\x80\xff") for _ in range(rng.randrange(14)))
    data = bytearray(some_header(rng))
    functions, segments = rng.choice([0, 0, 1, 2, 5]), rng.choice([0, 0, 1, 3])
    for ident in some_ids(rng):
        data += some_section(rng, ident, functions, segments)
    if rng.random() < 0.02:
        data += MODULE[: rng.randrange(9)]
    if rng.random() < 0.15:
        for _ in range(rng.choice([1, 1, 2])):
            place = rng.randrange(len(data))
            data[place] = rng.choice([0, 1, 3, 8, 10, 11, 12, 127, 128, 255, rng.randrange(256), data[place] ^ 1 << rng.randrange(8)])
    if rng.random() < 0.12:
        del data[rng.randrange(len(data) + 1) :]
    return bytes(data)


def some_large_content(rng, ident, functions, segments):
    """Content that is larger than a chunk of the programs, 65,536 bytes; in a code section each body is."""
    filler = bytes([rng.randrange(256)]) * rng.choice([65530, 65536, 65537, 70000, 200000])
    if ident == S.CODE_SECTION:
        return some_leb(rng, functions) + functions * (some_leb(rng, len(filler)) + filler)
    return some_content(rng, ident, functions, segments) + filler


def some_large_stream(rng):
    """A stream with a part that is larger than a chunk of the programs, and perhaps cut."""
    functions, segments, ids = rng.choice([1, 1, 2]), rng.choice([0, 1]), some_ids(rng) or [S.CUSTOM_SECTION]
    parts = [some_section(rng, ident, functions, segments) for ident in ids]
    large = rng.randrange(len(ids))
    content = some_large_content(rng, ids[large], functions, segments)
    parts[large] = bytes([ids[large]]) + some_leb(rng, len(content)) + content
    data = some_header(rng) + b"".join(parts)
    return data[: rng.randrange(len(data) + 1)] if rng.random() < 0.3 else data
