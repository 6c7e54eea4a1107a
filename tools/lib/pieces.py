"""Streams in chunks: the cases that the program test_rows reads, and what a model says of them."""
from common import leb, number_at


def joined(pieces):
    """The bytes of a row of chunks: their count, and each after its size."""
    return leb(len(pieces)) + b"".join(leb(len(piece)) + piece for piece in pieces)


# ---- what the model says


def event_text(line, data):
    words = line.split(" ")
    if words[0] == "version":
        return "version %s %s %s..%s %s" % (words[3], words[4], words[1], words[2], data)
    if words[0] in ("section", "unknown"):
        return " ".join([words[0], words[1]] + words[4:]) + " %s..%s %s" % (words[2], words[3], data)
    if words[0] in ("start", "datacount", "code", "body", "custom"):
        return " ".join([words[0]] + words[3:]) + " %s..%s %s" % (words[1], words[2], data)
    return (line if words[0] == "fault" else words[0]) + " %s..%s x" % (words[1], words[1])


def expected_events(model, stream, offset):
    out = []
    try:
        for line, part, _ in model.events(stream, offset, True):
            out.append(event_text(line, "x" + part.hex()))
    except model.Fault as fault:
        out.append(event_text(fault.line(), ""))
    return out


def expected_steps(model, pieces, offset):
    found = model.steps(pieces, offset)
    return ["%s %d %d" % (line if line.startswith(("need", "fault")) else "part %d" % used, held, stored) for line, used, held, stored in found]


def pieces_in(data):
    """The chunks of a row."""
    count, place = number_at(data, 0)
    pieces = []
    for _ in range(count):
        size, start = number_at(data, place)
        place = start + size
        pieces.append(data[start:place])
    return pieces


def model_lines(model, reader, data, offset):
    """The lines that a model has for a row of a stream in chunks, whose reader is `events` or `steps`."""
    pieces = pieces_in(data)
    parts = expected_events(model, b"".join(pieces), offset) if reader == "events" else expected_steps(model, pieces, offset)
    return ["  " + "".join(part + "; " for part in parts)]


# ---- cuts


def cut(rng, stream):
    places = sorted(rng.randrange(len(stream) + 1) for _ in range(rng.randrange(6)))
    return [stream[i:j] for i, j in zip([0] + places, places + [len(stream)])]


def with_empty(rng, pieces):
    return [part for piece in pieces for part in ([b""] * rng.randrange(2) + [piece])]
