"""Runs of one hart: the log that they write and the dump behind it. A hart makes turns until one doesn't step or it has made as many as it
may; one that has stopped makes one that is idle."""

import struct

import replays
from hart import Hart, Memory

MOST = 1 << 40

COUNTER = bytes.fromhex("4852563100000100040000000400000000002000010000000100000004000000"
                        "b702200013031000afa362007300000000000000")


def image_of(*words):
    return struct.pack("<4sIIIIIII", b"HRV1", 0x10000, len(words), 0, 0, 0, 0, 0) + struct.pack(f"<{len(words)}I", *words)


# addi x5,x5,1 and back to it, for ever
FOREVER = image_of(0x00128293, 0xFFDFF06F)
ILLEGAL = image_of(0)
# lw x5,0(x0)
OUTSIDE = image_of(0x00002283)


def log_of(turns, harts=1):
    runs = [(0, turns)] if turns else []
    return struct.pack("<4sIQ", b"HRL1", harts, len(runs)) + b"".join(struct.pack("<BQ", *it) for it in runs)


def run(image, log, limit):
    """The bytes of the log and the lines of the dump, or no bytes and the line of the refusal."""
    try:
        entry, words, data, output = replays.read_image(image)
        harts, runs = replays.read_log(log)
    except replays.Refused as refusal:
        return b"", [str(refusal)]
    assert harts == 1
    memory, hart = Memory(words, data), Hart(0, 1, entry)
    old = sum(length for _, length in runs)
    while hart.turns < old and hart.status == "running":
        hart.turn(memory)
    hart.turns = old
    while hart.turns < min(old + limit, MOST):
        hart.turn(memory)
        if hart.status != "running":
            break
    return log_of(hart.turns), replays.dump(memory, [hart], output)


def digits(data):
    return [data[at:at + 32].hex() for at in range(0, len(data), 32)]


def begun(file, _):
    """Runs from the start."""
    cases = [("that finishes", COUNTER, MOST), ("that may make as many turns as it needs", COUNTER, 4), ("that may make too few", COUNTER, 3),
             ("of one turn", COUNTER, 1), ("that ends at its limit", FOREVER, 1000), ("of two batches", FOREVER, 128),
             ("of two batches and a turn", FOREVER, 129), ("of a batch without a turn", FOREVER, 63), ("that traps at once", ILLEGAL, MOST),
             ("that may make the turn that traps", ILLEGAL, 1), ("that reads outside", OUTSIDE, MOST), ("of no image", COUNTER[:51], MOST),
             ("of another file", b"HRL1", MOST)]
    for name, image, limit in cases:
        case(file, "run", f"a run {name}", image, None, limit)


def resumed(file, _):
    """Runs that go on from a log."""
    cases = [("before the first turn", COUNTER, log_of(0), MOST), ("in the middle", COUNTER, log_of(2), MOST),
             ("in the middle, for one turn", COUNTER, log_of(2), 1), ("where the hart has finished", COUNTER, log_of(4), MOST),
             ("with idle turns", COUNTER, log_of(9), 5), ("where one turn is left", COUNTER, log_of(MOST - 1), MOST),
             ("where no turn is left", COUNTER, log_of(MOST), MOST), ("of a hart that trapped", ILLEGAL, log_of(1), MOST),
             ("of a loop", FOREVER, log_of(1001), 200), ("that is none", COUNTER, log_of(2)[:24], MOST), ("of no harts", COUNTER, log_of(0, 0), MOST),
             ("of too many turns", COUNTER, log_of(MOST + 1), MOST), ("that is none, and no image", COUNTER[:51], b"HRV1", MOST)]
    for name, image, log, limit in cases:
        case(file, "resume", f"from a log {name}", image, log, limit)


def case(file, kind, name, image, log, limit):
    spelled, lines = run(image, log_of(0) if log is None else log, limit)
    parts = [("image", digits(image))] + ([] if log is None else [("log", digits(log))]) + [("turns", [str(limit)])]
    file.case(kind, name, parts, digits(spelled) + lines)
