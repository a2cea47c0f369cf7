"""Runs whose turns a seed draws: the log that they write and the dump behind it. Again and again a number of SplitMix64, modulo the number of
harts that are running and may make turns, names one of these, the lowest first; it makes a few turns, fewer where it stops."""

import struct

import replays
import runs
from hart import Hart, Memory

MASK = (1 << 64) - 1


def numbers(state):
    """SplitMix64, by Steele, Lea and Flood, as Vigna writes it."""
    while True:
        state = state + 0x9E3779B97F4A7C15 & MASK
        z = state
        z = (z ^ z >> 30) * 0xBF58476D1CE4E5B9 & MASK
        z = (z ^ z >> 27) * 0x94D049BB133111EB & MASK
        yield z ^ z >> 31


# lui x5,0x200; lw x6,0(x5); addi x6,x6,1; sw x6,0(x5); ecall, with one pixel of data: an update is lost where another hart loads in between
LOSING = struct.pack("<4sIIIIIII", b"HRV1", 0x10000, 5, 4, 0x200000, 1, 1, 4) + struct.pack(
    "<5I", 0x002002B7, 0x0002A303, 0x00130313, 0x0062A023, 0x00000073) + bytes(4)
# beq x10,x0,8; ecall; addi x5,x5,1 and back to it: hart 0 never stops
ONE_FOREVER = runs.image_of(0x00050463, 0x00000073, 0x00128293, 0xFFDFF06F)
# bne x10,x0,8; lw x5,0(x0); addi x6,x6,1; ecall: hart 0 traps
ONE_TRAPS = runs.image_of(0x00051463, 0x00002283, 0x00130313, 0x00000073)


def log_of(harts, turns):
    stretches = []
    for turn in turns:
        if stretches and stretches[-1][0] == turn:
            stretches[-1][1] += 1
        else:
            stretches.append([turn, 1])
    return struct.pack("<4sIQ", b"HRL1", harts, len(stretches)) + b"".join(struct.pack("<BQ", *it) for it in stretches)


def run(image, count, limit, seed, every):
    """The bytes of the log and the lines of the dump, or no bytes and the line of the refusal."""
    try:
        entry, words, data, output = replays.read_image(image)
    except replays.Refused as refusal:
        return b"", [str(refusal)]
    memory, harts = Memory(words, data), [Hart(number, count, entry) for number in range(count)]
    turns, drawn = [], numbers(seed)
    while ready := [number for number, hart in enumerate(harts) if hart.status == "running" and hart.turns < limit]:
        number = ready[next(drawn) % len(ready)]
        hart = harts[number]
        for _ in range(min(every, limit - hart.turns)):
            if hart.status != "running":
                break
            hart.turn(memory)
            turns.append(number)
    return log_of(count, turns), replays.dump(memory, harts, output)


def losing(wanted, every=1):
    """The first seed by which the two harts count to this."""
    return next(seed for seed in range(1000) if run(LOSING, 2, runs.MOST, seed, every)[1][-1] == str(wanted))


def drawn(file, _):
    """Runs from the start."""
    cases = [("that loses an update", LOSING, 2, runs.MOST, losing(1), 1), ("that loses none", LOSING, 2, runs.MOST, losing(2), 1),
             ("of four turns at once, of which none is lost", LOSING, 2, runs.MOST, losing(2, 4), 4),
             ("of two turns at once, of which one is lost", LOSING, 2, runs.MOST, losing(1, 2), 2),
             ("of eight harts", LOSING, 8, runs.MOST, 2026, 1), ("of eight harts, all at once", LOSING, 8, runs.MOST, 2026, 4096),
             ("of eight harts by three turns", LOSING, 8, runs.MOST, 5, 3), ("of one hart", LOSING, 1, runs.MOST, 7, 1),
             ("of one hart by three turns", LOSING, 1, runs.MOST, 7, 3), ("of the least seed", LOSING, 3, runs.MOST, 0, 1),
             ("of the greatest seed", LOSING, 3, runs.MOST, MASK, 1), ("to a limit", LOSING, 3, 3, 11, 1),
             ("to a limit in the middle of a draw", LOSING, 3, 3, 11, 2), ("of one turn each", LOSING, 8, 1, 1, 1),
             ("of which one hart never stops", ONE_FOREVER, 3, 40, 9, 1), ("of which one hart never stops, by seven turns", ONE_FOREVER, 3, 40, 9, 7),
             ("of which one hart traps", ONE_TRAPS, 4, runs.MOST, 3, 1), ("of which one hart traps, by five turns", ONE_TRAPS, 4, runs.MOST, 3, 5),
             ("of which all harts trap", runs.ILLEGAL, 4, runs.MOST, 4, 1), ("of no image", LOSING[:51], 2, runs.MOST, 1, 1)]
    for name, image, harts, limit, seed, every in cases:
        spelled, lines = run(image, harts, limit, seed, every)
        parts = [("image", runs.digits(image)), ("harts", [str(harts)]), ("turns", [str(limit)]), ("seed", [str(seed)]), ("every", [str(every)])]
        file.case("drawn", f"a run {name}", parts, runs.digits(spelled) + lines)
