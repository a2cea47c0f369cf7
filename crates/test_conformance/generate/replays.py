"""Images, logs of turns and dumps, as docs/FORMATS.md has them."""

import struct

from hart import DATA, TEXT, Hart, Memory


class Refused(Exception):
    pass


def read_image(image):
    def refuse(number):
        raise Refused(f"refused load {number}")

    if len(image) < 4:
        refuse(2)
    if image[:4] not in (b"HRV1", b"HRV2"):
        refuse(1)
    header = 32 if image[:4] == b"HRV1" else 36
    if len(image) < header:
        refuse(2)
    entry, words, data, address, width, height, stride = struct.unpack("<7I", image[4:32])
    stored = data if header == 32 else struct.unpack("<I", image[32:36])[0]
    if words > 262144 or data > 33554432 or stored > data:
        refuse(4)
    behind = header + 4 * words
    if len(image) < behind + stored:
        refuse(2)
    if len(image) > behind + stored:
        refuse(3)
    if entry % 4 or not TEXT <= entry < TEXT + 4 * words:
        refuse(5)
    output = (address, width, height, stride)
    if any(output):
        last = address + (height - 1) * stride + 4 * width
        if (address % 4 or stride % 4 or width < 1 or height < 1 or width * height > 1048576 or stride < 4 * width
                or address < DATA or last > DATA + data):
            refuse(6)
    if header == 36 and stored and image[-1] == 0:
        refuse(8)
    text = struct.unpack(f"<{words}I", image[header:behind])
    return entry, list(text), image[behind:] + bytes(data - stored), output if any(output) else None


def read_log(log):
    def refuse(number):
        raise Refused(f"refused log {number}")

    if len(log) < 4:
        refuse(2)
    if log[:4] != b"HRL1":
        refuse(1)
    if len(log) < 16:
        refuse(2)
    harts, count = struct.unpack("<IQ", log[4:16])
    if not 1 <= harts <= 8:
        refuse(3)
    runs, totals, at = [], [0] * 8, 16
    for _ in range(min(count, len(log))):
        if at + 9 > len(log):
            refuse(2)
        hart, length = struct.unpack("<BQ", log[at:at + 9])
        at += 9
        if hart >= harts:
            refuse(3)
        if length == 0 or (runs and runs[-1][0] == hart):
            refuse(4)
        totals[hart] += length
        if totals[hart] > 1 << 40:
            refuse(5)
        runs.append((hart, length))
    if len(runs) < count:
        refuse(2)
    if at < len(log):
        refuse(4)
    return harts, runs


def replay(image, log):
    """The lines of the dump, or of the refusal."""
    try:
        entry, words, data, output = read_image(image)
        count, runs = read_log(log)
    except Refused as refusal:
        return [str(refusal)]
    memory = Memory(words, data)
    harts = [Hart(number, count, entry) for number in range(count)]
    for number, length in runs:
        hart = harts[number]
        while length and hart.status == "running":
            hart.turn(memory)
            length -= 1
        hart.turns += length
    return dump(memory, harts, output)


def dump(memory, harts, output):
    lines = []
    for number, hart in enumerate(harts):
        lines.append(f"hart {number} {hart.status} pc 0x{hart.pc:08x} turns {hart.turns}")
        lines += [f"  x{r} 0x{value:08x}" for r, value in enumerate(hart.x) if value]
        lines.append(f"  vl {hart.vl} vtype 0x{hart.vtype:08x}")
        lines += [f"  v{r} {bytes(value).hex()}" for r, value in enumerate(hart.v) if any(value)]
    if output and all(hart.status == "finished" for hart in harts):
        address, width, height, stride = output
        lines.append(f"picture {width} {height}")
        for y in range(height):
            start = address - DATA + y * stride
            row = struct.unpack(f"<{width}i", memory.data[start:start + 4 * width])
            lines.append(" ".join(map(str, row)))
    return lines
