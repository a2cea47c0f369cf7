"""What a map says of an algorithm under a schedule, from another reading of the rules: which boxes its sources have, and where they lie.

A file of such readings has cases `== N`, each with the parts `-- algorithm`, `-- schedule` and `-- says`. What it says is a refusal, as the program
prints it, or the layout:

    data BYTES
    output ADDRESS WIDTH HEIGHT STRIDE
    phase K STAGE tasks COUNT
    place NAME 0xADDRESS box RANGE [RANGE]      (an input, a Func that is computed, or `frames`)

A range is `low..high`, with a base before it where there is one: `8*by.yo+-1..8` begins at -1 while loop yo of by is 0.

  generate/maps.py READINGS COUNT      takes COUNT of these cases into data/taken/maps.txt, which has a kind `map` then, with their answers
"""

import random
import re
import sys

RANGE = re.compile(r"(?:.*\+)?(-?\d+)\.\.(-?\d+)$")
TICKETS = 0x00200000


def readings(path):
    """Name, algorithm, schedule and what is said of each case."""
    found = []
    with open(path, newline="\n") as file:
        for line in file.read().split("\n")[:-1]:
            if line.startswith("== "):
                found.append((line[3:], {}))
            elif line.startswith("-- "):
                part = found[-1][1].setdefault(line[3:], [])
            else:
                part.append(line)
    return [(name, parts["algorithm"], parts["schedule"], parts["says"]) for name, parts in found]


def area(x, y, width, height, address, pixel):
    return f"corner {x} {y} extents {width} {height} address 0x{address:08x} row {pixel * width} pixel {pixel}"


def input_line(name, words, address):
    width, *rest = words
    is_bytes = rest[-1:] == ["u8"]
    height = rest[0] if rest and rest[0] != "u8" else 1
    return f"input {name} {'bytes' if is_bytes else 'words'} {area(0, 0, int(width), int(height), address, 1 if is_bytes else 4)}"


def func_line(name, consumer, ranges, address):
    ends = [tuple(int(end) for end in RANGE.match(text).groups()) for text in ranges] + [(0, 0)]
    (x, right), (y, bottom) = ends[:2]
    width, height = right - x + 1, bottom - y + 1
    line = f"func {name} {consumer} {area(x, y, width, height, address, 4)}"
    return line if consumer == "root" else f"{line} copies 8 distance {4 * width * height}"


def lines_of(algorithm, schedule, says):
    """The lines of the map, but for where the code of phases lies; or the refusal."""
    if says[0].startswith("refused"):
        return says
    inputs = {words[1]: words[2:] for words in (line.split("#")[0].split() for line in algorithm) if words[:1] == ["input"]}
    consumers = {words[0]: f"at {words[2]} {words[3]}" for words in (line.split("#")[0].split() for line in schedule) if words[1:2] == ["compute_at"]}
    phases = [line for line in says if line.startswith("phase ")]
    lines = [f"control {k} ticket 0x{TICKETS + 8 * k:08x} gate 0x{TICKETS + 8 * k + 4:08x}" for k in range(len(phases))]
    funcs, frames = {}, []
    for _, name, address, _, *ranges in (line.split() for line in says if line.startswith("place ")):
        if name in inputs:
            lines.append(input_line(name, inputs[name], int(address, 16)))
        elif name == "frames" and ranges == ["-"]:
            frames = [f"frames address {address} copies 8 distance 4096"]
        elif ranges != ["-"]:
            funcs[name] = func_line(name, consumers.get(name, "root"), ranges, int(address, 16))
    # The reading has them by their addresses.
    lines += [funcs[name] for name in re.findall(r"(?m)^[ \t]*func[ \t]+(\w+)", "\n".join(algorithm)) if name in funcs]
    return lines + frames + [re.sub(r"^phase (\d+) (\S+) ", r"phase \1 stage \2 ", line) for line in phases]


def shown(lines):
    """A map's lines without where code lies, which no other reading says."""
    return [line.split(" code ")[0] if line.startswith("phase ") else line for line in lines if not line.startswith("code ")]


def chosen(path, count):
    """Some refusals of each family, and layouts, those with boxes at loops and frames first."""
    found = readings(path)
    random.Random(1).shuffle(found)
    refused = {}
    for case in found:
        if case[3][0].startswith("refused"):
            refused.setdefault(" ".join(case[3][0].split()[:3]), []).append(case)
    refusals = [case for cases in refused.values() for case in cases[:1]]
    layouts = [case for case in found if not case[3][0].startswith("refused")]
    layouts.sort(key=lambda case: -(any("*" in line.split(" box ")[-1] for line in case[3] if line.startswith("place")) + any(" frames " in line for line in case[3])))
    return refusals + layouts[: count - len(refusals)]


if __name__ == "__main__":
    sys.dont_write_bytecode = True
    import cases

    file = cases.File("taken/maps.txt", "Where the data of algorithms under schedules lie.", "Taken by generate/maps.py from another reading of the rules, and so are the answers.")
    for name, algorithm, schedule, says in chosen(sys.argv[1], int(sys.argv[2])):
        file.case("map", f"random {name}", [("algorithm", algorithm), ("schedule", schedule)], lines_of(algorithm, schedule, says))
    file.write()
    cases.write_stdout()
