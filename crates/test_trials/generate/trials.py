"""Accepted algorithms and schedules of data/taken/boxes.txt as trials: random pictures for them, and answers. The picture comes from the plain model
of `test_conformance`; the data, the output and the tasks are those of the answer in data/taken/boxes.txt.
"""

import os
import random
import sys

FOLDER = os.path.dirname(os.path.dirname(os.path.abspath(__file__)))
sys.path.insert(0, os.path.join(FOLDER, "..", "test_conformance", "generate"))

import cases
import pipelines

# The files are those of this program.
cases.FOLDER = FOLDER

# The cases that vectorize a loop, aren't in generated/random.txt, and take more than a tenth of a second, measured once as LLVM builds the program, with
# checks: they stand in large/vectors.txt, which the gate doesn't read.
LONG = (
    102, 119, 181, 187, 194, 197, 213, 237, 238, 248, 259, 267, 270, 282, 289, 310, 312, 318, 323, 326, 328, 342, 366, 378, 384, 389, 401, 408,
    410, 444, 449, 459, 494, 535, 546, 576, 580, 585, 604, 619, 646, 687, 713, 716, 728, 748, 761
)

# Those that some number of harts doesn't finish in as many turns as a trial waits for, or whose pictures have more than 8,000 pixels:
# generate/run_large makes them and runs them by `hrv`.
LONGEST = (
    45, 97, 106, 370, 399, 421, 442, 503, 520, 525, 550, 630, 636, 734
)

ORDERS = ("rising", "falling", "from both ends")
RUNS = ((1, "in turn"), (2, "drawn"), (3, "in turn"), (3, "the first ahead"), (3, "the last behind"), (8, "in turn"), (8, "the first ahead"))


def picture(chance, line, greatest=None):
    """A picture for an algorithm's line `input NAME W [H] [u8]`, of numbers up to so much on both sides of 0, or of bytes."""
    words = line.split("#")[0].split()
    sizes = [int(word) for word in words[2:] if word.isdigit()]
    width, height = sizes[0], sizes[1] if len(sizes) > 1 else 1
    is_bytes = words[-1] == "u8"
    if greatest is None:
        greatest = chance.choice((3, 255) if is_bytes else (3, 12, 1000, 2**31 - 1))
        least = 0 if is_bytes else chance.choice((0, -greatest))
    else:
        greatest, least = (255, 0) if is_bytes else (greatest, -greatest)
    return pipelines.picture_text(width, height, [chance.randint(least, greatest) for _ in range(width * height)])


def drawn(algorithm, pictures):
    """The reference picture, by the model."""
    numbers = [[int(number) for line in lines[1:] for number in line.split()] for lines in pictures]
    return pipelines.draw(algorithm, dict(zip(pipelines.Pipeline(algorithm).inputs, numbers)))


def control(phases):
    """The line of the words by which harts share so many phases: of each the one to draw tasks and the one to wait at."""
    return "control " + " ".join(f"0x{0x00200000 + 4 * word:08x}" for word in range(2 * phases))


def ways(tasks):
    """The lines of the ways that compute a picture, in phases of so many tasks: each hart draws one number that is no task in each phase,
    and adds 1 at the gate of each phase but the last."""
    lines = [f"tasks {order}: the picture" for order in ORDERS]
    for harts, pace in RUNS:
        words = [word for count in tasks for word in (count + harts, harts)][:-1] + [0]
        lines.append(f"harts {harts}, {pace}: " + " ".join(map(str, words)))
    return lines


def vectors(schedule, funcs, code="all vector code"):
    """The line on vector code, where the schedule vectorizes a loop of one of these Funcs: others aren't computed."""
    lines = [line.split("#")[0].split() for line in schedule.split("\n")]
    is_marked = any(words[1:2] == ["vectorize"] and words[0].split(".")[0] in funcs for words in lines)
    return [f"vectorized loops: {code}"] if is_marked else []


def func_names(algorithm):
    """The names of an algorithm's Funcs, in order of the text."""
    return [line.split("(")[0].split()[1] for line in algorithm.split("\n") if line.split()[:1] == ["func"]]


class Accepted:
    """An accepted algorithm and schedule of data/taken/boxes.txt, with what is said of them there."""

    def __init__(self, name, algorithm, schedule, says):
        self.name, self.algorithm, self.schedule, self.says = name, algorithm, schedule, says
        self.lines = algorithm.split("\n")[:-1]
        self.bytes = int(says[0].split()[1])
        _, width, height = pipelines.Pipeline(algorithm).output
        self.pixels = width * (height or 1)
        # The answer has a line for each Func that is computed.
        computed = [func for number, func in enumerate(func_names(algorithm)) if any(line.startswith(f"func {number} ") for line in says)]
        self.vectors = vectors(schedule, computed)

    def pictures(self, chance):
        """A random picture for each input."""
        return [picture(chance, line) for line in self.lines if line.split()[:1] == ["input"]]

    def add(self, file, pictures):
        """Adds the case and its answer to a file."""
        tasks = [int(line.split()[-1]) for line in self.says if line.startswith("phase ")]
        texts = [("algorithm", self.lines), ("schedule", self.schedule.split("\n")[:-1]), *(("picture", rows) for rows in pictures)]
        wanted = drawn(self.algorithm, pictures)
        file.case("trial", self.name, texts, [*self.says[:2], control(len(tasks)), *wanted, *ways(tasks), *self.vectors])


def accepted():
    """The accepted cases of data/taken/boxes.txt."""
    for _, name, parts, says in cases.read_cases("taken/boxes.txt"):
        if says[0].startswith("data "):
            yield Accepted(name, *(text for _, text in parts), says)


def more_vectors(others):
    """The cases that vectorize a loop of a Func that is computed and aren't among the others, and their pictures."""
    chance = random.Random(2)
    for case in accepted():
        if case.vectors and case.name not in others:
            yield case, case.pictures(chance)
