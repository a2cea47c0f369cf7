"""Case files: each case with its answer behind it. `stdout` has a line for each file, with the number of its cases.

Files are named by their paths below data/.
"""

import os
import sys

FOLDER = os.path.dirname(os.path.dirname(os.path.abspath(__file__)))


class File:
    """The cases of a file, with their answers."""

    def __init__(self, name, *comments):
        self.name, self.names = name, set()
        self.lines = [f"# {comment}" for comment in comments]

    def case(self, kind, name, parts, answer):
        assert name not in self.names, name
        self.names.add(name)
        self.lines.append(f"== {kind} {name}")
        for part, lines in (*parts, ("answer", answer)):
            self.lines += [f"-- {part}"] + lines

    def write(self):
        with open(os.path.join(FOLDER, "data", self.name), "w") as file:
            file.writelines(line + "\n" for line in self.lines)


def read_cases(name):
    """The cases of a file: kind, name, parts of a name and a text each, and the answer's lines."""
    cases = []
    with open(os.path.join(FOLDER, "data", name), newline="\n") as file:
        for line in file.read().split("\n")[:-1]:
            if line.startswith("== "):
                cases.append((*line[3:].split(" ", 1), []))
            elif cases and line.startswith("-- "):
                heading = line[3:].removesuffix(" in hexadecimal").removesuffix(" in pieces")
                cases[-1][2].append([heading, "", line.endswith(" in pieces")])
            elif cases and cases[-1][2]:
                part = cases[-1][2][-1]
                part[1] += piece(line) if part[2] else line + "\n"
    return [(kind, name, [(heading, text) for heading, text, _ in parts[:-1]], parts[-1][1].split("\n")[:-1]) for kind, name, parts in cases]


def piece(line):
    count, text = line.split(" ", 1)
    letters = iter(text)
    escapes = {"n": "\n", "r": "\r", "t": "\t", "s": " ", "0": "\0", "\\": "\\"}
    return int(count) * "".join(escapes[next(letters)] if letter == "\\" else letter for letter in letters)


def files():
    """The names of all case files."""
    data = os.path.join(FOLDER, "data")
    return {os.path.relpath(os.path.join(at, name), data) for at, _, names in os.walk(data) for name in names}


def faults():
    """What is wrong with the files: each has its place in `args`; those of generated/, and no others, say that they are made; the cases of a file have
    names of their own; and those of written/ aren't only numbered."""
    if sorted(arguments()) != sorted(files()):
        yield "data and args name other files"
    for name in sorted(files()):
        with open(os.path.join(FOLDER, "data", name), encoding="utf-8", newline="\n") as file:
            comments = [line for line in file.read().split("== ")[0].split("\n") if line.startswith("#")]
        if name.startswith("generated/") != any("Made by generate/make" in line for line in comments):
            yield f"{name}: its first lines say otherwise where it comes from"
        names = [" ".join(case[:2]) for case in read_cases(name)]
        yield from (f"{name}: two cases are named {twice}" for twice in sorted(set(names)) if names.count(twice) > 1)
        if name.startswith("written/"):
            fronts = [case.removesuffix(" 1") for case in names if case.endswith(" 1")]
            yield from (f"{name}: cases named {front} are only numbered" for front in fronts if f"{front} 2" in names)


def check_files(generated):
    """Ends where something is wrong with the files, or where generated/ has other ones than these."""
    for fault in faults():
        sys.exit(fault)
    if generated != {name for name in files() if name.startswith("generated/")}:
        sys.exit("data/generated has other files than those that are made")


def arguments():
    """The names that the program is given, in their order."""
    with open(os.path.join(FOLDER, "args")) as file:
        return file.read().split()


def stdout():
    """What the program prints where all answers are as the files say."""
    lines = []
    for name in arguments():
        count = len(read_cases(name))
        lines.append(f"file {name}: {count} cases" if count else f"file {name}: malformed: a line before the first case")
    return "".join(line + "\n" for line in [*lines, "0 answers differ"])


def write_stdout():
    with open(os.path.join(FOLDER, "stdout"), "w") as file:
        file.write(stdout())
