"""What the scripts of these folders share: the program and its runs, what they cost, images, logs and pictures as bytes,
and compilers of C beside `hrv`."""

import importlib.machinery
import importlib.util
import os
import re
import shutil
import struct
import subprocess
import sys
import textwrap
import time
from typing import NamedTuple

BENCH = os.path.dirname(os.path.abspath(__file__))
TOP = os.path.dirname(BENCH)
HRV = os.path.join(TOP, "crates/hrv/out/hrv")
TEXT, DATA = 0x0001_0000, 0x0020_0000
# More turns than any measured image makes.
MOST_TURNS = "100000000"
# How many bytes come before the words of an image, by its first four bytes.
HEADERS = {b"HRV1": 32, b"HRV2": 36}


if {"-h", "--help"} & {*sys.argv[1:]}:
    # Each script says on its first lines what it is for and what it takes.
    print(sys.modules["__main__"].__doc__.strip())
    sys.exit(0)


def script(name):
    """Another script of these folders, as a module: its folder and its name."""
    path = os.path.join(BENCH, name)
    loader = importlib.machinery.SourceFileLoader(os.path.basename(name), path)
    module = importlib.util.module_from_spec(importlib.util.spec_from_loader(loader.name, loader))
    loader.exec_module(module)
    return module


# ---- files

def crates():
    """The crates, the lowest of each family first."""
    lines = read_text(os.path.join(TOP, "crates.txt")).splitlines()
    return [line.split(":")[0].split()[0] for line in lines if line.strip() and not line.startswith("#")]


def wrapped(row):
    """A row of a list in a page, within its width."""
    return filled(row, "  ")


def filled(text, indent=""):
    """A paragraph of a page within its width, its lines after the first one indented."""
    return textwrap.fill(text, 120, subsequent_indent=indent, break_long_words=False, break_on_hyphens=False)


def read(path):
    with open(path, "rb") as file:
        return file.read()


def read_text(path):
    with open(path, encoding="utf-8") as file:
        return file.read()


def put(folder, files):
    """Writes files, texts or bytes, into a folder."""
    for name, held in files.items():
        with open(os.path.join(folder, name), "wb") as file:
            file.write(held.encode() if isinstance(held, str) else held)


def image(words, data=b"", output=(0, 0, 0, 0)):
    """An image's bytes: its words, its data, and of its output the address, width, height and bytes a row."""
    header = struct.pack("<4s7I", b"HRV1", TEXT, len(words), len(data), *output)
    return header + struct.pack(f"<{len(words)}I", *words) + data


def log(harts, runs, times=1):
    """A log's bytes: how many harts there are, and of each run its hart and how many turns it has; all runs this many times."""
    header = struct.pack("<4sIQ", b"HRL1", harts, len(runs) * times)
    return header + b"".join(struct.pack("<BQ", *run) for run in runs) * times


def rounds_of_turns(harts, rounds):
    """The log of rounds in which each hart makes one turn."""
    return log(1, [(0, rounds)]) if harts == 1 else log(harts, [(hart, 1) for hart in range(harts)], rounds)


def words_of(held):
    """The words of an image, of its bytes."""
    count = struct.unpack_from("<I", held, 8)[0]
    return struct.unpack_from(f"<{count}I", held, HEADERS[held[:4]])


def word_count(path):
    """How many words an image file has."""
    with open(path, "rb") as file:
        return struct.unpack("<4sII", file.read(12))[2]


def picture(width, height, pixels):
    """A picture's text, of its pixels row by row."""
    rows = (" ".join(map(str, pixels[y * width:(y + 1) * width])) for y in range(height))
    return "\n".join([f"picture {width} {height}", *rows, ""])


def clamped_blur(width, height):
    """The algorithm of a blur in two stages, across and down, of a picture whose reads are clamped."""
    row, around = f"clamp(y,0,{height - 1})", [f"clamp(x-1,0,{width - 1})", "x", f"clamp(x+1,0,{width - 1})"]
    return "\n".join([f"input in {width} {height}",
                      f"func bx(x,y) = ({' + '.join(f'in({column},{row})' for column in around)}) / 3",
                      "func by(x,y) = (bx(x,y-1) + bx(x,y) + bx(x,y+1)) / 3", f"output by {width} {height}", ""])


def picture_in(dump):
    return dump[dump.index("picture"):]


# ---- the program

def spent(folder, words, output=os.devnull):
    """A command's seconds of the processor, its seconds, and the most bytes that it held."""
    start = time.monotonic()
    with open(output, "wb") as out:
        child = subprocess.Popen(words, cwd=folder, stdout=out, stderr=subprocess.DEVNULL)
        _, status, usage = os.wait4(child.pid, 0)
    if status != 0:
        sys.exit(f"{' '.join(words)} failed")
    return usage.ru_utime + usage.ru_stime, time.monotonic() - start, usage.ru_maxrss * 1024


class Program:
    """The program that a script's first word names; without a word, the one that the gate leaves."""

    def __init__(self, words=(), path=HRV):
        self.path = os.path.abspath(words[0] if words else path)
        if not os.path.isfile(self.path):
            sys.exit(f"{self.path} isn't there: `rt ci` makes it")

    def ask(self, folder, *words, text=None):
        return subprocess.run([self.path, *words], cwd=folder, input=text, capture_output=True, text=True)

    def run(self, folder, *words, text=None):
        """What a command prints, which has to do what it is asked."""
        child = self.ask(folder, *words, text=text)
        if child.returncode != 0:
            sys.exit(f"hrv {' '.join(words)}: {child.stderr.strip()}")
        return child.stdout

    def spent(self, folder, *words, output=os.devnull):
        return spent(folder, [self.path, *words], output)

    def instructions(self, folder, *words, text=None):
        """Machine instructions of a whole command, all of its threads, by callgrind."""
        command = ["valgrind", "--tool=callgrind", "--callgrind-out-file=/dev/null", self.path, *words]
        child = subprocess.run(command, cwd=folder, input=text, capture_output=True, text=True)
        counted = re.search(r"Collected : (\d+)", child.stderr)
        if child.returncode != 0 or not counted:
            sys.exit(f"hrv {' '.join(words)}: {child.stderr.strip()[-500:]}")
        return int(counted[1])

    def alone(self, folder):
        """The turns that one hart makes of `image` to its end, and the picture."""
        dump = self.run(folder, "run", "image", "log", "--harts", "1", "--turns", MOST_TURNS)
        return int(re.search(r"^hart 0 finished pc \S+ turns (\d+)", dump, re.M)[1]), picture_in(dump)

    def after_rounds(self, folder, harts, rounds):
        """The dump after these rounds of `image`, if all harts have finished."""
        put(folder, {"log": rounds_of_turns(harts, rounds)})
        dump = self.run(folder, "replay", "image", "log")
        return None if "running" in dump else dump

    def rounds_needed(self, folder, harts, most):
        """The least number of rounds after which all harts have finished: above `most`, if they haven't by then."""
        low, high = 0, most
        if not self.after_rounds(folder, harts, most):
            return most + 1
        while low + 1 < high:
            middle = (low + high) // 2
            low, high = (low, middle) if self.after_rounds(folder, harts, middle) else (middle, high)
        return high


# ---- compilers of C

class Compiler(NamedTuple):
    name: str
    flags: list
    links: list  # what makes `peer.bin`, the words, of `peer.o`

    def is_installed(self):
        return all(shutil.which(name) for name in [self.name, *(link[0] for link in self.links)])

    def compile(self, folder, source):
        """Makes `peer.o` of a file in C."""
        flags = [*self.flags, "-march=rv32im", "-mabi=ilp32", "-O3", "-ffreestanding", "-c", source, "-o", "peer.o"]
        subprocess.run([self.name, *flags], cwd=folder, check=True)

    def words(self, folder):
        """The words of `peer.o`, whose section `.start` comes first."""
        put(folder, {"layout": "SECTIONS { . = 0x10000; .text : { *(.start) *(.text*) *(.rodata*) } }"})
        for link in self.links:
            subprocess.run(link, cwd=folder, check=True)
        held = read(os.path.join(folder, "peer.bin"))
        held += bytes(-len(held) % 4)
        return struct.unpack(f"<{len(held) // 4}I", held)


GCC = Compiler("riscv64-unknown-elf-gcc", [], [
    ["riscv64-unknown-elf-ld", "-m", "elf32lriscv", "-T", "layout", "peer.o", "-o", "peer.elf"],
    ["riscv64-unknown-elf-objcopy", "-O", "binary", "peer.elf", "peer.bin"]])
CLANG = Compiler("clang", ["--target=riscv32"], [["ld.lld", "-T", "layout", "--oformat=binary", "peer.o", "-o", "peer.bin"]])
