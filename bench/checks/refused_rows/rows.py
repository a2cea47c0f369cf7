"""The rows whose allocations are refused: commands with their files, those of the worked examples and of the tables of
refusals. What they answer is compared by the gate (`test_conformance`, `test_trials`); here a refusal is named where
one is wanted, so that a row stays what it is meant to be."""

import hashlib
import os
import struct
import subprocess

import shared
from shared import image

COUNTER = bytes.fromhex("4852563100000100040000000400000000002000010000000100000004000000"
                        "b702200013031000afa362007300000000000000")
TURNS = bytes.fromhex("48524c3102000000060000000000000000010000000000000001010000000000"
                      "0000000100000000000000010200000000000000000200000000000000010100"
                      "000000000000")
MOST_TURNS = 1 << 40

BLUR = "input in 8\nfunc b(x) = (in(clamp(x-1,0,7)) + in(x) + in(clamp(x+1,0,7))) / 3\noutput b 8\n"
BLUR_INPUT = "picture 8 1\n0 3 6 9 12 15 18 21\n"
ODD = "input in 5\nfunc b(x) = in(x)*2+1\noutput b 5\n"
STRIPS = ("input in 64 48\n"
          "func bx(x,y) = (in(clamp(x-1,0,63),clamp(y,0,47)) + in(x,clamp(y,0,47))"
          " + in(clamp(x+1,0,63),clamp(y,0,47))) / 3\n"
          "func by(x,y) = (bx(x,y-1) + bx(x,y) + bx(x,y+1)) / 3\noutput by 64 48\n")
STRIPS_INPUT = "picture 64 48\n" + (" ".join(str(9 * x) for x in range(64)) + "\n") * 48
HISTOGRAM = "input in 8\nfunc h(x) = 0\nupdate h(clamp(in(r),0,3)) = h(clamp(in(r),0,3)) + 1 over r 0 8\noutput h 4\n"
HISTOGRAM_INPUT = "picture 8 1\n0 1 1 3 3 3 9 -5\n"
SUMS = "input in 5\nfunc f(x) = in(x)\nupdate f(r) = f(r-1) + in(r) over r 1 4\noutput f 5\n"
FIVE = "picture 5 1\n1 2 3 4 5\n"
BYTES = "input in 8 u8\nfunc h(x) = 0\nupdate h(in(r)) = h(in(r)) + 1 over r 0 8\noutput h 256\n"
BYTES_INPUT = "picture 8 1\n0 1 1 3 3 3 9 200\n"
BY_VECTORS = "b split x xo xi {} guard\nb vectorize xi\n"
IN_STRIPS = "by split y yo yi 8 guard\nby parallel yo\nbx compute_at by yo\nbx split x xo xi 4 guard\nbx vectorize xi\n"
IN_PHASES = "bx compute_root\nbx split y yo yi 10 guard\nbx parallel yo\nby split y yo yi 8 guard\nby parallel yo\n"
LARGE = "func p(x,y) = x+y\nfunc q(x,y) = p(x,y)+p(x+1,y)\noutput q 1024 1024\n"
UNROLLED = "b split x xo xi 64 guard\nb split y yo yi 64 guard\nb unroll xi\nb unroll yi\n"


class Row:
    """A command with its files and what it reads from standard input; the refusal that is wanted, empty for none."""

    def __init__(self, name, words, files, wanted="", lines=b""):
        self.name, self.words, self.wanted, self.lines = f"{words[0]}: {name}", words, wanted, lines
        self.files = {name: held.encode() if isinstance(held, str) else held for name, held in files.items()}
        # Of a test the program that has it, in the place of `hrv`.
        self.program = None

    @staticmethod
    def end(printed):
        """What of a run's dump is the same in each run: its picture."""
        return printed[printed.find(b"picture "):]


def log(harts, *runs):
    return shared.log(harts, runs)


def run_record(held, turns, harts, limit, ending):
    """The text of a run's record."""
    digests = [hashlib.sha256(it).hexdigest() for it in (held, turns)]
    lines = ["record 1", "version 2.0", "logic any", f"image {digests[0]}", f"log {digests[1]}", f"harts {harts}",
        f"limit {limit}", f"ending {ending}"]
    return "\n".join(lines) + "\n"


def nested(count, innermost="x"):
    """A sum of this many `x` that leans to the right."""
    return "x+(" * (count - 1) + innermost + ")" * (count - 1)


def sums(count):
    return f"func b(x) = {nested(count)}\noutput b 8\n"


# ---- the machine

# Texts of the rows on instructions; all of them end, or trap.
PROGRAMS = {
    "division": "li x5,0x80000000\nli x6,-1\ndiv x7,x5,x6\nli x8,7\ndiv x9,x8,x0\n"
                "mulh x10,x6,x6\nmulhsu x11,x6,x6\nmulhu x12,x6,x6\necall\n",
    "division of elements": "vsetivli x0,4,e32,m1,tu,mu\nvid.v v1\nli x5,-2\n"
                            "vadd.vx v2,v1,x5\nvdiv.vv v3,v1,v2\nvrem.vv v4,v1,v2\necall\n",
    "a masked sum": "vsetivli x0,3,e32,m1,tu,mu\nvid.v v1\nvmv.v.i v0,5\nvadd.vv v3,v1,v1,v0.t\necall\n",
    "an unsupported vtype": "vsetvli x5,x6,0x018\nvadd.vv v1,v2,v3\n",
    "a store past the data": ".data\n.space 12\n.text\nlui x5,0x200\nvsetivli x0,4,e32,m1,tu,mu\nvse32.v v1,(x5)\n",
    "a mask that is written": "vsetivli x0,4,e32,m1,tu,mu\nvadd.vv v0,v2,v3,v0.t\n",
    "a jump to no word": "jal x1,6\n",
    "a reduction": "vsetivli x0,3,e32,m1,tu,mu\nvid.v v2\nvredsum.vs v3,v2,v1\necall\n",
    "groups of registers": "li x6,10\nvsetvli x5,x6,e32,m2,tu,mu\nvid.v v4\nvadd.vv v2,v4,v6\nvadd.vv v1,v2,v3\n",
    "bytes as numbers": ".data\n.word 0x80ff0201\n.text\nlui x10,0x200\n"
                        "vsetivli x0,4,e32,m1,tu,mu\nvle8.v v2,(x10)\nvzext.vf4 v1,v2\necall\n",
    "loads that trap": "lw x5,1(x0)\n",
    "a store into text": "lui x5,0x10\nsw x5,0(x5)\n",
}

LISTED = [0x002002B7, 0xFFF28293, 0xFE028CE3, 0x0063A2AF, 0x0463A2AF, 0x022180D7, 0x010372D7, 0x02056087, 0x5208A0D7,
    0x0220A1D7, 0xFFFFFFFF]

BAD_IMAGES = [("cut", COUNTER[:-1], 2), ("a byte more", COUNTER + b"\0", 3), ("another kind", b"HRX1" + COUNTER[4:], 1),
              ("too many words", COUNTER[:8] + b"\xff" * 4 + COUNTER[12:], 4),
                  ("no word", COUNTER[:8] + bytes(4) + COUNTER[12:], 3),
              ("no word, and data alone", COUNTER[:8] + bytes(4) + COUNTER[12:32] + bytes(4), 5),
              ("a large output", COUNTER[:20] + struct.pack("<II", 65536, 65536) + COUNTER[28:], 6)]

BAD_LOGS = [("cut", TURNS[:-1], 2), ("a byte more", TURNS + b"\0", 4),
    ("two runs of a hart", log(2, (0, 1), (0, 1)), 4), ("a hart too many", log(2, (2, 1)), 3),
            ("a run too long", log(2, (0, MOST_TURNS + 1)), 5),
                ("too many turns", log(2, (0, MOST_TURNS), (1, 1), (0, 1)), 5)]

BAD_LOG_TEXTS = [("of no line", b"", "1 line 1"), ("with a word too many", b"harts 1\n0 1 2\n", "2 line 2"),
    ("with a hart too many", b"harts 1\n1 1\n", "3 line 2"), ("of no turn", b"harts 1\n0 0\n", "4 line 2"),
    ("of too many turns", b"harts 1\n0 1099511627777\n", "5 line 2")]

TALKS = {
    "places": "goto 6\nstatus\ngoto 9\ngoto 0\nback\ngoto 8\nnext\n"
              "break 0x00010002\nwatch 0x00010000\nword 0x00010000\nreg 2 1\nvec 0 1\nquit\n",
    "a watch": "watch 0x00200000\nforward\nforward\nreverse\nforward\nforward\n",
    "a break": "break 0x0001000c\nforward\n",
    "a mark too many": "".join(f"break {0x10000 + 4 * (number % 4)}\nwatch 0x00200000\n" for number in range(65)),
}

# A hart that counts in a register for ever, and lines that go back and forth among kept places.
COUNTING = image([0x00128293, 0xFFDFF06F])
FAR_TALK = ("status\ngoto 40000\nback\nreg 0 5\ngoto 5000\nreg 0 5\nnext\n"
            "break 0x00010004\nreverse\nforward\ngoto 39000\nreg 0 5\n"
            + "".join(f"break {0x10000 + 4 * number}\n" for number in range(2)))
# Marks of 64 words of text, and one more.
STRAIGHT = image([0x00128293] * 70)
MANY_MARKS = "".join(f"break {0x10000 + 4 * number}\n" for number in range(65))


def machine_rows():
    both = {"image": COUNTER, "log": TURNS}
    yield Row("two harts", ["replay", "image", "log"], both)
    yield Row("no turn", ["replay", "image", "log"], {"image": COUNTER, "log": log(2)})
    yield Row("2^40 turns", ["replay", "image", "log"], {"image": COUNTER, "log": log(1, (0, MOST_TURNS))})
    for name, held, fault in BAD_IMAGES:
        yield Row(f"an image {name}", ["replay", "image", "log"], both | {"image": held}, f"load {fault}")
        yield Row(f"an image {name}", ["dis", "image"], {"image": held}, f"load {fault}")
        yield Row(f"an image {name}", ["renew", "image", "made"], {"image": held, "made": b"old"}, f"load {fault}")
        yield Row(f"an image {name}", ["run", "image", "log"], {"image": held}, f"load {fault}")
        yield Row(f"an image {name}", ["debug", "image", "log"], both | {"image": held}, f"load {fault}", b"status\n")
    for name, held, fault in BAD_LOGS:
        yield Row(f"a log {name}", ["replay", "image", "log"], both | {"log": held}, f"log {fault}")
        yield Row(f"a log {name}", ["debug", "image", "log"], both | {"log": held}, f"log {fault}", b"status\n")
        yield Row(f"from a log {name}", ["run", "image", "log", "--from", "old"], {"image": COUNTER, "old": held},
            f"log {fault}")
        yield Row(f"a log {name}", ["log", "log"], {"log": held}, f"log {fault}")
        yield Row(f"a log {name}", ["profile", "image", "log"], both | {"log": held}, f"log {fault}")
    yield Row("a profile of two harts", ["profile", "image", "log"], both)
    yield Row("a profile of no turn", ["profile", "image", "log"], {"image": COUNTER, "log": log(2)})
    yield Row("two harts", ["races", "image", "log"], both)
    yield Row("a word left out", ["races", "image", "log", "0x00200000"], both)
    yield Row("no word of data", ["races", "image", "log", "0x00100000"], both, "blame 1")
    yield Row("two files", ["digest", "image", "log"], both)
    kept = both | {"kept": run_record(COUNTER, TURNS, 2, 10, "finished")}
    yield Row("a run of two harts", ["verify", "kept", "image", "log"], kept)
    yield Row("a run of another image", ["verify", "kept", "image", "log"], kept | {"image": STRAIGHT})
    yield Row("no record", ["verify", "kept", "image", "log"], both | {"kept": "record 2\n"}, "record 1 line 1")
    yield Row("with a record", ["run", "image", "log", "--harts", "2", "--record", "kept"], {"image": COUNTER})
    for name, text, fault in BAD_LOG_TEXTS:
        yield Row(f"a text {name}", ["log", "text", "made"], {"text": text, "made": b"old"}, f"turns {fault}")
    yield Row("two harts as a text", ["log", "log"], {"log": TURNS})
    yield Row("a text of two harts", ["log", "text", "made"], {"text": b"harts 2\n0 1\n1 2\n", "made": b"old"})
    for name, lines in TALKS.items():
        yield Row(name, ["debug", "image", "log"], both, "", lines.encode())
    yield Row("kept places", ["debug", "image", "log"], {"image": COUNTING, "log": log(1, (0, 40000))}, "",
        FAR_TALK.encode())
    yield Row("65 marks", ["debug", "image", "log"], {"image": STRAIGHT, "log": log(1, (0, 70))}, "",
        MANY_MARKS.encode())
    yield Row("words of all kinds", ["dis", "image"], {"image": image(LISTED)})
    yield Row("addresses", ["dis", "image", "--addresses"], {"image": image(LISTED)})
    yield Row("two harts", ["renew", "image", "made"], {"image": COUNTER, "made": b"old"})
    renewed = b"HRV2" + COUNTER[4:32] + b"\1\0\0\0" + COUNTER[32:48] + b"\0"
    yield Row("a last byte of 0", ["renew", "image", "made"], {"image": renewed, "made": b"old"}, "load 8")
    yield Row("a pixel", ["blame", "image", "log", "0", "0"], both)
    yield Row("a word", ["blame", "image", "log", "--address", "0x00200000"], both)
    yield Row("all pixels", ["blame", "image", "log"], both)
    yield Row("all turns", ["blame", "image", "log", "--turns"], both)
    yield Row("a refusal", ["explain", "load", "2"], {})
    yield Row("the version", ["version"], {})


def assembly_rows():
    yield Row("a loop", ["asm", "source", "made"], {"source": "start: li x5,-1\nbeq x5,x0,start\n", "made": b"old"})
    long = "ecall\n.data\n.space 33554433\n"
    faulty = [("addi x5,x0,2048\n", "4 line 1"), ("a: ecall\na: ecall\n", "6 line 2"), ("jal x0,b\n", "5 line 1"),
        ("addi x32,x0,1\n", "3 line 1"),
              ("beq x0,x0,4096\n", "7 line 1"), (long, "8 line 3"), ("", "1 line 1"), ("ecal\n", "2 line 1")]
    for source, fault in faulty:
        yield Row(f"fault {fault}", ["asm", "source", "made"], {"source": source, "made": b"old"}, f"asm {fault}")
    yield Row("bytes that are no text", ["asm", "source", "made"], {"source": b"ecall # \xff\n", "made": b"old"},
        "file source")
    for name, source in PROGRAMS.items():
        yield Row(name, ["asm", "source", "made"], {"source": source, "made": b"old"})


def program_rows(stored):
    """Turns of the programs, whose images are stored."""
    for name in PROGRAMS:
        yield Row(name, ["replay", "image", "log"], {"image": stored[name], "log": log(1, (0, 40))})
        yield Row(name, ["run", "image", "log", "--turns", "40"], {"image": stored[name]})


# ---- algorithms

# What is refused of an algorithm, by itself.
PARSE = [("zero", "input in 8\nfunc b(x) = in(x) / 0\n", "5 line 2"),
    ("an unknown name", "input in 8\nfunc b(x) = c(x)\noutput b 8\n", "2 line 2"),
         ("a name taken", "input in 8\nfunc in(x) = 0\noutput in 8\n", "3 line 2"),
             ("a wrong count", "input in 8\nfunc b(x) = in(x,1)\noutput b 8\n", "4 line 2"),
         ("a large number", "func b(x) = 2147483648\noutput b 8\n", "6 line 1"),
             ("a wrong update", "func f(x,y) = 0\nupdate f(x,r) = f(x+1,r) over r 0 4\noutput f 4 4\n", "7 line 2"),
         ("an argument out of place", "func f(x) = 0\nupdate f(r) = x over r 0 4\noutput f 4\n", "7 line 2"),
             ("a large extent", "func b(x) = x\noutput b 65537\n", "8 line 2"),
         ("no output", "func b(x) = x\n", "9 line 2"),
             ("65 brackets", f"func b(x) = {'(' * 65}x{')' * 65}\noutput b 8\n", "8 line 1"),
                 ("no text", "", "9 line 1"),
         ("a long text", "func b(x) = x\n# " + "x" * 70_000 + "\noutput b 8\n", "8 line 1")]

# What is refused of both texts: a name, an algorithm, a schedule, the refusal.
PLANS = [("a shift split of few", BLUR.replace("output b 8", "output b 3"), "b split x xo xi 4 shift\n", "bounds 3"),
         ("a parallel shift split", STRIPS, "by split y yo yi 8 shift\nby parallel yo\n", "schedule 10 line 2"),
         ("indexes of any size", HISTOGRAM.replace("clamp(in(r),0,3)", "in(r)"), "", "bounds 2"),
         ("the output computed at root", HISTOGRAM, "h compute_root\n", "schedule 15 line 1"),
             ("a parallel reduction", HISTOGRAM, "h.0 parallel r\n", "schedule 8 line 1"),
         ("a box past its input", "input in 8\nfunc b(x) = in(x-1)\noutput b 8\n", "", "bounds 1"),
             ("a large box", LARGE, "p compute_root\n", "bounds 4"),
         ("too heavy", "func b(x,y) = x+y\noutput b 64 64\n", UNROLLED, "lower 1"),
             ("a vector too long", ODD, BY_VECTORS.format(32), "schedule 11 line 2")]

# What is computed: a name, an algorithm, a schedule, pictures.
COMPUTED = [("a blur", BLUR, "", [BLUR_INPUT]), ("vectors", ODD, BY_VECTORS.format(4), [FIVE]),
    ("vectors of eight", ODD, BY_VECTORS.format(8), [FIVE]),
            ("vectors of sixteen", ODD.replace("5", "37"), BY_VECTORS.format(16),
                ["picture 37 1\n" + " ".join(map(str, range(37))) + "\n"]),
            ("strips", STRIPS, IN_STRIPS, [STRIPS_INPUT]), ("two phases", STRIPS, IN_PHASES, [STRIPS_INPUT]),
                ("a histogram", HISTOGRAM, "", [HISTOGRAM_INPUT]),
            ("running sums", SUMS, "", [FIVE]), ("bytes", BYTES, "", [BYTES_INPUT]),
                ("twelve registers", sums(12), "", []), ("thirteen registers", sums(13), "", []),
            ("64 registers", f"func a(x) = {nested(40)}\nfunc b(x) = {nested(25, 'a(x)')}\noutput b 8\n", "", [])]

BAD_PICTURES = [("no number", "picture 8 1\n0 3 6 9 12 15 18 x\n", "picture 1"),
    ("extents", "picture 70000 1\n", "picture 2"),
                ("a large pixel", "picture 8 1\n0 3 6 9 12 15 18 2147483648\n", "picture 3"),
                    ("another size", "picture 2 1\n1 2\n", "input 2")]


def drawn(name, algorithm, pictures, wanted=""):
    """The reference picture."""
    inputs = {f"input{number}": text for number, text in enumerate(pictures)}
    return Row(name, ["picture", "algorithm", *inputs], {"algorithm": algorithm} | inputs, wanted)


def compiled(name, algorithm, schedule, pictures, wanted=""):
    inputs = {f"input{number}": text for number, text in enumerate(pictures)}
    return Row(name, ["compile", "algorithm", "schedule", "made", *inputs],
        {"algorithm": algorithm, "schedule": schedule, "made": b"old"} | inputs, wanted)


def mapped(name, algorithm, schedule, wanted=""):
    return Row(name, ["map", "algorithm", "schedule"], {"algorithm": algorithm, "schedule": schedule}, wanted)


def algorithm_rows():
    for name, algorithm, fault in PARSE:
        yield drawn(name, algorithm, [], f"parse {fault}")
        yield compiled(name, algorithm, "", [], f"parse {fault}")
    for name, algorithm, schedule, refusal in PLANS:
        yield compiled(name, algorithm, schedule, [], refusal)
        yield mapped(name, algorithm, schedule, refusal)
    for name, algorithm, schedule, pictures in COMPUTED:
        yield drawn(name, algorithm, pictures)
        yield compiled(name, algorithm, schedule, pictures)
        yield mapped(name, algorithm, schedule)
    yield compiled("65 registers and more",
        f"func a(x) = {nested(40)}\nfunc b(x) = {nested(31, 'a(x)')}\noutput b 8\n", "", [], "code 1")
    for name, text, refusal in BAD_PICTURES:
        yield drawn(name, BLUR, [text], refusal)
        yield compiled(name, BLUR, "", [text], refusal)
    for name, count in ("no picture", 0), ("a picture too many", 2):
        yield drawn(name, BLUR, [BLUR_INPUT] * count, "input 1")
        yield compiled(name, BLUR, "", [BLUR_INPUT] * count, "input 1")
    yield drawn("no byte", BYTES, [BYTES_INPUT.replace("200", "256")], "input 3")
    yield compiled("no byte", BYTES, "", [BYTES_INPUT.replace("200", "256")], "input 3")
    yield Row("division and remainder", ["picture", "algorithm"],
        {"algorithm": "func b(x) = (0-7)/2 + (0-7)%2\noutput b 1\n"})


# ---- threads

# How many turns a hart makes at most: one whose turn was refused can leave others at a gate.
LIMIT = "10000000"


def thread_rows(stored):
    for harts in range(1, 9):
        yield Row(f"{harts} harts that count", ["run", "image", "log", "--harts", str(harts), "--turns", LIMIT],
            {"image": COUNTER})
    for name in "strips", "two phases":
        for harts in "1", "3", "8":
            yield Row(f"{name}, {harts} harts", ["run", "image", "log", "--harts", harts, "--turns", LIMIT],
                {"image": stored[name]})
    old = log(2, (0, 1), (1, 1), (0, 1))
    yield Row("turns that a seed draws", ["run", "image", "log", "--harts", "2", "--seed", "2", "--turns", "40"], {"image": COUNTER})
    yield Row("from three turns", ["run", "image", "log", "--from", "old", "--turns", LIMIT],
        {"image": COUNTER, "old": old})


def test_rows(tests):
    """The tests of the calls that take no memory, and of calls that want it, each made again where it is refused."""
    rows = [Row("calls that take no memory", ["shared_machines::no_memory_is_taken"], {}),
            Row("calls that want memory", ["wanting::want_of_memory_is_answered"], {})]
    for row in rows:
        row.program = tests
    return rows


def all_rows(program, folder):
    """All rows, over images that the program makes."""
    rows = [*machine_rows(), *assembly_rows(), *algorithm_rows()]
    stored = {}
    for row in rows:
        kind, name = row.name.split(": ", 1)
        if kind in ("asm", "compile") and not row.wanted:
            place = os.path.join(folder, "making")
            os.makedirs(place, exist_ok=True)
            for file, held in row.files.items():
                with open(os.path.join(place, file), "wb") as out:
                    out.write(held)
            subprocess.run([program, *row.words], cwd=place, check=True)
            with open(os.path.join(place, "made"), "rb") as made:
                stored[name] = made.read()
    return [*rows, *program_rows(stored), *thread_rows(stored)]
