"""Commands over files that give and take a few bytes at a time, and fail. The whole outputs were worked out by hand; a failing read leaves
nothing written, and a failing write a beginning of the output."""

COUNTER = bytes.fromhex("4852563100000100040000000400000000002000010000000100000004000000"
                        "b702200013031000afa362007300000000000000")

# The same image in the second format, whose data need no byte.
RENEWED = bytes.fromhex("485256320000010004000000040000000000200001000000010000000400000000000000"
                        "b702200013031000afa3620073000000")

# The turns 0 1 0 1 1 0 0 1.
TURNS = bytes.fromhex("48524c31020000000600000000000000000100000000000000010100000000000000"
                      "00010000000000000001020000000000000000020000000000000001010000000000"
                      "0000")

DUMP = """hart 0 finished pc 0x0001000c turns 4
  x5 0x00200000
  x6 0x00000001
  x7 0x00000001
  x11 0x00000002
  vl 0 vtype 0x80000000
hart 1 finished pc 0x0001000c turns 4
  x5 0x00200000
  x6 0x00000001
  x10 0x00000001
  x11 0x00000002
  vl 0 vtype 0x80000000
picture 1 1
2
"""

PROFILE = """hart 0 turns 4 idle 0
hart 1 turns 4 idle 0
2 1 1 0x00010000 lui x5,0x00200
2 1 1 0x00010004 addi x6,x0,1
2 1 1 0x00010008 amoadd.w x7,x6,(x5)
2 1 1 0x0001000c ecall
"""

# Four turns of one hart, and none.
RUN_LOG = bytes.fromhex("48524c31010000000100000000000000000400000000000000")
NO_TURN = bytes.fromhex("48524c31010000000000000000000000")

RUN_DUMP = """hart 0 finished pc 0x0001000c turns 4
  x5 0x00200000
  x6 0x00000001
  x11 0x00000001
  vl 0 vtype 0x80000000
picture 1 1
1
"""

LOOP = "start: li x5,-1\nbeq x5,x0,start\n"

# Three words and no data, to be started at the first word.
LOOP_IMAGE = bytes.fromhex("485256320000010003000000000000000000000000000000000000000000000000000000"
                           "b70200009382f2ffe38c02fe")

LOOP_LINES = "lui x5,0x00000\naddi x5,x5,-1\nbeq x5,x0,-8\n"

BLUR = "input in 8\nfunc b(x) = (in(clamp(x-1,0,7)) + in(x) + in(clamp(x+1,0,7))) / 3\noutput b 8\n"
BLUR_INPUT = "picture 8 1\n0 3 6 9 12 15 18 21\n"
BLUR_OUTPUT = "picture 8 1\n1 3 6 9 12 15 18 20\n"

BLUR_SCHEDULE = "b split x xo xi 4 guard\nb parallel xo\n"

# Two words and two pictures of eight words; what is stored ends with the last byte that isn't zero.
BLUR_COMPILED = ["data 72", "0000000000000000" + "00000000" "03000000" "06000000" "09000000" "0c000000" "0f000000", "1200000015",
                 "output 0x00200028 8 1 32"] + BLUR_OUTPUT.split("\n")[:-1]

# Words of a question, and what is answered about the turns.
QUESTIONS = [("0\n0\n", "turn 5 hart 0 pc 0x00010008 amoadd.w x7,x6,(x5)\nbefore 1\nafter 2\n"), ("", "picture 1 1\n0\n"),
             ("--turns\n", "picture 1 1\n5\n")]

BLUR_MAP = """control 0 ticket 0x00200000 gate 0x00200004
input in words corner 0 0 extents 8 1 address 0x00200008 row 32 pixel 4
func b root corner 0 0 extents 8 1 address 0x00200028 row 32 pixel 4
phase 0 stage b tasks 2 code 0x00010000 0x********
"""

EXPLAINED = """refused load 2
  IMAGE, or OLD of `renew`, is no image
  cause: fewer than 4 bytes
  cure: the file was cut: store it again
  cause: fewer than 32 bytes, of `HRV2` fewer than 36
  cure: the file was cut
  cause: fewer bytes than the header says
  cure: the file was cut
"""

VERSION = "hrv 2.1\nlogic dac8208d650f15bf\n"

TALK = [("next", "at 1\n"), ("next", "at 2\n"),
        ("status", "at 2 of 8\nhart 0 running pc 0x00010004\nhart 1 running pc 0x00010004\n"), ("back", "at 1\n")]


def digits(data):
    return [data[at:at + 32].hex() for at in range(0, len(data), 32)]


def is_plain(text):
    return not text or text.endswith("\n") and all(line and not line.startswith(("-- ", "== ")) for line in text[:-1].split("\n"))


def part(name, content):
    """A part with a text or with bytes. Images and logs are digits without a word of it."""
    if isinstance(content, str):
        assert is_plain(content)
        return name, content.splitlines()
    return (name if name in ("image", "log") else f"{name} in hexadecimal"), digits(content)


def written(content):
    """What a page holds."""
    if isinstance(content, bytes):
        return digits(content)
    lines = content.split("\n")
    return lines[:-1] + ([lines[-1] + "\\"] if lines[-1] else [])


class Command:
    """A command with its files by their names, and what it writes."""

    def __init__(self, kind, files, output):
        self.kind, self.files, self.output = kind, files, output

    def case(self, file, name, settings, answer):
        parts = [part(*it) for it in self.files] + [("devices", settings)]
        file.case(self.kind, f"{self.kind}: {name}", parts, answer)

    def devices(self):
        """The files that are read, and no words of a command line."""
        return [name for name, _ in self.files if name != "words"]

    def whole(self, file):
        for name, read, taken in ("a few bytes at a time", 7, 9), ("one byte at a time", 1, 1):
            settings = [f"{device} {read}" for device in self.devices()] + [f"page {taken}"]
            self.case(file, name, settings, self.shown(self.output))

    def shown(self, output):
        """What the page of a case holds."""
        return written(output)

    def failing_reads(self, file, name):
        """Each read of a file that is read whole before anything is written."""
        for calls in range(-(-len(dict(self.files)[name]) // 7) + 1):
            self.case(file, f"read {calls} of {name} fails", [f"{name} 7 {calls}"], [f"refused file {name}"])

    def failing_writes(self, file, step):
        """Each write, and behind the last one that the page can't be made whole."""
        count = -(-len(self.output) // step)
        for calls in range(count + 1):
            answer = self.shown(self.output[:calls * step]) + ["refused file page"]
            name = f"write {calls} fails" if calls < count else "all is written and isn't made whole"
            self.case(file, name, [f"page {step} {calls}"], answer)

    def failing(self, file):
        self.whole(file)
        for name in self.devices():
            self.failing_reads(file, name)
        self.failing_writes(file, 9)


class Mapping(Command):
    """A map, of which cases don't show where code lies."""

    def shown(self, output):
        return [line.split(" code ")[0] + "\\" * (" code " in line and line.endswith("\\")) for line in written(output)]


class Asking(Command):
    """A question about a log, by the words behind the files."""

    def case(self, file, name, settings, answer):
        words = " ".join(dict(self.files)["words"].split())
        super().case(file, f"{words}: {name}" if words else name, settings, answer)


class Version(Command):
    """Nothing is asked to be explained."""

    def case(self, file, name, settings, answer):
        super().case(file, f"the version: {name}", settings, answer)


def stored(file, _):
    """Assembly, listing and renewal."""
    Command("asm", [("source", LOOP)], LOOP_IMAGE).failing(file)
    Command("dis", [("image", LOOP_IMAGE)], LOOP_LINES).failing(file)
    Command("asm", [("source", LOOP_LINES)], LOOP_IMAGE).case(file, "the listing", [], written(LOOP_IMAGE))
    Command("renew", [("image", COUNTER)], RENEWED).failing(file)
    Command("renew", [("image", RENEWED)], RENEWED).case(file, "the second format", [], written(RENEWED))
    zeros = Command("renew", [("image", COUNTER[:50] + b"\7" + COUNTER[51:])], None)
    zeros.case(file, "zeros before another byte are stored", [], written(RENEWED[:32] + b"\3" + RENEWED[33:] + b"\0\0\7"))
    trailing = Command("renew", [("image", RENEWED[:32] + b"\1" + RENEWED[33:] + b"\0")], None)
    trailing.case(file, "a last stored byte of 0", [], ["refused load 8"])
    text = ".entry main\n.output pixels, 2, 1\n.data\n.space 4\npixels: .word -1\n.word 258\n.text\necall\nmain: ecall # the last word\n"
    image = bytes.fromhex("485256320400010002000000" "0c000000" "0400200002000000" "01000000" "08000000" "0a000000"
                          "7300000073000000" "00000000" "ffffffff" "0201")
    Command("asm", [("source", text)], image).case(file, "data and an output", ["source 7", "page 9"], written(image))


def refused_sources(file, _):
    """The first faulty line decides, and a text that is no UTF-8 comes before it."""
    cases = [(b"addi x5,x0,2048", "asm 4 line 1"), (b"ecall\necal\naddi x5,x0,2048\n", "asm 2 line 2"),
             (b"ecall\n\n# \nbeq x5,x0,there\n", "asm 5 line 4"), (b"", "asm 1 line 1"),
             (b"ecall # \xff\n", "file source"), (b"addi x5,x0,2048\n\xc0", "file source")]
    for number, (source, why) in enumerate(cases):
        Command("asm", [("source", source)], None).case(file, f"refused {number}", ["source 7"], [f"refused {why}"])


def replays(file, _):
    replay = Command("replay", [("image", COUNTER), ("log", TURNS)], DUMP)
    replay.failing(file)
    for calls in range(8):
        settings = [f"image 7 {calls}", "page 9 0"]
        replay.case(file, f"read {calls} of image fails, and each write", settings, ["refused file image"])


def profiles(file, _):
    Command("profile", [("image", COUNTER), ("log", TURNS)], PROFILE).failing(file)


def drawings(file, _):
    picture = Command("draw", [("algorithm", BLUR), ("picture", BLUR_INPUT)], BLUR_OUTPUT)
    picture.failing(file)
    blur, good = ("algorithm", BLUR.encode()), ("picture", BLUR_INPUT.encode())
    bad = ("picture", b"picture 8 1\n0 3 6 9 12 15 18 2147483648\n")
    unknown = ("algorithm", b"input in 8\nfunc b(x) = c(x)\noutput b 8\n")
    zero = ("algorithm", b"input in 8\nfunc b(x) = in(x) / 0\n")
    no_text = b"# \xff\n"
    cases = [([blur], "input 1"), ([blur, good, good], "input 1"), ([blur, ("picture", b"picture 2 1\n1 2\n")], "input 2"),
             ([blur, bad], "picture 3"), ([blur, good, ("picture", b"picture 70000 1\n")], "picture 2"),
             ([blur, ("picture", b""), bad], "picture 1"), ([unknown, ("picture", b"picture")], "parse 2 line 2"),
             ([zero], "parse 5 line 2"), ([("algorithm", b"")], "parse 9 line 1"), ([unknown, ("picture", no_text)], "file picture"),
             ([("algorithm", no_text), ("picture", no_text)], "file algorithm"), ([("algorithm", no_text)], "file algorithm")]
    for number, (files, why) in enumerate(cases):
        Command("draw", files, None).case(file, f"refused {number}", ["algorithm 7", "picture 7"], [f"refused {why}"])


def questions(file, _):
    for words, answer in QUESTIONS:
        Asking("blame", [("image", COUNTER), ("log", TURNS), ("words", words)], answer).failing(file)


def explanations(file, _):
    Command("explain", [("words", "load\n2\n")], EXPLAINED).failing(file)
    Version("explain", [], VERSION).failing(file)


def maps(file, _):
    Mapping("map", [("algorithm", BLUR), ("schedule", BLUR_SCHEDULE)], BLUR_MAP).failing(file)
    faulty = Command("map", [("algorithm", "x\n"), ("schedule", "x\n")], None)
    faulty.case(file, "nothing is judged where a file can't be read", ["schedule 7 0", "page 8 0"], ["refused file schedule"])
    faulty.case(file, "nothing is written where a text is refused", ["page 8 0"], ["refused parse 1 line 1"])


def compilations(file, _):
    files = [("algorithm", BLUR), ("schedule", BLUR_SCHEDULE), ("picture", BLUR_INPUT)]
    compilation = Command("compile", files, None)
    compilation.case(file, "a few bytes at a time", ["algorithm 7", "schedule 7", "picture 7", "page 9"], BLUR_COMPILED)
    compilation.case(file, "one byte at a time", ["algorithm 1", "schedule 1", "picture 1", "page 1"], BLUR_COMPILED)
    for name, _ in files:
        compilation.failing_reads(file, name)
    Command("cut", files, None).case(file, "each write fails in turn", [], ["each failing write leaves what was written"])
    # Of the header the letters and the entry are the same for all programs.
    for calls in range(2):
        start = bytes.fromhex("4852563200000100")[:8 * calls]
        compilation.case(file, f"write {calls} fails", [f"page 8 {calls}"], digits(start) + ["refused file page"])
    faulty = Command("compile", [("algorithm", "x\n"), ("schedule", "x\n"), ("picture", "x\n")], None)
    faulty.case(file, "nothing is judged where a file can't be read", ["picture 7 0", "page 8 0"], ["refused file picture"])
    faulty.case(file, "nothing is written where a text is refused", ["page 8 0"], ["refused parse 1 line 1"])


def runs(file, _):
    """The log is written whole before the dump is begun."""
    turns = "1099511627776\n"
    log, text = digits(RUN_LOG), written(RUN_DUMP)
    begun = Command("run", [("image", COUNTER), ("turns", turns)], RUN_DUMP)
    begun.case(file, "a few bytes at a time", ["image 7", "new 9", "page 9"], log + text)
    begun.case(file, "one byte at a time", ["image 1", "new 1", "page 1"], log + text)
    begun.failing_reads(file, "image")
    resumed = Command("resume", [("image", COUNTER), ("log", NO_TURN), ("turns", turns)], RUN_DUMP)
    resumed.case(file, "a few bytes at a time", ["image 7", "log 7", "new 9", "page 9"], log + text)
    resumed.case(file, "one byte at a time", ["image 1", "log 1", "new 1", "page 1"], log + text)
    resumed.failing_reads(file, "image")
    resumed.failing_reads(file, "log")
    for command in begun, resumed:
        count = -(-len(RUN_LOG) // 9)
        for calls in range(count + 1):
            answer = digits(RUN_LOG[:calls * 9]) + ["refused file page"]
            name = f"write {calls} of the log fails" if calls < count else "the log is written and isn't made whole"
            command.case(file, name, [f"new 9 {calls}", "page 9 0"], answer)
        for calls in range(-(-len(RUN_DUMP) // 9)):
            answer = log + written(RUN_DUMP[:calls * 9]) + ["refused file page"]
            command.case(file, f"write {calls} of the dump fails", ["new 9", f"page 9 {calls}"], answer)
    cases = [("an old log that is none", b"HRL1", "refused log 2"), ("an old log of nine harts", b"HRL1\t" + bytes(11), "refused log 3")]
    for name, old, why in cases:
        Command("resume", [("image", COUNTER), ("log", old), ("turns", turns)], None).case(file, name, ["new 9 0", "page 9 0"], [why])
    Command("run", [("image", b"HRV1"), ("turns", turns)], None).case(file, "no image", ["new 9 0", "page 9 0"], ["refused load 2"])


def talks(file, _):
    lines = "".join(line + "\n" for line, _ in TALK)
    talk = Command("debug", [("image", COUNTER), ("log", TURNS), ("lines", lines)], "".join(text for _, text in TALK))
    talk.whole(file)
    talk.failing_reads(file, "image")
    talk.failing_reads(file, "log")
    # What was read when the source fails has its answers.
    for calls in range(5):
        count = lines[:7 * calls].count("\n")
        answer = written("".join(text for _, text in TALK[:count])) + ["refused file lines"]
        talk.case(file, f"read {calls} of lines fails", [f"lines 7 {calls}"], answer)
    for calls in range(0, len(talk.output), 3):
        answer = written(talk.output[:calls]) + ["refused file page"]
        talk.case(file, f"write {calls} fails", ["lines 7", f"page 1 {calls}"], answer)
    files = talk.files[:2]
    cases = [("answers come before more is read", "next\nnext\nnext\n", ["lines 7 1"], ["at 1", "refused file lines"]),
             ("nothing is read where answers can't be written", "next\nnext\nnext\n", ["lines 7 1", "page 9 0"], ["refused file page"]),
             ("nothing is read behind quit", "quit\nnext\n", ["lines 7 1"], []),
             ("quit at the end of a piece", "bc\nquit 1\nnext\n", ["lines 7"], ["unknown", "unknown", "at 1"]),
             ("lines that are no text", b"next \xff\nword\xff 1\n\xff\nnext", [], ["unknown", "unknown", "unknown", "at 1"])]
    for name, text, settings, answer in cases:
        Command("debug", files + [("lines", text)], None).case(file, name, settings, answer)
