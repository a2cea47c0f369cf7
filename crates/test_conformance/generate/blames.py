"""Who wrote a word or a pixel last: each turn's stores are noted as they are made, and the question is put behind the last turn."""

import struct

import replays
import rows
import turns
from hart import DATA, TEXT, Hart, Memory, signed
from runs import digits


class Refused(Exception):
    pass


class Noting(Memory):
    """Data that notes which words are stored to in a turn, and what they held before it."""

    def __init__(self, words, data):
        super().__init__(words, data)
        self.found = {}

    def word(self, address):
        at = address - DATA
        return int.from_bytes(self.data[at:at + 4], "little")

    def write(self, address, count, value):
        self.check_store(address, count)
        self.found.setdefault(address & ~3, self.word(address & ~3))
        super().write(address, count, value)


def last_writes(image, log):
    """The last write of each word: turn, hart, pc, before, after."""
    entry, words, data, output = replays.read_image(image)
    count, runs = replays.read_log(log)
    memory = Noting(words, data)
    harts = [Hart(number, count, entry) for number in range(count)]
    last, turn = {}, 0
    for number, length in runs:
        hart = harts[number]
        for _ in range(length):
            pc, memory.found = hart.pc, {}
            hart.turn(memory)
            for address, before in memory.found.items():
                last[address] = (turn, number, pc, before, memory.word(address))
            turn += 1
    return words, data, output, last


def number_of(text):
    digits_of, base = (text[2:], 16) if text.startswith("0x") else (text, 10)
    if not digits_of or any(d not in "0123456789abcdefABCDEF"[:10 if base == 10 else 22] for d in digits_of) or int(digits_of, base) >= 1 << 64:
        raise Refused("refused blame 2")
    return int(digits_of, base)


def told(words, last, address):
    if address not in last:
        return ["never written"]
    turn, hart, pc, before, after = last[address]
    return [f"turn {turn} hart {hart} pc 0x{pc:08x} {turns.line_of(words[(pc - TEXT) // 4])}", f"before {signed(before)}", f"after {signed(after)}"]


def blame(image, log, x=None, y=None, address=None, with_turns=False):
    """The lines of the answer, or of the refusal."""
    try:
        words, data, output, last = last_writes(image, log)
        if x is None and y is None and address is None:
            if output is None:
                raise Refused("refused blame 3")
            start, width, height, stride = output
            lines = [f"picture {width} {height}"]
            for row in range(height):
                found = [last.get(start + row * stride + 4 * column) for column in range(width)]
                lines.append(" ".join("-1" if write is None else str(write[0] % (1 << 31) if with_turns else write[1]) for write in found))
            return lines
        if with_turns or (x is None) != (y is None) or (x is not None and address is not None):
            raise Refused("refused blame 1")
        if address is not None:
            at = number_of(address)
            if at % 4 or not DATA <= at <= DATA + len(data) - 4:
                raise Refused("refused blame 5")
            return told(words, last, at)
        column, row = number_of(x), number_of(y)
        if output is None:
            raise Refused("refused blame 3")
        start, width, height, stride = output
        if column >= width or row >= height:
            raise Refused("refused blame 4")
        return told(words, last, start + row * stride + 4 * column)
    except (Refused, replays.Refused) as refusal:
        return [str(refusal)]


def question(x=None, y=None, address=None, with_turns=False):
    return ([x] if x is not None else []) + ([y] if y is not None else []) + ([f"--address={address}"] if address is not None else []) + (["--turns"] if with_turns else [])


def case(file, name, image, log, **asked):
    file.case("blame", name, [("image", digits(image)), ("log", digits(log)), ("words", question(**asked))], blame(image, log, **asked))


# ---- images and logs

def image_of(words, data, output=(0, 0, 0, 0)):
    return struct.pack("<4sIIIIIII", b"HRV1", TEXT, len(words), len(data), *output) + struct.pack(f"<{len(words)}I", *words) + data


def log_of(harts, made):
    """The log of turns, each by its hart."""
    runs = []
    for hart in made:
        if runs and runs[-1][0] == hart:
            runs[-1][1] += 1
        else:
            runs.append([hart, 1])
    return struct.pack("<4sIQ", b"HRL1", harts, len(runs)) + b"".join(struct.pack("<BQ", *run) for run in runs)


w = turns.word


def counted():
    """Each hart draws pixels of 6 columns and 2 rows by a ticket, and stores their numbers, a byte of them once more."""
    loop = [
        w("addi", rd=6, rs1=0, imm_i=1), w("amoadd.w", rd=7, rs2=6, rs1=5), w("addi", rd=8, rs1=0, imm_i=12), w("bge", rs1=7, rs2=8, imm_b=44),
        w("addi", rd=9, rs1=0, imm_i=6), w("divu", rd=12, rs1=7, rs2=9), w("remu", rd=13, rs1=7, rs2=9), w("addi", rd=14, rs1=0, imm_i=28),
        w("mul", rd=12, rs1=12, rs2=14), w("slli", rd=13, rs1=13, amount=2), w("add", rd=12, rs1=12, rs2=13), w("add", rd=12, rs1=12, rs2=5),
        w("sw", rs2=7, imm_s=16, rs1=12), w("sb", rs2=10, imm_s=16, rs1=12), w("jal", rd=0, imm_j=-56),
    ]
    loop[3] = w("bge", rs1=7, rs2=8, imm_b=4 * (len(loop) - 3))
    return image_of([w("lui", rd=5, imm_u=0x200)] + loop + [w("ecall")], bytes(72), (DATA + 16, 6, 2, 28))


def bytes_apart():
    """Hart h stores byte h of a word, and behind it its own number as half a word of the next one."""
    return image_of([w("lui", rd=5, imm_u=0x200), w("add", rd=6, rs1=5, rs2=10), w("sb", rs2=11, imm_s=0, rs1=6), w("add", rd=6, rs1=6, rs2=10),
                     w("sh", rs2=10, imm_s=8, rs1=6), w("ecall")], bytes(range(32)))


def lanes():
    """Stores of vectors: four words, bytes, every third word, words at places, and those of a mask."""
    return image_of([
        w("lui", rd=5, imm_u=0x200), w("vsetivli", rd=0, length=4, vtype10=0b010000), w("vid.v", vd=1, vm=1), w("vse32.v", vd=1, rs1=5, vm=1),
        w("addi", rd=6, rs1=0, imm_i=12), w("slli", rd=7, rs1=10, amount=2), w("add", rd=7, rs1=7, rs2=5), w("vsse32.v", vd=1, rs1=7, rs2=6, vm=1),
        w("vsll.vi", vd=2, vs2=1, uimm5=3, vm=1), w("addi", rd=8, rs1=5, imm_i=64), w("vsuxei32.v", vd=1, rs1=8, vs2=2, vm=1),
        w("vmseq.vi", vd=0, vs2=1, imm5=2, vm=1), w("vse32.v", vd=2, rs1=5, vm=0), w("vse8.v", vd=2, rs1=8, vm=1), w("ecall"),
    ], bytes(128), (DATA, 8, 2, 32))


def equal():
    """All harts store the same number, the second time where it stands already."""
    return image_of([w("lui", rd=5, imm_u=0x200), w("addi", rd=6, rs1=0, imm_i=-7), w("sw", rs2=6, imm_s=4, rs1=5), w("sw", rs2=6, imm_s=4, rs1=5), w("ecall")],
                    bytes(16), (DATA, 2, 2, 8))


def trapping():
    """A store that is made, and one that isn't, since its address is odd."""
    return image_of([w("lui", rd=5, imm_u=0x200), w("sw", rs2=5, imm_s=0, rs1=5), w("sw", rs2=6, imm_s=6, rs1=5)], bytes(16), (DATA, 1, 1, 4))


def scattered(random):
    """Stores of all kinds to random places, in a loop that never ends."""
    words = [w("lui", rd=5, imm_u=0x200), w("vsetivli", rd=0, length=random.randint(1, 4), vtype10=0b010000), w("vid.v", vd=1, vm=1)]
    for _ in range(12):
        place = random.randrange(0, 96, 4)
        kind = random.randrange(6)
        if kind == 0:
            words.append(w("sb", rs2=10, imm_s=place + random.randrange(4), rs1=5))
        elif kind == 1:
            words.append(w("sh", rs2=11, imm_s=place + 2 * random.randrange(2), rs1=5))
        elif kind == 2:
            words.append(w("sw", rs2=10, imm_s=place, rs1=5))
        else:
            words.append(w("addi", rd=6, rs1=5, imm_i=place))
            words.append(w("amoadd.w", rd=7, rs2=11, rs1=6) if kind == 3 else w("vse32.v", vd=1, rs1=6, vm=1) if kind == 4 else w("vse8.v", vd=1, rs1=6, vm=1))
    words.append(w("jal", rd=0, imm_j=-4 * (len(words) - 1)))
    return image_of(words, random.randbytes(128), (DATA, 4, 6, 20))


def turns_of(random, harts, count, longest):
    made = []
    while len(made) < count:
        made += [random.randrange(harts)] * random.randint(1, longest)
    return made


def asked(file, random):
    """Words and pixels of programs that harts share."""
    drawn = counted()
    for harts in (1, 2, 3, 8):
        log = log_of(harts, turns_of(random, harts, 230, 5))
        case(file, f"the harts of all pixels, of {harts}", drawn, log)
        case(file, f"the turns of all pixels, of {harts}", drawn, log, with_turns=True)
        case(file, f"a pixel in the first row, of {harts}", drawn, log, x="4", y="0")
        case(file, f"a pixel in the last row, of {harts}", drawn, log, x="5", y="1")
        case(file, f"the ticket, of {harts}", drawn, log, address="0x00200000")
        case(file, f"a word between the rows, of {harts}", drawn, log, address=str(DATA + 16 + 24))
        shared = log_of(harts, turns_of(random, harts, 8 * harts, 2))
        case(file, f"a word whose bytes {harts} store", bytes_apart(), shared, address="0x200000")
        case(file, f"a word whose halves {harts} store", bytes_apart(), shared, address="0x200008")
        vectors = log_of(harts, turns_of(random, harts, 15 * harts, 3))
        case(file, f"lanes of {harts}", lanes(), vectors)
        case(file, f"turns of lanes of {harts}", lanes(), vectors, with_turns=True)
        case(file, f"a lane of {harts}", lanes(), vectors, x="2", y="0")
        case(file, f"bytes of lanes of {harts}", lanes(), vectors, address="0x00200040")
        same = log_of(harts, turns_of(random, harts, 5 * harts, 2))
        case(file, f"a number stored where it stands, by {harts}", equal(), same, x="1", y="0")
        case(file, f"halted harts make turns, {harts}", equal(), log_of(harts, list(range(harts)) * 9), with_turns=True)
        for number in range(3):
            everywhere, log = scattered(random), log_of(harts, turns_of(random, harts, 60 * harts, 4))
            case(file, f"stores everywhere {number}, by {harts}", everywhere, log)
            case(file, f"turns of stores everywhere {number}, by {harts}", everywhere, log, with_turns=True)
            for at in range(DATA, DATA + 128, 24):
                case(file, f"stores everywhere {number}, by {harts}, at {at:x}", everywhere, log, address=f"0x{at:08X}")
    one = log_of(1, [0] * 4)
    case(file, "a store that traps", trapping(), one)
    case(file, "the word beside a store that traps", trapping(), one, address="0x00200004")
    case(file, "no turn", drawn, log_of(2, []))
    case(file, "no turn, of a pixel", drawn, log_of(2, []), x="0", y="0")


def refused(file, _):
    """Questions that have no answer."""
    drawn, plain, log = counted(), bytes_apart(), log_of(1, [0] * 20)
    cases = [
        ("X alone", dict(x="1")), ("a pixel and an address", dict(x="1", y="1", address="0x00200000")), ("a pixel and turns", dict(x="1", y="1", with_turns=True)),
        ("an address and turns", dict(address="0x00200000", with_turns=True)), ("X that is no number", dict(x="one", y="1")),
        ("Y that is no number", dict(x="1", y="1x")), ("an address that is no number", dict(address="0x")), ("an address of 2^64", dict(address=str(1 << 64))),
        ("X outside", dict(x="6", y="0")), ("Y outside", dict(x="0", y="2")), ("X far outside", dict(x=str((1 << 64) - 1), y="0")),
        ("an address in text", dict(address="0x00010000")), ("an address between words", dict(address="0x00200001")), ("an address behind data", dict(address="0x00200048")),
        ("an address before data", dict(address="0x001ffffc")), ("an address far behind data", dict(address="0xfffffffffffffffc")), ("the last word", dict(address="0x00200044")),
    ]
    for name, words in cases:
        case(file, name, drawn, log, **words)
    case(file, "all pixels of no output", plain, log)
    case(file, "all turns of no output", plain, log, with_turns=True)
    case(file, "a pixel of no output", plain, log, x="0", y="0")
    case(file, "a word beside no output", plain, log, address="0x00200000")
    case(file, "of no image", drawn[:30], log)
    case(file, "of no log", drawn, log[:15])
    case(file, "of no image and no log", drawn[:30], log[:15], x="1")
    case(file, "of no log, with words that don't go together", drawn, log[:3], x="1")
