"""Where the turns of a log go: each turn is counted where its hart stands before it."""

import blames
import cases
import replays
import turns
from devices import COUNTER, TURNS
from hart import DATA, TEXT, Hart, Memory
from runs import digits

w = turns.word


def counted(image, log):
    """The words, and of each hart the turns at each address, those that it made while it ran, and its idle ones."""
    entry, words, data, _ = replays.read_image(image)
    count, runs = replays.read_log(log)
    memory = Memory(words, data)
    harts = [Hart(number, count, entry) for number in range(count)]
    places, made, idle = [{} for _ in harts], [0] * count, [0] * count
    for number, length in runs:
        hart = harts[number]
        while length and hart.status == "running":
            places[number][hart.pc] = places[number].get(hart.pc, 0) + 1
            made[number] += 1
            hart.turn(memory)
            length -= 1
        idle[number] += length
    return words, places, made, idle


def profile(image, log):
    """The lines of the answer, or of the refusal."""
    try:
        words, places, made, idle = counted(image, log)
    except replays.Refused as refusal:
        return [str(refusal)]
    lines = [f"hart {number} turns {made[number]} idle {idle[number]}" for number in range(len(made))]
    for at, word in enumerate(words):
        address = TEXT + 4 * at
        counts = [of_hart.get(address, 0) for of_hart in places]
        lines.append(f"{sum(counts)} {' '.join(map(str, counts))} 0x{address:08x} {turns.line_of(word)}")
    return lines


def case(file, name, image, log):
    file.case("profile", name, [("image", digits(image)), ("log", digits(log))], profile(image, log))


# ---- images

def leaving():
    """Hart 0 jumps behind the text, hart 1 before it, and the others to the word of data."""
    return blames.image_of([
        w("addi", rd=6, rs1=0, imm_i=1), w("beq", rs1=10, rs2=0, imm_b=20), w("beq", rs1=10, rs2=6, imm_b=12), w("lui", rd=5, imm_u=0x200),
        w("jalr", rd=0, rs1=5, imm_i=0), w("jalr", rd=0, rs1=0, imm_i=4), w("jal", rd=1, imm_j=8), w("ecall"),
    ], bytes(4))


def straight():
    """Words that a hart executes one after the other up to the end of text, and beyond it."""
    return blames.image_of([w("addi", rd=6, rs1=6, imm_i=number) for number in range(12)], b"")


def branching(random):
    """Loops of random lengths, in one another, that end for all harts."""
    words = []
    for register in (5, 6):
        words.append(w("addi", rd=register, rs1=10, imm_i=random.randint(1, 4)))
    begin = len(words)
    for _ in range(random.randint(1, 5)):
        words.append(w("add", rd=7, rs1=7, rs2=random.choice((5, 6, 10))))
    words.append(w("andi", rd=8, rs1=7, imm_i=random.choice((1, 3))))
    words.append(w("beq", rs1=8, rs2=0, imm_b=4 * random.randint(1, 3)))
    words += [w("addi", rd=9, rs1=9, imm_i=1), w("xori", rd=9, rs1=9, imm_i=5)]
    words.append(w("addi", rd=5, rs1=5, imm_i=-1))
    words.append(w("blt", rs1=0, rs2=5, imm_b=4 * (begin - len(words))))
    words += [w("addi", rd=5, rs1=10, imm_i=2), w("addi", rd=6, rs1=6, imm_i=-1)]
    words.append(w("blt", rs1=0, rs2=6, imm_b=4 * (begin - len(words))))
    return blames.image_of(words + [w("ecall")], b"")


# ---- cases

def asked(file, random):
    """Programs that harts share, with turns of harts that have halted."""
    case(file, "two harts that count", COUNTER, TURNS)
    case(file, "no turn", COUNTER, blames.log_of(2, []))
    case(file, "one turn", COUNTER, blames.log_of(2, [1]))
    case(file, "turns of halted harts", COUNTER, blames.log_of(2, [0] * 9 + [1] * 7 + [0] * 30 + [1, 0] * 3))
    case(file, "2^40 turns", COUNTER, blames.log_of(1, [0] * 2)[:-8] + (1 << 40).to_bytes(8, "little"))
    for harts in (1, 2, 3, 8):
        drawn = blames.counted()
        case(file, f"tickets, of {harts}", drawn, blames.log_of(harts, blames.turns_of(random, harts, 230, 5)))
        case(file, f"lanes, of {harts}", blames.lanes(), blames.log_of(harts, blames.turns_of(random, harts, 15 * harts, 3)))
        case(file, f"pcs that leave text, of {harts}", leaving(), blames.log_of(harts, blames.turns_of(random, harts, 12 * harts, 3)))
        case(file, f"the end of text, of {harts}", straight(), blames.log_of(harts, blames.turns_of(random, harts, 16 * harts, 9)))
        for number in range(3):
            log = blames.log_of(harts, blames.turns_of(random, harts, 120 * harts, 2 + 20 * number))
            case(file, f"branches {number}, of {harts}", branching(random), log)
            case(file, f"stores everywhere {number}, of {harts}", blames.scattered(random), log)
    case(file, "a trap", blames.trapping(), blames.log_of(1, [0] * 6))
    branches = branching(random)
    case(file, "2,000 turns of two harts", blames.counted(), blames.log_of(2, blames.turns_of(random, 2, 2000, 40)))
    case(file, "2,000 turns of branches", branches, blames.log_of(2, blames.turns_of(random, 2, 2000, 3)))
    for number, (kind, title, parts, says) in enumerate(cases.read_cases("taken/replays.txt")):
        if number % 120 == 0 and not says[0].startswith("refused"):
            case(file, f"{title}, profiled", *(bytes.fromhex(text) for _, text in parts))


def refused(file, _):
    """Images and logs that are refused, the image first."""
    case(file, "of no image", COUNTER[:30], TURNS)
    case(file, "of an image with other letters", b"HRV3" + COUNTER[4:], TURNS)
    case(file, "of no log", COUNTER, TURNS[:15])
    case(file, "of a log with a byte behind", COUNTER, TURNS + b"\0")
    case(file, "of no image and no log", COUNTER[:30], TURNS[:15])
