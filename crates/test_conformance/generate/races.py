"""At which place of a log two harts race first: what each hart's next turn touches is found by making it on copies."""

import copy

import blames
import replays
import turns
from devices import COUNTER, TURNS
from hart import DATA, TEXT, Hart, Memory, Trap
from runs import digits

w = turns.word


class Touched(Memory):
    """A copy of data that notes the bytes which a turn reads and those which it writes, in their order."""

    def __init__(self, memory):
        super().__init__(memory.words, memory.data)
        self.reads, self.writes = [], []

    def read(self, address, count, misaligned=4):
        value = super().read(address, count, misaligned)
        self.reads += range(address, address + count)
        return value

    def write(self, address, count, value):
        super().write(address, count, value)
        self.writes += range(address, address + count)


def touched(hart, memory):
    """What the next turn of a hart reads and writes: nothing where it rests or traps."""
    found = Touched(memory)
    if hart.status == "running":
        try:
            copy.deepcopy(hart).step(found)
        except Trap:
            return [], []
    return found.reads, found.writes


def race_in(harts, memory, but):
    """The first hart that writes, the first other that touches, and the first byte; none where there is no race."""
    of_each = [touched(hart, memory) for hart in harts]
    for one, (_, writes) in enumerate(of_each):
        for other, (reads, written) in enumerate(of_each):
            for byte in writes if one != other else []:
                if byte & ~3 not in but and (byte in reads or byte in written):
                    return one, other, byte
    return None


def words_of(texts, data):
    """The words of data that are left out."""
    found = set()
    for text in texts:
        address = blames.number_of(text)
        if address % 4 or not DATA <= address <= DATA + len(data) - 4:
            raise blames.Refused("refused blame 5")
        found.add(address)
    return found


def told(harts, memory, place, found):
    one, other, byte = found
    lines = [f"place {place}"]
    for number in (one, other):
        pc = harts[number].pc
        lines.append(f"hart {number} pc 0x{pc:08x} {turns.line_of(memory.words[(pc - TEXT) // 4])}")
    return lines + [f"word 0x{byte & ~3:08x}"]


def races(image, log, but=()):
    """The lines of the answer, or of the refusal."""
    try:
        entry, words, data, _ = replays.read_image(image)
        count, runs = replays.read_log(log)
        left_out = words_of(but, data)
    except (replays.Refused, blames.Refused) as refusal:
        return [str(refusal)]
    memory = Memory(words, data)
    harts = [Hart(number, count, entry) for number in range(count)]
    place = 0
    for number in [number for number, length in runs for _ in range(length)] + [None]:
        found = race_in(harts, memory, left_out)
        if found:
            return told(harts, memory, place, found)
        if number is not None:
            harts[number].turn(memory)
            place += 1
    return ["none"]


def case(file, name, image, log, *but):
    parts = [("image", digits(image)), ("log", digits(log)), ("words", list(but))]
    file.case("races", name, parts if but else parts[:2], races(image, log, but))


# ---- images

def planted():
    """Each hart adds 1 to a word by a load and a store, twice."""
    again = [w("lw", rd=6, rs1=5, imm_i=0), w("addi", rd=6, rs1=6, imm_i=1), w("sw", rs1=5, rs2=6, imm_s=0)]
    return blames.image_of([w("lui", rd=5, imm_u=0x200), *again, *again, w("ecall")], bytes(8))


def apart():
    """Each hart stores to a byte of its own, all of one word; and then to the byte of the next hart."""
    return blames.image_of([
        w("lui", rd=5, imm_u=0x200), w("add", rd=5, rs1=5, rs2=10), w("sb", rs1=5, rs2=10, imm_s=0), w("sb", rs1=5, rs2=10, imm_s=1), w("ecall"),
    ], bytes(12))


def reading():
    """Each hart loads a word that none stores."""
    return blames.image_of([w("lui", rd=5, imm_u=0x200), w("lw", rd=6, rs1=5, imm_i=0), w("lw", rd=6, rs1=5, imm_i=0), w("ecall")], bytes(4))


# ---- cases

def asked(file, random):
    """Programs that race, at once or late, and programs that don't."""
    case(file, "two harts that count", COUNTER, TURNS)
    case(file, "two harts that count, their word left out", COUNTER, TURNS, "0x00200000")
    case(file, "a word left out twice", COUNTER, TURNS, "2097152", "0x00200000")
    case(file, "no turn", COUNTER, blames.log_of(2, []))
    case(file, "one hart", planted(), blames.log_of(1, [0] * 8))
    case(file, "a lost update, one hart after the other", planted(), blames.log_of(2, [0] * 8 + [1] * 8))
    case(file, "a lost update, turn by turn", planted(), blames.log_of(2, [0, 1] * 8))
    case(file, "a lost update, its word left out", planted(), blames.log_of(2, [0, 1] * 8), "0x00200000")
    case(file, "another word left out", planted(), blames.log_of(2, [0, 1] * 8), "0x00200004")
    for harts in (2, 3, 8):
        case(file, f"bytes of one word, of {harts}", apart(), blames.log_of(harts, list(range(harts)) * 5))
        case(file, f"bytes of one word, the last hart first, of {harts}", apart(), blames.log_of(harts, list(range(harts))[::-1] * 5))
        case(file, f"loads alone, of {harts}", reading(), blames.log_of(harts, list(range(harts)) * 4))
        case(file, f"lanes, of {harts}", blames.lanes(), blames.log_of(harts, blames.turns_of(random, harts, 15 * harts, 3)))
        for number in range(6):
            turns_made = blames.turns_of(random, harts, 60 * harts, 2 + 8 * number)
            case(file, f"stores everywhere {number}, of {harts}", blames.scattered(random), blames.log_of(harts, turns_made))
            case(file, f"lost updates {number}, of {harts}", planted(), blames.log_of(harts, blames.turns_of(random, harts, 8 * harts, 1 + 3 * number)))
            case(file, f"tickets {number}, of {harts}", blames.counted(), blames.log_of(harts, turns_made), *[f"0x{DATA + 4 * at:08x}" for at in range(number % 3)])
    case(file, "a trap", blames.trapping(), blames.log_of(2, [0, 1] * 6))


def refused(file, _):
    """Images, logs and words that are refused, in this order."""
    case(file, "of no image", COUNTER[:30], TURNS)
    case(file, "of no log", COUNTER, TURNS[:15])
    case(file, "of no log and no word", COUNTER, TURNS[:15], "x")
    for word in ("x", "0x", "2097153", "0x001ffffc", "0x00200004", "18446744073709551616"):
        case(file, f"of the word {word}", COUNTER, TURNS, "0x00200000", word)
