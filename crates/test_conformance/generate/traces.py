"""What each turn of a log did: the hart and what it touches, before the turn and after it, by the model's harts."""

import blames
import races
import replays
import turns
from devices import COUNTER, TURNS
from hart import DATA, MOST, TEXT, Hart, Memory
from runs import digits

w = turns.word


def word_at(memory, address):
    """The word of text or of data at an address."""
    if address >= DATA:
        return int.from_bytes(memory.data[address - DATA:address - DATA + 4], "little")
    return memory.words[(address - TEXT) // 4]


def touched_text(memory, reads, writes, before):
    """What is told of the words that a turn touches, the first of which held `before`."""
    if not reads and not writes:
        return ""
    words = sorted({byte & ~3 for byte in reads + writes})
    if words[0] != words[-1]:
        done = "read and written" if reads and writes else "read" if reads else "written"
        return f"  words 0x{words[0]:08x} to 0x{words[-1]:08x} {done}"
    if not writes:
        return f"  word 0x{words[0]:08x} is 0x{before:08x}"
    return f"  word 0x{words[0]:08x} before 0x{before:08x} after 0x{word_at(memory, words[0]):08x}"


def effects(hart, memory, made):
    """Makes the turn of a hart, and says what it changes."""
    reads, writes = races.touched(hart, memory)
    x, v = list(hart.x), [bytes(register) for register in hart.v]
    first = min([byte & ~3 for byte in reads + writes], default=None)
    before = None if first is None else word_at(memory, first)
    made()
    text = "".join(f"  x{number} 0x{value & MOST:08x}" for number, value in enumerate(hart.x) if value != x[number])
    text += touched_text(memory, reads, writes, before)
    for number, register in enumerate(hart.v):
        if bytes(register) != v[number]:
            text += f"  v{number} 0x{bytes(register)[::-1].hex()}"
    return text + {"finished": "  finished", "running": ""}.get(hart.status, "  trap")


def is_wanted(place, number, word, start, end, hart, touched):
    is_due = start <= place <= end and hart in (None, number)
    return is_due and (word is None or any(byte & ~3 == word for bytes_of in touched for byte in bytes_of))


def trace(image, log, start=0, end=(1 << 64) - 1, hart=None, address=None):
    """The lines of the answer, or of the refusal."""
    try:
        entry, words, data, _ = replays.read_image(image)
        count, runs = replays.read_log(log)
        word = None if address is None else blames.number_of(address)
        if word is not None and (word % 4 or not DATA <= word <= DATA + len(data) - 4):
            raise blames.Refused("refused blame 5")
    except (replays.Refused, blames.Refused) as refusal:
        return [str(refusal)]
    memory = Memory(words, data)
    harts = [Hart(number, count, entry) for number in range(count)]
    lines = []
    for place, number in enumerate(number for number, length in runs for _ in range(length)):
        one = harts[number]
        is_told = is_wanted(place, number, word, start, end, hart, races.touched(one, memory))
        head = f"turn {place} hart {number} pc 0x{one.pc:08x} "
        if one.status != "running":
            line = head + "idle"
            one.turn(memory)
        else:
            # A word that isn't there is listed as 0.
            due = memory.text(one.pc)
            line = head + turns.line_of(due or 0)
            line += effects(one, memory, lambda: one.turn(memory))
        if is_told:
            lines.append(line)
    return lines


def options(start=0, end=(1 << 64) - 1, hart=None, address=None):
    words = ["--from", str(start)] if start else []
    words += ["--to", str(end)] if end < (1 << 64) - 1 else []
    words += ["--hart", str(hart)] if hart is not None else []
    return words + (["--address", address] if address is not None else [])


def case(file, name, image, log, **asked):
    parts = [("image", digits(image)), ("log", digits(log)), ("words", options(**asked))]
    file.case("trace", name, parts if asked else parts[:2], trace(image, log, **asked))


# ---- cases

def asked(file, random):
    """All turns of programs that harts share, and some of them."""
    case(file, "two harts that count", COUNTER, TURNS)
    case(file, "no turn", COUNTER, blames.log_of(2, []))
    case(file, "turns of halted harts", COUNTER, blames.log_of(2, [0] * 6 + [1] * 7))
    case(file, "a trap", blames.trapping(), blames.log_of(1, [0] * 6))
    case(file, "bytes of a word", races.apart(), blames.log_of(3, [0, 1, 2] * 5))
    case(file, "loads", races.reading(), blames.log_of(2, [0, 1] * 5))
    case(file, "from a turn", COUNTER, TURNS, start=3)
    case(file, "to a turn", COUNTER, TURNS, end=2)
    case(file, "one turn", COUNTER, TURNS, start=2, end=2)
    case(file, "turns that the log hasn't", COUNTER, TURNS, start=8)
    case(file, "none between", COUNTER, TURNS, start=4, end=3)
    case(file, "one hart", COUNTER, TURNS, hart=1)
    case(file, "a hart that the log hasn't", COUNTER, TURNS, hart=2)
    case(file, "a word", COUNTER, TURNS, address="0x00200000")
    case(file, "a word, of one hart, to a turn", COUNTER, TURNS, address="2097152", hart=0, end=3)
    for harts in (1, 2, 3, 8):
        case(file, f"lanes, of {harts}", blames.lanes(), blames.log_of(harts, blames.turns_of(random, harts, 15 * harts, 3)))
        for number in range(4):
            log = blames.log_of(harts, blames.turns_of(random, harts, 24 * harts, 2 + 8 * number))
            case(file, f"stores everywhere {number}, of {harts}", blames.scattered(random), log)
            case(file, f"tickets {number}, of {harts}", blames.counted(), log)
            case(file, f"loads of one word {number}, of {harts}", blames.counted(), log, address=f"0x{DATA + 4 * number:08x}")


def refused(file, _):
    """Images, logs and words that are refused, in this order."""
    case(file, "of no image", COUNTER[:30], TURNS)
    case(file, "of no log", COUNTER, TURNS[:15])
    case(file, "of no log and no word", COUNTER, TURNS[:15], address="x")
    for word in ("x", "0x", "2097153", "0x001ffffc", "0x00200004", "18446744073709551616"):
        case(file, f"of the word {word}", COUNTER, TURNS, address=word)
