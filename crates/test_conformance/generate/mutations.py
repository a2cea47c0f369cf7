"""Images and logs with a byte changed, with more bytes or fewer, and with counts beyond all bounds."""

import struct

import replays
from devices import COUNTER, RENEWED, TURNS, digits

# What a changed byte becomes: least and greatest numbers, and the neighbours of what stood there.
VALUES = (0x00, 0x01, 0x7F, 0x80, 0xFF)


def changed(data):
    """Copies with one byte changed, and what they are called."""
    for at, byte in enumerate(data):
        for value in sorted({*VALUES, (byte + 1) % 256, byte ^ 4} - {byte}):
            yield f"byte {at} is {value}", data[:at] + bytes([value]) + data[at + 1:]


def resized(data):
    """Copies that are longer, and what is left of them."""
    yield "twice", data + data
    yield "a byte before", b"\0" + data
    yield "a byte behind", data + b"\0"
    yield "a hundred bytes behind", data + bytes(100)
    yield "the letters alone", data[:4]
    yield "nothing", b""


def with_words(data, at, *numbers):
    return data[:at] + struct.pack(f"<{len(numbers)}I", *numbers) + data[at + 4 * len(numbers):]


def huge_images():
    yield "2^32 - 1 words of text", with_words(COUNTER, 8, 0xFFFFFFFF)
    yield "no word of text", with_words(COUNTER, 8, 0)
    yield "no word of text, and as long as that", with_words(COUNTER, 8, 0)[:32] + bytes(4)
    yield "the most words of text", with_words(COUNTER, 8, 262144)
    yield "a word of text more than the most", with_words(COUNTER, 8, 262145)
    yield "the most bytes of data", with_words(COUNTER, 12, 33554432)
    yield "a byte of data more than the most", with_words(COUNTER, 12, 33554433)
    yield "2^32 - 1 words and bytes", with_words(COUNTER, 8, 0xFFFFFFFF, 0xFFFFFFFF)
    yield "the most bytes of data, of which none is stored", with_words(RENEWED, 12, 33554432)
    yield "2^32 - 1 stored bytes", with_words(RENEWED, 32, 0xFFFFFFFF)
    yield "width and height 65536", with_words(COUNTER, 20, 65536, 65536)
    yield "width 2^32 - 1", with_words(COUNTER, 20, 0xFFFFFFFF)
    yield "height 2^32 - 1", with_words(COUNTER, 24, 0xFFFFFFFF)
    yield "stride 2^32 - 4", with_words(COUNTER, 28, 0xFFFFFFFC)
    yield "an output at the last word of all", with_words(COUNTER, 16, 0xFFFFFFFC)


def run(hart, length):
    return struct.pack("<BQ", hart, length)


def log_of(*runs, count=None, harts=2):
    return b"HRL1" + struct.pack("<IQ", harts, len(runs) if count is None else count) + b"".join(runs)


def huge_logs():
    most = 1 << 40
    yield "a run of 2^40 turns", log_of(run(0, most))
    yield "a run of 2^40 + 1 turns", log_of(run(0, most + 1))
    yield "2^40 turns, and one more behind another hart's", log_of(run(0, most), run(1, 1), run(0, 1))
    yield "a run of 2^64 - 1 turns", log_of(run(0, (1 << 64) - 1))
    yield "2^64 - 1 runs", log_of(run(0, 1), count=(1 << 64) - 1)
    yield "2^61 runs", log_of(run(0, 1), count=1 << 61)
    yield "2^32 - 1 harts", log_of(run(0, 1), harts=0xFFFFFFFF)


def images(file, _):
    for what, image in (("an image", COUNTER), ("an image of the second format", RENEWED)):
        for name, data in (*changed(image), *resized(image)):
            replayed(file, f"{what}: {name}", data, TURNS)
    for name, data in huge_images():
        replayed(file, f"an image: {name}", data, TURNS)


def logs(file, _):
    for name, data in (*changed(TURNS), *resized(TURNS), *huge_logs()):
        replayed(file, f"a log: {name}", COUNTER, data)


def replayed(file, name, image, log):
    file.case("replay", name, [("image", digits(image)), ("log", digits(log))], replays.replay(image, log))


def commands(file, _):
    """The other commands refuse what they read as `replay` does, and write nothing."""
    wrong = [("2^32 - 1 words of text", with_words(COUNTER, 8, 0xFFFFFFFF)), ("no word of text", with_words(COUNTER, 8, 0)),
             ("twice", COUNTER + COUNTER), ("width and height 65536", with_words(COUNTER, 20, 65536, 65536)),
             ("other letters", b"HRV3" + COUNTER[4:]), ("nothing", b"")]
    for name, image in wrong:
        why = replays.replay(image, TURNS)
        lines, turns = ("lines", ["next"]), ("turns", ["100"])
        file.case("dis", f"dis: {name}", [("image", digits(image))], why)
        file.case("renew", f"renew: {name}", [("image", digits(image))], why)
        file.case("run", f"run: {name}", [("image", digits(image)), turns], why)
        file.case("resume", f"resume: {name}", [("image", digits(image)), ("log", digits(TURNS)), turns], why)
        file.case("profile", f"profile: {name}", [("image", digits(image)), ("log", digits(TURNS))], why)
        file.case("debug", f"debug: {name}", [("image", digits(image)), ("log", digits(TURNS)), lines], why)
    for name, log in (*huge_logs(), *resized(TURNS)):
        why = replays.replay(COUNTER, log)
        if why[0].startswith("refused"):
            parts = [("image", digits(COUNTER)), ("log", digits(log))]
            file.case("resume", f"resume: a log: {name}", parts + [("turns", ["100"])], why)
            file.case("profile", f"profile: a log: {name}", parts, why)
            file.case("debug", f"debug: a log: {name}", parts + [("lines", ["next"])], why)
