"""What one instruction changes, behind a program that reaches it."""

import rows
from hart import DATA, TEXT, Hart, Memory


class Before:
    """A program as lines and as words, and its data as words."""

    def __init__(self, data=()):
        self.lines, self.words, self.data = [], [], list(data)

    def row(self, name, **fields):
        r = rows.BY_NAME[name]
        self.lines.append(rows.line(r, fields))
        self.words.append(rows.encode(r, fields))

    def li(self, register, value):
        value &= 0xFFFFFFFF
        upper = ((value + 0x800) >> 12) & 0xFFFFF
        low = (value & 0xFFF) - (0x1000 if value & 0x800 else 0)
        self.lines.append(f"li x{register},0x{value:x}")
        self.words.append(rows.encode(rows.BY_NAME["lui"], {"rd": register, "imm_u": upper}))
        self.words.append(rows.encode(rows.BY_NAME["addi"], {"rd": register, "rs1": register, "imm_i": low}))

    def vectors(self, values):
        """Loads vector registers from the front of data, 16 bytes each."""
        self.row("vsetivli", rd=0, length=16, vtype10=0)
        self.li(31, DATA)
        for register, value in values:
            self.row("vle8.v", vd=register, rs1=31, vm=1)
            self.row("addi", rd=31, rs1=31, imm_i=16)
            self.data += [int.from_bytes(value[at:at + 4], "little") for at in range(0, 16, 4)]

    def text(self):
        data = [".data"] + [f".word 0x{word:08x}" for word in self.data] if self.data else []
        return self.lines + data


def line_of(word):
    found = rows.decode(word)
    return rows.line(*found) if found else f".word 0x{word:08x}"


def changes(before, word):
    """What the word changes, as lines."""
    data = b"".join(value.to_bytes(4, "little") for value in before.data)
    memory, hart = Memory(before.words + [word], data), Hart()
    for _ in before.words:
        hart.turn(memory)
    assert hart.status == "running" and hart.pc == TEXT + 4 * len(before.words), (before.lines, hart.status)
    old_x, old_v, old_c, old_pc = list(hart.x), [bytes(v) for v in hart.v], (hart.vl, hart.vtype), hart.pc
    old_data = bytes(memory.data)
    hart.turn(memory)
    lines = [f"  x{r} 0x{value:08x}" for r, value in enumerate(hart.x) if value != old_x[r]]
    if (hart.vl, hart.vtype) != old_c:
        lines.append(f"  vl {hart.vl} vtype 0x{hart.vtype:08x}")
    lines += [f"  v{r} {bytes(value).hex()}" for r, value in enumerate(hart.v) if bytes(value) != old_v[r]]
    if hart.status != "running" or hart.pc != old_pc + 4:
        lines.append(f"  {hart.status} pc 0x{hart.pc:08x}")
    for at in range(0, len(data), 4):
        if memory.data[at:at + 4] != old_data[at:at + 4]:
            lines.append(f"  0x{DATA + at:08x} 0x{int.from_bytes(memory.data[at:at + 4], 'little'):08x}")
    return lines


def turn_case(file, name, before, words):
    answer = []
    for word in words:
        answer += [line_of(word)] + changes(before, word)
    file.case("turn", name, [("before", before.text()), ("instructions", [line_of(word) for word in words])], answer)


def word(name, **fields):
    r = rows.BY_NAME[name]
    assert set(fields) == set(r.shape), (name, fields)
    return rows.encode(r, fields)


CORNERS = [0, 1, 7, 0x1F, 0x21, 0x7FFFFFFF, 0x80000000, 0xFFFFFFFF, 0xFFFFFFF9, 0x12345678, 0x9ABCDEF0]
ALU = [r for r in rows.SCALAR if r.shape == ("rd", "rs1", "rs2")]
ALU_IMMEDIATE = [r for r in rows.SCALAR if r.shape == ("rd", "rs1", "imm_i")]
SHIFT = [r for r in rows.SCALAR if r.shape == ("rd", "rs1", "amount")]
BRANCH = [r for r in rows.SCALAR if r.shape == ("rs1", "rs2", "imm_b")]
LOAD = [r for r in rows.SCALAR if r.shape == ("rd", "imm_i", "rs1") and r.name != "jalr"]
STORE = [r for r in rows.SCALAR if r.shape == ("rs2", "imm_s", "rs1")]
ATOMIC = [r for r in rows.SCALAR if r.name.startswith("amoadd")]


def registers(**values):
    before = Before()
    for name, value in values.items():
        before.li(int(name[1:]), value)
    return before


def scalars(file, random):
    pairs = [(a, b) for a in CORNERS for b in CORNERS] + [(random.getrandbits(32), random.getrandbits(32)) for _ in range(24)]
    for a, b in pairs:
        words = [rows.encode(r, {"rd": 7, "rs1": 5, "rs2": 6}) for r in ALU]
        words += [rows.encode(r, {"rs1": 5, "rs2": 6, "imm_b": random.choice([-8, 4, 8, 4092])}) for r in BRANCH]
        turn_case(file, f"operations on {a:08x} {b:08x}", registers(x5=a, x6=b), words)
    for a in CORNERS + [random.getrandbits(32) for _ in range(8)]:
        words = []
        for r in ALU_IMMEDIATE:
            words += [rows.encode(r, {"rd": 7, "rs1": 5, "imm_i": imm}) for imm in (-2048, -1, 0, 1, random.randint(-2048, 2047), 2047)]
        for r in SHIFT:
            words += [rows.encode(r, {"rd": 7, "rs1": 5, "amount": amount}) for amount in (0, 1, random.randint(2, 30), 31)]
        words += [word("jalr", rd=rd, rs1=5, imm_i=imm) for rd in (0, 1, 5) for imm in (-2048, -1, 0, 1, 2, 3, 4, 2047)]
        turn_case(file, f"immediates on {a:08x}", registers(x5=a), words)
    words = [word(name, rd=rd, imm_u=imm) for name in ("lui", "auipc") for rd in (0, 7) for imm in (0, 1, 0x7FFFF, 0x80000, 0xFFFFF)]
    words += [word("jal", rd=rd, imm_j=imm) for rd in (0, 1) for imm in (-1048576, -4, -2, 0, 2, 4, 6, 1048572, 1048574)]
    words += [word("fence"), word("ecall"), word("ebreak")]
    words += [word("beq", rs1=0, rs2=0, imm_b=imm) for imm in (-4096, -4094, -2, 0, 2, 4, 6, 4094)]
    words += [word("bne", rs1=0, rs2=0, imm_b=imm) for imm in (-2, 2, 6)]
    words += [rows.encode(r, {"rd": 0, "rs1": 10, "rs2": 11}) for r in ALU]
    turn_case(file, "jumps, uppers and words without operands", registers(x5=0), words)


def illegal(file, random):
    """Words beside the rows: each row with one of its fixed bits turned, where no row has that."""
    words = []
    for r in rows.ROWS:
        fields = rows.random_fields(random, r)
        for bit in random.sample([b for b in range(2, 32) if r.mask >> b & 1], 3):
            other = rows.encode(r, fields) ^ 1 << bit
            if rows.decode(other) is None:
                words.append(other)
    words += [0, 0xFFFFFFFF, 0x0000100F, 0x0330000F, 0x8330000F, 0x0FF0008F, 0x00200073, 0x30200073, 0xC0002573, 0x1002A3AF]
    for at in range(0, len(words), 50):
        turn_case(file, f"no instruction {at // 50}", registers(x5=DATA), words[at:at + 50])


def memories(file, random):
    data = [0x84838281, 0x7F6E5D4C, 0x00FF80FE, 0x12345678]
    places = [0, 1, TEXT - 4, TEXT, TEXT + 2, TEXT + 4, DATA - 4, DATA - 1, DATA, DATA + 2, DATA + 4, DATA + 12, DATA + 13, DATA + 14,
              DATA + 15, DATA + 16, 0xFFFFFFFC, 0xFFFFFFFF]
    for place in places:
        before = Before(data)
        before.li(5, place)
        before.li(6, 0xC7D6E5F4)
        words = [rows.encode(r, {"rd": 7, "rs1": 5, "imm_i": imm}) for r in LOAD for imm in (0, 1)]
        words += [rows.encode(r, {"rs2": 6, "rs1": 5, "imm_s": imm}) for r in STORE for imm in (0, -1)]
        words += [rows.encode(r, {"rd": 7, "rs2": 6, "rs1": 5}) for r in ATOMIC]
        words += [word("amoadd.w", rd=0, rs2=5, rs1=5), word("amoadd.w", rd=5, rs2=6, rs1=5), word("lw", rd=0, imm_i=0, rs1=5)]
        turn_case(file, f"memory at {place:08x}", before, words)
    before = Before(data)
    before.li(5, DATA + 8)
    turn_case(file, "offsets", before, [word("lw", rd=7, imm_i=imm, rs1=5) for imm in (-8, -4, 0, 4, 8, -12, 2047, -2048)]
              + [word("sw", rs2=5, imm_s=imm, rs1=5) for imm in (-8, -4, 0, 4, 8, -12, 2047, -2048)])


def random_vector(random, bits):
    """Elements of a width, corners among them."""
    top = (1 << bits) - 1
    corners = [0, 1, top, top - 1, 1 << bits - 1, (1 << bits - 1) - 1, 7, bits - 1, bits, top - 6]
    elements = [random.choice(corners) if random.random() < 0.5 else random.getrandbits(bits) for _ in range(128 // bits)]
    return b"".join(value.to_bytes(bits // 8, "little") for value in elements)


PLAIN = [r for r in rows.VECTOR if r.base & 0x7F == 0b1010111 and not r.name.startswith("vset")]


def plain_words(r, random, **own):
    """The row with v3 or x7 as its destination and v2, v1, x6 or an immediate as its operands, with and without a mask."""
    for vm in (1, 0) if "vm" in r.shape else (1,):
        fields = {"vd": 3, "rd": 7, "vs2": 2, "vs1": 1, "rs1": 6, "imm5": random.choice([-16, -1, 0, 1, 15, random.randint(-16, 15)]),
                  "uimm5": random.choice([0, 1, 7, 8, 15, 16, 31, random.randint(0, 31)]), "vm": vm, **own}
        yield rows.encode(r, {field: fields[field] for field in r.shape})


def vector_state(random, bits, length, scalar):
    before = Before()
    mask = bytes(random.getrandbits(8) for _ in range(16))
    before.vectors([(0, mask)] + [(register, random_vector(random, bits)) for register in (1, 2, 3)])
    before.li(6, scalar)
    before.row("vsetivli", rd=0, length=length, vtype10={8: 0, 16: 8, 32: 16}[bits])
    return before


def vectors(file, random):
    for bits in (8, 16, 32):
        most = 128 // bits
        for length in (most, most, most - 1, 1, 0):
            scalar = random.choice([0, 1, 0xFFFFFFFF, 0x80000000, 0xFEDC8385, random.getrandbits(32)])
            before = vector_state(random, bits, length, scalar)
            words = [w for r in PLAIN for w in plain_words(r, random)]
            turn_case(file, f"e{bits} vl {length} {len(file.names)}", before, words)
        before = vector_state(random, bits, most - 1, 5)
        # Destinations that are the mask or an operand.
        words = [w for r in PLAIN for w in plain_words(r, random, vd=0)]
        words += [w for r in PLAIN if "vd" in r.shape for own in ({"vd": 2}, {"vd": 1}, {"vs2": 0}, {"vs1": 0})
                  for w in plain_words(r, random, **own) if random.random() < 0.4]
        turn_case(file, f"e{bits} mask and operands as destinations", before, words)
    before = Before()
    before.li(6, 5)
    turn_case(file, "no configuration", before, [w for r in PLAIN for w in plain_words(r, random)])
    configurations(file, random)


def configurations(file, random):
    vtypes = [0, 8, 16, 0x40, 0x88, 0xD0, 1, 2, 9, 10, 17, 18, 0xD1, 3, 4, 5, 6, 7, 0x18, 0x19, 0x38, 0x100, 0x3FF]
    for bits in (0, 8, 16, 32):
        for asked in (0, 3, 16, 0xFFFFFFFF):
            before = Before()
            before.li(6, asked)
            if bits:
                before.row("vsetivli", rd=0, length=2, vtype10={8: 0, 16: 8, 32: 16}[bits])
            words = [word("vsetvli", rd=rd, rs1=rs1, vtype11=vtype) for vtype in vtypes + [0x400, 0x7FF] for rd, rs1 in ((7, 6), (0, 0))]
            words += [word("vsetvli", rd=rd, rs1=rs1, vtype11=8) for rd, rs1 in ((0, 6), (7, 0), (6, 6))]
            words += [word("vsetivli", rd=rd, length=length, vtype10=vtype) for vtype in vtypes for rd, length in ((7, 5), (0, 31))]
            turn_case(file, f"configurations from e{bits} with {asked:x}", before, words)
    for vtype in (0, 8, 16, 0xC0, 0x100, 0x80000000, 0x80000010, 0xFFFFFFFF, 0x01000000):
        for first in (0, 16):
            before = Before()
            before.li(6, 3)
            before.li(8, vtype)
            before.row("vsetivli", rd=0, length=2, vtype10=first)
            words = [word("vsetvl", rd=rd, rs1=rs1, rs2=8) for rd, rs1 in ((7, 6), (0, 0), (7, 0), (0, 6))]
            turn_case(file, f"vsetvl of {vtype:08x} from {first}", before, words)


MOVES = [r for r in rows.VECTOR if r.base & 0x7F in (0b0000111, 0b0100111)]


def group_state(random, bits, code, length, registers):
    """Registers that hold elements, a mask, an index, and a configuration of groups of 1, 2 or 4 registers."""
    before = Before()
    before.vectors([(0, bytes(random.getrandbits(8) for _ in range(16)))] + [(r, random_vector(random, bits)) for r in registers])
    before.li(6, random.getrandbits(32))
    before.li(5, length)
    before.row("vsetvli", rd=0, rs1=5, vtype11={8: 0, 16: 8, 32: 16}[bits] | code)
    return before


def groups(file, random):
    """The rows on groups of registers, some of which begin inside another group or are an operand."""
    for code in (1, 2):
        size = 1 << code
        for bits in (8, 16, 32):
            most = 128 * size // bits
            for length in (most, most - 1, most // size + 1, 1, 0):
                before = group_state(random, bits, code, length, range(4, 16))
                words = [w for r in PLAIN for w in plain_words(r, random, vd=12, vs2=4, vs1=8)]
                words += [w for r in PLAIN for own in ({"vd": 4}, {"vd": 8}, {"vd": 13}, {"vs2": 5}, {"vs1": 10 if code == 2 else 9}, {"vd": 0})
                          for w in plain_words(r, random, **{"vd": 12, "vs2": 4, "vs1": 8, **own}) if random.random() < 0.15]
                turn_case(file, f"e{bits} m{size} vl {length}", before, words)


def group_memories(file, random):
    """Loads and stores of each width in groups and in parts of registers."""
    for code in (0, 1, 2):
        size = 1 << code
        for bits in (8, 16, 32):
            most = 128 * size // bits
            for length, start, stride in [(most, 128, 4), (most - 1, 192, -4 & 0xFFFFFFFF), (most // 2 + 1, 128, 3), (0, 1, 1)]:
                before = group_state(random, bits, code, length, range(4, 16))
                before.data += [random.getrandbits(32) for _ in range(96 - len(before.data))]
                before.li(7, DATA + start)
                before.li(9, stride)
                words = []
                for r in MOVES:
                    for vd in (12, 8, 13, 14, 0):
                        fields = {"vd": vd, "rs1": 7, "rs2": 9, "vs2": 4, "vm": 1 if random.random() < 0.6 else 0}
                        if vd == 12 or random.random() < 0.4:
                            words.append(rows.encode(r, {field: fields[field] for field in r.shape}))
                turn_case(file, f"moves at e{bits} m{size} vl {length} from {start}", before, words)


def moved_words(bits, vd):
    """The rows of a width, and those with indexes of any width, with and without a mask."""
    fields = {"vd": vd, "rs1": 6, "rs2": 8, "vs2": 2}
    for r in MOVES:
        if f"e{bits}.v" in r.name or f"i{bits}.v" in r.name or "vs2" in r.shape:
            for vm in (1, 0):
                yield rows.encode(r, {field: {**fields, "vm": vm}[field] for field in r.shape})


def vector_memories(file, random):
    for bits in (8, 16, 32):
        most, size = 128 // bits, bits // 8
        # How many elements, from which byte of data, by how many bytes, and how far the indexes go.
        for length, start, stride, spread in [
                (most, 64, size, 1), (most, 64, 0, 0), (most, 64, -size & 0xFFFFFFFF, 1), (most - 1, 64, 2 * size, 3),
                (most, 64, 1, 1), (most, 65, size, 1), (most, 124, size, 1), (1, 64, 4, 1), (0, 1, 1, 9), (most, 112, size, 1),
                (most, 48, 0x7FFFFFFC, 5)]:
            before = Before()
            mask = bytes(random.getrandbits(8) for _ in range(16))
            indexes = [random.randrange(16 * spread + 1) * random.choice([size] * 9 + [1]) % (1 << bits) for _ in range(most)]
            index = b"".join(value.to_bytes(size, "little") for value in indexes)
            before.vectors([(0, mask), (2, index), (3, random_vector(random, bits))])
            before.data += [random.getrandbits(32) for _ in range(32 - len(before.data))]
            before.li(6, DATA + start)
            before.li(8, stride)
            before.row("vsetivli", rd=0, length=length, vtype10={8: 0, 16: 8, 32: 16}[bits])
            words = list(moved_words(bits, 3)) + list(moved_words(bits, 0))
            turn_case(file, f"e{bits} vl {length} from {start} by {stride:x} {len(file.names)}", before, words)


def assembled(file, random):
    """Each row's lines and words, on random operands."""
    for r in rows.ROWS:
        lines, words = [], []
        for _ in range(6):
            fields = rows.random_fields(random, r)
            w = rows.encode(r, fields)
            lines.append(rows.line(r, fields))
            words.append(w)
        answer = ["entry 0x00010000"]
        while words:
            count = next((i for i, w in enumerate(words) if w != words[0]), len(words))
            answer.append(f"word 0x{words[0]:08x}" + (f" x {count}" if count > 1 else ""))
            words = words[count:]
        file.case("assemble", r.name, [("text", lines)], answer)
