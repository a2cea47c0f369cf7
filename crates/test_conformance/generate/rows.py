"""The instruction table: each row's mnemonic, its bits, and the operands of its line.

A row is `Row(name, operands, base, mask)`: `operands` names the fields in the order of a line, and `base` are the bits that
are fixed. `encode` puts fields into a word, `decode` finds the row of a word and its fields, `line` spells both.
"""

from dataclasses import dataclass


@dataclass(frozen=True)
class Row:
    name: str
    shape: tuple  # the fields of a line, in its order
    base: int
    mask: int  # the bits that are fixed


# Where a field's bits lie: (high bit, low bit, high bit of the value), most significant part first.
PLACES = {
    "rd": [(11, 7, 4)],
    "rs1": [(19, 15, 4)],
    "rs2": [(24, 20, 4)],
    "vd": [(11, 7, 4)],
    "vs1": [(19, 15, 4)],
    "vs2": [(24, 20, 4)],
    "amount": [(24, 20, 4)],
    "imm_i": [(31, 20, 11)],
    "imm_s": [(31, 25, 11), (11, 7, 4)],
    "imm_b": [(31, 31, 12), (7, 7, 11), (30, 25, 10), (11, 8, 4)],
    "imm_u": [(31, 12, 19)],
    "imm_j": [(31, 31, 20), (19, 12, 19), (20, 20, 11), (30, 21, 10)],
    "imm5": [(19, 15, 4)],
    "uimm5": [(19, 15, 4)],
    "length": [(19, 15, 4)],
    "vtype11": [(30, 20, 10)],
    "vtype10": [(29, 20, 9)],
    "vm": [(25, 25, 0)],
}
SIGNED = {"imm_i": 12, "imm_s": 12, "imm_b": 13, "imm_j": 21, "imm5": 5}
RANGES = {
    "amount": (0, 31), "imm_i": (-2048, 2047), "imm_s": (-2048, 2047), "imm_b": (-4096, 4094), "imm_u": (0, 0xFFFFF),
    "imm_j": (-1048576, 1048574), "imm5": (-16, 15), "uimm5": (0, 31), "length": (0, 31), "vtype11": (0, 2047),
    "vtype10": (0, 1023), "vm": (0, 1),
}
EVEN = ("imm_b", "imm_j")


def span(high, low):
    return ((1 << (high - low + 1)) - 1) << low


def row(name, shape, *fixed):
    """A row whose fixed bits are given as (high, low, value)."""
    base = mask = 0
    for high, low, value in fixed:
        base |= value << low
        mask |= span(high, low)
    covered = mask
    for field in shape:
        for high, low, _ in PLACES[field]:
            assert covered & span(high, low) == 0, (name, field)
            covered |= span(high, low)
    assert covered == 0xFFFFFFFF, (name, hex(covered))
    return Row(name, tuple(shape), base, mask)


def scalar_rows():
    def opcode(value):
        return (6, 0, value)

    def funct3(value):
        return (14, 12, value)

    def funct7(value):
        return (31, 25, value)

    yield row("lui", ["rd", "imm_u"], opcode(0b0110111))
    yield row("auipc", ["rd", "imm_u"], opcode(0b0010111))
    yield row("jal", ["rd", "imm_j"], opcode(0b1101111))
    yield row("jalr", ["rd", "imm_i", "rs1"], opcode(0b1100111), funct3(0))
    for name, key in [("beq", 0), ("bne", 1), ("blt", 4), ("bge", 5), ("bltu", 6), ("bgeu", 7)]:
        yield row(name, ["rs1", "rs2", "imm_b"], opcode(0b1100011), funct3(key))
    for name, key in [("lb", 0), ("lh", 1), ("lw", 2), ("lbu", 4), ("lhu", 5)]:
        yield row(name, ["rd", "imm_i", "rs1"], opcode(0b0000011), funct3(key))
    for name, key in [("sb", 0), ("sh", 1), ("sw", 2)]:
        yield row(name, ["rs2", "imm_s", "rs1"], opcode(0b0100011), funct3(key))
    for name, key in [("addi", 0), ("slti", 2), ("sltiu", 3), ("xori", 4), ("ori", 6), ("andi", 7)]:
        yield row(name, ["rd", "rs1", "imm_i"], opcode(0b0010011), funct3(key))
    for name, key, high in [("slli", 1, 0), ("srli", 5, 0), ("srai", 5, 0b0100000)]:
        yield row(name, ["rd", "rs1", "amount"], opcode(0b0010011), funct3(key), funct7(high))
    operations = [("add", 0, 0), ("sub", 0, 32), ("sll", 1, 0), ("slt", 2, 0), ("sltu", 3, 0), ("xor", 4, 0), ("srl", 5, 0),
                  ("sra", 5, 32), ("or", 6, 0), ("and", 7, 0), ("mul", 0, 1), ("mulh", 1, 1), ("mulhsu", 2, 1),
                  ("mulhu", 3, 1), ("div", 4, 1), ("divu", 5, 1), ("rem", 6, 1), ("remu", 7, 1)]
    for name, key, high in operations:
        yield row(name, ["rd", "rs1", "rs2"], opcode(0b0110011), funct3(key), funct7(high))
    for name, word in [("fence", 0x0FF0000F), ("ecall", 0x00000073), ("ebreak", 0x00100073)]:
        yield row(name, [], (31, 0, word))
    for name, bits in [("amoadd.w", 0), ("amoadd.w.aq", 2), ("amoadd.w.rl", 1), ("amoadd.w.aqrl", 3)]:
        yield row(name, ["rd", "rs2", "rs1"], opcode(0b0101111), funct3(2), (31, 27, 0), (26, 25, bits))


OPIVV, OPMVV, OPIVI, OPIVX, OPMVX, OPCFG = 0, 2, 3, 4, 6, 7
INTEGER_ROWS = [
    ("vadd", 0b000000, "VXI"), ("vsub", 0b000010, "VX"), ("vrsub", 0b000011, "XI"), ("vminu", 0b000100, "VX"),
    ("vmin", 0b000101, "VX"), ("vmaxu", 0b000110, "VX"), ("vmax", 0b000111, "VX"), ("vand", 0b001001, "VXI"),
    ("vor", 0b001010, "VXI"), ("vxor", 0b001011, "VXI"), ("vmseq", 0b011000, "VXI"), ("vmsne", 0b011001, "VXI"),
    ("vmsltu", 0b011010, "VX"), ("vmslt", 0b011011, "VX"), ("vmsleu", 0b011100, "VXI"), ("vmsle", 0b011101, "VXI"),
    ("vmsgtu", 0b011110, "XI"), ("vmsgt", 0b011111, "XI"), ("vsll", 0b100101, "VXI"), ("vsrl", 0b101000, "VXI"),
    ("vsra", 0b101001, "VXI"),
]
MULTIPLY_ROWS = [("vdivu", 0b100000), ("vdiv", 0b100001), ("vremu", 0b100010), ("vrem", 0b100011), ("vmulhu", 0b100100),
                 ("vmul", 0b100101), ("vmulhsu", 0b100110), ("vmulh", 0b100111)]
REDUCTION_ROWS = [("vredsum", 0b000000), ("vredminu", 0b000100), ("vredmin", 0b000101), ("vredmaxu", 0b000110),
                  ("vredmax", 0b000111)]
SHIFTS = ("vsll", "vsrl", "vsra")


def vector_rows():
    def fixed(kind, funct6):
        return [(6, 0, 0b1010111), (14, 12, kind), (31, 26, funct6)]

    for name, key, forms in INTEGER_ROWS:
        if "V" in forms:
            yield row(name + ".vv", ["vd", "vs2", "vs1", "vm"], *fixed(OPIVV, key))
        if "X" in forms:
            yield row(name + ".vx", ["vd", "vs2", "rs1", "vm"], *fixed(OPIVX, key))
        if "I" in forms:
            immediate = "uimm5" if name in SHIFTS else "imm5"
            yield row(name + ".vi", ["vd", "vs2", immediate, "vm"], *fixed(OPIVI, key))
    for name, key in MULTIPLY_ROWS:
        yield row(name + ".vv", ["vd", "vs2", "vs1", "vm"], *fixed(OPMVV, key))
        yield row(name + ".vx", ["vd", "vs2", "rs1", "vm"], *fixed(OPMVX, key))
    for name, key in REDUCTION_ROWS:
        yield row(name + ".vs", ["vd", "vs2", "vs1", "vm"], *fixed(OPMVV, key))
    for form, kind, field in [("v", OPIVV, "vs1"), ("x", OPIVX, "rs1"), ("i", OPIVI, "imm5")]:
        yield row(f"vmerge.v{form}m", ["vd", "vs2", field], (25, 25, 0), *fixed(kind, 0b010111))
        yield row(f"vmv.v.{form}", ["vd", field], (25, 25, 1), (24, 20, 0), *fixed(kind, 0b010111))
    yield row("vmv.x.s", ["rd", "vs2"], (25, 25, 1), (19, 15, 0), *fixed(OPMVV, 0b010000))
    yield row("vmv.s.x", ["vd", "rs1"], (25, 25, 1), (24, 20, 0), *fixed(OPMVX, 0b010000))
    yield row("vid.v", ["vd", "vm"], (24, 20, 0), (19, 15, 0b10001), *fixed(OPMVV, 0b010100))
    configuration = [(6, 0, 0b1010111), (14, 12, OPCFG)]
    yield row("vsetvli", ["rd", "rs1", "vtype11"], (31, 31, 0), *configuration)
    yield row("vsetivli", ["rd", "length", "vtype10"], (31, 30, 0b11), *configuration)
    yield row("vsetvl", ["rd", "rs1", "rs2"], (31, 25, 0b1000000), *configuration)
    for bits, key in [(8, 0b000), (16, 0b101), (32, 0b110)]:
        for letter, opcode in [("l", 0b0000111), ("s", 0b0100111)]:
            memory = [(6, 0, opcode), (14, 12, key), (31, 28, 0)]
            yield row(f"v{letter}e{bits}.v", ["vd", "rs1", "vm"], (27, 26, 0b00), (24, 20, 0), *memory)
            yield row(f"v{letter}se{bits}.v" if letter == "l" else f"vsse{bits}.v", ["vd", "rs1", "rs2", "vm"],
                      (27, 26, 0b10), *memory)
            yield row(f"v{letter}uxei{bits}.v", ["vd", "rs1", "vs2", "vm"], (27, 26, 0b01), *memory)
    yield row("vzext.vf4", ["vd", "vs2", "vm"], (19, 15, 0b00100), *fixed(OPMVV, 0b010010))


SCALAR = list(scalar_rows())
VECTOR = list(vector_rows())
ROWS = SCALAR + VECTOR
BY_NAME = {r.name: r for r in ROWS}
assert len(BY_NAME) == len(ROWS)


def encode(r, fields):
    word = r.base
    for field, value in fields.items():
        value &= 0xFFFFFFFF
        for high, low, top in PLACES[field]:
            count = high - low + 1
            part = (value >> (top - count + 1)) & ((1 << count) - 1)
            word |= part << low
    return word


def take(word, field):
    value = 0
    for high, low, top in PLACES[field]:
        count = high - low + 1
        value |= ((word & span(high, low)) >> low) << (top - count + 1)
    bits = SIGNED.get(field)
    if bits and value >> (bits - 1):
        value -= 1 << bits
    return value


def decode(word):
    """The row of a word and its fields, or None."""
    for r in ROWS:
        if word & r.mask == r.base:
            return r, {field: take(word, field) for field in r.shape}
    return None


def vtype_text(value, digits=3):
    if value < 0x100 and value & 7 <= 2 and value >> 3 & 7 <= 2:
        names = ["e8", "e16", "e32"][value >> 3 & 7], ["m1", "m2", "m4"][value & 7]
        return ",".join(names + ("ta" if value & 0x40 else "tu", "ma" if value & 0x80 else "mu"))
    return f"0x{value:03x}"


def operand(field, value):
    if field in ("rd", "rs1", "rs2"):
        return f"x{value}"
    if field in ("vd", "vs1", "vs2"):
        return f"v{value}"
    if field == "imm_u":
        return f"0x{value:05x}"
    if field in ("vtype11", "vtype10"):
        return vtype_text(value)
    return str(value)


def line(r, fields):
    """The line of a word, as a listing has it."""
    parts = []
    memory = r.base & 0x7F in (0b0000111, 0b0100111)
    scalar_memory = r.shape[1:] in (("imm_i", "rs1"), ("imm_s", "rs1"))
    atomic = r.name.startswith("amoadd")
    if scalar_memory:
        parts = [operand(r.shape[0], fields[r.shape[0]]), f"{fields[r.shape[1]]}(x{fields['rs1']})"]
    else:
        for field in r.shape:
            if field == "vm":
                if not fields["vm"]:
                    parts.append("v0.t")
            elif field == "rs1" and (memory or atomic):
                parts.append(f"(x{fields['rs1']})")
            else:
                parts.append(operand(field, fields[field]))
    if r.name.startswith("vmerge"):
        parts.append("v0")
    return r.name + (" " + ",".join(parts) if parts else "")


def random_fields(random, r):
    fields = {}
    for field in r.shape:
        low, high = RANGES.get(field, (0, 31))
        kind = random.randrange(4)
        value = low if kind == 0 else high if kind == 1 else random.randint(low, high)
        fields[field] = value & ~1 if field in EVEN else value
    return fields
