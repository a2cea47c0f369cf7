"""Harts over one memory, one turn at a time, as the standard and docs/MACHINE.md have them."""

import rows

TEXT, DATA = 0x00010000, 0x00200000
MOST = 0xFFFFFFFF
VILL = 0x80000000


class Trap(Exception):
    def __init__(self, number):
        self.number = number


def signed(value, bits=32):
    value &= (1 << bits) - 1
    return value - (1 << bits) if value >> (bits - 1) else value


def divide(a, b, bits, is_signed, wants_rest):
    """Quotient or remainder of two words of so many bits."""
    if is_signed:
        a, b = signed(a, bits), signed(b, bits)
    if b == 0:
        quotient, rest = -1, a
    else:
        quotient = abs(a) // abs(b)
        if (a < 0) != (b < 0):
            quotient = -quotient
        rest = a - quotient * b
    return (rest if wants_rest else quotient) & ((1 << bits) - 1)


def multiply(name, a, b, bits):
    """`a` is rs1 of a scalar row, or vs2 of a vector row: the signed one of mulhsu."""
    if name == "mul":
        return a * b & ((1 << bits) - 1)
    left = signed(a, bits) if name in ("mulh", "mulhsu") else a
    right = signed(b, bits) if name == "mulh" else b
    return (left * right >> bits) & ((1 << bits) - 1)


class Memory:
    def __init__(self, words, data):
        self.words, self.data = words, bytearray(data)

    def text(self, address):
        if address % 4 == 0 and TEXT <= address < TEXT + 4 * len(self.words):
            return self.words[(address - TEXT) // 4]
        return None

    def read(self, address, count, misaligned=4):
        if address % count:
            raise Trap(misaligned)
        if TEXT <= address and address + count <= TEXT + 4 * len(self.words):
            word = self.words[(address - TEXT) // 4]
            return word >> 8 * (address % 4) & ((1 << 8 * count) - 1)
        if DATA <= address and address + count <= DATA + len(self.data):
            at = address - DATA
            return int.from_bytes(self.data[at:at + count], "little")
        raise Trap(misaligned + 1)

    def check_store(self, address, count):
        if address % count:
            raise Trap(6)
        if not (DATA <= address and address + count <= DATA + len(self.data)):
            raise Trap(7)

    def write(self, address, count, value):
        self.check_store(address, count)
        at = address - DATA
        self.data[at:at + count] = (value & ((1 << 8 * count) - 1)).to_bytes(count, "little")


class Hart:
    def __init__(self, number=0, count=1, entry=TEXT):
        self.pc, self.x, self.v = entry, [0] * 32, [bytearray(16) for _ in range(32)]
        self.x[10], self.x[11] = number, count
        self.vl, self.vtype, self.status, self.turns = 0, VILL, "running", 0

    def set_x(self, number, value):
        if number:
            self.x[number] = value & MOST

    def turn(self, memory):
        self.turns += 1
        if self.status != "running":
            return
        try:
            self.step(memory)
        except Trap as trap:
            self.status = f"trap {trap.number}"

    def step(self, memory):
        word = memory.text(self.pc)
        if word is None:
            raise Trap(2)
        found = rows.decode(word)
        if found is None:
            raise Trap(1)
        row, fields = found
        if row in rows.VECTOR:
            self.vector(row.name, fields, memory)
            self.pc = self.pc + 4 & MOST
        else:
            self.scalar(row.name, fields, memory)

    def scalar(self, name, f, memory):
        after = self.pc + 4 & MOST
        target = None
        a = self.x[f["rs1"]] if "rs1" in f else None
        b = self.x[f["rs2"]] if "rs2" in f else None
        if name == "lui":
            self.set_x(f["rd"], f["imm_u"] << 12)
        elif name == "auipc":
            self.set_x(f["rd"], self.pc + (f["imm_u"] << 12))
        elif name == "jal":
            target = self.pc + f["imm_j"] & MOST
        elif name == "jalr":
            target = a + f["imm_i"] & MOST & ~1
        elif name in BRANCHES:
            if BRANCHES[name](a, b):
                target = self.pc + f["imm_b"] & MOST
        elif name in ("lb", "lh", "lw", "lbu", "lhu"):
            count = {"b": 1, "h": 2, "w": 4}[name[1]]
            value = memory.read(a + f["imm_i"] & MOST, count)
            self.set_x(f["rd"], value if name.endswith("u") else signed(value, 8 * count))
        elif name in ("sb", "sh", "sw"):
            memory.write(a + f["imm_s"] & MOST, {"b": 1, "h": 2, "w": 4}[name[1]], b)
        elif name in ("addi", "slti", "sltiu", "xori", "ori", "andi"):
            self.set_x(f["rd"], OPERATIONS[name[:-1] if name != "sltiu" else "sltu"](a, f["imm_i"] & MOST))
        elif name in ("slli", "srli", "srai"):
            self.set_x(f["rd"], OPERATIONS[name[:-1]](a, f["amount"]))
        elif name in OPERATIONS:
            self.set_x(f["rd"], OPERATIONS[name](a, b))
        elif name.startswith("amoadd.w"):
            if a % 4:
                raise Trap(6)
            memory.check_store(a, 4)
            old = memory.read(a, 4)
            memory.write(a, 4, old + b)
            self.set_x(f["rd"], old)
        elif name == "ecall":
            self.status = "finished"
            return
        elif name == "ebreak":
            raise Trap(8)
        else:
            assert name == "fence"
        if target is not None:
            if target % 4:
                raise Trap(3)
            if "rd" in f:
                self.set_x(f["rd"], after)
            after = target
        self.pc = after

    # vectors

    def width(self):
        return 8 << (self.vtype >> 3 & 7)

    def group(self):
        """How many registers an operand has: LMUL."""
        return 1 << (self.vtype & 7)

    def most(self):
        return 128 * self.group() // self.width()

    def element(self, register, index, bits):
        """An element of the registers from one on, as if they were one."""
        register, index = register + index // (128 // bits), index % (128 // bits)
        count = bits // 8
        return int.from_bytes(self.v[register][index * count:(index + 1) * count], "little")

    def put(self, register, index, bits, value):
        register, index = register + index // (128 // bits), index % (128 // bits)
        count = bits // 8
        self.v[register][index * count:(index + 1) * count] = (value & ((1 << bits) - 1)).to_bytes(count, "little")

    def mask(self, index):
        return self.v[0][index // 8] >> index % 8 & 1

    def active(self, f):
        return [i for i in range(self.vl) if f.get("vm", 1) or self.mask(i)]

    def configure(self, name, f):
        vtype = {"vsetvli": lambda: f["vtype11"], "vsetivli": lambda: f["vtype10"], "vsetvl": lambda: self.x[f["rs2"]]}[name]()
        if vtype & ~0xC0 not in (0, 8, 16, 1, 9, 17, 2, 10, 18):
            self.vtype, self.vl = VILL, 0
            self.set_x(f["rd"], 0)
            return
        most = (128 << (vtype & 7)) // (8 << (vtype >> 3 & 7))
        if name == "vsetivli":
            self.vl = min(f["length"], most)
        elif f["rs1"]:
            self.vl = min(self.x[f["rs1"]], most)
        elif f["rd"]:
            self.vl = most
        elif self.vtype == VILL or self.most() != most:
            raise Trap(1)
        self.vtype = vtype
        self.set_x(f["rd"], self.vl)

    def vector(self, name, f, memory):
        if name.startswith("vset"):
            self.configure(name, f)
            return
        if self.vtype == VILL:
            raise Trap(1)
        base, _, form = name.partition(".")
        is_memory = base[1] in "ls" and ("e8" in base or "e16" in base or "e32" in base or "ei" in base)
        bits = self.width()
        if is_memory:
            self.move_elements(base, f, memory, bits)
            return
        is_compare = base.startswith("vms")
        is_reduction = base.startswith("vred")
        if "vd" in f and f["vd"] == 0 and not is_compare and not is_reduction and (f.get("vm", 1) == 0 or base == "vmerge"):
            raise Trap(1)
        if any(f[field] % self.group() for field in self.groups(name, base, f)):
            raise Trap(1)
        if name == "vmv.x.s":
            self.set_x(f["rd"], signed(self.element(f["vs2"], 0, bits), bits))
        elif name == "vmv.s.x":
            if self.vl:
                self.put(f["vd"], 0, bits, self.x[f["rs1"]])
        elif name == "vzext.vf4":
            if bits != 32:
                raise Trap(1)
            found = bytes(self.v[f["vs2"]])
            for i in self.active(f):
                self.put(f["vd"], i, bits, found[i])
        elif name == "vid.v":
            for i in self.active(f):
                self.put(f["vd"], i, bits, i)
        elif is_reduction:
            self.reduce(base, f, bits)
        else:
            self.elementwise(base, f, bits, is_compare)

    def groups(self, name, base, f):
        """The fields that name groups of registers; the others name one."""
        if name in ("vmv.x.s", "vmv.s.x"):
            return []
        if name == "vzext.vf4":
            return ["vd"]
        if base.startswith("vred"):
            return ["vs2"]
        single = ("vd",) if base.startswith("vms") else ()
        return [field for field in ("vd", "vs1", "vs2") if field in f and field not in single]

    def other(self, f, bits):
        """The operand beside vs2, for each element."""
        if "vs1" in f:
            return lambda i: self.element(f["vs1"], i, bits)
        value = self.x[f["rs1"]] if "rs1" in f else f.get("imm5", f.get("uimm5"))
        return lambda i: value & ((1 << bits) - 1)

    def elementwise(self, base, f, bits, is_compare):
        other = self.other(f, bits)
        found = []
        if base == "vmerge":
            found = [(i, other(i) if self.mask(i) else self.element(f["vs2"], i, bits)) for i in range(self.vl)]
        elif base == "vmv":
            found = [(i, other(i)) for i in range(self.vl)]
        else:
            found = [(i, lane(base, self.element(f["vs2"], i, bits), other(i), bits)) for i in self.active(f)]
        for i, value in found:
            if is_compare:
                byte = self.v[f["vd"]][i // 8] & ~(1 << i % 8) & 0xFF
                self.v[f["vd"]][i // 8] = byte | value << i % 8
            else:
                self.put(f["vd"], i, bits, value)

    def reduce(self, base, f, bits):
        if self.vl == 0:
            return
        total = self.element(f["vs1"], 0, bits)
        for i in self.active(f):
            element = self.element(f["vs2"], i, bits)
            total = lane({"vredsum": "vadd"}.get(base, "v" + base[4:]), total, element, bits)
        self.put(f["vd"], 0, bits, total)

    def move_elements(self, base, f, memory, bits):
        is_load = base[1] == "l"
        is_indexed = "ei" in base
        width = int(base.rpartition("ei" if is_indexed else "e")[2])
        if is_load and f["vm"] == 0 and f["vd"] == 0:
            raise Trap(1)
        if is_indexed:
            if width != bits or f["vd"] % self.group() or f["vs2"] % self.group():
                raise Trap(1)
        else:
            # How many registers the elements take, if that is a whole number: EMUL.
            count = width * self.group() // bits
            if count > 4 or (count > 1 and f["vd"] % count):
                raise Trap(1)
            bits = width
        start = self.x[f["rs1"]]
        if "rs2" in f:
            address = lambda i: start + i * self.x[f["rs2"]] & MOST
        elif "vs2" in f:
            address = lambda i: start + self.element(f["vs2"], i, bits) & MOST
        else:
            address = lambda i: start + i * (bits // 8) & MOST
        places = [(i, address(i)) for i in self.active(f)]
        if is_load:
            found = [(i, memory.read(at, bits // 8)) for i, at in places]
            for i, value in found:
                self.put(f["vd"], i, bits, value)
        else:
            for _, at in places:
                memory.check_store(at, bits // 8)
            for i, at in places:
                memory.write(at, bits // 8, self.element(f["vd"], i, bits))


BRANCHES = {
    "beq": lambda a, b: a == b, "bne": lambda a, b: a != b, "blt": lambda a, b: signed(a) < signed(b),
    "bge": lambda a, b: signed(a) >= signed(b), "bltu": lambda a, b: a < b, "bgeu": lambda a, b: a >= b,
}
OPERATIONS = {
    "add": lambda a, b: a + b & MOST, "sub": lambda a, b: a - b & MOST, "sll": lambda a, b: a << (b & 31) & MOST,
    "slt": lambda a, b: int(signed(a) < signed(b)), "sltu": lambda a, b: int(a < b), "xor": lambda a, b: a ^ b,
    "srl": lambda a, b: a >> (b & 31), "sra": lambda a, b: signed(a) >> (b & 31) & MOST, "or": lambda a, b: a | b,
    "and": lambda a, b: a & b,
}
for scalar_name in ("mul", "mulh", "mulhsu", "mulhu"):
    OPERATIONS[scalar_name] = lambda a, b, name=scalar_name: multiply(name, a, b, 32)
for scalar_name in ("div", "divu", "rem", "remu"):
    OPERATIONS[scalar_name] = lambda a, b, name=scalar_name: divide(a, b, 32, not name.endswith("u"), name[0] == "r")


def lane(base, a, b, bits):
    """What a row makes of an element of vs2 and the other operand."""
    top = (1 << bits) - 1
    sa, sb = signed(a, bits), signed(b, bits)
    amount = b & (bits - 1)
    if base[1:] in ("mul", "mulh", "mulhsu", "mulhu"):
        return multiply(base[1:], a, b, bits)
    if base in ("vdiv", "vdivu", "vrem", "vremu"):
        return divide(a, b, bits, not base.endswith("u"), base[1] == "r")
    return {
        "vadd": a + b & top, "vsub": a - b & top, "vrsub": b - a & top, "vminu": min(a, b), "vmaxu": max(a, b),
        "vmin": min(sa, sb) & top, "vmax": max(sa, sb) & top, "vand": a & b, "vor": a | b, "vxor": a ^ b,
        "vsll": a << amount & top, "vsrl": a >> amount, "vsra": sa >> amount & top, "vmseq": int(a == b),
        "vmsne": int(a != b), "vmsltu": int(a < b), "vmslt": int(sa < sb), "vmsleu": int(a <= b), "vmsle": int(sa <= sb),
        "vmsgtu": int(a > b), "vmsgt": int(sa > sb),
    }[base]
