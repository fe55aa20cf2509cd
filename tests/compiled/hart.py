"""A bare RV32I hart with the memory map, the ports and the trap rule of docs/MACHINE.md, and what a report says.

Written from that page and from the RISC-V Unprivileged manual alone, and not from the program's own hart.
"""

ROM_BYTES = 0x40000
RAM = 0x10000000
RAM_BYTES = 0x40000
IN_PORTS = 0x20000000
OUT_PORTS = 0x20001000
PORT_BYTES = 4 * 256
MASK = 0xFFFFFFFF


def signed(word, bits=32):
    """The number that the lowest bits of a word are in two's complement."""
    word &= (1 << bits) - 1
    return word - (1 << bits) if word >> (bits - 1) else word


def jump_home(address):
    """The word of `jal x0, -address`."""
    offset = -address & 0x1FFFFF
    return (offset >> 20 & 1) << 31 | (offset >> 1 & 0x3FF) << 21 | (offset >> 11 & 1) << 20 | (offset >> 12 & 0xFF) << 12 | 0x6F


class Trap(Exception):
    """The tick traps."""


BRANCHES = {
    0: lambda a, b: a == b,
    1: lambda a, b: a != b,
    4: lambda a, b: signed(a) < signed(b),
    5: lambda a, b: signed(a) >= signed(b),
    6: lambda a, b: a < b,
    7: lambda a, b: a >= b,
}

# By the field funct3, those of `addi` and its kin; shifts apart.
WITH_IMMEDIATE = {
    0: lambda a, b: (a + b) & MASK,
    2: lambda a, b: int(signed(a) < b),
    3: lambda a, b: int(a < b & MASK),
    4: lambda a, b: (a ^ b) & MASK,
    6: lambda a, b: (a | b) & MASK,
    7: lambda a, b: a & b & MASK,
}

# By the fields funct7 and funct3.
SHIFTS = {
    (0x00, 1): lambda a, b: (a << b) & MASK,
    (0x00, 5): lambda a, b: a >> b,
    (0x20, 5): lambda a, b: (signed(a) >> b) & MASK,
}
WITH_REGISTERS = {
    (0x00, 0): lambda a, b: (a + b) & MASK,
    (0x20, 0): lambda a, b: (a - b) & MASK,
    (0x00, 2): lambda a, b: int(signed(a) < signed(b)),
    (0x00, 3): lambda a, b: int(a < b),
    (0x00, 4): lambda a, b: a ^ b,
    (0x00, 6): lambda a, b: a | b,
    (0x00, 7): lambda a, b: a & b,
}
WITH_REGISTERS.update({fields: (lambda shift: lambda a, b: shift(a, b & 31))(shift) for fields, shift in SHIFTS.items()})

LOADS = {0: (1, True), 1: (2, True), 2: (4, False), 4: (1, False), 5: (2, False)}
STORES = {0: 1, 1: 2, 2: 4}


def compiled(word):
    """The function that does a word's instruction on a hart, or None where the word is none or is `ecall` or `ebreak`."""
    opcode, rd, funct3 = word & 0x7F, word >> 7 & 31, word >> 12 & 7
    rs1, rs2, funct7 = word >> 15 & 31, word >> 20 & 31, word >> 25
    immediate = signed(word >> 20, 12)
    if opcode == 0x33 and (funct7, funct3) in WITH_REGISTERS:
        of = WITH_REGISTERS[funct7, funct3]
        return lambda hart: hart.write(rd, of(hart.x[rs1], hart.x[rs2]))
    if opcode == 0x13 and funct3 in WITH_IMMEDIATE:
        of = WITH_IMMEDIATE[funct3]
        return lambda hart: hart.write(rd, of(hart.x[rs1], immediate))
    if opcode == 0x13 and (funct7, funct3) in SHIFTS:
        of = SHIFTS[funct7, funct3]
        return lambda hart: hart.write(rd, of(hart.x[rs1], rs2))
    if opcode == 0x03 and funct3 in LOADS:
        width, extended = LOADS[funct3]
        return lambda hart: hart.load(rd, (hart.x[rs1] + immediate) & MASK, width, extended)
    if opcode == 0x23 and funct3 in STORES:
        offset = signed(funct7 << 5 | rd, 12)
        width = STORES[funct3]
        return lambda hart: hart.store((hart.x[rs1] + offset) & MASK, width, hart.x[rs2])
    if opcode == 0x63 and funct3 in BRANCHES:
        taken = BRANCHES[funct3]
        offset = signed((word >> 31) << 12 | (word >> 7 & 1) << 11 | (word >> 25 & 63) << 5 | (word >> 8 & 15) << 1, 13)
        return lambda hart: hart.jump(hart.pc + offset, 0) if taken(hart.x[rs1], hart.x[rs2]) else hart.go_on()
    if opcode == 0x37:
        return lambda hart: hart.write(rd, word & 0xFFFFF000)
    if opcode == 0x17:
        return lambda hart: hart.write(rd, (hart.pc + (word & 0xFFFFF000)) & MASK)
    if opcode == 0x6F:
        offset = signed((word >> 31) << 20 | (word >> 12 & 0xFF) << 12 | (word >> 20 & 1) << 11 | (word >> 21 & 0x3FF) << 1, 21)
        return lambda hart: hart.jump(hart.pc + offset, rd)
    if opcode == 0x67 and funct3 == 0:
        return lambda hart: hart.jump((hart.x[rs1] + immediate) & 0xFFFFFFFE, rd)
    if opcode == 0x0F and funct3 == 0:
        return lambda hart: hart.go_on()
    return None


class Hart:
    """A hart that runs the written words, with the jumps to 0 behind them. `reading` answers what an input port gives."""

    def __init__(self, words):
        self.words = words + [jump_home(4 * number) for number in range(len(words), ROM_BYTES // 4)]
        self.rom = b"".join(word.to_bytes(4, "little") for word in self.words)
        self.code = [None] * (ROM_BYTES // 4)
        self.decoded = [False] * (ROM_BYTES // 4)
        self.ram = bytearray(RAM_BYTES)
        self.x = [0] * 32
        self.pc = 0
        self.reading = lambda: 0
        # the input ports that were read, and the output ports with the words that they were sent, in order
        self.taken = []
        self.sent = []
        self.traps = 0

    def tick(self):
        number, odd = divmod(self.pc, 4)
        if odd or self.pc >= ROM_BYTES:
            return self.trap()
        if not self.decoded[number]:
            self.code[number] = compiled(self.words[number])
            self.decoded[number] = True
        code = self.code[number]
        if code is None:
            return self.trap()
        try:
            code(self)
        except Trap:
            self.trap()

    def trap(self):
        self.traps += 1
        self.pc = 0

    def go_on(self):
        self.pc = (self.pc + 4) & MASK

    def write(self, rd, value):
        if rd:
            self.x[rd] = value
        self.pc = (self.pc + 4) & MASK

    def jump(self, target, rd):
        if target % 4:
            raise Trap
        if rd:
            self.x[rd] = (self.pc + 4) & MASK
        self.pc = target & MASK

    def load(self, rd, address, width, extended):
        if address % width:
            raise Trap
        if RAM <= address < RAM + RAM_BYTES:
            number = int.from_bytes(self.ram[address - RAM:address - RAM + width], "little")
        elif address < ROM_BYTES:
            number = int.from_bytes(self.rom[address:address + width], "little")
        elif IN_PORTS <= address < IN_PORTS + PORT_BYTES and width == 4:
            self.taken.append((address - IN_PORTS) // 4)
            number = self.reading()
        else:
            raise Trap
        self.write(rd, signed(number, 8 * width) & MASK if extended else number)

    def store(self, address, width, value):
        if address % width:
            raise Trap
        if RAM <= address < RAM + RAM_BYTES:
            self.ram[address - RAM:address - RAM + width] = (value & ((1 << 8 * width) - 1)).to_bytes(width, "little")
        elif OUT_PORTS <= address < OUT_PORTS + PORT_BYTES and width == 4:
            self.sent.append(((address - OUT_PORTS) // 4, value))
        else:
            raise Trap
        self.go_on()

    def to_head(self, most):
        """Ticks until the program counter is 0, none where it is, at most so many. How many, or None where it isn't yet."""
        for ticks in range(most + 1):
            if self.pc == 0:
                return ticks
            if ticks < most:
                self.tick()
        return None

    def round(self, most):
        """One tick and those to the head, at most so many. How many, or None."""
        self.taken, self.sent, self.traps = [], [], 0
        self.tick()
        rest = self.to_head(most - 1)
        return None if rest is None else rest + 1


class Report:
    """What the text of a report says."""

    def __init__(self, text):
        self.text = text
        lines = text.split("\n")
        assert text.endswith("\n") and lines[-2] == "end", "a report ends with `end`"
        start = next(number for number, line in enumerate(lines) if line.startswith("words "))
        self.head = lines[:start]
        self.words = [int(line, 16) for line in lines[start + 1:-2]]
        assert int(lines[start].split()[1]) == len(self.words), "as many words as it says"
        fields = [line.split(" ") for line in self.head]
        number = {line[0]: int(line[1]) for line in fields if line[0] in ("ram", "rom", "anchor", "round", "registers")}
        self.ram, self.rom, self.anchor, self.round, self.registers = (
            number[name] for name in ("ram", "rom", "anchor", "round", "registers")
        )
        # location, offset in RAM, width, number of values, least value
        self.places = [
            (line[1], int(line[2], 16) - RAM, int(line[3]), int(line[4]), int(line[5])) for line in fields if line[0] == "place"
        ]
        self.inputs = [line[2] for line in fields if line[0] == "in"]
        self.outputs = [line[2] for line in fields if line[0] == "out"]

    def state(self, ram):
        """The value of each location, by what RAM holds."""
        values = {}
        for location, offset, width, size, low in self.places:
            bits = (size - 1).bit_length()
            index = int.from_bytes(ram[offset:offset + width], "little") % (1 << bits)
            values[location] = low + (index if index < size else index - size)
        return values
