"""The chips of the book, by what they do and not by what they are made of.

A chip has its input and output pins with their numbers of bits, `out`, which gives the outputs that the inputs have now, and where it has a clock `tick`, which
notes what the inputs ask for, and `tock`, which does it. Words are numbers from 0 to 65535. An output that is None may be anything.
"""

WORD = 0xFFFF


class Chip:
    inputs = outputs = {}

    def out(self, pins):
        raise NotImplementedError

    def tick(self, pins):
        pass

    def tock(self):
        pass

    def inside(self):
        """Names that a script may use: what is read there, and the words where it is a memory."""
        return {}


def bits(*names):
    return dict.fromkeys(names, 1)


def words(*names):
    return dict.fromkeys(names, 16)


def alu(x, y, zx, nx, zy, ny, f, no):
    x = (0 if zx else x) ^ (WORD if nx else 0)
    y = (0 if zy else y) ^ (WORD if ny else 0)
    result = (x + y & WORD if f else x & y) ^ (WORD if no else 0)
    return {"out": result, "zr": int(result == 0), "ng": result >> 15}


CHIPS = {}


def without_clock(name, inputs, outputs, function):
    CHIPS[name] = type(name, (Chip,), {"inputs": inputs, "outputs": outputs, "out": lambda self, pins: function(*pins.values())})


# Chapter 1
without_clock("Not", bits("in"), bits("out"), lambda a: {"out": 1 - a})
without_clock("And", bits("a", "b"), bits("out"), lambda a, b: {"out": int(a == 1 and b == 1)})
without_clock("Or", bits("a", "b"), bits("out"), lambda a, b: {"out": int(a == 1 or b == 1)})
without_clock("Xor", bits("a", "b"), bits("out"), lambda a, b: {"out": int(a != b)})
without_clock("Mux", bits("a", "b", "sel"), bits("out"), lambda a, b, sel: {"out": b if sel else a})
without_clock("DMux", bits("in", "sel"), bits("a", "b"), lambda a, sel: {"a": 0 if sel else a, "b": a if sel else 0})
without_clock("Not16", words("in"), words("out"), lambda a: {"out": WORD - a})
without_clock("And16", words("a", "b"), words("out"), lambda a, b: {"out": a & b})
without_clock("Or16", words("a", "b"), words("out"), lambda a, b: {"out": a | b})
without_clock("Mux16", {**words("a", "b"), "sel": 1}, words("out"), lambda a, b, sel: {"out": b if sel else a})
without_clock("Or8Way", {"in": 8}, bits("out"), lambda a: {"out": int(a > 0)})
for names, sel in (("abcd", 2), ("abcdefgh", 3)):
    ways = f"{len(names)}Way"
    without_clock(f"Mux{ways}16", {**words(*names), "sel": sel}, words("out"), lambda *all: {"out": all[all[-1]]})
    without_clock(f"DMux{ways}", {"in": 1, "sel": sel}, bits(*names), lambda a, sel, names=names: {n: a if k == sel else 0 for k, n in enumerate(names)})

# Chapter 2
without_clock("HalfAdder", bits("a", "b"), bits("sum", "carry"), lambda a, b: {"sum": (a + b) % 2, "carry": (a + b) // 2})
without_clock("FullAdder", bits("a", "b", "c"), bits("sum", "carry"), lambda a, b, c: {"sum": (a + b + c) % 2, "carry": (a + b + c) // 2})
without_clock("Add16", words("a", "b"), words("out"), lambda a, b: {"out": a + b & WORD})
without_clock("Inc16", words("in"), words("out"), lambda a: {"out": a + 1 & WORD})
without_clock("ALU", {**words("x", "y"), **bits("zx", "nx", "zy", "ny", "f", "no")}, {"out": 16, "zr": 1, "ng": 1}, alu)


# Chapter 3
class Kept(Chip):
    """Keeps a number, and shows it; `next` says which one comes with the tock."""

    def __init__(self):
        self.now = self.coming = 0

    def out(self, pins):
        return {"out": self.now}

    def tick(self, pins):
        self.coming = self.next(pins)

    def tock(self):
        self.now = self.coming

    def next(self, pins):
        return pins["in"] if pins["load"] else self.now


class PC(Kept):
    inputs, outputs = {**words("in"), **bits("reset", "load", "inc")}, words("out")

    def next(self, pins):
        if pins["reset"]:
            return 0
        if pins["load"]:
            return pins["in"]
        return self.now + 1 & WORD if pins["inc"] else self.now


CHIPS["Bit"] = type("Bit", (Kept,), {"inputs": bits("in", "load"), "outputs": bits("out")})
for name in ("Register", "ARegister", "DRegister"):
    CHIPS[name] = type(name, (Kept,), {"inputs": {"in": 16, "load": 1}, "outputs": words("out")})
CHIPS["PC"] = PC


class Ram(Chip):
    outputs = words("out")
    address = 14

    def __init__(self):
        self.words = [0] * (1 << self.address)
        self.coming = None

    def out(self, pins):
        return {"out": self.words[pins["address"]]}

    def tick(self, pins):
        self.coming = (pins["address"], pins["in"]) if pins["load"] else None

    def tock(self):
        if self.coming:
            address, word = self.coming
            self.words[address] = word


for name, address in (("RAM8", 3), ("RAM64", 6), ("RAM512", 9), ("RAM4K", 12), ("RAM16K", 14), ("Screen", 13)):
    CHIPS[name] = type(name, (Ram,), {"inputs": {"in": 16, "load": 1, "address": address}, "address": address})


# Chapter 5
class Memory(Ram):
    """Words up to 24575 are kept; no key is held, and nothing is kept from there on."""

    inputs, address = {"in": 16, "load": 1, "address": 15}, 15

    def tock(self):
        if self.coming and self.coming[0] < 24576:
            super().tock()

    def inside(self):
        return {"RAM16K": (None, self.words)}


class CPU(Chip):
    inputs, outputs = {"inM": 16, "instruction": 16, "reset": 1}, {"outM": 16, "writeM": 1, "addressM": 15, "pc": 15}

    def __init__(self):
        self.a = self.d = self.pc = 0
        self.coming = (0, 0, 0)

    def result(self, pins):
        word = pins["instruction"]
        controls = (word >> k & 1 for k in (11, 10, 9, 8, 7, 6))
        return alu(self.d, pins["inM"] if word >> 12 & 1 else self.a, *controls)

    def out(self, pins):
        """outM means something only where it is written."""
        write = pins["instruction"] >> 15 & pins["instruction"] >> 3 & 1
        result = self.result(pins)["out"] if write else None
        return {"outM": result, "writeM": write, "addressM": self.a & 0x7FFF, "pc": self.pc}

    def tick(self, pins):
        word, result = pins["instruction"], self.result(pins)
        a, d, pc = self.a, self.d, self.pc + 1 & 0x7FFF
        if word < 0x8000:
            a = word
        else:
            above = 1 - result["zr"] - result["ng"]
            if word & 4 and result["ng"] or word & 2 and result["zr"] or word & 1 and above:
                pc = self.a & 0x7FFF
            if word & 0x20:
                a = result["out"]
            if word & 0x10:
                d = result["out"]
        self.coming = (a, d, 0 if pins["reset"] else pc)

    def tock(self):
        self.a, self.d, self.pc = self.coming

    def inside(self):
        return {"ARegister": (lambda: self.a, None), "DRegister": (lambda: self.d, None), "PC": (lambda: self.pc, None)}


class Computer(Chip):
    inputs = bits("reset")

    def __init__(self):
        self.cpu, self.memory, self.rom = CPU(), Memory(), [0] * 32768

    def out(self, pins):
        return {}

    def tick(self, pins):
        of_cpu = {"inM": self.memory.words[self.cpu.a & 0x7FFF], "instruction": self.rom[self.cpu.pc], "reset": pins["reset"]}
        out = self.cpu.out(of_cpu)
        self.cpu.tick(of_cpu)
        self.memory.tick({"in": out["outM"], "load": out["writeM"], "address": out["addressM"]})

    def tock(self):
        self.cpu.tock()
        self.memory.tock()

    def inside(self):
        return {**self.cpu.inside(), **self.memory.inside(), "ROM32K": (None, self.rom)}


CHIPS.update({"Memory": Memory, "CPU": CPU, "Computer": Computer})
