"""Assembly programs: their words, and what the two that the scripts load should do."""

import re

COMPUTATIONS = {
    "0": "101010", "1": "111111", "-1": "111010", "D": "001100", "A": "110000", "!D": "001101", "!A": "110001", "-D": "001111", "-A": "110011",
    "D+1": "011111", "A+1": "110111", "D-1": "001110", "A-1": "110010", "D+A": "000010", "D-A": "010011", "A-D": "000111", "D&A": "000000", "D|A": "010101",
}
COMPUTATIONS.update({"A+D": "000010", "A&D": "000000", "A|D": "010101"})
JUMPS = ["", "JGT", "JEQ", "JGE", "JLT", "JNE", "JLE", "JMP"]
WORD, SCREEN, KEY = 0xFFFF, 16384, 24576


def assemble(text):
    """The words of an assembly program that has no faults."""
    symbols = {"SP": 0, "LCL": 1, "ARG": 2, "THIS": 3, "THAT": 4, "SCREEN": SCREEN, "KBD": KEY}
    symbols.update({f"R{k}": k for k in range(16)})
    lines = []
    for line in text.splitlines():
        line = re.sub(r"\s", "", line.split("//")[0])
        if line.startswith("("):
            symbols[line[1:-1]] = len(lines)
        elif line:
            lines.append(line)
    variables = iter(range(16, SCREEN))
    image = []
    for line in lines:
        if line[0] == "@":
            name = line[1:]
            image.append(int(name) if name.isdigit() else symbols[name] if name in symbols else symbols.setdefault(name, next(variables)))
        else:
            rest, _, jump = line.partition(";")
            dest, _, comp = rest.rpartition("=")
            controls = COMPUTATIONS[comp.replace("M", "A")]
            places = ("A" in dest) << 5 | ("D" in dest) << 4 | ("M" in dest) << 3
            image.append(0xE000 | ("M" in comp) << 12 | int(controls, 2) << 6 | places | JUMPS.index(jump))
    return image


class Program:
    """The words that a script sets and sees, where the program is given the cycles that it needs."""

    def __init__(self):
        self.words = [0] * (KEY + 1)


class Mult(Program):
    def run(self):
        self.words[2] = self.words[0] * self.words[1] & WORD


class Fill(Program):
    def run(self):
        self.words[SCREEN:KEY] = [WORD if self.words[KEY] else 0] * (KEY - SCREEN)


PROGRAMS = {"Mult": Mult, "Fill": Fill}
