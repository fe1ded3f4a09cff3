#!/usr/bin/env python3
"""pairs.py STEPS IMAGE [TEXT]: which two words of a page follow each other in so many steps of a guest with one hart, by code that shares nothing with the
program's (../programs/plain.py). It prints how many of a hundred steps are the second of a pair that has a form of its own, in all and by pair, where words are paired
from the first one on as the program takes them, and the pairs without a form that come most often. A guest that waits for words gets the text, four bytes a
word, the next one once it has put out something for the last."""
import collections, pathlib, sys

sys.dont_write_bytecode = True
sys.path.insert(0, str(pathlib.Path(__file__).resolve().parent.parent / "programs"))
import plain

SHOWN = 6
COMPUTED = ("add", "sll", "slt", "sltu", "xor", "srl", "or", "and")
MULTIPLIED = ("mul", "mulh", "mulhsu", "mulhu", "div", "divu", "rem", "remu")


def name(word):
    """The instruction of a word, where an addition of a number to its own register is `addto`."""
    opcode, to, three, first, seven = word & 0x7F, word >> 7 & 31, word >> 12 & 7, word >> 15 & 31, word >> 25
    if opcode == 0x13 and three == 0:
        return "nop" if to == 0 else "addto" if to == first else "addi"
    if opcode == 0x13:
        return "srai" if three == 5 and seven else f"{COMPUTED[three]}i".replace("sltui", "sltiu")
    if opcode == 0x33:
        return MULTIPLIED[three] if seven == 1 else {(0, 0x20): "sub", (5, 0x20): "sra"}.get((three, seven), COMPUTED[three])
    many = {
        0x03: ("lb", "lh", "lw", "?", "lbu", "lhu"),
        0x23: ("sb", "sh", "sw"),
        0x63: ("beq", "bne", "?", "?", "blt", "bge", "bltu", "bgeu"),
    }
    one = {0x37: "lui", 0x17: "auipc", 0x6F: "jal" if to else "j", 0x67: "jalr" if to else "jr", 0x0F: "fence", 0x2F: "amo", 0x73: "wfi" if word == 0x10500073 else "system"}
    return many[opcode][three] if opcode in many else one.get(opcode, "?")


class Asked(plain.Plain):
    """A hart to which words come in, each when there is an output for each before it."""

    def __init__(self, words, pages, asked):
        super().__init__(words, pages)
        self.asked, self.given = asked, 0

    def meet(self, before):
        return None

    def pairs_over(self, address):
        return []

    def load(self, three, address):
        if three == 2 and address in (plain.DEVICES, plain.DEVICES + 4):
            return self.given if address > plain.DEVICES else self.asked[self.given - 1] if self.given else 0
        return super().load(three, address)

    def step(self):
        if self.given < len(self.asked) and not self.mip and len(self.outputs) == self.given:
            self.mip, self.given = 0x800, self.given + 1
        if self.mie and self.mip & self.csrs["mie"]:
            self.csrs["mepc"], self.csrs["mcause"], self.mpie, self.mie = self.pc, 0x8000000B, self.mie, 0
            self.pc = self.csrs["mtvec"]
            self.count += 1
        else:
            super().step()


def pair_of(first, second):
    """The two words as a pair, and whether it has a form."""
    two = name(first), name(second)
    return two, two in plain.PAIRS and (two not in plain.OF_FIRST or second >> 15 & 31 == first >> 7 & 31)


def main(steps, image, text=""):
    lines = image.read_text().split("\n")
    asked = [int.from_bytes(text.encode()[at : at + 4], "little") for at in range(0, len(text), 4)]
    hart = Asked([int(line, 16) for line in lines[2:] if line], int(lines[1].split()[1]), asked)
    formed, others = collections.Counter(), collections.Counter()
    before = None  # the place and word of the step before, where it was not the second of a pair
    while hart.count < steps and not hart.halted:
        place = hart.pc
        word = hart.read(place, 4)
        hart.step()
        if before and before[0] + 4 == place and place % 4096:
            two, has_form = pair_of(before[1], word)
            (formed if has_form else others)[two] += 1
            before = None if has_form else (place, word)
        else:
            before = place, word
    share = lambda pairs: ", ".join(f"{' '.join(two)} {100 * many / hart.count:.1f}" for two, many in pairs)
    print(f"{image.stem}: {hart.count:,} steps{f', {hart.given} words' if asked else ''}; in all {100 * sum(formed.values()) / hart.count:.1f}: {share(formed.most_common())}")
    print(f"    without a form: {share(others.most_common(SHOWN))}")


main(int(sys.argv[1]), pathlib.Path(sys.argv[2]), *sys.argv[3:])
