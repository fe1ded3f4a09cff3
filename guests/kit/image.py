#!/usr/bin/env python3
"""image.py ELF HARTS: prints the image text of a linked guest.

It refuses, naming the address, a word of code that is no instruction of the machine, and a program that does not lie in RAM.
"""

import struct
import sys

RAM, PAGE, MOST_PAGES, MOST_HARTS = 0x80000000, 4096, 256, 32
LOADED, NO_BITS, EXECUTABLE = 1, 8, 4

# CSRs that are there, and those of them that may be written.
CSRS = {0x300, 0x304, 0x305, 0x340, 0x341, 0x342, 0x343, 0x344, 0xF14}
WRITTEN = CSRS - {0xF14}
WHOLE_WORDS = {0x00000073, 0x00100073, 0x30200073, 0x10500073}
AMOS = {0, 1, 4, 8, 12, 16, 20, 24, 28}

# By opcode: the values of funct3, all of them where there is no such field.
ANY = range(8)
BY_OPCODE = {
    0b0110111: ANY,
    0b0010111: ANY,
    0b1101111: ANY,
    0b1100111: {0},
    0b1100011: {0, 1, 4, 5, 6, 7},
    0b0000011: {0, 1, 2, 4, 5},
    0b0100011: {0, 1, 2},
    0b0001111: {0},
}


class Refused(Exception):
    """Why a guest has no image."""


def is_system(word, funct3):
    """Whether it is ECALL, EBREAK, MRET, WFI, or an instruction on a CSR that allows it."""
    if funct3 == 0:
        return word in WHOLE_WORDS
    if funct3 == 4:
        return False
    writes = funct3 in (1, 5) or (word >> 15) & 31 != 0
    return (word >> 20) in (WRITTEN if writes else CSRS)


def is_instruction(word):
    """Whether the word is in the instruction table."""
    opcode, funct3, funct7 = word & 127, (word >> 12) & 7, word >> 25
    if opcode == 0b0010011:
        return {1: funct7 == 0, 5: funct7 in (0, 32)}.get(funct3, True)
    if opcode == 0b0110011:
        return funct7 in (0, 1) or (funct7 == 32 and funct3 in (0, 5))
    if opcode == 0b1110011:
        return is_system(word, funct3)
    if opcode == 0b0101111:
        return funct3 == 2 and funct7 >> 2 in AMOS
    return funct3 in BY_OPCODE.get(opcode, ())


def headers(elf, first, size, number, form):
    """The entries of one of the file's two tables."""
    return [struct.unpack_from(form, elf, first + size * at) for at in range(number)]


def words_of(elf):
    """The bytes of RAM from its first on, and how many pages the program asks for."""
    if elf[:6] != b"\x7fELF\x01\x01" or struct.unpack_from("<H", elf, 18)[0] != 243:
        raise Refused("this is no program for a RISC-V machine of 32 bits")
    entry, at, _, _, _, size, number = struct.unpack_from("<3IIHHH", elf, 24)
    if entry != RAM:
        raise Refused(f"it begins at {entry:08x}, and harts at {RAM:08x}")
    memory, end = bytearray(), RAM
    for kind, offset, start, _, stored, length, _, _ in headers(elf, at, size, number, "<8I"):
        if kind != LOADED or length == 0:
            continue
        end = max(end, start + length)
        if start < RAM or end > RAM + MOST_PAGES * PAGE:
            raise Refused(f"its part from {start:08x} to {start + length:08x} does not lie in RAM")
        memory.extend(bytes(max(0, start - RAM + stored - len(memory))))
        memory[start - RAM : start - RAM + stored] = elf[offset : offset + stored]
    memory.extend(bytes(-len(memory) % 4))
    return memory, -(-(end - RAM) // PAGE)


def check_code(elf, memory):
    """Refuses the first word of code that is no instruction."""
    at, size, number = struct.unpack_from("<I", elf, 32)[0], *struct.unpack_from("<2H", elf, 46)
    for _, kind, flags, start, _, length, _, _, _, _ in headers(elf, at, size, number, "<10I"):
        if not flags & EXECUTABLE or kind == NO_BITS:
            continue
        for address in range(start, start + length, 4):
            (word,) = struct.unpack_from("<I", memory, address - RAM)
            if not is_instruction(word):
                raise Refused(f"the word {word:08x} at {address:08x} is no instruction of the machine")


def image(elf, harts):
    """The lines of the image."""
    if not 1 <= harts <= MOST_HARTS:
        raise Refused(f"a guest has 1 to {MOST_HARTS} harts")
    memory, pages = words_of(elf)
    check_code(elf, memory)
    words = [word for (word,) in struct.iter_unpack("<I", memory)]
    while words and words[-1] == 0:
        words.pop()
    return [f"harts {harts}", f"pages {pages}", *(f"{word:08x}" for word in words)]


def main():
    name, harts = sys.argv[1:]
    with open(name, "rb") as file:
        elf = file.read()
    try:
        print(*image(elf, int(harts)), sep="\n")
    except Refused as why:
        sys.exit(f"{name}: {why}")


if __name__ == "__main__":
    main()
