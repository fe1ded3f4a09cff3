#!/usr/bin/env python3
"""programs.py PROGRAM [COUNT [SEED [FIRST]]]: runs COUNT guests, 20,000 by itself, whose instructions fall by chance, and compares what quick runs on threads came to
with what each step by itself comes to.

A guest has one to four harts and one body for all of them, which goes round, in one page or across the end of one: arithmetic, loads and stores of each width,
some of which are misaligned or reach no page, atomic memory operations, branches and jumps within the body, also into the second of two instructions that compilers
write together, stores into the body's own words, of other words of the body or of what a register has, traps (ECALL, EBREAK, illegal words) and a handler that goes on behind them, outputs, bells and words
that come in. `run` records it on a thread for each hart by forms that were decoded before; `audit` takes its log step by step, decoding each word anew and asking for each
page; `replay` takes it by quick runs again. All three must print one text. Each fourth guest has one hart, to which nothing comes in: plain.py takes its steps too, and the
text must say of count, place, registers, outputs and memory what it comes to; by it are told how often a pair was met whole, how often its second word was jumped to or faulted,
how often one of its words was stored over, and how often an addition came behind the load of a byte and an addition; none of these may be nought in a hundred guests. Each guest is made from SEED (by itself by chance, and printed) and its number, from
FIRST on, and so can be made again. A guest that differs is printed, and its files are kept in the temporary folder.
"""

import os
import random
import shutil
import sys
import tempfile
from collections import Counter
from concurrent.futures import ProcessPoolExecutor

HERE = os.path.dirname(os.path.abspath(__file__))
sys.path.insert(0, os.path.dirname(HERE))
sys.dont_write_bytecode = True
from calls import call
from plain import COUNTED, PAIRS, Plain

SECONDS = 60
BASE = 0x80000000
DATA, CODE, DEVICES, HART = 1, 2, 4, 3  # registers that hold the data page, the code page, the devices and the hart's number
FREE = range(5, 16)  # registers that fall by chance; 14 is the handler's too
FRONT = 12  # words before the body
HANDLER = 6  # words of the handler, which stand before the front


def r_type(seven, second, first, three, to, opcode):
    return seven << 25 | second << 20 | first << 15 | three << 12 | to << 7 | opcode


def i_type(immediate, first, three, to, opcode):
    return (immediate & 0xFFF) << 20 | first << 15 | three << 12 | to << 7 | opcode


def s_type(immediate, second, first, three):
    return (immediate >> 5 & 0x7F) << 25 | second << 20 | first << 15 | three << 12 | (immediate & 0x1F) << 7 | 0x23


def b_type(offset, second, first, three):
    return (offset >> 12 & 1) << 31 | (offset >> 5 & 0x3F) << 25 | second << 20 | first << 15 | three << 12 | (offset >> 1 & 0xF) << 8 | (offset >> 11 & 1) << 7 | 0x63


def j_type(offset, to):
    return (offset >> 20 & 1) << 31 | (offset >> 1 & 0x3FF) << 21 | (offset >> 11 & 1) << 20 | (offset >> 12 & 0xFF) << 12 | to << 7 | 0x6F


def u_type(upper, to, opcode):
    return (upper & 0xFFFFF) << 12 | to << 7 | opcode


def lower(upper, low):
    """LUI and ADDI of what is wanted in register 5: two words that compilers write together."""
    return [u_type(upper, 5, 0x37), i_type(low, 5, 0, 5, 0x13)]


def arithmetic(chance, free, to):
    """One word of registers alone."""
    one, other = free(), free()
    kind = chance.randrange(5)
    if kind == 0:
        return r_type(chance.choice([0, 0x20]) if (three := chance.choice([0, 5])) else 0, other, one, three, to, 0x33)
    if kind == 1:
        return r_type(chance.choice([0, 1]), other, one, chance.randrange(8), to, 0x33)  # a multiplication or division among them
    if kind == 2:
        return i_type(chance.getrandbits(12), one, chance.choice([0, 2, 3, 4, 6, 7]), to, 0x13)
    if kind == 3:
        three = chance.choice([1, 5])
        return i_type(chance.randrange(32) | (chance.choice([0, 0x400]) if three == 5 else 0), one, three, to, 0x13)
    return u_type(chance.getrandbits(20), to, chance.choice([0x37, 0x17]))


def pair(chance, free, near):
    """Two words that have one form where the second follows the first, and in a case one more that is taken with them: the second may fault, and each may be jumped
    to or stored over."""
    to, one, other = free(), free(), free()
    load = i_type(chance.randrange(256), DATA, 4, to, 0x03)  # LBU
    on = i_type(chance.getrandbits(12), to, 0, to, 0x13)  # ADDI to itself
    branch = b_type(near(), to, one, 1)  # BNE
    two = chance.choice(
        [
            [r_type(0, other, one, 4, to, 0x33), branch],
            [i_type(chance.getrandbits(12), one, 7, to, 0x13), i_type(chance.randrange(32), chance.choice([to, to, one]), 1, other, 0x13)],
            [load, i_type(chance.randrange(32), to, 5, other, 0x13)],
            [load, on],
            [load, on, i_type(chance.getrandbits(12), one, 0, chance.choice([one, other]), 0x13)],
            [on, r_type(0, other, to, 4, one, 0x33)],
            [r_type(0, chance.choice([0, other]), DATA, 0, to, 0x33), i_type(chance.choice([0, 4, 2]), chance.choice([to, to, DATA]), 2, other, 0x03)],
            [i_type(chance.choice([0, 4]), DATA, 2, to, 0x03), i_type(chance.choice([0, 4, 2]), chance.choice([DATA, DATA, to]), 2, other, 0x03)],
            [b_type(near(), other, one, 0), i_type(chance.getrandbits(12), one, 0, to, 0x13)],
            [s_type(chance.randrange(256), to, DATA, 0), branch],
        ]
    )
    over = chance.choice([None, None, None, j_type(8, 0), b_type(8, other, one, chance.choice([0, 1, 4, 7]))])
    return [over, *two] if over else two  # some are jumped into from right before them


def words_of(chance, length, steady, begin):
    """Some words of the body, which begins so many bytes behind the code page: one, or some that belong together. Those of a steady body lead back to its beginning again and
    again."""
    free = lambda: chance.choice(FREE)
    to = chance.choice([0, *FREE, *FREE])
    kind = chance.randrange(28)
    inside = lambda: begin + 4 * chance.randrange(length)  # a place of the body, from the code page on
    near = lambda: 4 * chance.randrange(1 if steady else -6, 12)
    if kind < 7:
        return [arithmetic(chance, free, to)]
    if kind < 10:
        return [i_type(chance.randrange(0, 64) * 4, DATA, 2, to, 0x03)]
    if kind < 12:
        return [s_type(chance.randrange(0, 64) * 4, free(), DATA, 2)]
    if kind == 12:
        return [i_type(chance.randrange(256), DATA, chance.choice([0, 1, 4, 5]), to, 0x03)]
    if kind == 13:
        return [s_type(chance.randrange(256), free(), DATA, chance.choice([0, 1]))]
    if kind == 14:
        return [r_type(chance.choice([0, 4, 0x10, 0x20, 0x30, 0x40, 0x50, 0x60, 0x70]), free(), DATA, 2, to, 0x2F)]  # AMO of the page's first word
    if kind < 17:
        return [b_type(near(), free(), chance.choice([0, *FREE]), chance.choice([0, 1, 4, 5, 6, 7]))]
    if kind == 17:
        return [j_type(near(), chance.choice([0, 5]))]
    if kind == 18 and not steady:
        return [i_type(inside() + chance.choice([0, 0, 0, 2]), CODE, 0, chance.choice([0, 5]), 0x67)]  # JALR, sometimes to half a word
    if kind == 19:
        one = inside()
        other = chance.choice([one, inside()])
        taken = i_type(one, CODE, 2, 6, 0x03)  # a word of the body, stored or exchanged for another one, or over itself; or two change places
        how = chance.randrange(3)
        if how == 0:
            return [taken, s_type(other, 6, CODE, 2)]
        if how == 1:
            return [taken, i_type(other, CODE, 0, 7, 0x13), r_type(chance.choice([4, 0x40]), 6, 7, 2, to, 0x2F)]
        other = chance.choice([max(one - 4, begin), inside()])
        return [taken, i_type(other, CODE, 2, 7, 0x03), s_type(other, 6, CODE, 2), s_type(one, 7, CODE, 2)]
    if kind == 20 and chance.randrange(8 if steady else 1) == 0:
        return [s_type(inside(), free(), CODE, chance.choice([0, 1, 2]))]  # what a register has, stored over a word of the body
    if kind == 21:
        return lower(chance.getrandbits(20), chance.getrandbits(12)) + [arithmetic(chance, free, to)]
    if kind == 22:
        return [chance.choice([0x73, 0x100073, 0, 0xFFFFFFFF, 0x30200073, 0x0FF0000F, i_type(0x342, 0, 2, to, 0x73), i_type(0x340, free(), 1, to, 0x73)])]
    if kind > 23 or kind == 18 or kind == 20:
        return pair(chance, free, near)
    return [chance.choice([s_type(8, free(), DEVICES, 2), i_type(0, DEVICES, 2, to, 0x03), s_type(16, HART, DEVICES, 2), i_type(chance.randrange(5000), 0, 2, to, 0x03)])]


def image_of(chance, plain):
    """An image file by chance, and how many harts it has: one, with a steady body, where plain steps are to take it too."""
    harts = 1 if plain else chance.choice([1, 1, 1, 2, 4])
    length = chance.choice([20, 60, 200] if plain else [8, 20, 60, 200])
    handler = [
        i_type(0x341, 0, 2, 14, 0x73),  # csrrs x14, mepc, x0
        i_type(4, 14, 0, 14, 0x13),  # addi x14, x14, 4
        i_type(0x341, 14, 1, 0, 0x73),  # csrrw x0, mepc, x14
        0x30200073,  # mret
        0,
        0,
    ]
    across = chance.randrange(3) == 0  # the body lies across the end of the first page, and the code page is the second one
    before = chance.randrange(1, length) if across else 0  # so many of its words are in the first one
    start = j_type(4 * HANDLER, 0)
    front = [
        u_type(BASE + (0x2000 if across else 0x1000) >> 12, DATA, 0x37),
        u_type(BASE + (0x1000 if across else 0) >> 12, CODE, 0x37),
        u_type(0xF0000, DEVICES, 0x37),
        i_type(0xF14, 0, 2, HART, 0x73),  # csrrs x3, mhartid, x0
        u_type(BASE >> 12, 14, 0x37),
        i_type(4, 14, 0, 14, 0x13),
        i_type(0x305, 14, 1, 0, 0x73),  # csrrw x0, mtvec, x14: the handler, behind the first word
        *(arithmetic(chance, lambda: chance.choice(FREE), chance.choice(FREE)) for _ in range(FRONT - 7)),
    ]
    begin = -4 * before if across else 4 * (HANDLER + FRONT)
    body, steady = [], plain or chance.randrange(2)
    while len(body) < length:
        body += words_of(chance, length, steady, begin)
    back = j_type(-4 * len(body), 0)
    words = [start, *handler[: HANDLER - 1], *front]
    if across:
        on = 1024 - before
        words += [j_type(4 * (on - len(words)), 0), *[0] * (on - len(words) - 1)]
    words += [*body, back]
    return f"harts {harts}\npages {chance.choice([2, 2, 3]) + across}\n" + "".join(f"{word:08x}\n" for word in words), harts


def script_of(chance, harts):
    """What comes in, by chance: timers and words."""
    lines = []
    for hart in range(harts):
        counts = sorted(chance.randrange(3000) for _ in range(chance.choice([0, 0, 1, 4])))
        lines += [f"{hart} {count} timer\n" if chance.randrange(3) == 0 else f"{hart} {count} word {chance.getrandbits(32):08x}\n" for count in counts]
    return "".join(lines)


def plainly(image, text, steps, met):
    """Whether the text says what plain steps of the image's one hart come to. What they met is added."""
    lines = image.splitlines()
    plain = Plain([int(line, 16) for line in lines[2:]], int(lines[1].split()[1]))
    plain.run(steps)
    met.update(plain.met)
    met["plain"] += 1
    said = [line for line in text.decode().splitlines() if line.split()[0] not in ("csr", "dev", "heard", "rung")]
    return plain.knows_no_more or said == list(plain.lines())


def differs(program, chance, plain, met):
    """Makes a guest in this folder and runs it. What differs, if something does, and how many steps it took."""
    image, harts = image_of(chance, plain)
    script = "" if plain else script_of(chance, harts)
    with open("image", "w") as file:
        file.write(image)
    with open("script", "w") as file:
        file.write(script)
    ran = call(program, ["run", "image", "script", str(chance.choice([300, 3000, 10000] if plain else [50, 300, 3000, 10000])), "log"], SECONDS)
    if ran[0] != 0 or ran[2]:
        return f"run ended {ran[0]} {ran[2][:80]}", 0
    steps = sum(int(line.split()[3]) for line in ran[1].decode().splitlines() if line.startswith("hart") and " count " in line)
    if call(program, ["replay", "image", "log"], SECONDS) != ran:
        return "the replay is another one", steps
    status, out, err = call(program, ["audit", "image", "log"], SECONDS)
    if (status, out.removeprefix(b"audit yes\n"), err) != ran or not out.startswith(b"audit yes\n"):
        return "the steps one by one come to another machine", steps
    if plain and not plainly(image, ran[1], steps, met):
        return "plain steps come to another machine", steps
    return None, steps


def batch(program, seed, first, count):
    """So many guests: which differ, how many steps all took, and what plain steps met."""
    others, steps, met = [], 0, Counter()
    folder = tempfile.mkdtemp(prefix="programs-", dir="/dev/shm")
    try:
        for number in range(first, first + count):
            at = os.path.join(folder, str(number))
            os.mkdir(at)
            os.chdir(at)
            wrong, taken = differs(program, random.Random(f"{seed} {number}"), number % 4 == 0, met)
            steps += taken
            if wrong:
                kept = os.path.join(tempfile.gettempdir(), f"programs-{seed}-{number}")
                shutil.copytree(at, kept, dirs_exist_ok=True)
                others.append(f"guest {number}: {wrong}, in {kept}")
            os.chdir(folder)
            shutil.rmtree(at)
    finally:
        os.chdir("/")
        shutil.rmtree(folder)
    return others, steps, met


def main():
    program = os.path.abspath(sys.argv[1])
    count = int(sys.argv[2]) if sys.argv[2:] else 20_000
    seed = sys.argv[3] if sys.argv[3:] else str(random.SystemRandom().getrandbits(32))
    first = int(sys.argv[4]) if sys.argv[4:] else 0
    print(f"seed {seed}, guests {first} to {first + count - 1}", flush=True)
    others, steps, met = [], 0, Counter()
    with ProcessPoolExecutor(int(os.environ.get("JOBS", "2"))) as pool:
        ends = range(first, first + count, 100)
        for wrong, taken, seen in pool.map(batch, *zip(*((program, seed, at, min(100, first + count - at)) for at in ends))):
            others += wrong
            steps += taken
            met.update(seen)
            print("\n".join(wrong), end="\n" * bool(wrong), flush=True)
    print(f"{met['plain']} guests taken by plain steps too: " + ", ".join(f"{met[what]} {what}" for what in COUNTED))
    print("pairs met whole: " + ", ".join(f"{met[' '.join(pair)]} of {' '.join(pair)}" for pair in sorted(PAIRS)))
    unmet = count >= 100 and not all(met[what] for what in (*COUNTED, *map(" ".join, PAIRS)))
    print(f"{count} guests, {steps} steps, {len(others)} differ" + ", and not each that is counted was met" * unmet)
    sys.exit(1 if others or unmet else 0)


if __name__ == "__main__":
    main()
