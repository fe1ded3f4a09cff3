#!/usr/bin/env python3
"""long.py PROGRAM [STEPS [TIMES]]: steps back in a log of STEPS steps, 100,000,000 by itself, of one hart, and then in logs of as many steps of four harts. Each hart adds up
numbers, and stores the sums into a page of its own; in the last log all store into one page.

The log is recorded by `run`. A session goes on to its end, and from there, and then from places that fall by chance, it takes TIMES steps back of hart 0 (20 by itself), each of
which must leave it one step less; then it goes back to a watched word. It prints the longest time that each took and the mean. Needs /dev/shm.
"""

import os
import random
import shutil
import sys
import tempfile
import time

HERE = os.path.dirname(os.path.abspath(__file__))
sys.path[:0] = [HERE, os.path.dirname(HERE), os.path.join(os.path.dirname(HERE), "programs")]
sys.dont_write_bytecode = True
from calls import call
from programs import BASE, i_type, j_type, r_type, s_type, u_type
from sessions import Debugger, Wrong

SECONDS = 1800
SUM, NUMBER, PAGE, PLACE = 5, 6, 7, 8
WATCHED = BASE + 0x1010
OWN, SHARED = i_type(0xF14, 0, 2, PAGE, 0x73), i_type(0, 0, 0, PAGE, 0x13)  # the hart's number, by csrrs, or 0, by addi
WORDS = [
    i_type(12, PAGE, 1, PAGE, 0x13),  # slli
    u_type(BASE + 0x1000 >> 12, PLACE, 0x37),  # lui
    r_type(0, PLACE, PAGE, 0, PAGE, 0x33),  # add: the page
    # The loop.
    i_type(1, NUMBER, 0, NUMBER, 0x13),  # addi
    r_type(0, NUMBER, SUM, 0, SUM, 0x33),  # add
    i_type(0x3FC, NUMBER, 7, PLACE, 0x13),  # andi
    r_type(0, PLACE, PAGE, 0, PLACE, 0x33),  # add
    s_type(0, SUM, PLACE, 2),  # sw
    j_type(-20, 0),
]


def timed(debugger, text):
    """How many seconds an answer took."""
    begin = time.monotonic()
    debugger.ask(text)
    return time.monotonic() - begin


def step_back(debugger):
    """How many seconds a step back takes, which must leave hart 0 one step less."""
    count = debugger.place()[2][0]
    seconds = timed(debugger, "bs")
    if debugger.place()[2][0] != count - 1:
        raise Wrong(f"a step back from {count} leads to {debugger.place()[2][0]}")
    return seconds


def tell(what, times):
    print(f"{what}: {max(times):.3f} s at the most of {len(times)}, {sum(times) / len(times):.3f} s in the mean", flush=True)


def measure(program, harts, first, steps, times):
    with open("image", "w") as file:
        file.write(f"harts {harts}\npages {harts + 1}\n" + "".join(f"{word:08x}\n" for word in [first, *WORDS]))
    open("script", "w").close()
    status = call(program, ["run", "image", "script", str(steps // harts), "log"], SECONDS)[0]
    if status != 0:
        raise Wrong(f"run ended {status}")
    print(f"{harts} harts, {'one page' if first == SHARED else 'a page each'}, a log of {os.path.getsize('log')} bytes:")
    debugger = Debugger(program, ["image", "log"])
    debugger.ask("Hc1")
    tell("on to the end", [timed(debugger, "c")])
    tell("a step back from the end", [step_back(debugger) for _ in range(times)])
    there = []
    for _ in range(times):
        debugger.monitor(f"goto 0 {random.randrange(1, steps // harts + 1)}")
        there.append(step_back(debugger))
    tell("a step back elsewhere", there)
    debugger.ask(f"Z2,{WATCHED:x},4")
    tell("back to a watched word", [timed(debugger, "bc")])
    debugger.close()


def main():
    program = os.path.abspath(sys.argv[1])
    folder = tempfile.mkdtemp(prefix="long-", dir="/dev/shm")
    os.chdir(folder)
    try:
        for harts, first in ((1, OWN), (4, OWN), (4, SHARED)):
            measure(program, harts, first, int(sys.argv[2]) if sys.argv[2:] else 100_000_000, int(sys.argv[3]) if sys.argv[3:] else 20)
    finally:
        os.chdir("/")
        shutil.rmtree(folder)


if __name__ == "__main__":
    main()
