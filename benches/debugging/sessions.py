#!/usr/bin/env python3
"""sessions.py PROGRAM [COUNT [SEED [FIRST]]]: holds COUNT sessions of a debugger, 10,000 by itself, over logs of guests that fall by chance (../programs), ten over each.

Before them `goto` tells each moment of the log's line: whose step comes next and at which counts, and `trace` what that step reads and writes. A session goes to moments,
steps, continues and goes back between random breakpoints and watchpoints; where it must stop is reckoned from the table of the steps alone. At each stop the registers and
pc of each hart must be those that any other session saw at this moment, and at some of them those that `replay .. at` prints; so must RAM of a guest with one hart. Each
guest is made from SEED (by itself by chance, and printed) and its number, from FIRST on. What differs is printed, and its files are kept in the temporary folder.
"""

import os
import random
import re
import shutil
import subprocess
import sys
import tempfile
from concurrent.futures import ProcessPoolExecutor

HERE = os.path.dirname(os.path.abspath(__file__))
sys.path[:0] = [os.path.dirname(HERE), os.path.join(os.path.dirname(HERE), "programs")]
sys.dont_write_bytecode = True
from calls import call
from programs import image_of, script_of

SECONDS = 60
SESSIONS = 10  # over each guest
STEPS = 12  # of each session
BREAK, WRITE, READ, ACCESS = "0", "2", "3", "4"  # points by their packets
WIDTHS = {0: 1, 1: 2, 2: 4, 4: 1, 5: 2}  # of loads and stores by funct3


class Wrong(Exception):
    """Something differs."""


class Debugger:
    """A session: packets and their answers."""

    def __init__(self, program, words):
        self.process = subprocess.Popen([program, "debug", *words], stdin=subprocess.PIPE, stdout=subprocess.PIPE, stderr=subprocess.PIPE)
        self.held = b""

    def read(self, end, more=0):
        """What comes up to these bytes and so many behind them."""
        while end not in self.held or len(self.held) < self.held.index(end) + len(end) + more:
            piece = os.read(self.process.stdout.fileno(), 65536)
            if not piece:
                raise Wrong(f"it ended, {self.process.stderr.read()}")
            self.held += piece
        at = self.held.index(end) + len(end) + more
        piece, self.held = self.held[:at], self.held[at:]
        return piece

    def ask(self, text):
        """The answer to a packet."""
        self.process.stdin.write(b"$%s#%02x" % (text.encode(), sum(text.encode()) % 256))
        self.process.stdin.flush()
        return self.heard()

    def heard(self):
        answer = self.read(b"#", 2).lstrip(b"+")
        if answer[:1] != b"$" or int(answer[-2:], 16) != sum(answer[1:-3]) % 256:
            raise Wrong(f"no packet: {answer}")
        self.process.stdin.write(b"+")
        return answer[1:-3].decode()

    def monitor(self, text):
        """What a command of `monitor` prints."""
        answer, printed = self.ask("qRcmd," + text.encode().hex()), b""
        while answer[:1] == "O" and answer != "OK":
            printed += bytes.fromhex(answer[1:])
            answer = self.heard()
        return (printed if answer == "OK" else bytes.fromhex(answer)).decode().strip()

    def place(self):
        """The moment and the counts."""
        said = self.monitor("where")
        found = re.fullmatch(r"term \d+ moment (\d+) of (\d+) counts((?: \d+)+)", said)
        if not found:
            raise Wrong(f"where says {said}")
        return int(found[1]), int(found[2]), tuple(map(int, found[3].split()))

    def registers(self, harts):
        """x0 to x31 and pc of each hart."""
        told = []
        for hart in range(harts):
            if self.ask(f"Hg{hart + 1}") != "OK":
                raise Wrong("Hg")
            told.append(self.ask("g")[: 33 * 8])
        return tuple(told)

    def memory(self, address, length):
        return self.ask(f"m{address:x},{length:x}")

    def close(self):
        self.process.stdin.close()
        self.process.stdout.close()
        if self.process.wait(SECONDS) != 0:
            raise Wrong(f"status {self.process.returncode}")


def registers_of(text, hart):
    """The same from a machine's text."""
    words, pc, here = [0] * 32, None, None
    for line in text.splitlines():
        fields = line.split()
        if fields[0] == "hart":
            here = int(fields[1])
            if here == hart:
                pc = int(fields[5], 16)
        elif here == hart and re.fullmatch(r"x\d+", fields[0]):
            words[int(fields[0][1:])] = int(fields[1], 16)
    return "".join(word.to_bytes(4, "little").hex() for word in [*words, pc])


def memory_of(text, address, length):
    """RAM from a machine's text."""
    bytes_ = bytearray(length)
    for line in text.splitlines():
        found = re.fullmatch(r"(8[0-9a-f]{7}) ([0-9a-f]{8})", line)
        if found and address <= int(found[1], 16) < address + length:
            at = int(found[1], 16) - address
            bytes_[at : at + 4] = int(found[2], 16).to_bytes(4, "little")
    return bytes_.hex()


class Step:
    """What a line of `trace` says of a step."""

    def __init__(self, line):
        self.pc = int(re.search(r" pc ([0-9a-f]{8})", line)[1], 16)
        word = re.search(r" fetch ([0-9a-f]{8})", line)
        width = WIDTHS.get(int(word[1], 16) >> 12 & 7, 4) if word else 0
        read, written = re.search(r" read ([0-9a-f]{8})", line), re.search(r" write ([0-9a-f]{8})", line)
        self.read = range(int(read[1], 16), int(read[1], 16) + width) if read else range(0)
        self.written = range(int(written[1], 16), int(written[1], 16) + width) if written else range(0)

    def touches(self, kind, address, length):
        meets = lambda bytes_: bool(bytes_) and bytes_.start < address + length and address < bytes_.stop
        return (kind != WRITE and meets(self.read)) or (kind != READ and meets(self.written))


class Line:
    """The steps of a log in their order."""

    def __init__(self, debugger, traces):
        moment, last, counts = debugger.place()
        self.harts, self.counts = len(counts), [None] * (last + 1)
        self.counts[0], steps = tuple([0] * self.harts), [None] * last
        for hart, lines in enumerate(traces):
            for number, step in enumerate(lines, 1):
                debugger.monitor(f"goto {hart} {number}")
                moment, _, counts = debugger.place()
                if moment == 0 or steps[moment - 1] is not None or counts[hart] != number:
                    raise Wrong(f"goto {hart} {number} goes to moment {moment}, counts {counts}")
                steps[moment - 1], self.counts[moment] = (hart, step), counts
        if None in steps or any(sum(counts) != moment for moment, counts in enumerate(self.counts)):
            raise Wrong("some moment is nobody's")
        self.steps, self.seen = steps, {}

    def is_at(self, moment, points):
        """Whether the step from a moment is at a breakpoint."""
        return moment < len(self.steps) and any(kind == BREAK and self.steps[moment][1].pc == address for kind, address, _ in points)

    def is_watched(self, moment, points):
        return any(kind != BREAK and self.steps[moment][1].touches(kind, address, length) for kind, address, length in points)

    def onward(self, moment, points):
        """Where `c` stops: before a step that is watched, which gdb takes before it looks, or at a breakpoint."""
        for later in range(moment + 1, len(self.steps) + 1):
            if self.is_watched(later - 1, points):
                return later - 1
            if self.is_at(later, points):
                return later
        return len(self.steps)

    def back(self, moment, points):
        """Where `bc` stops: behind a step that is watched, or at a breakpoint."""
        for earlier in range(moment - 1, -1, -1):
            if self.is_at(earlier, points):
                return earlier
            if self.is_watched(earlier, points):
                return earlier + 1
        return 0

    def after(self, moment, hart):
        """The moment at which the hart has one step more, if there is one."""
        return next((later for later in range(moment + 1, len(self.steps) + 1) if self.steps[later - 1][0] == hart), moment)

    def before(self, moment, hart):
        """The moment from which the hart took its last step, if it took one."""
        return next((earlier for earlier in range(moment - 1, -1, -1) if self.steps[earlier][0] == hart), moment)


def points_by(chance, line):
    """Some breakpoints and watchpoints, mostly where steps are."""
    points = []
    for _ in range(chance.choice([0, 1, 1, 2, 4])):
        step = chance.choice(line.steps)[1] if line.steps else None
        bytes_ = step and (step.written or step.read)
        if bytes_ and chance.randrange(3):
            points.append((chance.choice([WRITE, READ, ACCESS]), bytes_.start + chance.choice([0, 0, 0, 1, -1]), chance.choice([1, 2, 4, 8])))
        else:
            points.append((BREAK, step.pc if step else 0x80000000, 4))
    return sorted(set(points))


def looked_at(program, chance, debugger, line, expected):
    """Compares what the session shows with what it must."""
    moment, _, counts = debugger.place()
    if moment != expected or counts != line.counts[moment]:
        raise Wrong(f"at moment {moment} of counts {counts}, expected {expected}, {line.counts[expected]}")
    shown = debugger.registers(line.harts)
    if line.seen.setdefault(moment, shown) != shown:
        raise Wrong(f"two machines at moment {moment}")
    if chance.randrange(8) == 0:
        hart = chance.randrange(line.harts)
        status, text, _ = call(program, ["replay", "image", "log", "at", str(hart), str(counts[hart])], SECONDS)
        if status != 0 or registers_of(text.decode(), hart) != shown[hart]:
            raise Wrong(f"moment {moment} of hart {hart} is not that of replay at")
        if line.harts == 1 and debugger.memory(0x80000000, 1024) != memory_of(text.decode(), 0x80000000, 1024):
            raise Wrong(f"RAM at moment {moment} is not that of replay at")


def session(program, chance, line):
    """One session of random steps."""
    debugger, moment = Debugger(program, ["image", "log"]), 0
    looked_at(program, chance, debugger, line, 0)
    for _ in range(STEPS):
        how, points = chance.randrange(7), points_by(chance, line)
        for kind, address, length in points:
            if debugger.ask(f"Z{kind},{address:x},{length:x}") != "OK":
                raise Wrong("Z")
        if how < 2:
            debugger.ask("c")
            moment = line.onward(moment, points)
        elif how < 4:
            debugger.ask("bc")
            moment = line.back(moment, points)
        elif how == 4:
            hart = chance.randrange(line.harts)
            debugger.ask(f"Hc{hart + 1}")
            debugger.ask("bs")
            moment = line.before(moment, hart)
        elif how == 5:
            hart = chance.randrange(line.harts)
            debugger.ask(f"vCont;s:{hart + 1}")
            moment = line.after(moment, hart)
        elif line.steps:
            moment = chance.randrange(1, len(line.steps) + 1)
            hart = line.steps[moment - 1][0]
            debugger.monitor(f"goto {hart} {line.counts[moment][hart]}")
        for kind, address, length in points:
            debugger.ask(f"z{kind},{address:x},{length:x}")
        looked_at(program, chance, debugger, line, moment)
    debugger.close()


def record(program, chance):
    """Makes a guest in this folder, and its log. The lines of `trace` of each hart."""
    image, harts = image_of(chance, chance.randrange(4) == 0)
    with open("image", "w") as file:
        file.write(image)
    with open("script", "w") as file:
        file.write(re.sub(r"(?m)^(\d+) (\d+)", lambda line: f"{line[1]} {int(line[2]) // 12}", script_of(chance, harts)))
    status, text, _ = call(program, ["run", "image", "script", str(chance.choice([20, 60, 250])), "log"], SECONDS)
    if status != 0:
        raise Wrong(f"run ended {status}")
    traces = []
    for hart in range(harts):
        count = int(re.search(rf"^hart {hart} count (\d+)", text.decode(), re.M)[1])
        lines = call(program, ["trace", "image", "log", str(hart), "0", str(count)], SECONDS)[1].decode().splitlines() if count else []
        if [int(line.split()[1]) for line in lines] != list(range(count)):
            raise Wrong(f"trace of hart {hart} has {len(lines)} lines of {count}")
        traces.append([Step(line) for line in lines])
    return traces


def over_one(program, chance):
    """The sessions over one guest."""
    traces = record(program, chance)
    debugger = Debugger(program, ["image", "log"])
    line = Line(debugger, traces)
    debugger.close()
    for _ in range(SESSIONS):
        session(program, chance, line)
    return len(line.steps)


def batch(program, seed, first, count):
    """So many guests: which differ, and how many moments their lines have."""
    others, moments = [], 0
    folder = tempfile.mkdtemp(prefix="sessions-", dir="/dev/shm")
    try:
        for number in range(first, first + count):
            at = os.path.join(folder, str(number))
            os.mkdir(at)
            os.chdir(at)
            try:
                moments += over_one(program, random.Random(f"{seed} {number}"))
            except Wrong as wrong:
                kept = os.path.join(tempfile.gettempdir(), f"sessions-{seed}-{number}")
                shutil.copytree(at, kept, dirs_exist_ok=True)
                others.append(f"guest {number}: {wrong}, in {kept}")
            os.chdir(folder)
            shutil.rmtree(at)
    finally:
        os.chdir("/")
        shutil.rmtree(folder)
    return others, moments


def main():
    program = os.path.abspath(sys.argv[1])
    guests = max(1, (int(sys.argv[2]) if sys.argv[2:] else 10_000) // SESSIONS)
    seed = sys.argv[3] if sys.argv[3:] else str(random.randrange(10**9))
    first = int(sys.argv[4]) if sys.argv[4:] else 0
    print(f"seed {seed}", flush=True)
    others, moments = [], 0
    with ProcessPoolExecutor(int(os.environ.get("JOBS", "2"))) as pool:
        parts = [pool.submit(batch, program, seed, at, min(10, first + guests - at)) for at in range(first, first + guests, 10)]
        for part in parts:
            more, count = part.result()
            others, moments = others + more, moments + count
    for other in others:
        print(other)
    print(f"{guests * SESSIONS} sessions over {guests} logs of {moments} steps: {len(others)} logs of which one differs")
    return 1 if others else 0


if __name__ == "__main__":
    sys.exit(main())
