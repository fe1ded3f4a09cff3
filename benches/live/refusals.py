#!/usr/bin/env python3
"""refusals.py LIVE WORKBENCH LIBRARY [quick]: refuses file calls of the processes of a pair in turn, by the library that refuse_calls.c is; refusals.sh says what
is refused, and what must hold behind it. With `quick` three calls of each row are tried, each once."""

import os
import re
import shutil
import struct
import subprocess
import sys
import tempfile
import time
from concurrent.futures import ProcessPoolExecutor

HERE = os.path.dirname(os.path.abspath(__file__))
TOP = os.path.dirname(os.path.dirname(HERE))
sys.path.insert(0, HERE)
sys.dont_write_bytecode = True
from pairs import KEEPERS, Pair, lost, outputs, served

IMAGE = f"{TOP}/guests/images/service.image"
WORDS = [0x01070011, 0x01070012, 0x01080012, 0x03070012, 0x02070011, 0x01070012]
SECONDS = float(os.environ.get("SECONDS_EACH", "20"))
NAMES, KINDS, ERRORS = ["make", "keeper.0", "hand", "primary", "client"], ["write", "sync", "open", "other"], ["full", "once"]
# calls that there must be: what is made, acknowledged or handed over is on disk, a keeper cuts its log as it begins, and what was handed over goes away
FAULTS = re.compile(r"(fault [^\n]+\n)+")
OWED = {("make", "sync"), ("keeper.0", "sync"), ("hand", "sync"), ("keeper.0", "other"), ("primary", "other")}


def waits(what):
    """Whether something comes to be in time."""
    end = time.monotonic() + SECONDS
    while time.monotonic() < end:
        if what():
            return True
        time.sleep(0.005)
    return what()


class Run:
    """A pair in which a call of one process is refused, and then whoever ended begins again."""

    def __init__(self, programs, folder, name, kind, error, at):
        live, self.workbench, library = programs
        self.tell = f"{folder}.calls"
        with open(self.tell, "wb") as file:
            file.write(bytes(8))
        around = {"LD_PRELOAD": library, "CALLS_OF": kind, "CALLS_AS": error, "CALLS_AT": str(at), "CALLS_TELL": self.tell}
        self.name, self.wrong, self.became = name, [], "went on"
        self.pair = Pair(live, IMAGE, folder, {name: around}, is_told=True)
        with open(self.pair.at("words"), "w") as file:
            file.write("".join(f"{word:08x}\n" for word in WORDS))
        self.clients = 0
        if self.pair.unmade:
            self.is_told("make", 1)

    def calls(self):
        with open(self.tell, "rb") as file:
            return struct.unpack("<Q", file.read(8))[0]

    def asks(self):
        """A client that asks for all words."""
        self.clients += 1
        with open(self.pair.at(f"answers.{self.clients}"), "wb") as out:
            return self.pair.start("client", "client", "words", "2", "200", "to", "in", "from", "out", out=out)

    def printed(self):
        with open(self.pair.at(f"answers.{self.clients}")) as file:
            return file.read()

    def is_told(self, name, status):
        """A process ended, as it may: with status 1 and lines of fault, as a path that fails is told before. Nothing is refused from here on."""
        if status != 1:
            self.wrong.append(f"it ended with {status}")
        if not FAULTS.fullmatch(self.pair.faults(name)):
            self.wrong.append(f"it said {self.pair.faults(name)!r}")
        self.pair.around, self.became = {}, "ended"

    def is_ended(self, process):
        """Where a path fails for good the process goes on and has told it: whoever reads that ends it. Nothing is refused from here on."""
        if not FAULTS.fullmatch(self.pair.faults(self.name)):
            self.wrong.append("nothing comes to an end")
        self.pair.kill(process)
        self.pair.around, self.became = {}, "was ended"

    def mends(self, k):
        """Where keeper K's log is marked as one that failed, it neither is handed over nor begins; then the mark is removed, as whoever looked at the disk would do."""
        mark = self.pair.at(f"log.{k}.failed")
        if not os.path.exists(mark):
            return
        self.pair.kill(self.pair.keepers[k])
        self.pair.keep(k)
        if self.pair.hand(k) != 1 or self.pair.keepers[k].wait() != 1:
            self.wrong.append(f"keeper {k} goes on beside its mark")
        os.remove(mark)
        self.pair.keep(k)

    def leads(self, keepers=(0, 1)):
        """The next term is led; where a log could not be handed over to it, the one behind it."""
        if not self.pair.lead(keepers):
            self.is_told("hand", 1)
            for k in keepers:
                self.mends(k)
            self.pair.lead(keepers)

    def begins_again(self, client):
        """Whoever ended begins again, or another term is led: the client that runs then."""
        if self.name == "keeper.0":
            self.mends(0)
            if self.pair.keepers[0].poll() is not None:
                self.pair.keep(0)
        elif self.name == "primary":
            self.leads((1, 2))
        else:
            return self.asks()
        return client

    def goes_on(self):
        """All words have their answers in the end."""
        pair = self.pair
        self.leads()
        client = self.asks()
        meant = {"keeper.0": pair.keepers[0], "primary": pair.primary}.get(self.name, client)
        has_ended = lambda process: process.poll() is not None
        stands = not waits(lambda: has_ended(client) or has_ended(meant))
        before = self.printed()
        if stands or has_ended(meant) and (meant is not client or client.returncode != 0):
            if stands:
                self.is_ended(meant)
            else:
                self.is_told(self.name, meant.returncode)
            client = self.begins_again(client)
            if not waits(lambda: has_ended(client)):
                self.wrong.append("the client comes to no end")
        if client.poll() != 0 or self.printed() != served(WORDS) or not served(WORDS).startswith(before):
            self.wrong.append(f"the client ended with {client.poll()} and printed {before!r} and {self.printed()!r}")
        pair.kill(client)

    def end(self):
        """What is wrong, and the folder's end."""
        self.pair.stop()
        for k in range(KEEPERS):
            for ack in lost(self.workbench, self.pair, k):
                self.wrong.append(f"keeper {k} told {ack}, which its log has not")
        if outputs(self.workbench, self.pair) != served(WORDS):
            self.wrong.append("the logs lead elsewhere")
        return self.wrong


def one(programs, folder, name, kind, error, at):
    """One refusal: what became of the process, how many calls there were, and what is wrong."""
    run = Run(programs, folder, name, kind, error, at)
    try:
        run.goes_on()
    finally:
        wrong = run.end()
    calls = run.calls()
    if not wrong:
        shutil.rmtree(folder)
    return run.became, calls, [f"{name}, {kind} {at} {error}: {it}, in {folder}" for it in wrong]


def main():
    programs, quick = list(map(os.path.abspath, sys.argv[1:4])), sys.argv[4:] == ["quick"]
    work, passed, failed = tempfile.mkdtemp(prefix="refusals-", dir=os.environ.get("DISK", "/dev/shm")), 0, 0
    with ProcessPoolExecutor(int(os.environ.get("JOBS", "2"))) as pool:
        for name in NAMES:
            for kind in KINDS:
                _, calls, wrong = one(programs, f"{work}/{name}.{kind}.ample", name, kind, "once", 0)
                if calls == 0 and (name, kind) in OWED:
                    wrong.append(f"{name}, {kind}: it makes no such call")
                numbers = sorted({1, calls // 2, calls} - {0}) if quick else range(1, calls + 1)
                tries = [(error, at) for at in numbers for error in (ERRORS if not quick else ERRORS[at % 2 :][:1])]
                todo = [(f"{work}/{name}.{kind}.{error}.{at}", name, kind, error, at) for error, at in tries]
                found = [it.result() for it in [pool.submit(one, programs, *each) for each in todo]]
                wrongs = wrong + [line for _, _, lines in found for line in lines]
                ended = sum(became == "ended" for became, _, _ in found)
                bad = sum(bool(lines) for _, _, lines in found) + bool(wrong)
                passed, failed = passed + len(found) + 1 - bad, failed + bad
                print("\n".join(wrongs), end="\n" * bool(wrongs))
                print(f"{name}, {kind}: {calls} calls; of {len(found)} with one refused {ended} ended with their fault, {len(found) - ended} went on", flush=True)
    if not failed:
        shutil.rmtree(work)
    print(f"{passed} passed, {failed} failed")
    sys.exit(bool(failed))


if __name__ == "__main__":
    main()
