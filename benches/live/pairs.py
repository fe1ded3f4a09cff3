"""A pair as processes in a folder, over FIFOs: three keepers of whom two must hold an answer, and primaries one after the other."""

import hashlib
import os
import signal
import subprocess

KEEPERS, NEED = 3, 2


def onto(processor):
    """What a process that begins does to run on this processor alone; nothing where it is None."""
    return None if processor is None else lambda: os.sched_setaffinity(0, {processor})


def places():
    """A processor of its own for the primary and for each keeper, by the name of the process, where there are as many."""
    names = ["primary"] + [f"keeper.{k}" for k in range(KEEPERS)]
    processors = sorted(os.sched_getaffinity(0))
    return dict(zip(names, processors)) if len(processors) >= len(names) else None


class Pair:
    """Keepers that run, each with a log, and the primary that leads, if one does. `around` has, for the name of a process, what its environment has more,
    and `on` the processor on which it runs. Keepers acknowledge by a path each, or all by one."""

    def __init__(self, live, image, folder, around=None, is_told=False, on=None, by_one=False):
        self.live, self.image, self.folder, self.around, self.is_told = os.path.abspath(live), os.path.abspath(image), folder, around or {}, is_told
        self.on = on or {}
        self.acks = [f"acks.{0 if by_one else k}" for k in range(KEEPERS)]
        self.primary, self.term = None, 0
        os.makedirs(folder)
        self.frames = [f"frames.{k}" for k in range(KEEPERS)]
        for name in ["in", "out", *self.frames, *sorted(set(self.acks))]:
            os.mkfifo(self.at(name))
        self.name = os.urandom(8).hex()
        self.unmade = [k for k in range(KEEPERS) if self.make(k) != 0]
        self.keepers = [None] * KEEPERS
        for k in range(KEEPERS):
            self.keep(k)

    def at(self, name):
        return os.path.join(self.folder, name)

    def faults(self, name):
        """The faults that a process has told on standard error."""
        with open(self.at(f"{name}.faults")) as file:
            return "".join(line for line in file if not line.startswith("note "))

    def start(self, name, *words, out=None):
        """Starts a process, which says its faults into a file with its name."""
        with open(self.at(f"{name}.faults"), "ab") as faults:
            return subprocess.Popen(
                [self.live, *words],
                stdin=subprocess.DEVNULL,
                stdout=out or subprocess.DEVNULL,
                stderr=faults,
                cwd=self.folder,
                env={**os.environ, **self.around.get(name, {})},
                preexec_fn=onto(self.on.get(name)),
            )

    def make(self, k):
        """Makes keeper K's log: the status. Where it is refused what is left of it goes away, and it is made with nothing refused."""
        make = lambda: self.start("make", "make", self.image, str(k), str(KEEPERS), str(NEED), self.name, f"log.{k}").wait()
        status = make()
        if status != 0:
            self.around = {}
            for name in (f"log.{k}", f"log.{k}.fences"):
                if os.path.exists(self.at(name)):
                    os.remove(self.at(name))
            make()
        return status

    def keep(self, k):
        """Starts keeper K. Where it is to be told, what it acknowledges goes into the file `told.K` too."""
        told = [f"told.{k}"] * self.is_told
        for name in told:
            open(self.at(name), "ab").close()
        self.keepers[k] = self.start(f"keeper.{k}", "keeper", self.image, str(k), f"log.{k}", "from", self.frames[k], "to", self.acks[k], *told)

    def hand(self, k):
        """Has keeper K's log handed over to the term: the status."""
        with open(self.at(f"handed.{k}"), "wb") as handed:
            return self.start("hand", "hand", self.image, str(k), f"log.{k}", str(self.term), out=handed).wait()

    def lead(self, keepers=(0, 1)):
        """The next term is led from what these keepers hand over. Whether all could."""
        self.term += 1
        if any([self.hand(k) for k in keepers]):
            return False
        words = ["primary", self.image, str(self.term), str(KEEPERS), str(NEED), "in", "in", "out", "out", "to", *self.frames, "from", *sorted(set(self.acks))]
        self.primary = self.start("primary", *words, "with", *[f"handed.{k}" for k in keepers])
        return True

    def kill(self, process):
        """Ends a process as a machine that stops would."""
        if process is not None and process.poll() is None:
            process.send_signal(signal.SIGKILL)
        if process is not None:
            process.wait()

    def stop(self):
        for process in [self.primary, *self.keepers]:
            self.kill(process)


def served(words):
    """What the service of guests/service answers to words that are taken in order, each as a client prints it."""
    book, lines = [0] * 40, []
    for number, word in enumerate(words):
        asked, seat, client = word >> 24, word >> 16 & 0xFF, word & 0xFFFF
        is_free, is_own = book[seat] == 0, book[seat] == client
        if asked == 1 and is_free:
            book[seat] = client
        if asked == 2 and is_own:
            book[seat] = 0
        is_done = asked == 3 or is_own or asked == 1 and is_free
        lines.append(f"number {number} word {0xA0 if is_done else 0xB0:02x}{seat:02x}{book[seat]:04x}\n")
    return "".join(lines)


def counts_of(text):
    """The counts of a position of a term, by `workbench cut`."""
    words = next((line.split() for line in text.splitlines() if line.startswith("position ")), [])
    return (int(words[2]), list(map(int, words[6:]))) if words else (0, [])


def is_whole(image, line):
    """Whether a line has the seal of the image's guest, so that nothing of it is torn off."""
    with open(image, "rb") as file:
        digest = hashlib.sha256(file.read()).digest()
    text = line.rpartition(b" ")[0]
    return line == text + b" " + hashlib.sha256(digest + text).digest()[:4].hex().encode() + b"\n"


def lost(workbench, pair, k):
    """What keeper K told that is not in its log: its acknowledgements that are not inside the log's position, or inside an earlier term's."""
    said = subprocess.run([workbench, "cut", pair.image, pair.at(f"log.{k}")], capture_output=True, text=True)
    term, counts = counts_of(said.stdout)
    with open(pair.at(f"told.{k}"), "rb") as file:
        acks = [list(map(int, line.split()[1:-1])) for line in file if line.startswith(b"ack ") and is_whole(pair.image, line)]
    return [ack for ack in acks if ack[0] > term or ack[0] == term and any(a > b for a, b in zip(ack[2:], counts))]


def outputs(workbench, pair):
    """The outputs of the machine to which all logs lead, each as a client prints it."""
    logs = [pair.at(f"log.{k}") for k in range(KEEPERS) if os.path.exists(pair.at(f"log.{k}"))]
    text = subprocess.run([workbench, "replay", pair.image, *logs], capture_output=True, text=True).stdout
    hart, lines = "", []
    for words in map(str.split, text.splitlines()):
        if words[0] == "hart":
            hart = words[1]
        if words[0] == "out" and hart == "0":
            lines.append(f"number {words[1]} word {words[5]}\n")
    return "".join(lines)
