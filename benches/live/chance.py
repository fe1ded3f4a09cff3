#!/usr/bin/env python3
"""chance.py LIVE SECONDS SEED [FIRST [COUNT]]: starts processes of a pair on frames and lines that are changed by chance, for so many seconds; chance.sh says which,
and how they may end. A process is made from SEED and its number, from FIRST on: with COUNT it is these alone."""

import collections
import os
import random
import re
import shutil
import subprocess
import sys
import tempfile
import threading
import time
from concurrent.futures import ProcessPoolExecutor
from itertools import chain, repeat

HERE = os.path.dirname(os.path.abspath(__file__))
TOP = os.path.dirname(os.path.dirname(HERE))
sys.path[:0] = [os.path.dirname(HERE), f"{os.path.dirname(HERE)}/fuzz"]
sys.dont_write_bytecode = True
from calls import HUNG, call, contents
from cases import digest
from fuzz import NUMBERS, bytes_changed, frames_of, is_long, log_changed

SECONDS = 60
WAITED = 20  # so many seconds may pass until a process over FIFOs has done what it was sent last
SAYS_ALL = "harts 1 pages 1 f00000b7 00000293 00001337 00135313 0040a103 fe510ee3 0060a623 0000a183 00010293 0030a423 fe9ff06f"
SAID = 0x77123456
MAKE = "make image 0 1 1 0123456789abcdef log".split()


def sealed(image, text):
    return text + b" " + digest(digest(image) + text)[:4].hex().encode() + b"\n"


class Guest:
    """An image, and what processes of its pair have sent each other when nothing was changed."""

    def __init__(self, live, folder, image):
        self.image, words = image, lambda many: [f"0 word 0107{n % 7 + 1:04x} {n}\n" for n in range(many)]
        os.makedirs(folder)
        os.chdir(folder)
        files = {"image": image, "none": b"", "requests": "".join([*words(9), "0 word 00000001\n", "0 from 3\n"]).encode()}
        for name, data in {**files, "out": b"", "frames": b"", "acks": b""}.items():
            with open(name, "wb") as file:
                file.write(data)
        self.does(live, *MAKE)
        self.handed = self.does(live, "hand", "image", "0", "log", "1")
        shutil.copy(".out", "handed")
        self.does(live, *"primary image 1 1 1 in requests out out to frames from none with handed".split())
        self.frames = contents("frames")
        self.does(live, *"keeper image 0 log from frames to acks".split())
        self.acks, self.log, self.requests = contents("acks"), contents("log"), files["requests"]
        self.handed = self.does(live, "hand", "image", "0", "log", "2")
        self.fences = contents("log.fences").partition(b"\n")[2]
        self.answers = b"".join(b"term 1 hart 0 number %d step %d word a007%04x\n" % (n, 300 * n, n % 7 + 1) for n in range(9))
        self.words = b"".join(b"0107%04x\n" % (n % 7 + 1) for n in range(9))

    def does(self, live, *words):
        status, out, err = call(live, list(words), SECONDS)
        if status != 0:
            sys.exit(f"{' '.join(words)}: {status}, {err}")
        return out


def lines_changed(chance, data, image):
    """Lines with a change; seals are right again, mostly."""
    lines = data.split(b"\n")
    at, other, how = chance.randrange(len(lines)), chance.randrange(len(lines)), chance.randrange(9)
    if how == 0:
        lines[at : at + 1] = []
    elif how == 1:
        lines.insert(other, lines[at])
    elif how == 2:
        lines.insert(at, b"x" * chance.choice([1, 255, 1000, 1023, 1024, 1025, 4095, 4096, 9000]))
    elif how == 3:
        lines.insert(at, chance.randbytes(chance.randrange(60)))
    elif how < 7:
        number = str(chance.choice(NUMBERS)).encode()
        places = [it.span() for it in re.finditer(rb"(?<= )\d+\b", lines[at])]
        if places:
            start, end = chance.choice(places)
            lines[at] = lines[at][:start] + number + lines[at][end:]
        if re.match(rb"(ack|again|fence|handed|pair|keeps) ", lines[at]) and b" " in lines[at]:
            lines[at] = sealed(image, lines[at].rsplit(b" ", 1)[0])[:-1]
    else:
        return bytes_changed(chance, data)
    return b"\n".join(lines)


def times(chance, change, data, *more):
    """Data that is changed once or several times; sometimes not at all, or nothing of it is left."""
    for _ in range(chance.choice([0, 1, 1, 1, 2, 3, 5])):
        data = change(chance, data, *more)
    return chance.choice([data] * 20 + [b"", chance.randbytes(chance.choice([1, 40, 5000]))])


def handed_changed(chance, data, image):
    """What was handed over, with a change of its frames, whose length is told as it is then, or of its bytes."""
    pair, line, frames = (data.split(b"\n", 2) + [b"", b""])[:3]
    how = chance.randrange(5)
    change = lambda text: lines_changed(chance, text, image).replace(b"\n", b"")
    if how == 0:
        return bytes_changed(chance, data)
    if how == 1:
        return b"\n".join([change(pair), line, frames])
    if how == 2:
        return b"\n".join([pair, change(line), frames])
    frames = log_changed(chance, frames, image)
    words = line.split(b" ")
    return pair + b"\n" + sealed(image, b" ".join([*words[:3], b"%d" % len(frames)])) + frames if len(words) == 5 else data


def frames_in(handed):
    """What stands behind the lines of pair and keeper."""
    return (handed.split(b"\n", 2) + [b"", b""])[2]


def has_files(live, files):
    """Makes the files: a log and its fences as they are made, with what they have behind that."""
    for name, data in files.items():
        if name == "log":
            call(live, MAKE, SECONDS)
        with open(name, "ab" if name == "log.fences" else "wb") as file:
            file.write(data)


def made(chance, guests):
    """The words of a process over files, and the files."""
    guest = chance.choice(guests)
    image, kind = guest.image, chance.choice(["keeper", "keeper", "hand", "primary", "primary", "client"])
    frames = lambda: times(chance, log_changed, guest.frames, image)
    lines = lambda data: times(chance, lines_changed, data, image)
    files = {"image": image, "out": b"", "frames": b"", "acks": lines(guest.acks)}
    if kind == "keeper":
        files.update({"log": chance.choice([b"", guest.log, frames()]), "log.fences": lines(guest.fences), "one": frames(), "two": frames(), "acks": b""})
        words = "keeper image 0 log from one two to acks"
    elif kind == "hand":
        files.update({"log": chance.choice([guest.log, frames()]), "log.fences": lines(guest.fences)})
        words = f"hand image 0 log {chance.choice([1, 2, 3, 4, 2**32 - 1])}"
    elif kind == "primary":
        handed = times(chance, handed_changed, guest.handed, image)
        if chance.randrange(2) or is_long(frames_in(handed)):
            handed = guest.handed
        files.update({"handed": handed, "requests": lines(guest.requests)})
        words = f"primary image {chance.choice([2, 2, 2, 2, 3])} 1 1 in requests out out to frames from acks with handed"
    else:
        files.update({"words": lines(guest.words), "answers": lines(guest.answers)})
        words = f"client words {chance.choice([1, 2, 9])} {chance.choice([1, 100])} to out from answers"
    words = words.split()
    if chance.randrange(40) == 0:
        words[chance.randrange(len(words))] = chance.choice(["", "0", "-1", "image", "in", "to", "x" * 300, "1000000"])
    return words, files


def whole(data):
    return b"".join(frames_of(data)[0])


def otherwise(words, files, answer):
    """What is not as it must be in how a process over files ended."""
    status, out, err = answer
    if status not in (0, 1, 2):
        return f"ended {status}"
    if not re.fullmatch(rb"" if status == 0 else rb"fault usage\n" if status == 2 else rb"(fault [^\n]+\n)+", err):
        return f"status {status}, errors {err[:200]}"
    if b"fault memory\n" in err:
        return "memory refused"
    if words[0] == "keeper" and "log" in words:
        log = contents("log") or b""
        if not log.startswith(whole(files["log"])) and log != files["log"] or status == 0 and whole(log) != log:
            return "the log lost a frame, or has a part of one"
        if re.search(rb"(?m)^(?!again 0 |ack \d+ 0 ).", contents("acks") or b""):
            return "it told a line of another form"
    if words[0] == "hand" and status == 0 and frames_in(out) != files["log"][: len(frames_in(out))]:
        return "it handed over what its log has not"
    if words[0] == "client":
        numbers = [int(line.split()[1]) for line in out.splitlines()]
        if numbers != list(range(len(numbers))):
            return "its answers are out of order"
    return None


# ---- over FIFOs: whatever comes first, what is right behind it is taken


def feed(name, pieces, stop):
    """Writes the pieces into a FIFO, a connection each, between which whoever reads sees the end of the one before."""
    for piece in pieces:
        file = None
        while file is None and not stop.is_set():
            try:
                file = os.open(name, os.O_WRONLY | os.O_NONBLOCK)
            except OSError:
                time.sleep(0.005)
        if file is None:
            return
        try:
            while piece and not stop.is_set():
                try:
                    piece = piece[os.write(file, piece[:1500]) :]
                except BlockingIOError:
                    time.sleep(0.005)
        except BrokenPipeError:
            pass
        os.close(file)
        stop.wait(0.1)


def waits(process, what):
    """Whether something comes to be in time, while the process runs."""
    end = time.monotonic() + WAITED
    while time.monotonic() < end and not what() and process.poll() is None:
        time.sleep(0.005)
    return what()


def acknowledgements(image):
    """What a keeper says that has all that the primary sent so far, again and again."""
    while True:
        ends = [int.from_bytes(frame[58:66], "little") for frame in frames_of(contents("frames"))[0] if frame[3] == 1]
        yield sealed(image, b"ack 2 0 %d" % max(ends, default=0))


def over_fifos(chance, live, guest):
    """A keeper or a primary that is sent what was changed by chance, and then what is right: what is not as it must be then."""
    image, kind = guest.image, chance.choice(["keeper", "primary"])
    for name in ("one", "two"):
        os.mkfifo(name)
    files = {"image": image, "acks": b"", "out": b"", "frames": b"", "handed": guest.handed, **({"log": b""} if kind == "keeper" else {})}
    has_files(live, files)
    if kind == "keeper":
        words = "keeper image 0 log from one two to acks".split()
        junk = [times(chance, bytes_changed, guest.frames) for _ in range(3)]
        sent = {"one": chain(junk[:2], repeat(guest.frames)), "two": junk[2:]}
        done = lambda: frames_of(guest.frames)[0][-1] in contents("log")
    else:
        words = "primary image 2 1 1 in one out out to frames from two with handed".split()
        junk = [times(chance, lines_changed, data, image) for data in (guest.requests, guest.requests, guest.acks)]
        sent = {"one": chain(junk[:2], [b"0 word %08x\n" % SAID]), "two": chain(junk[2:], acknowledgements(image))}
        done = lambda: b"word %08x\n" % SAID in contents("out")
    with open(".err", "wb") as err:
        process = subprocess.Popen([live, *words], stdin=subprocess.DEVNULL, stdout=subprocess.DEVNULL, stderr=err)
    stop = threading.Event()
    threads = [threading.Thread(target=feed, args=(os.path.abspath(name), pieces, stop)) for name, pieces in sent.items()]
    for thread in threads:
        thread.start()
    is_done = waits(process, done)
    status = process.poll()
    stop.set()
    process.kill()
    process.wait()
    for thread in threads:
        thread.join()
    return None if is_done and status is None else f"{kind} over FIFOs: done {is_done}, ended {status}, errors {contents('.err')[:200]}"


def one(live, seed, number, guests, at):
    """One process: its kind, how it ended, and what is otherwise than it must be."""
    chance = random.Random(f"{seed} {number}")
    os.mkdir(at)
    os.chdir(at)
    if chance.randrange(30) == 0:
        wrong = over_fifos(chance, live, next(it for it in guests if it.image.startswith(b"harts 1\npages 1\nf00000b7")))
        return "over FIFOs", "done", wrong
    words, files = made(chance, guests)
    has_files(live, files)
    if "log" in files and chance.randrange(10) == 0:
        data = times(chance, lines_changed, contents("log.fences"), files["image"])
        with open("log.fences", "wb") as file:
            file.write(data)
    status, out, err = call(live, words, SECONDS)
    answer = status, out, re.sub(rb"(?m)^note .*\n", b"", err)
    fault = re.match(rb"fault (file|\w+( \d+ [a-z]+| [a-z]+)?)", answer[2])
    return words[0] if words[0] in ("keeper", "hand", "primary", "client") else "other", (fault.group().decode() if fault else "no fault"), otherwise(words, files, answer)


def batch(live, seed, first, count, guests, end):
    found, others, calls = collections.Counter(), [], 0
    folder = tempfile.mkdtemp(prefix="chance-", dir="/dev/shm")
    try:
        for number in range(first, first + count):
            if time.monotonic() > end:
                break
            at = os.path.join(folder, str(number))
            kind, how, wrong = one(live, seed, number, guests, at)
            calls += 1
            found[f"{kind}: {how}"] += 1
            os.chdir(folder)
            if wrong:
                kept = os.path.join(tempfile.gettempdir(), f"chance-{seed}-{number}")
                subprocess.run(["cp", "-r", at, kept], check=False)
                others.append(f"{number}: {wrong}, in {kept}")
            shutil.rmtree(at)
    finally:
        os.chdir("/")
        shutil.rmtree(folder)
    return found, others, calls


def main():
    live, seconds, seed = os.path.abspath(sys.argv[1]), float(sys.argv[2]), sys.argv[3]
    first, count = int(sys.argv[4]) if sys.argv[4:] else 0, int(sys.argv[5]) if sys.argv[5:] else 10**9
    work = tempfile.mkdtemp(prefix="chance-", dir="/dev/shm")
    images = [SAYS_ALL.replace(" ", "\n").replace("harts\n", "harts ").replace("pages\n", "pages ").encode() + b"\n"]
    images += [contents(f"{TOP}/{name}") for name in ("guests/images/service.image", "samples/load_store.image")]
    guests = [Guest(live, f"{work}/{number}", image) for number, image in enumerate(images)]
    os.chdir("/")
    shutil.rmtree(work)
    print(f"seed {seed}, from {first} on", flush=True)
    found, others, calls, end, jobs = collections.Counter(), [], 0, time.monotonic() + seconds, int(os.environ.get("JOBS", "2"))
    with ProcessPoolExecutor(jobs) as pool:
        at, todo = first, []
        while at < first + count and time.monotonic() < end:
            while len(todo) < 2 * jobs and at < first + count:
                todo.append(pool.submit(batch, live, seed, at, min(100, first + count - at), guests, end))
                at += 100
            some, wrong, many = todo.pop(0).result()
            found, others, calls = found + some, others + wrong, calls + many
            print("\n".join(wrong), end="\n" * bool(wrong), flush=True)
        for some, wrong, many in (it.result() for it in todo):
            found, others, calls = found + some, others + wrong, calls + many
            print("\n".join(wrong), end="\n" * bool(wrong), flush=True)
    for name in sorted(found):
        print(f"  {name}: {found[name]}")
    print(f"{calls - len(others)} passed, {len(others)} failed")
    sys.exit(bool(others))


if __name__ == "__main__":
    main()
