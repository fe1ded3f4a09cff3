#!/usr/bin/env python3
"""fuzz.py PROGRAM [COUNT [SEED [FIRST]]]: calls the program COUNT times, 100,000 by itself, on images, scripts, events and logs that are changed by chance.

What is changed are the files and words of the cases of crates/cases/data, with their frames in version 1 or 2. Of logs bytes are changed, and frames too,
which then get the digest that belongs to them, so that what is wrong is the body; an image that was changed may take its logs along. Each call is made from
SEED (by itself by chance, and printed) and its number, from FIRST on, and so can be made again.

A call must end in time with status 0 and no word on standard error, or with 1 or 2 and one line of fault. And where memory is ample it is not refused; what
`join` writes leads `cut` to what its logs led to, if nothing clashed, and `replay` too, if `audit` says yes; so do the logs in another order; the log of a
`run` replays to the text that was printed, and the text of an `audit` that says yes is that of a `replay`. Whatever is otherwise is printed, and its files
are kept in the temporary folder.
"""

import collections
import os
import random
import re
import shutil
import struct
import sys
import tempfile
import time
from concurrent.futures import ProcessPoolExecutor

HERE = os.path.dirname(os.path.abspath(__file__))
TOP = os.path.dirname(os.path.dirname(HERE))
sys.path.insert(0, os.path.dirname(HERE))
sys.dont_write_bytecode = True
from calls import call, contents
from cases import cases_of, digest, frame, harts_of, sealed

SECONDS = 60
STEPS = 20_000  # so many steps of a hart a log may tell of, where it is replayed
NUMBERS = [0, 1, 2, 3, 4, 5, 7, 8, 9, 31, 32, 33, 64, 65, 255, 256, 257, 1024, 4096, 65535, 65536, 2**31, 2**32 - 1, 2**32]
NUMBERS += [2**47, 2**48 - 1, 2**48, 2**63, 2**64 - 1, 10**15 - 1, 10**15]
OFFSETS = {1: [(32, "B"), (33, "B"), (34, "I"), (38, "I"), (42, "Q"), (50, "Q"), (58, "H")], 2: [(32, "B"), (33, "I"), (37, "I"), (41, "Q")]}
WORDS = ["0000006f", "f00000b7", "0020a423", "0000aa23", "0000a103", "0000a823", "800010b7", "0010a023", "0030a02f", "f1402573", "30046073", "30200073"]


def corpus():
    """The cases that files can show, in both versions of frames where they have both."""
    found = []
    for name in sorted(os.listdir(f"{TOP}/crates/cases/data")):
        for version in (1, 2):
            try:
                found += [case for case in cases_of(f"{TOP}/crates/cases/data/{name}", version) if case.on_disk and len(case.words) > 1]
            except (IndexError, struct.error):  # a byte is turned that this version has not
                pass
    return found


def bytes_changed(chance, data):
    """Bytes with one change."""
    at, some = chance.randrange(len(data) + 1), chance.randbytes(chance.choice([1, 1, 2, 4, 9]))
    end = min(len(data), at + chance.choice([1, 1, 2, 8, 40]))
    how = chance.randrange(6)
    if how == 0:
        return data[:at]
    if how == 1:
        return data[:at] + data[end:]
    if how == 2:
        return data[:at] + some + data[at:]
    if how == 3:
        return data[:end] + data[at:end] + data[end:]
    if how == 4 and at < len(data):
        return data[:at] + bytes([data[at] ^ 1 << chance.randrange(8)]) + data[at + 1 :]
    return data[:at] + some + data[at + len(some) :]


def few(chance):
    return str(chance.choice([0, 0, 0, 1, 1, 2, 3, 4, 5, 20, chance.choice(NUMBERS)]))


def event(chance):
    """A line of events."""
    one, other, word = few(chance), few(chance), f"{chance.getrandbits(32):08x}"
    verbs = [f"step {one}", f"timer {one}", f"word {one} {word}", "seal", f"deliver {one} {other}", f"join {one} {other}", f"ack {one}"]
    verbs += ["release", "stop", f"lose {one}", f"grant {one} {other} {few(chance)}", "step 0", "step 0", "deliver 0 1", "deliver 1 1"]
    return chance.choice(verbs)


def offer(chance):
    """A line of a script."""
    word = f"{chance.getrandbits(32):08x}"
    return f"{few(chance)} {few(chance)} " + chance.choice(["timer", f"word {word}"])


def instruction(chance):
    """A line of an image behind its second one."""
    return chance.choice(WORDS) if chance.randrange(3) else f"{int(chance.choice(WORDS), 16) ^ 1 << chance.randrange(32):08x}"


def text_changed(chance, data, line_of):
    """A text with a change of a line or of a number in it."""
    lines = data.split(b"\n")
    at, other = chance.randrange(len(lines)), chance.randrange(len(lines))
    how = chance.randrange(12)
    if how == 0:
        lines[at : at + 1] = []
    elif how == 1:
        lines.insert(other, lines[at])
    elif how == 2:
        lines[at], lines[other] = lines[other], lines[at]
    elif how == 3:
        lines[at] = re.sub(rb"\b\d{1,6}\b", str(chance.choice(NUMBERS)).encode(), lines[at], count=1)
    elif how == 4:
        return bytes_changed(chance, data)
    elif line_of is instruction and len(lines) > 3:
        at = chance.randrange(2, len(lines) - 1)
        lines[at : at + chance.randrange(2)] = [instruction(chance).encode()]
    else:
        lines.insert(chance.randrange(len(lines)), line_of(chance).encode())
    return b"\n".join(lines)


def frames_of(data):
    """The frames of a log, as far as their lengths go, and the rest."""
    found = []
    while data[:2] == b"VF" and len(data) >= 8:
        end = 40 + struct.unpack("<I", data[4:8])[0]
        if end > len(data):
            break
        found.append(data[:end])
        data = data[end:]
    return found, data


def random_frame(chance, image):
    """An opening or a piece, right or nearly so."""
    few = lambda: chance.choice([0, 0, 1, 1, 2, 3, 4, 5, 9, 20, chance.choice(NUMBERS)])
    harts = max(1, harts_of(image))
    if chance.randrange(3) == 0:
        words = ["opening", few() % 2**32, few() % 2**32, *[few() % 2**64 for _ in range(chance.choice([harts, harts, harts, 1, 9]) % 40)]]
        return frame(chance.choice([1, 2]), image, [words[0], *map(str, words[1:])])
    start = few() % 2**48
    words = ["piece", 1, chance.randrange(harts + 1) % 256, few() % 2**32, start, (start + few()) % 2**64]
    for _ in range(chance.choice([0, 0, 1, 2, 3, 8])):
        at, hart = (start + chance.choice([0, 1, 2, 3, few()])) % 2**64, chance.randrange(harts + 1) % 256
        words += chance.choice([["edge", at, hart, few() % 2**64], ["word", at, "0000002a"], ["timer", at], ["bell", at, hart]])
    return frame(chance.choice([1, 2]), image, [words[0], *map(str, words[1:])])


def frame_changed(chance, one):
    """A frame whose body is changed and whose digest is right again, mostly."""
    version, kind, body = one[2], one[3], one[8:-32]
    how = chance.randrange(5)
    if how == 0:
        version = chance.choice([1, 2, 2, 3])
    elif how == 1 and len(body) > 60 and kind in OFFSETS:
        at, form = chance.choice(OFFSETS[kind])
        value = chance.choice(NUMBERS) % 256 ** struct.calcsize(form)
        body = body[:at] + struct.pack("<" + form, value) + body[at + struct.calcsize(form) :]
    elif how == 2:
        kind = chance.choice([0, 1, 2, 3])
    else:
        body = body[:33] + bytes_changed(chance, body[33:])
    whole = sealed(version, kind, body)
    return bytes_changed(chance, whole) if chance.randrange(12) == 0 else whole


def log_changed(chance, data, image):
    """A log with a change of a frame or of its bytes."""
    frames, rest = frames_of(data)
    how = chance.randrange(8)
    if how == 0 or not frames:
        return bytes_changed(chance, data) if frames else data + random_frame(chance, image)
    at, other = chance.randrange(len(frames)), chance.randrange(len(frames))
    if how == 1:
        frames.insert(other, frames[at])
    elif how == 2:
        frames[at : at + 1] = []
    elif how == 3:
        frames[at], frames[other] = frames[other], frames[at]
    elif how == 4:
        frames.insert(other, random_frame(chance, image))
    else:
        frames[at] = frame_changed(chance, frames[at])
    return b"".join(frames) + rest


def taken_along(data, image):
    """A log with its frames of this image's guest."""
    frames, rest = frames_of(data)
    guest = digest(image) + bytes([harts_of(image) % 256])
    return b"".join(sealed(one[2], one[3], guest + one[41:-32]) for one in frames) + rest


def is_long(data):
    """Whether a log tells of so many steps that its replay may not end in time."""
    pieces = [one for one in frames_of(data)[0] if one[3] == 1 and len(one) >= 100]
    return any(struct.unpack("<Q", one[58:66])[0] > STEPS for one in pieces)


LOGS = {"replay": 2, "join": 3, "cut": 2, "audit": 2}  # where the names of logs begin


def roles(words):
    """The names of the image, of the texts and of the logs that a call reads."""
    image = words[1] if len(words) > 1 else None
    texts = words[2:3] if words[0] in ("run", "pair", "failover") else []
    return image, texts, words[LOGS[words[0]] :] if words[0] in LOGS else []


def words_changed(chance, words):
    """A call with a word changed, taken out, or put in."""
    at = chance.randrange(len(words))
    how = chance.randrange(4)
    if how == 0:
        return words[:at] + words[at + 1 :]
    if how == 1:
        return words[:at] + [words[at]] + words[at:]
    if how == 2:
        return words[:at] + [str(chance.choice(NUMBERS[:18]))] + words[at + 1 :]
    return words[:at] + [bytes_changed(chance, words[at].encode()).replace(b"\0", b"").decode("utf-8", "replace").replace("/", ".")] + words[at + 1 :]


def made(chance, cases):
    """A call and its files."""
    case = chance.choice(cases)
    words, files = list(case.words), dict(case.files)
    image, texts, logs = roles(words)
    for _ in range(chance.choice([1, 1, 1, 2, 2, 3, 5, 9])):
        which = chance.choice([name for name in [image, *texts * 3, *logs * 5] if name in files] or [None])
        if which is None:
            break
        if which in logs and which != image:
            files[which] = log_changed(chance, files[which], files.get(image, b""))
        else:
            line_of = instruction if which == image else event if words[0] == "failover" else offer
            files[which] = text_changed(chance, files[which], line_of)
            if which == image and chance.randrange(3):
                files.update({name: taken_along(files[name], files[image]) for name in logs if name in files and name != image})
    if logs and words[0] in LOGS and chance.randrange(2):
        verb = chance.choice(list(LOGS))
        words = [verb, image, *["made"] * (verb == "join"), *logs]
        if chance.randrange(4) == 0:
            words += logs[:7]
    if words[0] in ("replay", "audit") and any(is_long(files[name]) for name in logs if name in files):
        words = ["cut", image, *logs]
    if chance.randrange(50) == 0:
        words = words_changed(chance, words)
    return words, files


def otherwise(words, answer):
    """What is not as it must be in how a call ended."""
    status, _, err = answer
    if status not in (0, 1, 2):
        return f"ended {status}"
    right = rb"" if status == 0 else rb"fault usage\n" if status == 2 else rb"fault [^\n]+\n"
    if not re.fullmatch(right, err):
        return f"status {status}, errors {err[:200]}"
    return "memory refused" if err == b"fault memory\n" else None


def broken(program, words, answer):
    """Which law of the answers to several calls is broken, if one is."""
    status, out, _ = answer
    if status != 0 or words[0] not in ("run", *LOGS):
        return None
    again = lambda *other: call(program, list(other), SECONDS)
    image = words[1]
    if words[0] == "run":
        return None if again("replay", image, words[4]) == answer else "the log of the run replays otherwise"
    logs = words[LOGS[words[0]] :]
    orders = lambda: again("audit", image, *logs)[0] == 0
    if words[0] == "audit":
        return None if again("replay", image, *logs) == (0, out.removeprefix(b"audit yes\n"), b"") else "the replay of what was audited is another one"
    if words[0] in ("replay", "cut"):
        as_well = again(words[0], image, *reversed(logs)) == answer
        return None if as_well or words[0] == "replay" and not orders() else "the logs in another order lead elsewhere"
    if not out.endswith(b" clashes 0\n"):
        return None
    for verb in ["cut"] + ["replay"] * (not is_long(contents(words[2])) and orders()):
        if again(verb, image, words[2]) != again(verb, image, *logs):
            return f"{verb} of what was joined leads elsewhere"
    return None


def batch(program, seed, first, count, cases):
    """So many calls; how they ended, what was otherwise, and which was the slowest."""
    found, others, slowest = collections.Counter(), [], (0, first)
    folder = tempfile.mkdtemp(prefix="fuzz-", dir="/dev/shm")
    try:
        for number in range(first, first + count):
            chance = random.Random(f"{seed} {number}")
            words, files = made(chance, cases)
            at = os.path.join(folder, str(number))
            os.mkdir(at)
            os.chdir(at)
            for name, data in files.items():
                with open(name, "wb") as file:
                    file.write(data)
            began = time.monotonic()
            answer = call(program, words, SECONDS)
            took = time.monotonic() - began
            wrong = otherwise(words, answer) or (broken(program, words, answer) if chance.randrange(4) == 0 else None)
            fault = re.match(rb"fault (?:\w+(?= [a-z])|\w+)", answer[2])
            found[f"{words[0] if words and words[0] in (*LOGS, 'run', 'pair', 'failover') else 'other'} {answer[0]}"] += 1
            found[fault.group().decode() if fault else "no fault"] += 1
            slowest = max(slowest, (took, number))
            if wrong:
                kept = os.path.join(tempfile.gettempdir(), f"fuzz-{seed}-{number}")
                shutil.copytree(at, kept, dirs_exist_ok=True)
                others.append(f"call {number}: {wrong}: {' '.join(words)}, in {kept}")
            os.chdir(folder)
            shutil.rmtree(at)
    finally:
        os.chdir("/")
        shutil.rmtree(folder)
    return found, others, slowest


def main():
    program = os.path.abspath(sys.argv[1])
    count = int(sys.argv[2]) if sys.argv[2:] else 100_000
    seed = sys.argv[3] if sys.argv[3:] else str(random.SystemRandom().getrandbits(32))
    first = int(sys.argv[4]) if sys.argv[4:] else 0
    print(f"seed {seed}, calls {first} to {first + count - 1}", flush=True)
    cases, found, others, slowest = corpus(), collections.Counter(), [], (0, first)
    with ProcessPoolExecutor(int(os.environ.get("JOBS", "2"))) as pool:
        ends = range(first, first + count, 500)
        todo = [pool.submit(batch, program, seed, at, min(500, first + count - at), cases) for at in ends]
        for some, wrong, slow in (it.result() for it in todo):
            found.update(some)
            others += wrong
            slowest = max(slowest, slow)
            print("\n".join(wrong), end="\n" * bool(wrong), flush=True)
    for name in sorted(found):
        print(f"  {name}: {found[name]}")
    print(f"  the slowest was call {slowest[1]}, of {slowest[0]:.2f} seconds")
    print(f"{count} calls, {len(others)} otherwise than they must be")
    sys.exit(bool(others))


if __name__ == "__main__":
    main()
