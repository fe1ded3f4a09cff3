#!/usr/bin/env python3
"""packets.py PROGRAM [COUNT [SEED [FIRST]]]: holds COUNT sessions, 10,000 by itself, of a debugger that sends what falls by chance: packets of gdb, such packets with bytes or
numbers changed, put in and left out, packets of random bytes, packets with a wrong sum or without an end, long ones, and bytes between them.

A session ends with status 0 and not a word on standard error. What it says is `+`, `-` and packets with a right sum, one at the most for each packet that came whole, but
that `O` may stand before it. A packet of random bytes that no command begins with is answered by an empty packet or an error, and one with a wrong sum by `-`. The seed is
printed; given again, with the number of the first session, it makes the same. Needs /dev/shm.
"""

import os
import random
import re
import subprocess
import sys
from concurrent.futures import ProcessPoolExecutor

HERE = os.path.dirname(os.path.abspath(__file__))
SECONDS = 60
TOP = os.path.dirname(os.path.dirname(HERE))
KNOWN = [
    "qSupported:multiprocess+;swbreak+;hwbreak+;qRelocInsn+;fork-events+;vfork-events+;exec-events+;vContSupported+;QThreadEvents+;no-resumed+;memory-tagging+",
    "vMustReplyEmpty", "QStartNoAckMode", "Hg0", "Hg1", "Hc-1", "Hgp1.2", "T1", "T2", "T9", "qC", "qfThreadInfo", "qsThreadInfo", "qThreadExtraInfo,1", "qThreadExtraInfo,2",
    "?", "g", "p0", "p20", "p341", "pffff", "m80000000,4", "m8000100c,10", "m80000000,ffffffff", "mffffffff,8", "m0,1", "s", "c", "bs", "bc", "vCont?", "vCont;s:1", "vCont;s:2",
    "vCont;c", "vCont;s:1;c", "Z0,80000318,4", "Z2,8000100c,4", "Z3,8000100c,4", "Z4,8000100c,4", "Z1,80000318,4", "z0,80000318,4", "z2,8000100c,4",
    "qXfer:features:read:target.xml:0,1000", "qXfer:features:read:target.xml:10,20", "qXfer:features:read:other.xml:0,10", "qAttached", "G00", "P0=00000000", "M80000000,1:00",
    "X80000000,0:", "qTStatus", "qSymbol::", "D", "k",
    *("qRcmd," + text.encode().hex() for text in ["where", "goto 0 5", "goto 1 99999999999999", "goto 40 1", "output 0 0", "input 0 0", "edges", "who 8000100c", "race 8000100c", "help", ""]),
]
NUMBERS = ["0", "1", "ffffffff", "100000000", "ffffffffffffffff", "10000000000000000", "80000000", "-1", "", "7fffffff"]


def framed(body, off=0):
    return b"$" + body + b"#%02x" % ((sum(body) + off) % 256)


def changed(chance, body):
    """A packet's text with a few changes."""
    for _ in range(chance.choice([1, 1, 2, 4])):
        at, how = chance.randrange(len(body) + 1), chance.randrange(5)
        if how == 0:
            body = body[:at] + bytes([chance.randrange(256)]) + body[at + 1 :]
        elif how == 1:
            body = body[:at] + body[at + chance.choice([1, 2, 9]) :]
        elif how == 2:
            body = body[:at] + bytes(chance.randrange(256) for _ in range(chance.choice([1, 3, 40]))) + body[at:]
        elif how == 3:
            body = re.sub(rb"[0-9a-f]+", chance.choice(NUMBERS).encode(), body, count=1)
        else:
            body = body + body[:at]
    return body.replace(b"#", b"a").replace(b"$", b"b")


def made(chance):
    """What comes: pieces, each with what may answer it: None is anything, `-` a minus, `E` an error or an empty packet."""
    pieces = []
    for _ in range(chance.choice([1, 5, 30])):
        how = chance.randrange(10)
        body = chance.choice(KNOWN).encode()
        if how < 4:
            pieces.append((framed(body), None))
        elif how < 6:
            pieces.append((framed(changed(chance, body)), None))
        elif how == 6:
            first = chance.choice(b"abdefhijlnortuvwxyABCEFIJKLNOSUVWY")
            rest = bytes(chance.randrange(256) for _ in range(chance.choice([0, 1, 9, 300, 5000]))).replace(b"#", b"").replace(b"$", b"").replace(b"}", b"")
            pieces.append((framed(bytes([first]) + rest), "E"))
        elif how == 7:
            pieces.append((framed(body, chance.randrange(1, 256)), "-"))
        elif how == 8:
            pieces.append((bytes(chance.choice([*range(256)]) for _ in range(chance.choice([1, 4, 50]))).replace(b"$", b"%"), None))
        else:
            pieces.append((chance.choice([b"+", b"-", b"\x03", b"$", b"#00", b"$#00", b"$g#6", b"$" + b"m" * 9000]), None))
    return pieces


def otherwise(pieces, status, out, err):
    """What is not as it must be."""
    if status != 0 or err:
        return f"status {status}, errors {err[:100]}"
    said = re.sub(rb"\$([^#$]*)#([0-9a-f]{2})", lambda found: b"" if sum(found[1]) % 256 == int(found[2], 16) else found[0], out)
    if said.strip(b"+-"):
        return f"it says {said[:100]}"
    return None


def alone(program, words, chance):
    """One packet by itself, of random bytes or with a wrong sum. What its answer is otherwise."""
    pieces = [piece for piece in made(chance) if piece[1]][:1]
    for bytes_, wanted in pieces:
        done = subprocess.run([program, "debug", *words], input=bytes_, capture_output=True, timeout=SECONDS)
        right = rb"-" if wanted == "-" else rb"(\+\$(E[0-9a-f]{2})?#[0-9a-f]{2}|-)"
        if done.returncode != 0 or not re.fullmatch(right, done.stdout):
            return f"{bytes_[:80]} is answered {done.stdout[:80]}, status {done.returncode}"
    return None


def one(program, words, seed, number):
    chance = random.Random(f"{seed} {number}")
    if number % 4 == 0:
        return alone(program, words, chance)
    pieces = made(chance)
    bytes_ = b"".join(piece for piece, _ in pieces)
    done = subprocess.run([program, "debug", *words], input=bytes_, capture_output=True, timeout=SECONDS)
    return otherwise(pieces, done.returncode, done.stdout, done.stderr)


def batch(program, words, seed, first, count):
    found = []
    for number in range(first, first + count):
        try:
            wrong = one(program, words, seed, number)
        except subprocess.TimeoutExpired:
            wrong = "it does not end"
        if wrong:
            found.append(f"session {number}: {wrong}")
    return found


def main():
    program = os.path.abspath(sys.argv[1])
    count = int(sys.argv[2]) if sys.argv[2:] else 10_000
    seed = sys.argv[3] if sys.argv[3:] else str(random.randrange(10**9))
    first = int(sys.argv[4]) if sys.argv[4:] else 0
    words = [os.path.join(TOP, "samples", name) for name in ("race.image", "race.log")]
    print(f"seed {seed}", flush=True)
    found = []
    with ProcessPoolExecutor(int(os.environ.get("JOBS", "2"))) as pool:
        for part in [pool.submit(batch, program, words, seed, at, min(50, first + count - at)) for at in range(first, first + count, 50)]:
            found += part.result()
    for wrong in found:
        print(wrong)
    print(f"{count} sessions: {len(found)} otherwise")
    return 1 if found else 0


if __name__ == "__main__":
    sys.exit(main())
