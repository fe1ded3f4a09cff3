#!/usr/bin/env python3
"""measure.py LIVE WORKBENCH HOPS [quick]: what a pair as processes costs, row by row. measure.sh says what is measured, and builds HOPS, which hops.c is."""

import os
import shutil
import statistics
import subprocess
import sys
import tempfile
import time

HERE = os.path.dirname(os.path.abspath(__file__))
TOP = os.path.dirname(os.path.dirname(HERE))
sys.path.insert(0, HERE)
sys.dont_write_bytecode = True
from pairs import KEEPERS, NEED, Pair, onto, places

IMAGE = f"{TOP}/guests/images/service.image"
PARTS = 10  # of a series, in turn
AGAIN = 1000  # so many milliseconds without an answer, and what lacks is asked for again


def asked(hops, folder, first, count, window, again=AGAIN):
    """The seconds up to the answer of each of so many words, and in all."""
    began = time.monotonic()
    words = [hops, "client", f"{folder}/in", f"{folder}/out", str(first), str(count), str(window), str(again)]
    said = subprocess.run(words, check=True, capture_output=True, text=True).stdout
    return [int(line) / 1e9 for line in said.split()], time.monotonic() - began


def plain(hops, folder, count, size, synced, on=None):
    """The same over processes that hand bytes on and do nothing else."""
    on = on or {}
    os.makedirs(folder)
    ends = lambda kind: [f"{folder}/{kind}.{k}" for k in range(KEEPERS)]
    for name in [f"{folder}/in", f"{folder}/out", *ends("frames"), *ends("acks")]:
        os.mkfifo(name)
    how = "synced" if synced else "unsynced"
    keepers = [[hops, "keeper", str(k), f"{folder}/frames.{k}", f"{folder}/acks.{k}", f"{folder}/log.{k}", str(size), how] for k in range(KEEPERS)]
    primary = [hops, "primary", f"{folder}/in", f"{folder}/out", str(size), str(NEED), *ends("frames"), *ends("acks")]
    names = [*(f"keeper.{k}" for k in range(KEEPERS)), "primary"]
    processes = [subprocess.Popen(words, preexec_fn=onto(on.get(name))) for name, words in zip(names, [*keepers, primary])]
    try:
        return asked(hops, folder, 0, count, 1)
    finally:
        for process in processes:
            process.kill()
            process.wait()


def told(name, times):
    """A row of the times up to answers."""
    rising = sorted(times)
    fifth = len(times) // 5
    micros = lambda seconds: f"{seconds * 1e6:.0f}"
    first, last = (micros(statistics.median(part)) for part in (times[:fifth], times[-fifth:]))
    print(
        f"{name}: median {micros(statistics.median(times))} us, 99 of 100 below {micros(rising[len(rising) * 99 // 100])} us; "
        f"of {len(times)}, median of the first fifth {first}, of the last {last}",
        flush=True,
    )


def answers(live, hops, disk, memory, count):
    """From request to answer, one under way: processes that run where the system has them run, and each on a processor of its own, where there are as many."""
    for on in [None] + [places()] * (places() is not None):
        for where, folder in (("on disk", disk), ("in memory", memory)):
            answers_on(live, hops, where, f"{folder}/{'placed' if on else 'free'}", folder == disk, count, on)


def answers_on(live, hops, where, folder, is_disk, count, on):
    """The same of the logs of one folder: in turn by pairs whose keepers acknowledge by a path each and all by one, and by what hands bytes on, part by part, so
    that all rows have the same minutes."""
    os.makedirs(folder)
    pairs = {name: Pair(live, IMAGE, f"{folder}/{name}", on=on, by_one=name == "one") for name in ("each", "one")}
    for pair in pairs.values():
        pair.lead()
        asked(hops, pair.folder, 0, 200, 1)
    log = pairs["each"].at("log.0")
    before = os.path.getsize(log)
    times, hopped, part = {name: [] for name in pairs}, {synced: [] for synced in (True, False)[1 - is_disk :]}, count // PARTS
    for number in range(PARTS):
        for name, pair in pairs.items():
            times[name] += asked(hops, pair.folder, 200 + number * part, part, 1)[0]
        size = (os.path.getsize(log) - before) // len(times["each"])
        for synced, ways in hopped.items():
            ways += plain(hops, f"{folder}/plain.{synced}.{number}", part, size, synced, on)[0]
    for pair in pairs.values():
        pair.stop()
    said = f"logs {where}, {'each process on a processor of its own' if on else 'processes anywhere'}"
    acknowledged = {"each": "acknowledgements by a path each", "one": "acknowledgements by one path"}
    for name in pairs:
        told(f"live, {said}, {acknowledged[name]}", times[name])
    for synced, ways in hopped.items():
        told(f"hops in C, {size} bytes a request, {said}, {'synced' if synced else 'unsynced'}", ways)
    alike = statistics.median(hopped[is_disk])  # in memory it costs nothing to bring a log to disk
    for name in pairs:
        print(f"{said}, {acknowledged[name]}: {statistics.median(times[name]) / alike:.2f} times the hops", flush=True)


def rates(live, hops, disk, count):
    """How many requests a second, so many under way."""
    for window in (1, 8, 64):
        pair = Pair(live, IMAGE, f"{disk}/rate.{window}")
        pair.lead()
        asked(hops, pair.folder, 0, 100, window)
        _, seconds = asked(hops, pair.folder, 100, count, window)
        pair.stop()
        print(f"{window} under way: {count / seconds:.0f} requests a second, of {count}", flush=True)


def failovers(live, hops, disk, behind, times):
    """From the end of a primary to the next answer, with so many requests behind it."""
    pair = Pair(live, IMAGE, f"{disk}/failover")
    pair.lead()
    asked(hops, pair.folder, 0, behind, 8)
    found = []
    for number in range(times):
        began = time.monotonic()
        pair.kill(pair.primary)
        pair.lead((number % KEEPERS, (number + 1) % KEEPERS))
        handed = time.monotonic()
        asked(hops, pair.folder, behind + number, 1, 1, again=20)
        found.append((time.monotonic() - began, handed - began))
    size = os.path.getsize(pair.at("log.0"))
    pair.stop()
    middle = sorted(found)[times // 2]
    print(
        f"from kill -9 of the primary to the next answer, {behind} requests behind it: median {middle[0]:.2f} s, at most {max(found)[0]:.2f} s, of {times}; "
        f"of the median {middle[1]:.2f} s for two logs to be handed over, of {size / 1e6:.1f} MB each",
        flush=True,
    )


def counting(harts, steps):
    """The image of a guest each of whose harts counts down, in so many steps, and halts."""
    rounds = steps // 2
    low = rounds & 0xFFF
    high = (rounds - (low - 0x1000 * (low > 0x7FF))) & 0xFFFFFFFF
    words = [high | 0xB7, low << 20 | 0x8093, 0xFFF08093, 0xFE009EE3, 0xF0000237, 0x00022A23]
    return f"harts {harts}\npages 1\n" + "".join(f"{word:08x}\n" for word in words)


def seconds_of(words, folder):
    began = time.monotonic()
    subprocess.run(words, check=True, cwd=folder, stdout=subprocess.DEVNULL)
    return time.monotonic() - began


def recorded(live, workbench, folder, steps, harts):
    """How long it takes to record so many steps of each hart: by `workbench run`, and by a primary whose inputs end at once."""
    for name in ("none", "frames", "out"):
        open(f"{folder}/{name}", "wb").close()
    with open(f"{folder}/image", "w") as file:
        file.write(counting(harts, steps))
    subprocess.run([live, "make", "image", "0", "1", "1", "0" * 16, "log"], check=True, cwd=folder)
    with open(f"{folder}/handed", "wb") as file:
        subprocess.run([live, "hand", "image", "0", "log", "1"], check=True, cwd=folder, stdout=file)
    for name in ("log", "log.fences"):
        os.remove(f"{folder}/{name}")
    run = seconds_of([workbench, "run", "image", "none", "1000000", "recorded"], folder)
    return run, seconds_of([live, "primary", "image", "1", "1", "1", "in", "none", "out", "out", "to", "frames", "from", "none", "with", "handed"], folder)


def counts(live, workbench, memory, times):
    """How many steps a second, as what 800,000 more steps take."""
    folder = f"{memory}/steps"
    os.makedirs(folder)
    for harts in (1, 4):
        taken = {steps: [recorded(live, workbench, folder, steps, harts) for _ in range(times)] for steps in (100_000, 900_000)}
        run, led = (statistics.median(it[i] for it in taken[900_000]) - statistics.median(it[i] for it in taken[100_000]) for i in (0, 1))
        millions = lambda seconds: f"{0.8 * harts / seconds:.1f}"
        print(f"{harts} harts that count: workbench run {millions(run)} million steps a second, live primary {millions(led)}: {run / led:.2f} of it", flush=True)


def main():
    live, workbench, hops = map(os.path.abspath, sys.argv[1:4])
    quick = sys.argv[4:] == ["quick"]
    disk = tempfile.mkdtemp(prefix="live-", dir=os.environ.get("DISK", "/var/tmp"))
    memory = tempfile.mkdtemp(prefix="live-", dir="/dev/shm")
    try:
        answers(live, hops, disk, memory, 300 if quick else 5000)
        rates(live, hops, disk, 300 if quick else 5000)
        counts(live, workbench, memory, 3 if quick else 15)
        failovers(live, hops, disk, 500 if quick else 10_000, 3 if quick else 5)
    finally:
        shutil.rmtree(disk)
        shutil.rmtree(memory)


if __name__ == "__main__":
    main()
