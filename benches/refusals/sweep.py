#!/usr/bin/env python3
"""sweep.py PROGRAM LIBRARY [quick|every|leaks]: refuses the growths of worked rows in turn, by the library that refuse.c is, and prints a line a row.

The list of rows stands in `rows`. A row's ample answer is what is printed, how it ends, and the file that it makes, where nothing is refused; it is what its
case says. With each growth refused once it must be that answer, or status 1 with `fault memory` alone on standard error, a beginning of the ample output, and
a beginning of the ample file. Where harts or keepers are threads, how many growths there are differs from run to run: there each number up to the greatest
that was seen is refused TIMES times, by itself three, and a log, which differs too, must replay to the ample text, or its beginning must replay.

With `quick` at most 40 numbers of a row are tried, spread over all. With `every` the rows are all cases of crates/cases/data that files can show, but those
whose answer differs from run to run. With `leaks` two or three numbers of a row are tried, under valgrind, which must find no bad access and no block that is
not freed. The status is 1 where an answer was another one.
"""

import os
import re
import shutil
import sys
import tempfile
from concurrent.futures import ProcessPoolExecutor

HERE = os.path.dirname(os.path.abspath(__file__))
TOP = os.path.dirname(os.path.dirname(HERE))
sys.path.insert(0, os.path.dirname(HERE))
sys.dont_write_bytecode = True
from calls import call, contents
from cases import Case, cases_of

SECONDS, TOLD, MEMORY = 30, ".told", b"fault memory\n"
TIMES = int(os.environ.get("TIMES", "3"))


def row_of(line):
    """The case that a line `NAME: FILE: CASE` or `NAME: FOLDER: WORDS` of the list names, and what is called before it."""
    name, place, what = line.split(": ", 2)
    if place.endswith(".cases"):
        found = [it for it in cases_of(f"{TOP}/crates/cases/data/{place}") if it.name == what]
        if not found:
            sys.exit(f"{place} has no case '{what}'")
        return name, found[0], []
    *before, words = [it.split(" ") for it in what.split("; ")]
    case = Case(place, what)
    case.words, case.is_told = words, False
    for file in {word for it in [words, *before] for word in it}:
        data = contents(f"{TOP}/{place}/{file}")
        if data is not None:
            case.files[file] = data
    case.made = case.makes_a_file()
    return name, case, before


class Row:
    """A row in a folder of its own, in which the process stands."""

    def __init__(self, program, library, case):
        self.program, self.library, self.case = program, library, case
        self.said_again = "and no log"
        self.on_threads = case.words[:1] == ["pair"] or case.words[:1] in (["run"], ["replay"]) and case.harts() > 1

    def refusing(self, at, before=()):
        """How the call ends with this growth refused, its output, its errors, the file that it makes, and how many growths it had."""
        made = self.case.made
        for name in (made, TOLD):
            if name and os.path.isfile(name):
                os.remove(name)
        name = os.path.basename(self.program)
        environment = {"LD_PRELOAD": self.library, "REFUSE_IN": name, "REFUSE_AT": str(at), "REFUSE_TELL": TOLD}
        words = [*before, self.program, *self.case.words]
        status, out, err = call(words[0], words[1:], SECONDS, environment)
        return (status, out, err, contents(made) if made else None), int(contents(TOLD) or 0)

    def leaks(self, at):
        """What valgrind finds with this growth refused. Our library's own malloc and free stay, above those that valgrind has."""
        whole = ["-q", "--soname-synonyms=somalloc=nouserintercepts", "--leak-check=full", "--show-leak-kinds=all"]
        words = [shutil.which("valgrind"), *whole, "--errors-for-leak-kinds=all", "--error-exitcode=99", "--log-file=.valgrind"]
        answer, told = self.refusing(at, words)
        return answer, told, contents(".valgrind").decode()

    def replays(self, made, out=None):
        """Whether a log is one that can be replayed, to this text where one is given."""
        if made is None:
            return out is None
        with open(".log", "wb") as file:
            file.write(made)
        again = call(self.program, ["replay", self.case.words[1], ".log"], SECONDS)
        is_right = again[0] == 0 and out in (None, again[1])
        self.said_again = "and its log replays" if is_right else f"and its log replays so: {again}"
        return is_right

    def kind(self, ample, answer):
        """Whether an answer is the ample one, or one that may stand where memory is refused. A case that came in turn may come otherwise on threads."""
        status, out, err, made = answer
        logs = self.on_threads and self.case.words[0] == "run"
        as_well = answer[:3] == ample[:3] or logs and not self.case.threads and self.case.is_told and (status, err) == (0, b"")
        if as_well and (made == ample[3] or logs and self.replays(made, out)):
            return "ample"
        whole = made is None or (ample[3] or b"").startswith(made) or logs and self.replays(made)
        if (status, err) == (1, MEMORY) and ample[1].startswith(out) and whole:
            return "refused"
        return "other"


def spread(most, count):
    """So many numbers from 1 on, spread over all, or each where there are no more."""
    if most <= count:
        return list(range(1, most + 1))
    return sorted({1 + at * (most - 1) // (count - 1) for at in range(count)})


def told_of(row, at, ample):
    """What kind of answer comes with this growth refused, what is to be told of one that may not stand, and whether the run had so many."""
    answer, told = row.refusing(at)
    kind = row.kind(ample, answer)
    differs = "another" if answer[1] != ample[1] else "the ample"
    other = f"  growth {at} of {told} refused: ended {answer[0]}, {differs} output, errors {answer[2]}, {row.said_again}"
    return kind, [other] * (kind == "other"), told >= at


def lost_at(row, at, ample):
    """The same, under valgrind."""
    answer, told, lost = row.leaks(at)
    kind = "other" if lost else row.kind(ample, answer)
    other = f"  growth {at} refused, under valgrind: ended {answer[0]}, errors {answer[2]}\n{lost}"
    return kind, [other] * (kind == "other"), told >= at


def tries(row, ample, most, how):
    """What comes of each growth that is to be refused."""
    if how == "leaks":
        return [lost_at(row, most * part // 100, ample) for part in {43, 97} | ({71} if row.on_threads else set())]
    every = spread(most, 40 if how == "quick" else most)
    return [told_of(row, at, ample) for at in every * (TIMES if row.on_threads and how != "quick" else 1)]


def sweep(program, library, name, case, before, how):
    folder = tempfile.mkdtemp(prefix="refusals-", dir="/dev/shm")
    try:
        os.chdir(folder)
        case.lay(folder)
        for words in before:
            call(program, words, SECONDS)
        row = Row(program, library, case)
        first = [row.refusing(0) for _ in range(5 if row.on_threads else 1)]
        ample, most = first[0][0], max(told for _, told in first)
        title = f"{name}, {' '.join(case.words)}: "
        if any(row.kind(ample, answer) != "ample" for answer, _ in first):
            return title + f"not tried, since its answer differs from run to run, {row.said_again}", how != "every"
        in_turn = row.on_threads and not case.threads and case.words[0] == "run"  # what the case says came in turn
        if most == 0 or case.is_told and not in_turn and ample[:3] != (case.status, case.out, case.err):
            return title + f"its ample answer is another one: ended {ample[0]}, errors {ample[2]}, {most} growths", True
        found = tries(row, ample, most, how)
        kinds = [kind for kind, _, _ in found]
        others = [line for _, lines, _ in found for line in lines]
        unreached = sum(not reached for _, _, reached in found)
        counts = ", ".join(f"{kinds.count(kind)} {kind}" for kind in ("refused", "ample", "other"))
        counts += f", {unreached} of them beyond the last growth of their run" if unreached else ""
        return "\n".join([title + counts, *others[:10]]), bool(others)
    finally:
        os.chdir("/")
        shutil.rmtree(folder)


def rows(how):
    if how == "every":
        files = sorted(os.listdir(f"{TOP}/crates/cases/data"))
        cases = [case for file in files for case in cases_of(f"{TOP}/crates/cases/data/{file}") if case.on_disk]
        return [(f"{case.file}: {case.name}", case, []) for case in cases]
    with open(f"{HERE}/rows", encoding="utf-8") as file:
        return [row_of(line.rstrip("\n")) for line in file if line.strip() and not line.startswith("#")]


def main():
    program, library = map(os.path.abspath, sys.argv[1:3])
    how = sys.argv[3] if sys.argv[3:] else "each"
    totals, failed = {"refused": 0, "ample": 0, "other": 0}, False
    with ProcessPoolExecutor(int(os.environ.get("JOBS", "2"))) as pool:
        todo = [pool.submit(sweep, program, library, *row, how) for row in rows(how)]
        for text, fails in (it.result() for it in todo):
            print(text, flush=True)
            failed |= fails
            for kind in totals:
                totals[kind] += sum(map(int, re.findall(rf"(\d+) {kind}\b", text.split("\n")[0].rpartition(": ")[2])))
    print("all: " + ", ".join(f"{count} {kind}" for kind, count in totals.items()))
    sys.exit(failed)


if __name__ == "__main__":
    main()
