#!/usr/bin/env python3
"""sweep_tests.py LIBRARY FOLDER: refuses the growths of tests in turn, and prints a line a test.

The list of tests stands in `tests`. They ask again where memory is refused, and compare what the refusal left and what then comes with what they must be; so
each must pass with any one growth refused. FOLDER has the test programs, NAME_tests; by itself each is where `rt test` leaves it. Of a test with more than
1,000 growths 100 are tried, spread over all. A line with `each N` is of a test that has many growths and asks again for each: it runs once, with each growth
refused whose number is a multiple of N. Where harts or keepers are threads the number of growths differs from run to run. Where a test passes no more
because a call of its own, which makes what it tests, was refused and is not asked for again, it gives up; that is no failure. The status is 1 where one
fails.
"""

import os
import re
import shutil
import sys
import tempfile
from concurrent.futures import ProcessPoolExecutor

HERE = os.path.dirname(os.path.abspath(__file__))
TOP = os.path.dirname(os.path.dirname(HERE))
sys.path.insert(0, os.path.dirname(HERE))
sys.dont_write_bytecode = True
from calls import call, contents

SECONDS, TOLD, WHOLE, PART = 120, ".told", 1000, 100
GIVEN_UP = rb"[eE]rror: (AllocError|AllocFailed \{ \.\. \}|Memory)\nthe test failed: its result gives status 1\n"


def program_of(folder, crate):
    return f"{folder or f'{TOP}/crates/{crate}/out'}/{crate}_tests"


def refusing(library, program, name, at, each=0):
    """Whether the test passes, gives up or fails with these growths refused, how it ended, and how many growths it had."""
    if os.path.isfile(TOLD):
        os.remove(TOLD)
    environment = {"LD_PRELOAD": library, "REFUSE_AT": str(at), "REFUSE_EACH": str(each), "REFUSE_TELL": TOLD}
    status, out, err = call(program, [name], SECONDS, environment)
    passes = status == 0 and b"test result: ok" in out
    kind = "passed" if passes else "gave up" if re.fullmatch(GIVEN_UP, err) else "failed"
    return kind, f"ended {status}: {err.decode(errors='replace').strip()[-300:]}", int(contents(TOLD) or 0)


def spread(most):
    """The growths that are refused, of so many."""
    if most <= WHOLE:
        return range(1, most + 1)
    return [1 + at * (most - 1) // (PART - 1) for at in range(PART)]


def sweep(library, folder, crate, name, _each="", each="0"):
    program = program_of(folder, crate)
    title = f"{crate} {name}: "
    if not os.path.isfile(program):
        return title + f"not tried, since there is no {program}", False
    work = tempfile.mkdtemp(prefix="refusals-", dir="/dev/shm")
    try:
        os.chdir(work)
        kind, ended, most = refusing(library, program, name, 0)
        if kind != "passed":
            return title + f"fails with ample memory, {ended}", True
        if int(each):
            kind, ended, most = refusing(library, program, name, 0, int(each))
            return f"{title}{most // int(each)} of {most} growths refused in one run: {kind}, {ended}", kind == "failed"
        found = [(at, *refusing(library, program, name, at)) for at in spread(most)]
        kinds = [kind for _, kind, _, _ in found]
        others = [f"  growth {at} refused: {kind}, {ended}" for at, kind, ended, _ in found if kind != "passed"]
        counts = ", ".join(f"{kinds.count(kind)} {kind}" for kind in ("passed", "gave up", "failed"))
        return "\n".join([f"{title}{len(kinds)} of {most} growths refused: {counts}", *others[:5]]), "failed" in kinds
    finally:
        os.chdir("/")
        shutil.rmtree(work)


def main():
    library = os.path.abspath(sys.argv[1])
    folder = os.path.abspath(sys.argv[2]) if sys.argv[2:] else ""
    with open(f"{HERE}/tests", encoding="utf-8") as file:
        tests = [line.split() for line in file if line.strip() and not line.startswith("#")]
    failed = False
    with ProcessPoolExecutor(int(os.environ.get("JOBS", "2"))) as pool:
        todo = [pool.submit(sweep, library, folder, *test) for test in tests]
        for text, fails in (it.result() for it in todo):
            print(text, flush=True)
            failed |= fails
    sys.exit(failed)


if __name__ == "__main__":
    main()
