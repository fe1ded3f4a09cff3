"""Calls of a program, each a process of its own under a time limit, in the folder where the caller stands."""

import os
import select
import signal

OUT, ERR = ".out", ".err"  # the files of the standard streams
HUNG = "hung"


def contents(name):
    """The bytes of a file, if there is one."""
    try:
        with open(name, "rb") as file:
            return file.read()
    except (FileNotFoundError, IsADirectoryError):
        return None


def ended(child, seconds):
    """How a process ends: by a status, by a signal (a negative number), or not in so many seconds."""
    handle = os.pidfd_open(child)
    try:
        waiting = select.poll()
        waiting.register(handle, select.POLLIN)
        hangs = not waiting.poll(seconds * 1000)
    finally:
        os.close(handle)
    if hangs:
        os.kill(child, signal.SIGKILL)
    status = os.waitstatus_to_exitcode(os.waitpid(child, 0)[1])
    return HUNG if hangs else status


def call(program, words, seconds, environment=None):
    """Calls the program, and answers how it ended, its output and its errors."""
    made = os.O_WRONLY | os.O_CREAT | os.O_TRUNC
    streams = [(0, "/dev/null", os.O_RDONLY), (1, OUT, made), (2, ERR, made)]
    child = os.posix_spawn(
        program,
        [program, *words],
        {**os.environ, **(environment or {})},
        file_actions=[(os.POSIX_SPAWN_OPEN, to, name, how, 0o600) for to, name, how in streams],
    )
    status = ended(child, seconds)
    return status, contents(OUT), contents(ERR)
