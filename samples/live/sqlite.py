"""What sqlite.sh leads: python3 sqlite.py LIVE WORKBENCH IMAGE ROUNDS SEED KILLS STATEMENTS."""
import os
import random
import shutil
import sqlite3
import struct
import subprocess
import sys
import tempfile
import threading
import time

KEEPERS, NEED = 3, 2
# How long an answer may lack, in seconds, before it is asked for again, and before the round is given up.
PATIENCE, LIMIT = 0.2, 60
# How many words of 0 are asked behind a line, and once more while its answer goes on.
FETCHES = 16


def words_of(line):
    """The words that a line is sent as, four bytes each, the first in the lowest."""
    text = line.encode() + b'\n'
    text += b'\0' * (-len(text) % 4)
    return list(struct.unpack(f'<{len(text) // 4}I', text))


class Pair:
    """Keepers, and primaries of one term after the other, in a folder."""

    def __init__(self, live, image, folder):
        self.live, self.image, self.folder = live, image, folder
        self.term = 0
        self.words, self.answers, self.contradicted = [], {}, []
        self.heard = threading.Condition()
        for name in ['in', 'out'] + [f'{what}.{k}' for what in ('frames', 'acks') for k in range(KEEPERS)]:
            os.mkfifo(self.path(name))
        pair = f'{random.getrandbits(64):016x}'
        for k in range(KEEPERS):
            self.start('make', image, k, KEEPERS, NEED, pair, self.path(f'log.{k}')).wait()
        self.keepers = [
            self.start('keeper', image, k, self.path(f'log.{k}'), 'from', self.path(f'frames.{k}'), 'to', self.path(f'acks.{k}')) for k in range(KEEPERS)
        ]
        threading.Thread(target=self.hear, daemon=True).start()

    def path(self, name):
        return os.path.join(self.folder, name)

    def start(self, *words, **files):
        with open(self.path('faults'), 'ab') as faults:
            return subprocess.Popen([self.live, *map(str, words)], stdin=subprocess.DEVNULL, stderr=faults, **files)

    def lead(self):
        """A primary of the next term, from what random keepers hand over."""
        self.term += 1
        heirs = random.sample(range(KEEPERS), KEEPERS - NEED + 1)
        for k in heirs:
            with open(self.path(f'handed.{k}'), 'wb') as handed:
                assert self.start('hand', self.image, k, self.path(f'log.{k}'), self.term, stdout=handed).wait() == 0
        paths = lambda what: [self.path(f'{what}.{k}') for k in range(KEEPERS)]
        self.primary = self.start(
            'primary', self.image, self.term, KEEPERS, NEED, 'in', self.path('in'), 'out', self.path('out'), 'to', *paths('frames'), 'from', *paths('acks'),
            'with', *[self.path(f'handed.{k}') for k in heirs])

    def hear(self):
        while os.path.exists(self.path('out')):
            with open(self.path('out'), 'rb') as lines:
                for line in lines:
                    fields = line.split()
                    if len(fields) == 10 and line.endswith(b'\n'):
                        self.note(int(fields[5]), int(fields[9], 16))

    def note(self, number, word):
        with self.heard:
            if self.answers.setdefault(number, word) != word:
                self.contradicted.append(number)
            self.heard.notify_all()

    def send(self, text):
        try:
            with open(self.path('in'), 'wb', buffering=0) as requests:
                requests.write(text.encode())
        except BrokenPipeError:
            pass

    def request(self, numbers):
        return ''.join(f'0 word {self.words[number]:08x} {number}\n' for number in numbers)

    def lacking(self, numbers):
        with self.heard:
            return [number for number in numbers if number not in self.answers]

    def ask(self, words):
        """The answers to these words, asked for behind all others."""
        numbers = range(len(self.words), len(self.words) + len(words))
        self.words += words
        self.send(self.request(numbers))
        end = time.monotonic() + LIMIT
        lacking = self.lacking(numbers)
        while lacking:
            if time.monotonic() > end:
                raise TimeoutError(f'no answer {lacking[0]}')
            with self.heard:
                came = self.heard.wait(PATIENCE)
            lacking = self.lacking(numbers)
            if lacking and not came:
                self.send(f'0 from {lacking[0]}\n' + self.request(lacking))
        return [self.answers[number] for number in numbers]

    def say(self, line):
        """What a line is answered."""
        answers = self.ask(words_of(line) + [0] * 4)
        while answers[-1] != 0:
            answers += self.ask([0] * FETCHES)
        return b''.join(struct.pack('<I', word) for word in answers).replace(b'\0', b'').decode()

    def replayed(self, workbench):
        """The words that the machine put out to which the keepers' logs lead."""
        logs = [self.path(f'log.{k}') for k in range(KEEPERS)]
        text = subprocess.run([workbench, 'replay', self.image, *logs], capture_output=True, text=True, check=True).stdout
        return [int(line.split()[5], 16) for line in text.splitlines() if line.startswith('out ')]

    def end(self):
        for process in [self.primary, *self.keepers]:
            process.kill()
            process.wait()


def statement(number):
    """A random statement."""
    key = random.randrange(20)
    return random.choice([
        f"insert into t values({key},'v{number}',{number})",
        f'update t set n = n + {number} where k = {key}',
        f'delete from t where k = {key}',
        f'select * from t where k = {key}',
        'select count(*), sum(n), min(v) from t',
        'select v, n from t order by n desc limit 3',
    ])


def host_answer(database, line):
    """What the host's SQLite answers, as guests/sqlite prints it."""
    try:
        rows = database.execute(line).fetchall()
    except sqlite3.Error as error:
        return f'{error}\n'
    return ''.join('|'.join('' if value is None else str(value) for value in row) + '\n' for row in rows) + 'ok\n'


def kill_later(pair):
    """Kills the primary in a moment, and lets the next one lead."""
    primary, moment = pair.primary, random.random() * 0.01

    def kill():
        time.sleep(moment)
        primary.kill()
        primary.wait()
        pair.lead()

    killer = threading.Thread(target=kill)
    killer.start()
    return killer


def round_of(pair, kills, many):
    """How many statements were answered otherwise than by the host's SQLite."""
    database = sqlite3.connect(':memory:', isolation_level=None)
    lines = ['create table t(k integer primary key, v text, n integer)'] + [statement(number) for number in range(many)]
    moments = set(random.sample(range(1, many), kills))
    wrong = 0
    for number, line in enumerate(lines):
        killer = kill_later(pair) if number in moments else None
        got, wanted = pair.say(line), host_answer(database, line)
        if killer:
            killer.join()
        if got != wanted:
            wrong += 1
            print(f'failed: {line}: {got!r}, where the host has {wanted!r}')
    return wrong


def main():
    live, workbench, image = sys.argv[1:4]
    rounds, seed, kills, many = map(int, sys.argv[4:8])
    random.seed(seed)
    statements = failed = 0
    for number in range(rounds):
        folder = tempfile.mkdtemp(dir='/dev/shm')
        pair = Pair(live, image, folder)
        pair.lead()
        try:
            failed += round_of(pair, kills, many)
        except TimeoutError as error:
            failed += 1
            print(f'failed: round {number}: {error}')
        statements += many + 1
        pair.end()
        told = [pair.answers[number] for number in sorted(pair.answers)]
        if pair.contradicted or pair.replayed(workbench)[:len(told)] != told:
            failed += 1
            print(f'failed: round {number}: two words at {pair.contradicted}, or a log that does not lead to what was answered')
        shutil.rmtree(folder)
    print(f'{rounds * kills} kills, SQLite {sqlite3.sqlite_version} on the host')
    print(f'{statements - failed} passed, {failed} failed')
    return 1 if failed else 0


sys.exit(main())
