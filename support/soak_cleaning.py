"""Puts, gets and deletes beside a cleaner in a memory that is nine tenths full, for a long time. `bin/simulate --help` says more."""

import random
import subprocess
import sys
import time

from examples import TOP

sys.path.append(f"{TOP}/model")

from script_witness import Map

# The memory, how many of a hundred bytes of it are live, and the steps of the cleaner behind each put and delete.
SEGMENTS, SEGMENT, SEGLET, LIVE, STEPS = 128, 262144, 512, 90, 16
# The lengths of values, and the bytes of an object beside its value: its key has 10.
SHORTEST, LONGEST, BESIDE = 20, 1000, 23 + 10
# Of a hundred lines so many are gets, and so many deletes.
GETS, DELETES = 25, 10
# So many lines are sent before their answers are read.
BATCH = 64


class Wrong(Exception):
    """An answer is wrong, or there is none."""


class Load:
    """Lines of commands, whose live objects never have more than their share of memory."""

    def __init__(self, memory, seed):
        self.dice, self.map, self.most, self.bytes = random.Random(seed), Map(), memory * LIVE // 100, 0
        # Some keys more than fit, so that puts find room only behind deletes.
        self.keys = [b"key%07d" % number for number in range(self.most * 13 // 10 // (BESIDE + (SHORTEST + LONGEST) // 2))]
        self.lengths = {}

    def put(self, key):
        """The put of a value that fits, or else the delete of the key."""
        length = self.dice.randint(SHORTEST, LONGEST)
        more = BESIDE + length - self.lengths.get(key, 0)
        if self.bytes + more > self.most:
            return self.delete(key)
        self.bytes, self.lengths[key] = self.bytes + more, BESIDE + length
        return "put", 1, key, self.dice.choice([b"a", b"b", b"c"]) * length

    def delete(self, key):
        self.bytes -= self.lengths.pop(key, 0)
        return "del", 1, key

    def line(self):
        """The next command, and what it has to be answered."""
        key, cast = self.dice.choice(self.keys), self.dice.randrange(100)
        if cast < GETS:
            command = ("get", 1, key)
        elif cast < GETS + DELETES:
            command = self.delete(key)
        else:
            command = self.put(key)
        return self.told(command)

    def told(self, command):
        kind, table, *rest = command
        return b" ".join([kind.encode(), b"%d" % table, *rest]) + b"\n", self.map.reply(command)

    def first(self):
        """A put of each key, as far as they fit, and what it has to be answered."""
        return (self.told(self.put(key)) for key in self.keys)

    def last(self):
        """A get of each key, and what it has to be answered."""
        return (self.told(("get", 1, key)) for key in self.keys)


class Session:
    """The program, with a cleaner behind each put and delete."""

    def __init__(self, program):
        words = [f"--segment={SEGMENT}", f"--seglet={SEGLET}", f"--seglets={SEGMENTS * SEGMENT // SEGLET}", f"--tend={STEPS}", "--forget"]
        self.process = subprocess.Popen([program, *words], stdin=subprocess.PIPE, stdout=subprocess.PIPE)

    def ask(self, lines):
        """Sends lines, and compares each answer. It returns how long the answers took, in seconds."""
        begun = time.monotonic()
        try:
            self.process.stdin.write(b"".join(line for line, _ in lines))
            self.process.stdin.flush()
        except BrokenPipeError:
            raise Wrong(f"the program ended with status {self.process.wait()}") from None
        for line, wanted in lines:
            row = self.process.stdout.readline().decode().rstrip("\n")
            if row != wanted:
                raise Wrong(f"{line.decode()[:40].strip()} printed {row[:80] or 'nothing'}, and not {wanted[:80]}")
        return time.monotonic() - begun

    def ask_all(self, lines):
        """Sends lines, some at a time."""
        while batch := [line for _, line in zip(range(BATCH), lines)]:
            self.ask(batch)

    def end(self):
        self.process.stdin.close()
        if self.process.wait() != 0:
            raise Wrong(f"the program ended with status {self.process.returncode}")


def serve_on(program, minutes, seed):
    """Serves commands for so many minutes. It returns how many."""
    session, load = Session(program), Load(SEGMENTS * SEGMENT, seed)
    session.ask_all(load.first())
    begun, lines, longest, told = time.monotonic(), 0, 0, 0
    while time.monotonic() - begun < 60 * minutes:
        longest = max(longest, session.ask([load.line() for _ in range(BATCH)]))
        lines, spent = lines + BATCH, time.monotonic() - begun
        if spent // 60 > told or spent > 60 * minutes:
            told = spent // 60
            print(f"{spent / 60:.1f} minutes: {lines:,} lines, {100 * load.bytes / (SEGMENTS * SEGMENT):.1f} % live; the slowest "
                  f"{BATCH} lines took {1000 * longest:.1f} ms", flush=True)
    session.ask_all(load.last())
    session.end()
    return lines


def soak_cleaning(program, minutes, seed=1):
    """Runs the program for so many minutes, and ends this one if an answer is wrong or a line is refused."""
    try:
        lines = serve_on(program, minutes, seed)
    except Wrong as wrong:
        sys.exit(f"simulate: {wrong}")
    print(f"{lines:,} lines of commands, each answered as a plain map answers it; none was refused")
