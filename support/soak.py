"""Runs 63 clients and a cleaner over a memory that is four fifths full, for a long time. `bin/simulate --help` says more."""

import random
import re
import subprocess
import sys
import time

from examples import TOP

sys.path.append(f"{TOP}/model")

from script_model import NO_LIMIT, options_of, parse
from script_witness import Witness

SEGMENTS, SEGMENT, SEGLET = 128, 262144, 512
WORDS = (f"--segment={SEGMENT}", f"--seglet={SEGLET}", f"--seglets={SEGMENTS * SEGMENT // SEGLET}")
LIVE, VALUE = 80, 1000
# Bytes of the entry of an object.
OBJECT = 23 + 7 + VALUE
OBJECTS = SEGMENTS * SEGMENT * LIVE // 100 // OBJECT
CLIENTS, ROUNDS, PASSES, LINES, PUT_AGAIN = 63, 1000, 40, 7, 500
# So many lines are sent before their answers are read.
BATCH = 64


class Wrong(Exception):
    """An answer is wrong, or there is none."""


class Session:
    """The program, with a witness of each line that it is sent and of its answer."""

    def __init__(self, program):
        self.process = subprocess.Popen([program, *WORDS], stdin=subprocess.PIPE, stdout=subprocess.PIPE)
        self.options = options_of(WORDS)
        self.witness = Witness(self.options.replicas)
        self.calls = 0

    def read(self, line):
        """The answer to this line."""
        rows = []
        while not rows or (line.startswith("recover") and re.match(r"[0-9]", rows[-1])):
            row = self.process.stdout.readline().decode()
            if not row:
                raise Wrong(f"{line[:80]}: the program ended with status {self.process.wait()}")
            rows.append(row.rstrip("\n"))
        return rows

    def ask(self, *lines):
        """Sends the lines, and answers what the last one printed."""
        for first in range(0, len(lines), BATCH):
            batch = lines[first:first + BATCH]
            try:
                self.process.stdin.write("".join(f"{line}\n" for line in batch).encode())
                self.process.stdin.flush()
            except BrokenPipeError:
                raise Wrong(f"the program ended with status {self.process.wait()}") from None
            for line in batch:
                rows = self.read(line)
                wrong = self.witness.wrong(parse(line.encode(), self.options.backups), rows)
                if wrong:
                    raise Wrong(wrong[:2000])
        return rows[-1]

    def serve(self):
        """A line of clients, and a get of what each has left. Answers what the line printed."""
        answer = self.ask(f"clients {CLIENTS} {ROUNDS} {PASSES}")
        if answer.startswith("clients "):
            self.calls += int(answer.split()[3])
        self.ask(*(f"get 1 c{number}" for number in range(CLIENTS)))
        return answer


def put(number, dice):
    return f"put 1 {number:07} {dice.choice('abcdefgh') * VALUE}"


def live(session, dice, is_stopped):
    """One life of a master, and its recovery. Answers what its lines of clients printed."""
    answers = []
    for at in range(LINES):
        session.ask(*(put(dice.randrange(OBJECTS), dice) for _ in range(PUT_AGAIN)))
        if is_stopped and at == LINES - 1:
            session.ask(f"stop {dice.randrange(2 * CLIENTS * ROUNDS)}")
        answers.append(session.serve())
    lines = ["crash", f"stop {NO_LIMIT}", f"lose {dice.randrange(session.options.backups)}", "recover"]
    last = session.ask(*lines)
    if not last.startswith("recovered "):
        raise Wrong(f"recover printed {last}")
    return answers


def live_on(program, minutes):
    """Runs lives for so many minutes. Answers how many, and how many calls of clients were answered."""
    session, dice, begun, told = Session(program), random.Random(1), time.monotonic(), 0
    session.ask(*(put(number, dice) for number in range(OBJECTS)))
    lives = full = stopped = 0
    while time.monotonic() - begun < 60 * minutes:
        answers = live(session, dice, lives % 3 == 2)
        lives, full, stopped = lives + 1, full + answers.count("refused Full"), stopped + answers.count("stopped")
        spent = time.monotonic() - begun
        if spent // 60 > told or spent > 60 * minutes:
            told = spent // 60
            print(f"{spent / 60:.1f} minutes: {lives} lives, {session.calls:,} calls of clients in lines that were answered; "
                  f"{full} lines were refused as Full, {stopped} stopped", flush=True)
    session.process.stdin.close()
    if session.process.wait() != 0:
        raise Wrong(f"the program ended with status {session.process.wait()}")
    return lives, session.calls


def soak(program, minutes):
    """Runs the program for so many minutes, and ends this one if an answer is wrong."""
    try:
        lives, calls = live_on(program, minutes)
    except Wrong as wrong:
        sys.exit(f"simulate: {wrong}")
    print(f"{lives} lives, {calls:,} calls of clients in lines that were answered, and all of them are there")
