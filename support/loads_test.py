#!/usr/bin/env python3
"""Tests the program `workload`, and with it what threads of one store are answered. The gate runs it.

  support/loads_test.py --program=FILE [SEED]
  support/loads_test.py --program=FILE --soak MINUTES [SEED]
  support/loads_test.py --program=FILE --long RUNS SECONDS [SEED]

- Each core load runs with 4 threads over 200 keys, with a cleaner and without one, in a memory that is cleaned again and again.
  Each call is traced. Once the backups are stopped in the midst, and the next master recovers; once they aren't. bin/linearizable
  has to find each trace linearizable, with each answered write in the recovered table. What the program prints is checked too.
- Load A runs with 4 threads and without a cleaner in a memory that is 80 % live. Its threads find no room again and again. It has to end
  within a minute, each call answered, and is checked as the others are.
- Bad words end with status 2.

With --soak, loads of 16 threads beside a cleaner follow on one another for so many minutes. Every second one is stopped, and each
of them is checked in the same way.

With --long there are so many loads of 16 threads beside a cleaner, each of which takes so many seconds or more until its backups are
stopped. A shorter one before each of them shows how many steps the backups take in a second. If a load is stopped too soon, it is made
again with more steps. A load of a minute has up to 25 million calls. Its trace takes some gigabytes of memory in the program, and as
many on the disk, twice.

The last line is 'N runs, M failed', and the status is 1 if any failed.
"""

import os
import random
import re
import shutil
import subprocess
import sys
import tempfile
import time

TOP = os.path.dirname(os.path.dirname(os.path.abspath(__file__)))
# How many threads a long load has, and how often it is made at most.
LONG_THREADS, LONG_TRIES = 16, 4
# Each load with how many of 100 operations put.
LOADS = {"A": 50, "B": 5, "C": 0, "D": 5, "F": 50}
BACKUPS = 3
RECORDS, OPERATIONS, LENGTH, LIVE = 200, 12000, 60, 70
# No run takes so long.
MOST_SECONDS = 1800
# A memory that is 80 % live, in which threads without a cleaner find no room again and again.
FULL = ["--records=20000", "--length=100", "--live=80"]
FULL_OPERATIONS, FULL_SECONDS = 200000, 60
BAD = (["--load=E"], ["--threads=0"], ["--threads=64"], ["--records=0"], ["--live=91"], ["--spread=wide"], ["word"], ["--length="])


class Wrong(Exception):
    """A run isn't as it has to be."""


def lines_of(words, said):
    """What the program printed, as a row of matches; it raises Wrong if a line is missing."""
    times = r"(\d+) calls, 50 % (\d+), 95 % (\d+), 99 % (\d+), 99\.9 % (\d+), greatest (\d+) ns"
    speed = r"by (\d+) threads in (\d+) microseconds: (\d+) a second"
    wanted = [rf"(\d+) puts of new keys {speed}", rf"(\d+) operations {speed}", f"reads: {times}", f"updates: {times}"]
    rows = said.splitlines()
    found = [re.fullmatch(*pair) for pair in zip(wanted, rows)]
    if len(rows) < 4 or not all(found):
        raise Wrong(f"{' '.join(words)} printed\n{said}")
    return [[int(number) for number in match.groups()] for match in found], rows[4:]


def check_said(words, said, operations, is_stopped):
    """Checks what a run printed."""
    (_, speed, reads, updates), rest = lines_of(words, said)
    if not is_stopped and (speed[0] != operations or rest):
        raise Wrong(f"{' '.join(words)}: not all operations were made\n{said}")
    if is_stopped and len(rest) != 1:
        raise Wrong(f"{' '.join(words)}: no fault ended it\n{said}")
    for times in (reads, updates):
        if times[1:] != sorted(times[1:]):
            raise Wrong(f"{' '.join(words)}: percentiles don't rise\n{said}")


def run_load(program, load, threads, operations, stop, words, most=MOST_SECONDS):
    """Runs a load, and checks what it printed. Answers how many operations it made, and in how many seconds."""
    words = [f"--load={load}", f"--threads={threads}", f"--operations={operations}", *words]
    words += [f"--stop={stop}"] if stop is not None else []
    try:
        ended = subprocess.run([program, *words], stdout=subprocess.PIPE, stderr=subprocess.PIPE, text=True, timeout=most)
    except subprocess.TimeoutExpired:
        raise Wrong(f"{' '.join(words)}: no end within {most} seconds") from None
    if ended.returncode != 0:
        raise Wrong(f"{' '.join(words)}: status {ended.returncode}\n{ended.stdout}{ended.stderr}")
    check_said(words, ended.stdout, operations, stop is not None and LOADS[load] > 0)
    (_, speed, _, _), _ = lines_of(words, ended.stdout)
    return speed[0], speed[2] / 1e6


def run(program, folder, load, threads, operations, stop, words, most=MOST_SECONDS):
    """Runs a load, and checks its trace. Answers what bin/linearizable said, and how many seconds the load took."""
    trace = f"{folder}/trace"
    _, seconds = run_load(program, load, threads, operations, stop, [f"--trace={trace}", *words], most)
    judged = subprocess.run([f"{TOP}/bin/linearizable", trace], stdout=subprocess.PIPE, text=True)
    if judged.returncode != 0:
        kept = f"{tempfile.gettempdir()}/loads-{load}-{os.getpid()}.trace"
        shutil.move(trace, kept)
        raise Wrong(f"load {load}, {' '.join(words)}: {judged.stdout}The trace is kept in {kept}")
    return judged.stdout.strip(), seconds


def stop_within(draw, load, operations):
    """After how many steps of backups a run is stopped: in its midst, if the load puts."""
    return draw.randrange(max(1, operations * LOADS[load] // 100 * BACKUPS * 3 // 4))


def short_runs(program, seed):
    """Runs each load a few times. Answers how many runs there were, and what was wrong."""
    draw, count, wrong = random.Random(seed), 0, []
    with tempfile.TemporaryDirectory() as folder:
        for load in LOADS:
            for stop in (None, stop_within(draw, load, OPERATIONS)):
                for cleaner in ([], ["--cleaner"]):
                    words = [f"--records={RECORDS}", f"--length={LENGTH}", f"--live={LIVE}", f"--seed={draw.randrange(1 << 32)}"]
                    count += 1
                    try:
                        run(program, folder, load, 4, OPERATIONS, stop, words + cleaner)
                    except Wrong as why:
                        wrong.append(str(why))
    return count, wrong


def full_runs(program):
    """Runs a load whose threads find no room again and again. It has to end."""
    with tempfile.TemporaryDirectory() as folder:
        try:
            run(program, folder, "A", 4, FULL_OPERATIONS, None, FULL, FULL_SECONDS)
        except Wrong as why:
            return 1, [str(why)]
    return 1, []


def bad_words(program):
    """Runs the program with bad words."""
    wrong = []
    for words in BAD:
        ended = subprocess.run([program, *words], stdout=subprocess.PIPE, stderr=subprocess.PIPE, text=True)
        if ended.returncode != 2 or ended.stdout or not ended.stderr.startswith("workload: "):
            wrong.append(f"{' '.join(words)}: status {ended.returncode}, and it printed {ended.stdout}{ended.stderr}")
    return len(BAD), wrong


def soak(program, minutes, seed=1):
    """Runs loads for so many minutes. Answers how many runs there were, and what was wrong."""
    draw, count, wrong, begun = random.Random(seed), 0, [], time.monotonic()
    with tempfile.TemporaryDirectory() as folder:
        while time.monotonic() - begun < 60 * minutes and not wrong:
            load, operations = draw.choice(list(LOADS)), 400000
            stop = stop_within(draw, load, operations) if count % 2 else None
            words = [f"--records={draw.choice((10, 1000, 20000))}", f"--length={draw.choice((10, 100, 1000))}",
                     f"--live={draw.choice((30, 60, 80))}", f"--seed={draw.randrange(1 << 32)}", "--cleaner",
                     f"--spread={draw.choice(('uniform', 'zipf', 'latest'))}"]
            count += 1
            try:
                print(f"load {load}, {' '.join(words)}: {run(program, folder, load, 16, operations, stop, words)[0]}", flush=True)
            except Wrong as why:
                wrong.append(str(why))
    return count, wrong


def long_run(program, folder, seconds, draw):
    """Runs a load that is stopped once it took so many seconds, and checks it. Answers what it was."""
    load = draw.choice([one for one in LOADS if LOADS[one] > 0])
    words = [f"--records={draw.choice((1000, 20000, 100000))}", f"--length={draw.choice((10, 40))}",
             f"--live={draw.choice((30, 60, 80))}", f"--seed={draw.randrange(1 << 32)}", "--cleaner",
             f"--spread={draw.choice(('uniform', 'zipf', 'latest'))}"]
    first = 100000
    made, took = run_load(program, load, LONG_THREADS, 20 * first, first, words)
    steps = 1.1 * seconds * first / took
    for _ in range(LONG_TRIES):
        # Twice as many operations as the backups have steps for.
        operations = round(2 * steps * made / first) // LONG_THREADS * LONG_THREADS
        said, took = run(program, folder, load, LONG_THREADS, operations, round(steps), words)
        if took >= seconds:
            return f"load {load}, {' '.join(words)} --stop={round(steps)}: {took:.0f} seconds; {said}"
        steps *= 1.2 * seconds / took
    raise Wrong(f"load {load}, {' '.join(words)}: it took {took:.0f} seconds only")


def long_runs(program, runs, seconds, seed=1):
    """Makes so many long runs. Answers how many runs there were, and what was wrong."""
    draw, wrong = random.Random(seed), []
    for count in range(1, runs + 1):
        with tempfile.TemporaryDirectory() as folder:
            try:
                print(f"run {count}: {long_run(program, folder, seconds, draw)}", flush=True)
            except Wrong as why:
                wrong.append(str(why))
                break
    return count, wrong


def main(words):
    if words in (["-h"], ["--help"]):
        print(__doc__.strip())
        return 0
    if not words or not words[0].startswith("--program="):
        print("loads_test: it takes --program=FILE; --help says more", file=sys.stderr)
        return 2
    program = os.path.abspath(words.pop(0)[len("--program="):])
    if words[:1] == ["--soak"]:
        count, wrong = soak(program, int(words[1]), *map(int, words[2:]))
    elif words[:1] == ["--long"]:
        count, wrong = long_runs(program, *map(int, words[1:]))
    else:
        count, wrong = short_runs(program, *map(int, words or ["1"]))
        for more, others in (full_runs(program), bad_words(program)):
            count, wrong = count + more, wrong + others
    for line in wrong:
        print(line)
    print(f"{count} runs, {len(wrong)} failed")
    return 1 if wrong else 0


if __name__ == "__main__":
    sys.exit(main(sys.argv[1:]))
