#!/usr/bin/env python3
"""Tests the built program in ways that no example can. The gate, bin/test, ends with them.

  support/program_test.py [--program=FILE] [NAME ..]

It tests the text of the help, words and lines that no file of examples holds, streams that fail, a terminal, pipes, how much memory
the program has at each point of a script, and recoveries of large tables. A test that fails says what it wanted. The last line is 'N tests, M failed', and the
status is 1 if any failed. It needs python3 on Linux.
"""

import fcntl
import os
import pty
import struct
import subprocess
import sys
import tempfile
import termios
import time
from dataclasses import dataclass

from examples import TOP

SECONDS = 60
BLOCK = 4096

# Words.

def run(program, script=b"", words=(), **streams):
    """How the program ends with this script."""
    given = {"input": script} if "stdin" not in streams else {}
    streams = {"stdout": subprocess.PIPE, "stderr": subprocess.PIPE, **streams}
    ended = subprocess.run([program, *words], timeout=SECONDS, **given, **streams)
    return ended.stdout, ended.stderr, ended.returncode


def want(came, wanted):
    if came != wanted:
        raise AssertionError(f"wanted {wanted!r}\n  came   {came!r}")


def help_is_printed(program):
    with open(f"{TOP}/support/help.txt", "rb") as file:
        text = file.read()
    for word in ("--help", "-h"):
        want(run(program, words=[word]), (text, b"", 0))


def version_is_printed(program):
    for word in ("--version", "-V"):
        output, errors, status = run(program, words=[word])
        want((output.split(b" ")[0], output.count(b"\n"), errors, status), (b"ramlog", 1, b"", 0))


def words_are_text(program):
    want(run(program, words=[b"--step\xff"]), (b"", b"ramlog: the command line is not UTF-8\n", 2))


# Lines that a file of text can't hold well, with the output, the errors and the status.

LINES = [
    (b"", b"", b"", 0),
    (b"put 1 a x\ncrash\nrecover", b"ok 1\ncrashed\n1 a 1 x\nrecovered 1\n", b"", 0),
    (b"put 1 a x\r\n", b"", b"ramlog: bad line 1\n", 2),
    (b"put 1 \0 x\n", b"", b"ramlog: bad line 1\n", 2),
    (b"put 1 " + 1024 * b"k" + b" v\n", b"ok 1\n", b"", 0),
    (b"put 1 " + 1025 * b"k" + b" v\n", b"", b"ramlog: bad line 1\n", 2),
    (b"put 1 k " + 4088 * b"v" + b"\n", b"ok 1\n", b"", 0),
    (b"put 1 k " + 4089 * b"v" + b"\n", b"", b"ramlog: bad line 1\n", 2),
]


def lines_have_limits(program):
    for script, *wanted in LINES:
        want(run(program, script, ["--segment=65536", "--seglets=4096"]), tuple(wanted))


# Streams.

def a_reader_fails(program):
    folder = os.open("/", os.O_RDONLY)
    want(run(program, stdin=folder), (b"", b"ramlog: cannot read\n", 1))


def a_writer_fails(program):
    with open("/dev/full", "wb") as full:
        want(run(program, b"put 1 a x\n", stdout=full), (None, b"ramlog: cannot write\n", 1))


def is_idle(process, pipe):
    """Whether the program has read all that the pipe had, and waits for more."""
    left = struct.unpack("i", fcntl.ioctl(pipe, termios.FIONREAD, bytes(4)))[0]
    with open(f"/proc/{process.pid}/stat", encoding="ascii") as file:
        state = file.read().rpartition(")")[2].split()[0]
    return left == 0 and state == "S"


def wait_idle(process, pipe):
    until, seen = time.monotonic() + SECONDS, 0
    while seen < 3:
        if process.poll() is not None or time.monotonic() > until:
            raise AssertionError("wanted a program that waits for more input")
        seen = seen + 1 if is_idle(process, pipe) else 0
        time.sleep(0.005)


def input_comes_in_parts(program):
    with subprocess.Popen([program], stdin=subprocess.PIPE, stdout=subprocess.PIPE) as process:
        try:
            for part in (b"put 1 a x\nge", b"t 1 ", b"a\nget 1 a"):
                process.stdin.write(part)
                process.stdin.flush()
                wait_idle(process, process.stdin)
            output = process.communicate(timeout=SECONDS)[0]
        finally:
            process.kill()
    want((output, process.returncode), (b"ok 1\n1 x\n1 x\n", 0))


DIALOGUE = ((b"put 1 a x\n", b"ok 1\n"), (b"# nothing\nget 1 a\n", b"1 x\n"), (b"crash\nrecover\n", b"crashed\n1 a 1 x\nrecovered 1\n"))


def read_answer(pipe, length):
    """The next bytes of the pipe; fewer if they don't come."""
    text, until = b"", time.monotonic() + SECONDS
    os.set_blocking(pipe.fileno(), False)
    while len(text) < length and time.monotonic() < until:
        part = pipe.read(length - len(text))
        if part == b"":
            break
        text += part or b""
        if part is None:
            time.sleep(0.005)
    return text


def pipes_show_each_answer(program):
    """A program that talks through two pipes gets each answer before it sends the next line."""
    with subprocess.Popen([program], stdin=subprocess.PIPE, stdout=subprocess.PIPE, bufsize=0) as process:
        try:
            for lines, answer in DIALOGUE:
                process.stdin.write(lines)
                want(read_answer(process.stdout, len(answer)), answer)
            process.stdin.close()
            want((process.wait(SECONDS), process.stdout.read()), (0, b""))
        finally:
            process.kill()


def output_goes_in_blocks(program):
    """While input is at hand the program writes in blocks. A pipe of packets keeps writes apart."""
    reader, writer = os.pipe2(os.O_DIRECT)
    with tempfile.TemporaryFile() as script:
        script.write(2000 * b"get 1 a\n")
        script.seek(0)
        with subprocess.Popen([program], stdin=script, stdout=writer) as process:
            os.close(writer)
            packets = list(iter(lambda: os.read(reader, 2 * BLOCK), b""))
    os.close(reader)
    want((b"".join(packets), process.returncode), (2000 * b"none\n", 0))
    if len(packets) > 10:
        raise AssertionError(f"wanted 10,000 bytes in blocks, and {len(packets)} writes came")


class Terminal:
    """The program at a terminal, which shows no input."""

    def __init__(self, program, **streams):
        self.screen, keys = pty.openpty()
        modes = termios.tcgetattr(keys)
        modes[1] &= ~termios.OPOST
        modes[3] &= ~termios.ECHO
        termios.tcsetattr(keys, termios.TCSANOW, modes)
        self.process = subprocess.Popen([program], stdin=keys, stdout=keys, **streams)
        os.close(keys)

    def type(self, text):
        os.write(self.screen, text)

    def read(self, length):
        """The next bytes of the output; fewer if they don't come."""
        text, until = b"", time.monotonic() + SECONDS
        os.set_blocking(self.screen, False)
        while len(text) < length and time.monotonic() < until:
            try:
                text += os.read(self.screen, length - len(text))
            except BlockingIOError:
                time.sleep(0.005)
            except OSError:
                break
        return text

    def __enter__(self):
        return self

    def __exit__(self, *_):
        self.process.kill()
        self.process.wait()
        os.close(self.screen)


def a_terminal_shows_each_answer(program):
    with Terminal(program) as it:
        for line, answer in ((b"put 1 a x\n", b"ok 1\n"), (b"get 1 a\n", b"1 x\n")):
            it.type(line)
            want(it.read(len(answer)), answer)


def a_pipe_is_told_why_if_asked(program):
    """With the word --explain a second line of the errors says why, wherever they go."""
    bad = b"ramlog: bad line 1\n"
    why = b"ramlog: put has a table, a key and a value\n"
    for words in (["--explain"], ["--step=1", "--explain"], ["--explain", "--step", "1"]):
        want(run(program, b"put 1 a\n", words), (b"", bad + why, 2))
    want(run(program, b"put 1 a\n"), (b"", bad, 2))


def a_pipe_is_told_what_may_be_made(program):
    """With the word --explain the errors name each command that may have been made, and no other."""
    said = b"ramlog: the command of line %d may have been made\n"
    rows = (
        # The record was made, and no backup took it: the master is dropped.
        (b"put 1 a x\nstop 0\nput 1 a y\nrecover\n", b"ok 1\nstop 0\nstopped\n1 a 1 x\nrecovered 1\n", said % 3),
        # The record was made, and a backup took it or didn't. The next command finds the master halted, and is not made.
        (b"put 1 a x\nfault 1 taken\nput 1 a y\nput 1 a z\ncrash\nrecover\n",
         b"ok 1\nfault 1 taken\nrefused Halted\nrefused Halted\ncrashed\n1 a 2 y\nrecovered 1\n", said % 3),
        (b"put 1 a x\nfault 1 lost\ndel 1 a\nget 1 a\ncrash\nrecover\n",
         b"ok 1\nfault 1 lost\nrefused Halted\nrefused Halted\ncrashed\n1 a 1 x\nrecovered 1\n", said % 3),
        # A test refuses these.
        (b"put 9 a x\nnew 1 a x\nnew 1 a y\ncrash\nput 1 a z\n", b"refused NoTablet\nok 1\nmismatch 1\ncrashed\nrefused Down\n", b""),
    )
    for script, answers, errors in rows:
        for words, told in ((["--explain"], errors), ([], b"")):
            want(run(program, script, words), (answers, told, 0))
    script = b"what\nfault 1 lost\nput 1 a y\n"
    answers = b"fault 1 lost\nrefused Halted\n"
    want(run(program, script, ["--explain", "--keep-going"])[::2], (answers, 2))
    want(run(program, script, ["--explain", "--keep-going"])[1].splitlines(True)[-1], said % 3)


def any_bytes_come_back(program):
    """With --raw, keys and values of all bytes, and the longest line that may be put, come back as they were."""
    every = bytes(range(256))
    # An object has at most a quarter of a segment.
    longest = (every * 8192)[:2**21 - 52]
    words = ("--raw", "--segment=8388608", "--seglet=65536", "--seglets=512")
    for key, value in ((every, every), (b"\n", b""), (every * 4, every), (b"k", longest)):
        key, value = (b"%d:%s" % (len(given), given) for given in (key, value))
        script = b"put 1 %s %s\nget 1 %s\ncrash\nrecover\n" % (key, value, key)
        want(run(program, script, words), (b"ok 1\n1 %s\ncrashed\n1 %s 1 %s\nrecovered 1\n" % (value, key, value), b"", 0))
    why = b"ramlog: bad line 1\nramlog: with --raw a key or a value is its length, a colon and so many bytes\n"
    for script in (b"put 1 a x\n", b"get 1 01:a\n", b"get 1 0:\n", b"put 1 1:a 2:x", b"del 1 1:ab\n", b"get 1 1025:" + 1025 * b"a"):
        want(run(program, script, ("--raw", "--explain")), (b"", why, 2))


def a_terminal_shows_why(program):
    """At a terminal a second line of the errors says why."""
    whys = (
        ((), b"put 1 a\n", b"ramlog: bad line 1\nramlog: put has a table, a key and a value\n"),
        (("--seglets=31",), b"", b"ramlog: bad configuration BadBudget\nramlog: --seglets is less than those of four segments by 1\n"),
    )
    for words, script, why in whys:
        screen, keys = pty.openpty()
        try:
            output, _, status = run(program, script, words, stderr=keys)
            want((output, os.read(screen, BLOCK).replace(b"\r\n", b"\n"), status), (b"", why, 2))
        finally:
            os.close(screen)
            os.close(keys)


def a_pipe_goes_on_if_asked(program):
    """With the word --keep-going each bad line is named at once and skipped, and the lines behind it are answered."""
    bad = b"ramlog: bad line 2\n"
    want(run(program, b"put 1 a x\nput 1 a\nget 1 a\n"), (b"ok 1\n", bad, 2))
    for words in (["--keep-going"], ["--step=1", "--keep-going"], ["--keep-going", "--step", "1"]):
        want(run(program, b"put 1 a x\nput 1 a\nget 1 a\n", words), (b"ok 1\n1 x\n", bad, 2))
    why = b"ramlog: put has a table, a key and a value\n"
    want(run(program, b"\nput 1 a\nget 1 a", ["--keep-going", "--explain"]), (b"none\n", bad + why, 2))
    # The last line is bad, and has no line feed.
    want(run(program, b"get 1 a\nput 1 a", ["--keep-going"]), (b"none\n", bad, 2))
    want(run(program, b"get 1 a\n", ["--keep-going"]), (b"none\n", b"", 0))
    # A line that is too long ends the run all the same.
    want(run(program, b"get 1 a\n" + 4097 * b"x" + b"\nget 1 a\n", ["--keep-going"]), (b"none\n", bad, 2))
    with subprocess.Popen([program, "--keep-going"], stdin=subprocess.PIPE, stdout=subprocess.PIPE, stderr=subprocess.PIPE) as it:
        for line, stream, said in ((b"get 1 a\n", it.stdout, b"none\n"), (b"get\n", it.stderr, bad), (b"log\n", it.stdout, b"log 1\n")):
            it.stdin.write(line)
            it.stdin.flush()
            want(stream.readline(), said)
        it.stdin.close()
        want(it.wait(SECONDS), 2)


def a_terminal_goes_on(program):
    """A bad line that is typed doesn't end the run."""
    with Terminal(program, stderr=subprocess.PIPE) as it:
        it.type(b"put 1 a x\n")
        want(it.read(5), b"ok 1\n")
        it.type(b"gets\n")
        want(it.process.stderr.readline(), b"ramlog: bad line 2\n")
        it.type(b"get 1 a\n")
        want(it.read(4), b"1 x\n")
        it.type(b"\x04")
        want(it.process.wait(SECONDS), 2)
        it.process.stderr.close()


def an_end_is_not_asked_for_again(program):
    """At a terminal control-D ends the input once: a program that asks again would wait for more."""
    with Terminal(program) as it:
        it.type(b"put 1 a x\nget 1 a\x04\x04")
        want(it.read(9), b"ok 1\n1 x\n")
        want(it.process.wait(SECONDS), 0)


# Memory. A segment has S bytes and a seglet G. Large pieces of memory are asked of the system one by one, and go back to it at
# once, so that the system knows what the program has.

S, G, N, VALUE = 8388608, 65536, 2000, 4000
WORDS = [f"--segment={S}", f"--seglet={G}", f"--seglets={16 * S // G}"]
LARGE = {"MALLOC_MMAP_THRESHOLD_": "1024"}
# What small things may take: chains of the index, bookkeeping, tombstones of one byte's key.
SMALL = S // 16
PUTS = f"put 1 a {VALUE * 'v'}\n" * N
# An overwrite of a key of one byte appends a tombstone and an object. So many fill a segment nearly.
TEXT = N * (50 + 2 + VALUE)
assert TEXT < S - 1000


@dataclass(frozen=True)
class Change:
    """What some lines change in the bytes that the program has, by sections 7 and 10 of the specification."""

    lines: str
    # Of images: a head and each survivor of an open pass have a whole segment, others their length.
    images: int
    # Of replicas. They grow as they are written, and may have up to twice their length. One that is opened takes little at first, and
    # once it needs more as much as the longest that its backup closed. One that is freed leaves its memory there for the next of
    # about its length.
    replicas: int = 0
    # Of values in the history of the master. Each may take some bytes more.
    values: int = 0

    def bounds(self):
        parts = [(self.images, self.images), (self.replicas, 2 * self.replicas), (self.values, self.values * 11 // 10)]
        return sum(min(it) for it in parts) - SMALL, sum(max(it) for it in parts) + SMALL


CHANGES = [
    Change("# the first head is made at the start\n", S),
    # The old head keeps its length alone, one seglet, and the new one takes a segment.
    Change("beginroll\n", G),
    Change("roll\n", 0),
    # The survivor takes a segment, until its pass is committed.
    Change("begin 1\ncopy\n", S),
    Change("seal\nseal\nroll\nfree\nfree\n", G - S),
    Change(PUTS, 0, 2 * TEXT, N * VALUE),
    Change("roll\n", TEXT),
    # One object lives, and tombstones stay.
    Change("compact 4\n", G - TEXT),
    # The new head's replicas are short, and the freed ones leave their memory.
    Change("clean 4\n", 0),
    # That is what the new ones grow into.
    Change(PUTS, 0, 0, N * VALUE),
    # The images of the head and of four short segments go, and the whole history.
    Change("crash\n", -S - 4 * G, 0, -2 * N * VALUE),
    # A long replica goes.
    Change("lose 1\n", 0, -TEXT),
    # The new master has one object, and its replicas are short.
    Change("recover\n", S),
    Change("crash\n", -S),
]
# So many long pieces are left: what a freed replica had.
LEFT = 1

# So many objects of other keys fill a segment.
FILL = (S - 48) // (23 + 5 + VALUE)
KEYS = 2 * FILL
PASSES = [
    Change("# the first head is made at the start\n", S),
    Change("".join(f"put 1 k{key:04} {VALUE * 'v'}\n" for key in range(KEYS)), S, 4 * S, KEYS * VALUE),
    # Its replicas are short.
    Change("roll\n", S),
    # Each of two survivors takes a segment.
    Change("begin 1 2\n", 2 * S),
    Change("copy\n" * KEYS, 0),
    Change("seal\n" * 4, 0, 4 * S),
    # The commit's head takes a segment, and the old one keeps a seglet. The images of the victims leave their memory, and so do the
    # freed replicas.
    Change("roll\n" + "free\n" * 4, G),
    # That is what the next survivors have.
    Change("begin 4 5\n", 0),
]


# A master that forgets has so many records of each of these at their end: one block, since the next record hasn't come.
BLOCK_OF_RECORDS = 1024
FORGOTTEN = [
    Change("# the first head is made at the start\n", S),
    Change(f"put 1 a {VALUE * 'v'}\n", 0, 0, VALUE),
    Change("get 1 a\n" * (5 * BLOCK_OF_RECORDS - 1), 0, 0, (BLOCK_OF_RECORDS - 1) * VALUE),
    Change("get 1 a\n" * (20 * BLOCK_OF_RECORDS), 0),
]


def bytes_of(process):
    """The bytes of data that the program has of the system."""
    with open(f"/proc/{process.pid}/status", encoding="ascii") as file:
        return next(1024 * int(line.split()[1]) for line in file if line.startswith("VmData:"))


def memory_after(program, changes, *options):
    """The bytes of data that the program has once it has made these changes as it should."""
    environment = {**os.environ, **LARGE}
    with subprocess.Popen([program, *WORDS, *options], stdin=subprocess.PIPE, stdout=subprocess.DEVNULL, env=environment) as process:
        try:
            before = 0
            for change in changes:
                process.stdin.write(change.lines.encode())
                process.stdin.flush()
                wait_idle(process, process.stdin)
                after, (least, most) = bytes_of(process), change.bounds()
                if not least <= after - before <= most:
                    line = change.lines.split("\n", maxsplit=1)[0][:40]
                    raise AssertionError(f"wanted {least} to {most} bytes more after {line!r}, and {after - before} came")
                before = after
        finally:
            process.kill()
    return before


def memory_is_taken_and_given_back(program):
    left = memory_after(program, CHANGES)
    if left > SMALL + 2 * LEFT * TEXT:
        raise AssertionError(f"wanted no more at the end than {LEFT} long replicas have, and {left} bytes are left")


def survivors_take_a_segment_each(program):
    memory_after(program, PASSES)


def forgotten_records_leave_their_memory(program):
    """With --forget a script runs in constant memory."""
    memory_after(program, FORGOTTEN, "--forget")


# Recoveries. The log has several segments and the will several partitions, so that each of several threads has groups of its own.

OBJECTS, PARTITIONS = 100_000, 10
TABLE_WORDS = ["--segment=1048576", f"--seglet={G}", "--seglets=1024", "--tables=1", f"--objects={OBJECTS // PARTITIONS}"]


def large_tables_are_recovered(program):
    """One thread and several recover each object of a large table, and the last master goes on behind them."""
    keys = [b"%08d" % number for number in range(OBJECTS)]
    puts = b"".join(b"put 1 %s x\n" % key for key in keys)
    table = b"".join(b"1 %s %d x\n" % (key, place) for place, key in enumerate(keys, 1)) + b"recovered %d\n" % OBJECTS
    script = puts + b"will\ncrash\nrecover\nwill\ncrash\nrecover threads 4\nput 1 z x\n"
    output, errors, status = run(program, script, TABLE_WORDS)
    cut, last = output.count(b"partitions %d\n" % PARTITIONS), output.splitlines()[-1]
    want((output.count(table), cut, last, errors, status), (2, 2, b"ok %d" % (OBJECTS + 1), b"", 0))


WORKERS = 4


def most_threads(process):
    """The most threads that the program has at one time, until it waits for input."""
    most, until = 0, time.monotonic() + SECONDS
    while time.monotonic() < until:
        most = max(most, len(os.listdir(f"/proc/{process.pid}/task")))
        if most > 1 and is_idle(process, process.stdin):
            break
    return most


def threads_of_a_recovery(program):
    """The most threads that are seen at once while so many workers recover."""
    puts = b"".join(b"put 1 %08d x\n" % number for number in range(OBJECTS))
    with subprocess.Popen([program, *TABLE_WORDS], stdin=subprocess.PIPE, stdout=subprocess.DEVNULL) as process:
        try:
            process.stdin.write(puts + b"will\ncrash\n")
            process.stdin.flush()
            wait_idle(process, process.stdin)
            process.stdin.write(b"recover threads %d\n" % WORKERS)
            process.stdin.flush()
            return most_threads(process)
        finally:
            process.kill()


def workers_recover_in_threads(program):
    """Beside the thread that divides the log, each of four workers has a thread of its own. On a busy machine one may have ended
    before another is seen, so it is tried again."""
    for _ in range(5):
        most = threads_of_a_recovery(program)
        if most == 1 + WORKERS:
            break
    want(most, 1 + WORKERS)


# A call pushes as often as it has to.

ROLLS = 1600
ROLL_WORDS = ["--segment=65536", "--seglets=1000000", "--format=2"]


def a_call_ends_a_long_failover(program):
    """Two of three backups have each segment. As one fails, a client's put seals some 1,067 replicas anew, each in a push of its own."""
    script = ROLLS * b"roll\n" + b"fault 1 lost\nclients 1 1 0\npush\nget 1 c0\n"
    heads = b"".join(b"head %d\n" % head for head in range(2, ROLLS + 2))
    want(run(program, script, ROLL_WORDS), (heads + b"fault 1 lost\nclients 1 1 2\nrefused Nothing\n1 1\n", b"", 0))


# Sizes at which no memory may be wanting, since there is enough of it. No contract tells when a call may want memory that begins a
# segment, compacts one, makes a master, chooses victims or measures objects.

def a_whole_segment_is_compacted_and_cleaned(program):
    """Of a head of eight mebibytes every second object is put again, and what is left of it fills half a survivor."""
    firsts = [f"k{key:04}" for key in range(FILL)]
    seconds = firsts[::2]
    lines = [f"put 1 {key} {VALUE * 'v'}" for key in firsts] + ["roll"] + [f"put 1 {key} w" for key in seconds]
    script = [*lines, "roll", "compact 1", "clean 1", "log", "room", f"get 1 {firsts[0]}", f"get 1 {firsts[1]}"]
    kept = (FILL - len(seconds)) * (23 + 5 + VALUE)
    others = len(seconds) * (50 + 2 * 5 + 1)
    counted = -(-(18 + kept) // G) - (-(40 + 8 + others) // G) + -(-(40 + 2 * 8) // G) + S // G
    answers = [f"ok {version}" for version in range(1, FILL + 1)] + ["head 2"] + [f"ok {2 * place + 2}" for place in range(len(seconds))]
    wanted = [*answers, "head 3", f"compacted 1 {40 + kept}", "cleaned 4 5", "log 2 3 4 5", f"used {counted} free {16 * S // G - counted}",
              "2 w", f"2 {VALUE * 'v'}"]
    script, wanted = ("".join(f"{line}\n" for line in lines).encode() for lines in (script, wanted))
    want(run(program, script, WORDS), (wanted, b"", 0))


MANY, PER_SEGMENT, PER_PARTITION = 100000, 50, 1000
MANY_WORDS = ["--segment=131072", "--seglets=2000000", "--tables=1", f"--objects={PER_PARTITION}"]


def many_segments_and_objects_are_served(program):
    """2,001 segments have 100,000 objects. A will measures them all, and a cleaner chooses 32 segments among them."""
    heads = MANY // PER_SEGMENT + 1
    script, wanted = [], []
    for number in range(1, MANY + 1):
        script.append(f"put 1 k{number:06} x")
        wanted.append(f"ok {number}")
        if number % PER_SEGMENT == 0:
            script.append("roll")
            wanted.append(f"head {number // PER_SEGMENT + 1}")
    places = [f"k{number:06}".encode().hex() for number in range(1, MANY + 1, PER_PARTITION)]
    firsts = [16 * "0"] + [f"{place}00" for place in places[1:]]
    lasts = [f"{int(first, 16) - 1:016x}" for first in firsts[1:]] + [16 * "f"]
    wanted += [f"1 {first} {last} {number}" for number, (first, last) in enumerate(zip(firsts, lasts))]
    wanted += [f"partitions {len(places)}", "clients 1 1 2", f"log {' '.join(map(str, range(33, heads + 3)))}"]
    script += ["will", "clients 1 1 1", "log"]
    script, wanted = ("".join(f"{line}\n" for line in lines).encode() for lines in (script, wanted))
    want(run(program, script, MANY_WORDS), (wanted, b"", 0))


LARGEST = [
    "--backups=64", "--replicas=64", "--step=64", f"--segment={S}", f"--seglet={G}", "--seglets=4294967296", "--tables=64",
    "--history=1048576", "--format=2",
]


def the_largest_configuration_is_served(program):
    """A new master, one that is restored from 64 replicas of each segment, and a store with 63 clients and 1,048,576 cells."""
    script = b"put 64 a x\nroll\nget 64 a\ncrash\nrecover threads 64\nput 64 b y\nroll\nlog\nclients 63 1 0\n"
    answers = b"ok 1\nhead 2\n1 x\ncrashed\n64 a 1 x\nrecovered 1\nok 2\nhead 2\nlog 1 2\nclients 63 1 126\n"
    want(run(program, script, LARGEST), (answers, b"", 0))


TESTS = [
    help_is_printed, version_is_printed, words_are_text, lines_have_limits, a_reader_fails, a_writer_fails,
    input_comes_in_parts, pipes_show_each_answer, output_goes_in_blocks, a_terminal_shows_each_answer, a_terminal_shows_why, a_pipe_is_told_why_if_asked, a_pipe_is_told_what_may_be_made, a_pipe_goes_on_if_asked, a_terminal_goes_on,
    any_bytes_come_back, an_end_is_not_asked_for_again,
    memory_is_taken_and_given_back, survivors_take_a_segment_each, forgotten_records_leave_their_memory, large_tables_are_recovered, workers_recover_in_threads,
    a_call_ends_a_long_failover,
    a_whole_segment_is_compacted_and_cleaned, many_segments_and_objects_are_served, the_largest_configuration_is_served,
]


def is_passed(test, program):
    try:
        test(program)
    except (AssertionError, OSError, subprocess.SubprocessError) as error:
        print(f"{test.__name__} failed\n  {error}")
        return False
    return True


def main():
    words, program = sys.argv[1:], f"{TOP}/crates/ramlog/out/ramlog"
    if words and words[0].startswith("--program="):
        program = os.path.abspath(words.pop(0)[len("--program="):])
    names = {test.__name__: test for test in TESTS}
    unknown = [word for word in words if word not in names]
    if unknown:
        print(__doc__.strip())
        sys.exit(0 if unknown[0] in ("-h", "--help") else 2)
    if not os.access(program, os.X_OK):
        sys.exit(f"program_test: there is no program {program}")
    tests = [names[word] for word in words] or TESTS
    failed = sum(not is_passed(test, program) for test in tests)
    print(f"{len(tests)} tests, {failed} failed")
    sys.exit(failed > 0)


main()
