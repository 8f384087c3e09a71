"""How long a choice of the cleaner takes, by what is live and by how many segments there are: `bench/measure choices`.

Objects fill memory, so that the cleaner is low: fewer than four whole segments are free. Then a backup fails, and the failover's new
head leaves less than two free. Nothing is dead, so no compaction gains a seglet, and no pass finds memory. So each line `tend 1` is one
choice, which looks at all that is counted and begins nothing: it prints `tended 0`, and the next line finds the log as it was. A line
`tend 1` in a memory that isn't low takes what reading and printing take; its time is taken off.

Times are those of the processor, which the system counts for the process (a clock of its own), so nothing is filled twice.
"""

import subprocess
import time

MEGABYTE = 1048576
# Live objects of so many megabytes, in segments of so many bytes, with values of so many bytes.
LIVE, CHOICE_SEGMENTS, CHOICE_VALUES = (8, 16, 32, 64, 128, 256, 512), (8388608, 1048576, 262144), (100, 4000)
CHOICE_SEGLET = 512
# So many lines are timed at once, and so many times; and so many lines are sent before their answers are read.
CHOICES, CHOICE_ROUNDS, CHOICE_BATCH = 200, 5, 500
# An object has so many bytes beside its value: its key has 10.
BESIDE = 23 + 10


def whole(length, unit):
    """How many units hold so many bytes."""
    return -(-length // unit)


class Full:
    """Segments of so many bytes in all, each full of objects of one size, and memory that leaves the cleaner no room behind them."""

    def __init__(self, live, segment, seglet, value):
        self.segment, self.seglet, self.value = segment, seglet, value
        self.each = BESIDE + value
        # How many objects each segment has.
        self.counts = [(segment - self.opening(at + 1)) // self.each for at in range(live // segment)]

    def opening(self, listed):
        """The bytes of the opening of a head that lists so many segments, under format 2."""
        return 32 + 16 * listed

    def lengths(self):
        """How many bytes each segment has."""
        return [self.opening(at + 1) + count * self.each for at, count in enumerate(self.counts)]

    def words(self):
        """The options of the program. Behind the roll two whole segments are free, and what the last full one leaves empty."""
        room = self.segment // self.seglet
        counted = [whole(length, self.seglet) for length in self.lengths()]
        seglets = sum(counted) + 3 * room + room - counted[-1]
        return [f"--segment={self.segment}", f"--seglet={self.seglet}", f"--seglets={seglets}", "--format=2", "--replicas=1", "--forget"]

    def put(self, number):
        return f"put 1 key{number:07} {number:0{self.value}}\n"

    def fill(self):
        """The lines that fill all segments."""
        return map(self.put, range(sum(self.counts)))

    def fail(self):
        """The lines behind these. Two objects lie in the head that the failover closes, so it leaves less than two segments free."""
        count = sum(self.counts)
        return ["roll\n", self.put(count), self.put(count + 1), "fault 1 lost\n", self.put(count + 2)]

    def listed(self):
        """How many segments a choice looks at: the full ones, and the one that the failover closed."""
        return len(self.counts) + 1


class Session:
    """The program, which answers lines one after the other."""

    def __init__(self, program, words, stop):
        self.process = subprocess.Popen([program, *words], stdin=subprocess.PIPE, stdout=subprocess.PIPE)
        self.stop = stop

    def ask(self, lines, wanted):
        """Sends lines that print one line each, which begins as wanted."""
        lines = iter(lines)
        while batch := [line for _, line in zip(range(CHOICE_BATCH), lines)]:
            self.process.stdin.write("".join(batch).encode())
            self.process.stdin.flush()
            for line in batch:
                answer = self.process.stdout.readline().decode()
                if not answer.startswith(wanted):
                    self.stop(f"{line[:40].strip()} printed {answer.strip() or 'nothing'}")

    def time_choices(self):
        """The shortest processor time of one choice that begins nothing, in seconds."""
        # The clock of a process, as clock_getcpuclockid of the C library gives it.
        clock, taken = (~self.process.pid << 3) | 2, []
        self.ask(["tend 1\n"], "tended 0")
        for _ in range(CHOICE_ROUNDS):
            before = time.clock_gettime(clock)
            self.ask(["tend 1\n"] * CHOICES, "tended 0")
            taken.append(time.clock_gettime(clock) - before)
        return min(taken) / CHOICES

    def end(self):
        self.process.stdin.close()
        if self.process.wait() != 0:
            self.stop(f"a script ended with status {self.process.returncode}")


def line_time(program, stop):
    """How long a line `tend 1` takes that chooses nothing."""
    session = Session(program, [], stop)
    session.ask(["put 1 a x\n"], "ok")
    seconds = session.time_choices()
    session.end()
    return seconds


def choice_time(program, full, stop):
    """How long a choice takes in a full memory."""
    session = Session(program, full.words(), stop)
    session.ask(full.fill(), "ok")
    session.ask(full.fail(), ("ok", "head", "fault"))
    seconds = session.time_choices()
    session.end()
    return seconds


def choices(program, stop):
    """All that is measured of choices."""
    line = line_time(program, stop)
    print(f"Choices of the cleaner: processor time of one, less {line * 1e6:.2f} microseconds for its line")
    for segment in CHOICE_SEGMENTS:
        for value in CHOICE_VALUES:
            print(f"  Segments of {segment:,} bytes, values of {value:,} bytes")
            for megabytes in LIVE:
                full = Full(megabytes * MEGABYTE, segment, CHOICE_SEGLET, value)
                seconds = max(0, choice_time(program, full, stop) - line)
                print(f"    {megabytes} MB live in {full.listed():,} segments: {seconds * 1e6:,.2f} microseconds, "
                      f"{seconds * 1e9 / full.listed():,.1f} nanoseconds for each segment")
