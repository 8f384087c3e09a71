"""What bench/scale simulates: nodes, costs, wills, places of replicas, and a clock of events. It runs nothing of the program.

Wills are made by `make_will` of model/script_model.py, and replicas placed by the rule of docs/SPECIFICATION.md, section 5.
What the rules don't have is a variant with a name of its own.
"""

import heapq
import math
import os
import random
import re
import sys
from dataclasses import dataclass

TOP = os.path.dirname(os.path.dirname(os.path.abspath(__file__)))
sys.path.insert(0, f"{TOP}/model")

from script_model import make_will, place

SEGMENT = 8388608
# Bytes of an opening beside its ids, of an id, of an id with a length, and of what a coordinator is told of one replica or of one
# part of a will.
OPENING, ID, ID_LENGTH, ROW = 32, 8, 16, 32
# A segment may list so many times less ids than it has bytes.
BYTES_FOR_AN_ID = 32
# So many objects stand for those of a table when its will is made, or more if there are many partitions.
SAMPLED, SAMPLED_FOR_EACH = 20000, 100
# By the rule `shifted` each master's first segment lies so many backups behind that of the one before.
SHIFT = 7


@dataclass(frozen=True)
class Costs:
    """What one processor does in bytes of log a second, and the seconds that it takes for each group beside that."""

    name: str
    divide: float
    replay: float
    adopt: float
    # Of bytes of replicas, all of them counted.
    plan: float
    # What an owner loads of its partition with one thread, if replay doesn't do that.
    load: float = math.inf
    group: float = 0.0


@dataclass(frozen=True)
class Hardware:
    """What a node has. Disks and links in bytes a second, times in seconds."""

    name: str
    disks: int
    disk: float
    seek: float
    link: float
    latency: float
    # What the coordinator takes for a call to a node, and for a row of a list.
    call: float = 5e-6
    row: float = 1e-7


# The papers' nodes have two disks of 100 MB a second, or two flash drives of about 250, and a link of 25 Gb a second. The rate of
# a disk is that of whole segments, with what it takes to find them.
ERAS = {
    "2011": Hardware("two disks of 100 MB/s", 2, 100e6, 0.0, 25e9 / 8, 5e-6),
    "2011-flash": Hardware("two flash drives of 250 MB/s", 2, 250e6, 0.0001, 25e9 / 8, 5e-6),
    "today": Hardware("one NVMe drive of 3 GB/s", 1, 3e9, 0.0001, 25e9 / 8, 10e-6),
}
LINKS_OF_ALL = "links of 25 Gb/s"

# Measured, in docs/BENCHMARKS.md, by bench/compare rebuild: by the bytes of a value and how keys come, for so many workers the MB of
# log a second on the clock, the calling thread's milliseconds, and those of a worker.
REBUILT = 12 * SEGMENT
REBUILDS = {
    (10, "at random"): {1: (57, 226, 1797), 2: (90, 230, 903), 4: (151, 191, 481)},
    (100, "at random"): {1: (168, 66, 619), 2: (289, 88, 296), 4: (364, 117, 180)},
    (100, "rising"): {1: (406, 93, 208), 2: (551, 82, 143), 4: (887, 90, 64)},
    (1000, "at random"): {1: (1123, 13, 111), 2: (1222, 33, 68), 4: (1756, 29, 35)},
}
# Of keys at random this share is left. The calling thread's time has in it what it takes to give the objects back; so much for
# each, by the rows of rising keys.
LEFT, GIVES_BACK = 0.63, 59e-9
# Bytes of log a second that an adoption loads, by docs/TOOLS.md. Values of 1,000 bytes weren't measured: as many objects as with
# 100.
ADOPTIONS = {10: 118e6, 100: 207e6, 1000: 207e6 / 132 * 1032}
# Bytes of replicas that a plan reads in a second: an earlier program planned 1,420 MB of log a second from two replicas of each
# segment, by `bench/compare plan`.
PLANS = 2840e6


def divided(value, keys, calling):
    """The seconds in which a calling thread divides the log of `bench/compare rebuild`, if it takes so many milliseconds in all."""
    objects = REBUILT / (32 + value) * (LEFT if keys == "at random" else 1)
    return calling / 1e3 - objects * GIVES_BACK


def our_costs(value):
    """Those of our own program on four processors: one thread divides, and four workers replay."""
    _, calling, worker = REBUILDS[value, "at random"][4]
    return Costs(f"ours, values of {value:,} bytes", REBUILT / divided(value, "at random", calling), REBUILT / (worker / 1e3),
                 ADOPTIONS[value], PLANS, ADOPTIONS[value])


# A recovery master of the papers replays about 400 MB a second. The papers don't say what dividing costs: that is ours.
COSTS = {"ours-10": our_costs(10), "ours-100": our_costs(100), "ours-1000": our_costs(1000)}
COSTS["papers"] = Costs("the papers', 400 MB/s of replay", COSTS["ours-100"].divide, 400e6, ADOPTIONS[100], PLANS)


@dataclass(frozen=True)
class Setting:
    """A crash to simulate."""

    hardware: Hardware
    costs: Costs
    nodes: int = 60
    table: float = 35e9
    # The share of the log that is live.
    live: float = 1.0
    replicas: int = 3
    step: int = 1
    # Threads that replay in each node, and the recovery masters there are at most; 0 for as many as the nodes have.
    workers: int = 1
    masters: int = 0
    # The most bytes of a partition; 0 for one partition for each recovery master.
    partition: float = 0.0
    places: int = 4
    placement: str = "cyclic"
    plan: str = "reads"
    adopt: str = "one"
    # Whether recovery masters replay groups as they come, or sort them once all are there.
    replay: str = "coming"
    # How a backup sends the groups of a segment: `forwards` from partition 0 on, `rotated` from another one on for each backup, and
    # it waits with the first that finds no place; or `pulled`, where it goes on and keeps what finds none. And whether empty groups
    # are sent, or told in a word that costs nothing.
    sending: str = "forwards"
    empties: str = "sent"
    # Whether keys lie at random in the log, or rise with it, and in which order a backup reads.
    keys: str = "random"
    reading: str = "log"
    shares: tuple = ()
    segment: int = SEGMENT
    seed: int = 1

    @property
    def segments(self):
        return max(1, round(self.table / self.segment))

    @property
    def bytes(self):
        return self.segments * self.segment

    @property
    def most_masters(self):
        return self.masters or self.nodes * self.workers


def tell_step(text):
    """How far a long work is, if somebody looks. No text ends it."""
    if sys.stderr.isatty():
        print(f"\r\033[K{text}", end="", file=sys.stderr, flush=True)


# Wills and placement.

def sampled_shares(setting):
    """The share of a table that each partition has, by `make_will` over objects that stand for those of the table."""
    most = setting.partition or 1.005 * setting.table / setting.most_masters
    count = max(SAMPLED, round(SAMPLED_FOR_EACH * setting.table / most))
    draw = random.Random(setting.seed)
    places = sorted(draw.randrange(2**64) for _ in range(count))
    each = setting.table / count
    parts, partitions = make_will([1], [(1, at, each) for at in places], max(most, each), count)
    return shares_of(parts, partitions, [(1, at, each) for at in places])


def shares_of(parts, partitions, sizes):
    """The share of the bytes of some objects that each partition of a will has."""
    sums, at = [0.0] * partitions, 0
    for table, place, size in sorted(sizes):
        while (parts[at][0], parts[at][2]) < (table, place):
            at += 1
        sums[parts[at][3]] += size
    whole = sum(sums)
    return tuple(it / whole for it in sums)


def read_will(text):
    """The shares of the partitions of the first will in what the program printed.

    If a recovered table follows, a partition's share is that of its objects' bytes. Else it is that of its places.
    """
    lines = text.splitlines()
    ends = [at for at, line in enumerate(lines) if re.fullmatch("partitions [0-9]+", line)]
    rows = [re.fullmatch("([0-9]+) ([0-9a-f]{16}) ([0-9a-f]{16}) ([0-9]+)", line) for line in lines[:ends[0] if ends else 0]]
    parts = [(int(row[1]), int(row[2], 16), int(row[3], 16), int(row[4])) for row in rows if row]
    if not parts:
        raise ValueError("it has no will, as '1 0000000000000000 ffffffffffffffff 0' and 'partitions 1'")
    sizes = []
    for at, line in enumerate(lines[ends[0]:], ends[0]):
        if re.fullmatch("recovered [0-9]+", line):
            table = [row.split() for row in lines[at - int(line.split()[1]):at]]
            sizes = [(int(row[0]), place(row[1].encode()), 23 + len(row[1]) + len(row[3])) for row in table]
            break
    if sizes:
        return shares_of(parts, parts[-1][3] + 1, sizes)
    widths = [0.0] * (parts[-1][3] + 1)
    for _, first, last, partition in parts:
        widths[partition] += last - first + 1
    return tuple(it / sum(widths) for it in widths)


class Placement:
    """On which backups the replicas of a master's segments are."""

    def __init__(self, setting):
        self.setting, self.draw = setting, random.Random(setting.seed + 1)
        self.primaries = [0] * setting.nodes

    def homes(self, segment, master=0, counts=True):
        """The homes of a master's segment. If it counts, it is one to be read, and the rule `five` evens out what backups read.

        `cyclic` is the specification's rule. `shifted` begins elsewhere for each master. `random` draws R backups. `five` draws
        so too, and takes for replica 0 the one of five that has the fewest segments to read.
        """
        it, nodes = self.setting, self.setting.nodes
        if it.placement in ("cyclic", "shifted"):
            first = segment * it.step + (master * SHIFT if it.placement == "shifted" else 0)
            return [(first + j) % nodes for j in range(it.replicas)]
        homes = self.draw.sample(range(nodes), it.replicas)
        if it.placement == "five" and counts:
            first = min(self.draw.sample(range(nodes), min(5, nodes)), key=self.primaries.__getitem__)
            homes = [first, *[at for at in homes if at != first]][:it.replicas]
        if counts:
            self.primaries[homes[0]] += 1
        return homes


# Events.

class Clock:
    """Events in the order of their times, and of equal times in the order in which they were asked for."""

    def __init__(self):
        self.events, self.count, self.now = [], 0, 0.0

    def at(self, time, act, *what):
        self.count += 1
        heapq.heappush(self.events, (time, self.count, act, what))

    def run(self):
        while self.events:
            self.now, _, act, what = heapq.heappop(self.events)
            act(*what)


class Server:
    """What serves one piece after another."""

    __slots__ = ("free", "busy")

    def __init__(self):
        self.free = self.busy = 0.0

    def serve(self, now, seconds):
        """When a piece that comes now is done."""
        self.free = max(now, self.free) + seconds
        self.busy += seconds
        return self.free
