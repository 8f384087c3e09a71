"""The recovery of one crashed master, simulated by discrete events, for bench/scale.

Disks, links and processors are servers that serve one piece after another, in the order in which pieces come. A group's way is
reckoned when it is sent: out of the backup's link, into the recovery master's link, and behind what waits there. So a group makes
an event only if a backup has to wait for one of the places of a recovery master.
"""

import math
import random
from collections import deque
from dataclasses import dataclass, field

from scale_model import ROW, Clock, Placement, Server, sampled_shares, tell_step

MOST_GROUPS = 2000000
# What is rebuilt is handed on in pieces of this part of a segment.
PIECES = 16


@dataclass
class Phase:
    """From when to when a part of a recovery lasted, what it did, and how much of it was done when."""

    first: float = float("inf")
    last: float = 0.0
    bytes: float = 0.0
    marks: list = field(default_factory=list)

    def did(self, begun, ended, size):
        self.first, self.last = min(self.first, begun), max(self.last, ended)
        self.bytes += size
        self.marks.append((ended, size))


class Backup:
    """A node's disks, its links, and the thread that divides segments and sends their groups."""

    def __init__(self, disks):
        self.disks = [Server() for _ in range(disks)]
        self.out, self.into, self.divider = Server(), Server(), Server()
        self.waiting, self.is_dividing = deque(), False
        # The segment whose groups are sent, the next of these, and the bytes of each if they differ from segment to segment.
        self.segment, self.next, self.sizes = 0, 0, None


class Master:
    """A recovery master: its processor, when the groups begin to be replayed that wait there, and who waits for a place."""

    __slots__ = ("number", "node", "processor", "loader", "starts", "waiting", "is_asked", "left", "rebuilt", "handed", "most",
                 "head", "homes", "pushes", "later")

    def __init__(self, number, node, groups):
        self.number, self.node, self.processor, self.loader = number, node, Server(), Server()
        self.starts, self.waiting, self.is_asked = deque(), deque(), False
        # How many groups are still to come, the bytes that came and were handed on, and how many groups waited at most.
        self.left, self.rebuilt, self.handed, self.most = groups, 0.0, 0.0, 0
        # An owner's head and its homes, how many pieces of it are on their way, and the pieces of later heads.
        self.head, self.homes, self.pushes, self.later = 0, [], 0, deque()


PHASES = ("plan", "read", "divide", "replay", "re-replicate", "adopt")


def check_groups(setting, partitions):
    """Tests that there are not too many groups to be simulated."""
    count = setting.segments * partitions
    if count > MOST_GROUPS:
        raise ValueError(f"{setting.segments:,} segments and {partitions:,.0f} partitions make {count:,.0f} groups, and at most "
                         f"{MOST_GROUPS:,} are simulated: let there be fewer recovery masters or greater partitions")


class Recovery:
    """The recovery of one crashed master."""

    def __init__(self, setting, is_told=False):
        self.it, self.clock, self.is_told = setting, Clock(), is_told
        if not setting.shares:
            check_groups(setting, setting.table / setting.partition if setting.partition else setting.most_masters)
        self.shares = setting.shares or sampled_shares(setting)
        self.backups = [Backup(setting.hardware.disks) for _ in range(setting.nodes)]
        masters = min(setting.most_masters, len(self.shares))
        self.masters = [Master(at + 1, at % setting.nodes, setting.segments * len(range(at, len(self.shares), masters)))
                        for at in range(masters)]
        self.master_of = [self.masters[at % masters] for at in range(len(self.shares))]
        # The bytes of the groups of a segment, if keys lie at random.
        self.sizes = [share * setting.segment for share in self.shares]
        self.new = Placement(setting)
        self.phases = {name: Phase() for name in PHASES}
        self.groups, self.blocked, self.coordinator = 0, 0, {"processor": Server(), "link": Server()}
        self.adopter = Server()

    # The plan.

    def run(self):
        """All of it. It answers itself, with its phases."""
        check_groups(self.it, len(self.shares))
        placed = self.placed()
        planned = self.plan(placed)
        self.phases["plan"].did(0.0, planned, self.it.bytes * self.it.replicas if self.it.plan == "reads" else 0)
        self.begin_reads(placed, planned)
        self.clock.run()
        if self.it.replay == "sorted":
            self.sort_all()
            self.clock.run()
        if self.it.adopt == "one":
            self.adopt_by_one()
        else:
            # The coordinator tells each owner that it has its partition.
            done = self.phases["re-replicate"].last
            self.phases["adopt"].did(done, done + self.it.hardware.latency + len(self.masters) * self.it.hardware.call, 0)
        return self

    def placed(self):
        """The homes of the crashed master's segments, in the order of the segments."""
        placement = Placement(self.it)
        return [placement.homes(segment + 1) for segment in range(self.it.segments)]

    def plan(self, placed):
        """When the plan is made and each backup has the will."""
        it, hardware = self.it, self.it.hardware
        processor, link = self.coordinator["processor"], self.coordinator["link"]
        done = processor.serve(0.0, it.nodes * hardware.call) + hardware.latency
        if it.plan == "reads":
            done = max(done, self.read_all(placed))
        else:
            done = processor.serve(done, len(placed) * it.replicas * hardware.row)
        # Each backup is told all parts of the will, and each recovery master to begin.
        link.serve(done, it.nodes * ROW * len(self.shares) / hardware.link)
        processor.serve(done, (it.nodes + len(self.masters)) * hardware.call)
        return max(link.free, processor.free) + hardware.latency

    def read_all(self, placed):
        """When one thread has read each replica, as its bytes come from the disks over one link."""
        it, reads = self.it, []
        counts = [0] * it.nodes
        for homes in placed:
            for home in homes:
                disk = self.backups[home].disks[counts[home] % it.hardware.disks]
                counts[home] += 1
                reads.append(disk.serve(0.0, it.hardware.seek + it.segment / it.hardware.disk))
        done = 0.0
        for at in sorted(reads):
            arrived = self.coordinator["link"].serve(at, it.segment / it.hardware.link) + it.hardware.latency
            done = self.coordinator["processor"].serve(arrived, it.segment / it.costs.plan)
        return done

    # Reading and dividing.

    def begin_reads(self, placed, planned):
        """Each disk reads the segments whose first replica it has. What a plan has read is in memory then."""
        it, lists = self.it, [[] for _ in range(self.it.nodes)]
        for segment, homes in enumerate(placed):
            lists[homes[0]].append(segment)
        draw = random.Random(it.seed + 2)
        seconds = 0.0 if it.plan == "reads" else it.hardware.seek + it.segment / it.hardware.disk
        for home, segments in enumerate(lists):
            if it.reading == "shuffled":
                draw.shuffle(segments)
            for at, segment in enumerate(segments):
                disk = self.backups[home].disks[at % it.hardware.disks]
                ended = disk.serve(max(planned, disk.free), seconds) if seconds else planned
                self.clock.at(ended, self.was_read, home, segment, ended - seconds)

    def was_read(self, home, segment, begun):
        self.phases["read"].did(begun, self.clock.now, self.it.segment)
        backup = self.backups[home]
        backup.waiting.append(segment)
        if not backup.is_dividing:
            self.divide_next(home)

    def divide_next(self, home):
        backup = self.backups[home]
        backup.is_dividing = bool(backup.waiting)
        if backup.is_dividing:
            segment = backup.waiting.popleft()
            backup.segment, backup.next, backup.sizes = segment, 0, self.sizes_of(segment)
            ended = backup.divider.serve(self.clock.now, self.it.segment / self.it.costs.divide)
            self.clock.at(ended, self.was_divided, home, self.clock.now)

    def was_divided(self, home, begun):
        self.phases["divide"].did(begun, self.clock.now, self.it.segment)
        if self.is_told and len(self.phases["divide"].marks) % 100 == 0:
            tell_step(f"{len(self.phases['divide'].marks):,} of {self.it.segments:,} segments are divided")
        self.send(home)

    # Groups.

    def sizes_of(self, segment):
        """The bytes of the groups of a segment of rising keys. If keys lie at random, each has its partition's share."""
        it, sizes, begun = self.it, [], 0.0
        if it.keys == "random":
            return None
        first, last = segment / it.segments, (segment + 1) / it.segments
        for share in self.shares:
            sizes.append(max(0.0, min(begun + share, last) - max(begun, first)) * it.bytes)
            begun += share
        return sizes

    def send(self, home):
        """Sends the groups of a segment, from the next one on, up to one that finds no place."""
        it, backup, partitions = self.it, self.backups[home], len(self.shares)
        turn = home * partitions // it.nodes if it.sending == "rotated" else 0
        sizes, now = backup.sizes or self.sizes, self.clock.now
        for at in range(backup.next, partitions):
            partition = (at + turn) % partitions
            master, size = self.master_of[partition], sizes[partition]
            if not size and it.empties == "told":
                self.tell(master)
                continue
            starts = master.starts
            while starts and starts[0] <= now:
                starts.popleft()
            if len(starts) >= it.places:
                self.wait(master, home, size)
                if it.sending == "pulled":
                    continue
                backup.next = at
                return
            self.take(master, self.carried(backup, master, size), size)
        self.divide_next(home)

    def carried(self, backup, master, size):
        """When a group that is sent now has come through both links."""
        seconds, out, into = size / self.it.hardware.link, backup.out, self.backups[master.node].into
        out.free = max(self.clock.now, out.free) + seconds
        into.free = max(out.free + self.it.hardware.latency, into.free + seconds)
        out.busy += seconds
        into.busy += seconds
        return into.free

    def take(self, master, arrived, size):
        """A group comes to a recovery master then, and is replayed behind those before it, or kept until all are there."""
        self.groups += 1
        master.left -= 1
        master.rebuilt += size
        if self.it.replay == "sorted":
            master.processor.free = max(master.processor.free, arrived)
            return
        processor, seconds = master.processor, size / self.it.costs.replay + self.it.costs.group
        begun = max(arrived, processor.free)
        processor.free = begun + seconds
        processor.busy += seconds
        master.starts.append(begun)
        master.most = max(master.most, len(master.starts))
        # Whole pieces of what is rebuilt are handed on at once, and the rest at the end.
        if master.rebuilt - master.handed >= self.it.segment / PIECES or not master.left:
            self.hand_on(master, begun, processor.free, master.rebuilt - master.handed)

    def tell(self, master):
        """A recovery master is told that a group is empty."""
        self.groups += 1
        master.left -= 1
        if self.it.replay == "coming" and not master.left and master.rebuilt > master.handed:
            self.hand_on(master, master.processor.free, master.processor.free, master.rebuilt - master.handed)

    def wait(self, master, home, size):
        """A group waits at its backup for a place at a recovery master, behind others that do."""
        self.blocked += 1
        master.waiting.append((home, size))
        if not master.is_asked:
            master.is_asked = True
            self.clock.at(master.starts[0], self.freed, master)

    def freed(self, master):
        """A place is free. The group that waits for it is sent, and then those behind it if the backup had waited with it."""
        now, starts = self.clock.now, master.starts
        while starts and starts[0] <= now:
            starts.popleft()
        for _ in range(min(self.it.places - len(starts), len(master.waiting))):
            home, size = master.waiting.popleft()
            if self.it.sending == "pulled":
                self.take(master, self.carried(self.backups[home], master, size), size)
            else:
                self.send(home)
        master.is_asked = bool(master.waiting)
        if master.is_asked:
            self.clock.at(starts[0], self.freed, master)

    # Replay and replication.

    def hand_on(self, master, begun, ended, size):
        """A piece is replayed then. An owner loads and replicates it."""
        self.phases["replay"].did(begun, ended, size)
        if self.it.adopt == "owners":
            segment, live = int(master.handed * self.it.live // self.it.segment) + 1, size * self.it.live
            loaded = master.loader.serve(ended, live / self.it.costs.load)
            if loaded > ended:
                self.phases["adopt"].did(ended, loaded, live)
            self.clock.at(loaded, self.push, master, segment, live)
        master.handed += size

    def push(self, master, segment, size):
        """An owner pushes a piece of its head. A piece of the next head waits until the head before it is pushed whole."""
        if segment > master.head and (master.pushes or master.later):
            master.later.append((segment, size))
            return
        if segment > master.head:
            master.head, master.homes = segment, self.new.homes(segment, master.number, counts=False)
        master.pushes += 1
        self.clock.at(self.replicate(master.node, master.homes, size), self.pushed, master)

    def pushed(self, master):
        master.pushes -= 1
        if master.pushes or not master.later:
            return
        later, master.later = master.later, deque()
        for segment, size in later:
            self.push(master, segment, size)

    def sort_all(self):
        """Each recovery master replays all that it kept, once the last group is there."""
        for master in self.masters:
            while master.rebuilt - master.handed > 1e-6:
                size = min(self.it.segment, master.rebuilt - master.handed)
                begun = master.processor.free
                self.hand_on(master, begun, master.processor.serve(begun, size / self.it.costs.replay), size)

    def replicate(self, node, homes, size):
        """A piece of a new master's segment goes to its homes. It answers when the last of them has it."""
        it, now, last = self.it, self.clock.now, 0.0
        sending = size / it.hardware.link
        for home in homes:
            left = self.backups[node].out.serve(now, sending)
            into = self.backups[home].into
            into.free = max(left + it.hardware.latency, into.free + sending)
            into.busy += sending
            last = max(last, into.free)
            self.phases["re-replicate"].did(now, into.free, size)
        return last

    def adopt_by_one(self):
        """One new master gets all lists over its link. It loads a segment, pushes it to each home, and goes on."""
        it, begun, into = self.it, self.phases["replay"].last, self.backups[0].into
        segments = math.ceil(it.bytes * it.live / it.segment)
        size = it.bytes * it.live / segments
        for at in range(segments):
            arrived = into.serve(begun, size / it.hardware.link) + it.hardware.latency
            self.clock.now = self.adopter.serve(arrived, size / it.costs.adopt)
            self.adopter.free = self.replicate(0, self.new.homes(at + 1, 1, counts=False), size)
        self.phases["adopt"].did(begun, self.adopter.free, it.bytes * it.live)

    # What came of it.

    def seconds(self):
        return max(phase.last for phase in self.phases.values())

    def loads(self):
        """How long the busiest server of each kind was busy."""
        most = lambda servers: max(server.busy for server in servers)
        return {
            "the coordinator's processor": self.coordinator["processor"].busy,
            "the coordinator's link": self.coordinator["link"].busy,
            "a disk": most(disk for backup in self.backups for disk in backup.disks),
            "a dividing thread": most(backup.divider for backup in self.backups),
            "a recovery master's processor": most(master.processor for master in self.masters),
            "a link out of a node": most(backup.out for backup in self.backups),
            "a link into a node": most(backup.into for backup in self.backups),
            "an owner's loading thread": most(master.loader for master in self.masters),
            "the adopting master's processor": self.adopter.busy,
        }

    def bound(self):
        """The kind of server of which one was busy longest, and how long."""
        return max(self.loads().items(), key=lambda it: it[1])


def recover(setting, is_told=False):
    """A recovery that has come to its end."""
    return Recovery(setting, is_told).run()
