"""The tables of bench/scale: the papers' points, one process, recovery over nodes, what bounds the rules, and placements."""

import math
from collections import Counter
from dataclasses import dataclass, replace

import scale_pictures
from scale_model import (
    BYTES_FOR_AN_ID, COSTS, ERAS, ID, ID_LENGTH, OPENING, REBUILDS, REBUILT, SEGMENT, Costs, Hardware, Placement, Setting,
    divided, tell_step,
)
from scale_recovery import Recovery, recover

# A simulated time is off if it is more than a fifth above a point, or a point more than a fifth above it.
OFF = 1.2
RAMCLOUD = {"placement": "five", "plan": "lists", "adopt": "owners", "sending": "pulled"}
# Recovery masters that are simulated at most where many nodes are compared: if they keep their partitions, and if one master
# adopts. There all groups may wait at owners.
MOST_OWNERS, MOST_MASTERS, MANY_PLACES = 240, 20, 1000000
NODES, FEW_NODES = (6, 20, 60, 200, 1000, 10000), (60, 1000, 10000)


def is_off(ratio):
    return not 1 / OFF <= ratio <= OFF


# The papers' points.

@dataclass(frozen=True)
class Point:
    """A recovery time of the papers, and how sure it is: of the text, off a figure from memory, or by sums from such numbers."""

    name: str
    seconds: float
    source: str
    setting: Setting
    # The papers say no more than that it takes at most so long.
    is_most: bool = False


def by_flash(nodes):
    """One partition for each node, of as many bytes as with 35 GB on 60 nodes."""
    return Setting(ERAS["2011-flash"], COSTS["papers"], nodes=nodes, table=35e9 / 60 * nodes, **RAMCLOUD)


def by_disks(nodes, masters, table):
    return Setting(ERAS["2011"], COSTS["papers"], nodes=nodes, masters=masters, table=table, **RAMCLOUD,
                   replicas=min(3, nodes))


def points():
    text, figure, sums = "text", "~ read off a figure", "~ by sums"
    one = lambda size: replace(by_flash(60), masters=1, table=size)
    return [
        Point("35 GB, 60 nodes, 60 partitions, flash", 1.6, text, by_flash(60)),
        Point("64 GB, 120 nodes: 'in less time' than 1.6 s", 1.6, text, replace(by_flash(120), table=64e9), True),
        Point("3.5 GB, 6 nodes, 6 partitions, flash", 1.4, figure, by_flash(6)),
        Point("11.7 GB, 20 nodes, 20 partitions, flash", 1.5, figure, by_flash(20)),
        Point("23.3 GB, 40 nodes, 40 partitions, flash", 1.5, figure, by_flash(40)),
        Point("11.7 GB, 60 nodes, 20 partitions, 120 disks", 1.5, figure, by_disks(60, 20, 11.7e9)),
        Point("one partition of 200 MB, 60 nodes", 0.5, figure, one(200e6)),
        Point("one partition of 400 MB, 60 nodes", 1.0, figure, one(400e6)),
        Point("one partition of 600 MB, 60 nodes", 1.5, figure, one(600e6)),
        Point("one partition of 600 MB, 2 disks of 1 node", 3.0, sums, by_disks(1, 1, 600e6)),
        Point("one partition of 600 MB, 4 disks of 2 nodes", 1.5, sums, by_disks(2, 1, 600e6)),
        Point("one partition of 600 MB, 6 disks of 3 nodes", 1.5, sums, by_disks(3, 1, 600e6)),
        Point("35 GB, 60 nodes, 120 disks of 100 MB/s: the disks alone", 2.9, sums, by_disks(60, 60, 35e9)),
    ]


def check(_given):
    """The papers' points beside the simulator's."""
    off, listed = 0, points()
    print("| Point | Paper, s | Known by | Simulator, s | Ratio | Busy longest |\n|---|---|---|---|---|---|", flush=True)
    for at, point in enumerate(listed):
        tell_step(f"point {at + 1} of {len(listed)}")
        recovery = recover(point.setting)
        ratio = recovery.seconds() / point.seconds
        is_wrong = ratio > OFF if point.is_most else is_off(ratio)
        off += is_wrong
        tell_step("")
        most, wrong = "at most " if point.is_most else "", ", off" if is_wrong else ""
        print(f"| {point.name} | {most}{point.seconds} | {point.source} | {recovery.seconds():.2f} | {ratio:.2f}{wrong} | "
              f"{recovery.bound()[0]} |", flush=True)
    print(f"{len(listed)} points, {off} off")
    return 1 if off else 0


# One process.

NOWHERE = Hardware("no disk and no link", 1, math.inf, 0.0, math.inf, 0.0, 0.0, 0.0)


def own_setting(value, keys, workers, calling, worker):
    """A log that one thread divides and so many workers replay, at the costs of that row."""
    costs = Costs("a row", REBUILT / divided(value, keys, calling), REBUILT / workers / (worker / 1e3), 1.0, 1.0)
    return Setting(NOWHERE, costs, nodes=1, workers=workers, table=REBUILT, replicas=1, plan="lists", adopt="owners",
                   replay="sorted", shares=(1 / 16,) * 16, keys="rising" if keys == "rising" else "random")


def own(_given):
    """The rebuilds of one process beside what was measured."""
    off = count = 0
    print("| Value, keys | Workers | Measured: MB a second | Simulator | Ratio |\n|---|---|---|---|---|")
    for (value, keys), rows in REBUILDS.items():
        for workers, (speed, calling, worker) in rows.items():
            seconds = recover(own_setting(value, keys, workers, calling, worker)).phases["replay"].last
            simulated = REBUILT / seconds / 1e6
            count += 1
            off += is_off(simulated / speed)
            print(f"| {value:,}, {keys} | {workers} | {speed:,} | {simulated:,.0f} | {simulated / speed:.2f} |")
    print(f"{count} rows, {off} off by more than 20 %")
    return 0


# Recovery over nodes.

def costs_of(era):
    return COSTS["ours-100" if era == "today" else "papers"]


def curves(era):
    """The rules that are compared over nodes."""
    base = Setting(ERAS[era], costs_of(era), masters=MOST_MASTERS)
    owners = replace(base, plan="lists", adopt="owners", masters=MOST_OWNERS, places=MANY_PLACES)
    return {
        "our rules": base,
        "plan by lists": replace(base, plan="lists"),
        "plan by lists, owners": owners,
        "plan by lists, owners, scatter by five": replace(owners, **RAMCLOUD),
    }


def swept(era, cluster):
    """Of each of the rules the seconds at each number of nodes, and what bounds it. A master has its share of a cluster's
    bytes."""
    found = {}
    for name, setting in curves(era).items():
        for nodes in NODES:
            tell_step(f"{name}, {nodes:,} nodes")
            table = cluster / nodes if cluster else setting.table
            recovery = recover(replace(setting, nodes=nodes, masters=min(nodes, setting.masters), table=table))
            found[name, nodes] = recovery.seconds(), recovery.bound()[0]
    tell_step("")
    return found


def nodes(given):
    """Recovery time over the number of nodes, by our rules and by changed ones."""
    found, hardware = swept(given.era, given.cluster), ERAS[given.era]
    table = f"{given.cluster / 1e9:,.0f} GB in a cluster" if given.cluster else "35 GB"
    names = list(dict.fromkeys(name for name, _ in found))
    if given.svg:
        lines = {name: [(at, found[name, at][0]) for at in NODES] for name in names}
        print(scale_pictures.curves(
            f"{table}, a crash recovered, simulated: {hardware.name}, links of 25 Gb/s; costs {costs_of(given.era).name}",
            "nodes", "seconds", lines, is_logarithmic=(True, True), legend_at=(scale_pictures.LEFT + 20, 330)))
        return 0
    print(f"{table}, three replicas, {hardware.name}, links of 25 Gb/s, costs: {costs_of(given.era).name}; at most {MOST_OWNERS} "
          "owners; seconds, and what is busy longest")
    print(f"| Nodes | {' | '.join(names)} |\n|---{'|---' * len(names)}|")
    for at in NODES:
        cells = [f"{found[name, at][0]:.2f}, {found[name, at][1]}" for name in names]
        print(f"| {at:,} | {' | '.join(cells)} |", flush=True)
    return 0


# What bounds the rules.

def plan_seconds(setting, how, partitions):
    """When a plan is made and each node has the will."""
    recovery = Recovery(replace(setting, plan=how, masters=partitions, shares=(1 / partitions,) * partitions))
    return recovery.plan(recovery.placed())


def adoption_seconds(setting):
    recovery = Recovery(replace(setting, shares=(1.0,)))
    recovery.adopt_by_one()
    return recovery.seconds()


def owner_seconds(setting, placement):
    return recover(replace(setting, **{**RAMCLOUD, "placement": placement}, masters=60)).seconds()


def freeze_seconds(setting):
    """How long a failed backup keeps every master from appending, if what it held is spread evenly: by links, and by disks."""
    lost = setting.bytes * setting.replicas / setting.nodes
    return lost / setting.hardware.link, lost / (setting.hardware.disks * setting.hardware.disk)


def limits_at(setting, nodes):
    """The bounds of 35 GB on so many nodes, each in words and seconds."""
    at = replace(setting, nodes=nodes)
    rows = [
        ("plan: one thread reads all replicas", plan_seconds(at, "reads", 60)),
        ("plan: backups list what they hold, 60 partitions", plan_seconds(at, "lists", 60)),
        ("plan by lists, a partition for each node", plan_seconds(at, "lists", nodes)),
        ("one master adopts the table", adoption_seconds(at)),
        ("60 owners, cyclic placement: the whole recovery", owner_seconds(at, "cyclic")),
        ("cyclic placement: the first segments of an owner for each node", nodes * SEGMENT / at.hardware.link),
        ("60 owners, each with another begin: the whole recovery", owner_seconds(at, "shifted")),
        ("60 owners, scatter by five: the whole recovery", owner_seconds(at, "five")),
        ("a failed backup, spread evenly: links", freeze_seconds(at)[0]),
        ("a failed backup, spread evenly: disks", freeze_seconds(at)[1]),
        ("a failed backup, all onto R backups: links", at.bytes / at.hardware.link),
        ("a failed backup: a raise of the registry by each master, 5 us each", nodes * at.hardware.call),
        ("a failed backup: the same, if a raise waits 1 ms for a disk", nodes * 1e-3),
    ]
    return dict(rows)


def limits(given):
    """What bounds our rules at each of some numbers of nodes."""
    setting = Setting(ERAS[given.era], costs_of(given.era))
    found = {}
    for at in FEW_NODES:
        tell_step(f"{at:,} nodes")
        found[at] = limits_at(setting, at)
    tell_step("")
    print(f"35 GB, three replicas, {setting.hardware.name}, links of 25 Gb/s, costs: {setting.costs.name}; seconds")
    print(f"| Bound | {' | '.join(f'{at:,} nodes' for at in FEW_NODES)} |\n|---{'|---' * len(FEW_NODES)}|")
    for name in found[FEW_NODES[0]]:
        print(f"| {name} | {' | '.join(f'{found[at][name]:.3g}' for at in FEW_NODES)} |")
    print()
    tell_digests()
    return 0


def tell_digests():
    """What the opening of a head takes of its segment, by the bytes of a master's log."""
    print("| A master's log | Segments | Opening, format 1 | Of the segment | Opening, format 2 | Of the segment |")
    print("|---|---|---|---|---|---|")
    most = SEGMENT // BYTES_FOR_AN_ID - 1
    for size in (100e6, 1e9, 16.7e9, 35e9, 256e9, 1e12, most * SEGMENT):
        count = math.ceil(size / SEGMENT)
        plain, lengths = OPENING + ID * count, OPENING + ID_LENGTH * count
        print(f"| {size / 1e9:,.1f} GB | {count:,} | {plain:,} bytes | {100 * plain / SEGMENT:.2g} % | {lengths:,} bytes | "
              f"{100 * lengths / SEGMENT:.2g} % |")


# Placements.

PLACED_MASTERS, PLACED_SEGMENTS = 60, 4172


def mended(placement, homes, nodes, failed):
    """The backup that gets anew what a failed one had of a segment with these homes, by a rule."""
    if placement.setting.placement in ("cyclic", "shifted"):
        return (homes[0] + len(homes)) % nodes
    while True:
        home = placement.draw.randrange(nodes)
        if home != failed and home not in homes:
            return home


def placement_row(rule, count, masters):
    """What a rule of placement makes of the segments of some masters."""
    setting = Setting(ERAS["today"], COSTS["ours-100"], nodes=count, placement=rule)
    placement, reads, sets, takes, heads = Placement(setting), Counter(), set(), Counter(), Counter()
    failed = count // 2
    for master in range(masters):
        for segment in range(1, PLACED_SEGMENTS + 1):
            homes = placement.homes(segment, master, counts=master == 0)
            if master == 0:
                reads[homes[0]] += 1
            sets.add(tuple(sorted(homes)))
            if failed in homes:
                takes[mended(placement, homes, count, failed)] += SEGMENT
        heads.update(homes)
    possible = math.comb(count, setting.replicas)
    return (max(reads.values()), len(heads), max(heads.values()), len(sets), 100 * len(sets) / possible,
            max(takes.values(), default=0) / 1e9, sum(takes.values()) / 1e9)


def placement(_given):
    """What each rule makes of a crash, of the heads of all masters, of a failed backup, and of three that fail at once."""
    print(f"{PLACED_MASTERS} masters with {PLACED_SEGMENTS:,} segments each, three replicas, all as far in their logs")
    print("| Nodes, rule | Most segments that one backup reads | Backups that have heads | Heads on one of them | Sets of three "
          f"that have a segment alone | Of all sets | Most that one backup takes anew, of all that is lost |\n{'|---' * 7}|")
    for count in (60, 1000):
        for rule in ("cyclic", "shifted", "random", "five"):
            tell_step(f"{count:,} nodes, {rule}")
            most, spread, heads, sets, share, taken, lost = placement_row(rule, count, PLACED_MASTERS)
            tell_step("")
            print(f"| {count:,}, {rule} | {most} | {spread} | {heads} | {sets:,} | {share:.3g} % | {taken:.2f} of {lost:.2f} GB "
                  "|", flush=True)
    return 0
