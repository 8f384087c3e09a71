"""Tests of the simulator, for bench/scale: what it counts, what it gives where sums alone tell, and what it refuses."""

import math
import subprocess
import sys
from dataclasses import replace

import scale_cleaning
from scale_model import COSTS, ERAS, TOP, Placement, Setting, read_will, sampled_shares, shares_of
from scale_recovery import recover
from scale_tables import NOWHERE, RAMCLOUD
from script_model import make_will, place

FREE = replace(COSTS["papers"], divide=math.inf, replay=math.inf, adopt=math.inf, plan=math.inf)
SMALL = Setting(ERAS["2011-flash"], COSTS["papers"], nodes=12, table=1e9, **RAMCLOUD)


def near(value, wanted, part=0.01):
    return abs(value - wanted) <= part * abs(wanted)


# What a recovery counts.

def each_byte_is_read_and_divided_once():
    recovery = recover(SMALL)
    return all(near(recovery.phases[name].bytes, SMALL.bytes, 1e-9) for name in ("read", "divide", "replay"))


def each_group_is_replayed_once():
    for changed in ({}, {"sending": "forwards"}, {"sending": "rotated"}, {"replay": "sorted"}, {"keys": "rising"},
                    {"keys": "rising", "empties": "told", "reading": "shuffled"}, {"partition": 1e7},
                    {"keys": "rising", "empties": "told", "replay": "sorted"}, {"shares": (0.7, 0.0, 0.3)}):
        recovery = recover(replace(SMALL, **changed))
        if recovery.groups != SMALL.segments * len(recovery.shares) or any(master.left for master in recovery.masters):
            return False
        if not near(sum(master.handed for master in recovery.masters), SMALL.bytes, 1e-9):
            return False
    return True


def each_live_byte_is_replicated_so_often():
    for changed in ({}, {"live": 0.5}, {"replicas": 2}, {"adopt": "one"}, {"placement": "cyclic"}):
        setting = replace(SMALL, **changed)
        if not near(recover(setting).phases["re-replicate"].bytes, setting.bytes * setting.live * setting.replicas, 1e-9):
            return False
    return True


def no_more_groups_wait_than_there_are_places():
    return all(max(master.most for master in recover(replace(SMALL, places=places, sending=how)).masters) <= places
               for places in (1, 4) for how in ("forwards", "pulled"))


def one_seed_gives_one_answer():
    drawn = replace(SMALL, placement="random")
    return recover(drawn).seconds() == recover(drawn).seconds() != recover(replace(drawn, seed=2)).seconds()


# Where sums alone tell.

def disks_alone_take_what_the_fullest_has():
    hardware = replace(NOWHERE, disks=2, disk=100e6)
    setting = replace(SMALL, hardware=hardware, costs=FREE, placement="cyclic")
    most = math.ceil(math.ceil(setting.segments / setting.nodes) / 2)
    return near(recover(setting).seconds(), most * setting.segment / 100e6)


def processors_alone_take_what_the_greatest_partition_has():
    setting = replace(SMALL, hardware=NOWHERE, costs=replace(FREE, replay=400e6))
    return near(recover(setting).seconds(), max(sampled_shares(setting)) * setting.bytes / 400e6)


def sorting_begins_when_all_is_there():
    hardware = replace(NOWHERE, disks=1, disk=100e6)
    setting = replace(SMALL, hardware=hardware, costs=replace(FREE, replay=400e6), placement="cyclic", replay="sorted",
                      shares=(1 / 12,) * 12)
    read = math.ceil(setting.segments / setting.nodes) * setting.segment / 100e6
    return near(recover(setting).seconds(), read + setting.bytes / 12 / 400e6)


def one_link_takes_all_lists():
    setting = replace(SMALL, hardware=replace(NOWHERE, link=1e9), costs=FREE, adopt="one", masters=1, replicas=1)
    recovery = recover(setting)
    adopted = recovery.phases["adopt"]
    return adopted.last - adopted.first >= setting.bytes / 1e9


def an_adoption_takes_its_speed():
    setting = replace(SMALL, hardware=NOWHERE, costs=replace(FREE, adopt=200e6), adopt="one")
    return near(recover(setting).seconds(), setting.bytes / 200e6)


def a_plan_reads_all_replicas():
    setting = replace(SMALL, hardware=NOWHERE, costs=replace(FREE, plan=1e9), plan="reads")
    return near(recover(setting).phases["plan"].last, 3 * setting.bytes / 1e9)


# Placement and wills.

def replicas_lie_where_the_specification_says():
    rule = Placement(replace(SMALL, nodes=3, replicas=2, placement="cyclic"))
    return [rule.homes(segment) for segment in (1, 2, 3, 4)] == [[1, 2], [2, 0], [0, 1], [1, 2]]


def a_step_with_a_common_divisor_leaves_backups_out():
    rule = Placement(replace(SMALL, nodes=12, step=4, placement="cyclic"))
    return len({rule.homes(segment)[0] for segment in range(100)}) == 3


def homes_are_different_backups():
    return all(len(set(Placement(replace(SMALL, nodes=nodes, placement=name)).homes(segment, 3))) == 3
               for name in ("cyclic", "shifted", "random", "five") for nodes in (3, 4, 60) for segment in range(200))


def five_reads_more_evenly_than_chance():
    most = {}
    for name in ("random", "five"):
        rule = Placement(replace(SMALL, nodes=60, placement=name))
        for segment in range(4172):
            rule.homes(segment)
        most[name] = max(rule.primaries)
    return most["five"] <= 72 < most["random"]


def a_will_of_the_program_is_read():
    """The first will of an example, by the table that was recovered: `c` keys of the last two objects are in its last part."""
    with open(f"{TOP}/examples/will.out", encoding="ascii") as file:
        shares = read_will(file.read())
    keys = ("a", "ab", "b", "ccccccccc", "ccccccccd")
    sizes = [23 + len(key) + 1 for key in keys]
    wanted = [sizes[0], sizes[1], sum(sizes[2:])]
    return [round(it * sum(sizes), 6) for it in shares] == wanted


def a_will_keeps_its_limits():
    sizes = [(1, place(b"%05d" % at), 100.0) for at in range(1000)]
    parts, partitions = make_will([1], sizes, 1000, 1000)
    return near(max(shares_of(parts, partitions, sizes)), 0.01, 1e-9) and partitions == 100


# Cleaning.

def the_closed_form_is_a_fixed_point():
    return all(near((1 - at) / -math.log(at), live, 1e-6)
               for live in (0.5, 0.8, 0.95) for at in [scale_cleaning.emptied_at(live)])


def uniform_puts_give_the_closed_form():
    return all(near(scale_cleaning.simulated(scale_cleaning.Load(live))[0], scale_cleaning.passes_alone(live), 0.05)
               for live in (0.5, 0.8, 0.9))


def finer_cohorts_give_the_same():
    load = scale_cleaning.Load(0.8, 0.1, 0.9, "age")
    coarse, fine = (scale_cleaning.simulated(replace(load, cohorts=count))[0] for count in (500, 1000))
    return near(coarse, fine, 0.05)


def compactions_spare_passes():
    alone = scale_cleaning.simulated(scale_cleaning.Load(0.9))
    both = scale_cleaning.simulated(scale_cleaning.Load(0.9, stored=1.2))
    return alone[1] == 0 and both[0] < alone[0] / 2 and near(both[0], scale_cleaning.passes_beside(0.9), 0.1)


# Words.

def bad_words_are_refused():
    for words in (["recovery", "--nodes=x"], ["recovery", "--nodes=0"], ["recovery", "--nodes=2"], ["recovery", "--era=1999"],
                  ["recovery", "--will=/nowhere"], ["recovery", "--table=1e13", "--partition=1e6"], ["test", "more"], ["fly"], []):
        ended = subprocess.run([sys.executable, f"{TOP}/bench/scale", *words], capture_output=True)
        if ended.returncode != 2 or not ended.stderr or ended.stdout:
            return False
    return True


TESTS = (
    each_byte_is_read_and_divided_once, each_group_is_replayed_once, each_live_byte_is_replicated_so_often,
    no_more_groups_wait_than_there_are_places, one_seed_gives_one_answer, disks_alone_take_what_the_fullest_has,
    processors_alone_take_what_the_greatest_partition_has, sorting_begins_when_all_is_there, one_link_takes_all_lists,
    an_adoption_takes_its_speed, a_plan_reads_all_replicas, replicas_lie_where_the_specification_says,
    a_step_with_a_common_divisor_leaves_backups_out, homes_are_different_backups, five_reads_more_evenly_than_chance,
    a_will_of_the_program_is_read, a_will_keeps_its_limits, the_closed_form_is_a_fixed_point, uniform_puts_give_the_closed_form,
    finer_cohorts_give_the_same, compactions_spare_passes, bad_words_are_refused,
)


def run(_given):
    failed = 0
    for test in TESTS:
        if not test():
            failed += 1
            print(f"failed: {test.__name__.replace('_', ' ')}", flush=True)
    print(f"{len(TESTS)} tests, {failed} failed")
    return 1 if failed else 0
