"""What cleaning copies over the live share of memory, in closed form and by simulation, for bench/scale.

Memory is 10 million segments, in cohorts: the segments of one cohort are written together, die alike, and are cleaned together.
Of a cohort only its length and its live bytes are kept, those of keys that are often put and those of the others apart. A segment
has so many objects that what lives of it falls by its mean: by `exp(-rate * puts)`. Tombstones take no memory here; what names a
segment counts as what it gives back, as the policy has it.

What to clean is chosen by counts of live bytes alone, as docs/BENCHMARKS.md says under 'When to compact'. Puts are at random over all
keys, or nine in ten go to a tenth of them. All bytes are for one of memory, and time is the bytes put.
"""

import heapq
import math
from dataclasses import dataclass, field

import scale_pictures
from scale_model import tell_step

SEGMENTS, COHORTS = 10000000, 1000
SHARES = (0.5, 0.6, 0.7, 0.8, 0.9, 0.93, 0.95)
# Replicas may have so many times the memory of the images before a pass has to come.
STORED = 1.2
# The bytes of a tombstone for each byte of an object, with values of 1,000 bytes.
STONE = 36 / 1032
# Bytes written before it counts, and while it counts, and the cohorts that are cleaned at one time.
WARMS, COUNTS, AT_ONCE = 9.0, 2.0, 10
# Measured, in docs/BENCHMARKS.md: bytes that passes alone copy for each byte put, and passes and compactions.
MEASURED = {0.9: (5.5, 1.2, 5.2), 0.93: (8.9, 1.6, 9.8), 0.95: (15.0, 1.8, 21.5)}
# There seven of 512 segments stay free.
MEASURED_SEGMENTS, MEASURED_FREE = 512, 7


# Closed forms.

def emptied_at(live):
    """The live share of a segment as it is cleaned, if puts are at random and the emptiest comes first: the u of
    (1 - u) / -ln u = live, the mean over a life in which the share falls from 1 to u at one rate."""
    least, most = 1e-12, 1 - 1e-12
    for _ in range(200):
        middle = (least + most) / 2
        if (1 - middle) / -math.log(middle) < live:
            least = middle
        else:
            most = middle
    return least


def copied(emptied):
    """Bytes copied for each byte put, if segments with this live share are cleaned."""
    return emptied / (1 - emptied)


def passes_alone(live):
    return copied(emptied_at(live))


def passes_beside(live, stored=STORED):
    """The bytes of passes, if compactions keep the images small: to passes memory looks as large as what replicas may have."""
    return copied(emptied_at(live / stored))


def compactions_beside(live, stored=STORED):
    """The bytes of compactions, if each takes a segment to its live bytes once these are a share c of its length, with the c of
    passes alone; a segment has been compacted c, c * c, .. of its first length before a pass takes it at u."""
    share, emptied = emptied_at(live), emptied_at(live / stored)
    return max(0.0, (share - emptied) / (1 - share) / (1 - emptied))


# Simulation.

@dataclass(frozen=True)
class Load:
    """How puts are spread, what is cleaned first, and whether there are compactions."""

    live: float
    # The share of the keys that are put often, and of the puts that go to them.
    hot_keys: float = 0.0
    hot_puts: float = 0.0
    policy: str = "emptiest"
    # Replicas may have so much of memory before a pass has to come; without compactions 0.
    stored: float = 0.0
    cohorts: int = COHORTS


@dataclass
class Cohort:
    """Segments that were written together. What lives is what these are times the share that has lived since the first put."""

    born: float
    length: float
    stored: float
    hot: float
    cold: float


@dataclass
class Memory:
    """The cohorts, and what was written of each kind."""

    load: Load
    cohorts: list = field(default_factory=list)
    put: float = 0.0
    passed: float = 0.0
    compacted: float = 0.0
    used: float = 0.0
    stored: float = 0.0

    def rates(self):
        """How fast a live byte dies for each byte put, if its key is put often and if not."""
        it = self.load
        hot = it.hot_puts / (it.hot_keys * it.live) if it.hot_keys else 0.0
        return hot, (1 - it.hot_puts) / ((1 - it.hot_keys) * it.live)

    def lived(self):
        return tuple(math.exp(-rate * self.put) for rate in self.rates())

    def add(self, hot, cold):
        """A cohort with so many live bytes of each kind."""
        size, (of_hot, of_cold) = hot + cold, self.lived()
        self.cohorts.append(Cohort(self.put, size, size, hot / of_hot, cold / of_cold))
        self.used += size
        self.stored += size

    def fill(self):
        """The live data, before the first overwrite."""
        each, it = 1 / self.load.cohorts, self.load
        for _ in range(round(it.live * it.cohorts)):
            self.add(each * it.hot_keys, each * (1 - it.hot_keys))

    def write(self):
        """One cohort of puts."""
        each, it = 1 / self.load.cohorts, self.load
        self.put += each
        self.add(each * it.hot_puts, each * (1 - it.hot_puts))

    def ranked(self, rank):
        """The first few cohorts by rank, with their live bytes."""
        of_hot, of_cold = self.lived()
        rows = ((rank(it, it.hot * of_hot + it.cold * of_cold), at) for at, it in enumerate(self.cohorts))
        return [at for _, at in heapq.nsmallest(AT_ONCE, rows)]

    def worth(self, cohort, live):
        """What is kept for each byte that is given back; or by age too, as the FAST paper weighs it."""
        gap = cohort.length - live
        if self.load.policy == "emptiest":
            return live / (gap + STONE * (cohort.stored - live) + 1e-9)
        return -gap * (self.put - cohort.born) / (live + 1e-9)

    def clean(self):
        """A pass over some cohorts. Survivors are filled one after another, in the order of the victims."""
        (of_hot, of_cold), ranked = self.lived(), self.ranked(self.worth)
        kept = [(self.cohorts[at].hot * of_hot, self.cohorts[at].cold * of_cold) for at in ranked]
        for at in sorted(ranked, reverse=True):
            victim, self.cohorts[at] = self.cohorts[at], self.cohorts[-1]
            self.cohorts.pop()
            self.used -= victim.length
            self.stored -= victim.stored
        whole = sum(map(sum, kept))
        self.passed += whole
        each = whole / max(1, round(whole * self.load.cohorts))
        hot = cold = 0.0
        for more_hot, more_cold in kept:
            left = more_hot + more_cold
            while left > 1e-12:
                part = min(left, each - hot - cold)
                hot += part * more_hot / (more_hot + more_cold)
                cold += part * more_cold / (more_hot + more_cold)
                left -= part
                if hot + cold >= each - 1e-12:
                    self.add(hot, cold)
                    hot = cold = 0.0
        if hot + cold > 1e-9:
            self.add(hot, cold)

    def compact(self):
        """A compaction of some cohorts."""
        of_hot, of_cold = self.lived()
        for at in self.ranked(lambda it, live: live / (it.length - live + 1e-9)):
            it = self.cohorts[at]
            live = it.hot * of_hot + it.cold * of_cold
            self.used += live - it.length
            self.compacted += live
            it.length = live

    def step(self):
        """Room is made, or a cohort is put."""
        if self.used <= 1 - 1 / self.load.cohorts:
            self.write()
        elif self.stored < self.load.stored:
            self.compact()
        else:
            self.clean()

    def written(self):
        return self.put + self.passed + self.compacted


def simulated(load):
    """Bytes that passes and compactions copy for each byte put, once that is steady."""
    memory = Memory(load)
    memory.fill()
    while memory.written() < WARMS:
        memory.step()
    put, passed, compacted, begun = memory.put, memory.passed, memory.compacted, memory.written()
    while memory.written() < begun + COUNTS:
        memory.step()
    done = memory.put - put
    return (memory.passed - passed) / done, (memory.compacted - compacted) / done


# What is told.

def loads_of(live):
    """The loads that are simulated at a live share."""
    hot = {"hot_keys": 0.1, "hot_puts": 0.9}
    return {
        "uniform": Load(live),
        "hot and cold, emptiest first": Load(live, **hot),
        "hot and cold, by age too": Load(live, **hot, policy="age"),
        "uniform, compactions too": Load(live, stored=STORED),
    }


def rows():
    """Of each live share what was simulated."""
    found = {}
    for live in SHARES:
        for name, load in loads_of(live).items():
            tell_step(f"{100 * live:.0f} % live, {name}")
            found[live, name] = simulated(load)
    tell_step("")
    return found


def tell(given):
    """Bytes copied for each byte put, over the live share."""
    found = rows()
    names = [name for live, name in found if live == SHARES[0]]
    if given.svg:
        print(picture(found, names))
        return 0
    print(f"{SEGMENTS:,} segments in {COHORTS:,} cohorts; bytes copied for each byte put")
    print("| Live | u / (1 - u), all segments alike | Closed form, uniform | Uniform | Hot and cold, emptiest first | "
          f"Hot and cold, by age too | Passes and compactions, closed form | Simulated |\n{'|---' * 8}|")
    for live in SHARES:
        uniform, greedy, aged, both = (found[live, name] for name in names)
        print(f"| {100 * live:.0f} % | {copied(live):.2f} | {passes_alone(live):.2f} | {uniform[0]:.2f} | {greedy[0]:.2f} | "
              f"{aged[0]:.2f} | {passes_beside(live):.2f} and {compactions_beside(live):.2f} | {both[0]:.2f} and {both[1]:.2f} |",
              flush=True)
    print()
    tell_measured()
    print()
    tell_spared()
    return 0


def as_if(live, stored):
    """The live share of a memory without tombstones and spare segments that is as full as the measured one: what is dead and has
    its replicas still has its tombstones too."""
    return (live + STONE * (stored - live)) / (1 - MEASURED_FREE / MEASURED_SEGMENTS)


def tell_measured():
    """The simulator beside what was measured of one master."""
    print("| Live, 512 segments | As if | Passes alone: measured | Closed form | Simulated | With compactions: as if | Measured | "
          f"Closed form | Simulated |\n{'|---' * 9}|")
    for live, (alone, passed, compacted) in MEASURED.items():
        one, two = as_if(live, 1.0), as_if(live, STORED)
        tell_step(f"{100 * live:.0f} % live, as measured")
        first, both = simulated(Load(one)), simulated(Load(two, stored=STORED))
        tell_step("")
        print(f"| {100 * live:.0f} % | {100 * one:.1f} % | {alone} | {passes_alone(one):.1f} | {first[0]:.1f} | {100 * two:.1f} % | "
              f"{passed} and {compacted} | {passes_beside(two):.1f} and {compactions_beside(two):.1f} | "
              f"{both[0]:.1f} and {both[1]:.1f} |", flush=True)


def tell_spared():
    """By closed form: how much compactions spare passes, by how much more than memory the replicas may have."""
    lives = (0.8, 0.9, 0.95)
    shares = " | ".join(f"{100 * live:.0f} % live" for live in lives)
    print(f"| Replicas may have, of memory | {shares} |\n|---{'|---' * len(lives)}|")
    for stored in (1.2, 1.5, 2.0):
        cells = [f"{passes_alone(live) / passes_beside(live, stored):.1f} times fewer bytes of passes" for live in lives]
        print(f"| {stored} | {' | '.join(cells)} |")
    print(f"At 75 % live the emptiest segment is {100 * emptied_at(0.75):.1f} % live.")


def picture(found, names):
    fine = [0.4 + 0.005 * at for at in range(112)]
    lines = {
        "closed form: 1 / (1 - live), all alike": [(100 * it, 1 + copied(it)) for it in fine],
        "closed form: uniform, emptiest first": [(100 * it, 1 + passes_alone(it)) for it in fine],
    }
    for name in names:
        lines[f"simulated: {name}"] = [(100 * live, 1 + sum(found[live, name])) for live in SHARES]
    lines["simulated: passes of the last one alone"] = [(100 * live, 1 + found[live, names[-1]][0]) for live in SHARES]
    legend_at = scale_pictures.LEFT + 20, scale_pictures.TOP + 24
    return scale_pictures.curves("Bytes written to memory for each byte put, 10 million segments, simulated", "% of memory live",
                                 "bytes for a byte", lines, most=20, legend_at=legend_at)
