"""Random scripts, as bin/simulate and bin/crash-files draw them. `bin/simulate --help` says what they have."""

import itertools
import random
import re
from dataclasses import dataclass, replace

from script_model import (BLOCK, NO_LIMIT, Store, Undetermined, config_fault, counted, greatest_limit, later_options, longest, opening_len,
                          options_of, parse, parsed_lines, whole_seglets)
from script_orders import ROUNDS
from script_witness import COMMANDS, Map

# What a script that is counted shows behind each line.
SHOWN = (b"room", b"live", b"segments")
# The share of random scripts that may have limits of bytes.
LIMITED = 0.25
# The share of random scripts whose master cleans by itself.
TENDED = 0.2
# The share of random scripts whose master forgets, and of these the share that fill about a block of their history.
FORGETFUL = 0.25
FILLED = 0.125
# The share of random scripts without clients whose keys and values are any bytes.
RAW = 0.2
# The share of the other random scripts that have --explain, if they have no clients and no bad line.
EXPLAINED = 0.5
# The bytes of the shortest object, and the keys of one byte, rising.
SHORTEST = 25
SHORT_KEYS = [chr(code) for code in range(ord("!"), ord("~") + 1)]


@dataclass(frozen=True)
class Script:
    name: str
    words: tuple
    text: bytes


BAD_LINES = [
    "put 01 a x", "put 1 a  x", "get 1", "cas 1 a x y", "roll 2", "lose 64", "recover all", "nothing", "\tlog", "begin", "clean",
    "clean 1  2", "copy 1", "begin 1 x", "will 1", "recover forward", "recover reverse 1", "recover threads",
    "recover threads 0", "recover threads 65", "recover threads 03", "recover threads 2 2", "clients 0 1 0", "clients 64 1 0",
    "clients 1 0 0", "clients 1 1000001 0", "clients 1 1", "fault 0 lost", "fault 1", "fault 1 gone", "fault taken 1",
    "segments 1", "format", "format 1", "format 02", "format 2 2", "tend", "tend 0", "tend 65537", "tend 01", "tend 1 1",
    "list", "list x", "list 01", "list 1 2",
]

# In a script that may have limits, these come besides.
BAD_LIMITED_LINES = ["live 1", "needs 1", "seglets", "seglets 0", "seglets 1", "seglets 064", "seglets 64 64", "seglets 4294967297"]

# A line of a recovery is one of these.
RECOVERIES = [*3 * ["recover"], *2 * ["recover reverse"], *(f"recover threads {workers}" for workers in (1, 2, 3, 4, 64))]


def make_words(dice, form):
    """Options of the program, with a segment that is soon filled, under this format, or under either if it is None."""
    backups = dice.choice([1, 2, 3, 3, 3, 3, 4, 5, 8, 64])
    replicas = dice.randint(1, min(backups, 4))
    segment = dice.choice([512, 512, 512, 576, 640, 1024, 2048, 4096])
    seglet = dice.choice([64, segment])
    seglets = segment // seglet * dice.choice([4, 5, 6, 8, 12, 20, 64, 64])
    words = [
        f"--backups={backups}", f"--replicas={replicas}", f"--step={dice.choice([1, 1, 1, 2, 3, dice.randint(1, 64)])}",
        f"--segment={segment}", f"--seglet={seglet}", f"--seglets={seglets}", f"--tables={dice.choice([1, 2, 4])}",
        f"--bytes={dice.choice([1, 60, 200, 1048576])}", f"--objects={dice.choice([1, 1, 2, 3, 1000000])}",
    ]
    if dice.random() < 0.1:
        words.append(f"--history={dice.randint(1, 40)}")
    elif dice.random() < 0.4:
        # A store of clients has a cell for each record that there may be.
        words.append("--history=5000")
    is_second = dice.random() < 0.5
    if form == 2 or form is None and is_second:
        words.append("--format=2")
    return tuple(words)


def with_limits(dice, words):
    """These options, but with memory of five segments or more, and mostly with limits of an object and of the live bytes."""
    words, length = with_memory(dice, words, 32)
    if dice.random() < 0.5:
        words.append(f"--largest={dice.choice([24, 25, dice.randint(26, 64), *3 * [length]])}")
    if dice.random() < 0.6:
        most = greatest_limit(options_of(words))
        some = dice.randint(1, most)
        words.append(f"--live={dice.choice([0, 0, 0, most, some, some, some]) if dice.random() < 0.98 else most + 1}")
    return tuple(words)


def with_greatest_limit(dice, words):
    """These options, but with the greatest limit of the live bytes, and often with one of each object. The history isn't short."""
    words, length = with_memory(dice, words, 16)
    words = [word for word in words if not re.fullmatch("--history=[0-9]{1,2}", word)]
    return (*words, *[f"--largest={length}"] * (dice.random() < 0.5), "--live=0")


def with_memory(dice, words, most):
    """These options, but with memory of five to so many segments; and a number of bytes that some objects have."""
    options = options_of(words)
    whole = whole_seglets(options)
    words = [*(word for word in words if not word.startswith("--seglets=")), f"--seglets={dice.randint(5 * whole, most * whole)}"]
    return words, dice.randint(26, options.segment // 4 + 2)


def wasteful_length(gap, most):
    """The bytes of the next object if each head is to be closed as early as it may be: the longest object closes this one once it
    has `gap` bytes more."""
    if gap <= most:
        return max(SHORTEST, gap) if gap > 0 else most
    return most if gap - most >= SHORTEST else max(SHORTEST, gap - SHORTEST)


def tend_words(dice):
    """For a fifth of the scripts an option, by which the cleaner makes steps behind each command that may change the map."""
    return [f"--tend={dice.choice([1, 2, 3, 8, 16, 64])}"] if dice.random() < TENDED else []


def forgetful(dice, words):
    """For a share of the scripts these options with --forget, and lines that come first. Some have a history of about a block, and
    gets that nearly fill it."""
    if dice.random() >= FORGETFUL:
        return words, []
    if dice.random() >= FILLED:
        return (*words, "--forget"), []
    words = [word for word in words if not word.startswith("--history=")]
    return (*words, "--forget", f"--history={BLOCK + dice.choice([-1, 0, 1, 1, 2, 10, 1000])}"), ["get 1 a"] * (BLOCK - dice.randint(-8, 8))


class Author:
    """Makes the lines of one script."""

    def __init__(self, dice, options, has_limits=False):
        self.dice = dice
        self.options = options
        # Whether the script may have limits of bytes, and the lines that go with them.
        self.has_limits = has_limits
        # The options of masters that start later.
        self.later = options
        self.most_value = options.segment // 4 - 50
        long_key = "k" * dice.randint(1, min(1024, self.most_value // 2 - 1))
        self.keys = dice.sample(["a", "b", "ab", "c", "key", "c0", "c1", "~", long_key], dice.randint(1, 5))
        # Some scripts have many keys with large values, so that a pass fills many survivors.
        is_wide = dice.random() < 0.4
        # Many keys make an adoption push many units at once.
        if is_wide or dice.random() < 0.2:
            self.keys += [f"n{number}" for number in range(dice.randint(10, 60))]
        self.tables = dice.sample(range(1, options.tables + 1), dice.randint(1, min(2, options.tables)))
        # What the map is if each command is done, so that conditions are often met.
        self.map = Map()
        self.weights = {
            name: weight * dice.choice([0, 1, 1, 4])
            for name, weight in {
                "put": 10, "new": 3, "cas": 3, "get": 3, "del": 3, "roll": 2, "compact": 2, "beginroll": 1, "push": 2,
                "clean": 3, "begin": 3, "copy": 0.2, "seal": 0.2, "free": 0.2, "log": 1, "room": 1, "list": 1, "hex": 1,
                "holdings": 1, "will": 1, "idle": 0.5, "wrong": 0.5, "clients": 0.7, "format": 0.1,
            }.items()
        }
        if has_limits:
            self.weights.update(live=2, needs=0.5, seglets=1)
        self.weights["put"] += 20 if is_wide else 1
        self.has_faults = dice.random() < 0.3
        # Behind clients nobody knows the log, and so few passes have victims that they may have.
        if is_wide and dice.random() < 0.8:
            self.weights["clients"] = 0
        # A cleaner chooses by the log, which nobody knows behind clients.
        if dice.random() < 0.2:
            self.weights.update(clients=0, tend=4)
        if options.tend:
            self.weights["clients"] = 0
        # So are the segments that a line shows.
        if not self.weights["clients"]:
            self.weights["segments"] = 1
        # About the first id that no segment has yet.
        self.next = 2
        # Some scripts have large values alone, so that they fill their log.
        self.is_large = is_wide or dice.random() < 0.3
        # What the lines so far leave, by the model; None once that isn't known.
        self.store = Store.new(options)

    def follow(self, lines):
        """These lines, once the model has done them."""
        try:
            for line in lines if self.store else ():
                parsed = parse(line.encode(), self.options.backups)
                self.store = self.store.answered(parsed)[1]
        except Undetermined:
            self.store = None
        return lines

    def name(self):
        table = self.dice.choice(self.tables) if self.dice.random() < 0.98 else self.dice.choice([0, 9, 2**64 - 1])
        return table, self.dice.choice(self.keys)

    def value(self, key):
        most = max(1, min(self.most_value - 2 * len(key), self.options.largest - 23 - len(key)))
        draw = self.dice.random()
        if draw < 0.02:
            return "v" * (most + 1)
        if self.is_large or draw < 0.3:
            return self.dice.choice("xyz") * self.dice.choice([most, most, self.dice.randint(1, most)])
        return self.dice.choice("pqrstuvw") * self.dice.randint(1, min(most, 12))

    def command(self, kind):
        table, key = self.name()
        words = [kind, str(table), key]
        if kind == "cas":
            live = self.map.live.get((table, key.encode()))
            guess = live[0] if live and self.dice.random() < 0.7 else self.dice.choice([0, 1, 2, 3, NO_LIMIT])
            words.append(str(guess))
        if kind in ("put", "new", "cas"):
            words.append(self.value(key))
        line = " ".join(words)
        self.map.reply(parse(line.encode(), 64))
        return line

    def up_lines(self):
        """One line of a random kind, or a roll by hand."""
        kind = self.dice.choices(list(self.weights), list(self.weights.values()))[0]
        if kind in COMMANDS:
            return [self.command(kind)]
        if kind == "beginroll":
            self.next += 1
            lines = ["push", "push", "push", "get 1 a", "log", "room", "list 1", "compact 1", "compact 2"]
            return [kind, *self.dice.choices(lines, k=self.dice.randint(0, 12))]
        if kind == "list":
            return [f"list {self.name()[0]}"]
        if kind in ("hex", "compact"):
            return [f"{kind} {self.segment()}"]
        if kind in ("clean", "begin"):
            return self.pass_lines(kind)
        if kind == "roll":
            self.next += 1
        if kind == "clients":
            return self.clients_lines()
        if kind == "format":
            return [self.later_line("format 2")]
        if kind == "seglets":
            return [self.seglets_line()]
        if kind == "tend":
            return [f"tend {self.dice.choice([1, 1, 2, 3, 8, 16, 64, 65536])}"]
        if kind == "idle":
            return [self.dice.choice(["", "# nothing"])]
        if kind == "wrong":
            return [self.dice.choice([*RECOVERIES, "lose 0", f"stop {NO_LIMIT}"])]
        return [kind]

    def later_line(self, line):
        """This line, unless the options that it gives later masters don't fit each other."""
        later = later_options(self.later, parse(line.encode(), self.options.backups))
        if config_fault(later):
            return "live"
        self.later = later
        return line

    def seglets_line(self):
        """Gives later masters another number of seglets: often about as many as they need for the table."""
        whole, dice = whole_seglets(self.options), self.dice
        some, needed = dice.randint(4 * whole, 16 * whole), self.needed()
        near = needed + dice.choice([-1, -1, 0, 0, 1]) if needed else some
        return self.later_line(f"seglets {dice.choice([some, near, near])}")

    def needed(self):
        """How many seglets a new master needs if the master crashes now; None if nobody knows that."""
        answer = replace(self.store, master=None).answered(("needs",))[0] if self.store else ""
        return int(answer.split()[1]) if re.fullmatch("needs [0-9]+\n", answer) else None

    def segment(self):
        """The number of a segment, which may be gone, or not be there yet."""
        return self.dice.choice([0, 1, 2, self.dice.randint(1, self.next + 1), self.dice.randint(1, self.next + 1)])

    def pass_lines(self, kind):
        """A pass by one line, or by its steps with other lines between them."""
        dice, victims = self.dice, self.victims()
        self.next += 2 if kind == "clean" else 1
        lines = [f"{kind} {' '.join(map(str, victims))}"]
        if kind == "clean":
            return lines
        for step in ["copy"] * dice.choice([0, 1, 3, 8, 20, 60]) + ["seal"] * dice.randint(0, 4 * self.options.replicas):
            if dice.random() < 0.4:
                between = dice.choice(["put", "put", "del", "get", "roll", "beginroll", "push", "compact", "free", "hex"])
                if between in COMMANDS:
                    lines.append(self.command(between))
                elif between in ("compact", "hex"):
                    lines.append(f"{between} {self.segment()}")
                else:
                    lines.append(between)
            lines.append(step)
        if dice.random() < 0.7:
            self.next += 1
            lines += ["roll"] if dice.random() < 0.6 else ["beginroll", *["push"] * dice.randint(0, 3 * self.options.replicas)]
            lines += ["free"] * dice.choice([0, 1, 2, 8])
        return lines

    def victims(self):
        """Mostly closed segments of the log, as far as they are known; else any."""
        dice = self.dice
        count = dice.choice([1, 1, 1, 2, 2, 3, 3, 4, 5, 6, 8, 12, 20, 32, 33])
        if self.store and self.store.master and dice.random() < 0.8:
            closed = [it.id for it in self.store.master.log()[:-1]]
            victims = dice.sample(closed, min(count, len(closed))) or [1]
        else:
            victims = [self.segment() for _ in range(count)]
        if dice.random() < 0.8:
            victims = sorted({it for it in victims if it > 0}) or [1]
        return victims

    def clients_lines(self):
        """Clients, and a get of what each has left: until then nobody knows that."""
        clients = self.dice.choice([1, 1, 1, 2, 2, 3, 5, 8, 63])
        rounds = self.dice.choice([1, 2, 3, 10, 30] if clients < 60 else [1, 2])
        # Mostly so few, beside a fault, that each order of the threads is followed.
        if self.has_faults and self.dice.random() < 0.8:
            clients = min(clients, ROUNDS)
            rounds = self.dice.randint(1, ROUNDS // clients)
        gets = [f"get 1 c{number}" for number in range(clients)]
        return [f"clients {clients} {rounds} {self.dice.choice([0, 0, 1, 2, 5])}", *self.dice.sample(gets, clients)]

    def homes(self):
        """Backups that have something, if there are as many segments."""
        pairs = itertools.product(range(1, self.dice.choice([2, 3, 5, 9])), range(self.options.replicas))
        return sorted({(segment * self.options.step + replica) % self.options.backups for segment, replica in pairs})

    def down_lines(self):
        """Lines for a master that is down: losses, and recoveries that are stopped or come to their end."""
        dice, lines = self.dice, []
        for _ in range(dice.choice([1, 1, 1, 2, 3])):
            homes = self.homes()
            # Mostly too few to lose the log, so that another life can follow.
            most = dice.randint(0, self.options.replicas - 1 if dice.random() < 0.85 else 3)
            lines += [f"lose {backup}" for backup in dice.sample(homes, min(len(homes), most))]
            if dice.random() < 0.4:
                lines.append(f"stop {dice.choice([0, 1, 2, 3, 4, 5, 6, 8, 12, 20, 40])}")
            if self.has_faults and dice.random() < 0.4:
                lines.append(self.fault())
            if dice.random() < 0.2:
                others = ["log", "push", "roll", "put 1 a x", "hex 1", "compact 1", "clean 1", "copy", "seal", "free", "crash",
                          "will", "format 2", "format 2"]
                lines.append(self.later_line(dice.choice(others)))
            if self.has_limits:
                lines += self.limited_down_lines()
            lines += [dice.choice(RECOVERIES), "holdings"]
            if dice.random() < 0.5:
                lines.append("crash")
        if dice.random() < 0.3:
            return lines
        lines += [f"stop {NO_LIMIT}", dice.choice(RECOVERIES)]
        needed = self.needed() if self.has_limits else None
        # If that was refused as Full, this isn't.
        return [*lines, "needs", self.later_line(f"seglets {needed}"), "recover"] if needed else lines

    def limited_down_lines(self):
        """Lines that show what a new master needs, and give it memory."""
        lines = ["needs"] * (self.dice.random() < 0.5)
        if self.dice.random() < 0.5:
            lines += [self.seglets_line(), self.dice.choice(["live", "needs"])]
        return lines

    def fault(self):
        """A line that asks for a fault soon."""
        takes = self.dice.choice([1, 1, 2, 3, 4, 5, 6, 8, 12, 20, 40])
        return f"fault {takes} {self.dice.choice(['taken', 'lost'])}"

    def life(self):
        """The lines of one life, and the recoveries behind it."""
        dice = self.dice
        self.next = 2
        lines = self.some(dice.choice([3, 10, 30, 60, 120]))
        if self.has_faults and dice.random() < 0.7:
            lines += self.follow([self.fault()])
            if self.weights["clients"] and dice.random() < 0.5:
                lines += self.follow(self.clients_lines())
            lines += self.some(dice.choice([2, 5, 10, 20]))
        if dice.random() < 0.6:
            lines += self.follow([f"stop {dice.choice([0, 1, 2, 3, 4, 5, 6, 8, 12, 20])}"])
            lines += self.some(dice.choice([2, 5, 10, 20]))
        lines += self.follow(["holdings", "crash", "holdings"])
        return [*lines, *self.follow(self.down_lines())]

    def some(self, count):
        """So many times lines of a random kind."""
        return [line for _ in range(count) for line in self.follow(self.up_lines())]

    def lines(self):
        dice = self.dice
        lines = [line for _ in range(dice.choice([1, 1, 2, 2, 3, 5])) for line in self.life()]
        if dice.random() < 0.03:
            lines.insert(dice.randrange(len(lines) + 1), dice.choice(BAD_LINES + BAD_LIMITED_LINES * self.has_limits))
        return lines

    # Tables that are as large as they may be.

    def lengths(self):
        """Bytes of objects up to the limit, in the order in which a new master loads them."""
        dice, options = self.dice, self.later
        most = max(SHORTEST, min(longest(options), options.segment // 4 - 28))
        lengths, listed, level, draw = [], 1, opening_len(options, 1), dice.random()
        left = options.live
        while left >= SHORTEST and len(lengths) < len(SHORT_KEYS) * len(self.tables):
            if draw < 0.6:
                length = wasteful_length(options.segment + 1 - most - level, most)
            else:
                length = most if draw < 0.75 else dice.randint(SHORTEST, most)
            length = min(length, left)
            if level + length > options.segment:
                listed += 1
                level = opening_len(options, listed)
            lengths, level, left = [*lengths, length], level + length, left - length
        return lengths

    def full_table(self):
        """Puts up to the limit of the live bytes, and one beyond it."""
        names = [(table, key) for table in sorted(self.tables) for key in SHORT_KEYS]
        letter = self.dice.choice("fgh")
        lines = [f"put {table} {key} {letter * (length - 24)}" for (table, key), length in zip(names, self.lengths())]
        if self.dice.random() < 0.5:
            self.dice.shuffle(lines)
        return [*lines, "put 1 beyond x"]

    def adoptable_life(self):
        """The lines of a life that fills its table, and a recovery that may not be refused."""
        dice = self.dice
        self.next = 2
        lines = self.some(dice.choice([0, 0, 3, 10, 30]))
        lines += self.follow(self.full_table())
        lines += self.some(dice.choice([0, 0, 3, 10]))
        homes = self.homes()
        lost = dice.sample(homes, min(len(homes), dice.randint(0, self.options.replicas - 1)))
        down = ["live", "room", "crash", *(f"lose {backup}" for backup in lost), *self.limited_down_lines()]
        return [*lines, *self.follow([*down, "needs", dice.choice(RECOVERIES), "live", "room"])]

    def adoptable_lines(self):
        return [line for _ in range(self.dice.choice([1, 1, 2, 3])) for line in self.adoptable_life()]


def raw_line(dice, names, line):
    """A line of a script with raw bytes for one of words alone: its key and its value are bytes of the same lengths."""
    name, *words = line.split(" ")
    if name not in COMMANDS or parse(line.encode(), 64) is None:
        return line.encode()
    key = words[1]
    names.setdefault(key, key.encode() if dice.random() < 0.2 else some_bytes(dice, len(key)))
    words[1] = counted(names[key]).decode("latin-1")
    if name in ("put", "new", "cas"):
        words[-1] = counted(some_bytes(dice, len(words[-1]))).decode("latin-1")
    return " ".join([name, *words]).encode("latin-1")


def some_bytes(dice, length):
    """Random bytes; those that have a meaning in a line come often."""
    return bytes(dice.choice([dice.randrange(256), *b" \n\n:#=0123456789"]) for _ in range(length))


def random_script(seed, number, form):
    dice, limits = random.Random(f"{seed} {number}"), random.Random(f"{seed} {number} limits")
    words, has_limits = make_words(dice, form), limits.random() < LIMITED
    if has_limits:
        words = with_limits(limits, words)
    words = (*words, *tend_words(random.Random(f"{seed} {number} tend")))
    words, first = forgetful(random.Random(f"{seed} {number} forget"), words)
    lines = first + Author(dice, options_of(words), has_limits).lines()
    end, name, raw = dice.choice(["\n", "\n", "\n", ""]), f"script {number} of seed {seed}", random.Random(f"{seed} {number} raw")
    if raw.random() < RAW and not any(line.startswith("clients") for line in lines):
        names = {}
        return Script(f"{name} with raw bytes", (*words, "--raw"), b"\n".join(raw_line(raw, names, line) for line in lines) + end.encode())
    script = Script(name, words, ("\n".join(lines) + end).encode())
    return explained(script) if raw.random() < EXPLAINED else script


def explained(script):
    """The script with --explain, if it has no clients and no bad line, for which there would be a line more."""
    lines = [*parsed_lines(script.text, options_of(script.words))]
    if None in lines or any(line[0] == "clients" for line in lines):
        return script
    return replace(script, name=f"{script.name}, explained", words=(*script.words, "--explain"))


def counted_script(seed, number, form):
    """A random script without clients, which shows behind each line what is counted."""
    script = random_script(seed, number, form)
    if "--raw" in script.words:
        return script
    lines = [line for line in script.text.split(b"\n") if not line.startswith(b"clients ")]
    return replace(script, name=f"{script.name}, counted", text=b"".join(b"\n".join([line, *SHOWN, b""]) for line in lines))


def adoptable_script(seed, number, form):
    dice = random.Random(f"{seed} {number} adoptable")
    words = with_greatest_limit(dice, make_words(dice, form))
    text = "".join(f"{line}\n" for line in Author(dice, options_of(words), True).adoptable_lines())
    return Script(f"script {number} of seed {seed} with a full table", words, text.encode())
