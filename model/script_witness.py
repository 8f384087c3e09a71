"""What is wrong with a run, by the model of the rules and by a plain map.

`wrong_run` follows a run line by line. As long as one order of steps is possible, each line has to print what
`script_model.py` prints. Behind a line of clients there are several, since nobody knows in which order threads took the lock. As
long as these are few, each line has to print what it prints after one of them that fits all answers before it
(`script_orders.py`). Behind others neither the layout of the log nor the order of the versions is known. From there up to a
recovery each answer has to be one that some order allows. What was recovered has the layout of no earlier log, so from there the
model goes on, unless a fault may still come.

Under a limit of the live bytes a new master has to have room for each table, whatever the model says.

A `Witness` sees all lines, and judges them by a plain map alone. A get tells what became of a client's key: it has to come before
any other command of that key, or of one that is absent.
"""

import re
from dataclasses import dataclass, field

from script_model import (ANY_LINES, BLOCK, COMMANDS, DOWN_LINES, NO_LIMIT, STEPS, Command, Fleet, Object, Run, Store, Undetermined, answers_of,
                          bad_line, client_key, config_fault, is_too_big, later_options, make_will, name_of, object_len, options_of,
                          parsed_lines, place, seglets_needed, undisturbed, whole_seglets)
from script_orders import orders_of

PUTS = ("put", "new", "cas")
# If more stores than this fit the answers, none of them is followed.
MOST_STORES = 60


# A plain map.

@dataclass
class Crowd:
    """The keys that clients wrote in an order that isn't known, as far as no answer has told of them."""

    # Each with its version and value before, or None.
    before: dict
    # The version of the first new key.
    safe: int
    rounds: int
    # Each client made all its rounds.
    is_done: bool
    # How many keys were absent, and the versions that some of them are known to have begun with.
    fresh: int = 0
    begun: set = field(default_factory=set)

    def begin(self, name, found):
        """With which version a new key began that has this version and value now; 0 if it was there; None if neither may be."""
        before = self.before[name]
        if found == before and not self.is_done:
            return 0
        made = int(found[1]) if found and re.fullmatch(rb"[1-9][0-9]*", found[1]) else 0
        if not 1 <= made <= self.rounds or (self.is_done and made < self.rounds):
            return None
        if before:
            return 0 if found[0] == before[0] + made else None
        first = found[0] - made + 1
        return first if self.safe <= first < self.safe + self.fresh and first not in self.begun else None


class Map:
    """A plain map from keys to a version and a value, with the version that the next new key gets."""

    def __init__(self, live=None, safe=1, crowd=None):
        self.live = live or {}
        self.safe = safe
        # What clients may have left, if that isn't known.
        self.crowd = crowd

    def copy(self):
        crowd = self.crowd and Crowd(dict(self.crowd.before), self.crowd.safe, self.crowd.rounds, self.crowd.is_done,
                                     self.crowd.fresh, set(self.crowd.begun))
        return Map(dict(self.live), self.safe, crowd)

    def reply(self, line):
        """Does a command, and says what it answers."""
        kind, table, key, *rest = line
        version, value = self.live.get((table, key), (None, None))
        if kind == "get":
            return "none" if version is None else f"{version} {value.decode()}"
        if kind == "del":
            if version is None:
                return "none"
            del self.live[table, key]
            self.safe = max(self.safe, version + 1)
            return f"ok {version}"
        if (kind == "new" and version is not None) or (kind == "cas" and version != rest[0]):
            return f"mismatch {'none' if version is None else version}"
        if version is None:
            version, self.safe = self.safe, self.safe + 1
        else:
            version += 1
        self.live[table, key] = (version, rest[-1])
        return f"ok {version}"

    def served(self, clients, rounds, is_done):
        """The map after clients that made all their rounds, or some of them."""
        map_ = self.copy()
        names = [(1, client_key(number)) for number in range(clients)]
        crowd = Crowd({name: map_.live.pop(name, None) for name in names}, map_.safe, rounds, is_done)
        crowd.fresh = sum(before is None for before in crowd.before.values())
        map_.crowd = crowd
        if is_done:
            map_.safe += crowd.fresh
            for name, before in [*crowd.before.items()]:
                if before:
                    map_.learn(name, (before[0] + rounds, b"%d" % rounds))
                elif crowd.fresh == 1:
                    map_.learn(name, (crowd.safe + rounds - 1, b"%d" % rounds))
        return map_

    def learn(self, name, found):
        """Takes what an answer tells of a client's key: a version and a value, or None. Answers whether it may be so."""
        crowd = self.crowd
        first = crowd.begin(name, found)
        if first is None:
            return False
        del crowd.before[name]
        if first:
            crowd.begun.add(first)
        if found:
            self.live[name] = found
        if crowd.before:
            return True
        # New keys got their first versions one after the other.
        behind = crowd.safe + len(crowd.begun)
        self.crowd, self.safe = None, max(self.safe, behind)
        return crowd.begun == set(range(crowd.safe, behind))

    def found(self, rows):
        """The map that these rows of a recovery show, if it is this one; else None."""
        map_ = self.copy()
        if map_.crowd:
            words = [row.encode().split(b" ") for row in rows]
            table = {(int(it[0]), it[1]): (int(it[2]), it[3]) for it in words if len(it) == 4}
            if not all(map_.learn(name, table.get(name)) for name in [*map_.crowd.before]):
                return None
        return map_ if rows == map_.rows() else None

    def recovered(self):
        """The map that a new master has of this one."""
        return Map(dict(self.live), max([self.safe, *(version + 1 for version, _ in self.live.values())]))

    def objects(self):
        return [Object(table, version, key, value) for (table, key), (version, value) in sorted(self.live.items())]

    def rows(self):
        return [f"{it.table} {it.key.decode()} {it.version} {it.value.decode()}" for it in self.objects()]

    def may_list(self, table, rows):
        """Whether these may be the rows of a table. A client's key of which nothing is known yet may have any row or none."""
        unknown = tuple(f"{owner} {key.decode()} " for owner, key in self.crowd.before) if self.crowd else ()
        return [it for it in rows if not it.startswith(unknown)] == [it for it in self.rows() if it.startswith(f"{table} ")]

    def live_bytes(self):
        return sum(map(object_len, self.objects()))

    def is_overcommitted(self, line, limit):
        """Whether a put would make the live objects more than the limit, and more than they are."""
        after = self.copy()
        after.reply(line)
        return after.live_bytes() > max(limit, self.live_bytes())


class Witness:
    """Sees the lines of a script and their answers, and says what is wrong with them by a plain map."""

    def __init__(self, replicas, limit=NO_LIMIT, largest=NO_LIMIT):
        self.replicas = replicas
        # The most bytes that puts make of the live objects, and the most of an object.
        self.limit = limit
        self.largest = largest
        self.answered = Map()
        # The map with the line that was stopped or halted in this life, if one was.
        self.stopped = None
        self.is_halted = False
        # The backups that were lost since the last recovery.
        self.lost = set()
        # The greatest version at which each key was answered.
        self.versions = {}

    def wrong(self, line, answer):
        """What is wrong with the answer to this line, or None."""
        is_refused = bool(answer) and answer[-1].startswith("refused ")
        if line[0] != "recover" and answer == ["refused Halted"]:
            self.halt(line)
        elif line[0] in COMMANDS and answer == ["stopped"]:
            self.stopped = self.answered.copy()
            self.stopped.reply(line)
        elif line[0] in COMMANDS and self.misjudges_limit(line, answer):
            return f"{line} printed {answer}, and {self.answered.live_bytes()} bytes are live, with the limit {self.limit}"
        elif line[0] in COMMANDS and answer and not is_refused:
            return self.wrong_reply(line, answer[0])
        elif line[0] == "clients" and answer and answer[0] != "refused Down":
            return self.wrong_count(line, answer[0])
        elif line[0] == "lose" and not is_refused:
            self.lost.add(line[1])
        elif line[0] in ("needs", "recover") and is_refused:
            if answer[-1] not in ("refused Up", "refused Full", "refused Halted") and len(self.lost) < self.replicas:
                return f"{line[0]} printed {answer[-1]}, and fewer backups than {self.replicas} are lost"
        elif line[0] == "recover" and answer and answer != ["stopped"]:
            return self.wrong_table(answer)
        elif line[0] == "list" and answer and not is_refused:
            return self.wrong_list(line[1], answer)
        return None

    def halt(self, line):
        """A line met a fault, or comes after one. The first of them may have done something."""
        if not self.is_halted and line[0] in COMMANDS:
            self.stopped = self.answered.copy()
            self.stopped.reply(line)
        elif not self.is_halted and line[0] == "clients":
            self.stopped = self.answered.served(line[1], line[2], False)
        self.is_halted = True

    def misjudges_limit(self, line, answer):
        """Whether a command is refused as Overcommit that may not be, or is answered though it has to be."""
        is_over = answer == ["refused Overcommit"]
        if self.limit == NO_LIMIT or line[0] not in PUTS:
            return is_over
        if self.answered.crowd or not answer or (answer[0].startswith("refused ") and not is_over):
            return False
        return is_over != self.answered.is_overcommitted(line, self.limit)

    def wrong_reply(self, line, reply):
        name, seen = line[1:3], self.versions.get(line[1:3], 0)
        if self.answered.crowd and name in self.answered.crowd.before:
            version, _, value = reply.partition(" ")
            found = None if reply == "none" else (int(version), value.encode())
            if line[0] != "get" or not self.answered.learn(name, found):
                return f"{line} printed {reply}, which no order of the clients leaves"
            self.versions[name] = max(seen, found[0] if found else 0)
            return None
        wanted = self.answered.reply(line)
        if reply != wanted:
            return f"{line} printed {reply}, and the map answers {wanted}"
        if line[0] in PUTS and reply.startswith("ok "):
            version = int(reply.split()[1])
            if version <= seen:
                return f"{line} printed {reply}, and the key was at {seen}"
            self.versions[name] = version
        return None

    def wrong_count(self, line, answer):
        _, clients, rounds, _ = line
        if self.answered.crowd:
            # A get behind the clients before was refused for want of room in the history, and so is each later call, unless its
            # object is too long.
            may_be = answer == "refused HistoryFull" or (answer == "refused TooBig" and self.is_long(clients, 1))
            return None if may_be else f"{line} printed {answer}, and the history is full"
        if answer == "stopped":
            self.stopped = self.answered.served(clients, rounds, False)
        elif answer in ("refused Full", "refused HistoryFull") or self.may_limit(answer, clients, rounds):
            self.answered = self.answered.served(clients, rounds, False)
        elif answer == f"clients {clients} {rounds} {2 * clients * rounds}":
            self.answered = self.answered.served(clients, rounds, True)
        else:
            return f"{line} printed {answer}"
        return None

    def may_limit(self, answer, clients, rounds):
        """Whether it is how a limit of bytes may refuse a put of clients."""
        if answer == "refused Overcommit":
            return self.limit != NO_LIMIT
        return answer == "refused TooBig" and self.is_long(clients, rounds)

    def is_long(self, clients, rounds):
        """Whether some object of so many rounds of clients has more bytes than an object may have."""
        return object_len(Object(1, 1, client_key(clients - 1), b"%d" % rounds)) > self.largest

    def maps(self):
        """The map without the line that was stopped or halted, and with it, if one was."""
        return [it for it in (self.answered, self.stopped) if it]

    def wrong_list(self, table, answer):
        # A halted master holds what the line that met the fault has put, too.
        is_whole = answer[-1] == f"listed {len(answer) - 1}"
        if is_whole and any(it.may_list(table, answer[:-1]) for it in self.maps()):
            return None
        return f"list {table} printed {answer}, and the map is one of {[it.rows() for it in self.maps()]}, but for clients"

    def wrong_table(self, answer):
        found = next(filter(None, (it.found(answer[:-1]) for it in self.maps())), None)
        if not found or answer[-1] != f"recovered {len(found.live)}":
            return f"recover printed {answer}, and the map is one of {[it.rows() for it in self.maps()]}, but for clients"
        self.answered, self.stopped, self.is_halted = found.recovered(), None, False
        self.lost = set()
        return None


# A run.

PASS_REFUSED = r"refused (PassOpen|Full|TooMuch|TooMany|(Twice|IsHead|NotInLog) \d+)"
# What a line may print behind clients, if it isn't stopped.
FORMS = {
    "roll": r"head \d+|refused Full",
    "beginroll": r"opening \d+|refused (Full|Rolling)",
    "push": r"(extend|open|close) \d+ \d+|refused Nothing",
    "compact": r"compacted \d+ \d+|refused (IsHead|NotInLog) \d+|refused PassOpen",
    "clean": rf"cleaned( \d+){{2,5}}|{PASS_REFUSED}",
    "begin": rf"begun( \d+){{1,4}}|{PASS_REFUSED}",
    "copy": r"moved|carried|dropped|refused Nothing",
    "seal": r"sealed \d+|refused Nothing",
    "free": r"freed \d+ \d+|refused Nothing",
    "log": r"log( \d+)+",
    "hex": r"([0-9a-f]{2})+|refused NotInLog \d+",
}
# What they may print besides, if a failover may be open.
MENDING_FORMS = {
    "push": r"repair \d+ \d+|raise \d+|refused Lost \d+",
    **dict.fromkeys(("beginroll", "compact", "begin", "copy"), "refused Rolling"),
    **dict.fromkeys(("seal", "free"), r"refused Rolling|refused Lost \d+"),
}
# Lines that a spent fleet may stop.
TAKING = (*COMMANDS, "roll", "push", "clean", "seal", "free", "clients", "recover")


def end_of(steps):
    """What the steps of a line return, if no memory is refused; None if they end the line."""
    while True:
        try:
            _, refused, _ = next(steps)
        except StopIteration as end:
            return end.value
        if not refused:
            return None


def outcomes_of(stores, line):
    """Each answer that the line may print over one of these stores, if no memory is refused, and the store then."""
    outcomes, others = [], []
    for store in stores:
        try:
            outcomes.append(store.answered(line))
        except Undetermined:
            others.append(store)
    return outcomes + orders_of(others, *line[1:]) if others else outcomes


class Follower:
    """Says what is wrong with the answers to the lines of a script."""

    def __init__(self, options):
        # Of the master that is up, or of the last one; and of the masters that start from then on.
        self.options = self.later = options
        self.witness = Witness(options.replicas, options.live, options.largest)
        # Each that fits the answers so far: behind clients there may be several. Empty if the layout isn't known. The numbers
        # below are for that time.
        self.stores = [Store.new(options)]
        self.is_up = True
        # Whether the fleet takes whatever comes.
        self.is_unlimited = True
        self.greatest = 1
        # How many records the master keeps, if that is known.
        self.records = None
        # The format of the master that is up.
        self.master_format = options.format
        # How many backups may have failed for the master, and whether a failover may be open.
        self.failed, self.is_mending = 0, False
        # Whether a fault was asked for and may still come, and whether the master has told that it is halted.
        self.is_due = self.is_halted = False
        # Whether a pass may be open.
        self.may_clean = True

    def wrong(self, line, answer):
        """What is wrong with the answer to this line, or None."""
        if self.breaks_limit(line, answer):
            return f"{line} printed {answer[-1]}, but a new master has room for {self.options.live} live bytes"
        if self.stores:
            try:
                outcomes = outcomes_of(self.stores, line)
            except Undetermined:
                self.lose_sight(self.stores)
            else:
                wanted = "".join(f"{row}\n" for row in answer)
                fitting = list(dict.fromkeys(store for text, store in outcomes if text == wanted))
                if not fitting:
                    texts = list(dict.fromkeys(text for text, _ in outcomes))
                    return f"{line} printed {answer}, and the model prints {' or '.join(map(repr, texts[:9]))}"
                self.stores = fitting
                if len(fitting) > MOST_STORES:
                    self.lose_sight(fitting)
                return self.witness.wrong(line, answer)
        return self.witness.wrong(line, answer) or self.wrong_unseen(line, answer)

    def breaks_limit(self, line, answer):
        """Whether a new master lacks room for the table, though the live bytes have a limit and no fault may come."""
        if self.options.live == NO_LIMIT or not answer:
            return False
        later = self.stores[0].later if self.stores else self.later
        if line[0] == "needs" and answer[0].startswith("needs "):
            needed = answer[0].removeprefix("needs ")
            return not needed.isdigit() or int(needed) + 2 * whole_seglets(later) > later.seglets
        may_fault = any(it.fleet.due for it in self.stores) if self.stores else self.is_due
        return line[0] == "recover" and answer[-1] == "refused Full" and not may_fault

    def lose_sight(self, stores):
        """From here on the layout isn't known, which was that of one of these stores."""
        masters = [it.master for it in stores if it.master]
        self.stores, self.is_up, self.may_clean = [], bool(masters), any(it.cleaning for it in masters)
        self.is_unlimited = all(it.fleet.left == NO_LIMIT for it in stores)
        self.greatest, self.options, self.later = max(it.greatest for it in stores), stores[0].options, stores[0].later
        records = {it.kept() for it in masters}
        self.records = records.pop() if len(records) == 1 else None
        self.master_format = 2 if any(it.has_lengths for it in masters) else 1
        self.failed = max((len(it.failed) for it in masters), default=0)
        self.is_mending = any(it.failover for it in masters)
        self.is_due, self.is_halted = False, bool(masters) and all(it.is_halted for it in masters)
        # A master that may be halted is one that may be halted by what comes.
        if any(it.fleet.due for it in stores) or any(it.is_halted for it in masters):
            self.ask_fault()

    def ask_fault(self):
        """A fault may come from here on."""
        self.is_due = True
        if self.is_up and self.master_format == 2:
            self.failed, self.is_mending = self.failed + 1, True

    def wrong_unseen(self, line, answer):
        name = line[0]
        if self.is_up and name in DOWN_LINES:
            may_be = answer == ["refused Up"]
        elif not self.is_up and name not in (*DOWN_LINES, *ANY_LINES):
            may_be = answer == ["refused Down"]
        elif answer == ["stopped"]:
            may_be = not self.is_unlimited and name in TAKING
            self.stop(name)
        elif name in STEPS and (self.is_halted or answer == ["refused Halted"]):
            may_be = answer == ["refused Halted"] and self.may_halt()
        elif name in COMMANDS:
            may_be = self.may_command(line, answer[0])
        elif name in FORMS:
            may_be = len(answer) == 1 and (self.may_form(name, answer[0]) or self.may_mend(name, answer[0]))
        else:
            may_be = getattr(self, f"may_{name}")(line, answer)
        return None if may_be else f"{line} printed {answer}, which isn't possible behind clients"

    def may_halt(self):
        """Whether the master may be halted. From here on it is."""
        # A failover that finds no room for its head halts the master too.
        may_be = self.is_halted or self.is_due or self.failed > 0
        # The fault that halts a master of format 1 doesn't come again. One that is asked for later may still come.
        self.is_due = self.is_due and (self.is_halted or self.master_format == 2)
        self.is_halted = True
        return may_be

    def may_form(self, name, row):
        shows_pass = row == "refused PassOpen" or (name in ("copy", "seal") and row != "refused Nothing")
        if shows_pass and not self.may_clean:
            return False
        if name in ("begin", "clean"):
            self.may_clean = self.may_clean or not row.startswith("refused ")
        return re.fullmatch(FORMS[name], row)

    def may_mend(self, name, row):
        """Whether it may be an answer of a failover, or the one that opens it."""
        if not self.is_mending or name not in MENDING_FORMS:
            return False
        return re.fullmatch(MENDING_FORMS[name], row)

    def stop(self, name):
        self.is_up, self.is_unlimited, self.is_halted = False, True, False
        if name == "recover":
            self.end_recovery()

    def end_recovery(self):
        """A recovery ended early. Its master took a number, and may have gone on without a backup before that."""
        self.greatest += 1
        if self.is_due and self.later.format == 2:
            self.failed += 1

    def may_command(self, line, row):
        kind = "put" if line[0] in PUTS else line[0]
        command = Command(kind, line[1], line[2], line[-1] if kind == "put" else b"")
        if kind == "put" and is_too_big(command, self.options):
            return row == "refused TooBig"
        if not 1 <= command.table <= self.options.tables:
            return row == "refused NoTablet"
        if self.records is not None and self.records >= self.options.history:
            return row == "refused HistoryFull"
        if row == "refused Overcommit":
            # The witness judges it.
            return True
        if row == "refused Full":
            return kind != "get"
        if row == "refused HistoryFull":
            return self.records is None
        self.record(1)
        # The witness judges the reply.
        return not row.startswith("refused ")

    def record(self, count):
        """The master keeps so many records more, and forgets whole blocks behind their line if it does so at all."""
        if self.records is not None:
            self.records += count
            if self.options.forget and self.records > BLOCK:
                self.records = (self.records - 1) % BLOCK + 1

    def may_clients(self, line, answer):
        # The cleaner ends each pass, unless a step of it is refused.
        self.may_clean = not self.is_unlimited or self.is_due or self.master_format == 2
        calls, left = 2 * line[1] * line[2], None if self.records is None else self.options.history - self.records
        if answer[0].startswith("clients "):
            self.record(calls)
            return left is None or calls <= left
        self.records = None
        # The witness judges the limits of bytes.
        return answer[0] in ("refused Full", "refused Overcommit", "refused TooBig") or left is None or calls > left

    def may_idle(self, _, answer):
        return not answer

    def may_stop(self, line, answer):
        self.is_unlimited = line[1] == NO_LIMIT
        return answer == [f"stop {line[1]}"]

    def may_fault(self, line, answer):
        self.ask_fault()
        return answer == [f"fault {line[1]} {'taken' if line[2] else 'lost'}"]

    def may_format(self, line, answer):
        self.later = later_options(self.later, line)
        return answer == [f"{line[0]} {line[1]}"]

    may_seglets = may_format

    def may_crash(self, _, answer):
        self.is_up = self.is_halted = False
        return answer == ["crashed"]

    def may_lose(self, line, answer):
        return answer == [f"lost {line[1]}"]

    def may_list(self, _, answer):
        # The witness judges the rows.
        return not answer[-1].startswith("refused ")

    def may_live(self, _, answer):
        limit = "none" if self.options.live == NO_LIMIT else self.options.live
        # A halted master counts what the line that met the fault has put, too.
        maps = self.witness.maps()
        if any(it.crowd for it in maps):
            return re.fullmatch(rf"live \d+ {limit}", answer[0])
        return answer[0] in [f"live {it.live_bytes()} {limit}" for it in maps]

    def may_needs(self, _, answer):
        if answer[0].startswith("refused "):
            return self.may_miss(answer[0])
        maps = self.witness.maps()
        needs = [f"needs {seglets_needed(it.objects(), self.later) or 'segments'}" for it in maps]
        return answer[0] in needs or (any(it.crowd for it in maps) and re.fullmatch(r"needs (\d+|segments)", answer[0]))

    def may_miss(self, row):
        """Whether a recovery may find so that a head or a segment is lost."""
        too_old = "HeadTooOld|" if self.failed else ""
        return re.fullmatch(rf"refused (NoHead|({too_old}HeadClosed|Missing) \d+)", row)

    def may_will(self, _, answer):
        # A halted master holds what the line that met the fault has put, too.
        maps = self.witness.maps()
        return any(it.crowd for it in maps) or answer in [self.will_of(it) for it in maps]

    def will_of(self, map_):
        sizes = sorted((it.table, place(it.key), len(it.spelled())) for it in map_.objects())
        parts, count = make_will(range(1, self.options.tables + 1), sizes, self.options.bytes, self.options.objects)
        return [*(f"{table} {first:016x} {last:016x} {part}" for table, first, last, part in parts), f"partitions {count}"]

    def may_room(self, _, answer):
        seglets = re.fullmatch(r"used (\d+) free (\d+)", answer[0])
        return seglets and int(seglets[1]) + int(seglets[2]) == self.options.seglets

    def may_holdings(self, _, answer):
        return all(self.may_hold(*name_of(row)) for row in answer)

    def may_hold(self, backup, master, segment):
        options = self.options
        # Each backup that failed made one behind it a home.
        is_home = (backup - segment * options.step) % options.backups < options.replicas + self.failed
        return backup < options.backups and 1 <= master <= self.greatest and is_home

    def may_recover(self, _, answer):
        """A recovery that came to its end was judged by the witness; the new master's layout is known then, unless a fault may come."""
        if answer[-1].startswith("refused "):
            if answer[-1] in ("refused Full", "refused Halted"):
                self.end_recovery()
            if answer == ["refused Halted"]:
                return self.is_due
            return answer[-1] == "refused Full" or self.may_miss(answer[-1])
        found = self.witness.answered
        down = Store(self.options, self.later, Fleet(), None, greatest=self.greatest)
        store = end_of(down.adopted(found.objects(), found.safe))
        self.is_up, self.records, self.options = True, 0, self.later
        self.master_format = self.later.format
        self.greatest += 1
        self.failed, self.is_mending, self.may_clean = 0, False, False
        if self.is_due:
            self.ask_fault()
        elif self.is_unlimited:
            self.stores = [store]
        return store is not None


def wrong_run(words, script, run):
    """What is wrong with the run of a script, with these options; None if nothing is."""
    options = options_of(words)
    if config_fault(options):
        wanted = Run(2, "", f"ramlog: bad configuration {config_fault(options)}\n")
        return None if run == wanted else f"it ended with {run}, and not with {wanted}"
    if options.raw:
        # Rows can't be told apart where values have line feeds: the model says what is printed.
        wanted = undisturbed(script, options)
        return None if run == wanted else f"it ended with {run}, and not with {wanted}"
    follower, lines, status, errors = Follower(options), [], 0, ""
    for number, parsed in enumerate(parsed_lines(script, options), 1):
        if parsed is None:
            status, errors = 2, errors + bad_line(number)
            continue
        lines.append(parsed)
    if options.explain:
        # What may have been made without a reply isn't printed, so the model says it.
        errors = undisturbed(script, options).errors
    printed = []
    for line, answer in answers_of(lines, run.output):
        printed += answer
        if not answer and line[0] not in ("idle", "holdings"):
            return f"{line} printed nothing"
        wrong = follower.wrong(line, answer)
        if wrong:
            return wrong
    if "".join(f"{row}\n" for row in printed) != run.output:
        return "more was printed than the lines have"
    if (run.status, run.errors) != (status, errors):
        return f"it ended with status {run.status} and {run.errors!r}, and not with {status} and {errors!r}"
    return None
