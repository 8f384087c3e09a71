"""What a script may print: a small model of the program, after docs/SPECIFICATION.md. It shares no code with it.

`Store.outcomes` gives what a line may print, and the store after that. If no memory is refused there is one answer. With a
refusal there are more: the step that met it was not done, and what the line did before it stays.

Images and replicas are bytes, in the spelling of section 2. The master answers from a table that it keeps beside them. A
recovery reads the replicas' bytes, and nothing else. The wills of `will` change no other answer: the rebuilt list is the same
however a log is divided, and in whatever order and by however many workers it is replayed. So a recovery of the model is of the
whole log at once.

One client without a cleaner has one way to run. Of others nobody can tell in which order threads take the lock: the model raises
Undetermined there, `script_orders.py` follows each order if there are few, and `script_witness.py` says what may come after others.
"""

from __future__ import annotations

import re
from collections import Counter, deque
from dataclasses import dataclass, field, fields, replace

NO_LIMIT = 2**64 - 1
# A master forgets by blocks of so many records.
BLOCK = 1024
# What a line prints, and what is written to standard error, if memory was refused.
REFUSED = "refused NoMemory\n"
NO_MEMORY = "ramlog: no memory\n"


def hashed_once(kind):
    """The same class, whose values keep their hash: a store that is followed in many orders is hashed as often."""
    plain = kind.__hash__

    def kept(self):
        if "hash" not in self.__dict__:
            self.__dict__["hash"] = plain(self)
        return self.__dict__["hash"]

    kind.__hash__ = kept
    return kind


# Options (section 13).

@hashed_once
@dataclass(frozen=True)
class Options:
    backups: int = 3
    replicas: int = 2
    step: int = 1
    segment: int = 512
    seglet: int = 64
    seglets: int = 64
    tables: int = 4
    history: int = 1048576
    bytes: int = 1048576
    objects: int = 1000000
    format: int = 1
    # The most bytes of an object, and of all live objects together.
    largest: int = NO_LIMIT
    live: int = NO_LIMIT
    # The most steps of the cleaner behind each command that may change the map.
    tend: int = 0
    # Whether a master forgets its durable records behind each line.
    forget: bool = False
    # Whether keys and values are any bytes, each behind its length.
    raw: bool = False
    # Whether the run goes on behind a bad line.
    keep_going: bool = False
    # Whether a command is named that may have been made, though it has no reply.
    explain: bool = False


def options_of(words):
    """The options of words such as --segment=4096 and --forget. For a --live of 0 they have the greatest limit."""
    flags = {"--forget": "forget", "--raw": "raw", "--keep-going": "keep_going", "--explain": "explain"}
    names = {option.name for option in fields(Options)} - {*flags.values()}
    numbers = {}
    for word in words:
        if word in flags:
            numbers[flags[word]] = True
            continue
        match = re.fullmatch(r"--([a-z]+)=([0-9]+)", word)
        if not match or match[1] not in names:
            raise ValueError(f"no option of the form --NAME=N: {word}")
        numbers[match[1]] = int(match[2])
    options = Options(**numbers)
    return replace(options, live=greatest_limit(options) or 0) if options.live == 0 else options


# Configurations and their limits (section 6).

def whole_seglets(options):
    """The seglets of a whole segment."""
    return options.segment // options.seglet


def most_ids(options):
    """How many segments a digest may list."""
    return options.segment // 32


def opening_len(options, listed):
    """The bytes of the opening of a head whose digest lists so many segments."""
    return 32 + (16 if options.format == 2 else 8) * listed


def longest(options):
    """The bytes of the longest object that there may be."""
    return min(options.segment // 4, options.largest)


def mean_opening(options, heads):
    """The mean bytes of the openings of so many heads. The first lists one segment, and each later one lists one more."""
    return 32 + (8 if options.format == 2 else 4) * (heads + 1)


def heads_by(options, live, heads):
    """How many heads objects of so many bytes in all close at most, if they close no more than `heads`."""
    return live // (options.segment + 1 - (longest(options) + mean_opening(options, heads)))


def heads_for(options, live):
    """The same, first as if as many closed as a digest may list, and then as if one more closed than that gave."""
    most = most_ids(options)
    return heads_by(options, live, min(heads_by(options, live, most) + 1, most))


def is_limit(options, live):
    """Whether objects of so many bytes in all can be loaded whatever their order, with two whole segments to spare."""
    heads, whole = heads_for(options, live), whole_seglets(options)
    closed = heads * (mean_opening(options, heads) + options.seglet)
    fits_whole = (heads + 5) * whole <= options.seglets
    fits_bytes = 5 * whole * options.seglet + live + closed <= options.seglets * options.seglet
    return heads + 2 <= most_ids(options) and (fits_whole or fits_bytes)


def greatest_limit(options):
    """The greatest limit, found by bisection; None if there is none."""
    if not is_limit(options, 0):
        return None
    limit, above = 0, most_ids(options) * (options.segment + 1)
    while limit + 1 < above:
        middle = (limit + above) // 2
        limit, above = (middle, above) if is_limit(options, middle) else (limit, middle)
    return limit


def config_fault(options):
    """What is wrong with a configuration, or None."""
    if options.replicas > options.backups:
        return "BadBackups"
    if options.segment % options.seglet:
        return "BadSegment"
    if options.seglets < 4 * whole_seglets(options):
        return "BadBudget"
    return "BadLive" if options.live != NO_LIMIT and not is_limit(options, options.live) else None


def seglets_needed(objects, options):
    """How many seglets a new master needs to load these objects, in this order; None if its digest has too few places."""
    closed, used, level = 0, 0, opening_len(options, 1)
    for it in objects:
        if level + object_len(it) > options.segment:
            closed, used = closed + 1, used + -(-level // options.seglet)
            level = opening_len(options, closed + 1)
        level += object_len(it)
    return 3 * whole_seglets(options) + used if closed + 2 <= most_ids(options) else None


# Lines (section 11).

def word(given):
    if not re.fullmatch(rb"[!-~]+", given):
        raise ValueError
    return given


def key_word(given):
    if len(given) > 1024:
        raise ValueError
    return word(given)


def fate_word(given):
    """Whether the op is taken."""
    if given not in (b"taken", b"lost"):
        raise ValueError
    return given == b"taken"


def format_word(given):
    if given != b"2":
        raise ValueError
    return 2


def number_word(given):
    if not re.fullmatch(rb"0|[1-9][0-9]*", given) or int(given) >= 2**64:
        raise ValueError
    return int(given)


LINES = {
    "put": (number_word, key_word, word),
    "new": (number_word, key_word, word),
    "cas": (number_word, key_word, number_word, word),
    "get": (number_word, key_word),
    "del": (number_word, key_word),
    "compact": (number_word,),
    "clean": (number_word, ...),
    "begin": (number_word, ...),
    "copy": (),
    "seal": (),
    "free": (),
    "clients": (number_word, number_word, number_word),
    "roll": (),
    "beginroll": (),
    "push": (),
    "log": (),
    "room": (),
    "segments": (),
    "list": (number_word,),
    "live": (),
    "hex": (number_word,),
    "will": (),
    "stop": (number_word,),
    "fault": (number_word, fate_word),
    "crash": (),
    "lose": (number_word,),
    "needs": (),
    "recover": (),
    "recover reverse": (),
    "recover threads": (number_word,),
    "holdings": (),
    "format": (format_word,),
    "seglets": (number_word,),
    "tend": (number_word,),
}

# The least and the most of the first numbers of a line.
RANGES = {
    "clients": ((1, 63), (1, 1000000)), "recover threads": ((1, 64),), "fault": ((1, 2**64 - 1),), "seglets": ((1, 2**32),),
    "tend": ((1, 65536),),
}
# The lines that give masters that start later another option, which has the line's name.
LATER = ("format", "seglets")


def spaced_lines(text):
    """The lines of a script with raw bytes: a length, a colon and so many bytes may stand where a word begins."""
    at = begin = 0
    while at < len(text):
        counted = re.compile(rb"([0-9]+):").match(text, at) if text[begin:begin + 1] != b"#" else None
        if counted and int(counted[1]) <= 2**21:
            at = min(counted.end() + int(counted[1]), len(text))
        # To the next word, or to the end of the line.
        while at < len(text) and text[at] not in b" \n":
            at += 1
        if text[at:at + 1] == b"\n":
            yield text[begin:at]
            begin = at + 1
        at += 1
    if begin < len(text):
        yield text[begin:]


def lines_of(text, raw=False):
    """The lines of a script, without the line feeds that end them."""
    if raw:
        return [*spaced_lines(text)]
    lines = text.split(b"\n")
    return lines[:-1] if lines[-1] == b"" else lines


def counted(given):
    """Bytes behind their length, as a script with raw bytes has them."""
    return b"%d:%s" % (len(given), given)


def shown(given, raw):
    """A key or a value as it is printed; each character stands for one byte."""
    return (counted(given) if raw else given).decode("latin-1")


def counted_front(text):
    """The bytes with which the text begins, behind their length, and the rest of it."""
    digits, colon, rest = text.partition(b":")
    length = number_word(digits)
    if not colon or length > len(rest):
        raise ValueError
    return rest[:length], rest[length:]


def raw_parts(name, text):
    """What follows the name of a command with a key, in a script with raw bytes."""
    table, space, rest = text.partition(b" ")
    key, rest = counted_front(rest)
    parts = [number_word(table), key]
    if name == "cas":
        blank, version, rest = rest.split(b" ", 2)
        parts.append(number_word(version))
        rest = blank + b" " + rest
    if name in ("put", "new", "cas"):
        if rest[:1] != b" ":
            raise ValueError
        value, rest = counted_front(rest[1:])
        parts.append(value)
    if rest or not space or not 1 <= len(key) <= 1024 or len(parts[-1]) > 2**21:
        raise ValueError
    return parts


def is_too_long(line, raw):
    """Whether the line has more bytes than a line may have."""
    return len(line) > (2**21 if raw else 0) + 4096


def parse(line, backups, raw=False):
    """A line's name and what follows it, or None if it is a bad line, whatever stands before it."""
    if is_too_long(line, raw):
        return None
    if line[:1] in (b"", b"#"):
        return ("idle",)
    command, _, behind = line.partition(b" ")
    if raw and command in (b"put", b"new", b"cas", b"get", b"del"):
        try:
            return (command.decode(), *raw_parts(command.decode(), behind))
        except ValueError:
            return None
    name, *words = line.split(b" ")
    if name == b"recover" and words[:1] in ([b"reverse"], [b"threads"]):
        name += b" " + words.pop(0)
    name = name.decode("latin-1")
    readers = LINES.get(name)
    if readers and readers[-1] is ...:
        # One word or more of the kind.
        readers = readers[:1] * max(1, len(words))
    if readers is None or len(words) != len(readers):
        return None
    try:
        parts = [read(given) for read, given in zip(readers, words)]
    except ValueError:
        return None
    if name == "lose" and parts[0] >= backups:
        return None
    if not all(least <= part <= most for part, (least, most) in zip(parts, RANGES.get(name, ()))):
        return None
    return (*name.split(" "), *parts)


def later_options(later, line):
    """The options of masters that start after a line, if they are these before it."""
    return replace(later, **{line[0]: line[1]}) if line[0] in LATER else later


def parsed_lines(script, options):
    """The lines of a script. None stands for a bad one. It is the last, unless the run keeps going and the line isn't too long."""
    later = options
    for line in lines_of(script, options.raw):
        parsed = parse(line, options.backups, options.raw)
        after = later_options(later, parsed) if parsed else later
        if config_fault(after):
            parsed = None
        later = after if parsed else later
        yield parsed
        if parsed is None and (not options.keep_going or is_too_long(line, options.raw)):
            return


def bad_line(number):
    """What is reported of a bad line."""
    return f"ramlog: bad line {number}\n"


def unsure_line(number):
    """What is reported of a command that may have been made."""
    return f"ramlog: the command of line {number} may have been made\n"


# How the last row begins of the answers with many rows.
LAST_ROWS = {
    "recover": ("recovered ", "refused ", "stopped"), "list": ("listed ", "refused "), "will": ("partitions ", "refused "),
}


# A row of `segments`.
SEGMENT_ROW = re.compile("[0-9]+ (head|opening|closed|victim|survivor|waiting)( [0-9]+){3}")


def id_of(row):
    """The segment of a row of `segments`."""
    return int(row.split(" ")[0])


def name_of(row):
    """Backup, master and segment of a row of holdings."""
    return [int(word) for word in row.split(" ")[:3]]


def answers_of(lines, output):
    """Each of these parsed lines with the rows that it printed, as far as the output goes."""
    rows = deque(output.splitlines())
    for line in lines:
        answer = []
        if line[0] == "holdings":
            while rows and re.fullmatch(r"([0-9]+ ){4}(open|closed)", rows[0]):
                # The names of one line's rows rise. Those of another line of holdings may follow.
                if answer and name_of(rows[0]) <= name_of(answer[-1]):
                    break
                answer.append(rows.popleft())
        elif line[0] == "segments" and rows and rows[0][:1].isdigit():
            answer.append(rows.popleft())
            while rows and SEGMENT_ROW.fullmatch(rows[0]):
                # Rows of images rise, and rows of what waits stand behind them. Those of another such line may follow.
                if " waiting " not in rows[0] and (" waiting " in answer[-1] or id_of(rows[0]) <= id_of(answer[-1])):
                    break
                answer.append(rows.popleft())
        elif line[0] in LAST_ROWS:
            while rows and not (answer and answer[-1].startswith(LAST_ROWS[line[0]])):
                answer.append(rows.popleft())
        elif line[0] != "idle" and rows:
            answer.append(rows.popleft())
        yield line, answer


# Entries (section 2).

def number(value, size):
    return value.to_bytes(size, "big")


@dataclass(frozen=True)
class Header:
    master: int
    segment: int
    role: int

    def spelled(self):
        return b"\x01" + number(self.master, 8) + number(self.segment, 8) + number(self.role, 1)


@dataclass(frozen=True)
class Digest:
    ids: tuple
    # The length of each segment that it lists, if it lists lengths.
    lengths: tuple | None = None

    def spelled(self):
        if self.lengths is None:
            return b"\x02" + number(len(self.ids), 4) + b"".join(number(it, 8) for it in self.ids)
        pairs = (number(it, 8) + number(length, 8) for it, length in zip(self.ids, self.lengths))
        return b"\x06" + number(len(self.ids), 4) + b"".join(pairs)


@dataclass(frozen=True)
class Safe:
    version: int

    def spelled(self):
        return b"\x03" + number(self.version, 8)


@dataclass(frozen=True)
class Object:
    table: int
    version: int
    key: bytes
    value: bytes

    def spelled(self):
        lengths = number(len(self.key), 2) + number(len(self.value), 4)
        return b"\x04" + number(self.table, 8) + number(self.version, 8) + lengths + self.key + self.value

    def rank(self):
        return 2 * self.version


@dataclass(frozen=True)
class Tombstone:
    table: int
    version: int
    segment: int
    key: bytes

    def spelled(self):
        numbers = number(self.table, 8) + number(self.version, 8) + number(self.segment, 8)
        return b"\x05" + numbers + number(len(self.key), 2) + self.key

    def rank(self):
        return 2 * self.version + 1


FIXED_PARTS = {1: 18, 2: 5, 3: 9, 4: 23, 5: 27, 6: 5}


def read_entry(text, at):
    """The entry at this offset and the offset behind it, or None if no entry begins there."""
    def part(offset, size):
        return text[at + offset:at + offset + size]

    def number_at(offset, size):
        return int.from_bytes(part(offset, size), "big")

    kind, left = text[at], len(text) - at
    if left < FIXED_PARTS.get(kind, left + 1):
        return None
    length = FIXED_PARTS[kind]
    if kind == 1:
        entry = Header(number_at(1, 8), number_at(9, 8), number_at(17, 1))
        fits = entry.role <= 1
    elif kind == 2:
        count = number_at(1, 4)
        length += 8 * count
        if left < length:
            return None
        entry = Digest(tuple(number_at(5 + 8 * place, 8) for place in range(count)))
        fits = all(one < next_one for one, next_one in zip(entry.ids, entry.ids[1:]))
    elif kind == 3:
        entry = Safe(number_at(1, 8))
        fits = 1 <= entry.version <= 2**62 + 1
    elif kind == 4:
        key, value = number_at(17, 2), number_at(19, 4)
        length += key + value
        entry = Object(number_at(1, 8), number_at(9, 8), part(23, key), part(23 + key, value))
        fits = 1 <= entry.version <= 2**62 and 1 <= key <= 1024 and value <= 2097152
    elif kind == 6:
        count = number_at(1, 4)
        length += 16 * count
        if left < length:
            return None
        ids, lengths = (tuple(number_at(first + 16 * place, 8) for place in range(count)) for first in (5, 13))
        entry = Digest(ids, lengths)
        fits = all(one < next_one for one, next_one in zip(ids, ids[1:])) and all(18 <= it <= 8388608 for it in lengths)
    else:
        key = number_at(25, 2)
        length += key
        entry = Tombstone(number_at(1, 8), number_at(9, 8), number_at(17, 8), part(27, key))
        fits = 1 <= entry.version <= 2**62 and 1 <= key <= 1024
    return (entry, at + length) if fits and left >= length else None


# Segments (section 3).

def may_follow(entries, entry):
    """Whether an entry may come behind these in a segment."""
    if not entries:
        return isinstance(entry, Header)
    if entries[0].role == 0 and len(entries) == 1:
        return isinstance(entry, Digest) and entry.ids[-1:] == (entries[0].segment,)
    if entries[0].role == 0 and len(entries) == 2:
        return isinstance(entry, Safe)
    return isinstance(entry, (Object, Tombstone))


def read_segment(text):
    """The entries of a segment, or None if the bytes are no segment's."""
    entries, at = [], 0
    if len(text) > 8388608:
        return None
    while at < len(text):
        read = read_entry(text, at)
        if read is None or not may_follow(entries, read[0]):
            return None
        entries.append(read[0])
        at = read[1]
    is_whole = entries and (len(entries) >= 3 or entries[0].role == 1)
    return entries if is_whole else None


# Backups (section 5).

@hashed_once
@dataclass(frozen=True)
class Holding:
    backup: int
    master: int
    segment: int
    text: bytes
    is_open: bool

    def name(self):
        return (self.backup, self.master, self.segment)


@hashed_once
@dataclass(frozen=True)
class Fleet:
    """What the backups hold, sorted by backup, master and segment, and how many further ops they take."""

    holdings: tuple = ()
    left: int = NO_LIMIT
    # The take from now that ends in a fault, 1 for the next one, and whether its op is taken. With 0 none does.
    due: int = 0
    is_taken: bool = False
    # The least head of each master for which it was raised.
    raises: tuple = ()

    def replica(self, backup, master, segment):
        return next((it for it in self.holdings if it.name() == (backup, master, segment)), None)

    def took(self, holding):
        """The fleet after an op that leaves this holding."""
        others = [it for it in self.holdings if it.name() != holding.name()]
        return self.counted(tuple(sorted([*others, holding], key=Holding.name)))

    def freed(self, holding):
        """The fleet after an op that frees this holding."""
        return self.counted(tuple(it for it in self.holdings if it.name() != holding.name()))

    def least(self, master):
        """The least head of this master that a recovery may use."""
        return dict(self.raises).get(master, 0)

    def raised(self, master, id_):
        """The fleet after the least head of this master was raised."""
        raises = {**dict(self.raises), master: max(id_, self.least(master))}
        return replace(self.counted(self.holdings), raises=tuple(sorted(raises.items())))

    def counted(self, holdings):
        """The fleet after an op that leaves these holdings."""
        left = self.left if self.left == NO_LIMIT else self.left - 1
        return replace(self, holdings=holdings, left=left, due=max(0, self.due - 1))

    def faulted(self, taken):
        """The fleet after a take that ended in a fault. If the op is taken, it leaves the fleet `taken`."""
        return replace(taken if self.is_taken else self, due=0)


# The master (sections 7 to 9).

@hashed_once
@dataclass(frozen=True)
class Segment:
    """The image of a segment, and of each of its units the number of its record and where it ends."""

    id: int
    text: bytes
    units: tuple = ()
    # How many bytes a whole replica has. A compaction changes the image alone.
    length: int = 0

    def grown(self, more):
        """The segment with these bytes at its end."""
        return replace(self, text=self.text + more, length=self.length + len(more))


def spelled(entries):
    return b"".join(entry.spelled() for entry in entries)


def object_len(it):
    """How many bytes an object of this key and this value has in a segment."""
    return 23 + len(it.key) + len(it.value)


def is_too_big(it, options):
    """Whether a key and a value have more bytes than may be put, whether the key is present or not."""
    return 50 + 2 * len(it.key) + len(it.value) > options.segment // 4 or object_len(it) > options.largest


def seglets(segment, options):
    """How many seglets the image of a segment fills, the last one perhaps in part."""
    return -(-len(segment.text) // options.seglet)


def new_head(master, log, id_, safe, has_lengths):
    """A head that has nothing but its opening, and lists these segments and itself."""
    ids = (*(it.id for it in log), id_)
    lengths = (*(it.length for it in log), 32 + 16 * len(ids)) if has_lengths else None
    return Segment(id_, b"").grown(spelled([Header(master, id_, 0), Digest(ids, lengths), Safe(safe)]))


@dataclass(frozen=True)
class Command:
    kind: str
    table: int
    key: bytes
    value: bytes = b""
    # What the key has to be for a put: "any", "absent", or a version.
    condition: object = "any"
    # Whether the value of a reply is printed behind its length.
    raw: bool = False


@dataclass(frozen=True)
class Live:
    """A key's version and value, and the segment that its object is in."""

    version: int
    value: bytes
    segment: int


@hashed_once
@dataclass(frozen=True)
class Pass:
    """An open pass of the cleaner."""

    victims: tuple
    # Their ids follow one another. Those before `filling` are full.
    survivors: tuple
    # What is still to be treated: a victim's id and an entry of its, each.
    rest: tuple
    filling: int = 0
    # The replicas that are sealed, on backups that haven't failed: a survivor's id and a backup, each.
    sealed: frozenset = frozenset()
    # The roll that is under way is the pass's commit.
    is_committing: bool = False

    def with_copy(self, entry, most):
        """The pass once an entry was copied. One that doesn't fit the survivor that is filled begins the next."""
        fits = len(self.survivors[self.filling].text) + len(entry.spelled()) <= most
        filling = self.filling if fits else self.filling + 1
        grown = self.survivors[filling].grown(entry.spelled())
        return replace(self, filling=filling, survivors=(*self.survivors[:filling], grown, *self.survivors[filling + 1:]))


@dataclass(frozen=True)
class Weight:
    """What a closed segment has: the bytes of its image and of its opening, and those of its kept objects and tombstones. `named` is
    the bytes of kept tombstones of closed segments that name it."""

    id: int
    length: int
    opening: int
    live: int
    stones: int
    named: int

    @staticmethod
    def of(master, segment, kept, named):
        live, stones = (sum(len(it.spelled()) for it in kept if isinstance(it, kind)) for kind in (Object, Tombstone))
        opening = len(segment.text) - sum(len(it.spelled()) for _, it in master.rest_of((segment.id,)))
        return Weight(segment.id, len(segment.text), opening, live, stones, named)

    def kept(self):
        return self.live + self.stones


class Policy:
    """When a cleaner begins something, and what."""

    STORED, STONES = 130, 25

    def __init__(self, master, options):
        self.master, self.options, self.segment = master, options, options.segment
        self.used = master.used(options)
        self.free = options.seglets - self.used
        self.ids = len(master.log())
        self.spare = 4 + min(4, options.seglets // whole_seglets(options) // 256)

    def is_low(self):
        return self.free * self.options.seglet < self.spare * self.segment or self.is_crowded(self.ids)

    def is_tight(self):
        return self.free * self.options.seglet < (self.spare - 1) * self.segment

    def is_crowded(self, listed):
        return self.segment // 32 < listed + self.spare

    def gain(self, weight):
        after = weight.kept() + weight.opening
        return max(0, -(-weight.length // self.options.seglet) - -(-after // self.options.seglet))

    def best(self, weights):
        """The segment whose compaction gives back most seglets for what it keeps; None if none gives one back."""
        best, gained, cost = None, 0, 1
        for weight in weights:
            gain = self.gain(weight)
            if gain * cost > gained * (weight.kept() + 1):
                best, gained, cost = weight.id, gain, weight.kept() + 1
        return best

    def wants_pass(self, weights):
        memory = self.options.seglets * self.options.seglet
        stones = sum(it.stones for it in weights)
        left = max(0, memory - self.spare * self.segment - sum(it.live for it in weights))
        return (self.is_crowded(len(weights) + 1) or len(weights) * self.segment * 100 >= self.STORED * memory
                or stones * 100 >= self.STONES * left)

    def three_quarters(self):
        return self.segment - 18 - self.segment // 4

    def seglets(self, length):
        return -(-length // self.options.seglet)

    def victims(self, weights):
        """The segments that keep least for what they give back, as many as fill the survivors that leave a put's roll its memory;
        what they keep; and the seglets of their images."""
        survivors = min(4, max(1, self.free // whole_seglets(self.options) - 3))
        space, victims, kept, seglets = self.segment - 18 + (survivors - 1) * self.three_quarters(), (), 0, 0
        while len(victims) < 32:
            best = None
            for it in weights:
                gives = self.gives(it)
                if it.kept() <= space - kept and it.id not in victims and (not best or it.kept() * best[1] < best[0].kept() * gives):
                    best = it, gives
            if not best:
                break
            victims, kept, seglets = (*victims, best[0].id), kept + best[0].kept(), seglets + self.seglets(best[0].length)
        return victims, kept, seglets

    def gives(self, weight):
        """What a segment gives back of memory, one byte, and twice the bytes of the tombstones that name it."""
        return self.seglets(weight.length) * self.options.seglet - weight.kept() + 1 + 2 * weight.named

    def begin_pass(self, weights, best):
        """The pass that a cleaner begins by itself, or the compaction in its place; None if there is none."""
        victims, kept, seglets = self.victims(weights)
        survivors = 1 + -(-max(0, kept - self.segment + 18) // self.three_quarters())
        has_places = len(weights) - len(victims) + survivors + 2 <= self.segment // 32
        free = self.free * self.options.seglet
        if not victims or seglets <= self.seglets(kept) + survivors or not has_places or free < (survivors + 1) * self.segment:
            return None
        return ("compact", best) if best and free < (survivors + 2) * self.segment else ("begin", victims)

    def begin(self):
        """The step that a cleaner begins: a segment that is compacted, or the victims of a pass; or None."""
        if not self.is_low():
            return None
        weights = self.master.weights()
        best = self.best(weights)
        compaction = ("compact", best) if best else None
        if compaction and not self.wants_pass(weights):
            return compaction
        begun = self.begin_pass(weights, best) or compaction
        if begun:
            return begun
        chosen = self.master.chosen(self.options)
        return ("begin", chosen) if chosen else None


def survivors_for(lengths, most):
    """How many segments of so many bytes these entries fill, in their order. Each has a header of 18 bytes."""
    count, level = 1, 18
    for length in lengths:
        if level + length > most:
            count, level = count + 1, 18
        level += length
    return count


@dataclass(frozen=True)
class Failover:
    """What a master does since a backup failed, up to its last lost replica."""

    # The durable count as it began, which stays.
    frozen: int
    # No head was open yet.
    is_first: bool
    # A roll was under way. The image of its head counts until the new one is opened.
    has_abandoned: bool
    # The head is mended, the new one is opened and raised, the old one is closed, then others are repaired.
    part: str = "mends"


@hashed_once
@dataclass(frozen=True)
class Master:
    number: int
    # By id. The last is the head or, while a roll is under way, the head that is being opened.
    segments: tuple
    safe: int
    is_rolling: bool = True
    records: int = 0
    # How many of the first records are forgotten.
    forgotten: int = 0
    # The first id that no segment had yet.
    next: int = 2
    cleaning: Pass = None
    # Victims of earlier passes of which a replica is left, in the order in which they are freed.
    waiting: tuple = ()
    # The backups that failed, and what is done about the last of them.
    failed: frozenset = frozenset()
    failover: Failover = None
    # A take ended in a fault, and no further step is done.
    is_halted: bool = False
    # What the backups had before the take that halted the master: it counts no op that ended in a fault, taken or not.
    counted: object = None
    # Its digests list lengths.
    has_lengths: bool = False
    # What is live, by table and key. It follows from the segments.
    live: dict = field(default_factory=dict, compare=False)

    @staticmethod
    def new(number, safe, format_):
        """A master without a key, whose first head is being opened."""
        has_lengths = format_ == 2
        return Master(number, (new_head(number, (), 1, safe, has_lengths),), safe, has_lengths=has_lengths)

    def backups(self, segment, options):
        """The backups that haven't failed, in the order of this segment."""
        order = ((segment * options.step + place) % options.backups for place in range(options.backups))
        return [backup for backup in order if backup not in self.failed]

    def homes(self, segment, options):
        """The backups of a segment's replicas."""
        return self.backups(segment, options)[:options.replicas]

    def is_working(self):
        """Whether the head is open, and no failover."""
        return not self.is_rolling and not self.failover

    def log(self):
        """The segments of the digest in force."""
        return self.segments[:-1] if self.is_rolling and len(self.segments) > 1 else self.segments

    def answer(self, command):
        """The reply to a command, what it appends, and the value that the key has then."""
        name = (command.table, command.key)
        live = self.live.get(name)
        if command.kind == "get":
            return f"{live.version} {shown(live.value, command.raw)}" if live else "none", [], live
        if command.kind == "del":
            return (f"ok {live.version}", [self.tombstone(name)], None) if live else ("none", [], None)
        if command.condition != "any" and command.condition != (live.version if live else "absent"):
            return f"mismatch {live.version if live else 'none'}", [], live
        version = live.version + 1 if live else self.safe
        unit = [self.tombstone(name)] if live else []
        unit.append(Object(command.table, version, command.key, command.value))
        return f"ok {version}", unit, Live(version, command.value, self.segments[-1].id)

    def tombstone(self, name):
        live = self.live[name]
        return Tombstone(name[0], live.version, live.segment, name[1])

    def refusal(self, command, options):
        """The refusal of a command, apart from NoMemory, or None."""
        if command.kind == "put" and is_too_big(command, options):
            return "TooBig"
        if not 1 <= command.table <= options.tables:
            return "NoTablet"
        if self.kept() >= options.history:
            return "HistoryFull"
        unit = self.answer(command)[1]
        if not unit:
            return None
        if command.kind == "put" and self.is_overcommitted(command, options):
            return "Overcommit"
        return self.unit_refusal(unit, 3 if command.kind == "put" else 2, options)

    def kept(self):
        """How many records aren't forgotten."""
        return self.records - self.forgotten

    def live_bytes(self):
        """The bytes of the live objects."""
        return sum(size for _, _, size in self.sizes())

    def is_overcommitted(self, command, options):
        """Whether a put would make the live objects more than the limit, and more than they are."""
        if options.live == NO_LIMIT:
            return False
        had = self.live.get((command.table, command.key))
        live, more = self.live_bytes(), object_len(command) - (object_len(replace(command, value=had.value)) if had else 0)
        return more > 0 and live + more > options.live

    def unit_refusal(self, unit, whole_ones, options):
        """The refusal of a unit, before which a roll has to leave so many whole segments free; or None."""
        fits = len(self.segments[-1].text) + len(spelled(unit)) <= options.segment
        if self.is_working() and not fits and not self.may_roll(options, whole_ones):
            return "Full"
        return None if self.is_working() and fits else "Rolling"

    def is_ready(self, options):
        """Whether a pass is ready for its commit."""
        cleaning = self.cleaning
        return cleaning and not cleaning.rest and self.next_seal(options) is None

    def next_seal(self, options):
        """The first survivor that isn't sealed whole, and the backup of its next replica; or None."""
        replicas = ((it, home) for it in self.survivors() for home in self.homes(it.id, options))
        return next((it for it in replicas if (it[0].id, it[1]) not in self.cleaning.sealed), None)

    def may_roll(self, options, whole_ones):
        """Whether a roll may begin that leaves so many whole segments free."""
        if self.is_ready(options):
            return not self.has_lengths or self.has_room(options)
        ids, most = len(self.segments), most_ids(options)
        leaving, coming, taken = (len(self.cleaning.victims), len(self.cleaning.survivors), 1) if self.cleaning else (1, 1, 0)
        free = options.seglets - self.used(options)
        needed = (whole_ones - taken) * whole_seglets(options) + seglets(self.segments[-1], options)
        return ids + 1 <= most and ids + 1 <= most - 1 - coming + leaving and needed <= free

    def has_room(self, options):
        """Whether the next head has a place in its digest, and no seglet is missing for it. Nothing is kept for others."""
        ids = len(self.log()) + 1
        if self.is_ready(options):
            ids += len(self.cleaning.survivors) - len(self.cleaning.victims)
        old = 0 if self.failover and self.failover.has_abandoned else seglets(self.segments[-1], options)
        return ids <= most_ids(options) and old <= options.seglets - self.used(options)

    def is_kept(self, segment, entry):
        """Whether the cleaners keep an entry of this segment."""
        if isinstance(entry, Object):
            live = self.live.get((entry.table, entry.key))
            return live is not None and (live.segment, live.version) == (segment, entry.version)
        if isinstance(entry, Tombstone):
            return any(it.id == entry.segment for it in (*self.segments, *self.survivors()))
        return True

    def compacted(self, segment):
        """The master after the compaction of a closed segment: its image has the kept entries alone."""
        entries = (entry for entry in read_segment(segment.text) if self.is_kept(segment.id, entry))
        segments = tuple(replace(it, text=spelled(entries)) if it is segment else it for it in self.segments)
        return replace(self, segments=segments)

    def used(self, options):
        """How many seglets are counted: the last segment and each survivor whole, and each other one by its length."""
        whole = whole_seglets(options)
        # An abandoned head counts as the last one does in a roll.
        by_length = self.segments if self.failover and self.failover.has_abandoned else self.segments[:-1]
        return whole * (1 + len(self.survivors())) + sum(seglets(it, options) for it in by_length)

    # Passes.

    def survivors(self):
        """Those of the open pass; none without one."""
        return self.cleaning.survivors if self.cleaning else ()

    def heads(self):
        """The ids of the head in force and of the head that is being opened."""
        return {self.log()[-1].id, self.segments[-1].id}

    def role(self, id_):
        """What a segment that has an image is to the master."""
        if id_ == self.log()[-1].id:
            return "head"
        if id_ == self.segments[-1].id:
            return "opening"
        if id_ in {it.id for it in self.survivors()}:
            return "survivor"
        return "victim" if self.cleaning and id_ in self.cleaning.victims else "closed"

    def kept_in(self, segment):
        """The bytes of the objects and tombstones of a segment that the cleaners keep."""
        entries = (it for it in read_segment(segment.text) if isinstance(it, (Object, Tombstone)))
        return sum(len(it.spelled()) for it in entries if self.is_kept(segment.id, it))

    def victims_refusal(self, ids):
        """Why these segments may not be the victims of a pass, or None."""
        if self.cleaning:
            return "PassOpen"
        if len(ids) > 32:
            return "TooMany"
        for place, id_ in enumerate(ids):
            if id_ in ids[:place]:
                return f"Twice {id_}"
            if id_ in self.heads():
                return f"IsHead {id_}"
            if id_ not in {it.id for it in self.log()}:
                return f"NotInLog {id_}"
        return None

    def rest_of(self, ids):
        """The objects and tombstones of these segments, each with its segment."""
        by_id = {it.id: it for it in self.segments}
        return tuple((id_, entry) for id_ in ids for entry in read_segment(by_id[id_].text)
                     if isinstance(entry, (Object, Tombstone)))

    def kept_of(self, ids):
        """Those of them that the cleaners keep."""
        return [(id_, entry) for id_, entry in self.rest_of(ids) if self.is_kept(id_, entry)]

    def pass_refusal(self, ids, options):
        """The refusal of a pass with these victims, apart from NoMemory, or None."""
        refusal = self.victims_refusal(ids)
        if refusal:
            return refusal
        free, coming = options.seglets - self.used(options), self.survivors_of(ids, options)
        if coming > 4:
            return "TooMuch"
        is_full = len(self.segments) - len(ids) + coming + 1 > most_ids(options)
        return "Full" if is_full or free < (coming + 1) * whole_seglets(options) else None

    def survivors_of(self, ids, options):
        """How many survivors what is kept of these segments fills now."""
        return survivors_for((len(entry.spelled()) for _, entry in self.kept_of(ids)), options.segment)

    def choice(self, options):
        """The segments that keep the fewest bytes, as many as a pass may have, and how many survivors they fill."""
        closed = [it.id for it in self.log()[:-1]]
        kept = {id_: sum(len(entry.spelled()) for _, entry in self.kept_of((id_,))) for id_ in closed}
        free, whole = options.seglets - self.used(options), whole_seglets(options)
        victims, coming = (), 1
        for id_ in sorted(closed, key=lambda it: (kept[it], it))[:32]:
            more = self.survivors_of((*victims, id_), options)
            if more > 4 or free < (more + 1) * whole:
                break
            victims, coming = (*victims, id_), more
        return victims, coming

    def chosen(self, options):
        """The victims that a cleaner chooses by itself; none if a pass over them has no place in the digest."""
        victims, coming = self.choice(options)
        return victims if len(self.segments) - len(victims) + coming + 1 <= most_ids(options) else ()

    def weights(self):
        """What the closed segments of the digest in force keep."""
        closed = [(it, [entry for _, entry in self.kept_of((it.id,))]) for it in self.log()[:-1]]
        named = Counter()
        for entry in (entry for _, kept in closed for entry in kept if isinstance(entry, Tombstone)):
            named[entry.segment] += len(entry.spelled())
        return [Weight.of(self, it, kept, named[it.id]) for it, kept in closed]

    def cleaned(self, ids, options):
        """The master after the begin of a pass."""
        coming = range(self.next, self.next + self.survivors_of(ids, options))
        survivors = tuple(Segment(id_, b"").grown(Header(self.number, id_, 1).spelled()) for id_ in coming)
        return replace(self, next=coming.stop, cleaning=Pass(ids, survivors, self.rest_of(ids)))

    def copied(self, options):
        """What became of the next entry of the pass, and the master after that."""
        (id_, entry), *rest = self.cleaning.rest
        cleaning, live, what = replace(self.cleaning, rest=tuple(rest)), self.live, "dropped"
        if self.is_kept(id_, entry):
            cleaning, what = cleaning.with_copy(entry, options.segment), "carried"
            if isinstance(entry, Object):
                name = (entry.table, entry.key)
                live = {**live, name: replace(live[name], segment=cleaning.survivors[cleaning.filling].id)}
                what = "moved"
        return what, replace(self, cleaning=cleaning, live=live)

    def rolled(self):
        """The master once a roll has ended. With a commit the victims leave, and the survivors come."""
        if not (self.cleaning and self.cleaning.is_committing):
            return replace(self, is_rolling=False)
        victims = self.cleaning.victims
        segments = [it for it in self.segments if it.id not in victims] + [*self.cleaning.survivors]
        return replace(
            self, is_rolling=False, cleaning=None, segments=tuple(sorted(segments, key=lambda it: it.id)),
            waiting=(*self.waiting, *sorted(victims)))

    def applied(self, command):
        """The reply to a command that isn't refused, and the master after it."""
        reply, unit, then = self.answer(command)
        name, live, safe = (command.table, command.key), dict(self.live), self.safe
        if unit and command.kind == "del":
            safe = max(safe, live[name].version + 1)
        elif unit and name not in live:
            safe += 1
        if then:
            live[name] = then
        else:
            live.pop(name, None)
        segments = self.appended(unit) if unit else self.segments
        return reply, replace(self, segments=segments, records=self.records + 1, safe=safe, live=live)

    def appended(self, unit):
        """The segments once the head has this unit of the next record."""
        head = self.segments[-1].grown(spelled(unit))
        return (*self.segments[:-1], replace(head, units=(*head.units, (self.records, len(head.text)))))

    # Loading (section 10).

    def load_refusal(self, loaded, options):
        """The refusal of a load, apart from NoMemory, or None."""
        if is_too_big(loaded, options):
            return "TooBig"
        if not 1 <= loaded.table <= options.tables:
            return "NoTablet"
        return self.unit_refusal([loaded], 2, options)

    def loaded(self, loaded):
        """The master once this object, with its own version, is in its head."""
        live = {**self.live, (loaded.table, loaded.key): Live(loaded.version, loaded.value, self.segments[-1].id)}
        return replace(self, segments=self.appended([loaded]), live=live)

    def finished(self):
        """The master once all is pushed: its history begins with what was loaded."""
        return replace(self, segments=tuple(replace(it, units=()) for it in self.segments))

    def sizes(self):
        """Table, place and bytes of each live object, by table and place."""
        return sorted(
            (table, place(key), len(Object(table, live.version, key, live.value).spelled()))
            for (table, key), live in self.live.items())

    def rolling(self, is_ready):
        """The master after the begin of a roll."""
        log, cleaning = self.segments, self.cleaning
        if cleaning and is_ready:
            left = [it for it in self.segments if it.id not in cleaning.victims]
            log = sorted([*left, *cleaning.survivors], key=lambda it: it.id)
            cleaning = replace(cleaning, is_committing=True)
        head = new_head(self.number, log, self.next, self.safe, self.has_lengths)
        return replace(self, segments=(*self.segments, head), next=self.next + 1, is_rolling=True, cleaning=cleaning)

    # Failovers.

    def may_lose(self, options):
        """Whether a failover may begin if one more backup fails."""
        return self.has_lengths and not self.failover and options.backups - len(self.failed) > options.replicas

    def without(self, backup, frozen):
        """The master as a failover begins. A roll that was under way is abandoned."""
        is_first = self.is_rolling and len(self.segments) == 1
        has_abandoned = self.is_rolling and not is_first
        cleaning = self.cleaning and replace(
            self.cleaning, is_committing=False, sealed=frozenset(it for it in self.cleaning.sealed if it[1] != backup))
        return replace(
            self, failed=self.failed | {backup}, failover=Failover(frozen, is_first, has_abandoned), cleaning=cleaning,
            segments=self.log(), is_rolling=is_first)

    def in_part(self, part):
        return replace(self, failover=replace(self.failover, part=part))

    def turned(self, options):
        """The master with the new head of a failover, before its first Open. If no head was open yet, it lists itself alone."""
        failover = replace(self.failover, part="opens", has_abandoned=False)
        if failover.is_first:
            head = new_head(self.number, (), self.next, self.safe, True)
            return replace(self, segments=(head,), next=self.next + 1, failover=failover)
        return replace(self.rolling(self.is_ready(options)), failover=failover)


# Wills (section 10).

LAST_PLACE = 2**64 - 1


def place(key):
    """The first eight bytes of a key as a number."""
    return int.from_bytes(key[:8].ljust(8, b"\0"), "big")


def make_will(tables, sizes, most_bytes, most_objects):
    """The parts of the tablets, each of which is a whole table, and how many partitions they have."""
    groups = {}
    for table, first, size in sizes:
        groups.setdefault((table, first), []).append(size)
    parts, partition, bytes_, objects = [], 0, 0, 0
    for table in tables:
        begin = 0
        for (_, at), group in sorted(it for it in groups.items() if it[0][0] == table):
            is_above = bytes_ + sum(group) > most_bytes or objects + len(group) > most_objects
            if objects > 0 and partition < 2**32 - 2 and is_above:
                if at > 0:
                    parts.append((table, begin, at - 1, partition))
                begin, partition, bytes_, objects = at, partition + 1, 0, 0
            bytes_, objects = bytes_ + sum(group), objects + len(group)
        parts.append((table, begin, LAST_PLACE, partition))
    return parts, partition + 1


# Recovery (section 10).

class Refusal(Exception):
    """A refused recovery, with the name and the numbers of its refusal."""


def plan(holdings, master, least):
    """The entries of the segments that a recovery reads, the head last. Its id is at least this one."""
    read = []
    for holding in holdings:
        if holding.master != master:
            continue
        entries = read_segment(holding.text)
        if entries is None or (entries[0].master, entries[0].segment) != (master, holding.segment):
            raise Refusal(f"BadReplica {holding.backup} {holding.segment}")
        read.append((holding, entries))
    heads = [(holding, entries) for holding, entries in read if entries[0].role == 0]
    if not heads:
        raise Refusal("NoHead")
    newest = max(holding.segment for holding, _ in heads)
    if newest < least:
        raise Refusal(f"HeadTooOld {newest}")
    heads = [(holding, entries) for holding, entries in heads if holding.segment == newest and holding.is_open]
    if not heads:
        raise Refusal(f"HeadClosed {newest}")
    # A closed one before the open ones, and of these the longest.
    first = lambda replica: (replica[0].is_open, -len(replica[0].text) if replica[0].is_open else 0, replica[0].backup)
    _, head = min(heads, key=first)
    digest, planned = head[1], []
    for place, id_ in enumerate(digest.ids[:-1]):
        # Where a length is listed, an open replica that is shorter may lack what was acknowledged.
        least = digest.lengths[place] if digest.lengths else 0
        replicas = [(holding, entries) for holding, entries in read
                    if holding.segment == id_ and (not holding.is_open or least <= len(holding.text))]
        if not replicas:
            raise Refusal(f"Missing {id_}")
        planned.append(min(replicas, key=first)[1])
    return [*planned, head]


def rebuilt(segments):
    """The live objects of these segments, by table and key, and the safe version of a master that goes on from them."""
    tops, objects, safe = {}, {}, segments[-1][2].version
    for entry in (entry for entries in segments for entry in entries if isinstance(entry, (Object, Tombstone))):
        safe = max(safe, entry.version + 1)
        name = (entry.table, entry.key)
        if isinstance(entry, Object) and objects.setdefault((name, entry.version), entry.value) != entry.value:
            raise Refusal("Clash")
        if name not in tops or entry.rank() > tops[name].rank():
            tops[name] = entry
    return [tops[name] for name in sorted(tops) if isinstance(tops[name], Object)], safe


# The store, line by line (section 11).

# The lines that are steps of the master.
STEPS = ("put", "new", "cas", "get", "del", "compact", "clean", "begin", "copy", "seal", "free", "clients", "roll", "beginroll",
         "push")


# The lines that work while the store is down alone, and those that work then, too.
# Lines of a command.
COMMANDS = ("put", "new", "cas", "get", "del")
DOWN_LINES = ("lose", "needs", "recover")
ANY_LINES = ("idle", "stop", "fault", "holdings", *LATER)


class Undetermined(Exception):
    """A line with several threads: what it does depends on the order in which they take the lock."""


def ids_text(segments):
    """The ids of these segments, each behind a space."""
    return "".join(f" {it.id}" for it in segments)


def client_key(number):
    """The key of table 1 that this client writes."""
    return b"c%d" % number


def changed(outcomes, change):
    """Yields what is made of each of the outcomes, and returns what they return."""
    while True:
        try:
            outcome = next(outcomes)
        except StopIteration as end:
            return end.value
        yield from change(*outcome)


@hashed_once
@dataclass(frozen=True)
class Store:
    """A fleet, and a master over it."""

    # Of the master that is up, or of the last one; and of the masters that start from now on.
    options: Options
    later: Options
    fleet: Fleet
    # None if it is down.
    master: Master
    # The number of the last master that was whole: the one that is up, or the one that a recovery is for.
    last: int = 1
    # The greatest number of a master. Others than `last` didn't come to the end of their loading.
    greatest: int = 1

    @staticmethod
    def new(options):
        """The store at the start of a script: its first head is open."""
        store = Store(options, options, Fleet(), Master.new(1, 1, options.format))
        while store.next_op():
            _, store = store.pushed()
        return store

    def outcomes(self, line):
        """Each answer that the line may print, how many requests for memory it shows as refused, and the store behind it."""
        for answer, refused, store in self.ends(line):
            yield answer, refused, store.behind()

    def behind(self):
        """The store once its master has forgotten behind a line, if it forgets at all: of what is durable whole blocks, as long as a
        record is left behind them."""
        if not self.options.forget or not self.master or self.master.kept() <= BLOCK:
            return self
        forgotten = min(self.durable(), self.master.records - 1) // BLOCK * BLOCK
        return replace(self, master=replace(self.master, forgotten=max(self.master.forgotten, forgotten)))

    def ends(self, line):
        """The same before the master forgets."""
        name, *parts = line
        if name in DOWN_LINES and self.master:
            yield "refused Up\n", 0, self
        elif name not in (*DOWN_LINES, *ANY_LINES) and not self.master:
            yield "refused Down\n", 0, self
        elif name in STEPS and self.master.is_halted:
            if name == "clients":
                yield REFUSED, 1, self
            yield "refused Halted\n", 0, self
        elif name in ("compact", "begin", "copy", "seal", "free", "beginroll") and self.master.failover:
            yield "refused Rolling\n", 0, self
        else:
            yield from getattr(self, f"line_{name}")(*parts)

    def answered(self, line):
        """What the line prints if no memory is refused, and the store then."""
        return next((answer, after) for answer, refused, after in self.outcomes(line) if not refused)

    def may_have_made(self, line, after):
        """Whether the line is a command that was made, or may have been, and has no reply in the store behind it."""
        if line[0] not in COMMANDS or not self.master:
            return False
        if not after.master:
            return True
        seen = replace(after, fleet=after.master.counted) if after.master.counted else after
        return self.master.records < after.master.records and seen.durable() < after.master.records

    def line_idle(self):
        yield "", 0, self

    def line_put(self, table, key, value):
        return self.command(Command("put", table, key, value))

    def line_new(self, table, key, value):
        return self.command(Command("put", table, key, value, "absent"))

    def line_cas(self, table, key, version, value):
        return self.command(Command("put", table, key, value, version))

    def line_get(self, table, key):
        return self.command(Command("get", table, key, raw=self.options.raw))

    def line_del(self, table, key):
        return self.command(Command("del", table, key))

    def command(self, command):
        steps = self.options.tend if command.kind != "get" else 0
        called = yield from changed(self.called(command), lambda answer, refused, store: (
            store.with_room(command, refused) if steps and answer == "refused Full\n" else [(answer, refused, store)]))
        if called:
            reply, store = called
            for refused, after in store.tended_behind(steps):
                yield f"{reply}\n", refused, after

    def with_room(self, command, refused):
        """Does a command that was refused as Full once more, if a round of the cleaner gains seglets."""
        store = yield from changed(self.round_made(), lambda more, after: [("refused Full\n", refused + more, after)])
        if store and store.master.used(self.options) < self.master.used(self.options):
            for answer, more, after in store.command(command):
                yield answer, refused + more, after
        elif store:
            yield "refused Full\n", refused, store

    def round_made(self):
        """Makes a round of the cleaner. Yields each refusal that ends it, as the memory that it shows as refused and the store
        then, and returns the store if none does."""
        store, has_begun = self, False
        while store:
            store = store if store.master.is_halted else store.waited()
            step = store.pending()
            if not step and has_begun:
                return store
            if not step:
                yield 1, store
                step, has_begun = Policy(store.master, store.options).begin(), True
            if not step:
                return store
            store = yield from store.turned(step)
        return None

    def tended_behind(self, most):
        """Each way that so many steps of the cleaner behind a command may end: how many requests for memory it shows as refused,
        and the store then. None is made behind a compaction, unless memory is tight."""
        store, step = self, None
        for _ in range(most):
            if step and step[0] == "compact" and not Policy(store.master, store.options).is_tight():
                break
            store = store if store.master.is_halted else store.waited()
            step = store.pending()
            if not step:
                yield 1, store
                step = Policy(store.master, store.options).begin()
            if not step:
                break
            store = yield from store.turned(step)
            if not store:
                return
        yield 0, store

    def turned(self, step):
        """Makes one step of the cleaner. Yields each refusal of it, as above, and returns the store if there is none. A fleet
        that takes no more ops leaves the master."""
        if self.master.is_halted:
            yield 0, self
            return None
        return (yield from changed(self.tended(*step), lambda answer, refused, after: [
            (refused, self if answer == "stopped\n" else after)]))

    def called(self, command):
        """Does a command until it is durable. Yields the answers that end the line, and returns the reply and the store then."""
        store = self
        refusal = store.master.refusal(command, self.options)
        if refusal == "Rolling":
            store = yield from store.rolled()
            if not store:
                return None
            refusal = store.master.refusal(command, self.options)
        if refusal:
            yield f"refused {refusal}\n", 0, store
            return None
        yield REFUSED, 1, store
        reply, master = store.master.applied(command)
        store = replace(store, master=master)
        while store.durable() < store.master.records:
            store = yield from store.one_push()
            if not store:
                return None
        return reply, store

    def line_clients(self, clients, rounds, passes):
        if clients > 1 or passes > 0 or self.master.cleaning:
            raise Undetermined
        yield REFUSED, 1, self
        store = self
        for number in range(1, rounds + 1):
            for command in (Command("put", 1, client_key(0), b"%d" % number), Command("get", 1, client_key(0))):
                called = yield from store.called(command)
                if not called:
                    return
                store = called[1]
        yield REFUSED, 1, store
        yield f"clients 1 {rounds} {2 * rounds}\n", 0, store

    def line_compact(self, segment):
        image = next((it for it in self.master.log() if it.id == segment), None)
        if segment in self.master.heads():
            yield f"refused IsHead {segment}\n", 0, self
        elif not image:
            yield f"refused NotInLog {segment}\n", 0, self
        elif self.master.cleaning and segment in self.master.cleaning.victims:
            yield "refused PassOpen\n", 0, self
        else:
            yield REFUSED, 1, self
            master = self.master.compacted(image)
            length = next(len(it.text) for it in master.segments if it.id == segment)
            yield f"compacted {segment} {length}\n", 0, replace(self, master=master)

    def line_roll(self):
        store = yield from self.rolled()
        if store:
            yield f"head {store.master.segments[-1].id}\n", 0, store

    def line_beginroll(self):
        store = yield from self.begun()
        if store:
            yield f"opening {store.master.segments[-1].id}\n", 0, store

    def line_push(self):
        if not self.next_op():
            yield "refused Nothing\n", 0, self
            return
        store = yield from self.one_push(goes_on=False)
        if store:
            yield f"{self.pushed()[0]}\n", 0, store

    def line_begin(self, *ids):
        store = yield from self.pass_begun(ids)
        if store:
            yield f"begun{ids_text(store.master.cleaning.survivors)}\n", 0, store

    def line_copy(self):
        if not (self.master.cleaning and self.master.cleaning.rest):
            yield "refused Nothing\n", 0, self
            return
        store = yield from self.one_copy()
        yield f"{self.master.copied(self.options)[0]}\n", 0, store

    def line_seal(self):
        sealed = self.next_seal()
        if sealed is None:
            yield "refused Nothing\n", 0, self
            return
        store = yield from self.one_seal(goes_on=False)
        if store:
            yield f"sealed {sealed[1]}\n", 0, store

    def line_free(self):
        home = self.next_free()
        if home is None:
            yield "refused Nothing\n", 0, self
            return
        store = yield from self.one_free(goes_on=False)
        if store:
            yield f"freed {self.master.waiting[0]} {home}\n", 0, store

    def line_clean(self, *ids):
        store = yield from self.mended()
        store = store and (yield from store.pass_begun(ids))
        if not store:
            return
        survivors = store.master.cleaning.survivors
        while store and store.master.cleaning:
            store = yield from store.next_of_pass()
        store = store and (yield from store.mended())
        while store and store.next_free() is not None:
            store = yield from store.one_free()
            store = store and (yield from store.mended())
        if store:
            yield f"cleaned{ids_text((*survivors, store.master.segments[-1]))}\n", 0, store

    def line_tend(self, most):
        store = self
        for made in range(most):
            # A halted master may have a replica to free that a backup freed as it failed.
            store = store if store.master.is_halted else store.waited()
            step = store.pending()
            if not step:
                yield REFUSED, 1, store
                step = Policy(store.master, store.options).begin()
            if not step:
                yield f"tended {made}\n", 0, store
                return
            if store.master.is_halted:
                yield "refused Halted\n", 0, store
                return
            store = yield from store.tended(*step)
            if not store:
                return
        yield f"tended {most}\n", 0, store

    def pending(self):
        """The step of what is under way, or None."""
        if self.master.failover or self.master.cleaning:
            return ("pass",)
        if self.master.is_rolling:
            return ("push",)
        return ("free",) if self.master.waiting else None

    # The parts of a line. Each yields the answers that end the line, and returns the store if the line goes on.

    def tended(self, step, segment=None):
        """Makes one step of the cleaner."""
        if step == "pass":
            return (yield from self.next_of_pass())
        if step == "push":
            return (yield from self.one_push())
        if step == "free":
            return (yield from self.one_free())
        if step == "begin":
            return (yield from self.pass_begun(segment))
        yield REFUSED, 1, self
        image = next(it for it in self.master.log() if it.id == segment)
        return replace(self, master=self.master.compacted(image))

    def pass_begun(self, ids):
        refusal = self.master.pass_refusal(ids, self.options)
        if refusal:
            yield f"refused {refusal}\n", 0, self
            return None
        yield REFUSED, 1, self
        return replace(self, master=self.master.cleaned(ids, self.options))

    def one_copy(self):
        yield REFUSED, 1, self
        return replace(self, master=self.master.copied(self.options)[1])

    def mended(self):
        """Pushes to the end of a failover."""
        store = self
        while store and store.master.failover:
            store = yield from store.one_push()
        return store

    def next_of_pass(self):
        """Does the next step of a pass up to the end of its commit."""
        if self.master.failover:
            return (yield from self.one_push())
        if self.master.cleaning.rest:
            return (yield from self.one_copy())
        if self.next_seal() is not None:
            return (yield from self.one_seal())
        return (yield from self.one_push()) if self.master.is_rolling else (yield from self.begun())

    def next_seal(self):
        """The survivor of which the next replica is sealed, and the backup; or None."""
        cleaning = self.master.cleaning
        return self.master.next_seal(self.options) if cleaning and not cleaning.rest else None

    def one_seal(self, goes_on=True):
        if self.fleet.left == 0:
            yield self.stopped()
            return None
        yield REFUSED, 1, self
        cleaning, (survivor, home) = self.master.cleaning, self.next_seal()
        holding = Holding(home, self.master.number, survivor.id, survivor.text, False)
        fleet = self.fleet.took(holding)
        if self.fleet.due == 1:
            return (yield from self.lost(home, fleet, goes_on))
        master = replace(self.master, cleaning=replace(cleaning, sealed=cleaning.sealed | {(survivor.id, home)}))
        return replace(self, fleet=fleet, master=master)

    def next_free(self):
        """The backup on which the next replica of what waits is freed, or None."""
        return self.holders(self.master.waiting[0])[0] if self.master.waiting else None

    def holders(self, segment):
        """The backups that haven't failed and hold a replica of this segment, in its order."""
        return [backup for backup in self.master.backups(segment, self.options) if self.replica(backup, segment)]

    def waited(self):
        """The store without what waits and has no replica left."""
        waiting = tuple(it for it in self.master.waiting if self.holders(it))
        return replace(self, master=replace(self.master, waiting=waiting))

    def one_free(self, goes_on=True):
        if self.fleet.left == 0:
            yield self.stopped()
            return None
        home = self.next_free()
        fleet = self.fleet.freed(self.replica(home, self.master.waiting[0]))
        if self.fleet.due == 1:
            return (yield from self.lost(home, fleet, goes_on))
        return replace(self, fleet=fleet).waited()

    def stopped(self):
        """What a line prints if the fleet takes no more ops, and the store then."""
        return "stopped\n", 0, replace(self, master=None, fleet=replace(self.fleet, left=NO_LIMIT))

    def halted(self, taken):
        """What a line prints if its take ends in a fault, and the store then. If the op is taken, the fleet is `taken`."""
        master = replace(self.master, is_halted=True, counted=self.fleet)
        return "refused Halted\n", 0, replace(self, master=master, fleet=self.fleet.faulted(taken))

    def lost(self, backup, taken, goes_on):
        """What a take does that ends in a fault of this backup. If the op is taken, the fleet is `taken`."""
        if not self.master.may_lose(self.options):
            yield self.halted(taken)
            return None
        is_first = self.master.is_rolling and len(self.master.segments) == 1
        master = self.master.without(backup, 0 if is_first else self.durable())
        store = replace(self, master=master, fleet=self.fleet.faulted(taken)).waited()
        if goes_on:
            return store
        yield f"refused Lost {backup}\n", 0, store
        return None

    def begun(self):
        if not self.master.is_working():
            yield "refused Rolling\n", 0, self
        elif not self.master.may_roll(self.options, 2):
            yield "refused Full\n", 0, self
        else:
            yield REFUSED, 1, self
            return replace(self, master=self.master.rolling(self.master.is_ready(self.options)))
        return None

    def rolled(self):
        """Begins a roll if the head is open, and pushes until it is open and no failover is."""
        store = self if not self.master.is_working() else (yield from self.begun())
        while store and not store.master.is_working():
            store = yield from store.one_push()
        return store

    def one_push(self, goes_on=True):
        is_turn = self.is_turn()
        if is_turn and not self.master.failover.is_first and not self.master.has_room(self.options):
            yield "refused Halted\n", 0, replace(self, master=replace(self.master, is_halted=True))
            return None
        if self.fleet.left == 0:
            yield self.stopped()
            return None
        yield REFUSED, 1, self
        if self.fleet.due != 1:
            return self.pushed()[1]
        taken, (_, what) = self.pushed()[1].fleet, self.next_op()
        if is_turn:
            # The first Open may have been taken, so the new head has its id.
            yield replace(self, master=self.master.turned(self.options)).halted(self.fleet.faulted(taken))
            return None
        return (yield from self.lost(what.backup if isinstance(what, Holding) else None, taken, goes_on))

    # Pushes.

    def homes(self, segment):
        """The backups of a segment's replicas."""
        return self.master.homes(segment, self.options)

    def replica(self, backup, segment):
        """The master's replica of a segment on this backup, or None."""
        return self.fleet.replica(backup, self.master.number, segment)

    def next_op(self):
        """What the next push hands to which backup: the act, and the replica then. For a raise it is the head's id. None if
        nothing waits."""
        if self.master.failover:
            return self.next_mend()
        log, opening = self.master.log(), self.master.segments[-1]
        head = log[-1]
        if (head is not opening or not self.master.is_rolling) and self.next_extend(head):
            return self.next_extend(head)
        if not self.master.is_rolling:
            return None
        return self.next_open(opening) or self.next_close(head)

    def next_extend(self, head):
        """The Extend of the replica of this head that lacks the most, or None."""
        held = [replica for backup in self.homes(head.id) if (replica := self.replica(backup, head.id))]
        lagging = [replica for replica in held if len(replica.text) < len(head.text)]
        return ("extend", replace(min(lagging, key=lambda it: len(it.text)), text=head.text)) if lagging else None

    def next_open(self, head):
        """The Open of a replica of this head, with all that it has, or None."""
        homes = (backup for backup in self.homes(head.id) if not self.replica(backup, head.id))
        return next((("open", Holding(backup, self.master.number, head.id, head.text, True)) for backup in homes), None)

    def next_close(self, head):
        """The Close of a replica of this head, or None."""
        held = (self.replica(backup, head.id) for backup in self.homes(head.id))
        return next((("close", replace(replica, is_open=False)) for replica in held if replica.is_open), None)

    def next_repair(self):
        """The Seal of a lost replica of a closed segment of the log, or None."""
        lost = ((it, backup) for it in self.master.log()[:-1] for backup in self.homes(it.id) if not self.replica(backup, it.id))
        return next((("repair", Holding(backup, self.master.number, it.id, it.text, False)) for it, backup in lost), None)

    def next_mend(self):
        """What the next push of a failover does."""
        master, head, part = self.master, self.master.log()[-1], self.master.failover.part
        if part == "mends":
            new = master.turned(self.options).segments[-1]
            op = None if master.failover.is_first else self.next_extend(head) or self.next_open(head)
            return op or self.next_open(new)
        if part == "opens":
            new = master.segments[-1]
            return self.next_open(new) or ("raise", new.id)
        return self.next_close(head) if part == "closes" else self.next_repair()

    def is_turn(self):
        """Whether the next push is the first Open of a failover's new head."""
        failover = self.master.failover
        return bool(failover) and failover.part == "mends" and self.next_op()[1].segment == self.master.next

    def pushed(self):
        """What a push prints, and the store after it."""
        act, what = self.next_op()
        if act == "raise":
            fleet = self.fleet.raised(self.master.number, what)
            is_first = self.master.failover.is_first
            master = replace(self.master, failover=None, is_rolling=False) if is_first else self.master.in_part("closes")
            return f"raise {what}", replace(self, fleet=fleet, master=master)
        store = replace(self, fleet=self.fleet.took(what))
        if self.master.failover:
            store = store.mended_by(self.is_turn())
        elif self.master.is_rolling:
            old, new = self.master.log()[-1], self.master.segments[-1]
            if not store.next_open(new) and (old is new or not store.next_close(old)):
                store = replace(store, master=self.master.rolled()).waited()
        return f"{act} {what.backup} {what.segment}", store

    def mended_by(self, is_turn):
        """The store after an op of a failover, with the part that comes next."""
        store = self
        if is_turn:
            store = replace(store, master=store.master.turned(store.options))
        if store.master.failover.part == "closes" and not store.next_close(store.master.log()[-1]):
            store = replace(store, master=store.master.rolled().in_part("repairs")).waited()
        if store.master.failover.part == "repairs" and not store.next_repair():
            store = replace(store, master=replace(store.master, failover=None))
        return store

    def durable(self):
        """How many records each replica of the log has."""
        if self.master.failover:
            return self.master.failover.frozen
        head = self.master.log()[-1]
        length = min(len(self.replica(backup, head.id).text) for backup in self.homes(head.id))
        return next((record for record, end in head.units if end > length), self.master.records)

    # Lines that change nothing, and those about what is left.

    def line_log(self):
        yield REFUSED, 1, self
        yield f"log{ids_text(self.master.log())}\n", 0, self

    def line_room(self):
        used = self.master.used(self.options)
        yield f"used {used} free {self.options.seglets - used}\n", 0, self

    def line_segments(self):
        yield REFUSED, 1, self
        master = self.master
        counted = replace(self, fleet=master.counted) if master.counted else self
        images = sorted((*master.segments, *master.survivors()), key=lambda it: it.id)
        lines = [f"{it.id} {master.role(it.id)} {len(it.text)} {master.kept_in(it)} {len(counted.holders(it.id))}\n" for it in images]
        lines += [f"{id_} waiting 0 0 {len(counted.holders(id_))}\n" for id_ in master.waiting]
        yield "".join(lines), 0, self

    def line_list(self, table):
        yield REFUSED, 1, self
        raw, live = self.options.raw, self.master.live
        rows = [f"{table} {shown(key, raw)} {live[owner, key].version} {shown(live[owner, key].value, raw)}\n"
                for owner, key in sorted(live) if owner == table]
        yield "".join(rows) + f"listed {len(rows)}\n", 0, self

    def line_live(self):
        limit = "none" if self.options.live == NO_LIMIT else self.options.live
        yield f"live {self.master.live_bytes()} {limit}\n", 0, self

    def line_hex(self, segment):
        image = next((it for it in (*self.master.segments, *self.master.survivors()) if it.id == segment), None)
        if not image:
            yield f"refused NotInLog {segment}\n", 0, self
            return
        yield REFUSED, 1, self
        yield f"{image.text.hex()}\n", 0, self

    def line_will(self):
        yield REFUSED, 1, self
        tables = range(1, self.options.tables + 1)
        parts, count = make_will(tables, self.master.sizes(), self.options.bytes, self.options.objects)
        lines = [f"{table} {first:016x} {last:016x} {partition}\n" for table, first, last, partition in parts]
        yield "".join(lines) + f"partitions {count}\n", 0, self

    def line_holdings(self):
        yield REFUSED, 1, self
        lines = [
            f"{it.backup} {it.master} {it.segment} {len(it.text)} {'open' if it.is_open else 'closed'}\n"
            for it in self.fleet.holdings
        ]
        yield "".join(lines), 0, self

    def line_stop(self, takes):
        yield f"stop {takes}\n", 0, replace(self, fleet=replace(self.fleet, left=takes))

    def line_fault(self, takes, is_taken):
        fleet = replace(self.fleet, due=takes, is_taken=is_taken)
        yield f"fault {takes} {'taken' if is_taken else 'lost'}\n", 0, replace(self, fleet=fleet)

    def line_format(self, format_):
        yield f"format {format_}\n", 0, replace(self, later=replace(self.later, format=format_))

    def line_seglets(self, count):
        yield f"seglets {count}\n", 0, replace(self, later=replace(self.later, seglets=count))

    def line_crash(self):
        yield "crashed\n", 0, replace(self, master=None)

    def line_lose(self, backup):
        left = tuple(it for it in self.fleet.holdings if it.backup != backup)
        yield f"lost {backup}\n", 0, replace(self, fleet=replace(self.fleet, holdings=left))

    # Recoveries.

    def line_recover(self, *_order):
        for answer, refused, store in self.recovered():
            # If the recovery is refused, a master that was begun is dropped.
            yield answer, refused, replace(store, master=None) if answer.startswith("refused") else store

    def found(self):
        """The table that a recovery finds now, with its safe version. Yields how it is refused, and returns None then."""
        yield REFUSED, 1, self
        try:
            return rebuilt(plan(self.fleet.holdings, self.last, self.fleet.least(self.last)))
        except Refusal as refusal:
            yield f"refused {refusal}\n", 0, self
        return None

    def line_needs(self):
        found = yield from self.found()
        if found:
            yield f"needs {seglets_needed(found[0], self.later) or 'segments'}\n", 0, self

    def recovered(self):
        found = yield from self.found()
        if not found:
            return
        objects, safe = found
        store = yield from self.adopted(objects, safe)
        store = store and (yield from store.retired())
        if store:
            raw = self.options.raw
            lines = [f"{it.table} {shown(it.key, raw)} {it.version} {shown(it.value, raw)}\n" for it in objects]
            yield "".join(lines) + f"recovered {len(lines)}\n", 0, store

    def adopted(self, objects, safe):
        """Loads these objects into a new master, and pushes them."""
        number, options = self.greatest + 1, self.later
        store = replace(self, greatest=number, options=options, master=Master.new(number, safe, options.format))
        store = yield from store.all_pushed()
        for loaded in objects:
            refusal = store and store.master.load_refusal(loaded, options)
            if refusal == "Rolling":
                store = yield from store.rolled()
                refusal = store and store.master.load_refusal(loaded, options)
            if not store:
                return None
            if refusal:
                yield f"refused {refusal}\n", 0, store
                return None
            yield REFUSED, 1, store
            store = replace(store, master=store.master.loaded(loaded))
        store = store and (yield from store.all_pushed())
        return store and replace(store, master=store.master.finished(), last=number)

    def all_pushed(self):
        store = self
        while store and store.next_op():
            store = yield from store.one_push()
        return store

    def retired(self):
        """Frees the replicas of all other masters."""
        yield REFUSED, 1, self
        store = self
        for holding in self.fleet.holdings:
            if holding.master == self.master.number:
                continue
            if store.fleet.left == 0:
                yield store.stopped()
                return None
            fleet = store.fleet.freed(holding)
            if store.fleet.due == 1:
                yield store.halted(fleet)
                return None
            store = replace(store, fleet=fleet)
        return store


# Runs.

@dataclass(frozen=True)
class Run:
    """How a run of the program ended."""

    status: int
    output: str
    errors: str


def undisturbed(script, options):
    """How the run of a script ends if no memory is refused."""
    if config_fault(options):
        return Run(2, "", f"ramlog: bad configuration {config_fault(options)}\n")
    store, output, errors, status = Store.new(options), [], "", 0
    for place, parsed in enumerate(parsed_lines(script, options), 1):
        if parsed is None:
            status, errors = 2, errors + bad_line(place)
            continue
        before = store
        answer, store = before.answered(parsed)
        output.append(answer)
        if options.explain and before.may_have_made(parsed, store):
            errors += unsure_line(place)
    return Run(status, "".join(output), errors)


def explain(script, options, run, most):
    """How many refusals of memory explain this run of the script, with at most so many; None if nothing does."""
    found = []
    # Stores that fit the output so far, each with the length of that and the refusals that it takes.
    fitting = {(Store.new(options), 0, 0)}
    lines, errors = [*parsed_lines(script, options)], ""
    for place in range(len(lines) + 1):
        done = [refusals for _, length, refusals in fitting if length == len(run.output)]
        if run.status == 1 and run.errors == errors + NO_MEMORY and (place < len(lines) or not lines):
            # Memory ran out at the start, or for this line's own text or ids.
            found += [refusals + 1 for refusals in done if refusals < most]
        if place == len(lines):
            if (run.status, run.errors) == (2 if errors else 0, errors):
                found += done
            break
        parsed = lines[place]
        if parsed is None:
            errors += bad_line(place + 1)
            continue
        fitting = {
            (after, length + len(answer), refusals + refused)
            for store, length, refusals in fitting
            for answer, refused, after in store.outcomes(parsed)
            if refusals + refused <= most and run.output.startswith(answer, length)
        }
    return min(found) if found else None
