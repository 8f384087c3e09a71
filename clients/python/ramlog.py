"""A store of keys and values, which the program `ramlog` keeps in its memory.

This module runs the program, and speaks to it through two pipes. It is one file, and needs python3.8 or later on Linux.

    import ramlog

    with ramlog.Store() as store:
        first = store.new(b"a key", b"a value")         # the key has a version now
        store.cas(b"a key", b"the next one", first)     # puts if the version is still that one
        store.get(b"a key")                             # Object(version=2, value=b'the next one')
        store.crash()                                   # the master is gone, and its backups are left
        store.lose(1)                                   # one of them loses all that it held
        store.recover()                                 # the next master has all that was answered

Keys and values are bytes, whatever they are. A key has 1 to 1,024 bytes. A key of k and a value of v bytes have to fit a quarter of
a segment: `50 + 2k + v` is at most a quarter of the option `segment`. The table is gone once the program has ended.

A call that returns was done, and its record is durable: it survives a crash and the loss of fewer backups than a segment has replicas.
Any other call raises one of these:

    Mismatch    a conditional put was not done, since the key has another version; this answer is durable, too
    Refused     the call was not done, and nothing changed; its `number` says why
    Unsure      the call may have been done, or not; its `number` says why that isn't known. `recover` shows which
    Ended       the program has ended, or can't be spoken to any more
    TypeError   an argument has another type than the call takes

Threads may share a store: calls are made one after another. A process that was forked may not.
"""

import os
import select
import subprocess
import tempfile
import threading
from typing import Iterable, List, NamedTuple, Optional, Tuple

__all__ = ["Ended", "Entry", "Error", "Mismatch", "Object", "REFUSALS", "Refused", "Store", "Unsure", "USUAL"]

MOST_KEY, MOST_VALUE, MOST_NUMBER = 1024, 2097152, 2 ** 64 - 1

#: Each refusal's number, by its name, and what it says. Up to 14 they are those of `ramlog --help`; the others have no number there.
REFUSALS = {
    "Down": (0, "there is no master: recover makes one"),
    "TooBig": (1, "the key has no byte or more than 1,024, or key and value are too long for a quarter of a segment"),
    "Full": (2, "there is no room, even after cleaning; a next master may lack seglets"),
    "VersionsSpent": (3, "no version is left"),
    "HistoryFull": (4, "the history has as many records as its option says"),
    "NoMemory": (5, "the system gave no memory"),
    "Halted": (6, "a backup failed, and the master can't go on: crash and recover make another one"),
    "Rolling": (7, "a segment is being opened, or replicas are made anew"),
    "Nothing": (8, "there is nothing to push, to copy, to seal or to free"),
    "Spent": (10, "the backups take no more, and the master is gone: recover makes another one"),
    "SegmentsSpent": (11, "no number of a segment is left: crash and recover make another master"),
    "NoTablet": (12, "there is no such table"),
    "Lost": (13, "a backup failed, and its replicas are made anew"),
    "Overcommit": (14, "the put would pass the limit of live bytes"),
    "Up": (15, "there is a master: crash drops it"),
    "NoHead": (16, "the backups hold no replica of the newest segment"),
    "HeadTooOld": (17, "the newest segment that backups hold is older than the least that may be used"),
    "HeadClosed": (18, "the backups hold no open replica of the newest segment"),
    "Missing": (19, "the backups hold no whole replica of a segment of the log"),
    "BadReplica": (20, "a replica is of no segment that a master wrote"),
    "Clash": (21, "two objects of one key and version have different values"),
    "NumbersSpent": (22, "no number of a master is left"),
    "BadNumber": (23, "the program takes no such number"),
    "Other": (24, "this module doesn't know the name"),
}
#: A put or delete that the program refuses so may have been done.
MAYBE_DONE = ("NoMemory", "Halted", "Spent")

#: The options of a store for which none are given; `ramlog --help` says what they mean. The log has four megabytes of memory. Each of
#: three backups has all of it.
USUAL = {
    "backups": 3, "replicas": 3, "segment": 65536, "seglet": 4096, "seglets": 1024, "tables": 1, "format": 2, "tend": 32, "forget": True,
}


class Error(Exception):
    """What the calls of a store raise, but for a TypeError."""


class Mismatch(Error):
    """A conditional put was not done. `version` is the version that the key has, or None if it has no object."""

    def __init__(self, version: Optional[int]):
        super().__init__(f"the key has the version {version}" if version is not None else "the key has no object")
        self.version = version


class Refused(Error):
    """A call was refused, and nothing changed. `number` and `name` are those of `REFUSALS`, and `numbers` what the program said of
    them: the segment that is missing, for example."""

    def __init__(self, name: str, numbers: Tuple[int, ...] = (), why: str = ""):
        self.name, self.numbers = name, numbers
        self.number, usual = REFUSALS.get(name, REFUSALS["Other"])
        super().__init__(" ".join(map(str, (self.number, name, *numbers))) + f": {why or usual}")


class Unsure(Refused):
    """A put or a delete may have been done, or not. `crash`, if there is a master still, and `recover` show which."""


class Ended(Error):
    """The program has ended, or what it says can't be understood. `status` is its exit status, or None, and `text` what it wrote to
    its standard error."""

    def __init__(self, why: str, status: Optional[int] = None, text: str = ""):
        super().__init__(f"{why} (status {status}): {text.strip()}" if text or status is not None else why)
        self.status, self.text = status, text


class Object(NamedTuple):
    """What a key has: a version and a value."""
    version: int
    value: bytes


class Entry(NamedTuple):
    """A key of a table, and what it has."""
    table: int
    key: bytes
    version: int
    value: bytes


# ---- words of lines

#: The option under which keys and values are written so, and go both ways.
_OPTION = "--raw"


def _written(word: bytes) -> bytes:
    """A key or a value as a line has it."""
    return b"%d:%b" % (len(word), word)


def _read(text: bytes, at: int) -> Optional[Tuple[bytes, int]]:
    """The key or value that begins at a place of the output, and the place behind it. None if its end hasn't come."""
    length = _read_number(text, at, b":")
    if length is None or length[1] + length[0] > len(text):
        return None
    end = length[1] + length[0]
    return bytes(text[length[1]:end]), end


def _read_number(text: bytes, at: int, mark: bytes) -> Optional[Tuple[int, int]]:
    """The number that begins at a place of the output, and the place behind the mark that ends it. None if that hasn't come."""
    end = text.find(mark, at, at + 21)
    digits = bytes(text[at:end if end >= 0 else at + 21])
    if not (digits.isdigit() or end < 0 and not digits) or len(digits) > 20:
        raise ValueError(f"the program answers no number: {digits!r}")
    return (int(digits), end + 1) if end >= 0 else None


# ---- arguments

def _number(number: int, name: str = "BadNumber", least: int = 0, most: int = MOST_NUMBER) -> int:
    """The number, if the program takes it."""
    if not isinstance(number, int) or isinstance(number, bool):
        raise TypeError(f"a number is an int, and no {type(number).__name__}")
    if not least <= number <= most:
        raise Refused(name, (), f"the number is {number}, and has to be from {least} to {most}")
    return number


def _bytes(word: bytes, what: str, least: int, most: int) -> bytes:
    """The key or value, if it has as many bytes as it may."""
    if not isinstance(word, (bytes, bytearray, memoryview)):
        raise TypeError(f"a {what} is bytes, and no {type(word).__name__}")
    word = bytes(word)
    if not least <= len(word) <= most:
        raise Refused("TooBig", (), f"the {what} has {len(word):,} bytes, and has to have from {least} to {most:,}")
    return word


def _line(name: bytes, table: int, key: bytes, *words: bytes) -> bytes:
    """The line of a command."""
    parts = [name, b"%d" % _number(table, "NoTablet"), _written(_bytes(key, "key", 1, MOST_KEY)), *words]
    return b" ".join(parts) + b"\n"


def _value(value: bytes) -> bytes:
    return _written(_bytes(value, "value", 0, MOST_VALUE))


# ---- answers

def _refusal(line: bytes, is_write: bool) -> Refused:
    """What a line that is no reply raises."""
    words = ["refused", "Spent"] if line == b"stopped" else line.decode("ascii", "replace").split(" ")
    known = len(words) > 1 and words[0] == "refused" and words[1][:1].isupper() and all(word.isdigit() for word in words[2:])
    if not known:
        raise ValueError(f"no answer to this line: {line[:80]!r}")
    kind = Unsure if is_write and words[1] in MAYBE_DONE else Refused
    return kind(words[1], tuple(map(int, words[2:])))


class _Answers:
    """Reads answers out of what the program has written so far. Each method gives None if the end of the answer hasn't come, and then
    leaves it there."""

    def __init__(self):
        self.text, self.at, self.entries = bytearray(), 0, []

    def add(self, part: bytes) -> None:
        del self.text[:self.at]
        self.text += part
        self.at = 0

    def line(self):
        """The rest of a line that has no key and no value."""
        end = self.text.find(b"\n", self.at)
        if end < 0:
            return None
        line, self.at = bytes(self.text[self.at:end]), end + 1
        return line

    def ends_at(self, end: int) -> bool:
        """Whether the line feed has come that ends the line here. Then the line is taken."""
        if end == len(self.text):
            return False
        if self.text[end:end + 1] != b"\n":
            raise ValueError(f"the program answers a longer line: {bytes(self.text[end:end + 20])!r}")
        self.at = end + 1
        return True

    def word(self):
        """A line that has no key and no value, or the exception that stands for it."""
        line = self.line()
        return _refusal(line, False) if line is not None and line.startswith((b"refused", b"stopped")) else line

    def version(self):
        """A version, False if there is none, or the exception that stands for the answer."""
        line = self.line()
        if line is None:
            return None
        if line.startswith(b"ok "):
            return int(line[3:])
        if line == b"none":
            return False
        if line.startswith(b"mismatch "):
            return Mismatch(None if line == b"mismatch none" else int(line[9:]))
        return _refusal(line, True)

    def object(self):
        """An object, False if there is none, or the exception that stands for the answer."""
        if not self.text[self.at:self.at + 1].isdigit():
            line = self.line()
            return line if line is None else False if line == b"none" else _refusal(line, False)
        version = _read_number(self.text, self.at, b" ")
        value = _read(self.text, version[1]) if version else None
        if value is None or not self.ends_at(value[1]):
            return None
        return Object(version[0], value[0])

    def entry(self):
        """A line of a table, or another line."""
        if not self.text[self.at:self.at + 1].isdigit():
            return self.line()
        table = _read_number(self.text, self.at, b" ")
        key = _read(self.text, table[1]) if table else None
        version = _read_number(self.text, key[1] + 1, b" ") if key else None
        value = _read(self.text, version[1]) if version else None
        if value is None or not self.ends_at(value[1]):
            return None
        return Entry(table[0], key[0], version[0], value[0])

    def table(self):
        """The lines of a table, or the exception that stands for the answer."""
        while True:
            it = self.entry()
            if not isinstance(it, bytes):
                if it is None:
                    return None
                self.entries.append(it)
                continue
            entries, self.entries = self.entries, []
            if it.startswith((b"recovered ", b"listed ")) and int(it.split(b" ")[1]) == len(entries):
                return entries
            return _refusal(it, False)


# ---- the store

def program_here() -> str:
    """The program that a store runs if none is named: the one that $RAMLOG names, the one that is built in the repository of this
    file, or `ramlog` on the path."""
    top = os.path.dirname(os.path.dirname(os.path.dirname(os.path.abspath(__file__))))
    built = os.path.join(top, "crates", "ramlog", "out", "ramlog")
    return os.environ.get("RAMLOG") or (built if os.access(built, os.X_OK) else "ramlog")


class Store:
    """A table, or several, that a program of its own keeps. Each method but `close` raises `Ended` if the program has ended."""

    def __init__(self, program: Optional[str] = None, **options):
        """Runs the program. `options` are those of `ramlog --help`, such as `segment=65536`; a flag is True or False. Those that are
        left out are those of `USUAL`.

        Raises `Ended` with the program's own words if it doesn't take the options, and an OSError if there is no such program."""
        words = [program or program_here(), _OPTION, "--explain"]
        for name, value in {**USUAL, **options}.items():
            if value is not None and value is not False:
                words.append(f"--{name}" if value is True else f"--{name}={value}")
        self.options = {"backups": 3, "segment": 512, "seglet": 64, "seglets": 64, **USUAL, **options}
        self._answers, self._lock = _Answers(), threading.Lock()
        # Why no call can be made any more.
        self._why: Optional[str] = None
        # A pipe that nobody reads would fill up, and a file doesn't.
        self._errors = tempfile.TemporaryFile()
        try:
            self._process = subprocess.Popen(words, bufsize=0, stdin=subprocess.PIPE, stdout=subprocess.PIPE, stderr=self._errors)
        except BaseException as error:
            self._errors.close()
            if isinstance(error, FileNotFoundError):
                error.strerror = "no such program ($RAMLOG may name it, and bin/ramlog --prove builds it)"
            raise
        self._into, self._out = self._process.stdin.fileno(), self._process.stdout.fileno()
        os.set_blocking(self._into, False)
        try:
            self.room()
        except BaseException:
            self.close()
            raise

    def __enter__(self) -> "Store":
        return self

    def __exit__(self, *_) -> None:
        self.close()

    def close(self) -> int:
        """Ends the program, with all that it keeps. Gives its exit status, which is 0 if all went well. A store may be closed again."""
        with self._lock:
            self._why = self._why or "the store is closed"
            self._process.stdin.close()
            self._process.stdout.close()
            status = self._process.wait()
            self._errors.close()
            return status

    # Commands.

    def put(self, key: bytes, value: bytes, table: int = 1) -> int:
        """Puts a value under a key. Gives the new version, which is above all that the key had.

        Raises `Refused` (1 TooBig, 2 Full, 12 NoTablet, 14 Overcommit and others) and `Unsure`."""
        return self._one(_line(b"put", table, key, _value(value)))

    def new(self, key: bytes, value: bytes, table: int = 1) -> int:
        """Puts a value under a key that has no object. Gives the new version.

        Raises `Mismatch` with the version of the key if it has an object, and what `put` raises."""
        return self._one(_line(b"new", table, key, _value(value)))

    def cas(self, key: bytes, value: bytes, version: int, table: int = 1) -> int:
        """Puts a value under a key that has this version. Gives the new version.

        Raises `Mismatch` with the version of the key, or None, if it has another one, and what `put` raises."""
        return self._one(_line(b"cas", table, key, b"%d" % _number(version), _value(value)))

    def get(self, key: bytes, table: int = 1) -> Optional[Object]:
        """The object of a key, or None if it has none. What is seen is durable: no later recovery takes it back.

        Raises `Refused`."""
        return self._all([_line(b"get", table, key)], _Answers.object)[0] or None

    def delete(self, key: bytes, table: int = 1) -> Optional[int]:
        """Deletes the object of a key. Gives the version that it had, or None if there was none.

        Raises `Refused` and `Unsure`."""
        return self._one(_line(b"del", table, key)) or None

    def put_many(self, pairs: Iterable[Tuple[bytes, bytes]], table: int = 1) -> List:
        """Puts each of these values under its key, one after another, as `put` does, but without waiting for each answer. Gives a list
        of the versions. In the place of the version of a put that was refused stands its `Refused` or `Unsure`.

        Raises a `Refused` before anything is put if a key or a value is too long for any store."""
        return self._all([_line(b"put", table, key, _value(value)) for key, value in pairs], _Answers.version, False)

    def get_many(self, keys: Iterable[bytes], table: int = 1) -> List:
        """Gets each of these keys, one after another, as `get` does, but without waiting for each answer. Gives a list of their objects,
        None for a key without one, and a `Refused` in the place of one that was refused."""
        found = self._all([_line(b"get", table, key) for key in keys], _Answers.object, False)
        return [None if it is False else it for it in found]

    def list(self, table: int = 1) -> List[Entry]:
        """All objects of a table, in the order of their keys' bytes. A table that isn't there has none. Unlike what `get` sees, an object
        need not be durable: one that a call put which was `Unsure` may be among them.

        Raises `Refused` (0 Down if there is no master, 5 NoMemory)."""
        return self._all([b"list %d\n" % _number(table, "NoTablet")], _Answers.table)[0]

    # Upkeep.

    def settle(self) -> None:
        """Hands the backups all that they don't have yet. Then all that was done is durable, what was unsure too.

        Raises `Refused` if a backup can't take it, or if there is no master."""
        while True:
            try:
                self._word(b"push\n")
            except Refused as refused:
                if refused.name == "Nothing":
                    return
                if refused.name != "Lost":
                    raise

    def tend(self, steps: int) -> int:
        """Makes up to so many steps of the cleaner (1 to 65,536). Gives how many it made. Each put and delete makes up to 32 behind it
        anyway, by the option `tend`.

        Raises `Refused`."""
        return int(self._word(b"tend %d\n" % _number(steps, "BadNumber", 1, 65536))[7:])

    def room(self) -> Tuple[int, int]:
        """How many seglets of the log's memory are used, and how many are free.

        Raises `Refused`."""
        words = self._word(b"room\n").split(b" ")
        return int(words[1]), int(words[3])

    def live(self) -> Tuple[int, Optional[int]]:
        """The bytes of the live objects, each 23 and those of its key and its value; and their limit, or None.

        Raises `Refused`."""
        words = self._word(b"live\n").split(b" ")
        return int(words[1]), None if words[2] == b"none" else int(words[2])

    # Crash and recovery.

    def crash(self) -> None:
        """Drops the master, as if its process had ended. Its backups keep what they hold. Raises `Refused` (0 Down) if there is none."""
        self._word(b"crash\n")

    def lose(self, backup: int) -> None:
        """Makes a backup of a store without a master lose all that it holds. Backups count from 0. Raises `Refused` (15 Up) if there is
        a master, and 23 BadNumber if there is no such backup."""
        self._word(b"lose %d\n" % _number(backup, "BadNumber", 0, self.options["backups"] - 1))

    def recover(self, threads: Optional[int] = None) -> List[Entry]:
        """Rebuilds the table from what the backups hold, and makes the next master of it. Gives all objects of all tables, in order. So
        many threads (1 to 64) of the program rebuild it, or one.

        Raises `Refused`: 15 Up if there is a master; 16 NoHead to 19 Missing if what is lost leaves no table; 2 Full if a next master
        has too little memory, and `set_seglets` gives it more; 5 NoMemory, 6 Halted or 10 Spent if it may be tried again. Then the
        store stays without a master."""
        word = b"" if threads is None else b" threads %d" % _number(threads, "BadNumber", 1, 64)
        return self._all([b"recover%b\n" % word], _Answers.table)[0]

    def seglets_needed(self) -> Optional[int]:
        """How many seglets a next master needs for the table that a recovery would find now; None if no number is enough.

        Raises `Refused`: what `recover` would raise."""
        needs = self._word(b"needs\n")[6:]
        return None if needs == b"segments" else int(needs)

    def set_seglets(self, seglets: int) -> None:
        """Lets masters that start later have so many seglets: at least those of four segments, and at most 4,294,967,296. With a limit of
        live bytes they may not have fewer than the first one.

        Raises `Refused` (23 BadNumber) if that is out of range."""
        it = self.options
        least = it["seglets"] if it.get("live") is not None else 4 * it["segment"] // it["seglet"]
        self._word(b"seglets %d\n" % _number(seglets, "BadNumber", least, 2 ** 32))

    # For tests of programs.

    def stop(self, takes: int) -> None:
        """Lets the backups take so many more pieces of the log, and then no more: the call that would hand over one more is `Unsure`
        (10 Spent), and the master is gone."""
        self._word(b"stop %d\n" % _number(takes))

    def fault(self, take: int, taken: bool) -> None:
        """Has the backup fail that gets this piece of the log, counted from 1, though it took it, or having taken nothing of it."""
        self._word(b"fault %d %b\n" % (_number(take, "BadNumber", 1), b"taken" if taken else b"lost"))

    # Lines and answers.

    def _one(self, line: bytes) -> int:
        """The version that a put or a delete answers."""
        return self._all([line], _Answers.version)[0]

    def _word(self, line: bytes) -> bytes:
        """The answer to a line that has no key and no value."""
        return self._all([line], _Answers.word)[0]

    def _all(self, lines: List[bytes], read, raises: bool = True) -> List:
        """Makes the program run these lines, and gives the answers to them. If one is refused, it is raised, or stands in the list."""
        with self._lock:
            if self._why is not None:
                raise Ended(self._why)
            # A call that is cut off, as by control-C, leaves a part of a line in a pipe.
            self._why = "an earlier call was cut off, so answers can't be told apart any more"
            try:
                answers = self._talk(b"".join(lines), read, len(lines))
            except (ValueError, OSError, EOFError) as fault:
                raise self._ended(fault) from None
            self._why = None
        for answer in answers if raises else ():
            if isinstance(answer, Error):
                raise answer
        return answers

    def _talk(self, text: bytes, read, count: int) -> List:
        """Writes a text, and reads so many answers. While the program doesn't read, its answers are read: so it never waits for this
        side while this side waits for it."""
        answers, found = self._answers, []
        sent = self._write(text)
        if sent < len(text):
            left, both = memoryview(text)[sent:], select.poll()
            both.register(self._into, select.POLLOUT)
            both.register(self._out, select.POLLIN)
            while left:
                for pipe, event in both.poll():
                    if pipe == self._into:
                        left = left[self._write(left):]
                    else:
                        answers.add(self._read())
                        found += iter(lambda: read(answers), None)
        while len(found) < count:
            answer = read(answers)
            if answer is None:
                answers.add(self._read())
            else:
                found.append(answer)
        return found

    def _write(self, text) -> int:
        try:
            return os.write(self._into, text)
        except BlockingIOError:
            return 0

    def _read(self) -> bytes:
        part = os.read(self._out, 65536)
        if not part:
            raise EOFError("the program has ended")
        return part

    def _ended(self, fault: Exception) -> Ended:
        """What is raised once the program can't be spoken to any more."""
        if isinstance(fault, ValueError):
            self._why = str(fault)
            return Ended(self._why)
        self._why, status = "the program has ended", self._process.wait()
        self._errors.seek(0)
        return Ended(self._why, status, self._errors.read().decode("utf-8", "replace"))
