"""A disk that is told what a process did to the files of a folder, and gives the folders that a crash may leave.

What a crash may leave is the premise of docs/SPECIFICATION.md ('The disk'), and no more:

- A file that was made is there or not, until the process has synced the folder and then the file.
- A write that no sync settled may have changed nothing, all of its range or parts of it. It may have left any bytes there. Nothing
  changes outside of its range, but that the file may have become longer.
- A cut that no sync settled may have cut nothing, all of what it should or a part of that.
- Each such write or cut counts or doesn't by itself, whatever became of those before it.
- A file that was removed may be there still, until the folder is synced. (The premise says nothing of this.)
- A sync of a file settles what a read returns, if the process synced the folder after it opened the file, and no call on the file
  failed since then.
"""

import copy
from dataclasses import dataclass, field

# A disk may write sectors of this length.
SECTOR = 512


@dataclass(frozen=True)
class Note:
    """A call that was noted (support/note_calls.c), with the bytes of a write."""

    kind: str
    name: str
    numbers: tuple = ()
    data: bytes = b""

    def __str__(self):
        return " ".join([self.kind, *([self.name] if self.name else []), *map(str, self.numbers)])


def notes_of(text):
    """The notes of a file."""
    at = 0
    while at < len(text):
        end = text.index(b"\n", at)
        kind, *words = text[at:end].decode().split(" ")
        name = words.pop(0) if kind != "print" else ""
        numbers, at = tuple(map(int, words)), end + 1
        data = text[at:at + numbers[1]] if kind == "write" else b""
        at += len(data)
        yield Note(kind, name, numbers, data)


@dataclass(frozen=True)
class Write:
    """Bytes that were to be written at a place. The system took so many of them."""

    at: int
    data: bytes
    taken: int

    def done(self, old):
        return self.overwrite(old, self.data[:self.taken])

    def overwrite(self, old, data):
        """The file with these bytes from the place on. An earlier write has the range of what is missing before it."""
        if not data:
            return old
        return old[:self.at].ljust(self.at, b"\0") + data + old[self.at + len(data):]

    def torn(self, dice, old):
        """The file with some of the bytes, or with any."""
        data, how = self.data, dice.choice(["none", "all", "front", "front", "sectors", "filled", "filled", "any", "any"])
        if how == "none":
            return old
        if how == "all":
            return self.overwrite(old, data)
        if how == "front":
            return self.overwrite(old, data[:dice.randint(0, len(data))])
        if how == "filled":
            return self.overwrite(old, bytes([dice.choice([0, 1, 255])]) * dice.randint(1, len(data)))
        if how == "any":
            front = dice.choice([0, dice.randint(0, len(data))])
            return self.overwrite(old, data[:front] + dice.randbytes(dice.randint(0, len(data) - front)))
        # Sectors of the whole file: each is written or isn't.
        new = self.overwrite(old, data)
        before = old.ljust(len(new), b"\0")
        parts = (dice.choice([before, new])[at:at + SECTOR] for at in range(0, len(new), SECTOR))
        return b"".join(parts)[:dice.choice([len(new), max(len(old), dice.randint(0, len(new)))])]


@dataclass(frozen=True)
class Cut:
    """The file was to be cut to this length. The system did so, or it failed."""

    length: int
    is_done: bool

    def done(self, old):
        return old[:self.length] if self.is_done else old

    def torn(self, dice, old):
        return old[:dice.choice([self.length, max(self.length, len(old)), dice.randint(self.length, max(self.length, len(old)))])]


@dataclass
class File:
    # What is on the disk for certain, and what was done since.
    settled: bytes = b""
    changes: list = field(default_factory=list)
    # Whether its name is on the disk for certain.
    is_lasting: bool = False
    # Whether this process synced the folder after it opened the file, and whether a call on it failed since then.
    is_named: bool = False
    has_failed: bool = False

    def contents(self):
        """What a read returns."""
        data = self.settled
        for change in self.changes:
            data = change.done(data)
        return data

    def torn(self, dice):
        """What a crash may leave, or None for no file."""
        if not self.is_lasting and dice.random() < 0.5:
            return None
        data = self.settled
        for change in self.changes:
            data = change.torn(dice, data)
        return data

    def sync(self):
        if self.is_named and not self.has_failed:
            self.settled, self.changes, self.is_lasting = self.contents(), [], True


class Disk:
    """The files of a folder, by their names."""

    def __init__(self, folder=()):
        """A disk that surely has these files: the bytes of each name."""
        self.files = {name: File(settled=data, is_lasting=True) for name, data in dict(folder).items()}
        # Files whose removal the disk may not have.
        self.removed = {}

    def copy(self):
        return copy.deepcopy(self)

    def take(self, note):
        """A call was made."""
        if note.kind == "make":
            self.files[note.name] = File()
        elif note.kind == "find":
            file = self.files[note.name]
            file.is_named = file.has_failed = False
        elif note.kind == "remove":
            self.removed[note.name] = self.files.pop(note.name)
        elif note.kind == "sync" and note.name == ".":
            self.sync_folder(note.numbers[0])
        elif note.kind in ("write", "cut", "sync"):
            self.change(self.files[note.name], note)

    def sync_folder(self, answer):
        if answer == 0:
            self.removed = {}
        for file in self.files.values():
            file.is_named = file.is_named or answer == 0

    def change(self, file, note):
        answer = note.numbers[-1]
        if note.kind == "write":
            file.changes.append(Write(note.numbers[0], note.data, max(answer, 0)))
        elif note.kind == "cut":
            file.changes.append(Cut(note.numbers[0], answer == 0))
        elif answer == 0:
            file.sync()
        file.has_failed = file.has_failed or answer < 0

    def unsettled(self):
        """How many calls no sync has settled. If it is none, a crash leaves one folder only."""
        return len(self.removed) + sum(len(file.changes) + (not file.is_lasting) for file in self.files.values())

    def contents(self):
        """What the next process reads if this one is killed, and the system goes on."""
        return {name: file.contents() for name, file in self.files.items()}

    def bare(self):
        """What a crash leaves that settles nothing more. A file that was removed is there still."""
        kept = {name: file.contents() for name, file in self.removed.items()}
        return kept | {name: file.settled for name, file in self.files.items() if file.is_lasting}

    def torn(self, dice):
        """Another folder that a crash may leave."""
        left = {name: file.torn(dice) for name, file in self.removed.items() if dice.random() < 0.5}
        for name, file in self.files.items():
            data = file.torn(dice)
            if data is not None:
                left[name] = data
        return {name: data for name, data in left.items() if data is not None}
