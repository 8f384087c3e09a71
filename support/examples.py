"""The worked scripts of examples/, each with what it should print. bin/examples --help says how they are written."""

import glob
import os
from dataclasses import dataclass, replace

TOP = os.path.dirname(os.path.dirname(os.path.abspath(__file__)))
FOLDER = f"{TOP}/examples"
LONG = "x" * 76


@dataclass(frozen=True)
class Example:
    """A run of the program, and how it should end."""

    name: str
    words: tuple = ()
    script: bytes = b""
    output: bytes = b""
    errors: bytes = b""
    status: int = 0


def read(path, otherwise=b""):
    if not os.path.exists(path):
        return otherwise
    with open(path, "rb") as file:
        return file.read()


def from_files(path):
    """The example of a file NAME.txt and of the files beside it."""
    base = path[:-len(".txt")]
    words = tuple(read(f"{base}.args").decode().split("\n")[:-1])
    return Example(os.path.basename(path), words, read(path), read(f"{base}.out"), read(f"{base}.err"),
                   int(read(f"{base}.status", b"0")))


def repeated(part):
    """The lines of a part of a row: N of them if it is `N * LINE`."""
    count, star, line = part.partition(" * ")
    return int(count) * [line] if star and count.isdigit() else [part]


def lines_of(row):
    """The lines that a row joins by ` / `. An X stands for 76 letters x, and `N * LINE` for N such lines."""
    return "".join(f"{line}\n" for part in row.replace("X", LONG).split(" / ") for line in repeated(part)).encode()


def from_row(name, lines):
    """The example of a row: its lines, each of which begins with a mark that says what it is."""
    row = Example(name)
    for line in lines:
        mark, _, text = line.partition(" ")
        if mark == "$":
            row = replace(row, words=(*row.words, *text.split(" ")))
        elif mark == "<":
            row = replace(row, script=row.script + lines_of(text))
        elif mark == ">":
            row = replace(row, output=row.output + lines_of(text))
        elif mark == "!":
            row = replace(row, errors=row.errors + lines_of(text))
        elif mark == "=":
            row = replace(row, status=int(text))
        elif mark != "#":
            raise ValueError(f"examples/{name}: a line begins with {mark}")
    return row


def from_rows(path):
    """The examples of a file NAME.rows. Each is named by the line at which it begins."""
    name, rows, begin, lines = os.path.basename(path), [], 1, []
    for number, line in enumerate([*read(path).decode().split("\n"), ""], 1):
        if line:
            lines.append(line)
            continue
        if any(not it.startswith("#") for it in lines):
            rows.append(from_row(f"{name}:{begin}", lines))
        begin, lines = number + 1, []
    return rows


def examples(names=()):
    """The examples of these files, named without their ending; all of them without a name."""
    found = []
    for path in sorted(glob.glob(f"{FOLDER}/*.txt") + glob.glob(f"{FOLDER}/*.rows")):
        if not names or os.path.splitext(os.path.basename(path))[0] in names:
            found += [from_files(path)] if path.endswith(".txt") else from_rows(path)
    return found
