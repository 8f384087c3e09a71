#!/usr/bin/env python3
"""Counts what has to be read to understand a definition of the specifications, and holds the headline to a limit.

  support/definitions_below.py                       counts below the headline; the gate, bin/test, runs it so
  support/definitions_below.py --list                the same, and lists them, the nearest first
  support/definitions_below.py CRATE FILE NAME       counts and lists below a definition of crates/CRATE/specs/FILE.antt

It counts the definition itself, those that it names, and so on: the abbreviations, records, data types and functions of
crates/*/specs. The library's, and the types that Rust sources declare, aren't counted. Alone it ends with the line 'N counts, M
failed', and with status 1 if the headline stands on more than 80 definitions.
"""

import re
import sys
from pathlib import Path

CRATES = Path(__file__).resolve().parent.parent / "crates"
HEADLINE, MOST = ("recovery", "Headline", "Headline"), 80
WORD = re.compile(r"[^\W\d][\w'-]*")
START = re.compile(r"(?:abbrev )?(?:pub )?(?:record |data )?([^\W\d][\w'-]*)(?= )")


class File:
    """A file of specifications: where its names come from, and the text of each of its definitions."""

    def __init__(self, crate, name):
        self.names, self.texts, self.makers = {}, {}, {}
        lines = (CRATES / crate / "specs" / f"{name}.antt").read_text(encoding="utf-8").splitlines()
        last = None
        for line in lines:
            if line.startswith("use "):
                self.read_use(line)
            elif line and line[0] not in " -(" and (start := START.match(line)):
                last = start[1]
                self.texts.setdefault(last, []).append(line)
            elif last and line.strip() and not line.lstrip().startswith("--"):
                self.texts[last].append(line)
                # A constructor of a data type stands for the type.
                if self.texts[last][0].startswith("pub data") and (maker := re.match(r"  (\w+) :", line)):
                    self.makers[maker[1]] = last

    def read_use(self, line):
        found = re.match(r"use Rattle\.([\w.-]+?)\.\{(.*)\}", line) or re.match(r"use Rattle\.([\w.-]+)\.(\w+)(?: as \w+)?$", line)
        if not found or ".declared." in found[1] or found[1].startswith("std."):
            return
        *path, file = found[1].split(".")
        crate = next((part for part in reversed(path) if (CRATES / part).is_dir()), None)
        if crate is None:
            return
        for word in found[2].split(", "):
            name, _, shown = word.partition(" as ")
            self.names[shown or name] = (crate, file, name)


class Specs:
    def __init__(self):
        self.files = {}

    def file(self, crate, name):
        if (crate, name) not in self.files:
            self.files[crate, name] = File(crate, name)
        return self.files[crate, name]

    def home(self, crate, name, word):
        """The definition that a word of this file names, or None."""
        file = self.file(crate, name)
        word = file.makers.get(word, word)
        if word in file.texts:
            return crate, name, word
        return self.home(*file.names[word]) if word in file.names else None

    def below(self, top):
        """The definitions, each with how far it is from the first."""
        far, left = {top: 0}, [top]
        for one in left:
            text = " ".join(self.file(one[0], one[1]).texts[one[2]])
            for word in WORD.findall(text):
                home = self.home(one[0], one[1], word)
                if home and home not in far:
                    far[home] = far[one] + 1
                    left.append(home)
        return far


def counted(specs, top, shows):
    far = specs.below(top)
    lines = sum(len(specs.file(crate, file).texts[name]) for crate, file, name in far)
    files, crates = len({it[:2] for it in far}), len({it[0] for it in far})
    if shows:
        for (crate, file, name), depth in far.items():
            print(f"{depth:4} {crate} {file} {name}")
    print(f"{'.'.join(top)} stands on {len(far)} definitions: {lines} lines in {files} files of {crates} crates, up to "
          f"{max(far.values())} steps away")
    return len(far)


def main():
    words = sys.argv[1:]
    specs = Specs()
    if len(words) == 3:
        if specs.home(*words) != tuple(words):
            sys.exit(f"definitions_below: there is no definition {'.'.join(words)}")
        counted(specs, tuple(words), True)
    elif words in ([], ["--list"]):
        is_long = counted(specs, HEADLINE, bool(words)) > MOST
        print(f"1 counts, {int(is_long)} failed")
        sys.exit(is_long)
    else:
        print(__doc__.strip())
        sys.exit(0 if words in (["-h"], ["--help"]) else 2)


main()
