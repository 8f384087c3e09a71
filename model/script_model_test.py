#!/usr/bin/env python3
"""Tests model/script_model.py and model/script_witness.py by the scripts of examples/, and by runs of clients.

It is not part of the gate.

  model/script_model_test.py

The model reads options, and nothing that is none: examples of words that the command line refuses are passed over. The witness has
to let through what some order of the clients leaves, and nothing else. What differs is printed, and the status is 1.
"""

import os
import sys

TOP = os.path.dirname(os.path.dirname(os.path.abspath(__file__)))
sys.path.append(f"{TOP}/support")

from examples import examples, lines_of
from script_model import Run
from script_witness import wrong_run

WORDS = ("--segment=8192", "--seglets=4096")
LIMITED = (*WORDS, "--live=52")
SHORT = (*WORDS, "--largest=26")
FOUR = "clients 4 100 5 / crash / recover / log / put 1 a x"
TWO = "clients 2 3 0 / get 1 c0 / get 1 c1 / put 1 a x"
STOPPED = "stop 9 / clients 2 3 0 / crash / recover / put 1 a x"
FEW = "fault 1 lost / clients 2 1 0 / get 1 c0 / crash / recover"
MANY = "fault 9 lost / clients 8 9 2 / get 1 c0 / crash / recover / put 1 a x"
CLEANED = "put 1 a x / roll / begin 1 / clients 1 1 1 / get 1 c0 / begin 2"


def four(*objects, calls=800, head=1, version=104):
    """What FOUR prints, with a version and a value for each client that has one."""
    rows = [f"1 c{number} {it}" for number, it in enumerate(objects) if it]
    return " / ".join([f"clients 4 100 {calls}", "crashed", *rows, f"recovered {len(rows)}", f"log {head}", f"ok {version}"])


# Scripts with clients, what was printed, and whether it may be.
RUNS = [
    (FOUR, four("102 100", "100 100", "103 100", "101 100"), True),
    (FOUR, four("102 100", "100 100", "103 100", "101 100", head=2), False),
    (FOUR, four("102 100", "100 100", "103 100", "101 100", version=105), False),
    (FOUR, four("102 100", "100 100", "103 100", "101 100", calls=799), False),
    (FOUR, four("102 100", "102 100", "103 100", "101 100"), False),
    (FOUR, four("104 100", "100 100", "103 100", "101 100", version=105), False),
    (FOUR, four("101 99", "100 100", "103 100", "102 100"), False),
    (FOUR, four(None, "100 100", "102 100", "101 100"), False),
    (TWO, "clients 2 3 12 / 4 3 / 3 3 / ok 3", True),
    (TWO, "clients 2 3 12 / 3 3 / 3 3 / ok 3", False),
    (TWO, "clients 2 3 12 / 4 3 / 3 3 / ok 4", False),
    (TWO, "refused Full / 1 1 / none / ok 2", True),
    (TWO, "refused Full / 2 1 / none / ok 2", False),
    (TWO, "refused Full / 2 1 / 2 2 / ok 3", True),
    (TWO, "refused Full / none / none / ok 1", True),
    (TWO, "refused NoTablet / none / none / ok 1", False),
    (TWO, "refused TooBig / none / none / ok 1", False),
    (TWO, "stopped / refused Down / refused Down / refused Down", False),
    (f"put 1 c1 x / {TWO}", "ok 1 / clients 2 3 12 / 4 3 / 4 3 / ok 3", True),
    (f"put 1 c1 x / {TWO}", "ok 1 / clients 2 3 12 / 4 3 / 3 3 / ok 3", False),
    (f"put 1 c1 x / {TWO}", "ok 1 / refused Full / none / 1 x / ok 2", True),
    (STOPPED, "stop 9 / stopped / refused Down / 1 c0 2 1 / 1 c1 2 2 / recovered 2 / ok 3", True),
    (STOPPED, "stop 9 / stopped / refused Down / 1 c1 2 2 / recovered 1 / ok 3", True),
    (STOPPED, "stop 9 / stopped / refused Down / 1 c1 2 1 / recovered 1 / ok 3", False),
    (STOPPED, "stop 9 / stopped / refused Down / 1 c1 4 4 / recovered 1 / ok 5", False),
    (STOPPED, "stop 9 / stopped / refused Down / recovered 0 / ok 1", True),
    (FEW, "fault 1 lost / refused Halted / refused Halted / crashed / recovered 0", True),
    (FEW, "fault 1 lost / clients 2 1 4 / refused Halted / crashed / recovered 0", False),
    (FEW, "fault 1 lost / refused Halted / none / crashed / recovered 0", False),
    (FEW, "fault 1 lost / refused Halted / refused Halted / crashed / 1 c0 1 1 / recovered 1", False),
    (MANY, "fault 9 lost / refused Halted / refused Halted / crashed / 1 c0 1 2 / recovered 1 / ok 2", False),
    (MANY, "fault 9 lost / refused Halted / refused Halted / crashed / 1 c0 2 2 / recovered 1 / ok 3", True),
    (MANY, "fault 9 lost / refused Halted / none / crashed / recovered 0 / ok 1", False),
    (MANY.removeprefix("fault 9 lost / "), "refused Halted / refused Halted / crashed / recovered 0 / ok 1", False),
    (CLEANED, "ok 1 / head 2 / begun 3 / clients 1 1 2 / 2 1 / begun 5", True),
    (CLEANED, "ok 1 / head 2 / begun 3 / clients 1 1 2 / 2 1 / refused PassOpen", False),
    (CLEANED, "ok 1 / head 2 / begun 3 / clients 1 1 2 / 2 1 / refused NotInLog 2", False),
    ("clients 4 1 0 / crash / recover", "clients 4 1 8 / crashed / refused Full", True),
]

# The same with a limit of live bytes, which two clients fill.
LIMITED_RUNS = [
    ("clients 4 1 0 / live", "refused Overcommit / live 52 52", True),
    ("clients 4 1 0 / live", "refused Overcommit / live 52 none", False),
    ("clients 4 1 0 / crash / recover", "refused Overcommit / crashed / 1 c1 1 1 / 1 c2 2 1 / recovered 2", True),
    ("put 1 a x / put 1 b y / put 1 c z", "ok 1 / ok 2 / refused Overcommit", True),
    ("put 1 a x / put 1 b y / put 1 c z", "ok 1 / ok 2 / ok 3", False),
    (FOUR, "refused Overcommit / crashed / 1 c0 9 9 / 1 c1 10 9 / recovered 2 / log 1 / refused Overcommit", True),
    (FOUR, "refused Overcommit / crashed / 1 c0 9 9 / 1 c1 10 9 / recovered 2 / log 1 / ok 11", False),
    ("clients 4 1 0 / stop 0 / crash / needs", "refused Overcommit / stop 0 / crashed / needs 384", True),
    ("clients 4 1 0 / stop 0 / crash / needs", "refused Overcommit / stop 0 / crashed / refused NoHead", False),
    ("clients 4 1 0 / crash / needs", "refused Overcommit / crashed / needs 3841", False),
    ("clients 4 1 0 / crash / needs", "refused Overcommit / crashed / needs segments", False),
    ("clients 4 1 0 / crash / recover", "refused Overcommit / crashed / refused Full", False),
    ("clients 4 1 0 / fault 3 lost / crash / recover", "refused Overcommit / fault 3 lost / crashed / refused Full", True),
]

# The same with a limit of each object, which ten rounds go beyond.
SHORT_RUNS = [
    ("clients 4 10 0 / get 1 c0 / get 1 c1 / get 1 c2 / get 1 c3 / put 1 a x", "refused TooBig / 9 9 / 9 8 / none / 5 3 / ok 4", True),
    ("clients 4 9 0 / get 1 c0", "refused TooBig / 9 9", False),
]


def is_script(example):
    return example.status == 0 or example.errors.startswith(b"ramlog: bad ")


def differs(example):
    """Whether something is wrong with what an example should print."""
    run = Run(example.status, example.output.decode(), example.errors.decode())
    wrong = wrong_run(example.words, example.script, run)
    if wrong:
        print(f"examples/{example.name} differs: {wrong}")
    return wrong is not None


def is_misjudged(words, script, output, is_right):
    wrong = wrong_run(words, lines_of(script), Run(0, lines_of(output).decode(), ""))
    if is_right == (wrong is None):
        return False
    print(f"{script}\n  printed: {output}\n  and that is {wrong or 'let through'}")
    return True


def main():
    if sys.argv[1:]:
        print(__doc__.strip())
        sys.exit(0 if sys.argv[1] in ("-h", "--help") else 2)
    chosen = [it for it in examples() if is_script(it)]
    runs = [*((WORDS, *run) for run in RUNS), *((LIMITED, *run) for run in LIMITED_RUNS), *((SHORT, *run) for run in SHORT_RUNS)]
    differ, misjudged = sum(map(differs, chosen)), sum(is_misjudged(*run) for run in runs)
    print(f"{len(chosen)} examples, {differ} differ; {len(runs)} runs of clients, {misjudged} misjudged")
    sys.exit(differ + misjudged > 0)


main()
