#!/usr/bin/env python3
"""Tests bin/linearizable. The gate runs it.

  support/linearizable_test.py [SEED COUNT]

- Traces that were broken on purpose, each with the lines that have to be named.
- COUNT small traces at random, with any replies: the verdict has to be that of a search through all orders.
- Each of all these traces once more, split into parts: the verdict and the lines that are named have to be the same.
- COUNT traces of a store that does each call at one moment, some of them stopped and recovered: each has to pass. Then
  one thing of each is broken (a stale get, a lost update, a write that appears twice, an answered write that is lost, a
  value that nobody wrote), and each has to be refused.

The last line is 'N tests, M failed', and the status is 1 if any failed.
"""

import importlib.machinery
import importlib.util
import os
import random
import sys

TOP = os.path.dirname(os.path.dirname(os.path.abspath(__file__)))
loader = importlib.machinery.SourceFileLoader("linearizable", f"{TOP}/bin/linearizable")
sys.dont_write_bytecode = True
checker = importlib.util.module_from_spec(importlib.util.spec_from_loader("linearizable", loader))
loader.exec_module(checker)

# Into how many parts a trace is split.
PARTS = 3

# Each with the lines that contradict each other. No lines: the trace is linearizable.
TRACES = {
    "one key": ("0 0 1 put k a = ok 7\n1 2 3 get k = 7 a\n0 4 5 cas k 7 b = ok 8\nend 3 -", ()),
    "a get beside a put may miss it": ("0 0 9 put k a = ok 1\n1 2 3 get k = none\nend 2 -", ()),
    "a get beside a put may see it": ("0 0 9 put k a = ok 1\n1 2 3 get k = 1 a\nend 2 -", ()),
    "a call that wasn't answered is seen": ("0 0 - put k a = unanswered\n1 2 3 get k = 1 a\nend 2 -", ()),
    "a call that wasn't answered is done late": (
        "0 0 - put k a = unanswered\n1 2 3 get k = none\n1 4 5 get k = 1 a\nend 3 -", ()),
    "a call that wasn't answered is recovered": ("0 0 - put k a = unanswered\nobject k 1 a\nend 1 1", ()),
    "a call that wasn't answered isn't recovered": ("0 0 - put k a = unanswered\nend 1 0", ()),
    "two that weren't answered make a chain": (
        "0 0 - put k a = unanswered\n1 0 - cas k 4 b = unanswered\nobject k 5 b\nend 2 1", ()),
    "a refused call": ("0 0 1 put k a = refused\n1 2 3 get k = none\nend 2 0", ()),
    "a conditional put that was late": (
        "0 0 1 put k a = ok 1\n1 2 3 put k b = ok 2\n0 4 5 cas k 1 c = mismatch 2\n0 6 7 new k c = mismatch 2\nend 4 -", ()),
    "a stale get": ("0 0 1 put k a = ok 1\n0 2 3 put k b = ok 2\n1 4 5 get k = 1 a\nend 3 -", (2, 3)),
    "a stale get of no key": ("0 0 1 put k a = ok 1\n1 4 5 get k = none\nend 2 -", (1, 2)),
    "gets that go back": (
        "0 0 1 put k a = ok 1\n0 2 9 put k b = ok 2\n1 3 4 get k = 2 b\n2 5 6 get k = 1 a\nend 4 -", (3, 4)),
    "a get before its write": ("0 0 1 get k = 1 a\n1 2 3 put k a = ok 1\nend 2 -", (1, 2)),
    "a lost update": (
        "0 0 1 put k a = ok 1\n0 2 9 put k b = ok 2\n1 2 9 put k c = ok 2\nend 3 -", (2, 3)),
    "a lost update of a condition": ("0 0 1 put k a = ok 1\n0 2 3 cas k 1 b = ok 3\nend 2 -", (2,)),
    "two new ones": ("0 0 1 new k a = ok 1\n1 0 3 new k b = ok 2\nend 2 -", (1, 2)),
    "a condition that held": ("0 0 1 put k a = ok 1\n0 2 3 cas k 1 b = mismatch 1\nend 2 -", (2,)),
    "a write that appears twice": ("0 0 1 put k a = ok 1\n1 2 3 get k = 2 a\nend 2 -", (1, 2)),
    "a call that wasn't answered appears twice": (
        "0 0 - put k a = unanswered\n1 2 3 get k = 1 a\n1 4 5 get k = 2 a\nend 3 -", (3,)),
    "a call that wasn't answered is seen before it starts": (
        "0 4 - put k a = unanswered\n1 2 3 get k = 1 a\nend 2 -", (2,)),
    "a version with two values": (
        "0 0 - put k a = unanswered\n0 0 - put k b = unanswered\n1 2 3 get k = 1 a\n1 4 5 get k = 1 b\nend 4 -", (3, 4)),
    "a lost acknowledged write": ("0 0 1 put k a = ok 1\n0 2 3 put k b = ok 2\nobject k 1 a\nend 2 1", (2, 3)),
    "a lost key": ("0 0 1 put k a = ok 1\nend 1 0", (1, sys.maxsize)),
    "a get that nothing recovered": ("0 0 - put k a = unanswered\n1 2 3 get k = 1 a\nend 2 0", (2, sys.maxsize)),
    "an object that nobody wrote": ("0 0 1 put k a = ok 1\nobject k 1 a\nobject l 2 b\nend 1 2", (3,)),
    "a recovered value that nobody wrote": ("0 0 1 put k a = ok 1\nobject k 1 b\nend 1 1", (1, 2)),
    "a key that was recovered twice": ("0 0 1 put k a = ok 1\nobject k 1 a\nobject k 1 a\nend 1 2", (2, 3)),
    "two keys made at one version": ("0 0 1 put k a = ok 1\n1 0 3 put l b = ok 1\nend 2 -", (1, 2)),
    "keys made in the wrong order": ("0 0 1 put k a = ok 2\n1 2 3 put l b = ok 1\nend 2 -", (1, 2)),
}

# Files that aren't traces.
BAD = {
    "cut off": "0 0 1 put k a = ok 1", "a call too few": "0 0 1 put k a = ok 1\nend 2 -", "no number": "0 x 1 get k = none\nend 1 -",
    "an end before the start": "0 2 1 get k = none\nend 1 -", "an end without an answer": "0 0 1 get k = unanswered\nend 1 -",
    "an answer without an end": "0 0 - get k = none\nend 1 -", "a put that mismatches": "0 0 1 put k a = mismatch 1\nend 1 -",
    "no such call": "0 0 1 del k = ok 1\nend 1 -", "objects that aren't counted": "0 0 1 put k a = ok 1\nobject k 1 a\nend 1 -",
}


def verdict(lines):
    """None if the trace is linearizable, else the contradiction."""
    try:
        checker.check(*checker.read(lines))
    except checker.Contradiction as contradiction:
        return contradiction
    return None


def verdict_in_parts(lines):
    """The same of a trace that is split into parts."""
    try:
        checker.conclude(checker.find_by_parts(lines, PARTS, map)[0])
    except checker.Contradiction as contradiction:
        return contradiction
    return None


def lines_named(contradiction):
    return () if contradiction is None else tuple(call.at for call in contradiction.calls)


def named(text):
    """The lines that are named."""
    return lines_named(verdict(text.split("\n")))


def differs_in_parts(lines):
    """Whether the trace is judged otherwise if it is split."""
    told = [(str(one), lines_named(one)) for one in (verdict(lines), verdict_in_parts(lines))]
    return told[0] != told[1]


def why_bad(read, lines):
    """What is said of a file that is no trace; None if it is one."""
    try:
        read(lines)
    except checker.BadTrace as bad:
        return str(bad)
    return None


def is_bad_in_parts(lines):
    """Whether a file that is no trace is refused for the same reason if it is split."""
    told = why_bad(checker.read, lines)
    return told is not None and told == why_bad(lambda some: checker.find_by_parts(some, PARTS, map), lines)


# ---- all orders of one key

def outcome(state, call):
    """The states in which a call can leave a key at (version, value), or None, if it answers as the trace says."""
    version = state[0] if state else None
    if call.word in ("get", "object"):
        return [state] if call.kind in ("unanswered", "refused") or (call.version, call.value) == (state or (None, None)) else []
    if call.kind == "refused":
        return [state]
    applies = call.word == "put" or call.word == "new" and state is None or call.word == "cas" and version == call.expected
    if not applies:
        return [state] if call.kind == "unanswered" or (call.kind, call.version) == ("mismatch", version) else []
    # A first put may give any version.
    made = range(1, 7) if state is None else (version + 1,)
    if call.kind == "unanswered":
        return [(one, call.value) for one in made]
    return [(call.version, call.value)] if call.kind == "ok" and call.version in made else []


def has_order(calls, state=None, seen=None):
    """Whether some order of the calls explains all replies. It tries all."""
    seen = set() if seen is None else seen
    mark = (tuple(call.at for call in calls), state)
    if all(call.kind == "unanswered" for call in calls):
        return True
    if mark in seen:
        return False
    seen.add(mark)
    for call in calls:
        if any(other.end < call.start for other in calls):
            continue
        rest = [other for other in calls if other is not call]
        for after in outcome(state, call):
            if has_order(rest, after, seen):
                return True
        if call.kind == "unanswered" and has_order(rest, state, seen):
            return True
    return False


def random_call(draw, at):
    thread, start = draw.randrange(3), draw.randrange(12)
    end, value, version = start + draw.randrange(7), draw.choice("ab"), draw.randrange(1, 5)
    word = draw.choice(["get k"] * 3 + [f"put k {value}{at}"] * 3 + [f"new k {value}{at}", f"cas k {draw.randrange(1, 4)} {value}{at}"])
    if draw.random() < 0.3:
        return f"{thread} {start} - {word} = unanswered"
    if word == "get k":
        reply = draw.choice(["none"] + [f"{version} {value}{draw.randrange(5)}"] * 4)
    else:
        reply = draw.choice([f"ok {version}"] * 5 + ([] if word.startswith("put") else [f"mismatch {version}"]))
    return f"{thread} {start} {end} {word} = {reply}"


def random_trace(draw):
    """A few calls on one key, whose replies may contradict each other."""
    lines = [random_call(draw, at) for at in range(draw.randrange(1, 6))]
    objects = draw.choice([None, None, [], [f"object k {draw.randrange(1, 5)} {draw.choice('ab')}{draw.randrange(5)}"]])
    return lines + (objects or []) + [f"end {len(lines)} {'-' if objects is None else len(objects)}"]


def explained(lines):
    calls, objects = checker.read(lines)
    if objects is not None:
        calls = calls + (objects or [checker.absent("k")])
    return has_order(calls)


# ---- a store that does each call at one moment

class Store:
    """The rules, with keys that were never put absent."""

    def __init__(self):
        self.keys, self.safe = {}, 1

    def call(self, word, key, expected, value):
        version, found = self.keys.get(key, (None, None))
        if word == "get":
            return "none" if version is None else f"{version} {found}"
        if word == "new" and version is not None or word == "cas" and version != expected:
            return f"mismatch {'none' if version is None else version}"
        if version is None:
            version, self.safe = self.safe - 1, self.safe + 1
        self.keys[key] = (version + 1, value)
        return f"ok {version + 1}"


def random_run(draw):
    """Threads that call a store, each call done at one moment; the calls as [thread, start, end, words, reply], and the table."""
    store, calls, number = Store(), [], 0
    threads = draw.randrange(1, 6)
    under_way, now = [None] * threads, 0
    for _ in range(draw.randrange(10, 120)):
        now += draw.randrange(1, 3)
        thread = draw.randrange(threads)
        one = under_way[thread]
        if one is None:
            number += 1
            word, key = draw.choice(["get", "get", "put", "new", "cas"]), f"k{draw.randrange(3)}"
            under_way[thread] = [thread, now, None, (word, key, draw.randrange(1, 8), f"v{number}"), None]
        elif one[4] is None:
            one[4] = store.call(*one[3])
        else:
            one[2] = now
            calls.append(one)
            under_way[thread] = None
    for one in filter(None, under_way):
        calls.append(one[:4] + ["unanswered"])
    draw.shuffle(calls)
    return calls, store.keys


def words_of(word, key, expected, value):
    return {"get": f"get {key}", "cas": f"cas {key} {expected} {value}"}.get(word, f"{word} {key} {value}")


def lines_of(calls, table):
    lines = [f"{thread} {start} {'-' if end is None else end} {words_of(*asked)} = {reply}"
             for thread, start, end, asked, reply in calls]
    lines += [f"object {key} {version} {value}" for key, (version, value) in table.items()]
    return lines + [f"end {len(calls)} {len(table)}"]


def break_one(draw, calls, table):
    """Breaks one thing, so that no order can explain the replies. None if there is nothing to break in this way."""
    calls, table = [list(call) for call in calls], dict(table)
    way = draw.choice(["stale", "lost update", "twice", "lost", "unknown"])
    done = [call for call in calls if call[4].startswith("ok ")]
    if not done:
        return None
    one = draw.choice(done)
    key, version = one[3][1], int(one[4][3:])
    if way == "stale":
        # A get that starts when all has ended, and shows what was there before this write.
        before = next((call for call in done if call[3][1] == key and call[4] == f"ok {version - 1}"), None)
        reply = "none" if before is None else f"{version - 1} {before[3][3]}"
        calls.append([9, 10 ** 6, 10 ** 6 + 1, ("get", key, 0, ""), reply])
    elif way == "lost update":
        calls.append([9, one[1], one[2], ("put", key, 0, "late"), one[4]])
    elif way == "twice":
        table[key] = (table[key][0] + 1, one[3][3])
    elif way == "lost":
        last = max(int(call[4][3:]) for call in done if call[3][1] == key)
        before = next((call for call in done if call[3][1] == key and call[4] == f"ok {last - 1}"), None)
        if before is None:
            del table[key]
        else:
            table[key] = (last - 1, before[3][3])
    else:
        table[key] = (table[key][0], "unknown")
    return calls, table


# ---- all

def random_tests(seed, count):
    """What failed, and how many tests there were."""
    failed, tests = [], 0
    for number in range(seed, seed + count):
        draw = random.Random(number)
        lines = random_trace(draw)
        tests += 1
        if (verdict(lines) is None) != explained(lines):
            failed.append(f"seed {number}: the verdict differs from all orders:\n" + "\n".join(lines))
        run = random_run(draw)
        tests += 1
        if verdict(lines_of(*run)) is not None:
            failed.append(f"seed {number}: a store's own trace is refused:\n" + "\n".join(lines_of(*run)))
        broken = break_one(draw, *run)
        if broken is not None:
            tests += 1
            if verdict(lines_of(*broken)) is None:
                failed.append(f"seed {number}: a broken trace passes:\n" + "\n".join(lines_of(*broken)))
        for some in (lines, lines_of(*run), lines_of(*(broken or run))):
            tests += 1
            if differs_in_parts(some):
                failed.append(f"seed {number}: in parts a trace is judged otherwise:\n" + "\n".join(some))
    return failed, tests


def main(words):
    if words in (["-h"], ["--help"]):
        print(__doc__.strip())
        return 0
    seed, count = (int(words[0]), int(words[1])) if len(words) == 2 else (1, 2000)
    failed = [f"{name}: named {named(text)}" for name, (text, lines) in TRACES.items() if named(text) != lines]
    failed += [f"{name}: in parts it is judged otherwise" for name, (text, _) in TRACES.items() if differs_in_parts(text.split("\n"))]
    failed += [f"{name}: it is read" for name, text in BAD.items() if not is_bad_in_parts(text.split("\n"))]
    more, tests = random_tests(seed, count)
    for line in failed + more:
        print(line)
    tests += 2 * len(TRACES) + len(BAD)
    print(f"{tests} tests, {len(failed + more)} failed")
    return 1 if failed or more else 0


if __name__ == "__main__":
    sys.exit(main(sys.argv[1:]))
