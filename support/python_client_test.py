#!/usr/bin/env python3
"""Tests clients/python/ramlog.py over the built program, and the example beside it. The gate, bin/test, runs it.

  support/python_client_test.py [--program=FILE] [--seed=N] [NAME ..]

Random commands over random bytes are compared with a dict, over several lives with crashes and losses. The other tests look at each
refusal's number, at calls that may have been done or not, at batches that fill both pipes, at threads, and at programs that end or
that answer something else. A test that fails says what it wanted. The last line is 'N tests, M failed', and the status is 1 if any
failed. It needs python3 on Linux.
"""

import os
import random
import signal
import subprocess
import sys
import tempfile
import threading
import time
import traceback

TOP = os.path.dirname(os.path.dirname(os.path.abspath(__file__)))
sys.dont_write_bytecode = True
sys.path.insert(0, f"{TOP}/clients/python")

import ramlog  # pylint: disable=wrong-import-position

SECONDS = 120
SEED = 1


def want(came, wanted):
    if came != wanted:
        raise AssertionError(f"wanted {str(wanted)[:300]}\n  came   {str(came)[:300]}")


def want_refused(number, call, *words, kind=ramlog.Refused, **named):
    """The call raises this refusal, of just this kind."""
    try:
        came = call(*words, **named)
    except ramlog.Error as error:
        want((type(error), getattr(error, "number", None)), (kind, number))
        return error
    raise AssertionError(f"wanted a refusal with the number {number}, and {came!r} came")


def want_raised(kind, call, *words, **named):
    try:
        came = call(*words, **named)
    except kind as error:
        return error
    raise AssertionError(f"wanted {kind.__name__}, and {came!r} came")


# Words.

def random_bytes(draw, most):
    """Bytes of any length up to the most, among them those that lines are made of."""
    length = draw.choice((1, 1, 2, 3, draw.randint(1, 40), draw.randint(1, most), most))
    alphabet = draw.choice((b"0123456789:", b" \n", b"1: \n\r\0", bytes(range(256))))
    return bytes(draw.choice(alphabet) for _ in range(length))


def words_are_read_as_written(_):
    draw = random.Random(SEED)
    for _ in range(300):
        word = random_bytes(draw, 300) if draw.random() < 0.95 else b""
        text = b"x" + ramlog._written(word)
        want(ramlog._read(text + b"\n7:", 1), (word, len(text)))
        for length in range(1, len(text)):
            want(ramlog._read(text[:length], 1), None)
    for text in (b"x5", b":", b"-1:a", b"1x", b"123456789012345678901:", b" 1:a"):
        want_raised(ValueError, ramlog._read, text, 0)


# Commands.

class Shadow:
    """A dict that is put, got and deleted as the store is."""

    def __init__(self, store, draw, keys):
        self.store, self.draw, self.keys, self.held, self.most = store, draw, keys, {}, {}

    def rises(self, place, version):
        """Each version of a key is above those that it had."""
        if version <= self.most.get(place, 0):
            raise AssertionError(f"wanted a version above {self.most[place]}, and {version} came")
        self.most[place] = version

    def puts(self, place, put, *words):
        key, table = place
        value = random_bytes(self.draw, 2000)
        version = put(key, value, *words, table=table)
        self.rises(place, version)
        self.held[place] = ramlog.Object(version, value)

    def mismatches(self, place, put, *words):
        held = self.held.get(place)
        came = want_raised(ramlog.Mismatch, put, place[0], b"never", *words, table=place[1])
        want(came.version, held and held.version)

    def step(self):
        place = self.draw.choice(self.keys)
        key, table = place
        held, store = self.held.get(place), self.store
        kind = self.draw.choice(("put", "new", "cas", "late", "get", "get", "delete"))
        if kind == "put":
            self.puts(place, store.put)
        elif kind == "new":
            (self.puts if held is None else self.mismatches)(place, store.new)
        elif kind == "cas" and held:
            self.puts(place, store.cas, held.version)
        elif kind == "late":
            self.mismatches(place, store.cas, self.draw.choice((0, (held.version if held else 0) + 1, ramlog.MOST_NUMBER)))
        elif kind == "delete":
            want(store.delete(key, table=table), held and held.version)
            self.held.pop(place, None)
        else:
            want(store.get(key, table=table), held)

    def table(self):
        """The objects as `recover` has them: by table, and then by key."""
        return sorted((ramlog.Entry(table, key, *held) for (key, table), held in self.held.items()), key=lambda row: (row.table, row.key))


def random_keys(draw, tables):
    return [(random_bytes(draw, 1024), draw.randint(1, tables)) for _ in range(40)]


def random_commands(program):
    """Any bytes are what they were, replies are those of a dict, and lives follow one another with all that was answered."""
    draw = random.Random(SEED)
    with ramlog.Store(program, tables=3) as store:
        shadow = Shadow(store, draw, random_keys(draw, 3))
        for _ in range(6):
            for _ in range(300):
                shadow.step()
            for table in (1, 2, 3):
                found = store.get_many([key for key, t in shadow.keys if t == table], table=table)
                want(found, [shadow.held.get(place) for place in shadow.keys if place[1] == table])
                want(store.list(table), [row for row in shadow.table() if row.table == table])
            store.crash()
            for backup in draw.sample(range(3), draw.randint(0, 2)):
                store.lose(backup)
            want(store.recover(threads=draw.choice((None, 3))), shadow.table())


def conditions(program):
    with ramlog.Store(program) as store:
        first = store.new(b"k", b"1")
        want(want_raised(ramlog.Mismatch, store.new, b"k", b"2").version, first)
        second = store.cas(b"k", b"2", first)
        want(want_raised(ramlog.Mismatch, store.cas, b"k", b"3", first).version, second)
        want(want_raised(ramlog.Mismatch, store.cas, b"other", b"3", 7).version, None)
        want((store.get(b"k"), store.get(b"other")), ((second, b"2"), None))
        want((store.delete(b"k"), store.delete(b"k")), (second, None))
        third = store.new(b"k", b"")
        want((third > second, store.get(b"k").value), (True, b""))


def batches(program):
    """A batch gives what single calls give, and a refused one stands in its place."""
    with ramlog.Store(program) as store:
        store.put(b"a", b"0")
        came = store.put_many([(b"a", b"1"), (b"b", b"x" * 60000), (b"c", b"3")])
        want((type(came[1]), came[1].number), (ramlog.Refused, 1))
        want(store.get_many([b"a", b"b", b"c"]), [(came[0], b"1"), None, (came[2], b"3")])
        want((store.put_many([]), store.get_many([])), ([], []))
        want_refused(1, store.put_many, [(b"d", b""), (b"", b"")])
        want((store.get(b"d"), [e.number for e in store.get_many([b"d"], table=9)]), (None, [12]))


def a_table_is_listed(program):
    """A list has all objects of its table in the order of their keys, whatever they are made of."""
    with ramlog.Store(program, tables=2) as store:
        want(store.list(), [])
        keys = [b"b", b"a", b"\xff", b"\x00", b"a b", b"a\n", b"ab", b"B"]
        versions = dict(zip(keys, store.put_many([(key, key + b":") for key in keys])))
        store.put(b"a", b"other", table=2)
        want(store.list(), [(1, key, versions[key], key + b":") for key in sorted(keys)])
        want([(row.key, row.value) for row in store.list(table=2)], [(b"a", b"other")])
        for key in keys[1:]:
            store.delete(key)
        want([row.key for row in store.list()], [b"b"])
        want((store.list(table=3), store.list(table=2 ** 64 - 1)), ([], []))
        want_refused(12, store.list, table=-1)


def pipes_fill_up(program):
    """Batches whose lines and answers are each longer than a pipe holds."""
    with ramlog.Store(program, segment=1048576, seglet=65536, seglets=1024) as store:
        keys = [b"%04d" % number + 996 * b"k" for number in range(1000)]
        pairs = [(key, key[:4] * 4000) for key in keys]
        versions = store.put_many(pairs)
        want(store.get_many(keys), [(version, value) for version, (_, value) in zip(versions, pairs)])
        long = bytes(range(256)) * 1000
        version = store.put(b"long", long)
        want(store.get(b"long"), (version, long))
        want([entry.value for entry in store.list()], [value for _, value in pairs] + [long])
        store.crash()
        want([entry.value for entry in store.recover()], [value for _, value in pairs] + [long])


# Refusals.

def bad_arguments(program):
    with ramlog.Store(program) as store:
        for key in (b"", b"k" * 1025):
            for call in (store.get, store.delete, lambda k: store.put(k, b""), lambda k: store.new(k, b""), lambda k: store.cas(k, b"", 1)):
                want_refused(1, call, key)
        want_refused(1, store.put, b"k", bytes(2097153))
        want_refused(1, store.put, b"k", bytes(16384))
        for table in (0, 2, 2 ** 64 - 1, 2 ** 64, -1):
            want_refused(12, store.put, b"k", b"v", table=table)
            want_refused(12, store.get, b"k", table=table)
        for call, words in ((store.cas, (b"k", b"v", -1)), (store.cas, (b"k", b"v", 2 ** 64)), (store.tend, (0,)), (store.tend, (65537,)),
                            (store.lose, (3,)), (store.lose, (-1,)), (store.recover, (65,)), (store.set_seglets, (63,)), (store.fault, (0, True))):
            want_refused(23, call, *words)
        for call, words in ((store.get, ("k",)), (store.put, (b"k", "v")), (store.put, (b"k", 1)), (store.cas, (b"k", b"v", "1")),
                            (store.cas, (b"k", b"v", True)), (store.get, (b"k", "1")), (store.tend, (1.0,))):
            want_raised(TypeError, call, *words)
        # Nothing of all that reached the program.
        want((store.live()[0], store.put(bytearray(b"k"), memoryview(b"v"))), (0, 1))


def refusals(program):
    """Each refusal has its number, and changes nothing."""
    with ramlog.Store(program, live=60, largest=60) as store:
        store.put(b"k", b"v" * 30)
        want_refused(14, store.put, b"l", b"v")
        want_refused(1, store.put, b"k", b"v" * 40)
        want(store.live(), (54, 60))
    with ramlog.Store(program, history=2, forget=False) as store:
        store.put(b"k", b"v")
        store.get(b"k")
        want_refused(4, store.get, b"k")
        want_refused(4, store.delete, b"k")
    with ramlog.Store(program, segment=512, seglet=64, seglets=32) as store:
        came = store.put_many([(b"%d" % number, b"v" * 70) for number in range(40)])
        done = [number for number, it in enumerate(came) if isinstance(it, int)]
        want({it.number for it in came if not isinstance(it, int)}, {2})
        want(store.live()[0], sum(23 + len(b"%d" % number) + 70 for number in done))


def up_and_down(program):
    with ramlog.Store(program) as store:
        store.put(b"k", b"v")
        want_refused(15, store.recover)
        want_refused(15, store.lose, 0)
        want_refused(15, store.seglets_needed)
        store.crash()
        for call, words in ((store.crash, ()), (store.get, (b"k",)), (store.put, (b"k", b"v")), (store.settle, ()),
                            (store.tend, (1,)), (store.room, ()), (store.live, ()), (store.list, ())):
            want_refused(0, call, *words)
        for backup in range(3):
            store.lose(backup)
        want_refused(16, store.recover)
        want_refused(0, store.get, b"k")


def a_next_master_gets_more_memory(program):
    with ramlog.Store(program, seglets=1024) as store:
        versions = store.put_many([(b"%d" % number, bytes(16000)) for number in range(100)])
        store.crash()
        store.set_seglets(64)
        want_refused(2, store.recover)
        needed = store.seglets_needed()
        want(64 < needed <= 1024, True)
        store.set_seglets(needed)
        want({entry.version for entry in store.recover()}, set(versions))


def calls_may_be_unsure(program):
    """After an unsure call a recovery has the call or not, and all calls before it."""
    shown = set()
    for takes in range(12):
        with ramlog.Store(program, backups=3, replicas=2) as store:
            first = store.put(b"k", b"1")
            store.stop(takes)
            at, unsure = 2, None
            while unsure is None:
                try:
                    store.put(b"k", b"%d" % at)
                    at += 1
                except ramlog.Unsure as error:
                    unsure = error
            want((unsure.number, isinstance(unsure, ramlog.Refused), first), (10, True, 1))
            store.lose(takes % 3)
            value = int(store.recover()[0].value)
            want(value in (at - 1, at), True)
            shown.add(value - at)
            want(store.get(b"k").value, b"%d" % value)
    want(shown, {-1, 0})


def a_halted_master_is_followed_by_another(program):
    """Under format 1 a backup that fails halts the master. A call that found it halted isn't told from the one that halted it."""
    with ramlog.Store(program, format=1) as store:
        store.put(b"k", b"1")
        store.fault(1, True)
        want_refused(6, store.put, b"k", b"2", kind=ramlog.Unsure)
        want_refused(6, store.get, b"k")
        want_refused(6, store.settle)
        store.crash()
        want(store.recover()[0].value in (b"1", b"2"), True)


def a_failed_backup_is_made_good(program):
    """Three of four backups are left, which take all replicas. With two of them the master can't go on."""
    with ramlog.Store(program, backups=4) as store:
        store.fault(1, True)
        version = store.put(b"k", b"1")
        want(store.get(b"k"), (version, b"1"))
        store.fault(1, False)
        want_refused(6, store.put, b"k", b"2", kind=ramlog.Unsure)
        store.crash()
        want(store.recover()[0].value in (b"1", b"2"), True)


def upkeep(program):
    with ramlog.Store(program, tend=0, seglets=128) as store:
        used, free = store.room()
        want(used + free, 128)
        came = store.put_many([(b"k", bytes(10000))] * 200)
        want({it.number for it in came if not isinstance(it, int)}, {2})
        want((0 < store.tend(1000) <= 1000, store.room()[1] > free // 2), (True, True))
        store.put(b"k", b"v" * 100)
        store.settle()
        want((store.get(b"k").value, store.live()), (b"v" * 100, (124, None)))


# Programs.

def a_program_that_ends(program):
    store = ramlog.Store(program)
    store.put(b"k", b"v")
    os.kill(store._process.pid, signal.SIGKILL)
    want(want_raised(ramlog.Ended, store.get, b"k").status, -9)
    want_raised(ramlog.Ended, store.get, b"k")
    want_raised(ramlog.Ended, store.put_many, [(b"k", bytes(9000))] * 1000)
    want((store.close(), store.close()), (-9, -9))
    with ramlog.Store(program) as store:
        pass
    want((store.close(), type(want_raised(ramlog.Ended, store.get, b"k"))), (0, ramlog.Ended))


def a_program_that_ends_in_a_batch(program):
    """The program ends while lines are written and answers are read."""
    with ramlog.Store(program) as store:
        killer = threading.Timer(0.05, os.kill, (store._process.pid, signal.SIGKILL))
        killer.start()
        want(want_raised(ramlog.Ended, store.put_many, [(b"k", bytes(9000))] * 100000).status, -9)


def bad_options(program):
    error = want_raised(ramlog.Ended, ramlog.Store, program, segment=1000)
    want((error.status, "BadSegment" in error.text and "multiple" in error.text), (2, True))
    error = want_raised(ramlog.Ended, ramlog.Store, program, nosuch=1)
    want((error.status, "nosuch" in error.text), (2, True))
    want_raised(OSError, ramlog.Store, "/no/such/program")


def stub(folder, text):
    """A program that answers the first line, and then goes on so."""
    path = os.path.join(folder, "stub")
    with open(path, "w", encoding="ascii") as file:
        file.write(f"#!/bin/sh\nread line\necho 'used 0 free 0'\n{text}\n")
    os.chmod(path, 0o755)
    return path


def a_call_that_is_cut_off(_):
    """Behind a call that was interrupted no later call reads its answer."""
    def stop(*_):
        raise KeyboardInterrupt
    before = signal.signal(signal.SIGALRM, stop)
    try:
        with tempfile.TemporaryDirectory() as folder, ramlog.Store(stub(folder, "cat > /dev/null")) as store:
            signal.setitimer(signal.ITIMER_REAL, 0.2)
            want_raised(KeyboardInterrupt, store.put, b"k", b"v")
            want("cut off" in str(want_raised(ramlog.Ended, store.get, b"k")), True)
    finally:
        signal.setitimer(signal.ITIMER_REAL, 0)
        signal.signal(signal.SIGALRM, before)


def answers_of_another_program(_):
    for line in ("hello", "refused", "refused nothing", "1 x", "ok", "ok x", "refused TooBig x", "mismatch"):
        with tempfile.TemporaryDirectory() as folder, ramlog.Store(stub(folder, f"read line; echo '{line}'; cat > /dev/null")) as store:
            want_raised(ramlog.Ended, store.put, b"k", b"v")
            want_raised(ramlog.Ended, store.put, b"k", b"v")
    # A refusal that the module doesn't know is one.
    with tempfile.TemporaryDirectory() as folder, ramlog.Store(stub(folder, "read line; echo 'refused Later 1 2'; cat > /dev/null")) as store:
        want(want_refused(24, store.put, b"k", b"v").numbers, (1, 2))
    for line in ("1", "x", "1 x", "1 5", "1 1:ab", "1 2:ab2", "1 -1:", "123456789012345678901 1:a"):
        with tempfile.TemporaryDirectory() as folder, ramlog.Store(stub(folder, f"read line; echo '{line}'; cat > /dev/null")) as store:
            want_raised(ramlog.Ended, store.get, b"k")


def threads_share_a_store(program):
    """Threads that count under one key, by the version, lose no count."""
    def count(store):
        for _ in range(50):
            while True:
                found = store.get(b"count")
                try:
                    store.cas(b"count", b"%d" % (int(found.value) + 1), found.version)
                    break
                except ramlog.Mismatch:
                    pass
    with ramlog.Store(program) as store:
        store.put(b"count", b"0")
        threads = [threading.Thread(target=count, args=(store,)) for _ in range(4)]
        for thread in threads:
            thread.start()
        for thread in threads:
            thread.join()
        want(store.get(b"count").value, b"200")


EXAMPLE = """Ada: {'user': 'Ada', 'cart': ['tea']}
Bob: None
recovered: 1
Ada: {'user': 'Ada', 'cart': ['tea']}
"""


def the_example_runs(program):
    ended = subprocess.run([sys.executable, f"{TOP}/clients/python/sessions.py"], stdout=subprocess.PIPE, stderr=subprocess.PIPE, text=True,
                           timeout=SECONDS, check=False, env={**os.environ, "RAMLOG": program})
    want((ended.stdout, ended.stderr, ended.returncode), (EXAMPLE, "", 0))


def every_method_says_what_it_does(_):
    for name in dir(ramlog.Store):
        if not name.startswith("_"):
            want((name, bool(getattr(ramlog.Store, name).__doc__)), (name, True))


TESTS = [words_are_read_as_written, random_commands, conditions, batches, a_table_is_listed, pipes_fill_up, bad_arguments, refusals, up_and_down,
         a_next_master_gets_more_memory, calls_may_be_unsure, a_halted_master_is_followed_by_another, a_failed_backup_is_made_good, upkeep,
         a_program_that_ends, a_program_that_ends_in_a_batch, bad_options, a_call_that_is_cut_off, answers_of_another_program,
         threads_share_a_store, the_example_runs, every_method_says_what_it_does]


def is_passed(test, program):
    """Whether the test passes, within its time: a client that waits for ever fails."""
    def late(*_):
        raise AssertionError(f"it has not ended after {SECONDS} seconds")
    signal.signal(signal.SIGALRM, late)
    signal.setitimer(signal.ITIMER_REAL, SECONDS)
    begun = time.monotonic()
    try:
        test(program)
    except Exception:  # pylint: disable=broad-except
        print(f"{test.__name__}: failed\n{traceback.format_exc()}")
        return False
    finally:
        signal.setitimer(signal.ITIMER_REAL, 0)
    print(f"{test.__name__}: passed in {time.monotonic() - begun:.1f} s", flush=True)
    return True


def main(words):
    global SEED
    if words in (["-h"], ["--help"]):
        print(__doc__.strip())
        return 0
    program, names = f"{TOP}/crates/ramlog/out/ramlog", {test.__name__: test for test in TESTS}
    while words and words[0].startswith("--"):
        name, _, value = words.pop(0).partition("=")
        if name == "--program":
            program = os.path.abspath(value)
        elif name == "--seed" and value.isdigit():
            SEED = int(value)
        else:
            sys.exit(f"python_client_test: there is no option {name}={value}")
    unknown = [word for word in words if word not in names]
    if unknown:
        sys.exit(f"python_client_test: there is no test {unknown[0]}")
    if not os.access(program, os.X_OK):
        sys.exit(f"python_client_test: there is no program {program}")
    tests = [names[word] for word in words] or TESTS
    failed = sum(not is_passed(test, program) for test in tests)
    print(f"{len(tests)} tests, {failed} failed")
    return 1 if failed else 0


if __name__ == "__main__":
    sys.exit(main(sys.argv[1:]))
