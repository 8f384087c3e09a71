#!/usr/bin/env python3
"""Tests `ramlog --dir`: a store in a folder, over many lives.

  support/folder_test.py [--program=FILE] [--kills=N] [--minutes=N] [--seed=N] [NAME ..]

A process runs puts and deletes over a few keys, and is killed (kill -9) at a random moment. The next process has to find the
table that all answered lines make, or these and some of the lines that follow them, in order. N kills are made (40), with
seed N (1). With --minutes nothing is tested but kills, for so many minutes, and once a minute it says how far it is. Other tests lose files, damage them, ask for other options, have two processes ask for one folder, and have calls on files
fail: a library put before the C library does that (support/fail_call.c).

A kill ends the process and not the system: what it wrote stays in the kernel's memory. No test here cuts the power.
The last line is 'N tests, M failed', and the status is 1 if any failed. It needs python3 on Linux, and a C compiler.
"""

import itertools
import os
import random
import shutil
import subprocess
import sys
import tempfile
import threading
import time

from preloaded import compiled

TOP = os.path.dirname(os.path.dirname(os.path.abspath(__file__)))
# So many seconds a process has.
SECONDS = 60
# The exit status of a folder that isn't opened.
REFUSED = 3


class Wrong(Exception):
    """What a process did, and what it should have done."""


def run(program, folder, script=b"", words=()):
    """What a process printed, what it said of errors, and its status."""
    ended = subprocess.run([program, f"--dir={folder}", *words], input=script, capture_output=True, timeout=SECONDS)
    return ended.stdout, ended.stderr, ended.returncode


def want(came, wanted):
    if came != wanted:
        raise Wrong(f"wanted {wanted!r}\n  came   {came!r}")


def want_refusal(came, number):
    """The folder has to be refused by this number, and nothing printed."""
    output, errors, status = came
    if (output, status) != (b"", REFUSED) or not errors.startswith(b"ramlog: folder %d: " % number):
        raise Wrong(f"wanted a refusal with number {number}\n  came   {came!r}")


# ---- lives

def a_table_outlives_its_process(program, folder):
    script = b"put 1 a x\nnew 1 b y\nnew 1 b z\ncas 1 a 1 xx\nget 1 a\nget 1 c\n# nothing\n\nput 1 c z\ndel 1 c\n"
    want(run(program, folder, script), (b"recovered 0\nok 1\nok 2\nmismatch 2\nok 2\n2 xx\nnone\nok 3\nok 3\n", b"", 0))
    rows = b"1 a 2 xx\n1 b 2 y\nlisted 2\n"
    want(run(program, folder, b"list 1\n"), (b"recovered 2\n" + rows, b"", 0))
    # A version is above each that the key was seen at.
    output, errors, status = run(program, folder, b"new 1 c z\nlist 1\n")
    lines = output.split(b"\n")
    want((lines[0], errors, status), (b"recovered 2", b"", 0))
    if not lines[1].startswith(b"ok ") or int(lines[1].split()[1]) <= 3:
        raise Wrong(f"the key c had version 3, and is put anew: {lines[1]!r}")


def any_bytes_outlive_it(program, folder):
    every = bytes(range(256))
    script = b"put 1 %d:%s %d:%s\n" % (len(every), every, 2 * len(every), every * 2)
    want(run(program, folder, script, ["--raw"]), (b"recovered 0\nok 1\n", b"", 0))
    want(run(program, folder, b"get 1 %d:%s\n" % (len(every), every), ["--raw"]),
         (b"recovered 1\n1 %d:%s\n" % (2 * len(every), every * 2), b"", 0))


def a_bad_line_is_skipped_if_the_run_keeps_going(program, folder):
    script = b"put 1 a x\nput 1 a\nput 1 a y\nnonsense\n\nget 1 a\nnone"
    bad = b"".join(b"ramlog: bad line %d\n" % line for line in (2, 4, 7))
    want(run(program, folder, script, ["--keep-going"]), (b"recovered 0\nok 1\nok 2\n2 y\n", bad, 2))
    want(run(program, folder, b"get 1 a\n", ["--keep-going"]), (b"recovered 1\n2 y\n", b"", 0))
    output, errors, status = run(program, folder, b"put 1\nget 1 a\n", ["--keep-going", "--explain"])
    want((output, errors[:19], errors.count(b"\n"), status), (b"recovered 1\n2 y\n", b"ramlog: bad line 1\n", 2, 2))
    # Behind a line that is too long nobody knows where the next one begins.
    want(run(program, folder, b"get 1 a\n" + 4097 * b"x" + b"\nget 1 a\n", ["--keep-going"]),
         (b"recovered 1\n2 y\n", b"ramlog: bad line 2\n", 2))
    # What stands before the bad line is answered before more is read.
    with subprocess.Popen([program, f"--dir={folder}", "--keep-going"], stdin=subprocess.PIPE, stdout=subprocess.PIPE,
                          stderr=subprocess.PIPE) as it:
        it.stdin.write(b"put 1 b x\nbad\n")
        it.stdin.flush()
        want((it.stderr.readline(), it.stdout.readline()), (b"ramlog: bad line 2\n", b"recovered 1\n"))
        it.stdin.write(b"get 1 b\n")
        it.stdin.close()
        want((it.stdout.read(), it.wait(SECONDS)), (b"ok 3\n3 x\n", 2))


def a_bad_line_ends_the_run(program, folder):
    want(run(program, folder, b"put 1 a x\nput 1 a\nput 1 a y\n"), (b"recovered 0\nok 1\n", b"ramlog: bad line 2\n", 2))
    want(run(program, folder, b"get 1 a\ncrash\n"), (b"recovered 1\n1 x\nrefused NotOnDisk\n", b"", 0))


def memory_is_used_again(program, folder):
    """More is put than the memory of the log has, and the store cleans itself."""
    value = b"x" * 1000
    lines = b"".join(b"put 1 k%d %s\n" % (number % 50, value) for number in range(6000))
    output, errors, status = run(program, folder, lines + b"list 1\n", ["--seglets=1024"])
    want((output.split(b"\n")[-2], output.count(b"ok "), errors, status), (b"listed 50", 6000, b"", 0))
    want(run(program, folder, b"list 1\n")[0].split(b"\n")[-2], b"listed 50")


# ---- files

def backups(folder):
    return sorted(name for name in os.listdir(folder) if name.startswith("backup-"))


def a_lost_backup_is_made_anew(program, folder):
    run(program, folder, b"put 1 a x\nput 1 b y\n")
    for lost in (0, 1, 2, 1):
        names = [name for name in backups(folder) if name.startswith(f"backup-{lost}-")]
        for name in names:
            os.remove(f"{folder}/{name}")
        want(run(program, folder, b"list 1\n"), (b"recovered 2\n1 a 1 x\n1 b 2 y\nlisted 2\n", b"", 0))


def a_lost_table_is_named(program, folder):
    run(program, folder, b"put 1 a x\n")
    kept = {name: open(f"{folder}/{name}", "rb").read() for name in backups(folder)}
    for name in kept:
        os.remove(f"{folder}/{name}")
    output, errors, status = run(program, folder, b"put 1 b y\n")
    want((output, status), (b"", REFUSED))
    if not errors.startswith(b"ramlog: folder 8: "):
        raise Wrong(f"all replicas are gone, and the program says {errors!r}")
    # Nothing of the store changed: when the files come back, so does the table.
    for name, data in kept.items():
        with open(f"{folder}/{name}", "wb") as file:
            file.write(data)
    want(run(program, folder, b"list 1\n"), (b"recovered 1\n1 a 1 x\nlisted 1\n", b"", 0))


def other_options_are_named(program, folder):
    run(program, folder, b"put 1 a x\n")
    came = run(program, folder, b"", ["--backups=4"])
    want_refusal(came, 4)
    if b"backups" not in came[1]:
        raise Wrong(f"the option isn't named: {came[1]!r}")
    want_refusal(run(program, folder, b"", ["--segment=131072"]), 4)
    # The memory may be another one in each life.
    want(run(program, folder, b"get 1 a\n", ["--seglets=2048"]), (b"recovered 1\n1 x\n", b"", 0))


def a_later_run_names_no_options(program, folder):
    words = ["--replicas=2", "--segment=131072", "--seglets=512", "--live=0", "--tables=2", "--backups=4"]
    run(program, folder, b"put 2 a x\n", words)
    want(run(program, folder, b"get 2 a\nput 3 a x\n"), (b"recovered 1\n1 x\nrefused NoTablet\n", b"", 0))
    want(len(backups(folder)), 4)
    want_refusal(run(program, folder, b"", ["--segment=65536"]), 4)
    want(run(program, folder, b"get 2 a\n", words), (b"recovered 1\n1 x\n", b"", 0))


def several_folders_share_the_backups(program, folder):
    """Of two folders, the second one has every other backup."""
    others = [f"{folder}/other", f"{folder}/third"]
    for other in others:
        os.mkdir(other)
    words = [f"--dir={others[0]}"]
    want(run(program, folder, b"put 1 a x\n", words), (b"recovered 0\nok 1\n", b"", 0))
    want([name[:9] for name in backups(folder)], ["backup-0-", "backup-2-"])
    want([name[:9] for name in backups(others[0])], ["backup-1-"])
    # A disk that is lost is some backups that are lost.
    for name in backups(others[0]):
        os.remove(f"{others[0]}/{name}")
    want(run(program, folder, b"get 1 a\n", ["--dir", others[0]]), (b"recovered 1\n1 x\n", b"", 0))
    want([name[:9] for name in backups(others[0])], ["backup-1-"])
    # The folders are as many as they were, and none stands twice.
    for words in ([], [f"--dir={others[0]}", f"--dir={others[1]}"]):
        came = run(program, folder, b"", words)
        want_refusal(came, 4)
        if b"dir" not in came[1]:
            raise Wrong(f"the number of folders isn't named: {came[1]!r}")
    want_refusal(run(program, folder, b"", [f"--dir={folder}"]), 2)
    want_refusal(run(program, folder, b"", [f"--dir={folder}/none"]), 1)
    want(run(program, folder, b"get 1 a\n", [f"--dir={others[0]}"]), (b"recovered 1\n1 x\n", b"", 0))


def long_files_are_written_anew(program, folder):
    """What is put again and again doesn't stay in the files for ever."""
    words = ["--raw", "--segment=1048576", "--seglet=65536", "--seglets=128"]
    put = [b"put 1 1:%d 200000:%s\n" % (number % 4, b"%d" % (number % 10) * 200000) for number in range(150)]
    want(run(program, folder, b"".join(put), words)[0].count(b"ok "), 150)
    for _ in range(2):
        output, errors, status = run(program, folder, b"get 1 1:3\nlist 1\n", ["--raw"])
        want((output[:12], output[12:24], output[-9:], errors, status), (b"recovered 4\n", b"40 200000:77", b"listed 4\n", b"", 0))
        sizes = [os.path.getsize(f"{folder}/{name}") for name in backups(folder)]
        if len(sizes) != 3 or max(sizes) > 20_000_000:
            raise Wrong(f"the files of four values of 200,000 bytes have {sizes} bytes")


def folders_are_refused(program, folder):
    want_refusal(run(program, f"{folder}/none"), 1)
    with open(f"{folder}/file", "wb") as file:
        file.write(b"x")
    want_refusal(run(program, f"{folder}/file"), 1)
    os.remove(f"{folder}/file")
    run(program, folder, b"put 1 a x\n")
    data = open(f"{folder}/registry", "rb").read()
    with open(f"{folder}/registry", "wb") as file:
        file.write(b"no registry at all, but enough bytes to look like one" * 3)
    want_refusal(run(program, folder), 3)
    os.remove(f"{folder}/registry")
    want_refusal(run(program, folder), 3)
    with open(f"{folder}/registry", "wb") as file:
        file.write(data)
    want(run(program, folder, b"get 1 a\n"), (b"recovered 1\n1 x\n", b"", 0))


def one_process_has_a_folder(program, folder):
    with subprocess.Popen([program, f"--dir={folder}"], stdin=subprocess.PIPE, stdout=subprocess.PIPE) as first:
        want(first.stdout.readline(), b"recovered 0\n")
        want_refusal(run(program, folder), 2)
        first.stdin.write(b"put 1 a x\n")
        first.stdin.flush()
        want(first.stdout.readline(), b"ok 1\n")
        first.stdin.close()
        want(first.wait(SECONDS), 0)
    want(run(program, folder, b"get 1 a\n"), (b"recovered 1\n1 x\n", b"", 0))


# ---- calls that fail

def failing(library, how, number):
    """The environment of a process in which a call on a file fails."""
    return {**os.environ, "LD_PRELOAD": library, "FAIL_CALL": str(number), "FAIL_HOW": how}


def fails_at(program, folder, library, how, number, size):
    """One life, of groups of so many lines, in which a call on a file fails, and the next one. Gives whether there was
    such a call."""
    lines = [*some_lines(random.Random(number), 30, 0)]
    # A line that isn't a command ends a group.
    text = b"".join(line + (b"#\n" if at % size == size - 1 else b"") for at, (line, _, _) in enumerate(lines))
    ended = subprocess.run([program, f"--dir={folder}"], input=text, capture_output=True, timeout=SECONDS,
                           env=failing(library, how, number))
    if b"fail_call" not in ended.stderr:
        return False
    answered = sum(row.startswith((b"ok ", b"none")) for row in ended.stdout.split(b"\n"))
    if ended.returncode not in (0, REFUSED) or how in ("EINTR", "short") and answered < 30:
        raise Wrong(f"call {number} failed by {how}: status {ended.returncode}, {ended.stdout[-200:]!r} {ended.stderr[-200:]!r}")
    output, errors, status = run(program, folder, b"list 1\n")
    want((errors, status), (b"", 0))
    fits(lines, answered, {}, table_of(output))
    return True


def calls_that_fail_lose_nothing(program, folder):
    """A write or a sync fails, is interrupted, or takes a few bytes at a time."""
    library = compiled("fail_call", folder)
    for how in ("EIO", "ENOSPC", "EINTR", "short"):
        for number in (*range(1, 10), *range(10, 200, 17)):
            os.mkdir(f"{folder}/store")
            if not fails_at(program, f"{folder}/store", library, how, number, 1):
                raise Wrong(f"there is no call {number}")
            shutil.rmtree(f"{folder}/store")


# ---- groups

def calls_of(program, folder, library, script):
    """How many calls on files a process makes for a script, up to 4,000, by halves."""
    least, most = 0, 4000
    while least < most:
        number = (least + most + 1) // 2
        shutil.copytree(folder, f"{folder}-copy")
        ended = subprocess.run([program, f"--dir={folder}-copy"], input=script, capture_output=True, timeout=SECONDS,
                               env=failing(library, "EINTR", number))
        shutil.rmtree(f"{folder}-copy")
        if b"fail_call" in ended.stderr:
            least = number
        else:
            most = number - 1
    return least


def a_group_shares_its_syncs(program, folder):
    """Commands at hand together make as many calls as one; a line that is no command ends a group."""
    library, store = compiled("fail_call", folder), f"{folder}/store"
    os.mkdir(store)
    run(program, store)
    puts = [b"put 1 k%d v\n" % number for number in range(300)]
    none, one = (calls_of(program, store, library, script) for script in (b"", puts[0]))
    want([calls_of(program, store, library, script) - none for script in (b"".join(puts), b"#\n".join(puts[:5]))],
         [one - none, 5 * (one - none)])


def a_group_is_answered_in_order(program, folder):
    """What is printed is what the same lines print one by one, refusals too."""
    dice, script = random.Random(5), [b"put 9 a x\n", b"get 1 none\n"]
    for number in range(2000):
        key = b"k%d" % dice.randrange(30)
        script.append(dice.choice([
            b"put 1 %s %d%s\n" % (key, number, b"v" * dice.choice([1, 100, 3000])), b"get 1 %s\n" % key, b"del 1 %s\n" % key,
            b"new 2 %s n%d\n" % (key, number), b"cas 1 %s %d c\n" % (key, dice.randrange(number + 1)), b"put 9 a x\n", b"# -\n",
            b"get 2 %s\n" % key, b"crash\n", b"list 2\n"]))
    words = ["--segment=65536", "--seglets=256", "--history=1500"]
    outputs = []
    for name, ends in (("together", b""), ("alone", b"#\n")):
        os.mkdir(f"{folder}/{name}")
        outputs.append(run(program, f"{folder}/{name}", b"".join(line + ends for line in script), words))
    want(outputs[0], outputs[1])
    want((outputs[0][1:], outputs[0][0].count(b"\n") > 1800), ((b"", 0), True))


def a_group_is_answered_after_its_syncs(program, folder):
    """A process hangs in a call on a file, and is killed. No command of the group has an answer then, though all answers
    together are longer than what the program holds back. The next process has the table from before, or after it."""
    library, store, value = compiled("fail_call", folder), f"{folder}/store", b"v" * 15000
    os.mkdir(store)
    run(program, store, b"put 1 1:a 15000:%s\n" % value, ["--raw"])
    script = b"put 1 1:b 1:x\n" + b"get 1 1:a\n" * 20
    whole = calls_of(program, store, library, b"")
    for number in range(1, 200):
        shutil.copytree(store, f"{folder}/copy")
        with open(f"{folder}/printed", "wb+") as printed:
            with subprocess.Popen([program, f"--dir={folder}/copy", "--raw"], stdin=subprocess.PIPE, stdout=printed,
                                  stderr=subprocess.PIPE, env=failing(library, "hang", number)) as it:
                it.stdin.write(script)
                it.stdin.close()
                has_hung = it.stderr.readline().startswith(b"fail_call")
                if has_hung:
                    it.kill()
            printed.seek(0)
            output = printed.read()
        if has_hung and output not in (b"", b"recovered 1\n"):
            raise Wrong(f"call {number} of the files hangs, and this is printed: {output[:100]!r}")
        found = run(program, f"{folder}/copy", b"list 1\n", ["--raw"])[0].split(b"\n")[-2]
        if found not in ((b"listed 1", b"listed 2") if has_hung else (b"listed 2",)):
            raise Wrong(f"call {number} hung, and the next process finds {found!r}")
        shutil.rmtree(f"{folder}/copy")
        if not has_hung:
            want((output.count(b"\n"), number > whole), (22, True))
            return
    raise Wrong("a group makes more than 200 calls")


def a_group_that_is_cut_is_unsure(program, folder):
    """If a push fails, each command of the group is told as unsure, and what comes later is refused."""
    library, store = compiled("fail_call", folder), f"{folder}/store"
    os.mkdir(store)
    run(program, store)
    calls = calls_of(program, store, library, b"")
    ended = subprocess.run([program, f"--dir={store}"], input=b"put 1 a x\nput 1 b y\nget 1 a\n# end\nput 1 c z\n",
                           capture_output=True, timeout=SECONDS, env=failing(library, "EIO", calls + 1))
    want((ended.stdout, ended.returncode), (b"recovered 0\n" + b"unsure Halted\n" * 3 + b"refused Halted\n", 0))
    lines = [(b"", b"a", b"x"), (b"", b"b", b"y")]
    fits(lines, 0, {}, table_of(run(program, store, b"list 1\n")[0]))


# ---- kills

KEYS = [b"k%d" % number for number in range(20)]


def some_lines(dice, count, first):
    """Puts and deletes, each value of its own."""
    for number in range(first, first + count):
        key = dice.choice(KEYS)
        if dice.random() < 0.2:
            yield b"del 1 %s\n" % key, key, None
        else:
            value = b"%d%s" % (number, b"v" * dice.choice([0, 10, 100, 1000]))
            yield b"put 1 %s %s\n" % (key, value), key, value


def table_of(output):
    """The table that a process listed, as a value for each key."""
    rows = output.split(b"\n")
    if not rows[0].startswith(b"recovered "):
        raise Wrong(f"no table was recovered: {rows[:3]!r}")
    table = {row.split(b" ")[1]: row.split(b" ")[3] for row in rows[1:-2]}
    want((rows[-2], rows[0]), (b"listed %d" % len(table), b"recovered %d" % len(table)))
    return table


def fits(lines, answered, table, found):
    """The table that was found has to be the one that all answered lines make of this table, or these and some more."""
    for number, (_, key, value) in enumerate([*lines, (b"", b"", None)]):
        if number >= answered and table == found:
            return
        if value is None:
            table.pop(key, None)
        else:
            table[key] = value
    raise Wrong(f"{answered} lines were answered, and the table is none of those that they and the next ones make: {found!r}")


def killed(program, folder, lines, seconds):
    """How many lines a process answered before it was killed, so many seconds after it was ready."""
    with subprocess.Popen([program, f"--dir={folder}"], stdin=subprocess.PIPE, stdout=subprocess.PIPE) as it:
        it.stdout.readline()
        text = b"".join(line for line, _, _ in lines)

        def feed():
            try:
                it.stdin.write(text)
                it.stdin.flush()
            except BrokenPipeError:
                pass

        feeder = threading.Thread(target=feed)
        feeder.start()
        time.sleep(seconds)
        it.kill()
        answers = it.stdout.read()
        feeder.join()
        try:
            it.stdin.close()
        except BrokenPipeError:
            pass
        it.wait()
    return answers[:answers.rfind(b"\n") + 1].count(b"\n")


def one_kill(program, folder, dice, table, first):
    """One life that ends by a kill, and the table that the next one finds."""
    lines = [*some_lines(dice, dice.choice([50, 500, 3000]), first)]
    answered = killed(program, folder, lines, dice.choice([0.0, 0.01, 0.1, 0.3, 1.0]) * dice.random())
    output, errors, status = run(program, folder, b"list 1\n")
    want((errors, status), (b"", 0))
    found = table_of(output)
    fits(lines, answered, table, found)
    return found, answered


def kills(program, folder, seed, count):
    """Many lives in one folder. Gives how many lines were answered in all of them."""
    return sum(itertools.islice(lives(program, folder, seed), count))


def lives(program, folder, seed):
    """Lives in one folder, one after another. Gives how many lines were answered in each."""
    dice, table = random.Random(seed), {}
    for life in itertools.count():
        table, answered = one_kill(program, folder, dice, table, 3000 * life)
        yield answered


def soak(program, folder, seed, minutes):
    """Lives in one folder, for so many minutes. Gives how many there were, and how many lines were answered in all of them."""
    made, total, begun, told = 0, 0, time.time(), 0
    for answered in lives(program, folder, seed):
        made, total, passed = made + 1, total + answered, int(time.time() - begun) // 60
        if passed > told or passed >= minutes:
            told = passed
            print(f"{passed} min: {made} kills, {total} answered lines, all there", flush=True)
        if passed >= minutes:
            return made, total
    return made, total


TESTS = [
    a_table_outlives_its_process, any_bytes_outlive_it, a_bad_line_ends_the_run,
    a_bad_line_is_skipped_if_the_run_keeps_going, memory_is_used_again, a_lost_backup_is_made_anew,
    a_lost_table_is_named, other_options_are_named, a_later_run_names_no_options, several_folders_share_the_backups,
    long_files_are_written_anew, folders_are_refused, one_process_has_a_folder, calls_that_fail_lose_nothing,
    a_group_shares_its_syncs, a_group_is_answered_in_order, a_group_is_answered_after_its_syncs,
    a_group_that_is_cut_is_unsure,
]


def tested(name, test):
    """Whether a test failed, in a folder of its own."""
    folder = tempfile.mkdtemp()
    try:
        test(folder)
    except (Wrong, OSError, subprocess.SubprocessError) as wrong:
        print(f"{name}: {wrong}")
        return True
    finally:
        shutil.rmtree(folder, ignore_errors=True)
    return False


def main():
    program, count, minutes, seed, names = f"{TOP}/crates/ramlog/out/ramlog", 40, None, 1, []
    for word in sys.argv[1:]:
        if word in ("-h", "--help"):
            print(__doc__.strip())
            return
        name, _, value = word.partition("=")
        if name == "--program":
            program = value
        elif name == "--kills" and value.isdigit():
            count = int(value)
        elif name == "--minutes" and value.isdigit():
            minutes = int(value)
        elif name == "--seed" and value.isdigit():
            seed = int(value)
        elif word in [test.__name__ for test in TESTS]:
            names.append(word)
        else:
            print(f"folder_test: no test and no option: '{word}'; --help says more", file=sys.stderr)
            sys.exit(2)
    if minutes is not None:
        failed = tested(f"kills with seed {seed}", lambda folder: soak(program, folder, seed, minutes))
        print(f"1 tests, {int(failed)} failed")
        sys.exit(int(failed))
    chosen = [test for test in TESTS if not names or test.__name__ in names]
    failed = sum(tested(test.__name__, lambda folder, test=test: test(program, folder)) for test in chosen)
    made = len(chosen)
    if not names and count:
        made += 1
        answered = []
        failed += tested(f"{count} kills with seed {seed}", lambda folder: answered.append(kills(program, folder, seed, count)))
        print(f"{count} kills, {sum(answered)} answered lines")
    print(f"{made} tests, {failed} failed")
    sys.exit(1 if failed else 0)


if __name__ == "__main__":
    main()
