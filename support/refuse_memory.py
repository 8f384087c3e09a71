"""Runs programs with requests for memory refused, and checks what they print. It is no command: bin/refuse-memory calls it, with the
folder of the library before its own words. bin/refuse-memory --help says more."""

import glob
import multiprocessing
import os
import resource
import subprocess
import sys
from dataclasses import dataclass, replace

from examples import TOP, examples

sys.path.append(f"{TOP}/model")

from script_model import NO_MEMORY, Run, explain, options_of, undisturbed

SECONDS = 60
# More requests than a run makes.
ALL = 2**63
# So many failed runs of one script are told in full.
TOLD = 3
# Of a run that makes more requests, each n-th is refused, so that no more runs are made than for so many.
MOST = 1000
# The same for a test, of which only a crash or a run without an end is a failure.
MOST_OF_A_TEST = 250
# Which requests are refused, and how many refusals that may be.
REACHES = (("request {} refused", 1), ("the requests from {} on refused", ALL))
# What the program prints that asks again for what was refused.
ANSWERS = f"{TOP}/crates/asked_again/stdout"
# Examples of these files, and tests of these modules, are not run here: several threads ask for memory at one time, so the same
# request comes at another place in each run. Those of many-steps.rows, of long-tends.rows and of long-forgets.rows have so many
# lines which may end in several ways that the model can't follow them all.
LEFT_OUT = {"clients.rows", "workers.rows", "many-steps.rows", "long-tends.rows", "long-forgets.rows", "clients", "workers"}
# Command lines that end before a script is read.
COMMAND_LINES = [
    ["--help"],
    ["--backups"],
    ["--backups=none"],
    ["--backups=65"],
    ["--step=1", "--step=2"],
    ["--backup=2"],
    ["--nothing-like-it"],
    ["word"],
    ["--replicas=4"],
    ["--segment=1000"],
    ["--segment=8388608"],
]


@dataclass(frozen=True)
class Program:
    """A program that is run with the library in front of it."""

    path: str
    folder: str

    def run(self, words, script, first=0, last=0):
        """How a run ends if the requests from `first` to `last` are refused, and how many were made and refused."""
        report = os.path.join(self.folder, f"report-{os.getpid()}")
        if os.path.exists(report):
            os.remove(report)
        environment = {
            "LD_PRELOAD": os.path.join(self.folder, "refuse-memory.so"), "REFUSE_REPORT": report,
            "REFUSE_FROM": str(first), "REFUSE_TO": str(last), "TMPDIR": self.folder,
        }
        try:
            ended = subprocess.run([self.path, *words], input=script, env=environment, timeout=SECONDS,
                                   cwd=self.folder, stdout=subprocess.PIPE, stderr=subprocess.PIPE)
        except subprocess.TimeoutExpired:
            return Run(None, "", f"no end within {SECONDS} seconds"), 0, 0
        requests = refused = 0
        if os.path.exists(report):
            with open(report, encoding="ascii") as file:
                requests, refused = (int(word) for word in file.read().split())
        return Run(ended.returncode, ended.stdout.decode("latin-1"), ended.stderr.decode("latin-1")), requests, refused


@dataclass(frozen=True)
class Subject:
    """What is run: a script, a command line that ends before a script is read, a test of a program of tests, or the program that
    asks again for what was refused."""

    kind: str
    name: str
    program: Program
    words: tuple = ()
    script: bytes = b""

    def wanted(self):
        """How the run ends if no memory is refused."""
        if self.kind == "script":
            return undisturbed(self.script, options_of(self.words))
        if self.kind == "test":
            return Run(0, "\ntest result: ok\n", "")
        if self.kind == "asks again":
            with open(ANSWERS, encoding="ascii") as file:
                return Run(0, file.read(), "")
        return self.program.run(self.words, self.script)[0]

    def fits(self, run, most):
        """Whether a run that isn't the wanted one may be so, with at most so many refusals."""
        if self.kind == "script":
            return explain(self.script, options_of(self.words), run, most) is not None
        if self.kind == "test":
            return failed_by_itself(run)
        return self.kind == "words" and run == Run(1, "", NO_MEMORY)

    def reaches(self):
        """Which requests are refused: one; or one and all after it. A program that asks again has no end if all are."""
        return REACHES[:1] if self.kind == "asks again" else REACHES

    def stride(self, requests):
        """Of this many requests each n-th is refused."""
        return -(-requests // (MOST_OF_A_TEST if self.kind == "test" else MOST)) or 1


def failed_by_itself(run):
    """Whether a test failed by an error that it met, or by an assertion."""
    by_error = run.status == 101 and "the test failed" in run.errors
    by_assertion = run.status == -6 and "\ntest stopped at src/" in run.output and run.errors != ""
    return by_error or by_assertion


class Tally:
    """What the runs of a subject gave."""

    def __init__(self, subject):
        self.subject = subject
        self.told = []
        self.requests = self.runs = self.failed = self.same = 0
        self.ended = self.answers = self.stopped = 0
        self.stride = 1

    def fail(self, which, run, wanted):
        self.failed += 1
        if self.failed > TOLD:
            return
        self.told.append(f"FAILED {self.subject.name}, {which}: status {run.status}")
        plain = wanted.output + wanted.errors
        for title, text in (("printed", run.output), ("on standard error", run.errors), ("undisturbed", plain)):
            self.told.append(f"  {title}:")
            self.told += [f"    {line}" for line in text.splitlines()]

    def line(self):
        """What is said of the runs."""
        ends = "failed by an error" if self.subject.kind == "test" else "ended in 'no memory'"
        each = f", one in {self.stride} refused" if self.stride > 1 else ""
        says = [f"{self.requests} requests for memory{each}", f"{self.runs} runs; {self.ended} {ends}"]
        if self.subject.kind == "script":
            says.append(f"{self.answers} answers were refused")
        if self.subject.kind == "test":
            says.append(f"{self.stopped} by an assertion")
        says += [f"{self.same} changed nothing", f"{self.failed} failed"]
        return f"{self.subject.name}: {', '.join(says)}"


def fits_once(subject, run, most, judged):
    """Whether the run fits, by what was said of such a run before."""
    if (run, most) not in judged:
        judged[run, most] = subject.fits(run, most)
    return judged[run, most]


def sweep(subject):
    """Runs it undisturbed; for each request with that one refused; and for each with it and all after it refused."""
    tally, wanted = Tally(subject), subject.wanted()
    # Many requests stop a run at the same place. What was said of its end is kept.
    judged = {}
    plain, requests, refused = subject.program.run(subject.words, subject.script)
    tally.requests = requests
    tally.stride = subject.stride(requests)
    tally.runs = 1
    if plain != wanted or refused != 0:
        tally.fail("undisturbed", plain, wanted)
    for reach, most in subject.reaches():
        for first in [*range(1, requests + 1, tally.stride), requests + 1]:
            run, _, refused = subject.program.run(subject.words, subject.script, first, first if most == 1 else ALL)
            tally.runs += 1
            # Only the last run meets no refusal, since each asks for the same until it meets one.
            may_differ = first <= requests and refused > 0
            if run == wanted:
                tally.same += may_differ
            elif not (may_differ and fits_once(subject, run, most, judged)):
                tally.fail(reach.format(first), run, wanted)
            tally.ended += run.errors == NO_MEMORY or run.status == 101
            tally.answers += run.output.count("refused NoMemory\n")
            tally.stopped += run.status == -6
    return tally


def words_of(script):
    """The options that a script of examples/ is run with: those of the file NAME.args, one a line, if there is one."""
    name = script.removesuffix(".txt") + ".args"
    if not os.path.exists(name):
        return ()
    with open(name, encoding="ascii") as file:
        return tuple(file.read().split())


def scripts(program, names, words):
    for name in names:
        with open(name, "rb") as file:
            yield Subject("script", name, program, (*words, *words_of(name)), file.read())


def worked_scripts(program):
    """The examples, but for those whose options are refused."""
    for it in examples():
        ends_early = it.status != 0 and not it.errors.startswith(b"ramlog: bad line")
        if it.name.partition(":")[0] not in LEFT_OUT and not ends_early:
            yield Subject("script", f"examples/{it.name}", program, it.words, it.script)


def command_lines(program):
    for words in COMMAND_LINES:
        yield Subject("words", "ramlog " + " ".join(words), program, tuple(words))


def tests(folder):
    """The tests whose programs bin/test, or 'rt test' in their crates, has left."""
    for path in sorted(glob.glob(f"{TOP}/crates/*/out/*_tests")):
        program = Program(path, folder)
        listed, _, _ = program.run(["--list"], b"")
        names = [line[:-len(": test")] for line in listed.output.splitlines() if line.endswith(": test")]
        if not names:
            sys.exit(f"refuse-memory: {path} lists no tests")
        for name in names:
            if name.partition("::")[0] not in LEFT_OUT:
                yield Subject("test", f"{os.path.basename(path)}: {name}", program, (name,))


def subjects_of(program, names, words, is_whole):
    """The scripts of these names, with these words; without a name, all that there is to run. The tests are of a whole run alone."""
    if names:
        return list(scripts(program, names, words))
    found = list(tests(program.folder)) if is_whole else []
    if is_whole and not found:
        print("the tests: not run, since neither bin/test nor 'rt test' in their crates has left their programs")
    examples_with_words = [replace(it, words=(*words, *it.words)) for it in worked_scripts(program)]
    return [*examples_with_words, *command_lines(program), *found]


def main():
    if sys.argv[1:] in ([], ["-h"], ["--help"]):
        print(__doc__)
        sys.exit(0 if sys.argv[1:] else 2)
    folder, *rest = sys.argv[1:]
    resource.setrlimit(resource.RLIMIT_CORE, (0, 0))
    words = [word for word in rest if word.startswith("--")]
    names = [word for word in rest if not word.startswith("--")]
    given = bool(words) and words[0].startswith("--program=")
    path = os.path.abspath(words.pop(0)[len("--program="):]) if given else f"{TOP}/crates/ramlog/out/ramlog"
    program = Program(path, folder)
    if program.run(["--help"], b"")[1] == 0:
        sys.exit("refuse-memory: the program's requests for memory can't be counted here: it needs glibc")
    if words[:1] == ["--asked-again"]:
        subjects = [Subject("asks again", "asked_again", program)]
    elif words[:1] == ["--tests"]:
        subjects = list(tests(folder))
    else:
        subjects = subjects_of(program, names, words, not given)
    runs = failed = 0
    # Long scripts make many runs, so they begin.
    subjects.sort(key=lambda it: len(it.script), reverse=True)
    with multiprocessing.Pool(len(os.sched_getaffinity(0))) as pool:
        for tally in pool.imap(sweep, subjects):
            print("\n".join([*tally.told, tally.line()]), flush=True)
            runs, failed = runs + tally.runs, failed + tally.failed
    print(f"{runs} runs, {failed} failed")
    sys.exit(failed > 0 or not runs)


main()
