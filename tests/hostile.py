"""Runs the built program where calls fail, inputs end early and processors are busy, and prints how
many runs end as they are to end: `python3 tests/hostile.py [quick|refused|failing|cut|corners|load]
..`, all of these but `quick` if none is named. `quick`, which the gate runs, has fewer inputs of
each, and no load.

refused  each allocation of a run is refused in turn, alone and with all later ones: status 7 and
         nothing printed, or the right output (a thread that can't be started runs elsewhere)
failing  each read and each write fails in turn: status 5 and nothing printed, or 6 and a prefix of
         the output; on a small script also with calls that move one byte each
cut      a log is cut after each byte
corners  no transactions on 16 workers, 256 read blocks, one processor
load     200 runs on several threads, beside busy processes

A right output is one that its meaning allows (meaning.py). Allocations, reads and writes are made
to fail by refuse.c, which a C compiler (`cc`) builds; without one these parts are skipped, and that
is reported."""
import os
import shutil
import subprocess
import sys
import tempfile

import compare
import meaning
import reference
import schedule
from compare import PROGRAM, TOP

REFUSED = [["clone"], ["clone", "--threads", "4", "--workers", "4"], ["backup", "--workers", "2"],
           ["turns", "--workers", "2"],
           ["gen", "--workers", "2", "--count", "3"], ["apply"], ["primary"]]
# The outputs of these runs are the same each time: one thread and no place but 0 to read at, or a
# schedule.
FAILING = [(["apply"], "moves"), (["primary"], "moves"), (["backup"], "moves"),
           (["clone"], "moves"), (["clone", "--workers", "3"], "reads"),
           (["turns", "--workers", "2"], "turns")]
PARTS = ["refused", "failing", "cut", "corners", "load"]
QUICK = PARTS[:-1]
SECONDS = 120

TABLE = b"table acct int\n"
ONE = b"txn\nput acct a 1\nend\n"
TURNS = b"turns w2 w2 v s1 w1 w1 w2 v s2 s1 w1 w1 w2 w1 v s3\n"
MOVES = b"".join(
    b"txn\nput acct a%d %d\nput acct b%d 0\nend\n" % (n, n, n)
    + b"txn\nneed acct a%d 0 ge 5\nadd acct b%d 0 5\nend\n" % (n, n) for n in range(12))
READS = b"".join(b"read %d\nrow acct a%d\nsum acct 0 a1 a2 b7\nend\n" % (n % 3 + 1, n)
                 for n in range(8))


# ---- inputs

def log_of(script):
    return reference.spelled(meaning.names_and_types(script), reference.run_serial(script))


# The same script before its own log.
def with_log(data):
    script = meaning.script_within(data)
    return data + b"log\n" + log_of(script)


def input_of(command, data):
    if command == "apply":
        return log_of(meaning.script_within(data))
    return with_log(data) if command == "backup" else data


# The commands of which the whole output is known: (status, output) of words and an input.
EXACT = {"apply": lambda words, data: reference.answer("apply", data)[:2],
         "turns": lambda words, data: schedule.turns(data, int(words[-1]))[:2],
         "gen": lambda words, data: (0, schedule.summary_by_run(int(words[-1])))}


# ---- runs

class Run:
    """How a run ended: its status, what it printed, the lines of standard error, and whether a call
    was made to fail."""

    def __init__(self, words, data, env=None, library=None, before=None):
        read_end, report = os.pipe()
        settings = dict(env or {}, C5_REPORT=str(report))
        if library:
            settings["LD_PRELOAD"] = library
        try:
            ended = subprocess.run([PROGRAM, *words], input=data, stdout=subprocess.PIPE,
                                 stderr=subprocess.PIPE, pass_fds=[report],
                                 env=dict(os.environ, **settings), preexec_fn=before,
                                 timeout=SECONDS)
            self.status, self.printed = ended.returncode, ended.stdout
            self.lines = ended.stderr.count(b"\n")
        except subprocess.TimeoutExpired:
            self.status, self.printed, self.lines = "no end", b"", 0
        os.close(report)
        with os.fdopen(read_end, "rb") as calls:
            self.failed = len(calls.read()) > 0


class Checks:
    def __init__(self, library, quick):
        self.library, self.quick = library, quick
        self.passed = self.failed = 0

    def count(self, holds, why):
        if holds:
            self.passed += 1
        else:
            self.failed += 1
            print(why)

    # Why a run's output isn't right, or None.
    def wrong(self, words, data, run):
        exact = EXACT.get(words[0])
        if exact is None:
            return meaning.wrong(words[0], data, run.status, run.printed)
        return None if (run.status, run.printed) == exact(words,
            data) else f"{run.status} {run.printed[:100]!r}"

    def check(self, words, name, data, **how):
        why = self.wrong(words, data, Run(words, data, **how))
        self.count(why is None, f"{' '.join(words)} on {name}: {why}")

    # ---- refused allocations

    def refused(self):
        for name, data in self.examples():
            for words in REFUSED:
                if not self.quick or name == "bank.c5s" and words[0] not in ("apply", "primary"):
                    for which in ("C5_ALLOC", "C5_ALLOC_FROM"):
                        self.refuse_each(words, name, input_of(words[0], data), which)

    def refuse_each(self, words, name, data, which):
        number, sevens = 0, 0
        while True:
            number += 1
            run = Run(words, data, {which: str(number)}, self.library)
            if not run.failed:
                break
            what = f"{' '.join(words)} on {name} with {which}={number}"
            if run.status == 7:
                sevens += 1
                # With all later allocations refused the line on standard error may be missing.
                lines = run.lines == 1 or which == "C5_ALLOC_FROM" and run.lines == 0
                self.count(run.printed == b"" and lines,
                    f"{what}: 7, but {run.printed[:100]!r} and {run.lines} lines on standard error")
            else:
                self.count(self.wrong(words, data, run) is None,
                           f"{what}: {self.wrong(words, data, run)}")
        self.count(number > 10,
                   f"{' '.join(words)} on {name}: only {number - 1} allocations were refused")
        self.count(sevens > 0, f"{' '.join(words)} on {name}: no refused allocation gave status 7")

    # ---- reads and writes that fail

    def failing(self):
        for words, name in FAILING:
            data = input_of(words[0], TABLE + {"moves": MOVES, "reads": READS,
                                               "turns": MOVES + READS + TURNS}[name])
            for pieces in (1, 10) if self.quick else (1, 10, 150):
                self.fail_each(words, name, data, pieces)
        for command in ("apply", "primary", "backup", "clone"):
            self.fail_each([command], "one", input_of(command, TABLE + ONE), None)

    # The calls move so many pieces of the input and of the output, or one byte each.
    def fail_each(self, words, name, data, pieces):
        whole = Run(words, data)
        self.count(self.wrong(words, data, whole) is None,
                   f"{' '.join(words)} on {name}: {self.wrong(words, data, whole)}")
        for which, size in (("C5_READ", len(data)), ("C5_WRITE", len(whole.printed))):
            least = pieces or size
            number, most = 0, str(max(1, size // least))
            while True:
                number += 1
                run = Run(words, data, {which: str(number), "C5_SHORT": most}, self.library)
                if not run.failed:
                    break
                what = (f"{' '.join(words)} on {name} with {which}={number} C5_SHORT={most}: "
                        f"{run.status} {run.printed[:100]!r}")
                if which == "C5_READ":
                    self.count((run.status, run.printed, run.lines) == (5, b"", 1), what)
                else:
                    self.count((run.status, run.lines) == (6, 1)
                        and whole.printed.startswith(run.printed) and run.printed != whole.printed,
                               what)
            self.count((run.status, run.printed) == (0, whole.printed),
                       f"{' '.join(words)} on {name} in pieces of {most}: {run.status}")
            self.count(number > least,
                f"{' '.join(words)} on {name} in pieces of {most}: only {number - 1} calls failed")

    # ---- logs that end early

    def cut(self):
        for name, data in self.examples():
            if self.quick and name != "bank.c5s":
                continue
            script = meaning.script_within(data)
            log = log_of(script)
            for size in range(0, len(log) + 1, 5 if self.quick else 1):
                self.check(["backup", "--workers", "2"], f"{name} and {size} bytes of its log",
                           data + b"log\n" + log[:size])
                self.check(["apply"], f"{size} bytes of the log of {name}", log[:size])

    # ---- corners

    def corners(self):
        empty = TABLE + READS
        many = TABLE + MOVES + b"".join(b"read %d\nsum acct 0 a1 b1\nend\n" % (n % 16 + 1)
                                        for n in range(256))
        one = min(os.sched_getaffinity(0))
        for words in (["clone", "--threads", "16", "--workers", "16"],
                      ["backup", "--workers", "16"], ["turns", "--workers", "16"]):
            self.check(words, "no transactions", input_of(words[0], empty))
            self.check(words, "a table alone", input_of(words[0], TABLE))
            self.check(words, "256 read blocks", input_of(words[0], many))
            for name, data in (*self.examples(), ("256 read blocks", many)):
                self.check(words, f"{name} on one processor", input_of(words[0], data),
                           before=lambda: os.sched_setaffinity(0, [one]))

    # ---- load

    def load(self):
        data = TABLE + MOVES * 20 + READS * 4
        busy = [subprocess.Popen([sys.executable, "-c", "while True: pass"])
                for _ in range(2 * (os.cpu_count() or 1))]
        try:
            for number in range(200):
                self.check(["clone", "--threads", "4", "--workers", "4"],
                           f"moves under load, run {number}", data)
        finally:
            for process in busy:
                process.kill()
                process.wait()

    def examples(self):
        return list(compare.examples())


def built_library(folder):
    library = os.path.join(folder, "refuse.so")
    source = os.path.join(TOP, "tests", "refuse.c")
    if not shutil.which("cc") or subprocess.run(["cc", "-O1", "-shared", "-fPIC", "-o", library,
                                                 source, "-ldl"], check=False).returncode != 0:
        return None
    return library


def main():
    quick = sys.argv[1:] == ["quick"]
    parts = QUICK if quick else sys.argv[1:] or PARTS
    with tempfile.TemporaryDirectory() as folder:
        checks = Checks(built_library(folder), quick)
        for part in parts:
            before = checks.passed + checks.failed
            if part in ("refused", "failing") and not checks.library:
                print(f"tests/hostile.py: {part} is skipped, as refuse.c can't be built")
                continue
            getattr(checks, part)()
            print(f"{part}: {checks.passed + checks.failed - before} runs and counts", flush=True)
    print(f"{checks.passed} passed, {checks.failed} failed")
    sys.exit(0 if checks.failed == 0 else 1)


if __name__ == "__main__":
    main()
