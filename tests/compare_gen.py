"""Runs `gen` for many counts and numbers of workers, and compares each summary with two
computations of its own: by the balances of the accounts alone, and by running the script with the
second implementation (schedule.py). It prints how many agree: `python3 tests/compare_gen.py
[COUNT]`, of the counts from 1 to COUNT."""
import itertools
import os
import subprocess
import sys

import schedule
from compare import PROGRAM, TOP

WORKERS = [1, 2, 3, 4, 8, 16]
# Counts that are also run with the second implementation, and the greatest, with which a summary by
# balances suffices.
RUN_TOO = {1, 2, 3, 17, 64, 100, 200}
MOST = 65_536


class Comparison:
    def __init__(self):
        self.passed = self.failed = 0

    def count(self, holds, why):
        self.passed += holds
        self.failed += not holds
        if not holds:
            print(why)

    def compare(self, words, wanted, status=0, **streams):
        streams = {"stdin": subprocess.DEVNULL, "stdout": subprocess.PIPE,
                   "stderr": subprocess.DEVNULL, **streams}
        ended = subprocess.run([PROGRAM, "gen", *words], **streams)
        got = (ended.returncode, ended.stdout or b"")
        self.count(got == (status, wanted),
                   f"gen {' '.join(words)}: {got[0]} {got[1]!r}, not {status} {wanted!r}")


# A summary's numbers by their words; the replies' word is `reads`, and that of whole ones `whole`.
def numbers_of(summary):
    words = summary.decode().split()
    return dict(zip(words[::2], map(int, words[1::2])))


# What is to hold of each summary, however it was computed: the bytes are those of the writes and
# the commit marks, each transfer that isn't declined has two writes, no money is lost, and each
# read saw all of it or none.
def is_sound(count, summary):
    n = numbers_of(summary)
    return (n["transactions"] == count and n["writes"] + 2 * n["declined"] == 64 + 2 * (count - 1)
            and n["bytes"] == 12 + 19 * n["writes"] + 21 * count + 9
            and (n["rows"], n["total"], n["reads"], n["whole"]) == (64, 64_000, 16, 16))


def main():
    most = int(sys.argv[1]) if len(sys.argv) > 1 else 200
    comparison = Comparison()
    # The input isn't read, so it may be one that can't be.
    folder = os.open(TOP, os.O_RDONLY)
    for count, wanted in enumerate(itertools.islice(schedule.summaries(), most), 1):
        comparison.count(is_sound(count, wanted),
                         f"the summary of {count} transactions is {wanted!r}")
        if count in RUN_TOO:
            by_run = schedule.summary_by_run(count)
            comparison.count(wanted == by_run,
                             f"the second implementation counts {by_run!r}, not {wanted!r}")
        workers = WORKERS[count % len(WORKERS)]
        comparison.compare(["--count", str(count), "--workers", str(workers)], wanted, stdin=folder)
    os.close(folder)
    longest = next(itertools.islice(schedule.summaries(), MOST - 1, None))
    comparison.count(is_sound(MOST, longest), f"the summary of {MOST} transactions is {longest!r}")
    for workers in (1, 4, 16, 16):
        comparison.compare(["--count", str(MOST), "--workers", str(workers)], longest)
    comparison.compare([], next(itertools.islice(schedule.summaries(), 999, None)))
    for count in ("0", str(MOST + 1)):
        comparison.compare(["--count", count], b"bad words\n", status=2)
    with open("/dev/full", "wb") as full:
        comparison.compare(["--count", "2"], b"", status=6, stdout=full)
    print(f"{comparison.passed} passed, {comparison.failed} failed")
    sys.exit(1 if comparison.failed else 0)


if __name__ == "__main__":
    main()
