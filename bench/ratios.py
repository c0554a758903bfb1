"""Times runs of `c5` beside others that do the same work or a part of it, and prints the ratios,
each with the most that it is to be: `python3 bench/ratios.py FOLDER [PART ..]`. The runs of a ratio
take turns, and the best of several counts. Then it prints peaks of memory, of the program alone."""
import os
import subprocess
import sys

from command import LARGE_PAGES, PROGRAM, TOP, once, peak

sys.path.insert(0, os.path.join(TOP, "tests"))
import reference  # noqa: E402
from inputs import GENERATED, TRANSACTIONS, one_hash  # noqa: E402

RUNS = 11


class Folder:
    """The inputs, and those that are made of them when they are first needed."""

    def __init__(self, path):
        self.path = path

    def file(self, name):
        return os.path.join(self.path, name)

    def made(self, name, make):
        path = self.file(name)
        if not os.path.exists(path):
            with open(path + ".part", "wb") as out:
                make(out)
            os.rename(path + ".part", path)
        return path

    # The log that `primary` writes of a script.
    def log(self, name):
        def make(out):
            once_to([PROGRAM, "primary"], self.file(f"{name}.c5s"), out)

        return self.file(f"{name}.log") if self.is_log(name) else self.made(f"{name}.primary.log",
            make)

    def is_log(self, name):
        return os.path.exists(self.file(f"{name}.log"))

    # A log after the tables and the reads of its script.
    def backup(self, name):
        def make(out):
            with open(self.log(name), "rb") as log:
                data = log.read()
            out.write((tables_of(data) if self.is_log(name)
                       else front_of(self.file(f"{name}.c5s"))) + b"log\n" + data)

        return self.made(f"{name}.backup", make)


LOGS = {"longest": "the longest log", "few_rows": "few rows", "many_rows": "many rows"}
SCRIPTS = {"transfers": "transfers", "many_puts": "many rows", "texts": "texts",
           "one_row": "one row"}


def once_to(command, path, out):
    with open(path, "rb") as source:
        subprocess.run(command, stdin=source, stdout=out, env=LARGE_PAGES, check=True)


def tables_of(data):
    log = reference.Log(data)
    log.read_header()
    kinds = {reference.INT: b"int", reference.TEXTS: b"text"}
    return b"".join(b" ".join([b"table", name, *(kinds[kind] for kind in types)]) + b"\n"
                    for name, types in log.tables)


# The lines of a script that aren't in a transaction or a schedule.
def front_of(path):
    lines, inside = [], False
    with open(path, "rb") as source:
        for line in source:
            if line.startswith(b"txn"):
                inside = True
            elif not inside and line.strip() and not line.startswith(b"turns"):
                lines.append(line)
            inside = inside and not line.startswith(b"end")
    return b"".join(lines)


# ---- printing

def words_of(run):
    return " ".join(run[0])


# The best times of some runs, each (words, input), in ms.
def best(runs):
    times = [[once([PROGRAM, *words], path, LARGE_PAGES)[0] for words, path in runs]
             for _ in range(RUNS)]
    return [min(row[n] for row in times) * 1000 for n in range(len(runs))]


# How much longer the first run takes than the others together.
def ratio(what, most, run, *others):
    ours, *theirs = best([run, *others])
    value = ours / sum(theirs)
    limit = f" of at most {most:4.1f}{' OVER' if value > most else ''}" if most else ""
    print(f"{value:6.2f}{limit}: {words_of(run)} to {' and '.join(map(words_of, others))}: "
          f"{what} ({ours:.0f} ms, {' + '.join(f'{time:.0f}' for time in theirs)} ms)", flush=True)


def most_memory(what, most, run):
    value = peak([PROGRAM, *run[0]], run[1], LARGE_PAGES)
    print(f"{value:4.0f} MB of at most {most:.0f}{' OVER' if value > most else ''}: "
          f"{words_of(run)}: {what}", flush=True)


# ---- what is compared

def replay(folder):
    for name, what in LOGS.items():
        with_front = folder.backup(name)
        ratio(what, 2, (["backup", "--workers", "1"], with_front), (["apply"], folder.log(name)))
        ratio(what, 1.5 if name == "longest" else 3, (["backup", "--workers", "4"], with_front),
              (["backup", "--workers", "1"], with_front))
    for name in LOGS:
        size = os.path.getsize(folder.log(name)) / 1e6
        most_memory(f"{LOGS[name]}, of {size:.0f} MB", 3 * size + 40,
                    (["backup", "--workers", "4"], folder.backup(name)))


# A backup keeps up if it replays a log in no more time than the primary took to make it.
def keeps_up(folder):
    for name, what in SCRIPTS.items():
        for workers in "124":
            ratio(what, 1, (["backup", "--workers", workers], folder.backup(name)),
                  (["primary"], folder.file(f"{name}.c5s")))


def clone(folder):
    for name, what in SCRIPTS.items():
        script = folder.file(f"{name}.c5s")
        ratio(what, 1.3, (["clone"], script), (["primary"], script),
              (["backup"], folder.backup(name)))


# Several threads take turns at one order book, so more of them aren't faster.
def threads(folder):
    for name, what in {**SCRIPTS, "own_rows": "a row of its own each",
                       "small": "small transactions"}.items():
        script = folder.file(f"{name}.c5s")
        for count in "24":
            ratio(what, 4, (["primary", "--threads", count], script),
                  (["primary", "--threads", "1"], script))
        most_memory(what, 100 * os.path.getsize(script) / 1e6,
                    (["primary", "--threads", "4"], script))


# `gen` beside the commands that do the same of its script as a text; a text of 65,536 transactions
# would be too long.
def gen(folder):
    script, none = folder.file("generated.c5s"), os.devnull
    ratio(f"{GENERATED:,} generated transactions", 1.5,
          (["gen", "--count", str(GENERATED), "--workers", "1"], none),
          (["primary"], script), (["backup", "--workers", "1"], folder.backup("generated")))
    most = ["gen", "--count", str(TRANSACTIONS), "--workers"]
    ratio(f"{TRANSACTIONS:,} generated transactions", 2, ([*most, "4"], none), ([*most, "1"], none))
    most_memory(f"{TRANSACTIONS:,} generated transactions", 250, ([*most, "4"], none))


# A schedule of as many words as a script may have, over as many transactions.
def turns(folder):
    script = folder.file("schedule.c5s")
    ratio("65,536 words over 65,536 transactions", 2, (["turns", "--workers", "4"], script),
          (["clone", "--workers", "4"], script))


# The worst names for a board's index. What they may cost isn't limited.
def bucket(folder):
    ratio("16,384 rows whose names begin at one bucket, and as many others", None,
          (["backup"], folder.backup("one_bucket")), (["backup"], folder.backup("many_buckets")))


# The worst names for the hash map in which the rows of a log are counted. Finding them takes a C
# compiler, and up to a minute.
def hashes(folder):
    worst = folder.made("one_hash.log", one_hash)
    ratio("16,384 rows whose names begin at one place of the hash map, and as many others", None,
          (["apply"], worst), (["apply"], folder.log("many_buckets")))


PARTS = {"replay": replay, "keeps_up": keeps_up, "clone": clone, "threads": threads, "gen": gen,
         "turns": turns, "bucket": bucket, "hash": hashes}


def main():
    folder = Folder(sys.argv[1])
    for part in sys.argv[2:] or PARTS:
        PARTS[part](folder)


if __name__ == "__main__":
    main()
