"""Times a command of `c5` beside another program on the same files, the best of several runs, and
prints the rows of docs/BENCHMARKS.md's table: `python3 bench/command.py FOLDER
apply|primary|pages`. With `pages` it times both commands with and without the large pages that the
script `c5` asks the C library for."""
import os
import subprocess
import sys
import time

RUNS = 21
TOP = os.path.dirname(os.path.dirname(os.path.abspath(__file__)))
PROGRAM = os.path.join(TOP, "crates", "c5", "out", "c5")
BESIDE = {"apply": "md5sum", "primary": "sort"}
FILES = {
    "apply": {
        "longest.log": "the longest log: 262,144 writes of 8 texts, 65,536 rows",
        "few_rows.log": "65,536 transactions of 2 writes, 64 rows",
        "many_rows.log": "65,536 transactions of 4 writes, 64,000 rows",
        "one_transaction.log": "65,536 writes in one transaction, 65,536 rows",
    },
    "primary": {
        "transfers.c5s": "transfers between 64 accounts",
        "texts.c5s": "16 tables with texts",
        "puts.c5s": "262,144 puts, 256 a transaction, keys in falling order",
        "small.c5s": "65,536 transactions, most of 2 additions, 30,000 rows",
    },
}
# As the script `c5` runs the program.
LARGE_PAGES = dict(os.environ, LC_ALL="C", GLIBC_TUNABLES="glibc.malloc.hugetlb=1")
SMALL_PAGES = {key: value for key, value in LARGE_PAGES.items() if key != "GLIBC_TUNABLES"}

# A process that was started from Python begins with Python's own peak, so the program is started by
# a shell, which is small, and the shell then becomes a Python that prints the peak of the shell's
# children.
MEASURE = '"$0" "$@" >/dev/null || exit; exec "$PYTHON" -c "$PEAK"'
PEAK = "import resource; print(resource.getrusage(resource.RUSAGE_CHILDREN).ru_maxrss)"


# Seconds, and the seconds of the system among the processor's.
def once(command, path, env):
    with open(path, "rb") as source:
        began = time.monotonic()
        child = subprocess.Popen(command, stdin=source, stdout=subprocess.DEVNULL, env=env)
        _, status, usage = os.wait4(child.pid, 0)
        seconds = time.monotonic() - began
    if status != 0:
        sys.exit(f"{command} ended with {status} on {path}")
    return seconds, usage.ru_stime


# The peak of resident memory, in MB.
def peak(command, path, env):
    with open(path, "rb") as source:
        how = {"stdin": source, "stdout": subprocess.PIPE,
               "env": dict(env, PYTHON=sys.executable, PEAK=PEAK), "check": True}
        return int(subprocess.run(["/bin/sh", "-c", MEASURE, *command], **how).stdout) * 1024 / 1e6


# The best of several runs of each. They take turns, so that what else the machine does is shared.
def best(pairs, path):
    runs = [[once(command, path, env) for command, env in pairs] for _ in range(RUNS)]
    return [[min(run[n][k] for run in runs) * 1000 for k in range(2)] for n in range(len(pairs))]


def compare_with_another(folder, command):
    beside, program = BESIDE[command], [PROGRAM, command]
    for name, what in FILES[command].items():
        path = os.path.join(folder, name)
        (other, _), (ours, _) = best([([beside], LARGE_PAGES), (program, LARGE_PAGES)], path)
        print(f"| `{command}` | {what} | {os.path.getsize(path):,} | {ours:.0f} ms | `{beside}`, "
              f"{other:.0f} ms | {ours / other:.1f} | "
              f"{peak(program, path, LARGE_PAGES):.0f} MB |", flush=True)


def compare_pages(folder):
    for command, names in FILES.items():
        for name, what in names.items():
            path, program = os.path.join(folder, name), [PROGRAM, command]
            (large, large_system), (small, small_system) = best([(program, LARGE_PAGES),
                (program, SMALL_PAGES)], path)
            peaks = [peak(program, path, env) for env in (LARGE_PAGES, SMALL_PAGES)]
            print(f"`{command}`, {what}: large pages {large:.0f} ms "
                  f"(the system {large_system:.0f} ms, peak {peaks[0]:.0f} MB), "
                  f"small {small:.0f} ms ({small_system:.0f} ms, {peaks[1]:.0f} MB)", flush=True)


if __name__ == "__main__":
    folder, what = sys.argv[1:]
    if what == "pages":
        compare_pages(folder)
    else:
        compare_with_another(folder, what)
