"""Runs a command, `rt ci` if none is given, and prints the processor seconds that the checks of
each crate took in it: its proof, its tests, and all its must-fail edits. `python3 bench/times.py
[command ..]`. What an earlier run on this machine kept is not checked, so it takes no seconds; a
check that ends within half a second may be missed. The table is printed also if the command
fails."""
import collections
import os
import subprocess
import sys
import time

TICKS = os.sysconf("SC_CLK_TCK")
EVERY = 0.5
KINDS = ["proof", "tests", "edits"]


# What a process checks, (crate, kind), and the seconds that it has taken, or None.
def check_of(pid):
    try:
        with open(f"/proc/{pid}/cmdline", "rb") as file:
            words = file.read().decode(errors="replace").split("\0")
        if os.path.basename(words[0]) != "rattle" or "--crate-name" not in words:
            return None
        folder = os.readlink(f"/proc/{pid}/cwd")
        with open(f"/proc/{pid}/stat") as file:
            after_name = file.read().rsplit(")", 1)[1].split()
    except (OSError, IndexError):
        return None
    crate = words[words.index("--crate-name") + 1]
    kind = "edits" if "/rt-edit" in folder else "tests" if "--test" in words else "proof"
    return (crate, kind), (int(after_name[11]) + int(after_name[12])) / TICKS


def crates():
    with open(os.path.join(os.path.dirname(__file__), "..", "crates.txt")) as file:
        return [line.split(":")[0] for line in file if not line.startswith("#")]


def main():
    began = time.time()
    child = subprocess.Popen(sys.argv[1:] or ["rt", "ci"])
    seconds = {}
    while child.poll() is None:
        for pid in filter(str.isdigit, os.listdir("/proc")):
            found = check_of(pid)
            if found:
                seconds[pid, found[0]] = found[1]
        time.sleep(EVERY)
    sums = collections.Counter()
    for (_, what), taken in seconds.items():
        sums[what] += taken
    print("| crate | proof | tests | edits |")
    print("|---|---|---|---|")
    for crate in crates():
        cells = [f"{sums[crate, kind]:.0f}" if (crate, kind) in sums else "none" for kind in KINDS]
        print(f"| `{crate}` | {' | '.join(cells)} |")
    minutes, all_minutes = (time.time() - began) / 60, sum(sums.values()) / 60
    print(f"{minutes:.0f} minutes, {all_minutes:.0f} processor minutes")
    return child.returncode


if __name__ == "__main__":
    sys.exit(main())
