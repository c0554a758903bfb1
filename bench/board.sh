#!/bin/sh
# Prints how long a log of 262,144 writes takes to be decoded, how long its board takes to be made,
# and how long the writes take to be scheduled, installed and made visible on one thread. Each is
# the difference of two runs of one program, the second of which stops one part earlier.
set -eu
top=$(cd "$(dirname "$0")/.." && pwd)
program="$top/crates/bench_board/out/bench_board"
[ -x "$program" ] || (cd "$top/crates/bench_board" && rt run >/dev/null 2>&1)
exec python3 - "$program" <<'END'
import os
import subprocess
import sys
import time

LARGE_PAGES = dict(os.environ, GLIBC_TUNABLES="glibc.malloc.hugetlb=1")
RUNS = 20


def once(left_out):
    began = time.monotonic()
    subprocess.run([sys.argv[1], *["less"] * left_out], check=True, env=LARGE_PAGES,
                   stdout=subprocess.DEVNULL)
    return time.monotonic() - began


# The best time of a run with this many parts left out, the four kinds of runs in turns.
turns = [[once(left_out) for left_out in range(4)] for _ in range(RUNS)]
whole, board_made, log_decoded, log_made = [min(times) for times in zip(*turns)]
decoding, making, rest = log_decoded - log_made, board_made - log_decoded, whole - board_made
print(f"262144 writes decoded: {decoding * 1000:.1f} ms; their board made: {making * 1000:.1f} ms")
print(f"scheduled, installed and made visible: {rest * 1000:.1f} ms, "
      f"{rest / decoding:.2f} times as long as decoding, of at most 2")
END
