#!/bin/sh
# Makes the inputs, if they aren't there, and prints how long commands take beside others, each with
# the most that it is to be, and their peaks of memory: sh bench/ratios.sh [PART ..], of replay,
# keeps_up, clone, threads, gen, turns, bucket and hash.
set -eu
top=$(cd "$(dirname "$0")/.." && pwd)
[ -f "$top/bench/data/generated.c5s" ] || python3 "$top/bench/inputs.py" "$top/bench/data"
"$top/c5" apply <"$top/examples/first.log" >/dev/null
exec python3 "$top/bench/ratios.py" "$top/bench/data" "$@"
