#!/bin/sh
# Makes the inputs, if they aren't there, and prints how long `c5 primary` takes on them beside
# sort, as rows of docs/BENCHMARKS.md's table.
set -eu
top=$(cd "$(dirname "$0")/.." && pwd)
[ -f "$top/bench/data/generated.c5s" ] || python3 "$top/bench/inputs.py" "$top/bench/data"
"$top/c5" apply <"$top/examples/first.log" >/dev/null
exec python3 "$top/bench/command.py" "$top/bench/data" primary
