#!/bin/sh
# Makes the inputs, if they aren't there, and prints how long both commands take on them with and
# without the large pages that the script `c5` asks the C library for (glibc.malloc.hugetlb).
set -eu
top=$(cd "$(dirname "$0")/.." && pwd)
[ -f "$top/bench/data/generated.c5s" ] || python3 "$top/bench/inputs.py" "$top/bench/data"
"$top/c5" apply <"$top/examples/first.log" >/dev/null
exec python3 "$top/bench/command.py" "$top/bench/data" pages
