#!/bin/sh
# Prints how much memory the parts of a log and of a script take.
set -eu
top=$(cd "$(dirname "$0")/.." && pwd)
"$top/c5" apply <"$top/examples/first.log" >/dev/null
exec python3 "$top/bench/memory.py"
