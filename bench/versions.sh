#!/bin/sh
# Prints how long the program takes that makes a row of 65,536 versions and finds one for each of
# 65,536 stamps.
set -eu
top=$(cd "$(dirname "$0")/.." && pwd)
program="$top/crates/bench_versions/out/bench_versions"
[ -x "$program" ] || (cd "$top/crates/bench_versions" && rt run >/dev/null 2>&1)
exec python3 - "$program" <<'END'
import subprocess
import sys
import time


def once():
    began = time.monotonic()
    subprocess.run([sys.argv[1]], check=True, stdout=subprocess.DEVNULL)
    return time.monotonic() - began


best = min(once() for _ in range(10))
print(f"a row of 65536 versions, made and asked 65536 times: {best * 1000:.1f} ms")
END
