"""Prints how much memory the parts of a log and of a script take, from the peaks of two inputs of
different sizes."""
import os
import sys
import tempfile

from command import PROGRAM, SMALL_PAGES, peak
from inputs import ONE_TABLE, end, frame, mark, text


# Bytes of memory for each part, beside the bytes of the input: from inputs of `few` and `many`
# times so many parts.
def each(command, make, few, many, parts):
    sizes, peaks = [], []
    for count in (few, many):
        with tempfile.NamedTemporaryFile() as out:
            out.write(make(count))
            out.flush()
            sizes.append(os.path.getsize(out.name))
            peaks.append(peak([PROGRAM, command], out.name, SMALL_PAGES) * 1e6)
    return ((peaks[1] - peaks[0]) - (sizes[1] - sizes[0])) / ((many - few) * parts)


def log(count, writes):
    rows = b"".join(frame(b"W\0" + text(b"%03d" % row) + b"\1") for row in range(writes))
    return ONE_TABLE + b"".join(rows + mark(0, number + 1, writes)
                                for number in range(count)) + end(count)


def script(count, line):
    body = b"txn\n" + b"".join(line(number) for number in range(255)) + b"end\n"
    return b"table t int\n" + body * count


def main():
    txn = each("apply", lambda count: log(count, 0), 30_000, 60_000, 1)
    write = each("apply", lambda count: log(count, 100), 800, 2_400, 100)
    print(f"apply: beside the log's own bytes, about {txn:.0f} bytes for a transaction and "
          f"{write:.0f} for a write of it")
    need = each("primary", lambda count: script(count, lambda number: b"need t a 0 ge 1\n"), 400,
                900, 255)
    put = each("primary", lambda count: script(count, lambda number: b"put t %07d 1\n" % number),
               400, 900, 255)
    print(f"primary: beside the script's own bytes, about {need:.0f} bytes for a statement, "
          f"and {put - need:.0f} more for one that writes, which has 23 in the log")


sys.exit(main())
