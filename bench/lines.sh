#!/bin/sh
# Counts the lines of the definitions that docs/PROOFS.md and docs/HEADLINE.md name, without
# imports, comments and empty lines, and prints the documents with these counts; with --write,
# writes them. A row of such a table is `| N | CRATE: FILE, FILE .. | LINES | .. |`, in backquotes,
# and the last row of the table is the sum.
set -eu
cd "$(dirname "$0")/.."
written=$(mktemp)
trap 'rm -f "$written"' EXIT
for document in docs/PROOFS.md docs/HEADLINE.md; do
    awk '
        function count(file, line, n) {
            n = 0
            while ((getline line < file) > 0)
                if (line !~ /^ *$/ && line !~ /^ *--/ && line !~ /^((pub )?use|pub mod) /) n++
            close(file)
            if (n == 0) print "lines.sh: nothing in " file >"/dev/stderr"
            return n
        }
        /^\| [0-9]+ \| `[a-z0-9_]+`: `/ {
            split($0, cells, "|")
            rest = cells[3]
            gsub(/[` ]/, "", rest)
            split(rest, parts, ":")
            n = split(parts[2], files, ",")
            lines = 0
            for (i = 1; i <= n; i++) lines += count("crates/" parts[1] "/specs/" files[i] ".antt")
            sum += lines
            print "|" cells[2] "|" cells[3] "| " lines " |" cells[5] "|"
            next
        }
        /^\| \| in all \|/ {
            split($0, cells, "|")
            print "| | in all | " sum " |" cells[5] "|"
            next
        }
        { print }
    ' "$document" >"$written"
    if [ "${1:-}" = --write ]; then cp "$written" "$document"; else cat "$written"; fi
done
