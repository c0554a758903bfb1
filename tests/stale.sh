#!/bin/sh
# Prints what documents cite and the repository lacks: links that lead nowhere; clauses, in the
# columns `clause` of README.md and docs/PROOFS.md; and other names in backquotes, if they have an
# underscore or a capital letter after their first one. Also if the numbers of lines in
# docs/PROOFS.md and docs/HEADLINE.md are others than the files have.
set -u
cd "$(dirname "$0")/.." || exit 1

# Names that documents cite and that the repository need not have: a method of the kit's slices, and
# a setting of Linux.
outside="binary_search_by sched_autogroup_enabled"

for document in README.md docs/*.md crates/*/README.md; do
    grep -o '`[A-Za-z_]*`' "$document" | tr -d '`' | grep '_\|.[A-Z]' | sort -u |
    while read -r name; do
        case " $outside " in *" $name "*) continue ;; esac
        git grep -qw -e "$name" -- crates bench tests examples c5 crates.txt \
            ':!crates/*/README.md' ':!tests/stale.sh' || echo "$document: $name"
    done
    grep -o '](\([^)]*\))' "$document" | sed 's/](//; s/)$//; s/#.*//' | grep -v '^http\|^$' |
    sort -u | while read -r link; do
        [ -e "$(dirname "$document")/$link" ] || echo "$document: link $link"
    done
done
awk '
    /^\|/ && column == 0 && !inside {
        n = split($0, cells, "|")
        for (i = 2; i < n; i++) if (cells[i] ~ /^ clause/) column = i
    }
    { inside = /^\|/ }
    !inside { column = 0 }
    inside && column && !/^\|[- |]*$/ && !/ clause/ {
        split($0, cells, "|")
        print FILENAME "|" cells[column]
    }
' README.md docs/PROOFS.md | while IFS='|' read -r document cell; do
    printf '%s\n' "$cell" | sed 's/`[^`]*` of `.*//; s/ of `[^`]*`//' | grep -o '`[a-z_]*`' |
    tr -d '`' | while read -r clause; do
        git grep -q "ensures $clause " -- 'crates/*/src/*.rt' || echo "$document: clause $clause"
    done
done
sh bench/lines.sh | cat docs/PROOFS.md docs/HEADLINE.md - | awk '
    { line[NR] = $0 }
    END {
        for (i = 1; i <= NR / 2; i++)
            if (line[i] != line[i + NR / 2])
                print "other numbers of lines (sh bench/lines.sh --write): " line[i]
    }
'
