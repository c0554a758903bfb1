#!/bin/sh
# Tests the built program, and ends with a line `N passed, M failed`:
#   - the cases of tests/*.cases, each file by the command that it is named after;
#   - the tables of faults in docs/, from the documents themselves;
#   - each command that a document shows with its output (a fenced block `console`), from the
#     documents;
#   - the page of `--help`: each example, each command, and the ranges of the options;
#   - what standard error says of refused words;
#   - examples/: each script's log and rows;
#   - if there is a python3: inputs made from a seed, compared with a second implementation
#     (tests/compare*.py), and reads, writes and allocations that fail in turn (tests/hostile.py).
set -u
LC_ALL=C
export LC_ALL
top=$(cd "$(dirname "$0")/.." && pwd)
program="$top/crates/c5/out/c5"
got=$(mktemp -d) || exit 1
trap 'rm -rf "$got"' EXIT
trap 'exit 1' HUP INT TERM
passed=0
failed=0

pass() {
    passed=$((passed + 1))
}

fail() {
    failed=$((failed + 1))
    echo "$1"
}

# ---- one case

begin_case() {
    name="$1"
    words="$command"
    shown=
    from="$got/input"
    to="$got/output"
    size=
    wanted=
    : >"$got/input"
    : >"$got/wanted"
}

# Adds N times the bytes of these escapes, which are so many lines, to the input.
add_part() {
    if [ "$1" -eq 1 ]; then
        printf '%b' "$3" >>"$got/input"
    else
        yes "$(printf '%b' "$3")" | head -n $(($1 * $2)) >>"$got/input"
    fi
}

run_program() {
    # The words of a case have no spaces.
    # shellcheck disable=SC2086
    "$program" $words <"$from" >"$to" 2>"$got/errors"
}

run_shown() {
    (cd "$top" && exec bash -c "$shown") </dev/null >"$got/output" 2>"$got/errors"
}

is_wanted() {
    [ "$to" = "$got/output" ] || return 0
    if [ -n "$size" ]; then
        [ "$(wc -c <"$got/output")" -eq "$size" ]
    else
        cmp -s "$got/output" "$got/wanted"
    fi
}

# Standard error has one line for a status 2, 5, 6 or 7, and else none.
is_explained() {
    lines=0
    case "$status" in 2 | 5 | 6 | 7) lines=$explains ;; esac
    [ "$(wc -l <"$got/errors")" -eq "$lines" ] &&
        [ "$(grep -c '^c5: ' "$got/errors")" -eq "$lines" ]
}

end_case() {
    : >"$got/output"
    if [ -n "$shown" ]; then run_shown; else run_program; fi
    status=$?
    if [ -n "$wanted" ] && [ "$status" != "$wanted" ]; then
        fail "$file: $name: status $status, not $wanted"
    elif ! is_wanted; then
        fail "$file: $name: another output:"
        head -c 300 "$got/output" "$got/errors" | tr -c '[:print:]\n' '?'
    elif [ -z "$shown" ] && ! is_explained; then
        fail "$file: $name: another text on standard error:"
        head -c 300 "$got/errors"
    else
        pass
    fi
}

# Does the steps of $got/steps, which cases.awk or documents.awk printed.
run_steps() {
    while IFS= read -r step; do
        what=${step%% *}
        rest=${step#* }
        case "$what" in
            case) begin_case "$rest" ;;
            words) words="$rest" ;;
            shown) shown="$rest" ;;
            from) from="$rest" ;;
            to) to="$rest" ;;
            zeros) head -c "$rest" /dev/zero >>"$got/input" ;;
            part)
                times=${rest%% *}
                rest=${rest#* }
                add_part "$times" "${rest%% *}" "${rest#* }"
                ;;
            status) wanted="$rest" ;;
            size) size="$rest" ;;
            output) printf '%b' "$rest" >"$got/wanted" ;;
            run) end_case ;;
            *) fail "$step" ;;
        esac
    done <"$got/steps"
}

# Runs the cases of a file, under the name that is shown, by a command.
run_cases() {
    file="$2"
    command="$3"
    awk -v file="$file" -f "$top/tests/cases.awk" "$1" >"$got/steps"
    grep -q '^run' "$got/steps" || fail "$file: no case was found"
    run_steps
}

# ---- what is tested

# The program is built here, if it isn't yet.
"$top/c5" apply <"$top/examples/first.log" >/dev/null || exit 1

# The program writes one line to standard error for the statuses 2, 5, 6 and 7.
explains=1

for cases in "$top"/tests/*.cases; do
    command=$(basename "$cases" .cases)
    run_cases "$cases" "tests/$command.cases" "$command"
done

for table in LOG_FORMAT.md:apply SCRIPT.md:primary; do
    document=${table%:*}
    awk -v of=faults -f "$top/tests/documents.awk" "$top/docs/$document" >"$got/cases"
    run_cases "$got/cases" "docs/$document" "${table#*:}"
done

(cd "$top" && awk -v of=commands -f tests/documents.awk README.md docs/*.md \
    $(ls crates/*/README.md 2>/dev/null)) >"$got/steps"
grep -q '^run' "$got/steps" || fail "README.md: no command was found"
file=documents
command=
run_steps

# The page of --help: its examples, its commands, and the ranges of its options.
succeeds() {
    if (cd "$top" && PATH="$top:$PATH" exec bash -c "$1") \
        >"$got/output" 2>"$got/errors" </dev/null; then
        pass
    else
        fail "c5 --help: status $? of: $1"
    fi
}

refuses_words() {
    "$program" "$@" >"$got/output" 2>"$got/errors" </dev/null
    if [ $? -eq 2 ]; then pass; else fail "c5 --help: the words aren't refused: $*"; fi
}

"$program" --help >"$got/help"
sed -n '/^examples:/,$ s/^  c5 /c5 /p' "$got/help" >"$got/examples"
sed -n '/^commands:/,/^$/ s/^  \([a-z][a-z]*\) .*/\1/p' "$got/help" >"$got/commands"
sed -n 's/^  --\([a-z]*\) N .*[ (]\([0-9]*\) to \([0-9]*\), default \([0-9]*\).*/\1 \2 \3 \4/p' \
    "$got/help" >"$got/options"
for found in examples commands options; do
    [ -s "$got/$found" ] || fail "c5 --help: no $found were found"
done
while IFS= read -r example; do
    succeeds "$example"
done <"$got/examples"
while read -r word; do
    "$program" "$word" >"$got/output" 2>"$got/errors" </dev/null
    if [ $? -ne 2 ]; then pass; else fail "c5 --help: $word isn't a command"; fi
done <"$got/commands"
while read -r option least most default; do
    for number in "$least" "$most" "$default"; do
        succeeds "c5 apply --$option $number <examples/first.log"
    done
    refuses_words apply "--$option" "$((least - 1))"
    refuses_words apply "--$option" "$((most + 1))"
done <"$got/options"

# What standard error says of refused words.
says() {
    line="$1"
    shift
    "$program" "$@" >"$got/output" 2>"$got/errors" </dev/null
    if printf '%s\n' "$line" | cmp -s - "$got/errors"; then
        pass
    else
        fail "c5 $*: standard error isn't: $line"
    fi
}

says 'c5: no such command "frob"; try c5 --help' frob
says 'c5: bad words "--frob"; try c5 --help' --frob
says 'c5: bad words "primary" "--threads" "17"; try c5 --help' primary --threads 17

for script in "$top"/examples/*.c5s; do
    file=examples/$(basename "$script")
    "$program" primary <"$script" >"$got/log" && "$program" apply <"$got/log" >"$got/output"
    if ! cmp -s "$got/output" "${script%.c5s}.rows"; then
        fail "$file: other rows"
    elif [ -f "${script%.c5s}.log" ] && ! cmp -s "$got/log" "${script%.c5s}.log"; then
        fail "$file: another log"
    else
        pass
    fi
done

# The script c5 in a copy of the repository without its sources, with the rt that is given as its
# text: what it prints, and what it says on standard error.
run_script() {
    rm -rf "$got/copy"
    for crate in $(sed -n 's/^\([a-z0-9_]*\):.*/\1/p' "$top/crates.txt"); do
        mkdir -p "$got/copy/crates/$crate/src"
    done
    mkdir "$got/copy/bin"
    cp -R "$top/c5" "$top/crates.txt" "$top/examples" "$got/copy"
    if [ -n "$1" ]; then
        printf '%s\n' '#!/bin/sh' "$1" >"$got/copy/bin/rt"
        chmod +x "$got/copy/bin/rt"
    fi
    PATH="$got/copy/bin:/usr/bin:/bin" "$got/copy/c5" apply <"$top/examples/first.log" \
        >"$got/output" 2>"$got/errors"
}

file=c5
if run_script "[ \$1 = lib ] || { mkdir out && cp '$program' out/c5; }" &&
    grep -q '^rows 1$' "$got/output" &&
    [ "$(grep -c '^c5: [0-9]* of [0-9]*: ' "$got/errors")" -ge 10 ]; then
    pass
else
    fail "c5: a first run doesn't build the program crate by crate, or doesn't run it"
fi
if run_script "echo no proof; exit 1" || ! grep -q '^no proof$' "$got/errors" ||
    ! grep -q '^c5: .* was not proved' "$got/errors"; then
    fail "c5: a failed proof isn't reported"
else
    pass
fi
if ! (PATH=/usr/bin:/bin && command -v rt >/dev/null); then
    if run_script "" || ! grep -q '^c5: .*needs rt' "$got/errors"; then
        fail "c5: rt isn't said to be missing"
    else
        pass
    fi
fi

# A program that ends with a line `N passed, M failed`.
run_checks() {
    python3 "$top/tests/$1" $2 >"$got/compared"
    status=$?
    cat "$got/compared"
    counts=$(tail -n 1 "$got/compared" | sed -n 's/^\([0-9]*\) passed, \([0-9]*\) failed$/\1 \2/p')
    if [ -n "$counts" ]; then
        passed=$((passed + ${counts%% *}))
        failed=$((failed + ${counts##* }))
    fi
    [ -n "$counts" ] && [ "$status" -eq 0 -o "${counts##* }" != 0 ] ||
        fail "tests/$1: ended with status $status"
}

if command -v python3 >/dev/null 2>&1; then
    for checks in "$top"/tests/compare*.py; do
        run_checks "$(basename "$checks")" ""
    done
    run_checks hostile.py quick
else
    echo "tests/compare*.py, tests/hostile.py: skipped, as there is no python3:" \
        "the program was not compared with the second implementation"
fi

echo "$passed passed, $failed failed"
[ "$failed" -eq 0 ]
