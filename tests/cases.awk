# Reads a file of cases, and prints what tests/run.sh does for each, one step a line:
# `awk -v file=NAME -f tests/cases.awk FILE`.
#
#   # ..                  a comment; in hexadecimal also at the end of a line
#   @input hex|text       how the inputs of the file are written
#   @output hex|text      how the outputs after status 0 are written; after any other status they
#                         are text
#   @let NAME HEX ..      NAME is these bytes in the lines in hexadecimal that follow
#   case NAME             begins a case; its name says what it shows
#   @words WORD ..        the words of the command line, if not the file's name alone
#   @from PATH            standard input is this file
#   @to PATH              standard output goes to this file, and is not compared
#   @zeros N              the input is N bytes 00
#   LINE                  text: a line of the input. \0NNN is the byte of these three octal digits,
#                         \t a tab, \r a carriage return, \\ a backslash; after \c at its end the
#                         line has no line end
#   *N LINE               text: N lines; ` / ` in LINE is a line end
#   @times N .. @done     text: the lines between, N times
#   HEX ..                hex: bytes; HEX*N is one byte N times
#   @hex HEX ..           bytes in hexadecimal, in an input that is text
#   => STATUS             what follows is the output; empty lines before the next case aren't part
#                         of it
#   => STATUS size N      the output has N bytes
#
# A byte is printed as an octal escape of printf, and a line that is repeated as `part N LINES
# ESCAPES`.

# The escapes of a line in hexadecimal.
function bytes_of(line,    words, n, i, high, one, out, times) {
    sub(/#.*/, "", line)
    n = split(line, words, " ")
    out = ""
    for (i = 1; i <= n; i++) {
        if (words[i] in named) {
            out = out named[words[i]]
            continue
        }
        times = 1
        if (words[i] ~ /^[0-9A-F][0-9A-F]\*[0-9]+$/) {
            times = substr(words[i], 4) + 0
        } else if (words[i] !~ /^[0-9A-F][0-9A-F]$/) {
            wrong("no byte in hexadecimal: " words[i])
            continue
        }
        high = index(DIGITS, substr(words[i], 1, 1)) - 1
        one = octal(high * 16 + index(DIGITS, substr(words[i], 2, 1)) - 1)
        for (; times > 0; times--) out = out one
    }
    return out
}

function octal(number) {
    return sprintf("\\0%d%d%d", int(number / 64), int(number / 8) % 8, number % 8)
}

# The escapes of a line of text.
function line_of(text) {
    return text ~ /\\c$/ ? substr(text, 1, length(text) - 2) : text "\\0012"
}

function wrong(why) {
    print "wrong " file ":" FNR ": " why
}

# Adds to the input what is there once.
function add(escapes) {
    once = once escapes
}

function add_times(times, lines, escapes) {
    flush()
    print "part " times " " lines " " escapes
}

function flush() {
    if (once != "") print "part 1 0 " once
    once = ""
}

function finish() {
    if (state == "") return
    if (state != "output") wrong("a case without =>")
    if (sized == "") {
        sub(/(\\0012)+$/, "\\0012", output)
        if (output == "\\0012") output = ""
        print "output " output
    }
    print "run"
    state = ""
}

BEGIN { DIGITS = "0123456789ABCDEF" }

/^case / {
    finish()
    print "case " substr($0, 6)
    state = "input"; once = ""; output = ""; sized = ""; block = 0
    next
}

state == "" && /^@input / { input = $2; next }
state == "" && /^@output / { kind = $2; next }
/^@let / { name = $2; line = $0; sub(/^@let +[^ ]+/, "", line); named[name] = bytes_of(line); next }
state != "output" && /^#/ { next }
state == "" && /^ *$/ { next }
state == "" { wrong("a line before the first case"); next }

state == "input" && /^@words/ { print "words " substr($0, 8); next }
state == "input" && /^@(from|to|zeros) / { print substr($0, 2); next }
state == "input" && /^=> / {
    if (block) wrong("@times without @done")
    flush()
    print "status " $2
    status = $2
    state = "output"
    if ($3 == "size") { sized = $4; print "size " sized }
    next
}
state == "input" && /^@hex / { add(bytes_of(substr($0, 6))); next }
state == "input" && input == "hex" { add(bytes_of($0)); next }
state == "input" && /^@times / { flush(); times = $2; block = 1; lines = 0; next }
state == "input" && /^@done/ {
    line = once
    once = ""
    add_times(times, lines, line)
    block = 0
    next
}
state == "input" && /^\*[0-9]+/ {
    n = substr($1, 2) + 0
    line = $0
    sub(/^\*[0-9]+ ?/, "", line)
    inside = 1 + gsub(/ \/ /, "\\0012", line)
    if (!block) { add_times(n, inside, line_of(line)); next }
    for (; n > 0; n--) { add(line_of(line)); lines += inside }
    next
}
state == "input" { add(line_of($0)); lines++; next }

state == "output" && /^#/ { next }
state == "output" && kind == "hex" && status == 0 { output = output bytes_of($0); next }
state == "output" { output = output line_of($0); next }

END { finish() }
