# Reads documents, and prints what tests/run.sh is to run of them: `awk -v of=faults|commands -f
# tests/documents.awk FILE ..`.
#
# of=faults: the rows of the tables of faults, as a file of cases (see cases.awk). Such a row ends
# with two cells in backquotes, an input and the line that is printed for it: `bad log at ..` or
# `bad script line ..`. An input of a log is in hexadecimal, where a row of two cells `NAME` and
# `HEX ..` before it names bytes; in a script ` / ` is a line end. An input without backquotes has
# no bytes.
#
# of=commands: the fenced blocks `console`, as the steps of cases.awk. A line that begins with `$ `
# is a command, and the lines up to the next are what it prints on standard output. A fenced block
# `sh` has commands that take long or run these tests themselves; each must be a file of the
# repository.

function trimmed(text) {
    gsub(/^ +| +$/, "", text)
    return text
}

function is_code(cell) {
    return cell ~ /^`[^`]*`$/
}

function code(cell) {
    return is_code(cell) ? substr(cell, 2, length(cell) - 2) : ""
}

function end_command() {
    if (shown != "") print "output " output "\nrun"
    shown = ""
}

BEGIN { LONG = "^(bash|sh|python3) (\\.ci/run|tests/[a-z]+\\.(sh|py)|bench/[a-z]+\\.sh)( |$)" }

# ---- faults

of == "faults" && /^\|/ {
    n = split($0, cells, "|")
    for (i = 1; i <= n; i++) cells[i] = trimmed(cells[i])
    last = cells[n - 1]
    if (code(cells[2]) ~ /^[A-Z]+$/ && is_code(cells[3])) {
        if (n >= 4) print "@let " code(cells[2]) " " code(cells[3])
        next
    }
    if (code(last) !~ /^bad (log at|script line) /) next
    is_log = code(last) ~ /^bad log/
    if (!begun) print (is_log ? "@input hex" : "@input text") "\n@output text"
    begun = 1
    print "case line " FNR
    if (is_log) print code(cells[n - 2])
    else if (is_code(cells[n - 2])) print "*1 " code(cells[n - 2])
    print "=> " (is_log ? 4 : 3) "\n" code(last)
}

# ---- commands

of == "commands" && /^```/ {
    end_command()
    inside = inside == "" ? substr($0, 4) : ""
    if (inside == "" || inside == "console" || inside == "sh") next
    if (inside !~ /^[a-z]+$/) inside = "text"
    next
}
of == "commands" && inside == "console" && /^\$ / {
    end_command()
    shown = substr($0, 3)
    output = ""
    print "case " FILENAME " line " FNR "\nshown " shown
    next
}
of == "commands" && inside == "console" { output = output $0 "\\0012"; next }
of == "commands" && inside == "sh" && $0 !~ LONG {
    print "wrong " FILENAME ":" FNR ": a command that is not run: " $0
}
