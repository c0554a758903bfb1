"""What `primary --threads`, `backup` and `clone` print isn't one text: which order and which places
come is free. These checks say whether a printed text is right by what it means: each function
returns None, or why it is wrong."""
import collections
import re

import reference

HEAD = re.compile(rb"read ([1-9]\d*) place (0|[1-9]\d*) lag (0|[1-9]\d*)")
ORDER = re.compile(rb"order((?: (?:0|[1-9]\d*))*)")


# ---- what a text must be

def row_line(tables, name, row):
    cells = [b"-"] if row is None else [b"%d" % cell if isinstance(cell, int)
                                        else b'"' + cell + b'"' for cell in row]
    return b" ".join([tables[name[0]][0], name[1], *cells])


def answer_line(tables, line, state):
    if line[0] == "row":
        return row_line(tables, line[1], state.get(line[1]))
    _, table, col, keys = line
    rows = [state.get((table, key)) for key in keys]
    return b"sum %d" % sum(row[col] for row in rows if row is not None)


def in_reply_order(reads):
    return sorted(reads, key=lambda read: read[0])


class States:
    """The rows after so many of the transactions. To ask for ascending places is cheap."""

    def __init__(self, txns):
        self.txns = txns
        self.place, self.rows = 0, {}

    def after(self, place):
        if place < self.place:
            self.place, self.rows = 0, {}
        for _, _, writes in self.txns[self.place:place]:
            reference.apply_writes(self.rows, writes)
        self.place = place
        return self.rows


# Whether the lines are the replies, and then the rows, of these transactions.
def wrong_replies(tables, reads, txns, lines):
    states, last, lines = States(txns), {}, collections.deque(lines)
    for session, block in in_reply_order(reads):
        head = HEAD.fullmatch(lines.popleft()) if lines else None
        if not head:
            return "a head is missing"
        of, place, lag = map(int, head.groups())
        if of != session or place + lag != len(txns) or place < last.get(session, 0):
            return (f"the head is {head.group()!r}, after place {last.get(session, 0)} "
                    f"of session {session}")
        last[session] = place
        for line in block:
            want, got = answer_line(tables, line,
                                    states.after(place)), lines.popleft() if lines else b""
            if got != want:
                return f"at place {place} the answer is {got!r}, not {want!r}"
    if b"".join(line + b"\n" for line in lines) != reference.rows_text(tables,
        states.after(len(txns))):
        return "the rows are others"
    return None


# The transactions of the bodies in this order.
def run_in_order(script, order):
    state, txns = {}, []
    for place, number in enumerate(order):
        writes = reference.evaluated(script.bodies[number], state)
        reference.apply_writes(state, writes)
        txns.append((number, place + 1, writes))
    return txns


def names_and_types(script):
    return [(table.name, table.types) for table in script.tables]


# ---- the commands

def wrong_order(script, order):
    return None if sorted(order) == list(
        range(len(script.bodies))) else f"the order is {order[:20]}"


def wrong_primary(script, printed):
    tables, txns = reference.read_log(printed)
    order = [number for number, _, _ in txns]
    if tables != names_and_types(script):
        return "the tables are others"
    if wrong_order(script, order):
        return wrong_order(script, order)
    want = run_in_order(script, order)
    if [writes for _, _, writes in txns] != [writes for _, _, writes in want]:
        return "the writes aren't those of a serial run in the log's order"
    return None


def wrong_clone(script, printed):
    lines = printed.split(b"\n")
    if lines.pop() != b"":
        return "the last line has no end"
    order = ORDER.fullmatch(lines[0])
    if not order:
        return f"the first line is {lines[0][:40]!r}"
    order = [int(number) for number in order.group(1).split()]
    return wrong_order(script, order) or wrong_replies(names_and_types(script), script.reads,
                                                       run_in_order(script, order), lines[1:])


# Whether a text that isn't wrong has the transactions in the order of the script.
def is_script_order(command, printed):
    if command == "primary":
        order = [number for number, _, _ in reference.read_log(printed)[1]]
    else:
        order = [int(number) for number in printed.split(b"\n")[0].split()[1:]]
    return order == sorted(order)


def wrong_backup(parts, printed):
    script, txns = parts
    lines = printed.split(b"\n")
    if lines.pop() != b"":
        return "the last line has no end"
    return wrong_replies(names_and_types(script), script.reads, txns, lines)


# What the command accepts of an input; it raises `Refused` with the answer to any other.
def script_within(data):
    script, _ = reference.read_script(data)
    reference.check_limits(script)
    return script


def backup_parts(data):
    script, rest = reference.read_script(data, with_log=True)
    tables, txns = reference.read_log(rest)
    if list(tables) != names_and_types(script):
        raise reference.BadLog(4, "header")
    reference.check_log_limits(txns)
    return script, txns


COMMANDS = {"primary": (script_within, wrong_primary), "clone": (script_within, wrong_clone),
            "backup": (backup_parts, wrong_backup)}


# Why the answer of a command to an input is wrong, or None; and the answer's status and text, if it
# is a refusal.
def wrong(command, data, status, printed):
    accept, check = COMMANDS[command]
    try:
        if len(data) > reference.LIMITS[command]:
            raise reference.Refused(8, "too long\n")
        accepted = accept(data)
    except reference.Refused as refused:
        if (status, printed) != (refused.status, refused.line.encode()):
            return f"{status} {printed[:100]!r}, not {refused.status} {refused.line!r}"
        return None
    if status != 0:
        return f"{status} {printed[:100]!r}, not accepted"
    return check(accepted, printed)
