"""A second implementation of `c5`, written from docs/LOG_FORMAT.md and docs/SCRIPT.md alone and as
plainly as they read, to compare the program with: `python3 tests/reference.py apply|primary <
input`.

A refusal also has the tests that the faulty item or line fails, in the order of the document: the
first of them gives the fault, and the others show whether another order would have given another
one."""
import sys

LIMITS = {"apply": 88_080_384, "backup": 88_080_384, "primary": 4_194_304, "clone": 4_194_304}
KEY = bytes(set(range(0x21, 0x7F)) - {0x22})
TEXT = bytes(set(range(0x20, 0x7F)) - {0x22})
PRINTABLE = bytes(range(0x20, 0x7F))
NAME = b"abcdefghijklmnopqrstuvwxyz0123456789_"
INT, TEXTS = 1, 2
LEAST, MOST = -(1 << 63), (1 << 63) - 1


class Refused(Exception):
    def __init__(self, status, line, failed=()):
        super().__init__(line)
        self.status = status
        self.line = line
        self.failed = list(failed)


def only(part, allowed):
    return not part.translate(None, allowed)


# ---- the log

class BadLog(Refused):
    def __init__(self, offset, kind, failed=()):
        super().__init__(4, f"bad log at {offset} {kind}\n", failed or [kind])


def number_of(part):
    return int.from_bytes(part, "big")


class Log:
    def __init__(self, data):
        self.data = data
        self.at = 0
        self.tables, self.txns = [], []
        self.writes, self.stamp = [], 0

    # The next item, which begins here, has a size and is tested once it is whole.
    def item(self, size, kind, holds):
        part = self.data[self.at:self.at + size]
        if len(part) < size:
            raise BadLog(self.at, "cut", ["cut"] + [kind] * (not holds(part)))
        if not holds(part):
            raise BadLog(self.at, kind)
        self.at += size
        return part

    def small(self, most):
        return self.item(1, "header", lambda part: 1 <= number_of(part) <= most)[0]

    def read_header(self):
        self.item(4, "magic", lambda part: part == b"C5L1"[:len(part)])
        for _ in range(self.small(16)):
            names = [name for name, _ in self.tables]
            name = self.item(self.small(16), "header", lambda part: only(part, NAME)
                             and part not in names)
            types = self.item(self.small(8), "header", lambda part: only(part, bytes([INT, TEXTS])))
            self.tables.append((name, tuple(types)))

    def read(self):
        self.read_header()
        while True:
            frame = Frame(self, self.at)
            first = next((test for test in FRAME_TESTS if FAILS[test](frame)), None)
            if first:
                failed = [test for test in FRAME_TESTS if FAILS[test](frame)]
                raise BadLog(frame.end if first == "after" else self.at, KINDS.get(first, first),
                             failed)
            self.at = frame.end
            if frame.first == b"W":
                self.writes.append((frame.name, frame.row))
            elif frame.first == b"C":
                self.txns.append((number_of(frame.payload[1:5]), frame.stamp, self.writes))
                self.writes, self.stamp = [], frame.stamp
            else:
                return self.tables, self.txns


class Frame:
    """A frame, whose parts are as far as its bytes go."""

    def __init__(self, log, at):
        self.log = log
        length = log.data[at:at + 4]
        self.has_length = len(length) == 4
        self.size = number_of(length) if self.has_length else 5
        self.payload = log.data[at + 4:at + 4 + self.size]
        self.end = at + 4 + self.size
        self.first = self.payload[:1]
        if self.first == b"W":
            self.table = self.payload[1] if len(self.payload) > 1 else 255
            key_length = self.payload[2] if len(self.payload) > 2 else 0
            self.key = self.payload[3:3 + key_length]
            self.has_key = 1 <= key_length <= 32 and len(self.key) == key_length and only(self.key,
                KEY)
            self.name = self.table, self.key
            self.change = self.payload[3 + key_length:]
            self.read_change()
        elif self.first == b"C":
            self.stamp = number_of(self.payload[5:13])

    def read_change(self):
        types = self.log.tables[self.table][1] if self.table < len(self.log.tables) else ()
        self.row, self.has_change = None, self.change == b"\1"
        if self.change[:1] == b"\0":
            self.row = read_cells(types, self.change[1:])
            self.has_change = self.row is not None


# The cells, or None if the bytes are not exactly theirs.
def read_cells(types, rest):
    cells = []
    for cell_type in types:
        size = 8 if cell_type == INT else 1 + rest[0] if rest else 0
        part, rest = rest[:size], rest[size:]
        if not part or len(part) < size:
            return None
        if cell_type == INT:
            cells.append(int.from_bytes(part, "big", signed=True))
        elif size > 33 or not only(part[1:], TEXT):
            return None
        else:
            cells.append(bytes(part[1:]))
    return None if rest else tuple(cells)


def is_write(frame):
    return frame.first == b"W"


# The tests of a frame, in the order of the document: whether it fails.
FAILS = {
    "length": lambda frame: not 5 <= frame.size <= 300,
    "cut": lambda frame: not frame.has_length or len(frame.payload) < frame.size,
    "kind": lambda frame: frame.first not in (b"W", b"C", b"E"),
    "size": lambda frame: frame.first == b"C" and frame.size != 17 or frame.first == b"E"
         and frame.size != 5,
    "table": lambda frame: is_write(frame) and frame.table >= len(frame.log.tables),
    "key": lambda frame: is_write(frame) and not frame.has_key,
    "cell": lambda frame: is_write(frame) and not frame.has_change,
    "order": lambda frame: is_write(frame) and bool(frame.log.writes)
         and frame.name <= frame.log.writes[-1][0],
    "stamp": lambda frame: frame.first == b"C" and frame.stamp <= frame.log.stamp,
    "count": lambda frame: frame.first == b"C"
         and number_of(frame.payload[13:17]) != len(frame.log.writes),
    "end": lambda frame: frame.first == b"E" and (bool(frame.log.writes)
    or number_of(frame.payload[1:5]) != len(frame.log.txns)),
    "after": lambda frame: frame.first == b"E" and frame.end < len(frame.log.data),
}
FRAME_TESTS = list(FAILS)
KINDS = {"size": "length"}


def read_log(data):
    return Log(data).read()


def spelled(tables, txns):
    def frame(payload):
        return len(payload).to_bytes(4, "big") + payload

    def counted(part):
        return bytes([len(part)]) + part

    def cell(value):
        return value.to_bytes(8, "big", signed=True) if isinstance(value, int) else counted(value)

    out = [b"C5L1", bytes([len(tables)])]
    for name, types in tables:
        out += [counted(name), counted(bytes(types))]
    for script, stamp, writes in txns:
        for (table, key), row in writes:
            change = b"\1" if row is None else b"\0" + b"".join(map(cell, row))
            out.append(frame(b"W" + bytes([table]) + counted(key) + change))
        out.append(frame(b"C" + script.to_bytes(4, "big") + stamp.to_bytes(8, "big")
                         + len(writes).to_bytes(4, "big")))
    out.append(frame(b"E" + len(txns).to_bytes(4, "big")))
    return b"".join(out)


# ---- rows

def apply_writes(state, writes):
    for name, row in writes:
        if row is None:
            state.pop(name, None)
        else:
            state[name] = row


def rows_text(tables, state):
    def cell(value):
        return str(value).encode() if isinstance(value, int) else b'"' + value + b'"'

    lines = [b" ".join([tables[table][0], key, *map(cell, state[table, key])]) + b"\n"
             for table, key in sorted(state)]
    return b"".join(lines) + b"rows %d\n" % len(state)


# ---- the script

class Table:
    def __init__(self, name, types):
        self.name, self.types = name, types


# The words of a line, (quoted, bytes), and whether each quoted text is closed, with a space or the
# end of the line after it.
def words_of(line):
    words, at, closed = [], 0, True
    while at < len(line):
        if line[at] == 0x20:
            at += 1
            continue
        if line[at] == 0x22:
            end = line.find(b'"', at + 1)
            if end < 0:
                return words + [(True, line[at + 1:])], False
            words.append((True, line[at + 1:end]))
            at = end + 1
            closed = closed and (at == len(line) or line[at] == 0x20)
        else:
            end = line.find(b" ", at)
            end = len(line) if end < 0 else end
            words.append((False, line[at:end]))
            closed = closed and b'"' not in line[at:end]
            at = end
    return words, closed


# The number that a word is, or None.
def number_in(word):
    quoted, text = word
    digits = text[1:] if text[:1] == b"-" else text
    if quoted or not 1 <= len(digits) <= 19 or not digits.isdigit():
        return None
    return int(text) if LEAST <= int(text) <= MOST else None


def turn_in(word):
    quoted, text = word
    if quoted:
        return None
    if text == b"v":
        return "v", 0
    if text[:1] in (b"w", b"s") and 2 <= len(text) <= 3 and text[1:].isdigit() and text[
        1:2] != b"0" and int(text[1:]) <= 16:
        return text[:1].decode(), int(text[1:])
    return None


# Each statement: which numbers of words it has, and its places. The last place of the first four is
# repeated.
STATEMENTS = {
    b"table": (lambda n: n >= 3, ["NAME", "TYPE"]),
    b"put": (lambda n: n >= 4, ["T", "K", "CELL"]),
    b"sum": (lambda n: n >= 4, ["T", "COL", "K"]),
    b"turns": (lambda n: n >= 2, ["TURN"]),
    b"txn": (lambda n: n == 1, []),
    b"del": (lambda n: n == 3, ["T", "K"]),
    b"need": (lambda n: n == 6, ["T", "K", "COL", "REL", "N"]),
    b"add": (lambda n: n == 5, ["T", "K", "COL", "N"]),
    b"copy": (lambda n: n == 4, ["T", "K", "K"]),
    b"read": (lambda n: n == 2, ["SESSION"]),
    b"row": (lambda n: n == 3, ["T", "K"]),
    b"end": (lambda n: n == 1, []),
    b"log": (lambda n: n == 1, []),
}
REPEATED = (b"table", b"put", b"sum", b"turns")
IN_TXN = (b"put", b"del", b"need", b"add", b"copy")
IN_READ = (b"row", b"sum")
RELATIONS = (b"lt", b"le", b"eq", b"ge", b"gt")


class Script:
    def __init__(self):
        self.tables, self.bodies, self.reads, self.turns = [], [], [], []
        self.block = None

    def known(self, with_log):
        if self.block is not None:
            return (IN_TXN if self.block[0] == "txn" else IN_READ) + (b"end",)
        fresh = not (self.bodies or self.reads or self.turns)
        later = (b"txn", b"read", b"turns") + (b"log",) * with_log if self.tables else ()
        return (b"table",) * fresh + later

    # Whether the statement is within the limits that are tested before its words are counted.
    def is_within(self, first, words):
        lines = self.block[-1] if self.block else []
        inside = self.block[0] if self.block else None
        if first == b"table":
            return len(self.tables) < 16 and len(words) - 2 <= 8
        if first in IN_TXN:
            return inside != "txn" or len(lines) < 256
        if first in IN_READ:
            return (inside != "read" or len(lines) < 16) and not (first == b"sum"
                and len(words) - 3 > 16)
        if first == b"read":
            return len(self.reads) < 256
        if first == b"turns":
            return len(self.turns) + len(words) - 1 <= 65_536
        return first != b"end" or inside != "read" or len(lines) > 0

    # The places of a line that fail, in order, and what its words are: [(place, kind)], [value].
    def places(self, first, words):
        names = STATEMENTS[first][1]
        more = len(words) - 1 - len(names)
        if first in REPEATED:
            names = names + names[-1:] * more
        table, failed, values = None, [], []
        for number, (place, word) in enumerate(zip(names, words[1:])):
            value, kind = None, None
            quoted, text = word
            if place == "NAME":
                value = text
                wrong = quoted or not 1 <= len(text) <= 16 or not only(text, NAME)
                kind = "name" if wrong or any(text == other.name for other in self.tables) else None
            elif place == "TYPE":
                value = {b"int": INT, b"text": TEXTS}.get(text)
                kind = "type" if quoted or value is None else None
            elif place == "T":
                found = [n for n, other in enumerate(self.tables) if not quoted
                         and text == other.name]
                value, kind = (found[0], None) if found else (None, "table")
                table = self.tables[found[0]] if found else None
            elif place == "K":
                value = text
                kind = "key" if quoted or not 1 <= len(text) <= 32 else None
            elif place == "CELL" and table is not None:
                cell = number - 2
                if cell == 0 and len(words) - 3 != len(table.types):
                    failed.append(("CELLS", "count"))
                if cell < len(table.types):
                    value, kind = cell_in(table.types[cell], word)
            elif place == "COL" and table is not None:
                is_column = not quoted and len(text) == 1 and text.isdigit() and int(text) < len(
                    table.types)
                value = int(text) if is_column else None
                kind = "column" if not is_column else "type" if table.types[value] != INT else None
            elif place == "REL":
                value = text.decode("latin-1")
                kind = "word" if quoted or text not in RELATIONS else None
            elif place == "N":
                value = number_in(word)
                kind = "number" if value is None else None
            elif place == "SESSION":
                value = number_in(word)
                kind = "number" if value is None or not 1 <= value <= 16 else None
            elif place == "TURN":
                value = turn_in(word)
                kind = "number" if value is None else None
            values.append(value)
            if kind:
                failed.append((place, kind))
        return failed, values

    # Takes a line, and returns whether it ends the script. The tests that it fails: [(test, kind)].
    def take(self, line, with_log):
        words, closed = words_of(line)
        failed = []
        if not only(line, PRINTABLE):
            failed.append(("byte", "byte"))
        if not closed:
            failed.append(("quote", "quote"))
        if not words:
            return False, failed
        quoted, first = words[0]
        if quoted or first not in self.known(with_log):
            failed.append(("word", "word"))
        values = []
        if not quoted and first in STATEMENTS:
            if not self.is_within(first, words):
                failed.append(("limit", "limit"))
            if not STATEMENTS[first][0](len(words)):
                failed.append(("count", "count"))
            places, values = self.places(first, words)
            failed += places
        if not failed:
            self.add(first, values)
        return not failed and first == b"log", failed

    def add(self, first, values):
        if first == b"table":
            self.tables.append(Table(values[0], tuple(values[1:])))
        elif first == b"txn":
            self.block = ("txn", [])
        elif first == b"read":
            self.block = ("read", values[0], [])
        elif first == b"turns":
            self.turns += values
        elif first == b"end":
            (self.bodies if self.block[0] == "txn" else self.reads).append(self.block[1:]
                if self.block[0] == "read" else self.block[1])
            self.block = None
        elif first == b"put":
            self.block[-1].append(("put", (values[0], values[1]), tuple(values[2:])))
        elif first == b"copy":
            self.block[-1].append(("copy", (values[0], values[1]), (values[0], values[2])))
        elif first == b"sum":
            self.block[-1].append(("sum", values[0], values[1], values[2:]))
        elif first != b"log":
            self.block[-1].append((first.decode(), (values[0], values[1]), *values[2:]))


# The cell that a word is in a column of this type, and the kind of its fault.
def cell_in(cell_type, word):
    quoted, text = word
    if quoted == (cell_type == INT):
        return None, "type"
    if cell_type == INT:
        value = number_in(word)
        return value, "number" if value is None else None
    return text, "limit" if len(text) > 32 else None


# The script, and what follows its `log` line if a log is to follow it.
def read_script(data, with_log=False):
    lines = data.split(b"\n")
    if not lines[-1]:
        lines.pop()
    script, at = Script(), 0
    for number, line in enumerate(lines, 1):
        at += len(line) + 1
        ended, failed = script.take(line, with_log)
        if failed:
            raise Refused(3, f"bad script line {number} {failed[0][1]}\n",
                          [test for test, _ in failed])
        if ended:
            return script, data[at:]
    if with_log or script.block is not None or not script.tables:
        raise Refused(3, f"bad script line {len(lines) + 1} unclosed\n", ["unclosed"])
    return script, b""


def written_names(body):
    for statement in body:
        if statement[0] in ("put", "del", "add"):
            yield statement[1]
        elif statement[0] == "copy":
            yield statement[2]


def check_counts(transactions, names):
    for passed, what in ((transactions > 65_536, "transactions"), (len(names) > 262_144, "writes"),
                         (len(set(names)) > 65_536, "rows")):
        if passed:
            raise Refused(9, f"limit {what}\n")


def check_limits(script):
    check_counts(len(script.bodies), [name for body in script.bodies
                                      for name in written_names(body)])


def check_log_limits(txns):
    check_counts(len(txns), [name for _, _, writes in txns for name, _ in writes])


HOLDS = {"lt": int.__lt__, "le": int.__le__, "eq": int.__eq__, "ge": int.__ge__, "gt": int.__gt__}


# The writes of a body, none where it declines.
def evaluated(body, state):
    state, names = dict(state) if len(state) < 64 else Overlay(state), set()
    for statement in body:
        kind, name = statement[:2]
        row = state.get(name)
        if kind == "put":
            state[name] = statement[2]
        elif kind == "del":
            state[name] = None
        elif kind == "need":
            if row is None or not HOLDS[statement[3]](row[statement[2]], statement[4]):
                return []
        elif kind == "add":
            col = statement[2]
            if row is None or not LEAST <= row[col] + statement[3] <= MOST:
                return []
            state[name] = row[:col] + (row[col] + statement[3],) + row[col + 1:]
        else:
            name = statement[2]
            state[name] = row
        if kind != "need":
            names.add(name)
    return [(name, state.get(name)) for name in sorted(names)]


class Overlay(dict):
    def __init__(self, below):
        super().__init__()
        self.below = below

    def get(self, name, default=None):
        return self[name] if name in self else self.below.get(name, default)


def run_serial(script):
    state, txns = {}, []
    for number, body in enumerate(script.bodies):
        writes = evaluated(body, state)
        apply_writes(state, writes)
        txns.append((number, number + 1, writes))
    return txns


# ---- commands

def apply(data):
    tables, txns = read_log(data)
    check_log_limits(txns)
    state = {}
    for _, _, writes in txns:
        apply_writes(state, writes)
    return rows_text(tables, state)


def primary(data):
    script, _ = read_script(data)
    check_limits(script)
    return spelled([(table.name, table.types) for table in script.tables], run_serial(script))


# The status and the bytes that the command prints for an input, and the tests that the input fails.
def answer(command, data):
    if len(data) > LIMITS[command]:
        return 8, b"too long\n", []
    try:
        return 0, {"apply": apply, "primary": primary}[command](data), []
    except Refused as refused:
        return refused.status, refused.line.encode(), refused.failed


if __name__ == "__main__":
    status, printed, _ = answer(sys.argv[1], sys.stdin.buffer.read())
    sys.stdout.buffer.write(printed)
    sys.exit(status)
