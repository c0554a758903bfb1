"""Runs the built program and the second implementation (reference.py) on inputs made from a seed,
most of them faulty, and prints how many answers agree: `python3 tests/compare.py [COUNT [SEED]]`.

It also fails if the inputs of its seed never give some kind of fault or some status, or if they
wouldn't notice a changed order of two tests: for each pair of tests that one item of a log or one
line of a script can fail both, some input must do so."""
import collections
import glob
import os
import random
import subprocess
import sys

import meaning
import reference

TOP = os.path.dirname(os.path.dirname(os.path.abspath(__file__)))
PROGRAM = os.path.join(TOP, "crates", "c5", "out", "c5")

LOG_KINDS = ["magic", "header", "length", "kind", "table", "key", "cell", "order", "stamp",
             "count", "end", "cut", "after"]
SCRIPT_KINDS = ["byte", "quote", "word", "limit", "count", "name", "table", "key", "column",
                "type", "number", "unclosed"]
LIMIT_LINES = ["transactions", "writes", "rows"]
ANSWERS = ([("apply", "ok"), ("primary", "ok"), ("apply", "too long"), ("primary", "too long")]
           + [("apply", f"bad log {kind}") for kind in LOG_KINDS]
           + [("primary", f"bad script {kind}") for kind in SCRIPT_KINDS]
           + [(command, f"limit {line}") for command in ("apply", "primary") for line in LIMIT_LINES]
           + [(command, f"{what} fails") for command in ("apply", "primary", "backup", "clone")
              for what in ("read", "write")]
           + [("words", "bad words"), ("clone", "ok"), ("clone", "too long"), ("backup", "ok"),
              ("backup", "too long")]
           + [("clone", f"bad script {kind}") for kind in SCRIPT_KINDS]
           + [("backup", f"bad script {kind}") for kind in SCRIPT_KINDS]
           + [("backup", f"bad log {kind}") for kind in LOG_KINDS]
           + [("clone", f"limit {line}") for line in LIMIT_LINES]
           + [("backup", f"limit {line}") for line in LIMIT_LINES])

# Pairs of tests that one item or line can fail both, the one that comes first first.
FRAME_PAIRS = [("length", "cut"), ("length", "kind"), ("table", "key"), ("table", "cell"),
               ("key", "cell"), ("key", "order"),
               ("cell", "order"), ("stamp", "count"), ("end", "after"), ("length", "size")]
FRAME_PAIRS += [("size", later) for later in ("stamp", "count", "end", "after")]
FRAME_PAIRS += [("cut", later) for later in ("magic", "header", "kind", "size", "table", "key",
                                             "cell", "order", "stamp", "count", "end")]
LINE_PAIRS = [("byte", "quote"), ("byte", "word"), ("byte", "limit"), ("byte", "count"),
              ("byte", "K"), ("quote", "word"),
              ("quote", "limit"), ("quote", "count"), ("quote", "N"), ("word", "limit"),
              ("word", "count"), ("word", "T"),
              ("limit", "count"), ("limit", "T"), ("limit", "TYPE"), ("count", "T"),
              ("count", "K"), ("count", "N"), ("count", "SESSION"),
              ("NAME", "TYPE"), ("T", "K"), ("T", "N"), ("K", "CELLS"), ("K", "CELL"),
              ("CELLS", "CELL"), ("K", "COL"),
              ("K", "N"), ("COL", "REL"), ("COL", "N"), ("COL", "K"), ("REL", "N"),
              ("count", "COL"), ("count", "REL"), ("T", "REL"), ("K", "REL")]
PAIRS = [("apply", pair) for pair in FRAME_PAIRS] + [("primary", pair) for pair in LINE_PAIRS]


# ---- logs

def random_tables(rand):
    names = rand.sample(["acct", "t", "b_1", "x" * 16, "rows", "log"], rand.randint(1, 3))
    return [(name.encode(), tuple(rand.choice((1, 2)) for _ in range(rand.randint(1,
        rand.choice((2, 8)))))) for name in names]


def random_row(rand, types):
    return tuple(rand.choice((0, 7, -5, reference.MOST, reference.LEAST)) if cell == 1
                 else bytes(rand.choice(b"ab z") for _ in range(rand.choice((0, 1, 5, 32))))
                 for cell in types)


def random_log(rand):
    tables, txns, stamp = random_tables(rand), [], 0
    for _ in range(rand.randint(0, 4)):
        names = {(rand.randrange(len(tables)), rand.choice((b"a", b"b", b"ab", b"~", b"k" * 32)))
                 for _ in range(rand.randint(0, 4))}
        writes = [(name, rand.choice((None, random_row(rand, tables[name[0]][1]))))
                  for name in sorted(names)]
        stamp += rand.choice((1, 1, 5, 1 << 40))
        txns.append((rand.randrange(1 << 32), stamp, writes))
    return bytearray(reference.spelled(tables, txns))


# The header and the payloads of a log.
def pieces(data):
    log = reference.Log(bytes(data))
    log.read_header()
    payloads, at = [], log.at
    while at < len(data):
        size = int.from_bytes(data[at:at + 4], "big")
        payloads.append(bytearray(data[at + 4:at + 4 + size]))
        at += 4 + size
    return data[:log.at], payloads


def change_number(rand, payload, at, size):
    number = int.from_bytes(payload[at:at + size], "big")
    changed = rand.choice((0, number + 1, number - 1, number * 2, (1 << 8 * size) - 1)) % (
        1 << 8 * size)
    payload[at:at + size] = changed.to_bytes(size, "big")


def change_write(rand, payload):
    what = rand.randrange(9)
    if what == 0:
        payload[1] = rand.choice((3, 16, 255))
    elif what == 1:
        payload[2] = rand.choice((0, 33, 255, (payload[2] + 1) % 256, (payload[2] - 1) % 256))
    elif what == 2 and payload[2]:
        payload[3 + rand.randrange(payload[2]) % (len(payload) - 3)] = rand.choice(
            (0x20, 0x22, 0x7F, 0))
    elif what == 3:
        at = min(3 + payload[2], len(payload) - 1)
        payload[at] = rand.choice((2, 0, 1, 255))
    elif what == 4:
        payload.append(rand.choice((0, 0x61)))
    elif what == 5:
        del payload[-1]
    else:
        payload[3] = rand.choice((0x21, 0x61))


def change_payload(rand, payload):
    if rand.random() < 0.1:
        payload[0] = rand.choice((0x57, 0x43, 0x45, 0x58, 0))
    elif payload[0] == 0x57 and len(payload) > 4:
        change_write(rand, payload)
    elif payload[0] == 0x43 and len(payload) >= 17:
        change_number(rand, payload, *rand.choice(((5, 8), (5, 8), (13, 4), (13, 4), (1, 4))))
    elif payload[0] == 0x45 and len(payload) >= 5:
        change_number(rand, payload, 1, 4)
    if rand.random() < 0.05:
        payload += b"\0" * rand.choice((1, 4, 300))


# A log of which one frame is changed, mostly in two places.
def frame_input(rand):
    data = random_log(rand)
    header, payloads = pieces(data)
    at = rand.randrange(len(payloads))
    for _ in range(rand.choice((1, 2, 2, 3))):
        change_payload(rand, payloads[at])
    if rand.random() < 0.2:
        payloads[at:at] = [bytearray(rand.choice(payloads))]
    out = bytes(header)
    for number, payload in enumerate(payloads):
        size = len(payload)
        if number == at and rand.random() < 0.15:
            size = rand.choice((0, 4, 5, 300, 301, (1 << 32) - 1, size + 1, size - 1)) % (1 << 32)
        out += size.to_bytes(4, "big") + bytes(payload)
        if number == at and rand.random() < 0.35:
            return out[:-rand.choice((1, 1, 2, 5))]
    return out + bytes(rand.choice((0, 0, 0, 1, 59)))


# A log of which a few bytes are changed, added or left out.
def bytes_input(rand):
    data = random_log(rand)
    most = rand.choice((5, 10, 40, 1 << 20))
    for _ in range(rand.choice((0, 1, 1, 1, 2))):
        at = rand.randrange(min(len(data), most)) if data else 0
        kind = rand.randrange(6)
        if kind == 0:
            del data[at:]
        elif kind == 1:
            data[at:at] = bytes([rand.randrange(256)])
        elif kind == 2 and data:
            del data[at]
        elif kind == 3 and data:
            data[at] = rand.choice((0, 1, 2, 5, 16, 17, 33, 255, data[at] ^ 1))
        elif kind == 4:
            data += bytes([rand.randrange(256)])
        elif data:
            data[at] = rand.randrange(256)
    if rand.random() < 0.2:
        del data[rand.randrange(min(len(data), most) + 1):]
    return bytes(data)


def log_input(rand):
    return rand.choice((frame_input, frame_input, bytes_input))(rand)


# ---- scripts

NUMBERS = ["0", "1", "-1", "10", "-0", "007", "9223372036854775807", "-9223372036854775808"]
BAD_NUMBERS = ["9223372036854775808", "-9223372036854775809", "00000000000000000005", "+1", "1x",
               "-", '"1"', "99999999999999999999", "x"]
TEXTS = ['""', '"x"', '"hello world"', '"' + "a" * 32 + '"']
# What a word becomes when it is spoilt.
SPOILT = ["frob", '"a"', '"a"', "x" * 33, "x" * 33, "9", "00", "17", "-", "1x",
          '"' + "a" * 33 + '"', "ne", "A", "9223372036854775808", "w01", "s17", "real", "17"]


def cell_of(rand, kind):
    return rand.choice(NUMBERS[:7]) if kind == "int" else rand.choice(TEXTS)


def statement_of(rand, tables):
    name = rand.choice(list(tables))
    types = tables[name]
    ints = [str(n) for n, kind in enumerate(types) if kind == "int"]
    key, other = rand.choice(["a", "b", "ab", "k" * 32]), rand.choice(["a", "b", "c"])
    forms = [["put", name, key, *(cell_of(rand, kind) for kind in types)]] * 2 + [
        ["del", name, key], ["copy", name, key, other]]
    if ints:
        col, n = rand.choice(ints), rand.choice(NUMBERS)
        forms += [["need", name, key, col, rand.choice(["lt", "le", "eq", "ge", "gt"]), n],
                  ["add", name, key, col, n]]
    return rand.choice(forms)


def question_of(rand, tables):
    name = rand.choice(list(tables))
    ints = [str(n) for n, kind in enumerate(tables[name]) if kind == "int"]
    keys = [rand.choice(["a", "b", "ab"]) for _ in range(rand.choice((1, 2, 16)))]
    return ["sum", name, rand.choice(ints), *keys] if ints and rand.random() < 0.5 else ["row",
        name, keys[0]]


def script_lines(rand):
    tables = {name: [rand.choice(("int", "int", "text")) for _ in range(rand.choice((1, 1, 2, 8)))]
              for name in ["acct", "t"][:rand.choice((1, 1, 2))]}
    lines = [["table", name, *types] for name, types in tables.items()]
    for _ in range(rand.choice((1, 2, 6, 15))):
        what = rand.random()
        if what < 0.6:
            lines += [["txn"], *(statement_of(rand, tables)
                                 for _ in range(rand.choice((0, 1, 2, 5)))), ["end"]]
        elif what < 0.85:
            lines += [["read", rand.choice(["1", "16", "007"])],
                      *(question_of(rand, tables) for _ in range(rand.choice((1, 2, 16)))), ["end"]]
        else:
            lines.append(["turns", *(rand.choice(["w1", "w16", "v", "s1", "s12"])
                                     for _ in range(rand.choice((1, 3))))])
    return lines


def spoil(rand, words):
    what = rand.randrange(10)
    if what < 5:
        words[rand.randrange(len(words))] = rand.choice(SPOILT)
    elif what == 5 and len(words) > 1:
        del words[rand.randrange(1, len(words))]
    elif what == 6:
        words += [rand.choice(["x", "a", "1", '"x"'])] * rand.choice((1, 1, 2, 15, 17))
    elif what == 7:
        words[-1] += rand.choice(["\t", "\r", "\x7f", "\x80", "\0"])
    elif what == 8:
        words[-1] = rand.choice(['"open', 'a"b', '"x"y'])
    else:
        words[0] = rand.choice(["table", "txn", "put", "del", "need", "add", "copy", "read", "row",
                                "sum", "end", "turns", "log", "frob", '"txn"'])


# Makes some words after the first one wrong, and mostly keeps their number.
def spoil_places(rand, words):
    first = rand.choice((1, 1, 2, 2, 3))
    places = range(min(first, len(words) - 1), len(words))
    for at in rand.sample(places, min(len(places), rand.choice((1, 2, 2, 3)))):
        words[at] = rand.choice(SPOILT)
    if rand.random() < 0.2:
        words.append(rand.choice(SPOILT))


# A script, mostly with a line that is spoilt in one to three places, copied, moved or left out.
def script_input(rand):
    lines = script_lines(rand)
    if rand.random() < 0.9:
        at = rand.randrange(len(lines))
        what = rand.randrange(12)
        if what < 5:
            for _ in range(rand.choice((1, 2, 2, 3))):
                spoil(rand, lines[at])
        elif what >= 8:
            longer = [words for words in lines if len(words) > 3]
            spoil_places(rand, rand.choice(longer or lines[:1]))
        elif what == 5:
            lines.insert(at, list(lines[rand.randrange(len(lines))]))
        elif what == 6:
            del lines[at]
        else:
            lines.insert(rand.randrange(len(lines)), lines.pop(at))
        if rand.random() < 0.05:
            del lines[at:]
    text = "\n".join(rand.choice((" ", " ", "  ")).join(words) for words in lines)
    return (text + rand.choice(("\n", "\n", "", "\n\n"))).encode("latin-1")


# A script of which one line is of any form, and is spoilt in some of its places.
def line_input(rand):
    tables = {"acct": ["int", "text", "int"], "t": ["int"]}
    inside = rand.choice(("txn", "txn", "txn", "read 1", ""))
    line = {"txn": lambda: statement_of(rand, tables), "read 1": lambda: question_of(rand, tables),
            "": lambda: rand.choice([["table", "u", "int", "text"], ["read", "1"],
                                     ["turns", "w1", "v", "s1"]])}[inside]()
    rand.choice((spoil_places, spoil_places, spoil))(rand, line)
    if rand.random() < 0.3:
        spoil(rand, line)
    lines = ["table acct int text int", "table t int", inside, " ".join(line), "end"]
    return "\n".join(lines).encode("latin-1")


# A script that passes a limit of one line, whose words are spoilt too.
def limit_input(rand):
    head, lines = rand.choice([
        (["table acct int", "txn"], ["del acct a"] * 256 + ["put acct a 1"]),
        (["table acct int"], ["read 1", "row acct a", "end"] * 256 + ["read 2"]),
        (["table acct int", "read 1"], ["row acct a"] * 16 + ["sum acct 0 a"]),
        (["table acct int", "read 1"], ["sum acct 0 " + " ".join(["a"] * 17)]),
        (["table acct int", "txn"], ["sum acct 0 " + " ".join(["a"] * 17)]),
        (["table acct int", "read 1"], ["end"]),
        ([f"table t{number} int" for number in range(16)], ["table t int"]),
        (["table acct int"], ["turns " + " ".join(["v"] * 65_536), "turns w1"]),
        ([], ["table t" + " int" * 9])])
    last = lines[-1].split(" ")
    for _ in range(rand.choice((0, 1, 1, 2))):
        spoil(rand, last)
    return "\n".join(head + lines[:-1] + [" ".join(last)] + ["end"]).encode("latin-1")


# A script whose bodies set many rows, their names in rising, falling or any order.
def wide_script(rand):
    lines = ["table t int int", "table u text int"]
    for _ in range(rand.randint(1, 12)):
        keys = [rand.randrange(rand.choice((3, 40, 400))) for _ in range(rand.choice((5, 40, 120)))]
        rand.choice((keys.sort, lambda: keys.sort(reverse=True), lambda: None))()
        lines.append("txn")
        for key in keys:
            lines += rand.choice(([f"put t k{key:03d} {rand.randrange(-5, 100)} 1"],
                                  [f'put u k{key:03d} "x" {key}'],
                                  [f"put t k{key:03d} 5 5", f"add t k{key:03d} 1 2"],
                                  [f"copy u k{key:03d} k{rand.randrange(400):03d}"],
                                  [f"del {rand.choice('tu')} k{key:03d}"]))
        lines.append("end")
    return ("\n".join(lines) + "\n").encode()


# A script whose transactions read and write few rows, so that they conflict if they run at the same
# time.
def contended(rand):
    keys = [f"k{number}" for number in range(rand.choice((1, 2, 6)))]
    lines = ["table t int"]
    for number in range(rand.choice((20, 100, 300))):
        key, other = rand.choice(keys), rand.choice(keys)
        lines += ["txn", *rand.choice(([f"put t {key} {number}"], [f"copy t {key} {other}"],
                                       [f"del t {key}", f"copy t {other} {key}"],
                                       [f"need t {key} 0 ge {number % 7}", f"add t {key} 0 -1",
                                        f"add t {other} 0 1"],
                                       [f"add t {key} 0 1", f"put t own{number} {number}"])), "end"]
    for number in range(6):
        lines += [f"read {rand.randint(1, 3)}", f"row t {rand.choice(keys)}",
                  f"sum t 0 {' '.join(keys)}", "end"]
    return "\n".join(lines).encode()


# A script, a `log` line and a log, mostly one with the tables of the script.
def backup_input(rand):
    lines = [words for words in script_lines(rand) if words[0] != "turns"]
    text = "\n".join(" ".join(words) for words in lines) + "\n" + rand.choice(("log\n", "log\n",
        "log\n", " log \n", "log", ""))
    if rand.random() < 0.2:
        return text.encode() + log_input(rand)
    if rand.random() < 0.05:
        return "\n".join(" ".join(words) for words in lines).encode()
    try:
        script, _ = reference.read_script(text.encode(), with_log=True)
    except reference.Refused:
        return text.encode() + bytes(random_log(rand))
    log = bytearray(reference.spelled(meaning.names_and_types(script),
                                      reference.run_serial(script)))
    what = rand.random()
    if what < 0.1:
        log[rand.randrange(len(log))] ^= 1
    elif what < 0.2:
        del log[rand.randrange(len(log)):]
    elif what < 0.3:
        header, payloads = pieces(log)
        change_payload(rand, rand.choice(payloads))
        log = header + b"".join(len(payload).to_bytes(4, "big") + payload for payload in payloads)
    elif what < 0.35:
        log += b"\0"
    return text.encode() + bytes(log)


# A script without faults, and a log with any.
def backup_of_log(rand):
    return b"table acct int\nlog\n" + log_input(rand)


# A script with one line of any form that is spoilt, and a log.
def backup_of_line(rand):
    return rand.choice([line_input] * 6 + [script_input] * 3
                       + [limit_input])(rand) + b"\nlog\n" + bytes(random_log(rand))


# The scripts of examples/: (name, input).
def examples():
    for path in sorted(glob.glob(os.path.join(TOP, "examples", "*.c5s"))):
        with open(path, "rb") as source:
            yield os.path.basename(path), source.read()


# Inputs at the limits of their counts: (command, what it is, input).
def large_inputs():
    acct = [(b"acct", (1,))]
    writes = [((0, b"%07d" % number), (number,)) for number in range(262_144)]
    yield "apply", "262144 writes in one transaction", reference.spelled(acct, [(0, 1, writes)])
    yield "apply", "65536 transactions without writes", reference.spelled(acct,
        [(0, number + 1, []) for number in range(65_536)])
    yield "apply", "65537 transactions without writes", reference.spelled(acct,
        [(0, number + 1, []) for number in range(65_537)])
    yield "apply", "65536 puts of ascending keys", reference.spelled(acct,
        [(0, 1, writes[:65_536])])
    yield "apply", "65537 puts of ascending keys", reference.spelled(acct,
        [(0, 1, writes[:65_537])])
    for count in (262_144, 262_145):
        yield "apply", f"{count} writes of eight rows", reference.spelled(
            acct, [(0, number + 1, writes[:min(8, count - 8 * number)])
                   for number in range((count + 7) // 8)])
    yield "apply", "a byte too many", bytes(reference.LIMITS["apply"] + 1)
    yield "primary", "a byte too many", b"\n" * (reference.LIMITS["primary"] + 1)
    yield ("primary", "a line of 4 million bytes",
           b"table acct int\ntxn\n" + b"x " * 2_000_000 + b"\nend\n")
    yield ("primary", "a text of 4 million bytes",
           b"table t text\ntxn\nput t k \"" + b"x" * 4_000_000 + b"\"\nend\n")
    yield "primary", "65537 transactions", b"table acct int\n" + b"txn\nend\n" * 65_537
    yield "primary", "262145 writes", b"table acct int\n" + (b"txn\n" + b"del acct a\n" * 256
        + b"end\n") * 1024 + b"txn\ndel acct a\nend\n"
    rows = b"".join(b"txn\n" + b"".join(b"del t %d\n" % (block * 256 + n) for n in range(256))
                    + b"end\n" for block in range(256))
    yield "primary", "65536 rows", b"table t int\n" + rows
    yield "primary", "65537 rows", b"table t int\n" + rows + b"txn\ndel t 65536\nend\n"


# ---- comparing

class Comparison:
    def __init__(self):
        self.passed = self.failed = 0
        self.answers = collections.Counter()
        self.mixed = 0
        self.pairs = collections.Counter()

    def count(self, holds, why):
        if holds:
            self.passed += 1
        else:
            self.failed += 1
            print(why)

    def compare(self, command, name, data):
        status, printed, failed = reference.answer(command, data)
        self.answers[command, answer_name(status, printed)] += 1
        self.pairs.update((command, (failed[0], later)) for later in set(failed[1:]))
        self.run([command], name, data, status, printed)

    def run(self, words, name, data, status, printed, **streams):
        how = {"input": data} if "stdin" not in streams else {}
        ended = subprocess.run([PROGRAM, *words], stdout=streams.get("stdout", subprocess.PIPE),
                             stderr=subprocess.DEVNULL,
                             **how, **{key: value for key, value in streams.items()
                                       if key != "stdout"})
        got = (ended.returncode, ended.stdout or b"")
        self.count(got == (status, printed),
            f"{' '.join(words)} on {name[:2000]}: {got[0]} {got[1][:200]!r}, "
            f"not {status} {printed[:200]!r}")

    # A command whose answer isn't one text: it is right by what it means.
    def compare_meaning(self, rand, command, data, name=None):
        words = [command]
        for option in {"primary": ["--threads"], "backup": ["--workers"],
                       "clone": ["--threads", "--workers"]}[command]:
            words += [option, str(rand.choice((1, 2, 4, 16)))]
        ended = subprocess.run([PROGRAM, *words], input=data, stdout=subprocess.PIPE,
                             stderr=subprocess.DEVNULL)
        why = meaning.wrong(command, data, ended.returncode, ended.stdout)
        if why is None:
            self.answers[command, answer_name(ended.returncode, ended.stdout)] += 1
            self.mixed += (ended.returncode == 0 and command != "backup"
                           and not meaning.is_script_order(command, ended.stdout))
        self.count(why is None, f"{' '.join(words)} on {name or repr(data[:2000])}: {why}")

    # Words that aren't a command, an input that can't be read, and an output that can't be written.
    def compare_streams(self):
        log, script = reference.spelled([(b"t", (1,))], []), b"table t int\n"
        for words in ([], ["frob"], ["apply", "primary"], ["Apply"], [""], ["apply "]):
            self.answers["words", "bad words"] += 1
            self.run(words, repr(words), b"", 2, b"bad words\n")
        for command, data in (("apply", log), ("primary", script),
                              ("backup", script + b"log\n" + log), ("clone", script)):
            self.compare_streams_of(command, data)

    def compare_streams_of(self, command, data):
        folder = os.open(TOP, os.O_RDONLY)
        self.answers[command, "read fails"] += 1
        self.run([command], "a folder", None, 5, b"", stdin=folder)
        os.close(folder)
        with open("/dev/full", "wb") as full:
            self.answers[command, "write fails"] += 1
            self.run([command], "a full device", data, 6, b"", stdout=full)

    # Prints the counts, also of runs in another order than the script's (which threads may give,
    # and need not), and reports what the seed should give and never gave.
    def finish(self, answers, pairs=()):
        names = collections.Counter({f"{command}: {what}": n
                                     for (command, what), n in self.answers.items()})
        print("answers:", ", ".join(f"{name} {n}" for name, n in sorted(names.items())))
        if self.mixed:
            print(f"{self.mixed} runs on threads were in another order than the script's")
        for wanted in answers:
            self.count(self.answers[wanted],
                       f"no input of this seed gives the answer {' '.join(wanted)}")
        for wanted in pairs:
            self.count(self.pairs[wanted],
                       f"no input of this seed fails both tests {wanted[1]} of {wanted[0]}")
        print(f"{self.passed} passed, {self.failed} failed")
        return self.failed == 0


def answer_name(status, printed):
    text = printed.decode("latin-1").split()
    last = text[-1] if text else ""
    return {0: "ok", 3: f"bad script {last}", 4: f"bad log {last}", 8: "too long",
            9: " ".join(text)}[status]


def main():
    count = int(sys.argv[1]) if len(sys.argv) > 1 else 1500
    seed = sys.argv[2] if len(sys.argv) > 2 else "1"
    rand = random.Random(int(seed))
    comparison = Comparison()
    for number in range(count):
        command, make = (("apply", log_input), ("primary", script_input))[number % 2]
        data = make(rand)
        comparison.compare(command, repr(data), data)
    for make in [line_input] * 1000 + [limit_input] * 80 + [wide_script] * 40:
        data = make(rand)
        comparison.compare("primary", repr(data), data)
    for make in [script_input] * 150 + [line_input] * 150 + [limit_input] * 20 + [wide_script] * 30:
        data = make(rand)
        for command in ("primary", "clone"):
            comparison.compare_meaning(rand, command, data)
    rand = random.Random(f"{seed} contended")
    for _ in range(60):
        data = contended(rand)
        for command in ("primary", "clone", "primary", "clone"):
            comparison.compare_meaning(rand, command, data)
    rand = random.Random(f"{seed} backup")
    for make in [backup_input] * 400 + [backup_of_log] * 200 + [backup_of_line] * 300:
        comparison.compare_meaning(rand, "backup", make(rand))
    for name, data in examples():
        log = reference.answer("primary", data)[1]
        for _ in range(4):
            comparison.compare_meaning(rand, "primary", data, name)
            comparison.compare_meaning(rand, "clone", data, name)
            comparison.compare_meaning(rand, "backup", data + b"log\n" + log, name)
    for command, name, data in large_inputs():
        comparison.compare(command, name, data)
        if command == "primary":
            comparison.compare_meaning(rand, "clone", data, name)
        else:
            comparison.compare_meaning(rand, "backup", b"table acct int\nlog\n" + data,
                                       f"a table, a line log, {name}")
    comparison.compare_streams()
    sys.exit(0 if comparison.finish(ANSWERS, PAIRS) else 1)


if __name__ == "__main__":
    main()
