"""Writes the logs and scripts that the benchmarks read:
`python3 bench/inputs.py FOLDER [NAME ..]`."""
import itertools
import os
import subprocess
import sys
import tempfile

sys.path.insert(0, os.path.join(os.path.dirname(os.path.dirname(os.path.abspath(__file__))),
                                "tests"))
from schedule import generated_script  # noqa: E402


def frame(payload):
    return len(payload).to_bytes(4, "big") + payload


def text(data):
    return bytes([len(data)]) + data


def mark(script, stamp, count):
    return frame(b"C" + script.to_bytes(4, "big") + stamp.to_bytes(8, "big")
                 + count.to_bytes(4, "big"))


def end(count):
    return frame(b"E" + count.to_bytes(4, "big"))


TRANSACTIONS = 65_536
WRITES = 4
TABLES = 16
ONE_TABLE = b"C5L1\x01" + text(b"acct") + b"\x01\x01"


# The longest log within the limits: 81,068,462 bytes. Its rows are as many as its transactions.
def longest(out):
    names = [b"table_of_rows_%02d" % number for number in range(TABLES)]
    out.write(b"C5L1" + bytes([TABLES]))
    for name in names:
        assert len(name) == 16
        out.write(text(name) + bytes([8]) + bytes([2] * 8))
    for number in range(TRANSACTIONS):
        # Four rows far apart from each other, so that the tree of rows is entered at random.
        rows = sorted((number * 4 + k) * 40_503 % 65_536 for k in range(WRITES))
        for row in rows:
            key = b"key_%028d" % row
            cells = b"".join(text(b"%016d%08d%08d" % (number, row, column)) for column in range(8))
            out.write(frame(b"W" + bytes([row // 4096]) + text(key) + b"\0" + cells))
        out.write(mark(number, number + 1, WRITES))
    out.write(end(TRANSACTIONS))


def put(key, number):
    return frame(b"W\0" + text(key) + b"\0" + number.to_bytes(8, "big"))


# 65,536 transactions of 2 writes over 64 rows.
def few_rows(out):
    out.write(ONE_TABLE)
    for number in range(TRANSACTIONS):
        for row in sorted({number * 7 % 64, (number * 7 + 1 + number % 63) % 64}):
            out.write(put(b"acct%02d" % row, number))
        out.write(mark(number, number + 1, 2))
    out.write(end(TRANSACTIONS))


# 65,536 transactions of 4 writes over 64,000 rows far apart from each other.
def many_rows(out):
    out.write(ONE_TABLE)
    for number in range(TRANSACTIONS):
        for row in sorted((number * 4 + k) * 40_503 % 64_000 for k in range(WRITES)):
            out.write(put(b"account_%06d" % row, number))
        out.write(mark(number, number + 1, WRITES))
    out.write(end(TRANSACTIONS))


# 65,536 writes in one transaction: each is of a row of its own.
def one_transaction(out):
    out.write(ONE_TABLE)
    for number in range(TRANSACTIONS):
        out.write(put(b"%07d" % number, number))
    out.write(mark(0, 1, TRANSACTIONS) + end(1))


# As many rows whose names all begin at one bucket of a board's index as are replayed in some
# seconds.
BUCKET_ROWS = 16_384


# The low bits of the hash of a board's index, FNV-1a, after these bytes. They depend on no higher
# bits.
def low_bits(state, data, bits):
    for byte in data:
        state = (state ^ byte) * 1_099_511_628_211 % (1 << bits)
    return state


# Keys of the table 0 that all begin at one bucket: made of blocks that each leave the low bits as
# they are.
def colliding_keys():
    bits = (2 * BUCKET_ROWS - 1).bit_length()
    start = low_bits(14_695_981_039_346_656_037 % (1 << bits), b"\0", bits)
    letters = bytes(byte for byte in range(0x21, 0x7F) if byte != 0x22)
    blocks = [bytes(block) for block in itertools.product(letters, repeat=3)
              if low_bits(start, block, bits) == start]
    keys = [b"".join(parts) for parts in itertools.islice(itertools.product(blocks, repeat=4),
                                                          BUCKET_ROWS)]
    assert len(keys) == BUCKET_ROWS
    return keys


def one_put_each(out, keys):
    out.write(ONE_TABLE)
    for number, key in enumerate(sorted(keys)):
        out.write(put(key, number))
    out.write(mark(0, 1, len(keys)) + end(1))


# One transaction of puts whose names all begin at one bucket, and one of as many other names of 12
# bytes.
def one_bucket(out):
    one_put_each(out, colliding_keys())


def many_buckets(out):
    one_put_each(out, [b"k%011d" % number for number in range(BUCKET_ROWS)])


# As many whose names begin at one place of the hash map in which rows are counted.
# bench/collide.c finds them.
def one_hash(out):
    source = os.path.join(os.path.dirname(os.path.abspath(__file__)), "collide.c")
    with tempfile.TemporaryDirectory() as folder:
        program = os.path.join(folder, "collide")
        subprocess.run(["cc", "-O2", "-o", program, source], check=True)
        found = subprocess.run([program, str(BUCKET_ROWS)], stdout=subprocess.PIPE, check=True)
    one_put_each(out, found.stdout.split())


SCRIPT_BYTES = 4_194_304
GENERATED = 50_000


# Lines up to the longest script that is read, and line ends for what is left.
def fill(out, head, blocks):
    out.write(head)
    size = len(head)
    for block in blocks:
        if size + len(block) > SCRIPT_BYTES:
            break
        out.write(block)
        size += len(block)
    out.write(b"\n" * (SCRIPT_BYTES - size))


# Transfers between 64 accounts.
def transfers(out):
    def blocks():
        yield b"txn\n" + b"".join(b"put acct a%02d 1000\n" % row for row in range(64)) + b"end\n"
        x = 1
        while True:
            x = (x * 6364136223846793005 + 1442695040888963407) % (1 << 64)
            source = x >> 58
            to = (source + 1 + (x >> 40) % 63) % 64
            amount = 1 + (x >> 20) % 100
            yield (b"txn\nneed acct a%02d 0 ge %d\nadd acct a%02d 0 -%d\nadd acct a%02d 0 %d\nend\n"
                   % (source, amount, source, amount, to, amount))

    fill(out, b"table acct int\n", blocks())


# Rows of 16 tables with texts.
def texts(out):
    def blocks():
        number = 0
        while True:
            lines = []
            for k in range(16):
                row = number * 16 + k
                lines.append(b'put t%02d key_%05d "text of row %d" %d "more of it"\n' % (k,
                    row * 40_503 % 50_000, row, row))
            lines.append(b"copy t%02d key_%05d copy_%04d\n" % (number % 16,
                number * 40_503 % 50_000, number % 1000))
            yield b"txn\n" + b"".join(lines) + b"end\n"
            number += 1

    fill(out, b"".join(b"table t%02d text int text\n" % table for table in range(16)), blocks())


# Transactions that all read and write one row.
def one_row(out):
    fill(out, b"table acct int\ntxn\nput acct a 0\nend\n",
         (b"txn\nneed acct a 0 ge 0\nadd acct a 0 1\nend\n" for _ in range(TRANSACTIONS - 1)))


# Transactions of 4 puts over 64,000 rows far apart from each other.
def many_puts(out):
    def blocks():
        for number in range(TRANSACTIONS):
            rows = (((number * 4 + k) * 40_503 % 64_000) for k in range(4))
            yield b"txn\n" + b"".join(b"put acct r%05d %d\n" % (row, number % 10)
                                      for row in rows) + b"end\n"

    fill(out, b"table acct int\n", blocks())


# 65,536 transactions of one put on a row of its own.
def own_rows(out):
    fill(out, b"table t int\n", (b"txn\nput t %d 1\nend\n" % number
                                 for number in range(TRANSACTIONS)))


# 65,536 transactions of 2 additions over 30,000 rows, which are put first.
def small(out):
    def blocks():
        for first in range(0, 30_000, 256):
            yield b"txn\n" + b"".join(b"put t %d 9\n" % row
                                      for row in range(first, min(first + 256, 30_000))) + b"end\n"
        for number in range(TRANSACTIONS - 118):
            yield b"txn\nadd t %d 0 1\nadd t %d 0 1\nend\n" % (number * 40_503 % 30_000,
                number * 7 % 30_000)

    fill(out, b"table t int\n", blocks())


# As many words of a schedule as a script may have, and as many transactions, of one put each over
# 1,000 rows.
def schedule(out):
    words = [b"w%d" % (number % 4 + 1) if number % 16 else b"v" for number in range(65_536)]
    turns = b"".join(b"turns " + b" ".join(words[at:at + 4096]) + b"\n"
                     for at in range(0, len(words), 4096))
    fill(out, b"table t int\n" + turns, (b"txn\nput t k%03d %d\nend\n" % (number * 7 % 1000,
        number % 10) for number in range(TRANSACTIONS)))


# The script of `gen`, as many transactions of it as 4 MiB hold.
def generated(out):
    out.write(generated_script(GENERATED))
    assert out.tell() <= SCRIPT_BYTES


# As many puts as a script may have, 256 in each transaction, their keys from the last to the first.
def puts(out):
    block = b"txn\n" + b"".join(b"put t k%03d 100\n" % (255 - k) for k in range(256)) + b"end\n"
    fill(out, b"table t int\n", (block for _ in range(1024)))


FILES = {"one_bucket": ".log", "many_buckets": ".log", "longest": ".log", "few_rows": ".log",
         "many_rows": ".log", "one_transaction": ".log",
         "transfers": ".c5s", "texts": ".c5s", "puts": ".c5s", "one_row": ".c5s",
         "many_puts": ".c5s", "own_rows": ".c5s", "small": ".c5s",
         "schedule": ".c5s", "generated": ".c5s"}

if __name__ == "__main__":
    folder = sys.argv[1]
    os.makedirs(folder, exist_ok=True)
    for name in sys.argv[2:] or FILES:
        ending = FILES[name]
        with open(os.path.join(folder, name + ending), "wb", buffering=1 << 20) as out:
            globals()[name](out)
