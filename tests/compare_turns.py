"""Runs `c5 turns` and a second implementation of its machine (schedule.py) on schedules made from a
seed, and prints how many outputs are the same: `python3 tests/compare_turns.py [COUNT [SEED]]`.

It also fails if the schedules of its seed never make the machine do something that it can do, or if
they wouldn't notice a machine with one rule changed: for each of `CHANGED` some schedule must lead
to other places or to another count."""
import random
import sys

import compare
import meaning
import reference
import schedule

WORKERS = [1, 2, 2, 3, 4, 7, 16]
SEEN = ["a worker that isn't there", "a session without a read left", "a full list",
        "a write put off by a word", "a write put off in a closing round",
        "a number that was put off, and the next one, in one turn",
        "an installed write that is not visible yet",
        "a read between the first place and the last", "a read after the schedule",
        "no write installed by a word", "each write installed by a word",
        "a transaction without writes"]
REFUSALS = ["too long", "limit transactions", "limit writes",
            "limit rows"] + [f"bad script {kind}" for kind in compare.SCRIPT_KINDS]
ANSWERS = [("turns", what) for what in ["ok", *REFUSALS]] + [("turns", "read fails"),
    ("turns", "write fails")]


# ---- machines with one rule changed

class NextFirst(schedule.Machine):
    """The next number is tried before those that are put off."""

    def worker(self, worker):
        if 1 <= worker <= self.workers:
            self.next_number(worker)
            self.again(worker)


class Descending(schedule.Machine):
    """Of the numbers that are put off the greatest is tried first."""

    def again(self, worker):
        for number in sorted(self.put_off[worker], reverse=True):
            if self.can_install(number):
                self.done.add(number)
                self.put_off[worker].remove(number)
        return []


class OneAgain(schedule.Machine):
    """Only the least of the numbers that are put off is tried."""

    def again(self, worker):
        least = min(self.put_off[worker], default=None)
        if least is not None and self.can_install(least):
            self.done.add(least)
            self.put_off[worker].remove(least)
        return []


class BlockedByList(schedule.Machine):
    """The next number waits while any number is put off."""

    def next_number(self, worker):
        return ([], None) if self.put_off[worker] else super().next_number(worker)


class NoList(schedule.Machine):
    """A number is tried again at the next turn, and never put off."""

    def next_number(self, worker):
        number = self.next[worker]
        return super().next_number(worker) if number > self.last or self.can_install(number) else (
            [], None)


class LongList(schedule.Machine):
    """The list of a worker is never full."""

    def next_number(self, worker):
        kept, schedule.MOST_PUT_OFF = schedule.MOST_PUT_OFF, self.last
        answer = super().next_number(worker)
        schedule.MOST_PUT_OFF = kept
        return answer


class AnyWorker(schedule.Machine):
    """A word of a worker that isn't there is that of another."""

    def worker(self, worker):
        return super().worker((worker - 1) % self.workers + 1)


class HalfVisible(schedule.Machine):
    """A place is visible once a write of its transaction is."""

    def visible(self):
        super().visible()
        least = min(self.least.values())
        if self.place + 1 < len(self.ends) and self.ends[self.place] + 1 < least:
            self.place += 1


class OwnedOnly(schedule.Machine):
    """The place doesn't advance while a worker has tried none of its numbers."""

    def visible(self):
        if all(self.next[worker] > worker or worker > self.last for worker in self.next):
            super().visible()


class VisibleAtOnce(schedule.Machine):
    """The place advances after each turn of a worker."""

    def worker(self, worker):
        answer = super().worker(worker)
        self.visible()
        return answer


class NoClosingCount(schedule.Machine):
    """What the closing rounds put off doesn't count."""

    def close(self):
        joined = self.joined
        super().close()
        self.joined = joined


class NoRound(schedule.Machine):
    """No closing round is made if each write is done."""

    def close(self):
        if len(self.done) < self.last:
            return super().close()
        for session in self.left:
            while self.left[session]:
                self.session(session)
        return 0


class EarlyReads(schedule.Machine):
    """The reads that are left are taken before the closing rounds."""

    def close(self):
        for session in self.left:
            while self.left[session]:
                self.session(session)
        return super().close()


CHANGED = [NextFirst, Descending, OneAgain, BlockedByList, NoList, LongList, AnyWorker,
           HalfVisible, OwnedOnly, VisibleAtOnce, NoClosingCount, NoRound,
           EarlyReads]


# ---- schedules

def any_words(rand, workers, count):
    sessions = rand.sample(range(1, 17), rand.choice((1, 2, 4)))
    return [rand.choice((f"w{rand.randint(1, min(16, workers + (rand.random() < 0.1)))}",
                         f"w{rand.randint(1, workers)}", "v", f"s{rand.choice(sessions)}"))
            for _ in range(count)], sessions


# One worker takes many turns, then another one.
def bursts(rand, workers, count):
    sessions, words = rand.sample(range(1, 17), rand.choice((1, 2))), []
    while len(words) < count:
        words += [f"w{rand.randint(1, workers)}"] * rand.choice((1, 5, 20)) + ["v",
            f"s{rand.choice(sessions)}"] * rand.choice((0, 1))
    return words, sessions


# Rounds of the workers, from the last to the first or in any order.
def rounds(rand, workers, count):
    sessions, words = rand.sample(range(1, 17), rand.choice((1, 3))), []
    while len(words) < count:
        order = [f"w{worker}" for worker in range(workers, 0, -1)]
        if rand.random() < 0.5:
            rand.shuffle(order)
        words += order + rand.choice((["v"], [], ["v", f"s{rand.choice(sessions)}"]))
    return words, sessions


def body(rand, keys, number):
    key, other = rand.choice(keys), rand.choice(keys)
    return rand.choice(([f"put t {key} {number}"], [f"put t {key} {number}",
        f"put t {other} {number}", f"put t own{number} 1"], [f"del t {key}"],
                        [f"copy t {key} {other}"], [f"add t {key} 0 1", f"add t {other} 0 -1"],
                        [f"need t {key} 0 ge {number}", f"del t {other}"], []))


def lines_of(rand, words, sessions, bodies):
    blocks = [["txn", *statements, "end"] for statements in bodies]
    keys = ["k0", "k1", f"own{rand.randrange(9)}"]
    blocks += [[f"read {rand.choice(sessions)}", f"row t {rand.choice(keys)}",
                f"sum t 0 {' '.join(keys)}", "end"] for _ in range(rand.choice((1, 4, 12)))]
    at = rand.randrange(len(words) + 1)
    # The words are in two lines among the blocks, in their order.
    at = rand.randrange(len(words) + 1)
    turns = [["turns " + " ".join(part)] for part in (words[:at], words[at:]) if part]
    places = sorted(rand.choice((rand.randrange(len(blocks) + 1), len(blocks))) for _ in turns)
    for place, line in zip(reversed(places), reversed(turns)):
        blocks.insert(place, line)
    return ("\n".join(["table t int", *(line for block in blocks for line in block)])
            + "\n").encode()


def scheduled(rand, workers):
    keys = [f"k{number}" for number in range(rand.choice((1, 2, 5, 40)))]
    bodies = [body(rand, keys, number) for number in range(rand.choice((0, 1, 3, 8, 20, 60)))]
    words, sessions = rand.choice((any_words, any_words, bursts, rounds))(rand, workers,
        rand.choice((1, 4, 12, 40, 120)))
    return lines_of(rand, words, sessions, bodies)


# One worker takes so many turns before the others that its list is full: its numbers are on the row
# of number 1, and the last ones on rows that the others write too.
def one_alone(rand, workers):
    alone, bodies = rand.randint(2, workers), []
    for number in range(1, rand.randint(66, 70) * workers):
        owner = (number - 1) % workers + 1
        key = (rand.choice(("k0", "k1")) if number > 64 * workers
               else "a" if number == 1 or owner == alone else f"own{number}")
        bodies.append([f"put t {key} {number}"])
    words = [f"w{alone}"] * rand.randint(60, 80)
    for worker in rand.sample(range(1, workers + 1), workers):
        words += [f"w{worker}"] * rand.randint(60, 70)
    return lines_of(rand, words + ["v", "s1"], [1], bodies)


# ---- comparing

class Schedules(compare.Comparison):
    def __init__(self):
        super().__init__()
        self.seen, self.noticed = set(), set()

    def compare_turns(self, data, workers, name=None):
        status, printed, seen = schedule.turns(data, workers)
        self.answers["turns", compare.answer_name(status, printed)] += 1
        self.seen |= seen
        self.run(["turns", "--workers", str(workers)], name or repr(data), data, status, printed)

    # The text but for its last line is that of some clone of the script.
    def check_meaning(self, data, workers):
        _, printed, _ = schedule.turns(data, workers)
        why = meaning.wrong("clone", data, 0, b"".join(printed.splitlines(keepends=True)[:-1]))
        self.count(why is None,
                   f"a text that no clone has, with {workers} workers: {why}: {data[:2000]!r}")

    def notice(self, data, workers):
        script = meaning.script_within(data)
        txns = reference.run_serial(script)
        right = schedule.run(txns, workers, script.reads, script.turns)[:2]
        for kind in CHANGED:
            if kind not in self.noticed and schedule.run(txns, workers, script.reads, script.turns,
                                                         kind)[:2] != right:
                self.noticed.add(kind)

    def finish_turns(self):
        for what in SEEN:
            self.count(what in self.seen, f"no schedule of this seed has {what}")
        for kind in CHANGED:
            self.count(kind in self.noticed,
                       f"no schedule of this seed notices this machine: {kind.__doc__}")
        return self.finish(ANSWERS)


def large_inputs(rand):
    head, put = b"table t int\nread 1\nrow t k1\nend\n", b"txn\nput t k%d %d\nend\n"
    words = [b"w%d" % rand.randint(1, 4) if number % 50 else b"v" for number in range(65_536)]
    turns = b"".join(b"turns " + b" ".join(words[at:at + 4096]) + b"\n"
                     for at in range(0, len(words), 4096))
    yield "65536 words on 20000 transactions", 4, head + turns + b"".join(
        put % (number % 100, number % 7) for number in range(20_000))
    yield "20000 writes of one row that two workers have in turn", 2, head + b"".join(
        put % (0, number % 7) for number in range(20_000))
    yield "65537 transactions", 1, head + b"txn\nend\n" * 65_537
    yield "262145 writes", 1, b"table t int\n" + (b"txn\n" + b"del t a\n" * 256
                                                  + b"end\n") * 1024 + b"txn\ndel t a\nend\n"
    yield "65537 rows", 1, b"table t int\n" + b"".join(
        b"txn\n" + b"".join(b"del t %d\n" % (block * 256 + n) for n in range(256)) + b"end\n"
        for block in range(256)) + b"txn\ndel t 65536\nend\n"
    yield "a byte too many", 1, b"\n" * (reference.LIMITS["primary"] + 1)


def main():
    count = int(sys.argv[1]) if len(sys.argv) > 1 else 500
    seed = sys.argv[2] if len(sys.argv) > 2 else "1"
    rand, comparison = random.Random(f"{seed} turns"), Schedules()
    for make, times in ((scheduled, count), (one_alone, 8)):
        for number in range(times):
            workers = rand.choice(WORKERS if make is scheduled else (2, 3, 4))
            data = make(rand, workers)
            comparison.compare_turns(data, workers)
            comparison.notice(data, workers)
            if number % 5 == 0:
                comparison.check_meaning(data, workers)
    for make in [compare.script_input] * 100 + [compare.line_input] * 140 + [
        compare.limit_input] * 15:
        comparison.compare_turns(make(rand), rand.choice(WORKERS))
    for name, data in compare.examples():
        for workers in range(1, 17):
            comparison.compare_turns(data, workers, name)
    for name, workers, data in large_inputs(rand):
        comparison.compare_turns(data, workers, name)
    comparison.compare_turns(b"table t int\ntable t int\n", 1, "a table named twice")
    comparison.compare_streams_of("turns", b"table t int\n")
    sys.exit(0 if comparison.finish_turns() else 1)


if __name__ == "__main__":
    main()
