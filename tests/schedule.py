"""A second implementation of the schedule machine of `turns` and of the script of `gen`, apart from
the program's code and definitions and as plain as their descriptions: sets of numbers, and
predecessors by names.

`python3 tests/schedule.py turns [WORKERS] < SCRIPT` prints what `c5 turns` is to print, and
`python3 tests/schedule.py steps [WORKERS] < SCRIPT` what each word of the schedule does. `python3
tests/schedule.py gen COUNT` prints the summary of `gen`, and `script COUNT` its script."""
import sys

import meaning
import reference

MOST_PUT_OFF = 64


# ---- the schedule machine

class Machine:
    """The state of the machine over a log; `seen` has what the schedule made it do, by name."""

    def __init__(self, txns, workers, reads):
        names = [name for _, _, writes in txns for name, _ in writes]
        self.last, self.workers = len(names), workers
        self.predecessor, newest = {}, {}
        for number, name in enumerate(names, 1):
            self.predecessor[number] = newest.get(name, 0)
            newest[name] = number
        self.ends = [0]
        for _, _, writes in txns:
            self.ends.append(self.ends[-1] + len(writes))
        self.done, self.place, self.joined = set(), 0, 0
        self.next = {worker: worker for worker in range(1, workers + 1)}
        self.put_off = {worker: set() for worker in range(1, workers + 1)}
        # The least number that a worker owns and that is not done, as far as it has been looked
        # for.
        self.least = dict(self.next)
        self.left = {session: sum(read[0] == session for read in reads) for session in range(1, 17)}
        self.places = {session: [] for session in range(1, 17)}
        self.seen = set()

    def can_install(self, number):
        return self.predecessor[number] == 0 or self.predecessor[number] in self.done

    # A turn of a worker: the numbers that it installed, and the number that it put off.
    def worker(self, worker):
        if not 1 <= worker <= self.workers:
            self.seen.add("a worker that isn't there")
            return [], None
        installed = self.again(worker)
        tried, put_off = self.next_number(worker)
        if installed and (tried or put_off):
            self.seen.add("a number that was put off, and the next one, in one turn")
        return installed + tried, put_off

    # The numbers that are put off are tried, ascending: those that it installed.
    def again(self, worker):
        installed = []
        for number in sorted(self.put_off[worker]):
            if self.can_install(number):
                self.done.add(number)
                self.put_off[worker].remove(number)
                installed.append(number)
        return installed

    # The next number is tried: whether it was installed, and whether it was put off.
    def next_number(self, worker):
        number = self.next[worker]
        if number > self.last:
            return [], None
        if len(self.put_off[worker]) >= MOST_PUT_OFF:
            self.seen.add("a full list")
            return [], None
        self.next[worker] += self.workers
        if self.can_install(number):
            self.done.add(number)
            return [number], None
        self.put_off[worker].add(number)
        self.joined += 1
        return [], number

    def visible(self):
        for worker in self.least:
            while self.least[worker] in self.done:
                self.least[worker] += self.workers
        least, before = min(self.least.values()), self.place
        while self.place + 1 < len(self.ends) and self.ends[self.place + 1] < least:
            self.place += 1
        if self.place == before and len(self.done) > self.ends[self.place]:
            self.seen.add("an installed write that is not visible yet")

    # A turn of a session: whether it had a read left.
    def session(self, session):
        if not self.left[session]:
            self.seen.add("a session without a read left")
            return False
        self.left[session] -= 1
        self.places[session].append(self.place)
        if 0 < self.place < len(self.ends) - 1:
            self.seen.add("a read between the first place and the last")
        return True

    def word(self, word):
        kind, number = word
        if kind == "w":
            return self.worker(number)
        return self.visible() if kind == "v" else self.session(number)

    def close(self):
        joined, rounds = self.joined, 0
        while rounds == 0 or len(self.done) < self.last:
            for worker in range(1, self.workers + 1):
                self.worker(worker)
            self.visible()
            rounds += 1
        if self.joined > joined:
            self.seen.add("a write put off in a closing round")
        for session in self.left:
            if self.left[session]:
                self.seen.add("a read after the schedule")
            while self.left[session]:
                self.session(session)
        return rounds


# The places of the replies in their order, how many writes were put off, and what was seen.
def run(txns, workers, reads, words, kind=Machine):
    machine = kind(txns, workers, reads)
    for word in words:
        machine.word(word)
    if machine.joined:
        machine.seen.add("a write put off by a word")
    if not machine.done:
        machine.seen.add("no write installed by a word")
    elif len(machine.done) == machine.last:
        machine.seen.add("each write installed by a word")
    machine.close()
    return [place for session in range(1, 17)
            for place in machine.places[session]], machine.joined, machine.seen


# ---- what `turns` prints

def turns_lines(script, workers):
    tables, txns = meaning.names_and_types(script), reference.run_serial(script)
    places, put_off, seen = run(txns, workers, script.reads, script.turns)
    if any(not writes for _, _, writes in txns):
        seen.add("a transaction without writes")
    states = meaning.States(txns)
    lines = [b" ".join([b"order", *(b"%d" % number for number, _, _ in txns)])]
    for (session, block), place in zip(meaning.in_reply_order(script.reads), places):
        lines.append(b"read %d place %d lag %d" % (session, place, len(txns) - place))
        lines += [meaning.answer_line(tables, line, states.after(place)) for line in block]
    return b"\n".join(lines) + b"\n" + reference.rows_text(tables,
        states.after(len(txns))) + b"put_off %d\n" % put_off, seen


# The status and the bytes that `turns` prints for an input, and what its schedule made the machine
# do.
def turns(data, workers):
    if len(data) > reference.LIMITS["primary"]:
        return 8, b"too long\n", set()
    try:
        script, _ = reference.read_script(data)
        reference.check_limits(script)
    except reference.Refused as refused:
        return refused.status, refused.line.encode(), set()
    printed, seen = turns_lines(script, workers)
    return 0, printed, seen


# What each word of the schedule does, as a table of docs/TOUR.md.
def print_steps(script, workers):
    txns = reference.run_serial(script)
    machine = Machine(txns, workers, script.reads)
    for kind, number in script.turns:
        word = kind if kind == "v" else f"{kind}{number}"
        if kind == "w":
            installed, put_off = machine.worker(number)
            did = [f"installs {n}" for n in installed] + [f"puts {put_off} off"] * (
                put_off is not None)
        elif kind == "v":
            machine.visible()
            did = [f"the place is {machine.place}"]
        else:
            did = [f"reads at place {machine.place}"] * machine.session(number)
        print(f"{word}: {', '.join(did) or 'nothing'}")
    print(f"{machine.close()} closing rounds: {machine.joined} put off in all")


# ---- the generated script

ACCOUNTS = [f"a{number:02}" for number in range(64)]
FIRST = 1000
TOTAL = 64_000
SESSIONS = [1, 2, 3, 4] * 4


# What each transaction after the first moves: (from, to, amount).
def draws():
    x = 1
    while True:
        x = (x * 6364136223846793005 + 1442695040888963407) % 2 ** 64
        sender = x >> 58
        yield sender, (sender + 1 + (x >> 40) % 63) % 64, 1 + (x >> 20) % 100


def generated_script(count):
    lines = ["table acct int", "txn", *(f"put acct {account} {FIRST}" for account in ACCOUNTS),
             "end"]
    for _, (sender, to, amount) in zip(range(count - 1), draws()):
        sender, to = ACCOUNTS[sender], ACCOUNTS[to]
        lines += ["txn", f"need acct {sender} 0 ge {amount}", f"add acct {sender} 0 -{amount}",
                  f"add acct {to} 0 {amount}", "end"]
    for session in SESSIONS:
        lines += [f"read {session}", *(f"sum acct 0 {' '.join(ACCOUNTS[at:at + 16])}"
                                       for at in range(0, 64, 16)), "end"]
    return ("\n".join(lines) + "\n").encode()


# The summaries of the counts 1, 2, 3 .., by the balances alone.
def summaries():
    header, write, mark, end = 12, 19, 21, 9
    balances, declined, writes, size = [FIRST] * 64, 0, 64, header + 64 * write + mark + end
    for count, (sender, to, amount) in enumerate(draws(), 1):
        yield summary(count, declined, writes, size, 64, sum(balances), [True] * len(SESSIONS))
        moves = balances[sender] >= amount
        if moves:
            balances[sender] -= amount
            balances[to] += amount
        declined, writes = declined + (not moves), writes + 2 * moves
        size += 2 * write * moves + mark


def summary(transactions, declined, writes, size, rows, total, whole):
    return (f"transactions {transactions}\ndeclined {declined}\nwrites {writes}\nbytes {size}\n"
            f"rows {rows}\ntotal {total}\n"
            f"reads {len(whole)} whole {sum(whole)}\n").encode()


# The summary of a count, by running its script: replies at any places add to what they are to add
# to.
def summary_by_run(count):
    script, _ = reference.read_script(generated_script(count))
    reference.check_limits(script)
    txns = reference.run_serial(script)
    states, whole = meaning.States(txns), []
    for number, (_, block) in enumerate(script.reads):
        state = states.after(count * number // len(script.reads))
        lines = [meaning.answer_line(meaning.names_and_types(script), line, state)
                 for line in block]
        whole.append(sum(int(line.split()[1]) for line in lines) in (0, TOTAL))
    last = states.after(count)
    return summary(len(txns), sum(not changes for _, _, changes in txns),
                   sum(len(changes) for _, _, changes in txns),
                   len(reference.spelled(meaning.names_and_types(script), txns)), len(last),
                   sum(row[0] for row in last.values()), whole)


def main():
    what, number = sys.argv[1], int(sys.argv[2]) if len(sys.argv) > 2 else 1
    if what == "turns":
        status, printed, _ = turns(sys.stdin.buffer.read(), number)
        sys.stdout.buffer.write(printed)
        sys.exit(status)
    if what == "steps":
        print_steps(reference.read_script(sys.stdin.buffer.read())[0], number)
    else:
        sys.stdout.buffer.write({"gen": summary_by_run, "script": generated_script}[what](number))


if __name__ == "__main__":
    main()
