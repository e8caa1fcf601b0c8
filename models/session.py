#!/usr/bin/env python3
"""A small model of session files, written from docs/ alone: it reads a file from standard input and prints what `session` should.

It shares nothing with the program that it models, so that the two can be compared on files that nobody thought of (compare_sessions.py).
"""
import sys

LONGEST_FILE, LONGEST_LINE = 65536, 80
CELLS, REACH, LAST_SERIAL = 1024, 10**17, 1_000_000
UNITS = {b"s": 5, b"ms": 4, b"us": 3, b"ns": 2, b"ps": 1, b"fs": 0}
# how many plain numbers a call has, and whether a value follows them
CALLS = {b"begin": (1, 0), b"read": (2, 0), b"write": (2, 1), b"prepare": (1, 0), b"vote": (2, 0),
         b"decide": (1, 0), b"abort": (1, 0), b"finish": (2, 0), b"close": (1, 0)}


class Fault(Exception):
    def __init__(self, number, layer):
        self.number, self.layer = number, layer


def plain(word):
    if not (1 <= len(word) <= 9 and all(48 <= c <= 57 for c in word)) or (word[:1] == b"0" and word != b"0"):
        raise Fault(18, "word")
    return int(word)


def value(word):
    digits = word[1:] if word[:1] == b"-" else word
    if not (1 <= len(digits) <= 18 and all(48 <= c <= 57 for c in digits)) or (digits[:1] == b"0" and word != b"0"):
        raise Fault(18, "word")
    return int(word)


def line_of(data):
    end = data.find(b"\n")
    if end < 0 or end > LONGEST_LINE:
        raise Fault(20, "word")
    return data[:end], data[end + 1:]


def timescale(line):
    words = line.split(b" ")
    if len(words) != 3 or words[0] != b"timescale" or words[1] not in (b"1", b"10", b"100") or words[2] not in UNITS:
        raise Fault(17, "session")
    return int(words[1]) * 10 ** (3 * UNITS[words[2]])


def sizes(line):
    words = line.split(b" ")
    if len(words) != 4 or words[0] != b"pool" or b"" in words:
        raise Fault(17, "session")
    return [plain(word) for word in words[1:]]


def call(line, factor):
    words = line.split(b" ")
    if words[0] not in CALLS or b"" in words or len(words) != 1 + sum(CALLS[words[0]]):
        raise Fault(17, "session")
    plains, values = CALLS[words[0]]
    numbers = [plain(word) for word in words[1:1 + plains]] + [value(word) for word in words[1 + plains:]]
    if values:
        numbers[-1] *= factor
        if abs(numbers[-1]) > REACH:
            raise Fault(19, "session")
    return [words[0].decode()] + numbers


def read(data):
    line = 1
    try:
        if not 1 <= len(data) <= LONGEST_FILE:
            raise Fault(20, "word")
        text, rest = line_of(data)
        factor = timescale(text)
        line = 2
        if not rest:
            raise Fault(17, "session")
        text, rest = line_of(rest)
        size = sizes(text)
        calls = []
        while rest:
            line += 1
            text, rest = line_of(rest)
            calls.append(call(text, factor))
        return size, calls
    except Fault as fault:
        raise SystemExit(f"{line} fault {fault.number} {fault.layer}") from None


class Pool:
    """Strict two-phase locking with two-phase commit, by the tables of docs/POOL.md."""
    LEADS = {"begin": {"idle": "editing"}, "read": {"editing": "editing"}, "write": {"editing": "editing"},
             "prepare": {"editing": "voting"}, "vote": {"voting": "voting"}, "decide": {"voting": "commit"},
             "abort": {"editing": "abort", "voting": "abort"}, "finish": {"commit": "commit", "abort": "abort"},
             "close": {"commit": "idle", "abort": "idle"}}

    def __init__(self, seats, entries, depth):
        self.seats, self.entries, self.depth = seats, entries, depth
        self.state, self.serial = ["idle"] * seats, [0] * seats
        self.chains = [[0] for _ in range(entries)]
        self.staged, self.writer = [None] * entries, [None] * entries
        self.readers = [set() for _ in range(entries)]
        self.votes = [{} for _ in range(entries)]

    def holds(self, seat, entry):
        return self.writer[entry] == seat or seat in self.readers[entry]

    def make(self, name, seat, *rest):
        if seat >= self.seats:
            return "refused 1 pool"
        entry = rest[0] if rest else None
        if entry is not None and entry >= self.entries:
            return "refused 2 store"
        leads = self.LEADS[name].get(self.state[seat])
        if leads is None:
            return "refused 3 pool"
        return getattr(self, name)(seat, leads, *rest)

    def begin(self, seat, leads):
        if self.serial[seat] >= LAST_SERIAL:
            return "refused 4 pool"
        self.state[seat] = leads
        self.serial[seat] += 1
        return f"serial {self.serial[seat]}"

    def read(self, seat, leads, entry):
        if self.writer[entry] == seat:
            return f"value {self.staged[entry]}"
        if self.writer[entry] is not None:
            return "refused 5 pool"
        self.readers[entry].add(seat)
        return f"value {self.chains[entry][-1]}"

    def write(self, seat, leads, entry, number):
        if self.writer[entry] not in (None, seat) or self.readers[entry] - {seat}:
            return "refused 5 pool"
        if abs(number) > REACH:
            return "refused 6 store"
        if len(self.chains[entry]) >= self.depth:
            return "refused 7 store"
        self.staged[entry], self.writer[entry] = number, seat
        self.readers[entry].discard(seat)
        return "ok"

    def prepare(self, seat, leads):
        self.state[seat] = leads
        return "ok"

    def vote(self, seat, leads, entry):
        if not self.holds(seat, entry):
            return "refused 8 pool"
        if seat in self.votes[entry]:
            return "refused 9 pool"
        yes = self.writer[entry] != seat or abs(self.staged[entry]) <= REACH
        self.votes[entry][seat] = yes
        return "vote yes" if yes else "vote no"

    def decide(self, seat, leads):
        if any(votes.get(seat) is False for votes in self.votes):
            self.state[seat] = "abort"
            return "decided abort"
        if any(self.holds(seat, e) and seat not in self.votes[e] for e in range(self.entries)):
            return "refused 10 pool"
        self.state[seat] = leads
        return "decided commit"

    def abort(self, seat, leads):
        self.state[seat] = leads
        return "ok"

    def finish(self, seat, leads, entry):
        if not self.holds(seat, entry):
            return "refused 8 pool"
        if self.writer[entry] == seat:
            if leads == "commit":
                self.chains[entry].append(self.staged[entry])
            self.staged[entry] = self.writer[entry] = None
        self.readers[entry].discard(seat)
        self.votes[entry].pop(seat, None)
        return "ok"

    def close(self, seat, leads):
        if any(self.holds(seat, e) for e in range(self.entries)):
            return "refused 11 pool"
        self.state[seat] = leads
        return "ok"


def session(data):
    (seats, entries, depth), calls = read(data)
    if not (1 <= entries <= 64 and 2 <= depth <= 200):
        raise SystemExit("2 refused 12 store")
    if entries * depth > CELLS:
        raise SystemExit("2 refused 16 store")
    if not 1 <= seats <= 16:
        raise SystemExit("2 refused 12 pool")
    pool = Pool(seats, entries, depth)
    return "".join(f"{3 + i} {pool.make(*call)}\n" for i, call in enumerate(calls))


if __name__ == "__main__":
    try:
        sys.stdout.write(session(sys.stdin.buffer.read()))
    except SystemExit as said:
        sys.stdout.write(f"{said}\n")
