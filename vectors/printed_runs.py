#!/usr/bin/env python3
"""Writes the printed run of a generated history of a scheduler, under either version of the rules, by
core.py alone.

    vectors/printed_runs.py SEED VERSION CALLS

Each entry has the line of an event, mostly with the core entry of a call; a started job is built now and
then, once. It shares nothing with the proved program, and no farm has such a history: its events do not ask
for what stands below them.
"""
import os
import random
import sys

sys.dont_write_bytecode = True
sys.path.insert(0, os.path.dirname(os.path.abspath(__file__)))
import core  # noqa: E402

SERVERS = ["127.0.0.1:10501", "127.0.0.2:10501", "[2001:db8::7]:80", "[::ffff:10.0.0.1]:65535"]
EVENTS = ["deliver 0", "fail 3", "return 18446744073709551615", "answer 2 00ff", "answer 2 -", "beat 127.0.0.1:10501",
          "request 127.0.0.1:10600 127.0.0.1:40000 474554", "restart [2001:db8::7]:80 key 010203 nonce 9"]
JUMPS = [0, 1, 10, 500, 30000, 59999, 60000, 60001, 90000, 90001, 150000, 300000, 300001, -1, -70000, -200000]
ID = "0123456789abcdef" * 4
STATES = ["pending", "ready", "started", "complete"]


class History:
    def __init__(self, seed, version):
        self.random, self.version = random.Random(f"{seed} {version}"), version
        self.base = self.random.choice([4096, 0, 2**64 - 3])
        self.count = self.random.choice([0, 0, 0, 0, 7, 7, 2**64 - 4])
        self.log, self.now, self.built = [], 300000, set()

    def step_on(self):
        jump = self.random.choice(JUMPS if self.random.random() < 0.2 else JUMPS[:5])
        self.now = min(max(self.now + jump, 0), core.LAST)

    def job(self):
        """A job that goes on, mostly, with its registration's address and the state that is next."""
        jobs = [(e["job"], self.log[e["reg"]]["server"]) for _, e in core.unended(self.log)]
        if not jobs or self.random.random() < 0.05:
            return 55, self.random.choice(SERVERS), self.random.choice(STATES)
        job, server = self.random.choice(jobs)
        state = core.state_of(self.log, job)
        following = core.AFTER.get(state[0] if state else None, "pending")
        other = self.random.random() < 0.1
        return job, self.random.choice(SERVERS) if other else server, self.random.choice(STATES) if other else following

    def beat(self):
        server, nonce = self.random.choice(SERVERS), self.random.choice([7, 7, 7, 8])
        cpus = self.random.choice([1, 2, 8, 2**32 - 1])
        return core.beat(self.log, self.now, server, nonce, cpus, b"", self.version)

    def booking(self):
        unspent = [(k, e) for k, e in core.reservations(self.log) if core.is_unspent(self.log, k)]
        if not unspent:
            return core.reserve(self.log, self.now, self.base, self.count)
        number = self.random.choice(unspent)[0]
        if self.random.random() < 0.2:
            return core.undo(self.log, self.now, number)
        return core.commit(self.log, self.now, number, self.random.choice(["pending", "ready"]))

    def call(self):
        kind = self.random.choices(["beat", "reserve", "booking", "update", "status", "drain"], [4, 3, 4, 6, 1, self.version - 1])[0]
        if kind == "reserve":
            return core.reserve(self.log, self.now, self.base, self.count)
        if kind == "update":
            job, server, state = self.job()
            return core.update(self.log, self.now, server, job, state)
        if kind == "drain":
            on = self.random.random() < 0.6
            return core.drain(self.log, self.now, self.random.choice(SERVERS), self.random.choice([7, 7, 8]), on)
        return {"beat": self.beat, "booking": self.booking}.get(kind, lambda: core.status(self.log, self.now))()

    def build(self):
        """A started job that was not built yet, if there is one."""
        started = {e["job"] for e in self.log if e["kind"] == "update" and core.accepts(e, e["job"], "started")}
        return min(started - self.built, default=None)

    def entry(self, number):
        self.step_on()
        yield f"entry {number} {self.now} {self.random.choice(EVENTS)}"
        if self.random.random() < 0.9:
            entry = self.call()
            yield f"core {len(self.log)} {core.entry_text(entry)}"
            self.log.append(entry)
        job = self.build()
        if job is not None and self.random.random() < 0.5:
            self.built.add(job)
            yield f"step {self.random.choice(SERVERS)} ran {job} {self.random.choice(['built', 'refused'])} {ID}"
        elif self.random.random() < 0.1:
            yield f"step {SERVERS[0]} ran 4096 none"
        if self.random.random() < 0.2:
            yield "reply 0 00ff"

    def text(self, calls):
        lines = [line for number in range(calls) for line in self.entry(number)]
        books = core.books_text(self.log, self.base, self.count)
        return "\n".join([f"run {self.version} entries {calls}", *lines, *books, "end", ""])


def printed(seed, version, calls):
    """The printed run of a history of so many entries."""
    return History(seed, version).text(calls)


if __name__ == "__main__":
    print(printed(*(int(word) for word in sys.argv[1:4])), end="")
