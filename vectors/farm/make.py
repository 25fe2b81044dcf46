#!/usr/bin/env python3
"""Writes a generated script, always the same for the same words.

    make.py SEED EVENTS [VERSION [servers]]

Requests of servers and clients, in order and not, calls that are delivered, lost, repeated, returned and
answered from outside in any order, and moments that jump both ways; in version 2 drains too; with `servers`,
three servers of the farm that beat, restart and build. The model runs beside, so that most numbers name a
call that waits, a delivery with a reply, a job that goes on.
"""
import hashlib
import random
import sys

import heads
import model
from heads import wire
from model import core

SCHED, PEER = "127.0.0.1:10600", "127.0.0.1:40000"
OUTSIDE = ["127.0.0.1:10501", "127.0.0.1:10502", "127.0.0.2:10501"]
INSIDE = ["127.0.1.1:10501", "127.0.1.2:10501", "127.0.1.3:10501"]
ARCHIVES = [b"abc", b"", b"toolchain of seven hundred bytes" * 22, b"another one" * 40]
JUMPS = [0, 1, 10, 500, 30000, 59999, 60000, 60001, 90000, 90001, 150000, 300000, 300001, -1, -70000, -200000]


def digest(archive):
    return hashlib.sha256(archive).hexdigest()


class Maker:
    def __init__(self, seed, version, servers):
        self.random = random.Random(seed if version == 1 else f"{seed} {version}")
        self.version = version
        self.inside = INSIDE if servers else []
        self.key = {addr: bytes([1, 2, n]) for n, addr in enumerate(INSIDE + OUTSIDE)}
        self.base = self.random.choice([4096, 4096, 2**64 - 3])
        self.now, self.number, self.farm = 300000, 0, None

    def setup(self):
        count = self.random.choice([0, 0, 0, 0, 0, 7, 7, 2**64 - 4])
        auth = f"jwt {b'generated key'.hex()}" if self.inside and self.random.random() < 0.5 else "plain s1"
        self.auth, self.count = auth, count
        if self.version == 2:
            yield "version 2"
        yield f"scheduler {SCHED} base {self.base} count {count} client c1 {auth}"
        for addr in self.inside:
            cpus, capacity = self.random.choice([1, 2, 8]), self.random.choice([3, 500, 1000])
            yield f"server {addr} cpus {cpus} nonce 7 key {self.key[addr].hex()} capacity {capacity}"
        for addr in self.inside:
            for _ in range(self.random.randrange(3)):
                yield f"builder {addr} " + self.random.choice(["refuse", "ok 0 6f75 - 6f 6f6f", "ok -1 - 6572", "ok 7 - - 61 - 62 6262"])

    def job(self, states=()):
        """A job that goes on, in one of the states if there is one; now and then any other."""
        log = self.farm.log
        jobs = [(e["job"], (core.state_of(log, e["job"]) or ("reserved",))[0]) for _, e in core.unended(log)]
        fitting = [job for job, state in jobs if state in states] or [job for job, _ in jobs]
        if fitting and self.random.random() < 0.93:
            return self.random.choice(fitting)
        return self.random.choice([e["job"] for _, e in core.reservations(log)] + [55])

    def server_of(self, job, servers):
        """The server at which the job is, mostly."""
        log = self.farm.log
        found = [log[e["reg"]]["server"] for _, e in core.reservations(log) if e["job"] == job]
        return found[-1] if found and found[-1] in servers and self.random.random() < 0.9 else self.random.choice(servers)

    def bearer(self, addr):
        if self.random.random() < 0.05:
            return self.random.choice([None, "x", f"{addr} s2", addr])
        kind, word = self.auth.split()
        return f"{addr} {word}" if kind == "plain" else heads.server_token(bytes.fromhex(word), addr)

    def request(self, target, path, body, bearer, peer, method="POST"):
        r = self.random
        extra = ["Accept: application/json"] if r.random() < 0.2 else []
        if r.random() < 0.05:
            extra.append(r.choice(["X-Real-IP: 127.0.0.1", "X-Real-IP: x", "X-Real-IP: 127.0.0.2", "Accept: */*"]))
        raw = wire.request(method, path, target, body, bearer, extra)
        if r.random() < 0.03:
            raw = r.choice([raw[:-1], raw + b"x", raw.replace(b"octet-stream", b"text"), raw.replace(b"POST", b"PUT"), b"GET"])
        return f"request {target} {peer} {raw.hex()}"

    def beat(self):
        addr = self.random.choice(OUTSIDE)
        cpus = self.random.choice([1, 1, 2, 8, 8, 9, 0, 4294967295]) if self.random.random() < 0.8 else 4
        body = wire.heartbeat(self.key[addr], cpus, self.random.choice([7, 7, 7, 8]))
        return self.request(SCHED, "/api/v1/scheduler/heartbeat_server", body, self.bearer(addr), addr)

    def allocate(self):
        body = wire.toolchain(digest(self.random.choice(ARCHIVES)))
        token = "c1" if self.random.random() < 0.95 else self.random.choice([None, "c2"])
        return self.request(SCHED, "/api/v1/scheduler/alloc_job", body, token, PEER)

    def report(self):
        before, state = self.random.choice([("pending", "ready"), ("ready", "started"), ("started", "complete"), ("ready", "pending")])
        job = self.job([before])
        addr = self.server_of(job, OUTSIDE + self.inside)
        return self.request(SCHED, f"/api/v1/scheduler/job_state/{job}", wire.state(state), self.bearer(addr), addr)

    def drain(self):
        addr = self.random.choice((self.inside or OUTSIDE) * 4 + OUTSIDE)
        body = wire.drain(self.random.choice([7, 7, 7, 7, 8]), self.random.random() < 0.6)
        return self.request(SCHED, "/api/v1/scheduler/drain_server", body, self.bearer(addr), addr)

    def status(self):
        return self.request(SCHED, "/api/v1/scheduler/status", None, None, PEER, "GET")

    def at_server(self, route, states, body):
        job = self.job(states)
        addr = self.server_of(job, self.inside)
        token = wire.job_token(self.farm.server(addr).key, job if self.random.random() < 0.95 else 55)
        return self.request(addr, f"/api/v1/distserver/{route}/{job}", body, token if self.random.random() < 0.97 else None, PEER)

    def submit(self):
        held = {archive_id for addr in self.inside for archive_id in self.farm.server(addr).held.values()}
        wanted = [archive for archive in ARCHIVES if digest(archive) in held] * 4 or ARCHIVES
        return self.at_server("submit_toolchain", ["pending"], self.random.choice(wanted + ARCHIVES[:1]))

    def run(self):
        outputs = self.random.choice([[], ["o"], ["a", "b"]])
        head = wire.run_head("cc", ["-c"], [("K", "V")], "/", outputs)
        size = len(head) + self.random.choice([0] * 12 + [-1, 1])
        body = size.to_bytes(4, "big") + head + self.random.choice([b"", b"in"])
        return self.at_server("run_job", ["ready"], body)

    def waiting(self, inside):
        """The number of a call that waits, to the farm's own or to others; now and then of any entry."""
        known = {SCHED, *self.inside}
        calls = [n for n, c in self.farm.calls.items() if not c["settled"] and (c["target"] in known) == inside]
        fresh = [n for n in calls if n not in self.farm.delivered.values()]
        if calls and self.random.random() < 0.93:
            return self.random.choice((fresh or calls)[-4:] if self.random.random() < 0.8 else calls)
        return self.random.randrange(self.number + 2)

    def delivery(self):
        """The number of a delivery with a reply whose call waits; now and then of any entry."""
        farm = self.farm
        found = [d for d, call in farm.delivered.items() if d in farm.replies and not farm.calls[call]["settled"]]
        if found and self.random.random() < 0.93:
            return self.random.choice(found[-4:])
        return self.random.choice([*farm.delivered, self.number])

    def answer(self):
        r = self.random
        raw = r.choice([wire.reply(200, wire.assign_result(r.choice(["pending", "pending", "ready", "started"]), r.random() < 0.5)),
                        *[wire.reply(200, wire.assign_result("pending", True))] * 8, wire.reply(503, b""), b"", wire.reply(200, b"\0\0\0")])
        return f"answer {self.waiting(False)} {raw.hex() or '-'}"

    def restart(self):
        addr = self.random.choice(self.inside + ["127.0.0.9:1"])
        if self.random.random() < 0.3:
            self.key[addr] = bytes([9, self.random.randrange(256)])
        return f"restart {addr} key {self.key.get(addr, b'9').hex()} nonce {self.random.choice([7, 8])}"

    def event(self):
        outside = [(8, self.beat), (10, self.allocate), (10, self.report), (3, self.status), (12, self.answer),
                   (2, lambda: f"deliver {self.waiting(False)}"), (2, lambda: f"fail {self.waiting(self.random.random() < 0.5)}")]
        inside = [(8, lambda: f"beat {self.random.choice(self.inside)}"), (10, self.allocate), (34, lambda: f"deliver {self.waiting(True)}"),
                  (32, lambda: f"return {self.delivery()}"), (9, self.submit), (9, self.run), (2, self.restart)]
        states = {(core.state_of(self.farm.log, e["job"]) or ("",))[0] for _, e in core.unended(self.farm.log)}
        inside = [(w if m not in (self.submit, self.run) or {self.submit: "pending", self.run: "ready"}[m] in states else w / 20, m)
                  for w, m in inside]
        drains = [(4, self.drain)] if self.version == 2 else []
        weights, makers = zip(*(inside + [(w / 12, m) for w, m in outside] if self.inside else outside), *drains)
        line = self.random.choices(makers, weights)[0]()
        if self.number < 6 and self.inside:
            line = f"beat {self.inside[self.number // 2]}" if self.number % 2 == 0 else f"deliver {self.number - 1}"
        if self.random.random() < 0.08:
            self.now = max(self.now + self.random.choice(JUMPS), 0)
        else:
            self.now += self.random.randrange(1000)
        self.farm.event(self.number, f"{self.now} {line}".split(" "))
        self.number += 1
        return f"{self.now} {line}"


def script(seed, events, version, servers):
    maker = Maker(seed, version, servers)
    lines = list(maker.setup())
    maker.farm = model.set_up([line.split(" ") for line in lines])
    return "\n".join(lines + [maker.event() for _ in range(events)]) + "\n"


if __name__ == "__main__":
    seed_and_size = int(sys.argv[1]), int(sys.argv[2])
    sys.stdout.write(script(*seed_and_size, int((sys.argv[3:] or ["1"])[0]), sys.argv[4:] == ["servers"]))
