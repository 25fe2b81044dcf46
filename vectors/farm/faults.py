#!/usr/bin/env python3
"""Writes the table of a farm's run over a folder of which one call fails: what the run without a fault makes of
each event, and for each way in which one event may end by a fault, what differs.

    faults.py > crates/test_farm/src/fault_table.rt

The server's files are a list of their own here, since what a fault left of them decides what a later opening
lists: a key goes out of the list before its file is dropped, and the new archive's file comes last.
"""
import hashlib

import model
from heads import wire
from model import core

SCHED, PEER, FAILING, OTHER = "127.0.0.1:10600", "127.0.0.1:40000", "127.0.0.1:10501", "127.0.0.1:10502"
KEY, JOB = bytes([1, 2, 2]), 4096
ONE, TWO, LARGE = b"abc", b"defg", b"nine byte"
CAPACITY = 10


def digest(archive):
    return hashlib.sha256(archive).hexdigest()


class Script:
    """The lines of a script, which counts its events."""

    def __init__(self):
        self.lines = [f"scheduler {SCHED} base {JOB} count 0 client c1 plain s1"]
        for addr, cpus in ((FAILING, 4), (OTHER, 1)):
            self.lines.append(f"server {addr} cpus {cpus} nonce 7 key {KEY.hex()} capacity {CAPACITY}")
        self.lines += [f"builder {FAILING} refuse", f"builder {FAILING} ok 7 6f75 - 6f 6f6f"]
        self.events = 0

    def say(self, words):
        self.lines.append(f"{self.events} {words}")
        self.events += 1
        return self.events - 1

    def settled(self, call):
        return self.say(f"return {self.say(f'deliver {call}')}")

    def request(self, target, path, body, bearer):
        return self.say(f"request {target} {PEER} {wire.request('POST', path, target, body, bearer).hex()}")

    def beat(self, addr):
        self.settled(self.say(f"beat {addr}"))

    def allocate(self, archive):
        self.settled(self.request(SCHED, "/api/v1/scheduler/alloc_job", wire.toolchain(digest(archive)), "c1"))

    def submit(self, job, archive):
        path = f"/api/v1/distserver/submit_toolchain/{job}"
        self.settled(self.request(FAILING, path, archive, wire.job_token(KEY, job)))

    def run(self, job):
        head = wire.text("cc") + wire.items([], wire.text) + wire.items([], wire.text) + wire.text("/")
        head += wire.items(["o"], wire.text)
        body = len(head).to_bytes(4, "big") + head + b"in"
        path = f"/api/v1/distserver/run_job/{job}"
        self.settled(self.settled(self.request(FAILING, path, body, wire.job_token(KEY, job))))

    def restart(self):
        self.say(f"restart {FAILING} key {KEY.hex()} nonce 7")


def script():
    """A build that is refused, a store beside, one that drops both, its build, a restart, a build, and two restarts."""
    s = Script()
    s.beat(FAILING)
    s.allocate(ONE)
    s.submit(JOB, ONE)
    s.run(JOB)
    s.allocate(TWO)
    s.submit(JOB + 1, TWO)
    s.allocate(LARGE)
    s.submit(JOB + 2, LARGE)
    s.run(JOB + 2)
    s.restart()
    s.allocate(LARGE)
    s.run(JOB + 3)
    s.restart()
    s.restart()
    s.beat(OTHER)
    return "\n".join(s.lines) + "\n"


class Server(model.Server):
    """A server with files, one of whose events ends by a fault."""

    def __init__(self, words):
        super().__init__(words)
        self.files, self.is_up, self.fails = [], True, None

    def fault(self):
        """What the fault of this call is, if it has one."""
        fails, self.fails = self.fails, None
        return fails

    def take_out(self, archive_id):
        self.files = [file for file in self.files if file[0] != archive_id]

    def store(self, archive_id, archive):
        fails, was = self.fault(), list(self.archives)
        said = super().store(archive_id, archive)
        dropped = [i for i, _ in was if i not in [j for j, _ in self.archives]]
        if fails is None:
            for gone in dropped:
                self.take_out(gone)
            self.files.append((archive_id, archive))
            return said
        count, stands, comes = fails
        self.archives = was[count:]
        for gone in dropped[:count - 1 if stands else count]:
            self.take_out(gone)
        if comes:
            self.files.append((archive_id, archive))
        return f"refused folder dropped {core.listed(dropped[:count])}", b"\2\0\0\0", "CannotCache"


class Farm(model.Farm):
    def bytes_at(self, target, peer, raw):
        server = self.server(target)
        if server is not None and not server.is_up:
            self.said["word"] = "down"
            return
        super().bytes_at(target, peer, raw)

    def do_beat(self, addr):
        server = self.server(addr)
        if server is not None and not server.is_up:
            self.said["word"] = "down"
            return
        super().do_beat(addr)

    def do_restart(self, addr, *words):
        server = self.server(addr)
        server.is_up, server.archives = server.fault() is None, list(server.files)
        super().do_restart(addr, *words)
        if not server.is_up:
            server.archives, self.said["step"], self.said["word"] = [], None, "down"

    def after_started(self, call, raw, job, outputs, inputs):
        server, archive_id = call["asker"], call["asker"].held.get(job)
        fails = server.fault() if any(i == archive_id for i, _ in server.archives) else None
        if model.update_fault(raw) is not None or fails is None:
            super().after_started(call, raw, job, outputs, inputs)
            touched = [file for file in server.files if file[0] == archive_id]
            server.files = [file for file in server.files if file[0] != archive_id] + touched
            return
        server.held.pop(job)
        found = next(a for a in server.archives if a[0] == archive_id)
        server.archives.remove(found)
        server.archives.append(found)
        self.said["step"] = f"{server.addr} ran {job} folder {archive_id}"
        self.tell(server, job, "complete", ("complete", job, "toolchain unreadable"), call["root"], call["json"])


OPENING, CAME = -1, "a store whose archive came"


def run(text, at=None, fails=None):
    """What each event makes, and the books, where the event of that number ends by that fault, and the files then."""
    lines = [line.split(" ") for line in text.split("\n") if line]
    farm = Farm(1, lines[0])
    farm.servers = [Server(words) for words in lines if words[0] == "server"]
    farm.servers[0].builder = [words[2:] for words in lines if words[0] == "builder"]
    if at == OPENING:
        farm.servers[0].is_up = False
    made = []
    for number, words in enumerate(words for words in lines if words[0].isdigit()):
        farm.servers[0].fails = fails if number == at else None
        made.append("\n".join(farm.event(number, words)))
    return made + ["\n".join(farm.books()[1:]) + "\n"], [file[0] for file in farm.servers[0].files]


def ways(kept):
    """Each way in which an event of a run may end by a fault. The new archive stays where its removal fails too."""
    yield "the first opening", OPENING, True
    for number, said in enumerate(kept):
        words = (said.split("\n")[0].split(" ") + [""] * 8) if said.startswith("step") else [""] * 8
        if words[2] == "submitted":
            count = 0 if words[7] == "-" else len(words[7].split(","))
            for gone in range(count + 1):
                yield f"a store that dropped {gone}", number, (gone, False, False)
                if gone:
                    yield f"a store that dropped {gone} and failed at the last", number, (gone, True, False)
            yield CAME, number, (count, False, True)
        elif words[2] == "ran":
            yield "a look-up", number, True
        elif words[2] == "opened":
            yield "an opening", number, True


def quoted(text):
    return '"' + text.replace("\n", "\\n") + '"'


def way_text(name, changed, files, is_one):
    places = ", ".join(f"({number}, {quoted(said)})" for number, said in changed)
    left = ", ".join(map(quoted, files))
    return f"Way {{ name: {quoted(name)}, changed: &[{places}], files: &[{left}], is_one: {str(is_one).lower()} }}"


def main():
    text = script()
    kept, files = run(text)
    print("//! A run over a folder of which no call fails, and what differs where one does. Written by another model.")
    print()
    print("/// The script.")
    print(f"pub const SCRIPT: &str =\n    {quoted(text)};")
    print()
    print("/// What each event makes where no call fails, and behind them the books.")
    print(f"pub const MADE: [&str; PARTS] = [")
    for said in kept:
        print(f"    {quoted(said)},")
    print("];")
    print()
    print("/// How many events there are, and the books.")
    print(f"pub const PARTS: usize = {len(kept)};")
    table = []
    for name, at, fails in ways(kept):
        made, left = run(text, at, fails)
        is_one = name != CAME
        changed = [(n, said) for n, (said, was) in enumerate(zip(made, kept)) if said != was]
        table.append((f"{name}, of the event {at}" if at >= 0 else name, changed, left, is_one))
    print()
    print("/// A way in which one event ends by a fault.")
    print("#[derive(Clone, Copy)]")
    print("pub struct Way {")
    print("    /// Its name.")
    print("    pub name: &'static str,")
    print("    /// What is another than in `MADE`, each with its place there.")
    print("    pub changed: &'static [(usize, &'static str)],")
    print("    /// The archives that have a file at the end, the most recent last.")
    print("    pub files: &'static [&'static str],")
    print("    /// Whether it comes where one call fails.")
    print("    pub is_one: bool,")
    print("}")
    print()
    print("/// The way in which no call fails.")
    print(f"pub const NO_FAULT: Way = {way_text('no fault', [], files, False)};")
    print()
    print("/// How many ways there are.")
    print(f"pub const COUNT: usize = {len(table)};")
    print()
    print("/// Each way.")
    print("pub const WAYS: [Way; COUNT] = [")
    for way in table:
        print(f"    {way_text(*way)},")
    print("];")


if __name__ == "__main__":
    main()
