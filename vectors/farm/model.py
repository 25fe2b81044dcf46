#!/usr/bin/env python3
"""A farm as a plain program: it runs a script and prints the run, by the rules alone. It shares nothing
with the proved program.

    model.py < SCRIPT > RUN

The script must be faultless. docs/SCRIPT.md has its lines; `server` and `builder` lines, and what a farm's
own servers do, are in the model before they are in the program.
"""
import hashlib
import ipaddress
import os
import sys

import heads
from heads import wire

sys.path.append(os.path.dirname(os.path.dirname(os.path.abspath(__file__))))
import core  # the core stands above, in vectors/

STATES = ["pending", "ready", "started", "complete"]
UNACCEPTED = ("Updating job state failed", "POST to scheduler job_state failed")


def ip_of(text):
    try:
        return ipaddress.ip_address(text)
    except ValueError:
        return None


def addr_ip(addr):
    return ipaddress.ip_address(addr.rpartition(":")[0].strip("[]"))


class Server:
    """One server of the farm: what it holds, its archives, and its builder's answers that are still to
    come."""

    def __init__(self, words):
        values = dict(zip(words[2::2], words[3::2]))
        self.addr, self.cpus, self.nonce = words[1], int(values["cpus"]), int(values["nonce"])
        self.key, self.capacity = bytes.fromhex(values["key"]), int(values["capacity"])
        self.life, self.held, self.archives, self.builder = 0, {}, [], []

    def store(self, archive_id, archive):
        if hashlib.sha256(archive).hexdigest() != archive_id:
            return "refused digest", b"\2\0\0\0", "CannotCache"
        if len(archive) > self.capacity:
            return "refused capacity", b"\2\0\0\0", "CannotCache"
        dropped = []
        while sum(len(a) for _, a in self.archives) + len(archive) > self.capacity:
            dropped.append(self.archives.pop(0)[0])
        self.archives.append((archive_id, archive))
        return f"stored {len(archive)} dropped {core.listed(dropped)}", b"\0\0\0\0", "Success"

    def build(self, outputs, inputs):
        """The builder's answer: a listed one, else the echo. None where it refuses."""
        if not self.builder:
            return 0, inputs, b"", [(name, name.encode()) for name in outputs]
        words = self.builder.pop(0)
        if words[0] == "refuse":
            return None
        raw = [b"" if word == "-" else bytes.fromhex(word) for word in words[2:]]
        return int(words[1]), raw[0], raw[1], [(n.decode(), c) for n, c in zip(raw[2::2], raw[3::2])]


def ran_reply(result, wants_json):
    if result == "none":
        return heads.answer(b"\0\0\0\0", "JobNotFound", wants_json)
    if isinstance(result, str):
        return heads.server_error("run build failed", result)
    code, out, err, outputs = result
    binary = wire.u32(1) + code.to_bytes(4, "little", signed=True) + wire.data(out) + wire.data(err)
    binary += wire.items(outputs, lambda o: wire.text(o[0]) + wire.data(o[1]) + wire.u64(len(o[1])))
    as_json = {"Complete": {"output": {"code": code, "stderr": list(err), "stdout": list(out)},
                            "outputs": [[name, [list(content), len(content)]] for name, content in outputs]}}
    return heads.answer(binary, as_json, wants_json)


def update_fault(settled):
    """The last text of an update that was not accepted; None where it was."""
    if settled is None:
        return "no reply"
    read = heads.read_reply(settled)
    if read is None:
        return "unreadable reply"
    if read[0] != 200:
        return f"Error {read[0]}"
    try:
        wire.read_update(wire.Reader(read[1]))
    except wire.Unreadable:
        return "unreadable reply"
    return None


class Farm:
    def __init__(self, version, words):
        self.version = version
        self.addr, self.base, self.count, self.client = words[1], int(words[3]), int(words[5]), words[7]
        self.plain = words[9] if words[8] == "plain" else None
        self.jwt = bytes.fromhex(words[9]) if words[8] == "jwt" else None
        self.servers, self.log, self.calls, self.replies, self.delivered = [], [], {}, {}, {}

    def server(self, addr):
        return next((s for s in self.servers if s.addr == addr), None)

    # What one event makes

    def event(self, number, words):
        self.now, self.number, self.lines = int(words[0]), number, []
        self.said = {"core": None, "step": None, "call": None, "reply": None, "word": None}
        getattr(self, f"do_{words[1]}")(*words[2:])
        said = self.said
        lines = [f"core {said['core'][0]} {core.entry_text(said['core'][1])}"] if said["core"] else []
        lines += [f"step {said['step']}"] if said["step"] else []
        lines += [f"call {said['call'][0]} {said['call'][1].hex()}"] if said["call"] else []
        lines += [f"reply {said['reply'][0]} {said['reply'][1].hex()}"] if said["reply"] else []
        return lines + ([f"word {said['word']}"] if said["word"] else [])

    def core(self, entry):
        self.said["core"] = (len(self.log), entry)
        self.log.append(entry)
        return entry

    def reply(self, to, raw):
        self.said["reply"] = (to, raw)
        if to == self.number:
            self.replies[to] = raw

    def call(self, target, raw, asker, then, root, wants_json):
        life = asker.life if asker else None
        self.said["call"], self.said["word"] = (target, raw), "waiting"
        self.calls[self.number] = {"target": target, "raw": raw, "asker": asker, "life": life, "then": then, "root": root,
                                   "json": wants_json, "settled": False}

    def do_request(self, target, peer, raw):
        self.bytes_at(target, peer, bytes.fromhex(raw) if raw != "-" else b"")

    def do_deliver(self, call):
        made = self.calls.get(int(call))
        if made is None:
            self.said["word"] = "void"
            return
        self.delivered[self.number] = int(call)
        self.bytes_at(made["target"], made["asker"].addr if made["asker"] else self.addr, made["raw"])

    def bytes_at(self, target, peer, raw):
        server = self.server(target)
        if target != self.addr and server is None:
            self.said["word"] = "down"
            return
        try:
            request = heads.Request(raw)
            if target == self.addr:
                self.at_scheduler(request, peer)
            else:
                self.at_server(server, request)
        except heads.Refused as refusal:
            self.reply(self.number, refusal.args[0])

    # The scheduler's routes

    def sender(self, request, peer):
        token, server = request.bearer(), None
        if token is not None and self.plain is not None:
            addr, space, rest = token.partition(" ")
            if space and rest == self.plain and is_addr(addr):
                server = addr
        if token is not None and self.jwt is not None:
            claims = heads.claims_of(self.jwt, token, "server_id")
            if isinstance(claims, dict) and isinstance(claims["server_id"], str) and is_addr(claims["server_id"]):
                server = claims["server_id"]
        if server is None:
            raise heads.Refused(heads.unauthorised("invalid_bearer_token"))
        shown = request.header(b"x-real-ip")
        origin = addr_ip(peer) if shown is None else ip_of(shown)
        if origin is None:
            raise heads.Refused(heads.BAD_REAL_IP)
        if origin != addr_ip(server):
            raise heads.Refused(heads.unauthorised("invalid_bearer_token_mismatched_address"))
        return server

    def at_scheduler(self, request, peer):
        api = "/api/v1/scheduler/"
        job = request.number_behind(api + "job_state/")
        if (request.method, request.path) == (b"POST", api + "alloc_job"):
            self.allocate(request)
        elif (request.method, request.path) == (b"POST", api + "heartbeat_server"):
            self.hear(request, self.sender(request, peer))
        elif self.version == 2 and (request.method, request.path) == (b"POST", api + "drain_server"):
            self.drain(request, self.sender(request, peer))
        elif (request.method, request.path) == (b"GET", api + "status"):
            e = self.core(core.status(self.log, self.now))
            told = {"in_progress": e["jobs"], "num_cpus": e["cpus"], "num_servers": e["servers"]}
            binary = wire.u64(e["servers"]) + wire.u64(e["cpus"]) + wire.u64(e["jobs"])
            self.reply(self.number, heads.answer(binary, told, request.wants_json()))
        elif job is not None:
            self.report(request, self.sender(request, peer), job)
        else:
            raise heads.Refused(heads.NOT_FOUND)

    def hear(self, request, server):
        beat = request.message(wire.read_heartbeat)
        cpus = beat["num_cpus"]
        if not 1 <= cpus <= 4294967295:
            raise heads.Refused(heads.server_error(f"Invalid number of CPUs ({cpus}) specified in heartbeat"))
        key = bytes.fromhex(beat["jwt_key"])
        e = self.core(core.beat(self.log, self.now, server, beat["server_nonce"], cpus, key, self.version))
        self.reply(self.number, heads.answer(bytes([e["new"]]), {"is_new": e["new"]}, request.wants_json()))

    def drain(self, request, server):
        asked = request.message(wire.read_drain)
        e = self.core(core.drain(self.log, self.now, server, asked["server_nonce"], asked["draining"]))
        known = e["reg"] is not None
        self.reply(self.number, heads.answer(bytes([known]), {"known": known}, request.wants_json()))

    def report(self, request, server, job):
        state = request.message(wire.read_state).lower()
        e = self.core(core.update(self.log, self.now, server, job, state))
        if e["answer"] == "accepted":
            self.reply(self.number, heads.answer(b"\0\0\0\0", "Success", request.wants_json()))
        elif e["answer"] == "unknown":
            self.reply(self.number, heads.server_error("Unknown job"))
        elif e["answer"] == "wrong":
            self.reply(self.number, heads.server_error(f"Job id {job} is not registered on server ServerId({server})"))
        else:
            had = e["answer"].split()[1]
            self.reply(self.number, heads.server_error(f"Invalid job state transition from {had} to {state}"))

    def allocate(self, request):
        token = request.bearer()
        if token is None:
            raise heads.Refused(heads.unauthorised("no_bearer_auth"))
        if token != self.client:
            raise heads.Refused(heads.unauthorised("bearer_auth_failed", b"Fixed token mismatch"))
        archive_id = request.message(heads.read_archive_id)
        e = self.core(core.reserve(self.log, self.now, self.base, self.count))
        if e["spent"]:
            raise heads.Refused(heads.server_error("No job ids left"))
        if e["job"] is None:
            self.fail(self.number, f"Insufficient capacity across {e['standing']} available servers", request.wants_json())
            return
        there = self.log[e["reg"]]
        auth = wire.job_token(there["key"], e["job"])
        body = wire.toolchain(archive_id)
        raw = wire.request("POST", f"/api/v1/distserver/assign_job/{e['job']}", there["server"], body, auth)
        then = ("assign", len(self.log) - 1, e["job"], there["server"], auth)
        self.call(there["server"], raw, None, then, self.number, request.wants_json())

    def fail(self, to, msg, wants_json):
        self.reply(to, heads.answer(wire.u32(1) + wire.text(msg), {"Fail": {"msg": msg}}, wants_json))

    # A server's routes

    def at_server(self, server, request):
        api = "/api/v1/distserver/"
        names = ("assign_job", "submit_toolchain", "run_job")
        name, job = next(((n, j) for n in names if (j := request.number_behind(f"{api}{n}/")) is not None), (None, None))
        if name is None:
            raise heads.Refused(heads.NOT_FOUND)
        fault = heads.job_token_fault(server.key, request.bearer(), job)
        if fault is not None:
            raise heads.Refused(heads.unauthorised("invalid_jwt", heads.fault_body(fault)))
        getattr(self, name)(server, request, job)

    def assign_job(self, server, request, job):
        archive_id = request.message(heads.read_archive_id)
        if job in server.held:
            raise heads.Refused(heads.server_error(f"Job {job} is already assigned"))
        server.held[job] = archive_id
        ready = any(listed == archive_id for listed, _ in server.archives)
        self.said["step"] = f"{server.addr} assigned {job} {archive_id} {'ready' if ready else 'pending'}"
        state = "Ready" if ready else "Pending"
        told = {"need_toolchain": not ready, "state": state}
        self.reply(self.number, heads.answer(wire.assign_result(state, not ready), told, request.wants_json()))

    def tell(self, server, job, state, then, root, wants_json):
        bearer = f"{server.addr} {self.plain}" if self.plain is not None else heads.server_token(self.jwt, server.addr)
        raw = wire.request("POST", f"/api/v1/scheduler/job_state/{job}", self.addr, wire.state(state), bearer)
        self.call(self.addr, raw, server, then, root, wants_json)

    def submit_toolchain(self, server, request, job):
        self.tell(server, job, "ready", ("ready", job, request.body), self.number, request.wants_json())

    def run_job(self, server, request, job):
        body = request.body
        if len(body) < 4:
            raise heads.Refused(heads.server_error("failed to read run job input length"))
        size = int.from_bytes(body[:4], "big")
        try:
            head = wire.Reader(body[4:4 + size])
            if len(body) < 4 + size:
                raise wire.Unreadable("a cut head")
            head.text(), head.items(head.text), head.items(lambda: (head.text(), head.text())), head.text()
            outputs = head.items(head.text)
            if head.rest():
                raise wire.Unreadable("a head that does not fill its length")
        except wire.Unreadable as fault:
            raise heads.Refused(heads.server_error("failed to deserialize run job request")) from fault
        self.tell(server, job, "started", ("started", job, outputs, body[4 + size:]), self.number, request.wants_json())

    # Settlements

    def do_fail(self, call):
        self.settle(int(call), None)

    def do_return(self, delivery):
        raw = self.replies.get(int(delivery)) if int(delivery) in self.delivered else None
        if raw is None:
            self.said["word"] = "void"
        else:
            self.settle(self.delivered[int(delivery)], raw)

    def do_answer(self, call, raw):
        made = self.calls.get(int(call))
        if made and (made["target"] == self.addr or self.server(made["target"])):
            self.said["word"] = "void"
        else:
            self.settle(int(call), bytes.fromhex(raw) if raw != "-" else b"")

    def settle(self, number, raw):
        call = self.calls.get(number)
        if call is None or call["settled"]:
            self.said["word"] = "void"
            return
        call["settled"] = True
        if call["asker"] and call["asker"].life != call["life"]:
            self.said["word"] = "died"
            return
        getattr(self, f"after_{call['then'][0]}")(call, raw, *call["then"][1:])

    def after_assign(self, call, raw, number, job, server, auth):
        read, fault, state = (heads.read_reply(raw) if raw is not None else None), None, None
        if raw is None:
            fault = "no reply"
        elif read is None:
            fault = "unreadable reply"
        elif read[0] != 200:
            fault = f"Error {read[0]}"
        else:
            try:
                told = wire.read_assign(wire.Reader(read[1]))
                state, need = told["state"].lower(), told["need_toolchain"]
                fault = None if state in STATES[:2] else f"state {state} in an assignment"
            except wire.Unreadable:
                fault = "unreadable reply"
        if fault is not None:
            e = self.core(core.undo(self.log, self.now, number))
            first = ("assign job failed, job un-assigned from the server" if e["ended"] else
                     "assign job failed and server not known" if e["noted"] is None else
                     "assign job failed and job not known to the server")
            self.reply(call["root"], heads.server_error(first, "POST to scheduler assign_job failed", fault))
            return
        e = self.core(core.commit(self.log, self.now, number, state))
        if not e["kept"]:
            text = f"Job {job} assignment was cleaned up before allocation completed"
            self.fail(call["root"], text, call["json"])
            return
        addr_ip_bytes, port = addr_ip(server).packed, int(server.rpartition(":")[2])
        binary = wire.u32(0) + wire.text(auth) + wire.u64(job) + wire.u32(0 if len(addr_ip_bytes) == 4 else 1)
        binary += addr_ip_bytes + port.to_bytes(2, "little") + bytes([need])
        told = {"Success": {"job_alloc": {"auth": auth, "job_id": job, "server_id": server}, "need_toolchain": need}}
        self.reply(call["root"], heads.answer(binary, told, call["json"]))

    def unreported(self, call, job, fault):
        self.said["step"] = f"{call['asker'].addr} unreported {job}"
        self.reply(call["root"], heads.server_error(*UNACCEPTED, fault))

    def after_ready(self, call, raw, job, archive):
        server, fault = call["asker"], update_fault(raw)
        if fault is not None:
            return self.unreported(call, job, fault)
        if job not in server.held:
            outcome, binary, told = "none", b"\1\0\0\0", "JobNotFound"
        elif any(listed == server.held[job] for listed, _ in server.archives):
            outcome, binary, told = "listed", b"\0\0\0\0", "Success"
        else:
            outcome, binary, told = server.store(server.held[job], archive)
        self.said["step"] = f"{server.addr} submitted {job} {outcome}"
        self.reply(call["root"], heads.answer(binary, told, call["json"]))

    def after_started(self, call, raw, job, outputs, inputs):
        server, fault = call["asker"], update_fault(raw)
        if fault is not None:
            return self.unreported(call, job, fault)
        archive_id = server.held.pop(job, None)
        found = next((a for a in server.archives if a[0] == archive_id), None)
        if archive_id is None:
            ran, result = "none", "none"
        elif found is None:
            ran, result = f"unlisted {archive_id}", "toolchain not in cache"
        else:
            server.archives.remove(found)
            server.archives.append(found)
            built = server.build(outputs, inputs)
            ran = f"{'refused' if built is None else 'built'} {archive_id}"
            result = "builder refused" if built is None else built
        self.said["step"] = f"{server.addr} ran {job} {ran}"
        self.tell(server, job, "complete", ("complete", job, result), call["root"], call["json"])

    def after_complete(self, call, raw, job, result):
        fault = update_fault(raw)
        if fault is not None:
            return self.unreported(call, job, fault)
        self.said["step"] = f"{call['asker'].addr} finished {job}"
        self.reply(call["root"], ran_reply(result, call["json"]))

    def after_heartbeat(self, call, raw):
        read = heads.read_reply(raw) if raw is not None else None
        heard = "lost"
        if read is not None and read[0] == 200:
            heard = {b"\0": "old", b"\1": "new"}.get(read[1][:1], "lost")
        self.said["step"] = f"{call['asker'].addr} heard {heard}"

    # What a server does by itself

    def do_beat(self, addr):
        server = self.server(addr)
        if server is None:
            self.said["word"] = "void"
            return
        bearer = f"{server.addr} {self.plain}" if self.plain is not None else heads.server_token(self.jwt, server.addr)
        body = wire.heartbeat(server.key, server.cpus, server.nonce)
        raw = wire.request("POST", "/api/v1/scheduler/heartbeat_server", self.addr, body, bearer)
        self.call(self.addr, raw, server, ("heartbeat",), self.number, False)

    def do_restart(self, addr, _key, key, _nonce, nonce):
        server = self.server(addr)
        if server is None:
            self.said["word"] = "void"
            return
        server.life, server.held, server.key, server.nonce = server.life + 1, {}, bytes.fromhex(key), int(nonce)
        self.said["step"] = f"{addr} opened {core.listed(f'{i}:{len(a)}' for i, a in server.archives)}"

    def books(self):
        lines = core.books_text(self.log, self.base, self.count)
        for server in self.servers:
            lines += [f"held {server.addr} {job} {server.held[job]}" for job in sorted(server.held)]
            lines += [f"archive {server.addr} {listed} {len(a)}" for listed, a in server.archives]
        return lines + ["end"]


def is_addr(text):
    """A V4 address with a port; the model's scripts have no other."""
    host, colon, port = text.rpartition(":")
    try:
        return bool(colon) and 1 <= len(port) <= 5 and port.isdigit() and int(port) < 65536 and bool(ipaddress.IPv4Address(host))
    except ValueError:
        return False


def canonical(words):
    if words[1] in ("request", "answer"):
        return words[:-1] + [words[-1].lower()]
    return words[:4] + [words[4].lower()] + words[5:] if words[1] == "restart" else words


def set_up(lines):
    version = 2 if lines[0] == ["version", "2"] else 1
    farm = Farm(version, lines[version - 1])
    for words in lines[version:]:
        if words[0] == "server":
            farm.servers.append(Server(words))
        elif words[0] == "builder":
            farm.server(words[1]).builder.append(words[2:])
    return farm


def run(script):
    lines = [line.split(" ") for line in script.split("\n") if line and not line.startswith("#")]
    farm = set_up(lines)
    events = [words for words in lines[farm.version:] if words[0] not in ("server", "builder")]
    text = [f"run {farm.version} entries {len(events)}"]
    for number, words in enumerate(events):
        text.append(f"entry {number} {' '.join(canonical(words))}")
        text += farm.event(number, words)
    return "\n".join(text + farm.books()) + "\n"


if __name__ == "__main__":
    sys.stdout.write(run(sys.stdin.read()))
