"""What tests/under-load is made of: callers that are processes, schedulers and build servers that are
started for a part, rates that are compared, answers that are watched, and a look at the machine itself.

Run as a program it is one caller of a crowd (`caller WORDS`), or watches one processor (`ticker NUMBER`).
"""
import collections
import contextlib
import hashlib
import importlib.machinery
import importlib.util
import json
import os
import pathlib
import re
import select
import socket
import subprocess
import sys
import threading
import time

sys.dont_write_bytecode = True
TOP = pathlib.Path(__file__).resolve().parent.parent
ITSELF = os.fspath(TOP / "tests" / "load.py")
# Where a builder has to wait, or a server to tell a number of processors that the machine has not.
SLOW = os.fspath(TOP / "crates" / "test_slow_builder" / "out" / "test_slow_builder")


def loaded(name):
    """A file of tests/ that is a program, as a module."""
    words, sys.argv = sys.argv, sys.argv[:1]
    loader = importlib.machinery.SourceFileLoader(name, os.fspath(TOP / "tests" / name))
    module = importlib.util.module_from_spec(importlib.util.spec_from_loader(name, loader))
    loader.exec_module(module)
    sys.argv = words
    return module


loopback = loaded("loopback")
wire = loopback.wire
Refused = loopback.Refused

TOKEN = "c1"
PROCESSORS = 64
TICK_SECONDS = 0.02
# A test that a machine fails which stood still for longer tells nothing, and is tried again.
STOOD_STILL_SECONDS = 0.5
TRIES = 3
MIB = 1 << 20
SERVER_OF_FIXED = 'type = "token"\ntoken = "s1"'


class Slow(AssertionError):
    """Something took longer than it may, or was refused by a limit of time."""


def in_time(holds, said):
    if not holds:
        raise Slow(said)


def be_ticker(processor):
    """Sleeps again and again on one processor, until standard input ends, and says by how much the longest
    sleep was too long."""
    with contextlib.suppress(OSError):
        os.sched_setaffinity(0, {processor})
    longest, last = 0.0, time.monotonic()
    print(flush=True)
    while not select.select([sys.stdin], [], [], TICK_SECONDS)[0]:
        now = time.monotonic()
        longest, last = max(longest, now - last - TICK_SECONDS), now
    print(max(longest, time.monotonic() - last - TICK_SECONDS))


class Machine:
    """For how long one of the machine's processors stood still at the most, while a part ran."""

    def __enter__(self):
        words = [sys.executable, ITSELF, "ticker"]
        self.tickers = [subprocess.Popen(words + [str(n)], stdin=subprocess.PIPE, stdout=subprocess.PIPE)
                        for n in sorted(os.sched_getaffinity(0))]
        for ticker in self.tickers:
            ticker.stdout.readline()
        self.stood_still = 0.0
        return self

    def __exit__(self, *_):
        for ticker in self.tickers:
            try:
                self.stood_still = max(self.stood_still, float(ticker.communicate(timeout=loopback.SECONDS)[0]))
            except (ValueError, subprocess.TimeoutExpired):
                self.stood_still = float("inf")
                ticker.kill()
                ticker.wait()


def connected(port):
    return socket.create_connection(("127.0.0.1", port), timeout=loopback.SECONDS)


def received(link):
    parts = []
    while part := link.recv(65536):
        parts.append(part)
    return b"".join(parts)


def exchange_late(port, raw, late):
    """The reply to a request whose last byte comes so many seconds late."""
    with connected(port) as link:
        link.setsockopt(socket.IPPROTO_TCP, socket.TCP_NODELAY, 1)
        link.sendall(raw[:-1])
        time.sleep(late)
        link.sendall(raw[-1:])
        return received(link)


def port_of(addr):
    return int(addr.split(":")[1])


# Callers

def built(port, archive, inputs=b"x", late=None):
    """Builds one job through a scheduler, as a client does: its id."""
    job = loopback.allocated(port, hashlib.sha256(archive).hexdigest(), TOKEN)
    if job["need_toolchain"]:
        route = "distserver/submit_toolchain/%d" % job["job_id"]
        said = loopback.asked(job["server_id"], wire.read_submitted, route, archive, job["auth"])
        if said != "Success":
            raise Refused(said)
    done = ran(job["server_id"], job["job_id"], job["auth"], inputs, late)
    if done == "JobNotFound":
        raise Refused(done)
    assert done["Complete"]["code"] == 0, done
    return job["job_id"]


def ran(addr, job, auth, inputs, late=None):
    head = wire.run_head("cc", ["-c", "a.c"], [("K", "v")], "/", ["a.o"])
    body = len(head).to_bytes(4, "big") + head + inputs
    route = "distserver/run_job/%d" % job
    if late is None:
        return loopback.asked(addr, wire.read_ran, route, body, auth)
    raw = wire.request("POST", "/api/v1/" + route, addr, body, auth)
    try:
        reply = exchange_late(port_of(addr), raw, late)
    except OSError as fault:
        raise Refused(type(fault).__name__) from fault
    if not reply:
        raise Refused("no reply")
    first, _, rest = wire.split_head(reply)
    if first != "HTTP/1.1 200 OK":
        raise Refused("%s %s" % (first, rest.decode()))
    return wire.read_ran(wire.Reader(rest))


def inmost(cause):
    """The inmost text of a refusal, or the refusal itself."""
    found = re.search(r'"description":"([^"]*)"', cause)
    return found[1] if found else cause


def call(port, number, seconds, inputs, late):
    """Builds one job after another for so many seconds: what was built, and what was refused."""
    archive = b"archive %d" % (number % 3)
    done, refused = [], []
    until = time.monotonic() + seconds
    while time.monotonic() < until:
        try:
            done.append(built(port, archive, inputs, late))
        except Refused as cause:
            refused.append(str(cause))
    return done, refused


def be_caller(words):
    """One caller of a crowd, in a process of its own: says that it is there, waits for a line, and tells
    what came."""
    asked = json.loads(words)
    print(flush=True)
    sys.stdin.readline()
    done, refused = call(asked["port"], asked["number"], asked["seconds"], bytes(asked["inputs"]), asked["late"])
    print(json.dumps({"built": done, "refused": refused}))


class Crowd:
    """So many callers which build one job after another, each for so many seconds. Each is a process, since
    callers that are threads of one wait for one another, and what they measure is this then."""

    def __init__(self, port, number, seconds, inputs=1, late=None):
        self.asked = [dict(port=port, number=n, seconds=seconds, inputs=inputs, late=late) for n in range(number)]
        self.built, self.refused = [], []

    def work(self):
        words = [sys.executable, ITSELF, "caller"]
        callers = [subprocess.Popen(words + [json.dumps(asked)], stdin=subprocess.PIPE, stdout=subprocess.PIPE)
                   for asked in self.asked]
        try:
            for caller in callers:
                assert caller.stdout.readline() == b"\n", "a caller did not start"
            began = time.monotonic()
            for caller in callers:
                caller.stdin.write(b"\n")
                caller.stdin.flush()
            told = [caller.communicate()[0] for caller in callers]
        finally:
            for caller in callers:
                caller.kill()
                caller.wait()
        assert all(told), "a caller ended with a fault"
        for said in map(json.loads, told):
            self.built += said["built"]
            self.refused += said["refused"]
        assert len(set(self.built)) == len(self.built), "an id was built twice"
        self.rate = len(self.built) / (time.monotonic() - began)
        return self

    def told(self):
        return "%d built, %.1f a second, refused %s" % (
            len(self.built), self.rate, dict(collections.Counter(map(inmost, self.refused))))


class Rounds:
    """Rates of two ways to work, beside one another: a round is the first, the second and the first again.
    It counts where the machine was steady in it, so that the first way had nearly the same rate twice; what
    else goes on at the machine makes either way slow and none fast, so one round that counts and holds is
    enough. Where none counts, nothing is told."""

    STEADY = 0.8

    def __init__(self, least, without, beside):
        self.least, self.without, self.beside = least, without, beside
        self.rounds = []

    @staticmethod
    def is_steady(first, _, again):
        return min(first, again) >= Rounds.STEADY * max(first, again)

    def is_well(self, first, beside, again):
        return beside >= self.least * (first + again) / 2

    def measured(self, most):
        while len(self.rounds) < most and not any(self.is_steady(*r) and self.is_well(*r) for r in self.rounds):
            self.rounds.append((self.without(), self.beside(), self.without()))
        return self

    def told(self):
        said = ", ".join("%.0f without, %.0f beside, %.0f without" % r for r in self.rounds)
        return said + ("" if any(self.is_steady(*r) for r in self.rounds) else ", so the machine is not steady enough")

    def holds(self):
        counted = [r for r in self.rounds if self.is_steady(*r)]
        in_time(not counted or any(self.is_well(*r) for r in counted), self.told())


class Watch:
    """Asks again and again, and keeps how long the slowest answer took, and what was no answer."""

    def __init__(self, ask, pause=0.1):
        self.ask, self.pause = ask, pause
        self.slowest, self.number, self.faults, self.ended = 0.0, 0, [], threading.Event()
        self.thread = threading.Thread(target=self.watch, daemon=True)

    def watch(self):
        while not self.ended.is_set():
            began = time.monotonic()
            try:
                self.ask()
                self.number += 1
            except Exception as fault:  # told by the main thread
                self.faults.append(repr(fault))
            self.slowest = max(self.slowest, time.monotonic() - began)
            self.ended.wait(self.pause)

    def __enter__(self):
        self.thread.start()
        return self

    def __exit__(self, *_):
        self.ended.set()
        self.thread.join(loopback.SECONDS)

    def holds(self, seconds):
        in_time(self.number and not self.faults, self.faults[:3])
        in_time(self.slowest <= seconds, "the slowest of %d answers took %.2f s" % (self.number, self.slowest))


# Farms

class Farm:
    """A scheduler, and build servers as they are added."""

    def __init__(self, folder, programs):
        self.folder, self.programs = folder, programs
        (self.port,) = loopback.free_ports(1)
        self.scheduler = programs.start("scheduler", "scheduler", loopback.CONFIG % self.port)
        loopback.waited_for(self.port, self.scheduler)
        self.servers = 0

    def wait_for_servers(self):
        self.servers += 1
        until = time.monotonic() + loopback.SECONDS
        while loopback.status(self.port)["num_servers"] < self.servers:
            assert time.monotonic() < until, "no build server"
            time.sleep(0.02)

    def add_server(self):
        """A shipped server: its process and its port."""
        (port,) = loopback.free_ports(1)
        text = loopback.server_text(self.folder, port, self.port, SERVER_OF_FIXED)
        program = self.programs.start("server-%d" % port, "server", text)
        self.wait_for_servers()
        return program, port

    def add_slow(self, millis, processors=PROCESSORS):
        """One that tells so many processors, and waits so many milliseconds before each build."""
        (port,) = loopback.free_ports(1)
        cache = pathlib.Path(self.folder) / ("cache-%d" % port)
        cache.mkdir()
        words = [SLOW, str(port), str(self.port), str(processors), str(millis), os.fspath(cache)]
        program = self.programs.start_words(words)
        self.wait_for_servers()
        return program, port

    def status(self):
        return loopback.status(self.port)


class FakeScheduler:
    """A scheduler which this file plays: it hears heartbeats, and answers reports, or lets them hang."""

    def __init__(self, hangs=False):
        self.listener = socket.create_server(("127.0.0.1", 0), backlog=512)
        self.port = self.listener.getsockname()[1]
        self.hangs, self.held, self.beat = hangs, [], threading.Event()
        self.key, self.reports = None, 0
        threading.Thread(target=self.accept, daemon=True).start()

    def accept(self):
        while True:
            try:
                link, _ = self.listener.accept()
            except OSError:
                return
            threading.Thread(target=self.serve, args=(link,), daemon=True).start()

    def serve(self, link):
        try:
            raw = b""
            while b"\r\n\r\n" not in raw:
                raw += (part := link.recv(65536))
                if not part:
                    return
            first, fields, body = wire.split_head(raw)
            while len(body) < int(wire.field(fields, "Content-Length") or 0):
                body += link.recv(65536)
            if "heartbeat_server" in first:
                self.key = bytes.fromhex(wire.read_heartbeat(wire.Reader(body))["jwt_key"])
                link.sendall(wire.reply(200, bytes([1])))
                self.beat.set()
            else:
                self.reports += 1
                if self.hangs:
                    self.held.append(link)
                    return
                link.sendall(wire.reply(200, wire.u32(0)))
            link.close()
        except OSError:
            pass

    def answers(self):
        """From now on reports are answered; those that hang stay so."""
        self.hangs = False

    def end(self):
        self.listener.close()
        for link in self.held:
            link.close()


class LoneServer:
    """A shipped build server under a scheduler that this file plays."""

    def __init__(self, folder, programs, hangs=False, cache=None):
        self.scheduler = FakeScheduler(hangs)
        (self.port,) = loopback.free_ports(1)
        self.addr = "127.0.0.1:%d" % self.port
        text = loopback.server_text(folder, self.port, self.scheduler.port, SERVER_OF_FIXED)
        self.cache = pathlib.Path(folder) / ("cache-%d" % self.port)
        if cache:
            text = text.replace(os.fspath(self.cache), os.fspath(cache))
            self.cache = pathlib.Path(cache)
        self.program = programs.start("server", "server", text)
        assert self.scheduler.beat.wait(loopback.SECONDS), "no heartbeat"
        self.jobs = 0

    def token(self, job):
        return wire.job_token(self.scheduler.key, job)

    def assign(self, archive_id):
        self.jobs += 1
        job = self.jobs
        route = "distserver/assign_job/%d" % job
        said = loopback.asked(self.addr, wire.read_assign, route, wire.toolchain(archive_id), self.token(job))
        return job, said["need_toolchain"]

    def submit(self, job, archive):
        route = "distserver/submit_toolchain/%d" % job
        return loopback.asked(self.addr, wire.read_submitted, route, archive, self.token(job))

    def submit_in_pieces(self, job, archive):
        """The same, with no copy of the archive here: whoever else asks meanwhile is not held up."""
        route = "/api/v1/distserver/submit_toolchain/%d" % job
        head = wire.request("POST", route, self.addr, b"", self.token(job))
        assert head.count(b"Content-Length: 0\r\n") == 1, head
        with connected(self.port) as link:
            link.sendall(head.replace(b"Content-Length: 0\r\n", b"Content-Length: %d\r\n" % len(archive)))
            for at in range(0, len(archive), MIB):
                link.sendall(archive[at:at + MIB])
            first, _, rest = wire.split_head(received(link))
        assert first == "HTTP/1.1 200 OK", (first, rest)
        return wire.read_submitted(wire.Reader(rest))

    def run(self, job):
        return ran(self.addr, job, self.token(job), b"x")


def resident(program):
    """How many bytes of memory a program has now."""
    for line in pathlib.Path("/proc/%d/status" % program.pid).read_text().splitlines():
        if line.startswith("VmRSS:"):
            return int(line.split()[1]) * 1024
    raise AssertionError("no VmRSS")


if __name__ == "__main__":
    be = {"caller": be_caller, "ticker": lambda number: be_ticker(int(number))}
    be[sys.argv[1]](sys.argv[2])
