#!/usr/bin/env python3
"""Writes the steps of the programs `test_toolchains` and `test_client`, or what they must write for them.

    python3 vectors/client/make.py toolchains steps > crates/test_toolchains/stdin
    python3 vectors/client/make.py toolchains told > crates/test_toolchains/stdout
    python3 vectors/client/make.py calls steps > crates/test_client/stdin
    python3 vectors/client/make.py calls told > crates/test_client/stdout

What must come of a step about toolchains stands beside it. What must come of a call is told by a model of
its own: a reply is read by the rules of docs/PROTOCOL.md (a head, a body that matches its length, the
status 200, a message at the body's front), and a request is written by them.
"""
import hashlib
import re
import struct
import sys

ABC = hashlib.sha256(b"abc").hexdigest()
NOTHING = hashlib.sha256(b"").hexdigest()
CAPACITY = 1000
TOKEN = ("eyJ0eXAiOiJKV1QiLCJhbGciOiJIUzI1NiJ9.eyJleHAiOjAsImpvYl9pZCI6NDA5Nn0."
         "LIcyQz60dP9VW64KGB8pv0AE56XfY4vRO1SOHyx63dQ")
CALLS = {"alloc": ABC, "status": "-", "submit": ABC, "run": b"in".hex()}


# ---- messages

def u32(n):
    return struct.pack("<I", n)


def u64(n):
    return struct.pack("<Q", n)


def data(raw):
    return u64(len(raw)) + raw


class NoMessage(Exception):
    """No message begins the bytes."""


class Front:
    """Bytes that are read from their front."""

    def __init__(self, raw):
        self.raw = raw

    def take(self, n):
        if n > len(self.raw):
            raise NoMessage
        taken, self.raw = self.raw[:n], self.raw[n:]
        return taken

    def number(self, size):
        return int.from_bytes(self.take(size), "little")

    def below(self, size, bound):
        n = self.number(size)
        if n >= bound:
            raise NoMessage
        return n

    def data(self):
        return self.take(self.number(8))

    def text(self):
        try:
            return self.data().decode()
        except UnicodeDecodeError as fault:
            raise NoMessage from fault

    def addr(self):
        if self.below(4, 2) == 0:
            return ".".join(str(b) for b in self.take(4)) + ":%d" % self.number(2)
        raise NoMessage  # no row has another


def shown(raw):
    return raw.hex() or "-"


def alloc_result(front):
    if front.below(4, 2) == 1:
        return "fail " + front.text()
    token, job, server = front.text(), front.number(8), front.addr()
    return "job %d %s %s %s" % (job, server, token, ["false", "true"][front.below(1, 2)])


def status_result(front):
    return "servers %d cpus %d jobs %d" % (front.number(8), front.number(8), front.number(8))


def submit_result(front):
    return ["Success", "JobNotFound", "CannotCache"][front.below(4, 3)]


def run_result(front):
    if front.below(4, 2) == 0:
        return "JobNotFound"
    code = int.from_bytes(front.take(4), "little", signed=True)
    words = ["complete", str(code), shown(front.data()), shown(front.data())]
    for _ in range(front.number(8)):
        words += [front.text(), shown(front.data()), str(front.number(8))]
    return " ".join(words)


RESULTS = {"alloc": alloc_result, "status": status_result, "submit": submit_result, "run": run_result}


# ---- replies

def is_bad(lengths, coded, body):
    """Whether a body does not match its lengths, of which there may be one."""
    if coded or len(lengths) > 1:
        return True
    if not lengths:
        return False
    return not re.fullmatch("[0-9]{1,19}", lengths[0]) or int(lengths[0]) != len(body)


def answer(call, raw):
    """What a call answers to a reply."""
    head, empty, body = raw.partition(b"\r\n\r\n")
    lines = head.decode("latin-1").split("\r\n")
    first = re.fullmatch(r"HTTP/1\.[01] ([0-9]{3})( [ -~]*)?", lines[0])
    if not empty or first is None:
        return "ParseError"
    fields = [line.split(":", 1) for line in lines[1:]]
    lengths = [value.strip(" \t") for name, value in fields if name.lower() == "content-length"]
    coded = any(name.lower() == "transfer-encoding" for name, _ in fields)
    if is_bad(lengths, coded, body):
        return "ParseError"
    code = int(first[1])
    if code != 200:
        return "Status %d %s" % (code, shown(body))
    try:
        return RESULTS[call](Front(body))
    except NoMessage:
        return "ParseError"


def binary(body):
    head = "HTTP/1.1 200 OK\r\nContent-Type: application/octet-stream\r\nContent-Length: %d\r\nConnection: close\r\n\r\n"
    return (head % len(body)).encode() + body


# The replies of the ordinary build, and that to the question for the status.
JOB = u32(0) + data(TOKEN.encode()) + u64(4096) + u32(0) + bytes([127, 0, 0, 1]) + struct.pack("<H", 10501) + b"\1"
STORED = bytes.fromhex("00000000")
COMPLETE = bytes.fromhex(
    "01000000" "00000000" "0200000000000000" "696e" "0000000000000000" "0100000000000000"
    "0100000000000000" "6f" "0100000000000000" "6f" "0100000000000000")
STATUS = bytes.fromhex("0100000000000000" "0800000000000000" "0000000000000000")
assert (len(JOB), JOB[-1], len(COMPLETE)) == (143, 1, 60)
ORDINARY = {"alloc": JOB, "status": STATUS, "submit": STORED, "run": COMPLETE}

OTHER_JOB = u32(0) + data(b"x y") + u64(2**64 - 1) + u32(0) + bytes([10, 0, 0, 1]) + struct.pack("<H", 0) + b"\0"
REPLIES = {
    "the job of the ordinary build": binary(JOB),
    "its archive": binary(STORED),
    "its run": binary(COMPLETE),
    "a status": binary(STATUS),
    "another job": binary(OTHER_JOB),
    "no job": binary(u32(1) + data(b"Insufficient capacity across 1 available servers")),
    "one, as a number": binary(u32(1)),
    "two, as a number": binary(u32(2)),
    "three, as a number": binary(u32(3)),
    "a run that failed": binary(u32(1) + struct.pack("<i", -1) + data(b"") + data(b"\xff") + u64(0)),
    "more behind the message": binary(STORED + b"more"),
    "a job with a flag of two": binary(JOB[:-1] + b"\2"),
    "a text that is not UTF-8": binary(u32(1) + data(b"\xff")),
    "a length that is too long": binary(u32(1) + u64(2**64 - 1) + b"x"),
    "no length": b"HTTP/1.1 200 OK\r\n\r\n" + STORED,
    "no headers, another version": b"HTTP/1.0 200 OK\r\n\r\n" + STATUS,
    "a length in another case": b"HTTP/1.1 200 OK\r\ncOnTeNt-LeNgTh: 4\r\n\r\n" + STORED,
    "nothing": b"",
    "no HTTP": STORED,
    "a head without end": b"HTTP/1.1 200 OK\r\n",
    "a body that is short": b"HTTP/1.1 200 OK\r\nContent-Length: 5\r\n\r\n" + STORED,
    "a body that is long": b"HTTP/1.1 200 OK\r\nContent-Length: 3\r\n\r\n" + STORED,
    "no body": b"HTTP/1.1 200 OK\r\nContent-Length: 0\r\n\r\n",
    "two lengths": b"HTTP/1.1 200 OK\r\nContent-Length: 4\r\nContent-Length: 4\r\n\r\n" + STORED,
    "a length that is no number": b"HTTP/1.1 200 OK\r\nContent-Length: +4\r\n\r\n" + STORED,
    "a coding": b"HTTP/1.1 200 OK\r\nTransfer-Encoding: chunked\r\n\r\n" + STORED,
    "created": b"HTTP/1.1 201 Created\r\nContent-Length: 4\r\n\r\n" + STORED,
    "another token": b'HTTP/1.1 401 Unauthorized\r\nWWW-Authenticate: Bearer error="bearer_auth_failed"\r\n'
                     b"Content-Length: 20\r\nConnection: close\r\n\r\nFixed token mismatch",
    "no route": b"HTTP/1.1 404 Not Found\r\nContent-Length: 0\r\nConnection: close\r\n\r\n",
    "a fault": b"HTTP/1.1 500 Internal Server Error\r\nContent-Type: application/json\r\nContent-Length: 42\r\n"
               b'Connection: close\r\n\r\n{"cause":null,"description":"Unknown job"}',
    "a status of another kind with a short body": b"HTTP/1.1 503 Busy\r\nContent-Length: 1\r\n\r\n",
}


# ---- requests

def request(method, path, host, token=None, body=b""):
    lines = ["%s %s HTTP/1.1" % (method, path), "Host: " + host]
    if token is not None:
        lines.append("Authorization: Bearer " + token)
    if method == "POST":
        lines += ["Content-Type: application/octet-stream", "Content-Length: %d" % len(body)]
    lines.append("Connection: close")
    return "".join(line + "\r\n" for line in lines + [""]).encode() + body


RUN = data(b"cc") + u64(0) + u64(0) + data(b"/") + u64(1) + data(b"o")
REQUESTS = {
    "alloc": (10600, request("POST", "/api/v1/scheduler/alloc_job", "127.0.0.1:10600", "c1", data(ABC.encode()))),
    "status": (10600, request("GET", "/api/v1/scheduler/status", "127.0.0.1:10600")),
    "submit": (10501, request("POST", "/api/v1/distserver/submit_toolchain/4096", "127.0.0.1:10501", TOKEN, b"abc")),
    "run": (10501, request("POST", "/api/v1/distserver/run_job/4096", "127.0.0.1:10501", TOKEN,
                           struct.pack(">I", len(RUN)) + RUN + b"in")),
}
assert b"Content-Length: 58\r\n" in REQUESTS["run"][1] and b"\r\n\r\n\0\0\0\x34" in REQUESTS["run"][1]


# ---- steps about toolchains, each with what must come of it

def custom():
    row = ABC + " /my/compiler/in_archive ct1"
    yield "# an archive that is configured is told, and nobody packs"
    yield "write ct1 616263", "written"
    yield "config /my/compiler ct1 /my/compiler/in_archive", "configured"
    yield "open client", "opened"
    yield "put /my/compiler weak refuses", row
    yield "custom /my/compiler", row
    yield "get " + ABC, b"abc".hex()
    yield "# it records nothing: the same weak key of another compiler is packaged"
    yield "put /cc weak refuses", "PackagerFailed"
    yield "put /cc weak 78", hashlib.sha256(b"x").hexdigest()
    yield "# and stands before what is recorded"
    yield "put /my/compiler weak refuses", row
    yield "# one that is missing is told so, until it is there"
    yield "config /a none /a/in", "configured"
    yield "open client", "opened"
    for step in ["custom /a", "put /a weak refuses"]:
        yield step, "Cache(Io(Missing))"
    yield "get " + ABC, "none"
    yield "custom /b", "none"
    yield "write none 616263", "written"
    yield "custom /a", ABC + " /a/in none"
    yield "get " + ABC, b"abc".hex()


def disabled():
    yield "# a compiler that is configured to have none"
    yield "config /my/compiler", "configured"
    yield "open client", "opened"
    yield "put /my/compiler weak 616263", "Disabled"
    yield "custom /my/compiler", "none"
    yield "# stands before a weak key that is recorded"
    yield "put /cc weak refuses", hashlib.sha256(b"x").hexdigest()
    yield "put /my/compiler weak refuses", "Disabled"
    yield "# a compiler that is configured again is refused, by the first in the list that does so"
    for rows, refusal in [
        (["/a", "/a"], "DuplicateConfig"),
        (["/a x y", "/a z y"], "DuplicateConfig"),
        (["/a", "/a x y"], "ConflictConfig"),
        (["/a x y", "/a"], "ConflictConfig"),
        (["/a x y", "/b", "/a z y"], "DuplicateConfig"),
        (["/a", "/b", "/b x y", "/a"], "ConflictConfig"),
        (["/a", "/b", "/a", "/b x y"], "DuplicateConfig"),
    ]:
        for row in rows:
            yield "config " + row, "configured"
        yield "open d", refusal


def packaged():
    long = b"x" * (CAPACITY + 1)
    yield "# a compiler that is not configured is packaged, and recorded under its weak key"
    yield "open c", "opened"
    yield "get " + ABC, "none"
    yield "put /cc weak refuses", "PackagerFailed"
    yield "put /cc weak 616263", ABC
    yield "put /cc weak refuses", ABC
    yield "put /other weak refuses", ABC
    yield "put /cc another refuses", "PackagerFailed"
    yield "get " + ABC, b"abc".hex()
    yield "get " + NOTHING, "none"
    yield "# an archive that is too large is not stored, and its key not recorded"
    yield "put /cc large " + long.hex(), "Cache(FileTooLarge)"
    yield "put /cc large refuses", "PackagerFailed"
    yield "# it stays recorded"
    yield "read c/weak_map.json", ('{"weak":"%s"}' % ABC).encode().hex()
    yield "open c", "opened"
    yield "put /cc weak refuses", ABC
    for step in ["under an open cache", "before an opening"]:
        yield "# its archive is gone %s: it is packaged again, and is the same" % step
        yield "remove c/tc/b/a/" + ABC, "removed"
        if step == "before an opening":
            yield "open c", "opened"
            yield "get " + ABC, "none"
        yield "put /cc weak refuses", "PackagerFailed"
        yield "put /cc weak 616263", ABC
        yield "get " + ABC, b"abc".hex()


def unverified():
    yield "# configured archives are changed, and not verified: of two with one id that was taken last is given"
    for name, inside in [("one", "/one/in"), ("two", "/two/in")]:
        yield "write %s 616263" % name, "written"
        yield "config /%s %s %s" % (name, name, inside), "configured"
    yield "open u", "opened"
    yield "put /one one refuses", ABC + " /one/in one"
    yield "put /two two refuses", ABC + " /two/in two"
    yield "write one 78", "written"
    yield "write two 79", "written"
    yield "put /one one refuses", ABC + " /one/in one"
    yield "get " + ABC, b"y".hex()
    yield "# once it is removed it is not read"
    yield "remove two", "removed"
    yield "get " + ABC, "Cache(Io(Missing))"


# The file of the weak map, and whether an opening takes it.
WEAK_MAPS = [
    (b"{}", True), (b' { "a" : "b" }\n', True), (b'{"a":"b","a":"c"}', True), (b'{"a":"","":"x"}', True),
    (b'{"\\u0061":"b"}', True), (b"", False), (b"{", False), (b"{}{}", False), (b"[]", False), (b"null", False),
    (b'"a"', False), (b'{"a":1}', False), (b'{"a":null}', False), (b'{"a":["b"]}', False),
    (b'{"a":{"b":"c"}}', False), (b'{"a":"b","c":true}', False), (b'{"a":"\xff"}', False), (b"{'a':'b'}", False),
]


def weak_maps():
    yield "# the file of the weak map is an object of texts"
    for text, taken in WEAK_MAPS:
        yield "write w/weak_map.json " + text.hex(), "written"
        yield "open w", "opened" if taken else "BadWeakMap"
    yield "# a text that is no id, or the id of no archive, records nothing"
    yield "write w/weak_map.json " + ('{"a":"no id","b":"%s"}' % NOTHING).encode().hex(), "written"
    yield "open w", "opened"
    for key in ["a", "b"]:
        yield "put /cc %s refuses" % key, "PackagerFailed"
        yield "put /cc %s 616263" % key, ABC
    yield "# an opening makes the file where it is missing, empties what was being written, and drops what is no archive"
    yield "write n/toolchain_tmp/a/b 78", "written"
    yield "write n/tc/b/a/x 78", "written"
    yield "open n", "opened"
    yield "read n/weak_map.json", b"{}".hex()
    yield "read n/toolchain_tmp/a/b", "Missing"
    yield "read n/tc/b/a/x", "Missing"
    yield "read ct1", b"abc".hex()


def sweeps():
    yield "# each call of a folder in memory fails in turn: that is told, and the next opening does all"
    for when in ["before", "behind"]:
        yield "sweep " + when, "40 runs"


# ---- steps about calls: what is shown of it, the call, its word, the scheduler's URL, and the reply in hex

BASE = "http://127.0.0.1:10600"


def step(show, call, raw, word=None, base=BASE):
    reply = "none" if raw is None else shown(raw)
    return "%s %s %s %s %s" % (show, call, CALLS[call] if word is None else word, base, reply)


def told(call, raw):
    """What comes of a call that asks: how often it asked, and its answer."""
    return "1 " + ("LinkFault" if raw is None else answer(call, raw))


def request_told(call, raw, host, port, request):
    """The same, and whom it asked and how."""
    return "%s\n%s %d %s" % (told(call, raw), host, port, request.hex())


def ordinary():
    yield "# the ordinary build, and a status: each call asks once, and answers what is replied"
    for call, body in ORDINARY.items():
        yield step("request", call, binary(body)), request_told(call, binary(body), "127.0.0.1", *REQUESTS[call])
    assert answer("run", binary(COMPLETE)) == "complete 0 696e - o 6f 1"
    assert answer("status", binary(STATUS)) == "servers 1 cpus 8 jobs 0"


def refusals():
    yield "# each call with each reply"
    for name, raw in REPLIES.items():
        yield "# " + name
        for call in CALLS:
            yield step("answer", call, raw), told(call, raw)
    yield "# want of a reply"
    for call in CALLS:
        yield step("answer", call, None), told(call, None)


def cut_replies():
    yield "# each reply of the ordinary build, cut"
    for call, body in ORDINARY.items():
        raw = binary(body)
        yield step("cuts", call, raw), "%d ParseError" % len(raw)
    yield "# a message whose length is not told, and more behind it, cut"
    for call, body in ORDINARY.items():
        raw = b"HTTP/1.1 200 OK\r\n\r\n" + body + b"..."
        answers = [answer(call, raw[:n]) for n in range(len(raw))]
        others = ["\n%d: 1 %s" % (n, a) for n, a in enumerate(answers) if a != "ParseError"]
        yield step("cuts", call, raw), "%d ParseError%s" % (answers.count("ParseError"), "".join(others))


def unasked():
    yield "# what is refused before the asking asks nobody"
    yield step("request", "submit", binary(STORED), word=NOTHING), "0 NotLocal"
    yield step("request", "run", binary(COMPLETE), word="refuses"), "0 Packager"
    for call in ["alloc", "status"]:
        yield step("request", call, binary(ORDINARY[call]), base="https://127.0.0.1:10600"), "0 BadBase"


def bases():
    yield "# the base's host and port are asked, and its path is replaced; 80 is its port where it names none"
    raw = binary(STATUS)
    for base, host, port in [("http://localhost", "localhost", 80), ("http://localhost:80/a/b?c#d", "localhost", 80),
                             ("http://127.0.0.1:81/", "127.0.0.1", 81)]:
        written = request("GET", "/api/v1/scheduler/status", "%s:%d" % (host, port))
        yield step("request", "status", raw, base=base), request_told("status", raw, host, port, written)


PARTS = {
    "toolchains": [custom, disabled, packaged, unverified, weak_maps, sweeps],
    "calls": [ordinary, refusals, cut_replies, unasked, bases],
}


def main():
    _, program, column = sys.argv
    steps = [row if isinstance(row, tuple) else (row, row) for part in PARTS[program] for row in part()]
    print("\n".join(row[["steps", "told"].index(column)] for row in steps))


if __name__ == "__main__":
    main()
