#!/usr/bin/env python3
"""Requests to the scheduler in which one test fails, or two tests fail together, and what the program must
print.

    make.py script > examples/refusals.script
    make.py out > examples/refusals.out

A model of its own: it shares nothing with the program. Each route's tests stand in their order; a request
is told apart from one that is in order by one or two of its parts, and the first test that fails decides.
Heartbeats that are taken make a core entry, as do reports on a job, which no open job has. What the model
holds:

    route             tests in their order                         word of a 401
    alloc_job         a Bearer token is shown                      no_bearer_auth
                      it is the clients'                           bearer_auth_failed, body `Fixed token mismatch`
                      a message: Toolchain
    heartbeat_server  a server's token is accepted                 invalid_bearer_token
    job_state/ID      X-Real-IP, where there is one, is an IP      (an empty 400)
                      the token's IP is that one, else the peer's  invalid_bearer_token_mismatched_address
                      a message: a heartbeat; a state

Authorization is cut at its first space: the first part is exactly `Bearer`, the rest is the token. So
no_bearer_auth is the word of alloc_job alone: a server that shows no token shows none that is accepted. A
message is due where Content-Type begins with `application/octet-stream` (else 400), and the body begins
with it (else 400). A heartbeat of 0 or of more than 4294967295 processors is a 500. A header whose value is
not UTF-8 counts as absent. Bytes that are no request are a 400 (`bad request head`); all else is a 404.
"""
import itertools
import sys

SCHED, SERVER, PEER, FAR = "127.0.0.1:10600", "127.0.0.1:10501", "127.0.0.1:40000", "127.0.0.2:40000"
OCTETS = "application/octet-stream"


def le(n, size):
    return n.to_bytes(size, "little")


def err(*texts):
    cause = "null"
    for text in reversed(texts):
        cause = '{"cause":%s,"description":"%s"}' % (cause, text)
    return cause.encode()


def reply(status, headers, body, length=True):
    head = f"HTTP/1.1 {status}\r\n" + "".join(f"{h}\r\n" for h in headers)
    return (head + f"Content-Length: {len(body)}\r\nConnection: close\r\n\r\n").encode() + body


def refused(status, *texts):
    return reply(status, ["Content-Type: application/json"], err(*texts))


def word(name, body=b""):
    return reply("401 Unauthorized", [f'WWW-Authenticate: Bearer error="{name}"'], body)


NOT_FOUND = reply("404 Not Found", [], b"")
BAD_IP = reply("400 Bad Request", [], b"")
BAD_HEAD = refused("400 Bad Request", "bad request head")
NO_BINARY = refused("400 Bad Request", "the request didn't have a binary content type")
NO_MESSAGE = refused("400 Bad Request", "error while parsing the bincode body", "no message begins the body")
UNKNOWN = refused("500 Internal Server Error", "Unknown job")


def cpus_fault(n):
    return refused("500 Internal Server Error", f"Invalid number of CPUs ({n}) specified in heartbeat")


def beat(cpus):
    return le(3, 8) + b"\x01\x02\x02" + le(cpus, 8) + le(7, 8)


# The parts of a request that may differ: a name, what it changes, and the test that then fails with its
# reply. Tests of a route are numbered in their order.
TYPES = [("type", None, NO_BINARY), ("type", "text/plain", NO_BINARY), ("type", "Application/octet-stream", NO_BINARY)]
UNSHOWN = [None, "Basic x", "Bearer"]
CLIENT = [("auth", shown, word("no_bearer_auth")) for shown in UNSHOWN + ["bearer c1", "Bearer c1\xff"]]
CLIENT += [("auth", f"Bearer {token}", word("bearer_auth_failed", b"Fixed token mismatch")) for token in ["c2", "c1x", " c1"]]
UNACCEPTED = [f"bearer {SERVER} s1", f"Bearer {SERVER} s1\xff", f"Bearer {SERVER} s2", "Bearer s1", "Bearer 127.0.0.1 s1"]
SERVERS = [("auth", shown, word("invalid_bearer_token")) for shown in UNSHOWN + UNACCEPTED]
IPS = [("ip", "here", BAD_IP), ("ip", "127.0.0.1:1", BAD_IP)]
MISMATCHED = word("invalid_bearer_token_mismatched_address")
OTHERS = [("peer", FAR, MISMATCHED), ("ip", "127.0.0.2", MISMATCHED)]
TOOLCHAINS = [("body", body, NO_MESSAGE) for body in [b"", le(64, 8) + b"g" * 64, le(63, 8) + b"a" * 63]]
BEATS = [("body", beat(8)[:-1], NO_MESSAGE)]
CPUS = [("body", beat(cpus), cpus_fault(cpus)) for cpus in [0, 4294967296]]
STATES = [("body", body, NO_MESSAGE) for body in [le(4, 4), b"\x01\x00\x00"]]
ROUTES = {
    "alloc_job": ([CLIENT, TYPES, TOOLCHAINS], le(64, 8) + b"ba" * 32, "Bearer c1"),
    "heartbeat_server": ([SERVERS, IPS, OTHERS, TYPES, BEATS, CPUS], beat(8), f"Bearer {SERVER} s1"),
    "job_state/55": ([SERVERS, IPS, OTHERS, TYPES, STATES], le(1, 4), f"Bearer {SERVER} s1"),
}
STATUS = b"GET /api/v1/scheduler/status HTTP/1.1\r\n"
NO_REQUESTS = [
    b"", b"GET", STATUS, STATUS + b"\r\nx", STATUS + b"Content-Length: 1\r\n\r\n", STATUS + b"Content-Length: 1\r\n\r\nxy",
    STATUS + b"Content-Length: 0\r\nContent-Length: 0\r\n\r\n", STATUS + b"Content-Length: x\r\n\r\n",
    STATUS + b"Content-Length: \r\n\r\n", STATUS + b"Content-Length: +0\r\n\r\n", STATUS + b"Content-Length: \xff\r\n\r\n",
    STATUS + b"Content-Length: 00000000000000000000\r\n\r\n", STATUS + b"Content-Length: 1073741825\r\n\r\n",
    STATUS + b"Transfer-Encoding: chunked\r\n\r\n0\r\n\r\n", STATUS + b"transfer-encoding: \xff\r\n\r\n",
]


def request(path, body, parts):
    fields = {"auth": parts["auth"], "type": OCTETS, "ip": None, "peer": PEER, "body": body, "method": "POST", "accept": None}
    fields.update(parts)
    names = [("auth", "Authorization"), ("type", "Content-Type"), ("ip", "X-Real-IP"), ("accept", "Accept")]
    head = f"{fields['method']} /api/v1/scheduler/{path} HTTP/1.1\r\n"
    head += "".join(f"{name}: {fields[key]}\r\n" for key, name in names if fields[key] is not None)
    # A value may hold the byte 0xff, which is no UTF-8.
    return fields["peer"], (head + f"Content-Length: {len(fields['body'])}\r\n\r\n").encode("latin-1") + fields["body"]


def cases():
    """Each request, and what it makes: ('reply', bytes), ('beat', json) or ('update',)."""
    for path, (tests, body, auth) in ROUTES.items():
        faults = [(number, fault) for number, test in enumerate(tests) for fault in test]
        for chosen in itertools.chain(((f,) for f in faults), itertools.combinations(faults, 2)):
            changed = [fault[0] for _, fault in chosen]
            if len(set(changed)) < len(changed):
                continue
            parts = {"auth": auth}
            parts.update({fault[0]: fault[1] for _, fault in chosen})
            # An X-Real-IP stands for the peer's: with it, another peer is no fault.
            if "ip" in parts and "peer" in parts:
                continue
            yield request(path, body, parts), ("reply", sorted(chosen, key=lambda c: c[0])[0][1][2])
    base = {"auth": f"Bearer {SERVER} s1"}
    yield request("heartbeat_server", beat(8), base), ("beat", False)
    yield request("heartbeat_server", beat(8), {**base, "accept": "application/json"}), ("beat", True)
    yield request("heartbeat_server", beat(8), {**base, "accept": "application/jsonx"}), ("beat", False)
    yield request("heartbeat_server", beat(8), {**base, "type": OCTETS + "; x"}), ("beat", False)
    yield request("heartbeat_server", beat(8) + b"more", base), ("beat", False)
    yield request("heartbeat_server", beat(8), {**base, "peer": FAR, "ip": "127.0.0.1"}), ("beat", False)
    yield request("job_state/55", le(1, 4), base), ("update", 55)
    yield request("job_state/+0055?x=1", le(1, 4), base), ("update", 55)
    for path, parts in [
        ("job_state/", base), ("job_state/x", base), ("job_state/18446744073709551616", base), ("job_state/55/", base),
        ("job_state/x", {"auth": None}), ("job_state/55", {**base, "method": "PUT"}), ("alloc_job", {"auth": None, "method": "GET"}),
        ("heartbeat_server/", base), ("heartbeat_server", {**base, "method": "post"}), ("status", base), ("statu", {"auth": None, "type": None}),
    ]:
        yield request(path, le(1, 4), parts), ("reply", NOT_FOUND)
    for data in NO_REQUESTS:
        yield (PEER, data), ("reply", BAD_HEAD)


def taken(is_new, json):
    if json:
        return reply("200 OK", ["Content-Type: application/json"], b'{"is_new":true}' if is_new else b'{"is_new":false}')
    return reply("200 OK", [f"Content-Type: {OCTETS}"], bytes([is_new]))


def main():
    all_cases = list(cases())
    lines = [f"{n} request {SCHED} {peer} {data.hex() or '-'}" for n, ((peer, data), _) in enumerate(all_cases)]
    if sys.argv[1:] == ["script"]:
        print(f"scheduler {SCHED} base 4096 count 0 client c1 plain s1")
        print("\n".join(lines))
        return
    core, known, seen = 0, False, 0
    print(f"run 1 entries {len(lines)}")
    for n, (line, (_, made)) in enumerate(zip(lines, all_cases)):
        print(f"entry {n} {line}")
        if made[0] == "beat":
            print(f"core {core} beat {SERVER} nonce 7 cpus 8 pruned - reaped - replaced - {'old' if known else 'new'}")
            answer, known, core, seen = taken(not known, made[1]), True, core + 1, n
        elif made[0] == "update":
            print(f"core {core} update {SERVER} job {made[1]} state ready unknown")
            answer, core = UNKNOWN, core + 1
        else:
            answer = made[1]
        print(f"reply {n} {answer.hex()}")
    print("books\nids base 4096 count 0")
    print(f"server {SERVER} reg 0 cpus 8 nonce 7 seen {seen} load 0 error -\nend")


main()
