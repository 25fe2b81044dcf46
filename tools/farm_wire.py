"""What tools/farm-write and tools/farm-read share: the messages in binary, heads, and tokens. Python's
standard library alone.

docs/PROTOCOL.md says the formats. Nothing here is part of the proved program.
"""
import base64
import hashlib
import hmac
import ipaddress
import json
import struct

OCTETS = "application/octet-stream"
STATES = ["Pending", "Ready", "Started", "Complete"]


class Unreadable(Exception):
    """The bytes are not what they were read as."""


# Writing

def u32(n):
    return struct.pack("<I", n)


def u64(n):
    return struct.pack("<Q", n)


def data(value):
    return u64(len(value)) + value


def text(value):
    return data(value.encode())


def items(values, write=text):
    return u64(len(values)) + b"".join(write(value) for value in values)


def toolchain(archive_id):
    return text(archive_id)


def state(name):
    return u32([s.lower() for s in STATES].index(name.lower()))


def heartbeat(key, cpus, nonce):
    return data(key) + u64(cpus) + u64(nonce)


def drain(nonce, on):
    return u64(nonce) + bytes([1 if on else 0])


def run_head(executable, arguments, env_vars, cwd, outputs):
    pairs = items(env_vars, lambda pair: text(pair[0]) + text(pair[1]))
    return text(executable) + items(arguments) + pairs + text(cwd) + items(outputs)


def assign_result(name, need):
    return state(name) + bytes([1 if need else 0])


def request(method, target, host, body=None, bearer=None, extra=()):
    """The bytes of a request, its headers in the order in which a client of this project writes them."""
    lines = [f"{method} {target} HTTP/1.1", f"Host: {host}"]
    if bearer is not None:
        lines.append(f"Authorization: Bearer {bearer}")
    lines += extra
    if body is not None:
        lines += [f"Content-Type: {OCTETS}", f"Content-Length: {len(body)}"]
    lines.append("Connection: close")
    return ("\r\n".join(lines) + "\r\n\r\n").encode() + (body or b"")


def reply(code, body):
    reason = {200: "OK", 400: "Bad Request", 401: "Unauthorized", 404: "Not Found"}.get(code, "Fault")
    return f"HTTP/1.1 {code} {reason}\r\nContent-Length: {len(body)}\r\n\r\n".encode() + body


# Tokens (RFC 7519, HS256 alone; RFC 4648 section 5, no padding)

def encoded(raw):
    return base64.urlsafe_b64encode(raw).rstrip(b"=").decode()


def decoded(part):
    return base64.urlsafe_b64decode(part + "=" * (-len(part) % 4))


def job_token(key, job):
    signed = encoded(b'{"typ":"JWT","alg":"HS256"}') + "." + encoded(b'{"exp":0,"job_id":%d}' % job)
    return signed + "." + encoded(hmac.new(key, signed.encode(), hashlib.sha256).digest())


def token_claims(token):
    """The claims' text of a signed token, or None where the text is none."""
    parts = token.split(".")
    if len(parts) != 3:
        return None
    try:
        claims = decoded(parts[1]).decode()
        json.loads(claims)
        return claims
    except ValueError:
        return None


# Reading

class Reader:
    def __init__(self, raw):
        self.raw, self.at = raw, 0

    def take(self, n):
        if self.at + n > len(self.raw):
            raise Unreadable("the bytes end too early")
        self.at += n
        return self.raw[self.at - n:self.at]

    def number(self, size):
        return int.from_bytes(self.take(size), "little")

    def flag(self):
        n = self.number(1)
        if n > 1:
            raise Unreadable("no flag")
        return n == 1

    def variant(self, names):
        n = self.number(4)
        if n >= len(names):
            raise Unreadable("no such variant")
        return names[n]

    def data(self):
        return self.take(self.number(8))

    def text(self):
        try:
            return self.data().decode()
        except UnicodeDecodeError as fault:
            raise Unreadable("no UTF-8") from fault

    def items(self, read):
        return [read() for _ in range(self.number(8))]

    def addr(self):
        if self.variant(["V4", "V6"]) == "V4":
            return f"{ipaddress.IPv4Address(self.take(4))}:{self.number(2)}"
        return f"[{ipaddress.IPv6Address(self.take(16))}]:{self.number(2)}"

    def rest(self):
        return self.raw[self.at:]


def shown(raw, most=48):
    """Bytes for people: as text where they are plain ASCII, else as hex, cut after some."""
    if raw and all(0x20 <= b < 0x7f for b in raw):
        plain = raw.decode()
        return f'"{plain}"' if len(plain) <= most else f'"{plain[:most]}.." ({len(raw)} bytes)'
    return raw.hex() if len(raw) <= most else f"{raw[:most].hex()}.. ({len(raw)} bytes)"


def read_state(r):
    return r.variant(STATES)


def read_heartbeat(r):
    return {"jwt_key": r.data().hex(), "num_cpus": r.number(8), "server_nonce": r.number(8)}


def read_drain(r):
    return {"server_nonce": r.number(8), "draining": r.flag()}


def read_toolchain(r):
    return {"archive_id": r.text()}


def read_assign(r):
    return {"state": read_state(r), "need_toolchain": r.flag()}


def read_alloc(r):
    if r.variant(["Success", "Fail"]) == "Fail":
        return {"Fail": {"msg": r.text()}}
    auth, job, server = r.text(), r.number(8), r.addr()
    return {"Success": {"auth": auth, "job_id": job, "server_id": server, "need_toolchain": r.flag()}}


def read_update(r):
    if r.variant(["Success", "Fail"]) == "Fail":
        return {"Fail": {"msg": r.text()}}
    return "Success"


def read_heard(r):
    return {"is_new": r.flag()}


def read_drained(r):
    return {"known": r.flag()}


def read_status(r):
    return {"num_servers": r.number(8), "num_cpus": r.number(8), "in_progress": r.number(8)}


def read_submitted(r):
    return r.variant(["Success", "JobNotFound", "CannotCache"])


def read_ran(r):
    if r.variant(["JobNotFound", "Complete"]) == "JobNotFound":
        return "JobNotFound"
    code = int.from_bytes(r.take(4), "little", signed=True)
    out, err = r.data(), r.data()
    outputs = r.items(lambda: (r.text(), r.data(), r.number(8)))
    return {"Complete": {"code": code, "stdout": shown(out), "stderr": shown(err),
                         "outputs": {name: shown(content) for name, content, _ in outputs}}}


def read_run(r):
    size = int.from_bytes(r.take(4), "big")
    head = Reader(r.take(size))
    executable, arguments = head.text(), head.items(head.text)
    env_vars = head.items(lambda: (head.text(), head.text()))
    cwd = head.text()
    return {"executable": executable, "arguments": arguments, "env_vars": env_vars, "cwd": cwd,
            "outputs": head.items(head.text), "inputs": shown(r.rest())}


# A route's path, what its request's body holds, and what the body of its 200 holds.
ROUTES = [
    ("/api/v1/scheduler/alloc_job", read_toolchain, read_alloc),
    ("/api/v1/scheduler/heartbeat_server", read_heartbeat, read_heard),
    ("/api/v1/scheduler/drain_server", read_drain, read_drained),
    ("/api/v1/scheduler/job_state/", read_state, read_update),
    ("/api/v1/scheduler/status", None, read_status),
    ("/api/v1/distserver/assign_job/", read_toolchain, read_assign),
    ("/api/v1/distserver/submit_toolchain/", None, read_submitted),
    ("/api/v1/distserver/run_job/", read_run, read_ran),
]


def route_of(target):
    path = target.split("?")[0]
    for prefix, asked, answered in ROUTES:
        if path == prefix or (prefix.endswith("/") and path.startswith(prefix)):
            return asked, answered
    return None, None


def split_head(raw):
    """The first line, the headers and the body of a request or a reply."""
    end = raw.find(b"\r\n\r\n")
    if end < 0:
        raise Unreadable("no head")
    first, *lines = raw[:end].decode("latin-1").split("\r\n")
    fields = []
    for line in lines:
        name, colon, value = line.partition(":")
        if not colon:
            raise Unreadable("no header")
        fields.append((name, value.strip()))
    return first, fields, raw[end + 4:]


def field(fields, name):
    return next((value for key, value in fields if key.lower() == name.lower()), None)
