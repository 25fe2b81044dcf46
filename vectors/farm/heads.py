"""Heads, tokens and replies, by the tables of what a scheduler and a server answer. Strict heads alone: one
space between the words of the first line, and names of headers in the usual letters."""
import base64
import binascii
import hashlib
import hmac
import json
import os
import re
import sys

sys.path.insert(0, os.path.join(os.path.dirname(os.path.abspath(__file__)), "..", "..", "tools"))
import farm_wire as wire  # noqa: E402

OCTETS = wire.OCTETS
LIMIT = 1073741824


class Refused(Exception):
    """A reply that a test of a route gives; `args[0]` is its bytes."""


def reply(status, headers, body=b""):
    lines = [f"HTTP/1.1 {status}", *headers, f"Content-Length: {len(body)}", "Connection: close", "", ""]
    return "\r\n".join(lines).encode() + body


def fault_body(*texts):
    cause = "null"
    for text in reversed(texts):
        cause = '{"cause":%s,"description":"%s"}' % (cause, text)
    return cause.encode()


def bad_request(*texts):
    return reply("400 Bad Request", ["Content-Type: application/json"], fault_body(*texts))


def server_error(*texts):
    return reply("500 Internal Server Error", ["Content-Type: application/json"], fault_body(*texts))


def unauthorised(word, body=b""):
    return reply("401 Unauthorized", [f'WWW-Authenticate: Bearer error="{word}"'], body)


NOT_FOUND = reply("404 Not Found", [])
BAD_REAL_IP = reply("400 Bad Request", [])
BAD_HEAD = bad_request("bad request head")
WRONG_TYPE = bad_request("the request didn't have a binary content type")
NO_MESSAGE = bad_request("error while parsing the bincode body", "no message begins the body")


def answer(binary, as_json, wants_json):
    if wants_json:
        return reply("200 OK", ["Content-Type: application/json"], json.dumps(as_json, separators=(",", ":")).encode())
    return reply("200 OK", [f"Content-Type: {OCTETS}"], binary)


def head_of(raw, first_line):
    """The match of the first line, the headers and what follows; None where the bytes are no head."""
    end = raw.find(b"\r\n\r\n")
    if end < 0 or end + 4 > 65536:
        return None
    first, *lines = raw[:end].split(b"\r\n")
    found = re.fullmatch(first_line, first)
    fields = [re.fullmatch(rb"([!#$%&'*+.^_`|~0-9A-Za-z-]+):[ \t]*(.*?)[ \t]*", line) for line in lines]
    if not found or len(fields) > 100 or not all(fields):
        return None
    return found, [(f.group(1).lower(), f.group(2)) for f in fields], raw[end + 4:]


def stated_length(fields):
    """What the headers say of the body's length: a number, None where they say nothing, -1 where they may
    not stand."""
    lengths = [value for name, value in fields if name == b"content-length"]
    if any(name == b"transfer-encoding" for name, _ in fields) or len(lengths) > 1:
        return -1
    if not lengths:
        return None
    if not re.fullmatch(rb"[0-9]{1,19}", lengths[0]) or int(lengths[0]) > LIMIT:
        return -1
    return int(lengths[0])


class Request:
    def __init__(self, raw):
        head = head_of(raw, rb"([!#$%&'*+.^_`|~0-9A-Za-z-]+) ([\x21-\x7e]+) HTTP/1\.[01]")
        if head is None:
            raise Refused(BAD_HEAD)
        found, self.fields, self.body = head
        if (stated_length(self.fields) or 0) != len(self.body):
            raise Refused(BAD_HEAD)
        self.method, self.path = found.group(1), found.group(2).split(b"?")[0].decode()

    def header(self, name):
        value = next((value for key, value in self.fields if key == name), None)
        try:
            return value.decode() if value is not None else None
        except UnicodeDecodeError:
            return None

    def bearer(self):
        scheme, space, token = (self.header(b"authorization") or "").partition(" ")
        return token if scheme == "Bearer" and space else None

    def wants_json(self):
        return self.header(b"accept") == "application/json"

    def message(self, read):
        if not (self.header(b"content-type") or "").startswith(OCTETS):
            raise Refused(WRONG_TYPE)
        try:
            return read(wire.Reader(self.body))
        except wire.Unreadable as fault:
            raise Refused(NO_MESSAGE) from fault

    def number_behind(self, prefix):
        rest = self.path[len(prefix):] if self.path.startswith(prefix) else ""
        if self.method == b"POST" and re.fullmatch(r"\+?[0-9]+", rest) and int(rest) < 2**64:
            return int(rest)
        return None


def read_reply(raw):
    """The code and body of a reply; None where it is unreadable."""
    head = head_of(raw, rb"HTTP/1\.[01] ([0-9]{3})(?: [\t \x21-\x7e\x80-\xff]*)?")
    if head is None:
        return None
    found, fields, body = head
    if stated_length(fields) not in (None, len(body)):
        return None
    return int(found.group(1)), body


def read_archive_id(reader):
    text = reader.text()
    if not re.fullmatch(r"[0-9a-fA-F]{64}", text):
        raise wire.Unreadable("no digest")
    return text.lower()


# Tokens

def base64url(part):
    if not re.fullmatch(r"[A-Za-z0-9_-]*", part):
        return None
    try:
        raw = base64.urlsafe_b64decode(part + "=" * (-len(part) % 4))
    except binascii.Error:
        return None
    return raw if wire.encoded(raw) == part else None


def no_float(text):
    return text if not re.fullmatch(r"-?[0-9]+", text) else int(text)


def claims_of(key, token, name):
    """The claims of a token with exactly the members `exp` and `name`; else the text of the first test that
    fails."""
    parts = token.split(".")
    if len(parts) != 3:
        return "InvalidToken"
    mac = base64url(parts[2])
    if mac is None:
        return "InvalidToken"
    if mac != hmac.new(key, f"{parts[0]}.{parts[1]}".encode(), hashlib.sha256).digest():
        return "InvalidSignature"
    try:
        header, claims = (json.loads(base64url(part), parse_float=str) for part in parts[:2])
    except (ValueError, TypeError):
        return "InvalidToken"
    whole = isinstance(claims, dict) and set(claims) == {"exp", name} and type(claims["exp"]) is int
    if not isinstance(header, dict) or header.get("alg") != "HS256" or not whole or not 0 <= claims["exp"] < 2**64:
        return "InvalidToken"
    return claims


def job_token_fault(key, token, job):
    """None where the token is the job's under the key, else the text of its refusal."""
    if token is None:
        return "no Authorization header"
    claims = claims_of(key, token, "job_id")
    if isinstance(claims, str):
        return f"JWT decode failed: {claims}"
    if type(claims["job_id"]) is not int or not 0 <= claims["job_id"] < 2**64:
        return "JWT decode failed: InvalidToken"
    return None if (claims["exp"], claims["job_id"]) == (0, job) else "mismatched claims"


def server_token(key, server):
    signed = wire.encoded(b'{"typ":"JWT","alg":"HS256"}') + "." + wire.encoded(b'{"exp":0,"server_id":"%s"}' % server.encode())
    return signed + "." + wire.encoded(hmac.new(key, signed.encode(), hashlib.sha256).digest())
