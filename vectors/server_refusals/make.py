#!/usr/bin/env python3
"""Requests to a build server in which one test fails, or two tests fail together, and the reply that each
must get.

    make.py > crates/test_http/src/server_refusals.rt

A model of its own: it shares nothing with the program. Each route's tests stand in their order; a request
is told apart from one that is in order by one or two of its parts, and the first test that fails decides.
What the model holds:

    route                 tests in their order
    assign_job/ID         the job's token; a message: Toolchain
    submit_toolchain/ID   the job's token
    run_job/ID            the job's token; the head of a run: a length of four bytes, high byte first, so many bytes, and
                          in them one run and nothing more

The tokens are made here with Python's hmac and base64: three parts in base64url without padding. A token is
refused, in this order, where it has not three parts, its third part is no base64url, its MAC is another,
its header does not say HS256, its claims are not an object of `exp` and `job_id` alone; then where `exp` is
not 0 or the job is another. The word of each 401 is invalid_jwt.
"""
import base64
import hashlib
import hmac
import itertools

KEY, OTHER_KEY = b"\x01\x02\x02", b"\x01\x02\x03"
HEADER = b'{"typ":"JWT","alg":"HS256"}'


def b64(data):
    return base64.urlsafe_b64encode(data).rstrip(b"=")


def token(claims, key=KEY, header=HEADER):
    signed = b64(header) + b"." + b64(claims)
    return (signed + b"." + b64(hmac.new(key, signed, hashlib.sha256).digest())).decode()


def err(*texts):
    cause = "null"
    for text in reversed(texts):
        cause = '{"cause":%s,"description":"%s"}' % (cause, text)
    return cause


def reply(status, headers, body):
    head = f"HTTP/1.1 {status}\r\n" + "".join(f"{h}\r\n" for h in headers)
    return head + f"Content-Length: {len(body)}\r\nConnection: close\r\n\r\n" + body


def jwt(text):
    return reply("401 Unauthorized", ['WWW-Authenticate: Bearer error="invalid_jwt"'], err(text))


def fault(status, *texts):
    return reply(status, ["Content-Type: application/json"], err(*texts))


OWN = b'{"exp":0,"job_id":55}'
SHOWN = {
    "OWN": "Bearer " + token(OWN),
    "BASIC": "Basic " + token(OWN),
    "SMALL": "bearer " + token(OWN),
    "TWO_PARTS": "Bearer a.b",
    "PADDED": "Bearer " + token(OWN) + "=",
    "NO_ALGORITHM": "Bearer " + token(OWN, header=b'{"typ":"JWT","alg":"none"}'),
    "MORE_CLAIMS": "Bearer " + token(b'{"exp":0,"job_id":55,"x":1}'),
    "OTHER_KEY": "Bearer " + token(OWN, key=OTHER_KEY),
    "OTHER_JOB": "Bearer " + token(b'{"exp":0,"job_id":56}'),
    "EXPIRING": "Bearer " + token(b'{"exp":1,"job_id":55}'),
}
REPLIES = {
    "UNSHOWN": jwt("no Authorization header"),
    "INVALID": jwt("JWT decode failed: InvalidToken"),
    "SIGNATURE": jwt("JWT decode failed: InvalidSignature"),
    "MISMATCHED": jwt("mismatched claims"),
    "CONTENT_TYPE": fault("400 Bad Request", "the request didn't have a binary content type"),
    "PARSE": fault("400 Bad Request", "error while parsing the bincode body", "no message begins the body"),
    "NO_LENGTH": fault("500 Internal Server Error", "failed to read run job input length"),
    "NO_RUN": fault("500 Internal Server Error", "failed to deserialize run job request"),
    "NOT_FOUND": reply("404 Not Found", [], ""),
    "TAKEN": "",
}
AUTH = [("NONE", "UNSHOWN"), ("BASIC", "UNSHOWN"), ("SMALL", "UNSHOWN"), ("TWO_PARTS", "INVALID"), ("PADDED", "INVALID"),
        ("NO_ALGORITHM", "INVALID"), ("MORE_CLAIMS", "INVALID"), ("OTHER_KEY", "SIGNATURE"), ("OTHER_JOB", "MISMATCHED"),
        ("EXPIRING", "MISMATCHED")]


def le(n, size):
    return n.to_bytes(size, "little")


def text(s):
    return le(len(s), 8) + s


HEAD = text(b"cc") + le(0, 8) + le(0, 8) + text(b"/") + le(1, 8) + text(b"o")
BODIES = {
    "TOOLCHAIN": text(b"ba" * 32),
    "NO_DIGITS": text(b"g" * 64),
    "SHORT_ID": text(b"a" * 63),
    "RUN": len(HEAD).to_bytes(4, "big") + HEAD + b"in",
    "THREE_BYTES": b"\x00\x00\x00",
    "CUT_HEAD": (len(HEAD) + 3).to_bytes(4, "big") + HEAD + b"in",
    "LONG_HEAD": (len(HEAD) + 1).to_bytes(4, "big") + HEAD + b"in",
    "SHORT_HEAD": (len(HEAD) - 1).to_bytes(4, "big") + HEAD + b"in",
    "LOW_FIRST": len(HEAD).to_bytes(4, "little") + HEAD + b"in",
    "EMPTY": b"",
}
TYPES = [("UNTYPED", "CONTENT_TYPE"), ("TEXT", "CONTENT_TYPE")]
IDS = [("EMPTY", "PARSE"), ("NO_DIGITS", "PARSE"), ("SHORT_ID", "PARSE")]
RUNS = [("EMPTY", "NO_LENGTH"), ("THREE_BYTES", "NO_LENGTH"), ("CUT_HEAD", "NO_RUN"), ("LONG_HEAD", "NO_RUN"),
        ("SHORT_HEAD", "NO_RUN"), ("LOW_FIRST", "NO_RUN")]
# The tests of each route in their order, each with the part that it looks at, and the body that is in order.
ROUTES = {
    "ASSIGN": ([("auth", AUTH), ("type", TYPES), ("body", IDS)], "TOOLCHAIN"),
    "SUBMIT": ([("auth", AUTH)], "TOOLCHAIN"),
    "RUN_JOB": ([("auth", AUTH), ("body", RUNS)], "RUN"),
}


def rows():
    for route, (tests, body) in ROUTES.items():
        order = {"auth": "OWN", "type": "OCTETS", "body": body}
        faults = [(n, part, value, answer) for n, (part, values) in enumerate(tests) for value, answer in values]
        yield route, order, "TAKEN"
        for f in faults:
            yield route, {**order, f[1]: f[2]}, f[3]
        for f, g in itertools.combinations(faults, 2):
            if f[1] == g[1]:
                continue
            yield route, {**order, f[1]: f[2], g[1]: g[2]}, min(f, g)[3]
    # What these routes do not test.
    for kind, body in itertools.product(["OCTETS", "UNTYPED", "TEXT"], ["EMPTY", "NO_DIGITS", "RUN"]):
        yield "SUBMIT", {"auth": "OWN", "type": kind, "body": body}, "TAKEN"
    for kind in ["UNTYPED", "TEXT"]:
        yield "RUN_JOB", {"auth": "OWN", "type": kind, "body": "RUN"}, "TAKEN"
    for place in ["NO_ID", "BAD_ID", "LARGE_ID", "MORE_PATH", "GET_RUN", "OF_SCHEDULER"]:
        for auth in ["OWN", "NONE"]:
            yield place, {"auth": auth, "type": "OCTETS", "body": "TOOLCHAIN"}, "NOT_FOUND"


def literal(data):
    out = ""
    for b in data:
        out += chr(b) if 32 <= b < 127 and chr(b) not in '"\\' else {13: "\\r", 10: "\\n", 34: '\\"', 92: "\\\\"}.get(b, "\\x%02x" % b)
    return 'b"%s"' % out


def variant(name):
    return "".join(word.capitalize() for word in name.lower().split("_"))


def choice(doc, name, kind, values):
    """An enum of the names, and the function from each to its value."""
    print(f"/// {doc}\n#[derive(Clone, Copy)]\nenum {name} {{")
    for key in values:
        print(f"    {variant(key)},")
    print("}\n")
    print(f"fn {name.lower()}_of(x: {name}) -> {kind} {{\n    match x {{")
    for key, value in values.items():
        print(f"        {name}::{variant(key)} => {value},")
    print("    }\n}\n")
    for key in values:
        print(f"const {key}: {name} = {name}::{variant(key)};\n")


PLACES = {
    "ASSIGN": "POST /api/v1/distserver/assign_job/55", "SUBMIT": "POST /api/v1/distserver/submit_toolchain/55",
    "RUN_JOB": "POST /api/v1/distserver/run_job/55", "NO_ID": "POST /api/v1/distserver/assign_job/",
    "BAD_ID": "POST /api/v1/distserver/run_job/x", "LARGE_ID": "POST /api/v1/distserver/run_job/18446744073709551616",
    "MORE_PATH": "POST /api/v1/distserver/submit_toolchain/55/", "GET_RUN": "GET /api/v1/distserver/run_job/55",
    "OF_SCHEDULER": "POST /api/v1/scheduler/alloc_job",
}
KINDS = {"OCTETS": "Content-Type: application/octet-stream\r\n", "TEXT": "Content-Type: text/plain\r\n", "UNTYPED": ""}


def text_literal(t):
    return literal(t.encode())[1:]


def main():
    print("//! What each refusal of a request to a build server is told, alone and beside another: made by a model, which\n"
          "//! `vectors/server_refusals` holds.")
    print("use crate::server_routes::authorizer;\nuse dist_token::job_token::JWTJobAuthorizer;\n"
          "use http_routes::server_route::{ServerRouted, server_asked};\n"
          "use std::alloc::Global;\nuse std::process::Abort;\n")
    choice("The routes for job 55, and places that are none.", "Place", "&'static str", {k: text_literal(v) for k, v in PLACES.items()})
    shown = {"NONE": '""'}
    shown.update({k: text_literal(f"Authorization: {v}\r\n") for k, v in SHOWN.items()})
    choice("What is shown: an Authorization, or none.", "Shown", "&'static str", shown)
    choice("The content types.", "Kind", "&'static str", {k: text_literal(v) for k, v in KINDS.items()})
    choice("The bodies.", "Body", "&'static [u8]", {k: literal(v) for k, v in BODIES.items()})
    choice("The replies; none where what is asked is taken.", "Answer", "&'static [u8]", {k: literal(v.encode()) for k, v in REPLIES.items()})
    print("/// A request, by its parts, and the reply to it.\ntype Row = (Place, Shown, Kind, Body, Answer);\n")
    print("const ROWS: &[Row] = &[")
    for place, parts, answer in rows():
        print(f"    ({place}, {parts['auth']}, {parts['type']}, {parts['body']}, {answer}),")
    print("];\n")
    print('''/// The bytes of a row's request.
fn request(rt: &impl Abort, alloc: Global, row: &Row) -> Vec<u8> {
    let line = place_of(row.0);
    let shown = shown_of(row.1);
    let kind = kind_of(row.2);
    let body = body_of(row.3);
    let len = body.len();
    let head = format!(in alloc; "{line} HTTP/1.1\\r\\n{shown}{kind}Content-Length: {len}\\r\\n\\r\\n");
    let mut bytes = head.expect(rt, "memory").into_bytes();
    bytes.extend_from_slice(body).expect(rt, "memory");
    bytes
}

/// Whether that is the reply that is known at once; no bytes stand for what is taken.
fn is_done(alloc: Global, what: &ServerRouted, want: &[u8]) -> bool {
    match what {
        ServerRouted::Done(response) => match response.bytes(alloc) {
            Ok(reply) => reply.as_slice() == want,
            Err(_) => false,
        },
        _ => want.is_empty(),
    }
}

/// Whether the request has that reply at once under the key 010202.
fn is_replied(alloc: Global, bytes: &[u8], authorizer: &JWTJobAuthorizer, want: &[u8]) -> bool {
    match server_asked(alloc, bytes, authorizer) {
        Ok(asked) => is_done(alloc, &asked.what, want),
        Err(_) => false,
    }
}

fn check(rt: &impl Abort, alloc: Global, authorizer: &JWTJobAuthorizer, row: &Row) -> bool {
    let bytes = request(rt, alloc, row);
    is_replied(alloc, &bytes, authorizer, answer_of(row.4))
}

#[test]
fn a_server_tells_each_refusal_in_order(rt: HostRuntime) {
    assert!(&rt; ROWS.len() >= 120);
    let authorizer = authorizer(&rt, rt.alloc());
    for (number, row) in ROWS.iter().enumerate() {
        assert!(&rt; check(&rt, rt.alloc(), &authorizer, row), "row {number}");
    }
}''')


main()
