#!/usr/bin/env python3
"""A client of a running scheduler in Python's standard library, written from docs/PROTOCOL.md alone.

client.py SCHEDULER TOKEN ARCHIVE [--json] -- EXECUTABLE [ARG]..
takes one job through the scheduler at SCHEDULER (HOST:PORT): it asks for a build server, hands it the
archive of the toolchain where that is wanted, runs the command over the bytes of standard input, and
writes the command's output. With --json the answers are asked for in JSON, else in binary.

Its status is the command's; else one line on standard error says what is wrong, and the status is
120 for wrong words, 121 for a refusal, 122 where nothing answers or no answer can be read, 123 where
a file or standard input cannot be read or the output cannot be written.
"""
import hashlib
import http.client
import ipaddress
import json
import os
import struct
import sys

MISUSE, REFUSED, LINK, FILES = 120, 121, 122, 123


class Ends(Exception):
    """There is no output of a command: a status, and why."""

    def __init__(self, status, cause):
        super().__init__(cause)
        self.status = status


def text(value):
    data = value.encode("utf-8", "surrogateescape")
    return struct.pack("<Q", len(data)) + data


def texts(values):
    return struct.pack("<Q", len(values)) + b"".join(text(value) for value in values)


class Reader:
    """The messages in binary: whole numbers have their lowest byte first."""

    def __init__(self, data):
        self.data = data

    def take(self, size):
        if size > len(self.data):
            raise ValueError("the message ends too early")
        front, self.data = self.data[:size], self.data[size:]
        return front

    def number(self, form):
        return struct.unpack("<" + form, self.take(struct.calcsize("<" + form)))[0]

    def list_of_bytes(self):
        return self.take(self.number("Q"))

    def address(self):
        if self.number("I") == 0:
            return f"{ipaddress.IPv4Address(self.take(4))}:{self.number('H')}"
        return f"[{ipaddress.IPv6Address(self.take(16))}]:{self.number('H')}"


def allocation(data, as_json):
    """The message AllocJobHttpResponse: token, job, server and whether the archive is wanted."""
    if as_json:
        answer = json.loads(data)
        if "Fail" in answer:
            raise Ends(REFUSED, "no job: " + answer["Fail"]["msg"])
        job = answer["Success"]["job_alloc"]
        return job["auth"], job["job_id"], job["server_id"], answer["Success"]["need_toolchain"]
    reader = Reader(data)
    if reader.number("I") == 1:
        raise Ends(REFUSED, "no job: " + reader.list_of_bytes().decode())
    token = reader.list_of_bytes().decode()
    return token, reader.number("Q"), reader.address(), reader.number("B") == 1


def result(data, as_json):
    """The message RunJobResult: code, standard output and standard error; the outputs are left."""
    if data in (b'"JobNotFound"', b"\0\0\0\0"):
        raise Ends(REFUSED, "the server does not know the job: ask for another")
    if as_json:
        output = json.loads(data)["Complete"]["output"]
        return output["code"], bytes(output["stdout"]), bytes(output["stderr"])
    reader = Reader(data[4:])
    return reader.number("i"), reader.list_of_bytes(), reader.list_of_bytes()


def causes(reply, data):
    """What a refusal says: its texts from the outside in, or its body."""
    said = reply.getheader("WWW-Authenticate") or ""
    try:
        fault = json.loads(data)
        while fault is not None:
            said += (": " if said else "") + fault["description"]
            fault = fault["cause"]
    except (ValueError, KeyError, TypeError):
        said += " " + data.decode("utf-8", "replace")
    return said.strip()


def post(address, path, token, body, as_json):
    headers = {"Authorization": "Bearer " + token, "Content-Type": "application/octet-stream"}
    if as_json:
        headers["Accept"] = "application/json"
    try:
        connection = http.client.HTTPConnection(address)
        try:
            connection.request("POST", path, body, headers)
        except (BrokenPipeError, ConnectionResetError):
            pass  # a refusal may come before all was sent
        reply = connection.getresponse()
        data = reply.read()
    except (OSError, http.client.HTTPException, UnicodeError) as fault:
        raise Ends(LINK, f"{address}{path}: {getattr(fault, 'strerror', None) or fault or 'no reply'}") from None
    except ValueError as fault:
        raise Ends(MISUSE, str(fault)) from None
    if reply.status != 200:
        raise Ends(REFUSED, f"{path}: {reply.status} {causes(reply, data)}")
    return data


def read(name, stream=None):
    try:
        if stream is not None:
            return stream.buffer.read()
        with open(name, "rb") as file:
            return file.read()
    except (OSError, ValueError, AttributeError) as fault:
        raise Ends(FILES, f"{name}: {getattr(fault, 'strerror', None) or fault}") from None


def hand_on(name, stream, data):
    try:
        stream.buffer.write(data)
        stream.buffer.flush()
    except (OSError, AttributeError) as fault:
        os.dup2(os.open(os.devnull, os.O_WRONLY), {"standard output": 1, "standard error": 2}[name])
        raise Ends(FILES, f"{name}: {getattr(fault, 'strerror', None) or 'closed'}") from None


def words_of(words):
    cut = words.index("--") if "--" in words else len(words)
    first, command = [word for word in words[:cut] if word != "--json"], words[cut + 1:]
    if len(first) != 3 or not command:
        raise Ends(MISUSE, "client.py SCHEDULER TOKEN ARCHIVE [--json] -- EXECUTABLE [ARG].. (client.py --help says more)")
    return first, command, "--json" in words[:cut]


def take_job(words):
    """Takes the job, and writes its output; the command's code, of which a status has eight bits."""
    (scheduler, token, archive_name), command, as_json = words_of(words)
    archive, inputs = read(archive_name), read("standard input", sys.stdin)
    toolchain = text(hashlib.sha256(archive).hexdigest())
    try:
        data = post(scheduler, "/api/v1/scheduler/alloc_job", token, toolchain, as_json)
        token, job, server, wanted = allocation(data, as_json)
        if wanted:
            taken = post(server, f"/api/v1/distserver/submit_toolchain/{job}", token, archive, as_json)
            if taken not in (b'"Success"', b"\0\0\0\0"):
                raise Ends(REFUSED, "the server did not take the archive")
        head = text(command[0]) + texts(command[1:]) + texts([]) + text("/") + texts(["out"])
        body = struct.pack(">I", len(head)) + head + inputs
        done = post(server, f"/api/v1/distserver/run_job/{job}", token, body, as_json)
        code, stdout, stderr = result(done, as_json)
    except (ValueError, KeyError, TypeError) as fault:
        raise Ends(LINK, f"an answer that cannot be read: {fault}") from None
    hand_on("standard output", sys.stdout, stdout)
    hand_on("standard error", sys.stderr, stderr)
    return code & 255 or (1 if code else 0)


def main():
    if sys.argv[1:2] in (["-h"], ["--help"]):
        hand_on("standard output", sys.stdout, __doc__.encode())
        return 0
    return take_job(sys.argv[1:])


try:
    sys.exit(main())
except Ends as end:
    try:
        print(f"client.py: {end}", file=sys.stderr, flush=True)
    except OSError:
        pass
    sys.exit(end.status)
except KeyboardInterrupt:
    sys.exit(130)
