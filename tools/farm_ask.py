"""Asks a running scheduler: one request a connection, and each fault in a line. Python's standard library
alone."""
import json
import re
import socket
import urllib.parse

import farm_wire as wire

SECONDS = 5
MOST_REPLY = 1 << 20


class NoAnswer(Exception):
    """Nothing answers, or what answers is no scheduler."""


def place_of(text):
    """The host and the port of HOST:PORT, or of a URL of http; None where the text is neither."""
    url = urllib.parse.urlsplit(text if "://" in text else "http://" + text)
    try:
        port = url.port
    except ValueError:
        return None
    if url.scheme != "http" or not url.hostname or url.username is not None or (port is None and "://" not in text):
        return None
    return url.hostname, 80 if port is None else port


def host_text(place):
    host, port = place
    return f"[{host}]:{port}" if ":" in host else f"{host}:{port}"


def exchange(place, raw, seconds=SECONDS):
    """What the other side sends until it ends the connection."""
    reply = b""
    try:
        with socket.create_connection(place, timeout=seconds) as link:
            link.sendall(raw)
            while part := link.recv(65536):
                reply += part
                if len(reply) > MOST_REPLY:
                    raise NoAnswer(f"{host_text(place)} answers without end")
    except TimeoutError:
        raise NoAnswer(f"{host_text(place)} does not answer within {seconds} seconds") from None
    except (OSError, UnicodeError) as fault:
        raise NoAnswer(f"{host_text(place)}: {getattr(fault, 'strerror', None) or fault}") from None
    return reply


def ask(place, method, path, body=None, bearer=None):
    """The status, the headers and the body of a reply."""
    raw = wire.request(method, path, host_text(place), body, bearer, ["Accept: application/json"])
    try:
        first, fields, rest = wire.split_head(exchange(place, raw))
    except wire.Unreadable:
        raise NoAnswer(f"{host_text(place)} answers, and not as a scheduler does") from None
    found = re.fullmatch(r"HTTP/1\.[01] ([0-9]{3})(?: .*)?", first, re.A)
    if found is None:
        raise NoAnswer(f"{host_text(place)} answers, and not as a scheduler does")
    return int(found[1]), fields, rest


def texts_of(body):
    """The texts of a fault in JSON, outermost first; none where the bytes are no fault."""
    texts = []
    try:
        value = json.loads(body)
        while value is not None:
            texts.append(str(value["description"]))
            value = value["cause"]
    except (ValueError, KeyError, TypeError):
        return []
    return texts


def status(place):
    """What a scheduler counts: servers, processors, jobs in progress."""
    code, _, body = ask(place, "GET", "/api/v1/scheduler/status")
    try:
        told = json.loads(body) if code == 200 else None
        return {name: int(told[name]) for name in ("num_servers", "num_cpus", "in_progress")}
    except (ValueError, KeyError, TypeError):
        raise NoAnswer(f"{host_text(place)} answers {code}, and not as a scheduler does") from None
