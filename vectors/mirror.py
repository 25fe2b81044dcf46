#!/usr/bin/env python3
"""A plain model of sccache_mirror: what it writes, and its status, for the words behind its name and its
input.

    vectors/mirror.py < SCRIPT     writes what the program must write

It shares nothing with the proved program. A cache is a list of archives, least recent first. `script` makes
an input by a seed: steps over small archives, with lies, losses and caches too small; faulty lines; limits
met and passed.
"""
import hashlib
import random
import re
import sys

LINES, LINE, BYTES = 1_000_000, 2_097_152, 67_108_864
LAST = 2**64 - 1
NUMBER = rb"(0|[1-9][0-9]{0,19})"
HEX = rb"(-|(?:[0-9a-fA-F]{2})+)"
FORMS = {
    "near": re.compile(rb"near " + NUMBER),
    "far": re.compile(rb"far " + NUMBER),
    "put near": re.compile(rb"put near " + HEX),
    "put far": re.compile(rb"put far " + HEX),
    "get": re.compile(rb"get ([0-9a-fA-F]{64})"),
    "lose": re.compile(rb"lose()"),
    "lie": re.compile(rb"lie " + HEX),
}


class Bad(Exception):
    """The number of the first faulty line."""


def unhex(text):
    return b"" if text == b"-" else bytes.fromhex(text.decode())


def tohex(data):
    return data.hex() or "-"


def form(text):
    """What a line says: its form and the word behind it, or None."""
    for name, pattern in FORMS.items():
        if found := pattern.fullmatch(text):
            word = found[1]
            if name in ("near", "far"):
                return (name, int(word)) if int(word) <= LAST else None
            return name, word.decode().lower() if name == "get" else unhex(word) if name != "lose" else None
    return None


def read(data):
    """The lines that are not skipped, or Bad."""
    said, place, number = [], 0, 0
    while place < len(data):
        number += 1
        end = data.find(b"\n", place)
        text, after = (data[place:], len(data)) if end < 0 else (data[place:end], end + 1)
        if number > LINES or len(text) > LINE or after > BYTES:
            raise Bad(number)
        place = after
        if text == b"" or text[:1] == b"#":
            continue
        line = form(text)
        wanted = {0: ("near",), 1: ("far",)}.get(len(said))
        if line is None or (line[0] not in wanted if wanted else line[0] in ("near", "far")):
            raise Bad(number)
        said.append(line)
    if len(said) < 2:
        raise Bad(number + 1)
    return said


class Cache:
    """Archives within a capacity, least recent first."""

    def __init__(self, capacity):
        self.capacity, self.held = capacity, []

    def find(self, digest):
        """The archive of this id, which becomes the most recent."""
        for at, (name, data) in enumerate(self.held):
            if name == digest:
                self.held.append(self.held.pop(at))
                return data
        return None

    def put(self, digest, data):
        """Whether the archive was taken, as the most recent."""
        if len(data) > self.capacity:
            return False
        self.held = [pair for pair in self.held if pair[0] != digest]
        while sum(len(other) for _, other in self.held) + len(data) > self.capacity:
            self.held.pop(0)
        self.held.append((digest, data))
        return True


def run(words, data):
    """Status, output and error text."""
    if words:
        return 2, "", "sccache_mirror: these words name no command\n"
    try:
        said = read(data[:BYTES + 1])
    except Bad as fault:
        return 1, "", f"sccache_mirror: bad line {fault}\n"
    near, far, waiting, out = Cache(said[0][1]), Cache(said[1][1]), [], []
    for name, word in said[2:]:
        if name.startswith("put"):
            digest = hashlib.sha256(word).hexdigest()
            taken = (near if name == "put near" else far).put(digest, word)
            out.append(f"put {digest}" if taken else "too large")
        elif name == "get":
            out.append(got(near, far, waiting, word))
        else:
            waiting.append(word)
            out.append(name)
    return 0, "".join(line + "\n" for line in out), ""


def got(near, far, waiting, digest):
    """What a get gives. An ask takes the earliest word that waits; None is a loss."""
    if (data := near.find(digest)) is not None:
        return f"near {tohex(data)}"
    if waiting:
        body = waiting.pop(0)
        if body is None:
            return "fetch fault"
    elif (body := far.find(digest)) is None:
        return "not anywhere"
    if hashlib.sha256(body).hexdigest() != digest:
        return "wrong digest"
    return f"fetched {tohex(body)}" if near.put(digest, body) else f"fetched unlisted {tohex(body)}"


# ---- inputs

def either_case(dice, text):
    return "".join(dice.choice((c, c.upper())) for c in text)


def step(dice, archives):
    """A step over these archives."""
    data = dice.choice(archives)
    kind = dice.choices(("put near", "put far", "get", "lose", "lie"), (2, 5, 10, 1, 2))[0]
    if kind == "get":
        digest = hashlib.sha256(data).hexdigest()
        return "get " + either_case(dice, digest)
    return kind if kind == "lose" else f"{kind} {either_case(dice, tohex(data))}"


def steps(dice):
    """Lines in order: two capacities, most too small for all, and steps."""
    archives = [dice.randbytes(dice.randrange(12)) for _ in range(dice.randrange(1, 9))]
    sizes = (0, 5, 10, 20, 40, 100, LAST)
    lines = [f"near {dice.choice(sizes)}", f"far {dice.choice(sizes)}"]
    lines += [step(dice, archives) for _ in range(dice.randrange(60))]
    for _ in range(dice.randrange(4)):
        lines.insert(dice.randrange(len(lines) + 1), dice.choice(("", "# a line that is skipped", "#")))
    return lines


FAULTY = (
    "near", "near ", "near 01", "near 18446744073709551616", "near -1", "near 1 ", " near 1", "near 5", "far 5", "Far 5", "far 5 6",
    "put", "put near", "put near ", "put near 0", "put near 0g", "put near - ", "put here 00", "put  near 00", "get", "get ",
    "get -", "get " + "0" * 63, "get " + "0" * 65, "get " + "g" * 64, "lose ", "lose 1", "LOSE", "lie", "lie ", "lie 0", "lie 00 00",
    "lost", "\t", "get " + "0" * 64 + "\r",
)


def faulty(dice):
    """Lines with one that may be faulty, one away, or two exchanged."""
    lines = steps(dice)
    way = dice.randrange(4)
    if way == 0:
        return lines[:dice.randrange(3)]
    if way == 1:
        at = dice.randrange(len(lines))
        other = dice.randrange(len(lines))
        lines[at], lines[other] = lines[other], lines[at]
        return lines
    lines.insert(dice.randrange(len(lines) + 1), dice.choice(FAULTY))
    return lines


def limits(dice):
    """An input at a limit, or one past it."""
    more = dice.randrange(2)
    head = ["near 2097152", "far 2097152"]
    way = dice.randrange(3)
    if way == 0:
        return head + ["#" * (LINE + more), "lose"]
    if way == 1:
        return head + ["#"] * (LINES - 2 + more)
    front = sum(len(line) + 1 for line in head)
    rest = BYTES - front + more
    whole, left = divmod(rest, LINE)
    return head + ["#" * (LINE - 1)] * whole + ["#" * (left - 1)]


def script(seed):
    """The words and the input of a seed."""
    dice = random.Random(seed)
    kind = dice.choices((steps, faulty, limits), (70, 28, 2))[0]
    text = "\n".join(kind(dice)).encode()
    end = b"" if dice.randrange(4) == 0 and kind is not limits else b"\n"
    return (["word"] if dice.randrange(60) == 0 else []), text + end if text else text


if __name__ == "__main__":
    status, out, err = run([], sys.stdin.buffer.read(BYTES + 1))
    sys.stdout.write(out)
    sys.stderr.write(err)
    sys.exit(status)
