#!/usr/bin/env python3
"""A plain model of sccache_quota: what it writes, and its status, for the words behind its name and its
input.

    vectors/quota.py < SCRIPT     writes what the program must write

It shares nothing with the proved program; the scheduler's rules are those of core.py, asked anew of the
whole list of entries. `script` makes an input by a seed: clients with small limits over small servers;
faulty lines; limits met and passed.
"""
import random
import re
import sys

import core

LINES, LINE, BYTES = 1_000_000, 2_097_152, 67_108_864
LAST = 2**64 - 1
NUMBER = rb"(0|[1-9][0-9]{0,19})"
TOKEN = rb"([\x21-\x7e]{1,1024})"
WORD = rb"([\x21-\x7e]+)"
STATE = rb"(pending|ready|started|complete)"
FORMS = {
    "ids": re.compile(rb"ids " + NUMBER),
    "client": re.compile(rb"client " + TOKEN + rb" limit " + NUMBER),
    "alloc": re.compile(NUMBER + rb" alloc " + TOKEN),
    "commit": re.compile(NUMBER + rb" commit " + NUMBER + rb" (pending|ready)"),
    "undo": re.compile(NUMBER + rb" undo " + NUMBER),
    "beat": re.compile(NUMBER + rb" beat " + WORD + rb" nonce " + NUMBER + rb" cpus " + NUMBER),
    "update": re.compile(NUMBER + rb" update " + WORD + rb" " + NUMBER + rb" " + STATE),
    "status": re.compile(NUMBER + rb" status"),
}
NUMBERS = {"ids": (1,), "client": (2,), "alloc": (1,), "commit": (1, 2), "undo": (1, 2), "beat": (1, 3, 4), "update": (1, 3), "status": (1,)}


class Fault(Exception):
    """The cause and the number of the first faulty line."""


# ---- addresses

def v4(text):
    parts = text.split(".")
    if len(parts) != 4 or not all(re.fullmatch(r"0|[1-9][0-9]{0,2}", p) and int(p) < 256 for p in parts):
        return None
    return [int(p) for p in parts]


def groups(text):
    """The groups of a part of a V6 text, or None."""
    if text == "":
        return []
    found, parts = [], text.split(":")
    for at, part in enumerate(parts):
        if "." in part:
            octets = v4(part) if at == len(parts) - 1 else None
            if octets is None:
                return None
            found += [octets[0] * 256 + octets[1], octets[2] * 256 + octets[3]]
        elif re.fullmatch(r"[0-9a-fA-F]{1,4}", part):
            found.append(int(part, 16))
        else:
            return None
    return found


def v6(text):
    sides = text.split("::")
    if len(sides) > 2:
        return None
    parts = [groups(side) for side in sides]
    if any(part is None for part in parts) or (len(sides) == 2 and "." in sides[0]):
        return None
    if len(sides) == 1:
        return parts[0] if len(parts[0]) == 8 else None
    left = 8 - len(parts[0]) - len(parts[1])
    return parts[0] + [0] * left + parts[1] if left >= 1 else None


def v6_text(eight):
    best, at = (0, 0), 0
    while at < 8:
        size = next((n for n in range(8 - at) if eight[at + n]), 8 - at)
        best = max(best, (size, -at))
        at += max(size, 1)
    tail = f"{eight[6] >> 8}.{eight[6] & 255}.{eight[7] >> 8}.{eight[7] & 255}"
    if eight[:6] == [0, 0, 0, 0, 0, 0xffff]:
        return f"::ffff:{tail}"
    words = [f"{g:x}" for g in eight]
    if best[0] < 2:
        return ":".join(words)
    first = -best[1]
    return ":".join(words[:first]) + "::" + ":".join(words[first + best[0]:])


def address(text):
    """An address as it is printed, and whether it has a scope; or None."""
    if found := re.fullmatch(r"\[([0-9a-fA-F:.]+)(%[0-9]+)?\]:([0-9]{1,5})", text):
        eight = v6(found[1])
        if eight is None or int(found[3]) > 65535:
            return None
        return f"[{v6_text(eight)}]:{int(found[3])}", found[2] is not None
    if found := re.fullmatch(r"([0-9.]+):([0-9]{1,5})", text):
        octets = v4(found[1])
        if octets is None or int(found[2]) > 65535:
            return None
        return f"{'.'.join(map(str, octets))}:{int(found[2])}", False
    return None


# ---- lines

def form(text):
    """What a line says: its form, its fields, and whether its address has a scope; or None."""
    for name, pattern in FORMS.items():
        if found := pattern.fullmatch(text):
            fields = [None, *(field.decode() for field in found.groups())]
            for place in NUMBERS[name]:
                fields[place] = int(fields[place])
                if fields[place] > LAST:
                    return None
            scoped = False
            if name in ("beat", "update"):
                server = address(fields[2])
                if server is None:
                    return None
                fields[2], scoped = server
            return name, fields, scoped
    return None


def read(data):
    """The lines that are not skipped, or Fault."""
    said, names, place, number = [], set(), 0, 0
    while place < len(data):
        number += 1
        end = data.find(b"\n", place)
        text, after = (data[place:], len(data)) if end < 0 else (data[place:end], end + 1)
        if number > LINES or len(text) > LINE or after > BYTES:
            raise Fault("bad line", number)
        place = after
        if text == b"" or text[:1] == b"#":
            continue
        line = form(text)
        if line is None or (line[0] == "ids") != (not said):
            raise Fault("bad line", number)
        name, fields, scoped = line
        if name == "client":
            if fields[1] in names or said[-1][0] not in ("ids", "client"):
                raise Fault("bad line", number)
            names.add(fields[1])
        if scoped:
            raise Fault("scoped address on line", number)
        said.append((name, fields))
    if not said:
        raise Fault("bad line", number + 1)
    return said


# ---- calls

class Run:
    """The entries so far, whose each reservation is, and the clients' limits."""

    def __init__(self, base, limits):
        self.base, self.limits, self.log, self.owners = base, limits, [], {}

    def logged(self, entry):
        self.log.append(entry)
        return f"core {len(self.log) - 1} {core.entry_text(entry)}"

    def held(self, client):
        return sum(self.owners[number] == client for number, _ in core.unended(self.log))

    def alloc(self, now, client):
        if client not in self.limits:
            return "no client"
        held = self.held(client)
        if held == self.limits[client]:
            return f"full {held} {self.limits[client]}"
        entry = core.reserve(self.log, now, self.base, 0)
        if entry["job"] is not None:
            self.owners[len(self.log)] = client
        return self.logged(entry)

    def spent(self, job, make):
        """The entry of a commit or undo, where the job is reserved and unspent."""
        number = next((k for k, e in core.reservations(self.log) if e["job"] == job and core.is_unspent(self.log, k)), None)
        return "no reservation" if number is None else self.logged(make(number))

    def call(self, name, fields):
        now, log = fields[1], self.log
        if name == "alloc":
            return self.alloc(now, fields[2])
        if name == "commit":
            return self.spent(fields[2], lambda number: core.commit(log, now, number, fields[3]))
        if name == "undo":
            return self.spent(fields[2], lambda number: core.undo(log, now, number))
        if name == "beat":
            if not 1 <= fields[4] <= 2**32 - 1:
                return "bad cpus"
            return self.logged(core.beat(log, now, fields[2], fields[3], fields[4], b""))
        if name == "update":
            return self.logged(core.update(log, now, fields[2], fields[3], fields[4]))
        return self.logged(core.status(log, now))


def run(words, data):
    """Status, output and error text."""
    if words:
        return 2, "", "sccache_quota: these words name no command\n"
    try:
        said = read(data[:BYTES + 1])
    except Fault as fault:
        return 1, "", f"sccache_quota: {fault.args[0]} {fault.args[1]}\n"
    made = Run(said[0][1][1], {fields[1]: fields[2] for name, fields in said if name == "client"})
    lines = [made.call(name, fields) for name, fields in said if name not in ("ids", "client")]
    return 0, "".join(line + "\n" for line in lines), ""


# ---- inputs

ADDRESSES = ("127.0.0.1:10501", "10.0.0.2:1", "[::1]:10501", "[2001:db8::7]:80", "[::ffff:10.0.0.2]:1")


def event(dice, made, moment, servers, clients):
    """An event that the run so far makes likely to go on: its form and its fields."""
    log = made.log
    unspent = [e["job"] for k, e in core.reservations(log) if core.is_unspent(log, k)]
    begun = [job for job in core.open_jobs(log)]
    any_job = (made.base + dice.randrange(6)) % 2**64
    kind = dice.choices(("alloc", "commit", "undo", "beat", "update", "status"), (10, 7, 3, 4, 12, 1))[0]
    if kind == "alloc":
        return kind, [moment, dice.choice([*clients, *clients, "c"])]
    if kind == "commit":
        return kind, [moment, dice.choice(unspent or [any_job]) if dice.randrange(6) else any_job, dice.choice(("pending", "ready", "ready"))]
    if kind == "undo":
        return kind, [moment, dice.choice(unspent or [any_job]) if dice.randrange(6) else any_job]
    if kind == "beat":
        server = dice.choice(servers)
        old = core.at_address(log, server)
        nonce = 1 if old is None else log[old]["nonce"] + (dice.randrange(4) == 0)
        return kind, [moment, server, nonce, dice.choice((1, 1, 2, 2, 3, 8, 0, 2**32 - 1, 2**32))]
    if kind == "update":
        job = dice.choice(begun or [any_job]) if dice.randrange(6) else any_job
        if job not in begun or not dice.randrange(6):
            return kind, [moment, dice.choice(servers), job, dice.choice(("pending", "ready", "started", "complete"))]
        return kind, [moment, log[core.registration_of(log, job)]["server"], job, core.AFTER.get(core.state_of(log, job)[0], "complete")]
    return kind, [moment]


def spelled(name, fields):
    """The line of an event."""
    moment, *rest = fields
    if name == "beat":
        return f"{moment} beat {rest[0]} nonce {rest[1]} cpus {rest[2]}"
    return " ".join(map(str, [moment, name, *rest]))


def steps(dice):
    """Lines in order: the ids, clients with small limits, and events whose moments mostly rise."""
    clients = list(dict.fromkeys(dice.choice(("a", "b", "team/x", "~", "0")) for _ in range(dice.randrange(4))))
    limits_of = {name: dice.choice((0, 1, 1, 2, 3, LAST)) for name in clients}
    made = Run(dice.choice((0, 7, LAST, LAST - 3)), limits_of)
    lines = [f"ids {made.base}"] + [f"client {name} limit {limit}" for name, limit in limits_of.items()]
    servers = dice.sample(ADDRESSES, dice.randrange(1, 4))
    moment = dice.randrange(1000)
    for turn in range(dice.randrange(70)):
        moment = max(0, moment + dice.choice((0, 0, 0, 1, 1, 500, 500, 20000, 61000, 91000, 301000, -700)))
        name, fields = event(dice, made, moment, servers, clients)
        if turn < len(servers):
            name, fields = "beat", [moment, servers[turn], 1, dice.choice((1, 2, 8))]
        made.call(name, [None, *fields])
        lines.append(spelled(name, fields))
    for _ in range(dice.randrange(4)):
        lines.insert(dice.randrange(len(lines) + 1), dice.choice(("", "# a line that is skipped", "#")))
    return lines


FAULTY = (
    "ids", "ids ", "ids 01", "ids 18446744073709551616", "ids -1", "ids 1 ", " ids 1", "ids 5", "Ids 5", "client", "client a", "client a limit",
    "client a limit ", "client a limit -1", "client a limit 1 ", "client  limit 1", "client z limit 1", "client z limit 18446744073709551615",
    "client " + "t" * 1025 + " limit 1", "client " + "t" * 1024 + " limit 1", "0 alloc", "0 alloc ", "0 alloc a b", "0 alloc " + "t" * 1025,
    "0 alloc " + "t" * 1024, "0 commit 0", "0 commit 0 started", "0 commit 0 complete", "0 commit 0 Ready", "0 commit 00 ready", "0 commit x ready",
    "0 undo", "0 undo 00", "0 undo 0 0", "0 undo -", "0 beat", "0 beat 127.0.0.1:1", "0 beat 127.0.0.1:1 nonce 1", "0 beat 127.0.0.1:1 nonce 1 cpus",
    "0 beat 127.0.0.1:1 nonce 1 cpus 01", "0 beat 127.0.0.1 nonce 1 cpus 1", "0 beat 127.0.0.01:1 nonce 1 cpus 1", "0 beat 127.0.0.1:65536 nonce 1 cpus 1",
    "0 beat [::1%4]:1 nonce 1 cpus 1", "0 beat [::1%x]:1 nonce 1 cpus 1", "0 beat [::1%4]:1 nonce 1 cpus 1 1", "0 update [::1%4]:1 0 ready",
    "0 update [::1%4]:1 0 none", "0 update 127.0.0.1:1 0", "0 update 127.0.0.1:1 0 done", "0 update 127.0.0.1:1 job 0 state ready", "0 status ",
    "0 status 1", "0 Status", "0", "0 ", "status", "00 status", "18446744073709551615 status", "18446744073709551616 status", "\t", "0 status\r", "0 drain",
)


def faulty(dice):
    """Lines with one that may be faulty, the first away, or two exchanged."""
    lines = steps(dice)
    way = dice.randrange(5)
    if way == 0:
        return lines[1:]
    if way == 1:
        at, other = dice.randrange(len(lines)), dice.randrange(len(lines))
        lines[at], lines[other] = lines[other], lines[at]
        return lines
    lines.insert(dice.randrange(len(lines) + 1), dice.choice(FAULTY))
    return lines


def limits(dice):
    """An input at a limit, or one past it."""
    more = dice.randrange(2)
    head = ["ids 0"]
    way = dice.randrange(3)
    if way == 0:
        return head + ["#" * (LINE + more), "0 status"]
    if way == 1:
        return head + ["#"] * (LINES - 1 + more)
    rest = BYTES - len(head[0]) - 1 + more
    whole, left = divmod(rest, LINE)
    return head + ["#" * (LINE - 1)] * whole + ["#" * (left - 1)]


def script(seed):
    """The words and the input of a seed."""
    dice = random.Random(seed)
    kind = dice.choices((steps, faulty, limits), (70, 28, 2))[0]
    text = "\n".join(kind(dice)).encode()
    end = b"" if dice.randrange(4) == 0 and kind is not limits else b"\n"
    return (["word"] if dice.randrange(60) == 0 else []), text + end if text else text


if __name__ == "__main__":
    status, out, err = run([], sys.stdin.buffer.read(BYTES + 1))
    sys.stdout.write(out)
    sys.stderr.write(err)
    sys.exit(status)
