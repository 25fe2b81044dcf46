#!/usr/bin/env python3
"""A plain model of sccache_lives: what it writes, and its status, for the words behind its name and its
input.

    vectors/lives.py < SCRIPT          writes what the program must write
    vectors/lives.py --script SEED     writes the input of a seed
    vectors/lives.py --table           writes crates/test_lives/src/table.rt

It shares nothing with the proved program. A life is a farm of farm/model.py under the ids of its line: its
servers have the setup's key and nonce and hold nothing, and keep the archives and what is left of their
builders' answers. `script` makes an input by a seed: lives in which jobs go on and builds come; ranges that
wrap, touch and meet; archives that make room; faulty lines; limits met and passed.
"""
import os
import random
import re
import sys

sys.dont_write_bytecode = True
HERE = os.path.dirname(os.path.abspath(__file__))
sys.path.insert(0, HERE)
import core  # noqa: E402
from quota import address  # noqa: E402
sys.path.insert(0, os.path.join(HERE, "farm"))
import make  # noqa: E402
import model  # noqa: E402

LINES, LINE, BYTES, SERVERS = 1_000_000, 2_097_152, 67_108_864, 1_000
LAST = 2**64 - 1
NUMBER = r"(0|[1-9][0-9]{0,19})"
TOKEN = r"([\x21-\x7e]{1,1024})"
WORD = r"([\x21-\x7e]+)"
BYTE = r"[0-9a-fA-F]{2}"
HEX = rf"(-|(?:{BYTE})+)"
KEY = rf"((?:{BYTE}){{1,1024}})"
CODE = r"(0|-?[1-9][0-9]{0,9})"
# Of each kind its pattern, and the places of its numbers and of its addresses among the words.
FORMS = (
    ("version", r"version 2", (), ()),
    ("scheduler", rf"scheduler {WORD} base {NUMBER} count {NUMBER} client {TOKEN} (?:plain {TOKEN}|jwt {KEY})", (3, 5), (1,)),
    ("server", rf"server {WORD} cpus {NUMBER} nonce {NUMBER} key {KEY} capacity {NUMBER}", (3, 5, 9), (1,)),
    ("builder", rf"builder {WORD} (?:refuse|ok {CODE} {HEX} {HEX}((?: {HEX} {HEX})*))", (), (1,)),
    ("life", rf"life {NUMBER} {NUMBER}", (1, 2), ()),
    ("event", rf"{NUMBER} request {WORD} {WORD} {HEX}", (0,), (2, 3)),
    ("event", rf"{NUMBER} (?:deliver|fail|return) {NUMBER}", (0, 2), ()),
    ("event", rf"{NUMBER} answer {NUMBER} {HEX}", (0, 2), ()),
    ("event", rf"{NUMBER} beat {WORD}", (0,), (2,)),
    ("event", rf"{NUMBER} restart {WORD} key {KEY} nonce {NUMBER}", (0, 6), (2,)),
)
PATTERNS = [(kind, re.compile(pattern.encode()), numbers, addresses) for kind, pattern, numbers, addresses in FORMS]


class Fault(Exception):
    """The cause and the number of the first faulty line."""


# ---- lines

def is_answer(words):
    """Whether a builder's words say a code that there is and names that are texts."""
    if words[2] == "refuse":
        return True
    try:
        for name in words[6::2]:
            bytes.fromhex(name.replace("-", "")).decode()
    except UnicodeDecodeError:
        return False
    return -2**31 <= int(words[3]) < 2**31


def form(text):
    """What a line says: its kind, its words with addresses as they are printed, and whether one has a scope;
    or None."""
    for kind, pattern, numbers, addresses in PATTERNS:
        if not pattern.fullmatch(text):
            continue
        words = text.decode().split(" ")
        found = {place: address(words[place]) for place in addresses}
        if any(int(words[place]) > LAST for place in numbers) or None in found.values():
            return None
        if kind == "builder" and not is_answer(words):
            return None
        for place, (printed, _) in found.items():
            words[place] = printed
        return kind, words, any(scoped for _, scoped in found.values())
    return None


class Script:
    """What the lines so far say: the version, the setup's lines, and the lives with their ranges and events."""

    def __init__(self):
        self.version, self.scheduler, self.setup, self.taken, self.lives = 1, None, [], set(), []
        self.first, self.servers = True, 0

    def may_stand(self, kind, words, scoped):
        """Whether a line of that kind may stand here. A scoped address is that of no server."""
        if kind == "version":
            return self.first
        if kind == "scheduler":
            return self.scheduler is None and words[3] == words[5] == "0"
        if kind == "server":
            return self.scheduler is not None and not self.lives and self.servers < SERVERS
        if kind == "builder":
            return not self.lives and not scoped and words[1] in self.taken and words[1] != self.scheduler[1]
        if kind == "life":
            return self.scheduler is not None and words[2] != "0"
        return bool(self.lives)

    def take(self, kind, words):
        """Takes a line that stands well, or tells why its address or its range may not be."""
        self.first = False
        if kind == "version":
            self.version = 2
        elif kind == "scheduler":
            self.scheduler = words
            self.taken.add(words[1])
        elif kind == "server":
            if words[1] in self.taken:
                return "duplicate address on line"
            self.taken.add(words[1])
            self.servers += 1
            self.setup.append(words)
        elif kind == "builder":
            self.setup.append(words)
        elif kind == "life":
            begin, size = int(words[1]), int(words[2])
            if any(meet(begin, size, other, count) for other, count, _ in self.lives):
                return "overlapping ids on line"
            self.lives.append((begin, size, []))
        else:
            self.lives[-1][2].append(words)
        return None


def meet(begin, size, other, count):
    """Whether two ranges on the circle of 2^64 ids have one in common: one's first is in the other."""
    return (begin - other) % 2**64 < count or (other - begin) % 2**64 < size


def read(data):
    """What the input says, or Fault."""
    script, place, number = Script(), 0, 0
    while place < len(data):
        number += 1
        end = data.find(b"\n", place)
        text, after = (data[place:], len(data)) if end < 0 else (data[place:end], end + 1)
        if number > LINES or len(text) > LINE or after > BYTES:
            raise Fault("bad line", number)
        place = after
        if text == b"" or text[:1] == b"#":
            continue
        line = form(text)
        if line is None or not script.may_stand(*line):
            raise Fault("bad line", number)
        if line[2]:
            raise Fault("scoped address on line", number)
        if (cause := script.take(*line[:2])) is not None:
            raise Fault(cause, number)
    if not script.lives:
        raise Fault("bad line", number + 1)
    return script


# ---- lives

def next_farm(version, scheduler, setup, ids, before):
    """The farm of a life over the range of ids, by the words of the setup; `before` is that of the life
    before, if there was one."""
    begin, size = ids
    count = LAST - size
    words = [*scheduler[:3], str((begin - count) % 2**64), "count", str(count), *scheduler[6:]]
    farm = model.set_up([["version", "2"]] * (version - 1) + [words, *setup])
    if before is not None:
        for server, old in zip(farm.servers, before.servers):
            server.archives, server.builder = old.archives, old.builder
    return farm


def life(farm, events):
    """The printed run of a life."""
    lines = [f"run {farm.version} entries {len(events)}"]
    for number, words in enumerate(events):
        lines.append(f"entry {number} {' '.join(model.canonical(words))}")
        lines += farm.event(number, words)
    return lines + farm.books()


def run(words, data):
    """Status, output and error text."""
    if words:
        return 2, "", "sccache_lives: these words name no command\n"
    try:
        script = read(data[:BYTES + 1])
    except Fault as fault:
        return 1, "", f"sccache_lives: {fault.args[0]} {fault.args[1]}\n"
    lines, farm = [], None
    for number, (begin, size, events) in enumerate(script.lives):
        farm = next_farm(script.version, script.scheduler, script.setup, (begin, size), farm)
        lines += [f"life {number} from {begin} ids {size}", *life(farm, events)]
    return 0, "".join(line + "\n" for line in lines), ""


# ---- inputs

class Maker(make.Maker):
    """A maker of events over the farm of a life, which mostly goes on with what it began, and names jobs of
    earlier lives now and then."""

    def __init__(self, dice, version, servers):
        super().__init__(0, version, servers)
        self.random, self.before = dice, []

    def setup(self):
        lines = [line.split(" ") for line in super().setup()]
        lines[self.version - 1][3] = lines[self.version - 1][5] = "0"
        for words in lines:
            if words[0] == "server":
                words[9] = str(self.random.choice((3, 450, 710, 1000, 1000, 1200)))
        for addr in self.inside * self.random.randrange(3):
            lines.append(["builder", addr, "ok", "3", f"{self.random.randrange(256):02x}", "-"])
        return lines

    def begin(self, farm):
        """Goes on in the farm of the next life."""
        if self.farm is not None:
            self.before += [e["job"] for _, e in core.reservations(self.farm.log)]
        self.farm, self.number = farm, 0

    def job(self, states=()):
        if self.before and self.random.random() < 0.06:
            return self.random.choice(self.before)
        return super().job(states)

    def follow(self):
        """The event that goes on with one of the last entries, if there is one."""
        farm = self.farm
        for last in range(self.number - 1, max(self.number - 6, -1), -1):
            call = farm.calls.get(last)
            if call and not call["settled"] and last not in farm.delivered.values():
                return f"deliver {last}"
            if last in farm.replies and last in farm.delivered and not farm.calls[farm.delivered[last]]["settled"]:
                return f"return {last}"
        return None

    def unheard(self):
        """The heartbeat of a server that does not stand, if there is one."""
        silent = [addr for addr in self.inside if core.at_address(self.farm.log, addr) is None]
        return f"beat {self.random.choice(silent)}" if silent and self.random.random() < 0.8 else None

    def go_on(self):
        """A request that brings a job on, or one more job."""
        log = self.farm.log
        states = {(core.state_of(log, e["job"]) or ("",))[0] for _, e in core.unended(log)}
        if "ready" in states and self.random.random() < 0.8:
            return self.run()
        return self.submit() if "pending" in states and self.random.random() < 0.8 else self.allocate()

    def event(self):
        if not self.inside or self.random.random() < 0.15:
            return super().event()
        line = self.follow() or self.unheard() or self.go_on()
        self.now += self.random.randrange(1000)
        self.farm.event(self.number, f"{self.now} {line}".split(" "))
        self.number += 1
        return f"{self.now} {line}"


def other_spelling(dice, line):
    """A line of an event, now and then with upper-case bytes or from a peer in another spelling."""
    words = line.split(" ")
    if words[1] == "request" and dice.random() < 0.1:
        words[-1] = words[-1].upper()
    if words[1] == "request" and dice.random() < 0.03:
        words[3] = dice.choice(("[0:0::1]:040", "[2001:DB8::7]:80", "[::ffff:127.0.0.1]:1"))
    return " ".join(words)


def next_range(dice, ranges):
    """A range that meets none of these, often one that touches one of them; None where none was found."""
    for _ in range(40):
        size = dice.choice((1, 2, 2, 3, 4, 5, 8, 20, 20, 2**40, dice.choice((LAST, LAST - 1, 2**63))))
        begin = dice.choice((0, 1, 100, 4096, 2**63, LAST, LAST - 1, LAST - 2, LAST - 3))
        if ranges and dice.randrange(2):
            other, count = dice.choice(ranges)
            begin = dice.choice((other + count, other - size)) % 2**64
        if not any(meet(begin, size, *known) for known in ranges):
            return begin, size
    return None


def meeting_range(dice, ranges):
    """A range that meets one of these, one that wraps if there is one; in half of the cases behind its first
    id."""
    begin, size = dice.choice([ids for ids in ranges if ids[0] + ids[1] > 2**64] or ranges)
    place = begin + size - 1 - (dice.randrange(min(size, 3)) if dice.randrange(2) else 0)
    wider = dice.randrange(2, 9)
    return dice.choice(((place % 2**64, 1), (place % 2**64, dice.choice((1, 7, LAST))), ((begin + 1 - wider) % 2**64, wider), (begin, size)))


def sizes(dice):
    """How many events the lives have."""
    return [dice.choice((0, 6, 20, 40, 40, 60)) for _ in range(dice.choice((1, 2, 2, 3, 3, 4)))]


def lives(dice):
    """The ranges of lives, and lines in order: the setup, and lives in which jobs go on."""
    version = dice.choice((1, 2))
    maker = Maker(dice, version, dice.random() < 0.85)
    said = maker.setup()
    scheduler, setup = said[version - 1], said[version:]
    ranges, lines = [], [" ".join(words) for words in said]
    for size in sizes(dice):
        ids = next_range(dice, ranges)
        if ids is None:
            break
        maker.begin(next_farm(version, scheduler, setup, ids, maker.farm))
        ranges.append(ids)
        lines.append(f"life {ids[0]} {ids[1]}")
        lines += [other_spelling(dice, maker.event()) for _ in range(size)]
    for _ in range(dice.randrange(4)):
        lines.insert(dice.randrange(len(lines) + 1), dice.choice(("", "# a line that is skipped", "#")))
    return ranges, lines


SCHEDULER = f"scheduler {make.SCHED} base 0 count 0 client c1 plain s1"
SERVER = f"server {make.INSIDE[0]} cpus 8 nonce 7 key 010202 capacity 1000"
SCOPED = "[fe80::1%3]:10501"


def server_at(addr):
    return SERVER.replace(make.INSIDE[0], addr)


# Lines of a setup that are faulty somewhere, or nowhere.
SETUP = (
    "version 2", "version 1", "version 2 ", SCHEDULER, SERVER, SERVER + " ", SCHEDULER.replace("base 0", "base 1"),
    SCHEDULER.replace("count 0", "count 1"), SCHEDULER.replace("plain s1", "plain"), SCHEDULER.replace("base 0", "base 00"),
    SCHEDULER.replace(make.SCHED, SCOPED), SCHEDULER.replace("plain s1", "jwt 0"),
    SCHEDULER.replace("base 0", "base 1").replace(make.SCHED, SCOPED), server_at(make.SCHED), server_at(make.SCHED), server_at(SCOPED), server_at(SCOPED),
    server_at(SCOPED) + " ", server_at("127.0.1.01:10501"), server_at("127.0.1.1:010501"), server_at("[fe80::1%x]:10501"), server_at("127.0.9.9:1"),
    SERVER.replace("cpus 8", "cpus 08"), SERVER.replace("010202", "-"), server_at("127.0.9.9:1").replace("010202", "01" * 1024),
    server_at("127.0.9.9:1").replace("010202", "01" * 1025), SERVER.replace("nonce 7", "nonce 18446744073709551616"),
    *(f"builder {addr} refuse" for addr in (make.INSIDE[0], make.SCHED, "127.0.9.9:1", SCOPED, make.INSIDE[0] + " ")),
    *(f"builder {make.INSIDE[0]} ok {answer}" for answer in ("0 - -", "-0 - -", "-2147483648 - -", "2147483648 - -", "0 - - ff 00", "0 - - 61", "0 -",
                                                            "0 - - - -", "0 00 A0 c3BC 00", "0 - - eda080 00", "0 - -  61 00", "00 - -")),
)
# Lines of lives.
LIVES = (
    "life", "life ", "life 1", "life 1 0", "life 01 1", "life 1 01", "life 1 1 ", " life 1 1", "life  1 1", "life 1 1 1", "Life 1 1", "life -1 1",
    "life 18446744073709551616 1", "life 1 18446744073709551616", "life 18446744073709551615 1", "life 0 18446744073709551615", "lives 1 1",
    "life 77 1", "life a 1", "life 1\t1", "life 1 1\r", "run 1 entries 0", "end", "", "#", "\t", SERVER, SCHEDULER, "version 2",
)
# Lines of events.
EVENTS = (
    *(f"0 beat {addr}" for addr in (SCOPED, SCOPED + " ", "[fe80::1%]:1", "127.0.1.1", "127.0.1.1:65536", "[::1]:1", "127.0.9.9:1")), "0 beat",
    *(f"0 request {rest}" for rest in (f"{SCOPED} 127.0.0.1:1 -", f"127.0.0.1:1 {SCOPED} 00", f"127.0.0.1:1 {SCOPED} 0", "127.0.0.1:1 127.0.0.1:1",
                                      "[1::0:0:2]:9 [::FFFF:1.2.3.4]:1 Ab", f"127.0.0.1:1 {SCOPED}")),
    f"0 restart {SCOPED} key 01 nonce 1", f"0 restart {SCOPED} key - nonce 1", "0 restart 127.0.1.1:10501 key - nonce 7", "0 restart 127.0.1.1:10501 key 01",
    "0 restart 127.0.1.1:10501 key 0A nonce 0", "0 restart 127.0.1.1:10501 key 01 nonce 01", "0 deliver", "0 deliver 00", "0 deliver 18446744073709551615",
    "0 deliver 18446744073709551616", "0 fail x", "0 fail 0", "0 return", "0 return 1 1", "0 answer 0", "0 answer 0 0g", "0 answer 0 -", "0 answer 0 AA",
    "0", "0 ", "00 deliver 0", "18446744073709551616 deliver 0", "18446744073709551615 deliver 0", "0 deliver 0\r", "0 drain 127.0.1.1:10501",
)


def faulty(dice):
    """Lines with one that may be faulty, some away, two exchanged, one a second time, or ranges that meet."""
    ranges, lines = lives(dice)
    front = next(place for place, line in enumerate(lines) if line.startswith("life"))
    way, at, other = dice.randrange(13), dice.randrange(len(lines)), dice.randrange(len(lines))
    if way == 0:
        return lines[dice.choice((1, 2, front, at)):]
    if way == 1:
        lines[at], lines[other] = lines[other], lines[at]
    elif way == 2:
        lines.insert(at, lines[other])
    elif way == 3:
        return [line for line in lines if not line.startswith("life")][:None if dice.randrange(2) else front]
    elif way in (4, 5):
        begin, size = meeting_range(dice, ranges)
        lines.insert(dice.choice((at, len(lines))), f"life {begin} {size}")
    elif way in (6, 7):
        lines.insert(dice.choice((front, front, dice.randrange(front + 1))), dice.choice(SETUP))
    elif way == 8:
        named = (server_at(make.SCHED), SERVER, server_at(SCOPED), *(line for line in lines if line.startswith("server")))
        lines.insert(front, dice.choice(named))
    elif way == 9:
        lines.insert(dice.randrange(front + 1, len(lines) + 1), dice.choice([line for line in EVENTS if SCOPED in line]))
    elif way == 10:
        lines.insert(dice.randrange(len(lines) + 1), dice.choice(LIVES))
    else:
        lines.insert(dice.randrange(front + 1, len(lines) + 1) if dice.randrange(8) else at, dice.choice(EVENTS))
    return lines


def limits(dice):
    """An input at a limit, or one past it."""
    more = dice.randrange(2)
    head = [SCHEDULER, "life 0 1"]
    way = dice.randrange(4)
    if way == 0:
        return head + ["#" * (LINE + more), "0 fail 0"]
    if way == 1:
        return head + ["#"] * (LINES - 2 + more)
    if way == 2:
        return head[:1] + [SERVER.replace(make.INSIDE[0], f"127.0.0.1:{port}") for port in range(SERVERS + more)] + head[1:]
    rest = BYTES - len("\n".join(head)) - 1 + more
    whole, left = divmod(rest, LINE)
    return head + ["#" * (LINE - 1)] * whole + ["#" * (left - 1)]


def script(seed):
    """The words and the input of a seed."""
    dice = random.Random(seed)
    kind = dice.choices((lambda d: lives(d)[1], faulty, limits), (62, 36, 2))[0]
    text = "\n".join(kind(dice)).encode()
    end = b"" if dice.randrange(4) == 0 and kind is not limits else b"\n"
    return (["word"] if dice.randrange(60) == 0 else []), text + end if text else text


# ---- a table for tests

TABLE = ("crates/sccache_lives/stdin", "examples/lives/started-again.script")


def quoted(text):
    """A text as a literal of lines that are no longer than the repository's; what stands behind the end of a
    line begins with no blank, which would be left out."""
    pieces = [piece for line in text.splitlines(keepends=True) for piece in re.findall(r"(?s).{1,88} *\n?", line)]
    return '"' + "\\\n        ".join(piece.replace("\n", "\\n") for piece in pieces) + '"'


def table():
    """Inputs of the repository with what the model has them print."""
    yield "//! Inputs, and what they print, by the outside model: `python3 vectors/lives.py --table` writes this file."
    yield ""
    yield "/// An input, and its output."
    yield "pub const ROWS: &[(&str, &str)] = &["
    for name in TABLE:
        with open(os.path.join(HERE, "..", name), encoding="utf-8") as file:
            text = file.read()
        yield f"    // {name}"
        yield f"    ({quoted(text)}, {quoted(run([], text.encode())[1])}),"
    yield "];"


if __name__ == "__main__":
    if sys.argv[1:] == ["--table"]:
        print("\n".join(table()))
        sys.exit(0)
    if sys.argv[1:2] == ["--script"]:
        sys.stdout.buffer.write(script(int(sys.argv[2]))[1])
        sys.exit(0)
    status, out, err = run([], sys.stdin.buffer.read(BYTES + 1))
    sys.stdout.write(out)
    sys.stderr.write(err)
    sys.exit(status)
