#!/usr/bin/env python3
"""A plain judge of printed runs: the grammar by patterns, the core by core.py, each question asked anew.

    vectors/audit.py < TEXT        writes `holds`, or the line and the cause, as `10 books`

It shares nothing with the proved program. A run is Text where a line is outside the grammar; else Core or
Build, where a core entry is not the rule's or a build has no accepted start before it or is a second one;
else Books.
"""
import ipaddress
import os
import re
import sys

sys.dont_write_bytecode = True
sys.path.insert(0, os.path.dirname(os.path.abspath(__file__)))
import core  # noqa: E402

LIMIT = 268435456
LAST = 2**64 - 1
NUMBER = r"(0|[1-9][0-9]{0,19})"
HEX = r"(-|(?:[0-9a-f]{2})+)"
KEY = r"((?:[0-9a-f]{2}){1,1024})"
ID = r"([0-9a-f]{64})"
ADDR = r"([!-~]+)"
NUMBERS = r"(-|[0-9]+(?:,[0-9]+)*)"
IDS = r"(-|[0-9a-f]{64}(?:,[0-9a-f]{64})*)"
SIZED = r"(-|[0-9a-f]{64}:[0-9]+(?:,[0-9a-f]{64}:[0-9]+)*)"
MAYBE = r"(-|[0-9]+)"
STATE = r"(pending|ready|started|complete)"

EVENTS = [f"request {ADDR} {ADDR} {HEX}", f"deliver {NUMBER}", f"fail {NUMBER}", f"return {NUMBER}",
          f"answer {NUMBER} {HEX}", f"beat {ADDR}", f"restart {ADDR} key {KEY} nonce {NUMBER}"]
CORES = [f"reserve job {NUMBER} reg {NUMBER} forgiven {NUMBERS}", f"reserve none {NUMBER}", "reserve spent",
         f"commit job {NUMBER} state {STATE} (kept|dropped)", f"undo job {NUMBER} noted {MAYBE} ended (yes|no)",
         f"beat {ADDR} nonce {NUMBER} cpus {NUMBER} pruned {NUMBERS} reaped {NUMBERS} replaced {MAYBE} (new|old)",
         f"update {ADDR} job {NUMBER} state {STATE} (accepted|unknown|wrong|transition {STATE})",
         f"status pruned {NUMBERS} servers {NUMBER} cpus {NUMBER} jobs {NUMBER}",
         f"drain {ADDR} nonce {NUMBER} (on|off) reg {MAYBE}"]
STEPS = ["heard (new|old|lost)", f"assigned {NUMBER} {ID} (ready|pending)",
         f"submitted {NUMBER} (none|listed|stored {NUMBER} dropped {IDS}|refused digest|refused capacity"
         f"|refused folder dropped {IDS})",
         f"ran {NUMBER} (none|(unlisted|folder|built|refused) {ID})", f"finished {NUMBER}", f"unreported {NUMBER}",
         f"opened {SIZED}"]
LINES = [("run", rf"run (1|2) entries {NUMBER}"),
         *(("entry", rf"entry {NUMBER} {NUMBER} {kind}") for kind in EVENTS),
         *(("core", rf"core {NUMBER} {kind}") for kind in CORES),
         *(("step", rf"step {ADDR} {kind}") for kind in STEPS),
         ("call", rf"call {ADDR} {HEX}"), ("reply", rf"reply {NUMBER} {HEX}"),
         ("word", r"word (void|down|waiting|died)"), ("books", "books"), ("ids", rf"ids base {NUMBER} count {NUMBER}"),
         ("server", rf"server {ADDR} reg {NUMBER} cpus {NUMBER} nonce {NUMBER} seen {NUMBER} load {NUMBER} error {MAYBE}"),
         ("job", rf"job {NUMBER} reg {NUMBER} (reserved|pending|ready|started|complete) (claimed|unclaimed)"),
         ("held", rf"held {ADDR} {NUMBER} {ID}"), ("archive", rf"archive {ADDR} {ID} {NUMBER}"), ("end", "end")]
PATTERNS = [(name, re.compile(pattern.encode())) for name, pattern in LINES]
PARTS = {"core": 1, "step": 2, "call": 3, "reply": 4, "word": 5}
ADDRESSES = {"request": 2, "beat": 1, "restart": 1, "update": 1, "drain": 1}


def is_number(word):
    return word.isdigit() and (word == "0" or word[0] != "0") and int(word) <= LAST


def is_address(word):
    """Whether the word is the one text that is printed of an address."""
    host, colon, port = word.rpartition(":")
    if not colon or not is_number(port) or int(port) > 65535:
        return False
    try:
        if host.startswith("[") and host.endswith("]"):
            ip = ipaddress.IPv6Address(host[1:-1])
            if ip.scope_id is not None:
                return False
            mapped = ip.ipv4_mapped
            return host[1:-1] == (f"::ffff:{mapped}" if mapped else ip.compressed)
        return host == str(ipaddress.IPv4Address(host))
    except ValueError:
        return False


def numbers_fit(words):
    """Whether the numbers of a line, its lists and its sizes fit 64 bits and have their one spelling."""
    return all(is_number(part.rpartition(":")[2]) for word in words for part in word.split(",") if part != "-")


def addresses_of(words):
    """The words of a line that stand for addresses."""
    if words[0] in ("step", "call", "server", "held", "archive"):
        return [words[1]]
    if words[0] == "entry":
        return words[4:4 + ADDRESSES.get(words[3], 0)]
    if words[0] == "core":
        return words[3:3 + ADDRESSES.get(words[2], 0)]
    return []


def values_of(words, addresses):
    """The words of a line that are numbers, lists of numbers, or ids with sizes."""
    for word in words:
        bare = word.rpartition(":")[2] if re.fullmatch(r"[0-9a-f]{64}:[0-9]+(,.*)?", word) else word
        if word not in addresses and re.fullmatch(r"[0-9,]+", bare):
            yield word


def line_of(text):
    """The kind of a line and its words, or None where it is outside the grammar."""
    for name, pattern in PATTERNS:
        if pattern.fullmatch(text):
            words = text.decode().split(" ")
            addresses = addresses_of(words)
            hexes = {"entry": words[-1:] if name == "entry" and words[3] in ("request", "answer") else [],
                     "call": words[-1:], "reply": words[-1:]}.get(name, [])
            if name == "entry" and words[3] == "restart":
                hexes = [words[6]]
            ids = [w for w in words if re.fullmatch(r"[0-9a-f]{64}(,[0-9a-f]{64})*", w)]
            plain = [w for w in words if w not in addresses and w not in hexes and w not in ids]
            if all(map(is_address, addresses)) and numbers_fit(values_of(plain, addresses)):
                return name, words
    return None


class Reading:
    """What the lines so far say; `take` is whether one more is in its place."""

    def __init__(self):
        self.place, self.seen, self.entries, self.version = "top", 0, 0, 0
        self.now, self.made, self.marks, self.books = 0, 0, [], []
        self.ids_line, self.base, self.count = 0, 0, 0

    def take(self, number, name, words):
        among = isinstance(self.place, int)
        if name == "run" and self.place == "top":
            self.place, self.version, self.entries = 6, int(words[1]), int(words[3])
        elif name == "entry" and among and int(words[1]) == self.seen:
            self.place, self.seen, self.now = 0, self.seen + 1, int(words[2])
        elif name in PARTS and among and self.place < PARTS[name]:
            self.place = PARTS[name]
            self.keep(number, name, words)
        elif name == "books" and among:
            self.place = "ids"
        elif name == "ids" and self.place == "ids":
            self.place, self.ids_line, self.base, self.count = "servers", number, int(words[2]), int(words[4])
        elif (name, self.place) in (("server", "servers"), ("job", "servers"), ("job", "jobs")):
            self.place = name + "s"
            self.books.append(" ".join(words))
        elif name in ("held", "archive") and self.place in ("servers", "jobs", "stores"):
            self.place = "stores"
        elif name == "end" and self.place in ("servers", "jobs", "stores"):
            self.place = "over"
        else:
            return False
        return True

    def keep(self, number, name, words):
        if name == "core":
            self.marks.append((number, "core", self.now, words[1:]))
            self.made += words[2:4] == ["reserve", "job"]
        if name == "step" and words[2] == "ran" and words[4] in ("built", "refused"):
            self.marks.append((number, "build", self.now, words[3]))


def entry_of(log, now, words, start, version):
    """The rule's entry for the call that the words are of, or None where no such call may be made."""
    kind = words[0]
    if kind == "reserve":
        return core.reserve(log, now, *start)
    if kind in ("commit", "undo"):
        own = [k for k, e in core.reservations(log) if e["job"] == int(words[2]) and core.is_unspent(log, k)]
        if not own or (kind == "commit" and words[4] not in ("pending", "ready")):
            return None
        return core.commit(log, now, own[0], words[4]) if kind == "commit" else core.undo(log, now, own[0])
    if kind == "beat":
        cpus = int(words[5])
        return core.beat(log, now, words[1], int(words[3]), cpus, b"", version) if 1 <= cpus < 2**32 else None
    if kind == "update":
        return core.update(log, now, words[1], int(words[3]), words[5])
    if kind == "drain":
        return core.drain(log, now, words[1], int(words[3]), words[4] == "on") if version == 2 else None
    return core.status(log, now)


def judge_marks(read):
    """The core log, and the first mark that is not good."""
    log, built, start = [], [], (read.base, read.count - read.made)
    for number, what, now, words in read.marks:
        if what == "core":
            entry = entry_of(log, now, words[1:], start, read.version) if int(words[0]) == len(log) else None
            if entry is None or core.entry_text(entry) != " ".join(words[1:]):
                return log, (number, "core")
            log.append(entry)
        else:
            if words in built or not any(core.accepts(e, int(words), "started") for e in log):
                return log, (number, "build")
            built.append(words)
    return log, None


def read_text(text):
    """What a text says, or the first line outside the grammar."""
    read, size, lines = Reading(), 0, text.split(b"\n")
    for number, line in enumerate(lines[:-1], 1):
        size += len(line) + 1
        found = line_of(line) if size <= LIMIT else None
        if found is None or not read.take(number, *found):
            return number
    if lines[-1]:
        return len(lines)
    if read.place != "over":
        return len(lines)
    return read if read.seen == read.entries else 1


def judge(text):
    """None where the text holds, else the line and the cause."""
    read = read_text(text)
    if isinstance(read, int):
        return read, "text"
    if read.count < read.made:
        return read.ids_line, "core"
    log, fault = judge_marks(read)
    if fault:
        return fault
    due = core.books_text(log, read.base, read.count - read.made)[2:]
    for place in range(max(len(due), len(read.books))):
        if due[place:place + 1] != read.books[place:place + 1]:
            return read.ids_line + 1 + place, "books"
    return None


def main():
    found = judge(sys.stdin.buffer.read())
    print("holds" if found is None else f"{found[0]} {found[1]}")
    return 0


if __name__ == "__main__":
    sys.exit(main())
