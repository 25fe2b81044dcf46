"""Reads a printed run of `sccache-dist farm`: its entries and its books, field by field, as docs/SCRIPT.md
has them.

It judges nothing: what it cannot read is kept beside, each with the number of its line.
"""
import json
import re

import farm_script as script
import farm_wire as wire
from farm_script import Faulty


def listed(word):
    return [] if word == "-" else [script.number(part) for part in word.split(",")]


def maybe(word):
    return None if word == "-" else script.number(word)


def addr(word):
    script.address(word)
    return word


def ids(word):
    return [] if word == "-" else [script.archive_id(part) for part in word.split(",")]


def sized(word):
    pairs = [] if word == "-" else [part.partition(":") for part in word.split(",")]
    return [{"archive": script.archive_id(one), "size": script.number(size)} for one, _, size in pairs]


def one_of(*words):
    def read(word):
        if word not in words:
            raise Faulty(f"'{word}' is none of {', '.join(words)}")
        return word
    return read


def flag(yes, no):
    read = one_of(yes, no)
    return lambda word: read(word) == yes


VERSIONS = ("1", "2")
STATES = ("pending", "ready", "started", "complete")
# What the words in capital letters of the forms below stand for: the name of the field, and what reads it.
FIELDS = {
    "ADDR": ("server", addr), "NONCE": ("nonce", script.number), "CPUS": ("cpus", script.number),
    "PRUNED": ("pruned", listed), "REAPED": ("reaped", listed), "REPLACED": ("replaced", maybe),
    "NEW": ("is_new", flag("new", "old")), "SERVERS": ("servers", script.number), "JOBS": ("jobs", script.number),
    "JOB": ("job", script.number), "REG": ("registration", script.number), "FORGIVEN": ("forgiven", listed),
    "STATE": ("state", one_of(*STATES)), "KEPT": ("kept", flag("kept", "dropped")),
    "ON": ("draining", flag("on", "off")), "NAMED": ("registration", maybe),
    "NOTED": ("noted", maybe), "ENDED": ("ended", flag("yes", "no")),
    "OUTCOME": ("outcome", one_of("accepted", "unknown", "wrong")), "HAD": ("had", one_of(*STATES)),
    "HEARD": ("heard", one_of("new", "old", "lost")), "ID": ("archive", script.archive_id),
    "HELD": ("state", one_of("ready", "pending")), "NONE": ("result", one_of("none")),
    "TAKEN": ("result", one_of("none", "listed")), "SIZE": ("size", script.number), "DROPPED": ("dropped", ids),
    "REFUSED": ("cause", one_of("digest", "capacity")), "RAN": ("result", one_of("unlisted", "folder", "built", "refused")),
    "ARCHIVES": ("archives", sized), "BASE": ("base", script.number), "COUNT": ("count", script.number),
    "SEEN": ("seen", script.number), "LOAD": ("load", script.number), "ERROR": ("error", maybe),
    "RESERVED": ("state", one_of("reserved", *STATES[:3])), "CLAIMED": ("claimed", flag("claimed", "unclaimed")),
}
CORE = [
    ("beat", "beat ADDR nonce NONCE cpus CPUS pruned PRUNED reaped REAPED replaced REPLACED NEW"),
    ("status", "status pruned PRUNED servers SERVERS cpus CPUS jobs JOBS"),
    ("drain", "drain ADDR nonce NONCE ON reg NAMED"),
    ("reserve", "reserve job JOB reg REG forgiven FORGIVEN"),
    ("no room", "reserve none SERVERS"),
    ("ids spent", "reserve spent"),
    ("commit", "commit job JOB state STATE KEPT"),
    ("undo", "undo job JOB noted NOTED ended ENDED"),
    ("update", "update ADDR job JOB state STATE transition HAD"),
    ("update", "update ADDR job JOB state STATE OUTCOME"),
]
STEPS = [
    ("heard", "ADDR heard HEARD"),
    ("assigned", "ADDR assigned JOB ID HELD"),
    ("submitted", "ADDR submitted JOB TAKEN"),
    ("stored", "ADDR submitted JOB stored SIZE dropped DROPPED"),
    ("refused folder", "ADDR submitted JOB refused folder dropped DROPPED"),
    ("refused", "ADDR submitted JOB refused REFUSED"),
    ("ran", "ADDR ran JOB NONE"),
    ("ran", "ADDR ran JOB RAN ID"),
    ("finished", "ADDR finished JOB"),
    ("unreported", "ADDR unreported JOB"),
    ("opened", "ADDR opened ARCHIVES"),
]
BOOKS = [
    ("ids", "ids base BASE count COUNT"),
    ("server", "server ADDR reg REG cpus CPUS nonce NONCE seen SEEN load LOAD error ERROR"),
    ("job", "job JOB reg REG RESERVED CLAIMED"),
    ("held", "held ADDR JOB ID"),
    ("archive", "archive ADDR ID SIZE"),
]
# The lines of an entry, and where what they say is kept.
PARTS = {"core": "core", "step": "step", "call": "calls", "reply": "replies", "word": "word"}
WORDS = {"void": "there was nothing to do", "down": "nobody is at the address", "waiting": "the call waits",
         "died": "who made the call has started again since"}


def fields_of(forms, words, what):
    """The kind and the fields of the one form that the words have."""
    cause = f"no {what} has these words"
    for kind, form in forms:
        parts = form.split(" ")
        if len(parts) != len(words) or any(p not in FIELDS and p != w for p, w in zip(parts, words)):
            continue
        try:
            return {"kind": kind, **{FIELDS[p][0]: FIELDS[p][1](w) for p, w in zip(parts, words) if p in FIELDS}}
        except Faulty as fault:
            cause = str(fault)
    raise Faulty(cause)


# Requests and replies

def message(read, body):
    if read is None:
        return wire.shown(body) if body else None
    try:
        return read(wire.Reader(body))
    except wire.Unreadable:
        return wire.shown(body)


def bearer(fields):
    value = wire.field(fields, "authorization")
    if value is None or not value.startswith("Bearer "):
        return value
    claims = wire.token_claims(value[7:])
    return f"Bearer, signed, {claims}" if claims else value


def request_of(raw):
    """What a request says, and the reader of the answer to it."""
    try:
        first, fields, body = wire.split_head(raw)
        target = first.split(" ")[1]
    except (wire.Unreadable, IndexError):
        return {"bytes": wire.shown(raw)}, None
    asked, answered = wire.route_of(target)
    said = {"request": first.rsplit(" ", 1)[0]}
    if bearer(fields):
        said["token"] = bearer(fields)
    for name in ("X-Real-IP", "Accept"):
        if wire.field(fields, name):
            said[name] = wire.field(fields, name)
    told = message(asked, body)
    if told is not None:
        said["message"] = told
    return said, answered


def causes_of(value):
    """The texts of a fault, outermost first, or None where the value is none."""
    texts = []
    while isinstance(value, dict) and set(value) == {"cause", "description"}:
        texts.append(value["description"])
        value = value["cause"]
    return texts if texts and value is None else None


def reply_of(raw, answered):
    try:
        first, fields, body = wire.split_head(raw)
    except wire.Unreadable:
        return {"bytes": wire.shown(raw)}
    said = {"reply": first.partition(" ")[2]}
    if wire.field(fields, "WWW-Authenticate"):
        said["refused"] = wire.field(fields, "WWW-Authenticate")
    if (wire.field(fields, "Content-Type") or "").startswith("application/json"):
        try:
            told = json.loads(body)
        except ValueError:
            pass
        else:
            causes = causes_of(told)
            said.update({"causes": causes} if causes else {"message": told})
            return said
    told = message(answered if " 200 " in first + " " else None, body)
    if told is not None:
        said["message"] = told
    return said


def short(said):
    """The route of a request with its number, in few words."""
    found = re.match(r"[A-Z]+ /api/v1/(?:scheduler|distserver)/([^ ?]*)", said.get("request", ""))
    return found[1].replace("/", " ") if found else said.get("request", "what is no request")


def job_of(said):
    """The job that a request names in its target."""
    found = re.search(r"/(?:job_state|assign_job|submit_toolchain|run_job)/([0-9]{1,20})(?:\?|$)", said.get("request", ""))
    return int(found[1]) if found else None


class Run:
    """A run as it is read: `entries`, `books`, and `unread`, the numbers of lines with what is wrong
    there."""

    def __init__(self, lines):
        self.entries, self.books, self.unread = [], [], []
        self.answers, self.calls, self.places, self.by_number = {}, {}, {}, {}
        self.stated, self.in_books, self.ended, self.entry = None, False, False, None
        for number, line in enumerate(lines, 1):
            try:
                self.line(line.split(" "), number)
            except Faulty as fault:
                self.unread.append((number, str(fault)))
                if self.entry is not None and not self.in_books:
                    self.entry.setdefault("unread", []).append(line)
        last = len(lines) + 1
        if self.stated is not None and self.stated != len(self.by_number):
            self.unread.append((1, f"it says {self.stated} entries, and {len(self.by_number)} were read"))
        if not self.ended:
            self.unread.append((last, "the run is cut off: its last line is no 'end'"))

    def line(self, words, number):
        if number == 1:
            if len(words) != 4 or words[0] != "run" or words[1] not in VERSIONS or words[2] != "entries":
                raise Faulty("a printed run begins with 'run 1 entries N', or 2 for its second version")
            self.stated = script.number(words[3])
        elif self.ended:
            raise Faulty("it stands behind the end of the run")
        elif words == ["books"] and not self.in_books:
            self.in_books = True
        elif words == ["end"] and self.in_books:
            self.ended = True
        elif self.in_books:
            self.books.append(fields_of(BOOKS, words, "line of the books"))
        elif words[0] == "entry":
            self.begin(words[1:])
        elif self.entry is None or words[0] not in PARTS:
            raise Faulty(f"no line of a run begins with '{words[0][:40]}'")
        else:
            self.part(words[0], words[1:])

    def begin(self, words):
        self.entry = None
        number = script.number(words[0]) if words else -1
        if number != len(self.by_number):
            raise Faulty(f"this is the entry {len(self.by_number)}, and the line says '{words[0] if words else ''}'")
        if len(words) < 3 or words[2] not in script.EVENTS:
            raise Faulty("an entry has the number, the moment and the event of a script's line")
        self.entry = {"entry": number, "at": script.moment(words[1]), "event": words[2]}
        self.by_number[number] = self.entry
        self.entries.append(self.entry)
        script.matched(words[2], script.EVENTS[words[2]], words[3:])
        self.event(number, words[2], words[3:])

    def event(self, number, kind, words):
        said = self.entry
        if kind == "request":
            said["to"], said["from"] = words[0], words[1]
            told, self.answers[number] = request_of(script.octets(words[2]))
            said.update(told)
            self.places[number] = words[0]
        elif kind in ("beat", "restart"):
            said["server"] = words[0]
            self.places[number] = words[0]
            if kind == "restart":
                said["key"], said["nonce"] = words[2], int(words[4])
        else:
            said["delivery" if kind == "return" else "call"] = int(words[0])
            self.event_of_call(number, kind, int(words[0]), words)

    def event_of_call(self, number, kind, of, words):
        said = self.entry
        call = self.by_number.get(of, {}).get("call") if kind == "return" else of
        asked = self.calls.get(call)
        if asked is not None:
            said["of"] = {"call": call, "asks": short(asked), "from": self.places.get(call), "to": asked["to"]}
            reply = self.by_number[of].get("replies") if kind == "return" else None
            if reply is not None:
                said["of"]["reply"] = reply.get("reply", "no reply that can be read")
        self.places[number] = asked["to"] if kind == "deliver" and asked else self.places.get(call)
        self.answers[number] = self.answers.get(("call", call)) if kind == "deliver" else None
        if kind == "answer":
            said.update(reply_of(script.octets(words[1]), self.answers.get(("call", call))))

    def part(self, name, words):
        said = self.entry
        if PARTS[name] in said:
            raise Faulty(f"a second line '{name}' of one entry")
        if name == "core":
            number = script.number(words[0]) if words else 0
            said["core"] = {"number": number, **fields_of(CORE, words[1:], "core entry")}
            said["lines"] = {**said.get("lines", {}), "core": " ".join(words)}
        elif name == "step":
            said["step"] = fields_of(STEPS, words, "step")
            said["lines"] = {**said.get("lines", {}), "step": " ".join(words)}
        elif name == "call":
            script.matched("call", "ADDR HEX", words)
            told, self.answers["call", said["entry"]] = request_of(script.octets(words[1]))
            said["calls"] = {"to": words[0], **told}
            self.calls[said["entry"]] = said["calls"]
        elif name == "reply":
            script.matched("reply", "N HEX", words)
            said["replies"] = {"to": int(words[0]), **reply_of(script.octets(words[1]), self.answers.get(int(words[0])))}
        elif words[:1] and words[0] in WORDS and len(words) == 1:
            said["word"] = words[0]
        else:
            raise Faulty(f"a word is one of {', '.join(WORDS)}")
