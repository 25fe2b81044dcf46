"""The lines of a script of `sccache-dist farm`, as docs/SCRIPT.md has them: what each value may be, and
where a line may stand."""
import ipaddress
import re

LAST = 2**64 - 1
MOST_LINES, MOST_IN_LINE, MOST_BYTES, MOST_SERVERS = 1_000_000, 2_097_152, 67_108_864, 1_000
MOST_KEY, MOST_TOKEN = 1_024, 1_024


class Faulty(Exception):
    """A line, or a value, is faulty for this cause."""


class Scoped(Faulty):
    """It has an address with a scope, and no other fault."""


class Duplicate(Faulty):
    """It has the address of an earlier line, and no other fault."""


def number(word, what="number"):
    if not re.fullmatch("0|[1-9][0-9]{0,19}", word, re.A) or int(word) > LAST:
        raise Faulty(f"'{word}' is no {what}: 0 to {LAST}, without leading zeros")
    return int(word)


def moment(word):
    return number(word, "moment in milliseconds")


def address(word):
    """The IP and the port of a text, which is told as scoped where it has a scope."""
    found = re.fullmatch(r"(?:\[([0-9A-Fa-f:.]+)(%[0-9]+)?\]|([0-9.]+)):([0-9]{1,5})", word, re.A)
    if found is None:
        raise Faulty(f"'{word}' is no address: V4:PORT or [V6]:PORT")
    if found[2]:
        raise Scoped(f"scoped address '{word}'")
    try:
        ip = ipaddress.IPv4Address(found[3]) if found[3] else ipaddress.IPv6Address(found[1])
    except ValueError:
        raise Faulty(f"'{word}' is no address: V4:PORT or [V6]:PORT") from None
    if int(found[4]) > 65535:
        raise Faulty(f"'{word}' is no address: the port is over 65535")
    return ip, int(found[4])


def octets(word, what="bytes"):
    if word == "-":
        return b""
    if not re.fullmatch("([0-9A-Fa-f]{2})+", word, re.A):
        raise Faulty(f"'{word[:40]}' is no {what}: an even number of hex digits, or - for none")
    return bytes.fromhex(word)


def key(word):
    raw = octets(word, "key")
    if not 1 <= len(raw) <= MOST_KEY:
        raise Faulty(f"a key has 1 to {MOST_KEY} bytes, and this has {len(raw)}")
    return raw


def token(word):
    if not re.fullmatch("[!-~]{1,%d}" % MOST_TOKEN, word, re.A):
        raise Faulty(f"a token has 1 to {MOST_TOKEN} bytes from 0x21 to 0x7e")
    return word


def archive_id(word):
    if not re.fullmatch("[0-9A-Fa-f]{64}", word, re.A):
        raise Faulty(f"'{word}' is no id of a toolchain: the 64 hex digits of its archive's SHA-256")
    return word


def code(word):
    if not re.fullmatch("0|-?[1-9][0-9]{0,9}", word, re.A) or not -2**31 <= int(word) < 2**31:
        raise Faulty(f"'{word}' is no exit code: -2147483648 to 2147483647, without leading zeros")
    return int(word)


def name(word):
    try:
        return octets(word, "name").decode()
    except UnicodeDecodeError:
        raise Faulty(f"'{word[:40]}' is no name: its bytes are no UTF-8") from None


def auth(words):
    if len(words) != 2 or words[0] not in ("plain", "jwt"):
        raise Faulty("the last two words are plain TOKEN or jwt KEY")
    token(words[1]) if words[0] == "plain" else key(words[1])


# What stands behind the first word of a line: words of the grammar, and values in capital letters.
SETUP = {
    "scheduler": "ADDR base N count N client TOKEN",
    "server": "ADDR cpus N nonce N key KEY capacity N",
}
EVENTS = {
    "request": "ADDR ADDR HEX",
    "deliver": "N",
    "fail": "N",
    "return": "N",
    "answer": "N HEX",
    "beat": "ADDR",
    "restart": "ADDR key KEY nonce N",
}
VALUES = {"ADDR": address, "N": number, "KEY": key, "TOKEN": token, "HEX": octets}


def matched(first, form, words):
    """Tells the fault of words that have not this form: a scope only where there is no other."""
    parts = form.split(" ")
    if len(words) != len(parts):
        raise Faulty(f"a line of '{first}' is: {first} {form}")
    scoped = None
    for part, word in zip(parts, words):
        try:
            if part in VALUES:
                VALUES[part](word)
            elif part != word:
                raise Faulty(f"'{word}' stands where '{part}' must: {first} {form}")
        except Scoped as fault:
            scoped = fault
    if scoped is not None:
        raise scoped


def builder_line(words):
    if words[1:] == ["refuse"]:
        return
    if len(words) < 5 or words[1] != "ok" or len(words) % 2 == 0:
        raise Faulty("a line of 'builder' is: builder ADDR refuse, or builder ADDR ok CODE HEX HEX [HEX HEX]..")
    code(words[2])
    for at, word in enumerate(words[3:]):
        name(word) if at >= 2 and at % 2 == 0 else octets(word)


class Script:
    """The lines so far: each that is added is judged behind those before it."""

    def __init__(self):
        self.lines, self.size, self.events = [], 0, 0
        self.version, self.scheduler, self.servers = 1, None, []

    def add(self, line):
        if len(self.lines) >= MOST_LINES:
            raise Faulty(f"a script has at most {MOST_LINES} lines")
        if len(line.encode()) > MOST_IN_LINE:
            raise Faulty(f"a line has at most {MOST_IN_LINE} bytes, and this has {len(line.encode())}")
        if self.size + len(line.encode()) + 1 > MOST_BYTES:
            raise Faulty(f"a script has at most {MOST_BYTES} bytes")
        if line and not line.startswith("#"):
            self.judge(line.split(" "))
        self.lines.append(line)
        self.size += len(line.encode()) + 1

    def judge(self, words):
        if "" in words:
            raise Faulty("words are parted by exactly one space, and none stands at an end")
        if words[0] == "version":
            self.judge_version(words[1:])
        elif words[0] in ("scheduler", "server", "builder"):
            self.judge_setup(words[0], words[1:])
        elif re.match("[0-9]", words[0]):
            moment(words[0])
            if len(words) < 2 or words[1] not in EVENTS:
                raise Faulty(f"behind a moment stands one of: {', '.join(EVENTS)}")
            matched(words[1], EVENTS[words[1]], words[2:])
            self.events += 1
        else:
            raise Faulty(f"no line begins with '{words[0]}'")

    def judge_version(self, words):
        if words != ["2"]:
            raise Faulty("a line of 'version' is: version 2")
        if self.events or self.version == 2 or self.scheduler is not None:
            raise Faulty("version 2 stands before all other lines, once")
        self.version = 2

    def judge_setup(self, first, words):
        if self.events:
            raise Faulty(f"a {first} line stands before all events")
        if first == "scheduler":
            if self.scheduler is not None:
                raise Faulty("a second scheduler line")
            auth(words[-2:])
            matched(first, SETUP[first], words[:-2])
            self.scheduler = address(words[0])
            return
        if self.scheduler is None:
            raise Faulty("the scheduler line stands before all others")
        if first == "builder":
            builder_line(words)
            if not self.is_server(words[0]):
                raise Faulty(f"no server line before names {words[0]}")
            return
        if len(self.servers) >= MOST_SERVERS:
            raise Faulty(f"a farm has at most {MOST_SERVERS} servers")
        matched(first, SETUP[first], words)
        if address(words[0]) in [self.scheduler, *self.servers]:
            raise Duplicate(f"duplicate address {words[0]}")
        self.servers.append(address(words[0]))

    def is_server(self, word):
        try:
            return address(word) in self.servers
        except Scoped:
            return False
