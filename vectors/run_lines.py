#!/usr/bin/env python3
"""Writes the table of lines of printed runs, and of forms near them, each with what the grammar of audit.py
says of it.

    vectors/run_lines.py > crates/test_run_lines/src/table.rt

Each kind of line stands in each of its forms. A near form is one of these with one thing changed: a word
left out, twice or in upper case, another blank, a number, a hex, an id or an address in another spelling or
past its limit. It shares nothing with the proved program.
"""
import os
import re
import sys

sys.dont_write_bytecode = True
sys.path.insert(0, os.path.dirname(os.path.abspath(__file__)))
import audit  # noqa: E402

A, B = "127.0.0.1:10501", "[2001:db8::1]:80"
ID, OTHER = "0123456789abcdef" * 4, "f" * 64
LAST = str(audit.LAST)
SHORT, LONGEST, MOST_LONG, MOST = 64, 180, 9, 32
TABLES = {"TOPS": ("run", "books", "ids", "end", "word"), "ENTRIES": ("entry",), "CORES": ("core",), "STEPS": ("step",),
          "CALLS": ("call", "reply"), "ROWS": ("server", "job"), "STORES": ("held", "archive")}
LINES = [
    "run 1 entries 0", f"run 2 entries {LAST}",
    f"entry 0 5 request {A} {B} 474554", f"entry 0 5 request {A} {B} -", f"entry {LAST} {LAST} deliver {LAST}", "entry 1 0 fail 0",
    "entry 1 0 return 0", "entry 1 0 answer 0 00ff", f"entry 3 9 beat {A}", f"entry 3 9 restart {A} key 00 nonce 7",
    f"entry 3 9 restart {A} key {'ab' * 1024} nonce 7",
    "core 0 reserve job 4096 reg 0 forgiven -", "core 0 reserve job 4096 reg 0 forgiven 1,0,1", "core 0 reserve none 3",
    "core 0 reserve spent", "core 0 commit job 1 state pending kept", "core 0 commit job 1 state complete dropped",
    "core 0 undo job 1 noted - ended no", f"core 0 undo job 1 noted {LAST} ended yes",
    f"core 0 beat {A} nonce 7 cpus 8 pruned - reaped - replaced - new",
    f"core 0 beat {B} nonce 0 cpus 0 pruned 1,2 reaped 3,{LAST} replaced 4 old",
    f"core 0 update {A} job 1 state started accepted", f"core 0 update {A} job 1 state ready unknown",
    f"core 0 update {A} job 1 state pending wrong", f"core 0 update {A} job 1 state complete transition started",
    "core 0 status pruned 5 servers 1 cpus 8 jobs 0", f"core 0 drain {A} nonce 7 on reg -", f"core 0 drain {A} nonce 7 off reg 0",
    f"step {A} heard new", f"step {A} heard old", f"step {A} heard lost", f"step {A} assigned 1 {ID} ready",
    f"step {A} assigned 1 {ID} pending", f"step {A} submitted 1 none", f"step {A} submitted 1 listed",
    f"step {A} submitted 1 stored 3 dropped -", f"step {A} submitted 1 stored 3 dropped {ID},{OTHER}",
    f"step {A} submitted 1 refused digest", f"step {A} submitted 1 refused capacity",
    f"step {A} submitted 1 refused folder dropped {ID}", f"step {A} ran 1 none", f"step {A} ran 1 unlisted {ID}",
    f"step {A} ran 1 folder {ID}", f"step {A} ran 1 built {ID}", f"step {A} ran 1 refused {ID}", f"step {A} finished 1",
    f"step {A} unreported 1", f"step {A} opened -", f"step {A} opened {ID}:0,{OTHER}:{LAST}",
    f"call {A} 00ff", f"call {A} -", f"reply 0 00ff", f"reply {LAST} -", "word void", "word down", "word waiting", "word died",
    "books", "ids base 4096 count 0", f"server {A} reg 0 cpus 8 nonce 7 seen 0 load 0 error -",
    f"server {B} reg 0 cpus 8 nonce 7 seen 0 load 2 error 5", "job 4096 reg 0 reserved claimed", "job 4096 reg 0 pending unclaimed",
    "job 4096 reg 0 ready claimed", "job 4096 reg 0 started claimed", "job 4096 reg 0 complete unclaimed",
    f"held {A} 4096 {ID}", f"archive {A} {ID} {LAST}", "end",
]
ADDRESSES = {
    A: ["127.0.0.01:10501", "127.0.0.1:010501", "127.0.0.1:65536", "127.0.0.1", "127.0.0.1:", "127.0.0:10501", "localhost:10501",
        "[127.0.0.1]:10501", "[::ffff:127.0.0.1]:10501", "127.0.0.256:10501"],
    B: ["[2001:DB8::1]:80", "[2001:0db8::1]:80", "[2001:db8:0:0:0:0:0:1]:80", "[2001:db8::1%1]:80", "2001:db8::1:80", "[2001:db8::1]",
        "[::ffff:7f00:1]:80", "[::127.0.0.1]:80", "[::]:80", "[2001:db8:0:0:1::1]:80", "[2001:db8::1:0:0:1]:80"],
}


def of_number(word):
    """Numbers that are one word's near forms."""
    return ["00", "0" + word, "+" + word, "-" + word, word + "x", "0x1", str(2**64), LAST, "9" * 20, ""]


def of_list(word):
    """Near forms of a list of numbers, of ids or of ids with sizes."""
    return ["", word + ",", "," + word, word.replace(",", ", "), word.replace(",", ",,"), word + ",-", word.upper(), "-"]


def of_id(word):
    return [word[:-1], word + "0", word.upper(), word[:-1] + "g", "-", word + ":1", word.replace(",", " ")]


def of_hex(word):
    return [word[:-1], word + "0", word.upper(), "0x" + word, "", "-", word + "g0", "--"]


def forms(word, name, at, words):
    """What else may stand in the place of a word."""
    if word in ADDRESSES:
        return ADDRESSES[word]
    if re.fullmatch(r"[0-9a-f]{64}", word):
        return of_id(word)
    if "," in word or word == "-" and words[at - 1] in ("pruned", "reaped", "forgiven", "dropped", "opened"):
        return of_list(word)
    if at == len(words) - 1 and name in ("call", "reply") or words[2:4][-1:] in (["request"], ["answer"]) and at == len(words) - 1:
        return of_hex(word)
    if at and words[at - 1] == "key":
        return ["-", word + "0", word.upper(), "ab" * 1025, ""]
    if word.isdigit():
        return of_number(word)
    return [word.upper(), word[:-1], word + "x"]


def near(line):
    """The near forms of a line, each with what was changed and how."""
    words = line.split(" ")
    for at, word in enumerate(words):
        others = forms(word, words[0], at, words)
        for how, other in enumerate(others):
            yield "another word", (len(others), how), " ".join(words[:at] + [other] + words[at + 1:])
    for at, word in enumerate(words):
        yield "a word left out", at, " ".join(words[:at] + words[at + 1:])
        yield "a word twice", at, " ".join(words[:at] + [word, word] + words[at + 1:])
    yield "a blank behind", 0, line + " "
    yield "a blank before", 0, " " + line
    yield "two blanks", 0, line.replace(" ", "  ", 1)
    yield "a tab", 0, line.replace(" ", "\t", 1)
    yield "a line end", 0, line + "\n"
    yield "a return", 0, line + "\r"
    yield "upper case", 0, line.upper()


def near_forms():
    """Each change once a first word, but few of the long ones, with the first word of the line that was
    changed."""
    seen, done, long = set(LINES), set(), {}
    for line in LINES:
        first = line.split(" ")[0]
        for why, how, text in near(line):
            what = str((first, why, how))
            fits = len(text) <= SHORT or (len(text) <= LONGEST and long.get(first, 0) < MOST_LONG)
            if text not in seen and what not in done and fits:
                seen.add(text)
                done.add(what)
                long[first] = long.get(first, 0) + (len(text) > SHORT)
                yield first, text
    for text in ["", " ", "#", "# a note", "x", "run", "core", "step", "\u00e9", "entry 0 5 # a note", "5 deliver 0"]:
        yield "run", text


def thinned(texts):
    """So many of them as a table has at the most, from all places."""
    step = max(1, -(-len(texts) // MOST))
    return texts[::step]


def tables():
    """For each table its name, what it has, and its lines: those that are lines, and those that are none."""
    for line in LINES:
        if audit.line_of(line.encode()) is None:
            raise SystemExit(f"this is no line: {line}")
    others = list(near_forms())
    for name, words in TABLES.items():
        near_ones = [text for first, text in others if first in words]
        is_line = {text: audit.line_of(text.encode()) is not None for text in near_ones}
        lines = [line for line in LINES if line.split(" ")[0] in words] + [text for text in near_ones if is_line[text]]
        yield name, "Lines", thinned(lines)
        yield f"NO_{name}", "No lines", thinned([text for text in near_ones if not is_line[text]])


def literal(text):
    return '"' + text.replace("\\", "\\\\").replace('"', '\\"').replace("\n", "\\n").replace("\r", "\\r").replace("\t", "\\t") + '"'


def main():
    print("//! Lines and forms near them, made by `vectors/run_lines.py`.")
    for name, what, texts in tables():
        words = ", ".join(f"`{word}`" for word in TABLES[name.removeprefix("NO_")])
        print(f"\n/// {what}, by their first word or that of the line that was changed: {words}.")
        print(f"pub const {name}: &[&str] = &[")
        for text in texts:
            print(f"    {literal(text)},")
        print("];")


if __name__ == "__main__":
    main()
