#!/usr/bin/env python3
"""Writes worked histories of core calls, each call with the entry that the model (`core.py`) gives, as tests.

    core_table.py 1 > crates/test_core/src/table_one.rt
    core_table.py 2 > crates/test_core/src/table_two.rt

Each history shows one thing. Servers are at 127.0.0.1, named by their ports; ids begin at 4096.
"""
import sys

import core

BASE = 4096
NAMES = {"pending": "Pending", "ready": "Ready", "started": "Started", "complete": "Complete"}


class Run:
    """A history: the entries, what was asked and said, and the reservations that are unspent, by job."""

    def __init__(self, version):
        self.version, self.log, self.steps = version, [], []

    def at(self, now, name, *words):
        entry = getattr(self, name)(now, *words)
        self.steps.append((now, name, words, entry))
        self.log.append(entry)

    def number(self, job):
        return next(k for k, e in core.reservations(self.log) if e["job"] == job and core.is_unspent(self.log, k))

    def reserve(self, now):
        return core.reserve(self.log, now, BASE, 0)

    def commit(self, now, job, state):
        return core.commit(self.log, now, self.number(job), state)

    def undo(self, now, job):
        return core.undo(self.log, now, self.number(job))

    def beat(self, now, server, nonce=7, cpus=1):
        return core.beat(self.log, now, server, nonce, cpus, b"", self.version)

    def update(self, now, server, job, state):
        return core.update(self.log, now, server, job, state)

    def status(self, now):
        return core.status(self.log, now)

    def drain(self, now, server, nonce, on):
        return core.drain(self.log, now, server, nonce, on)


# What the worked histories show, by name: what is told of it, its version or None for both, and its calls

A, B = 1, 2
WORKED = {
    "DRAINED": ("A drained server has no room, and has it again; a drain with another nonce names none.", 2, [
        (0, "beat", A), (1, "drain", A, 7, True), (2, "reserve"), (3, "drain", A, 7, False), (4, "reserve"),
        (5, "drain", A, 8, True), (6, "status")]),
    "LEAST_LOAD": ("A draining server has the least load.", 2, [
        (0, "beat", A, 7, 8), (0, "beat", B, 7, 1), (1, "drain", A, 7, True), (2, "reserve"), (3, "reserve"),
        (4, "reserve"), (5, "drain", A, 7, False), (6, "reserve")]),
    "JOBS_GO_ON": ("The jobs of a draining server go on.", 2, [
        (0, "beat", A, 7, 4), (0, "reserve"), (0, "reserve"), (0, "reserve"), (1, "commit", 4096, "pending"),
        (2, "drain", A, 7, True), (3, "commit", 4097, "ready"), (4, "undo", 4098), (5, "update", A, 4096, "ready"),
        (6, "update", A, 4096, "started"), (7, "update", A, 4096, "complete"), (8, "update", A, 4097, "complete"),
        (60002, "beat", A, 7, 4), (60003, "beat", A, 7, 4)]),
    "NO_SIGN": ("A drain is no sign of its server.", 2, [
        (0, "beat", A), (0, "beat", B), (90000, "drain", A, 7, True), (90000, "beat", B), (90001, "drain", A, 7, True),
        (90001, "status"), (90002, "drain", A, 7, True)]),
    "OLD_HEARTBEAT": ("A heartbeat that says old ends no draining.", 2, [
        (0, "beat", A), (1, "drain", A, 7, True), (2, "beat", A), (3, "reserve")]),
    "REPLACED": ("A heartbeat that replaces does.", 2, [
        (0, "beat", A), (1, "drain", A, 7, True), (2, "beat", A, 8), (3, "reserve"), (4, "drain", A, 7, True),
        (5, "reserve"), (6, "drain", A, 8, True), (7, "reserve")]),
    "READY_A_MINUTE": ("A job is ready for 59,999 milliseconds, and for a minute.", None, [
        (0, "beat", A), (0, "reserve"), (0, "commit", 4096, "pending"), (50000, "update", A, 4096, "ready"),
        (80000, "beat", A), (109999, "beat", A), (110000, "beat", A)]),
    "READY_BY_COMMIT": ("It is ready by its commit.", None, [
        (0, "beat", A), (0, "reserve"), (30000, "commit", 4096, "ready"), (59999, "beat", A), (60000, "beat", A),
        (89999, "beat", A), (90000, "beat", A)]),
    "READY_BEFORE": ("Moments go backwards: it is ready for longer than its reservation is old.", None, [
        (100000, "beat", A), (100000, "reserve"), (50000, "commit", 4096, "ready"), (109999, "beat", A),
        (110000, "beat", A), (160000, "beat", A)]),
}


def histories(version):
    for name, (told, only, calls) in WORKED.items():
        if only in (None, version):
            run = Run(version)
            for now, call, *words in calls:
                run.at(now, call, *words)
            yield name, told, run


# As Rattle

def some(value):
    return "None" if value is None else f"Some({value})"


def yes(value):
    return "true" if value else "false"


def numbers(values):
    return "&[" + ", ".join(map(str, values)) + "]"


def ask(name, words):
    if name == "beat":
        server, nonce, cpus = (list(words) + [7, 1][len(words) - 1:])[:3]
        return f"Ask::Beat({server}, {nonce}, {cpus})"
    if name == "commit":
        return f"Ask::Commit({words[0]}, JobState::{NAMES[words[1]]})"
    if name == "undo":
        return f"Ask::Undo({words[0]})"
    if name == "update":
        return f"Ask::Update({words[0]}, {words[1]}, JobState::{NAMES[words[2]]})"
    if name == "drain":
        return f"Ask::Drain({words[0]}, {words[1]}, {yes(words[2])})"
    return f"Ask::{name.capitalize()}"


def answer(text):
    if text.startswith("transition"):
        return f"Said::Transition(JobState::{NAMES[text.split()[1]]})"
    return f"Said::{text.capitalize()}"


def said(e):
    if e["kind"] == "reserve":
        if e["job"] is None:
            return f"Said::NoRoom({e['standing']})"
        return f"Said::Job({e['job']}, {e['reg']}, {numbers(e['forgiven'])})"
    if e["kind"] == "commit":
        return f"Said::Kept({yes(e['kept'])})"
    if e["kind"] == "undo":
        return f"Said::Undone({some(e['noted'])}, {yes(e['ended'])})"
    if e["kind"] == "beat":
        if e["new"]:
            return f"Said::New({numbers(e['pruned'])}, {some(e['replaced'])})"
        return f"Said::Old({numbers(e['pruned'])}, {numbers(e['reaped'])})"
    if e["kind"] == "update":
        return answer(e["answer"])
    if e["kind"] == "drain":
        return f"Said::Named({some(e['reg'])})"
    return f"Said::Counted({numbers(e['pruned'])}, [{e['servers']}, {e['cpus']}, {e['jobs']}])"


def server_row(log, reg, e):
    return (f"({e['server']}, [{reg}, {e['cpus']}, {e['nonce']}, {core.last_sign(log, reg)}, {core.load(log, reg)}], "
            f"{some(core.remembered_error(log, reg))}, {yes(core.is_draining(log, reg))})")


def job_row(log, number, e):
    state = core.state_of(log, e["job"])
    kept = f"Some(JobState::{NAMES[state[0]]})" if state else "None"
    return f"([{e['job']}, {number}, {e['reg']}, {e['now']}], {kept}, {yes(core.is_claimed(log, number))})"


def main():
    version = int(sys.argv[1])
    rules = ["One", "Two"][version - 1]
    print(f"//! Histories of version {version}: calls, what each call's entry says, and the books behind them, as the model in")
    print("//! `vectors/core.py` has them. The file is written by `vectors/core_table.py`.")
    print("use crate::rows::{Ask, History, Said, compare};")
    print("use dist_types::results::JobState;\nuse dist_types::rules::Rules;\nuse std::test::Fail;")
    for name, told, run in histories(version):
        print(f"\n/// {told}\nconst {name}: History = History {{\n    rules: Rules::{rules},\n    steps: &[")
        for now, call, words, entry in run.steps:
            print(f"        ({now}, {ask(call, words)}, {said(entry)}),")
        print("    ],\n    servers: &[")
        for reg, e in core.registrations(run.log):
            print(f"        {server_row(run.log, reg, e)},")
        print("    ],\n    jobs: &[")
        for number, e in sorted(core.unended(run.log), key=lambda pair: pair[1]["job"]):
            print(f"        {job_row(run.log, number, e)},")
        print("    ],\n};")
        print(f"\n#[test]\nfn {name.lower()}(rt: HostRuntime) -> Result<(), Fail> {{")
        print(f"    compare(&rt, rt.alloc(), &{name});\n    Ok(())\n}}")


if __name__ == "__main__":
    main()
