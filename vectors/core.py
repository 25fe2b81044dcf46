"""The scheduler's rules as questions to a list of entries, each asked anew of the whole list: slow, and
plain.

An entry is a dict: `now`, `kind`, and the fields of its kind. It is numbered by its place. Moments are
milliseconds. The rules have two versions; where they differ, a question takes the version, 1 or 2.
"""
LAST = 2**64 - 1
PRUNE_MS, ERROR_MS, UNCLAIMED_MS, PENDING_MS = 90000, 300000, 60000, 300000
AFTER = {"pending": "ready", "ready": "started", "started": "complete"}


def age(now, then):
    return max(now - then, 0)


def ends(entry, reg):
    """Whether the entry names the registration as pruned or replaced."""
    return reg in entry.get("pruned", []) or (entry["kind"] == "beat" and entry["replaced"] == reg)


def registrations(log):
    """The heartbeats that say new, as pairs of number and entry, which no later entry ends."""
    return [(k, e) for k, e in enumerate(log)
            if e["kind"] == "beat" and e["new"] and not any(ends(later, k) for later in log[k + 1:])]


def reservations(log):
    return [(k, e) for k, e in enumerate(log) if e["kind"] == "reserve" and e["job"] is not None]


def at_address(log, server):
    return next((reg for reg, e in registrations(log) if e["server"] == server), None)


def accepts(entry, job, state):
    return entry["kind"] == "update" and (entry["job"], entry["state"], entry["answer"]) == (job, state, "accepted")


def last_sign(log, reg):
    jobs = {e["job"] for _, e in reservations(log) if e["reg"] == reg}
    moment = log[reg]["now"]
    for k in range(reg + 1, len(log)):
        e = log[k]
        stands = not any(ends(between, reg) for between in log[reg + 1:k])
        if e["kind"] == "beat" and not e["new"] and e["server"] == log[reg]["server"] and stands:
            moment = e["now"]
        if e["kind"] == "update" and e["job"] in jobs and e["answer"] not in ("unknown", "wrong"):
            moment = e["now"]
    return moment


def is_unspent(log, number):
    job = log[number]["job"]
    return not any(e["kind"] in ("commit", "undo") and e["job"] == job for e in log[number + 1:])


def is_unended(log, number):
    job, reg = log[number]["job"], log[number]["reg"]
    return not any((e["kind"] == "undo" and e["job"] == job and e["ended"]) or job in e.get("reaped", [])
                   or accepts(e, job, "complete") or ends(e, reg) for e in log[number + 1:])


def unended(log):
    return [(k, e) for k, e in reservations(log) if is_unended(log, k)]


def is_claimed(log, number):
    return any(accepts(e, log[number]["job"], "started") for e in log[number + 1:])


def is_draining(log, reg):
    """Whether the last drain that names the registration says on."""
    said = [e["on"] for e in log if e["kind"] == "drain" and e["reg"] == reg]
    return bool(said) and said[-1]


def load(log, reg):
    return sum(e["reg"] == reg for _, e in unended(log))


def remembered_error(log, reg):
    error = None
    for e in log:
        if e["kind"] == "undo" and e["noted"] == reg:
            error = e["now"]
        if e["kind"] == "reserve" and reg in e["forgiven"]:
            error = None
    return error


def state_of(log, job):
    """The state of a committed job, with the place of its commit; else None."""
    found = None
    for k, e in enumerate(log):
        if e["kind"] == "commit" and e["job"] == job and e["kept"]:
            found = (e["state"], k)
        elif found and e["kind"] == "update" and e["job"] == job and e["answer"] == "accepted":
            found = (e["state"], found[1])
    return found


def ready_since(log, number, version):
    """Since when a ready job has been ready: in version 1 its reservation; in version 2 the accepted update
    to ready, or the commit that said ready."""
    if version == 1:
        return log[number]["now"]
    job = log[number]["job"]
    return next(e["now"] for e in log[number + 1:] if accepts(e, job, "ready")
                or (e["kind"] == "commit" and (e["job"], e["state"], e["kept"]) == (job, "ready", True)))


def registration_of(log, job):
    return next(e["reg"] for _, e in reservations(log) if e["job"] == job)


def is_open(log, job):
    found = state_of(log, job)
    if found is None or found[0] == "complete":
        return False
    reg = registration_of(log, job)
    return not any(job in e.get("reaped", []) or ends(e, reg) for e in log[found[1] + 1:])


def open_jobs(log):
    return [e["job"] for _, e in reservations(log) if is_open(log, e["job"])]


def has_room(log, reg):
    cpus = log[reg]["cpus"]
    return not is_draining(log, reg) and load(log, reg) < cpus + 1 + cpus // 8


def pick(log):
    room = [reg for reg, _ in registrations(log) if has_room(log, reg)]
    clean = [reg for reg in room if remembered_error(log, reg) is None]
    if clean:
        best = clean[0]
        for reg in clean[1:]:
            if load(log, reg) * log[best]["cpus"] < load(log, best) * log[reg]["cpus"]:
                best = reg
        return best
    return min(room, key=lambda reg: (remembered_error(log, reg), reg), default=None)


def forgiven(log, now):
    return [reg for reg, _ in registrations(log) if has_room(log, reg)
            and remembered_error(log, reg) is not None and age(now, remembered_error(log, reg)) > ERROR_MS]


def pruned(log, now):
    return [reg for reg, _ in registrations(log) if age(now, last_sign(log, reg)) > PRUNE_MS]


def is_reaped(log, now, number, version):
    """Whether a heartbeat of its registration reaps the unended reservation of that number."""
    reserved = age(now, log[number]["now"])
    state = state_of(log, log[number]["job"])
    if is_claimed(log, number):
        return False
    if state is None:
        return reserved >= UNCLAIMED_MS
    if state[0] == "ready":
        return age(now, ready_since(log, number, version)) >= UNCLAIMED_MS
    return state[0] == "pending" and reserved > PENDING_MS


def reaped(log, now, reg, version):
    return [e["job"] for k, e in unended(log) if e["reg"] == reg and is_reaped(log, now, k, version)]


# What each call's entry is

def reserve(log, now, base, count):
    entry = {"now": now, "kind": "reserve", "job": None, "reg": None, "forgiven": [], "standing": None, "spent": False}
    reg, made = pick(log), count + len(reservations(log))
    if reg is None:
        return {**entry, "standing": len(registrations(log))}
    if made == LAST:
        return {**entry, "spent": True}
    return {**entry, "job": (base + made) % 2**64, "reg": reg, "forgiven": forgiven(log, now)}


def commit(log, now, number, state):
    return {"now": now, "kind": "commit", "job": log[number]["job"], "state": state, "kept": is_unended(log, number)}


def undo(log, now, number):
    server = log[log[number]["reg"]]["server"]
    return {"now": now, "kind": "undo", "job": log[number]["job"], "noted": at_address(log, server),
            "ended": is_unended(log, number)}


def beat(log, now, server, nonce, cpus, key, version=1):
    entry = {"now": now, "kind": "beat", "server": server, "nonce": nonce, "cpus": cpus, "key": key,
             "pruned": pruned(log, now), "reaped": [], "replaced": None, "new": True}
    there = at_address(log, server)
    if there is None or there in entry["pruned"]:
        return entry
    if log[there]["nonce"] == nonce:
        return {**entry, "reaped": reaped(log, now, there, version), "new": False}
    return {**entry, "replaced": there}


def update(log, now, server, job, state):
    entry = {"now": now, "kind": "update", "server": server, "job": job, "state": state}
    if not is_open(log, job):
        return {**entry, "answer": "unknown"}
    if log[registration_of(log, job)]["server"] != server:
        return {**entry, "answer": "wrong"}
    had = state_of(log, job)[0]
    return {**entry, "answer": "accepted" if AFTER.get(had) == state else f"transition {had}"}


def status(log, now):
    gone = pruned(log, now)
    stand = [(reg, e) for reg, e in registrations(log) if reg not in gone]
    return {"now": now, "kind": "status", "pruned": gone, "servers": len(stand),
            "cpus": min(sum(e["cpus"] for _, e in stand), LAST),
            "jobs": sum(registration_of(log, job) not in gone for job in open_jobs(log))}


def drain(log, now, server, nonce, on):
    there = at_address(log, server)
    named = there if there is not None and log[there]["nonce"] == nonce else None
    return {"now": now, "kind": "drain", "server": server, "nonce": nonce, "on": on, "reg": named}


# As text

def listed(numbers):
    return ",".join(map(str, numbers)) or "-"


def or_dash(value):
    return "-" if value is None else str(value)


def entry_text(e):
    if e["kind"] == "reserve":
        if e["spent"]:
            return "reserve spent"
        if e["job"] is None:
            return f"reserve none {e['standing']}"
        return f"reserve job {e['job']} reg {e['reg']} forgiven {listed(e['forgiven'])}"
    if e["kind"] == "commit":
        return f"commit job {e['job']} state {e['state']} {'kept' if e['kept'] else 'dropped'}"
    if e["kind"] == "undo":
        return f"undo job {e['job']} noted {or_dash(e['noted'])} ended {'yes' if e['ended'] else 'no'}"
    if e["kind"] == "beat":
        return (f"beat {e['server']} nonce {e['nonce']} cpus {e['cpus']} pruned {listed(e['pruned'])} reaped {listed(e['reaped'])} "
                f"replaced {or_dash(e['replaced'])} {'new' if e['new'] else 'old'}")
    if e["kind"] == "update":
        return f"update {e['server']} job {e['job']} state {e['state']} {e['answer']}"
    if e["kind"] == "drain":
        return f"drain {e['server']} nonce {e['nonce']} {'on' if e['on'] else 'off'} reg {or_dash(e['reg'])}"
    return f"status pruned {listed(e['pruned'])} servers {e['servers']} cpus {e['cpus']} jobs {e['jobs']}"


def books_text(log, base, count):
    lines = ["books", f"ids base {base} count {count + len(reservations(log))}"]
    for reg, e in registrations(log):
        lines.append(f"server {e['server']} reg {reg} cpus {e['cpus']} nonce {e['nonce']} seen {last_sign(log, reg)} "
                     f"load {load(log, reg)} error {or_dash(remembered_error(log, reg))}")
    for number, e in sorted(unended(log), key=lambda pair: pair[1]["job"]):
        state = state_of(log, e["job"])
        lines.append(f"job {e['job']} reg {e['reg']} {state[0] if state else 'reserved'} "
                     f"{'claimed' if is_claimed(log, number) else 'unclaimed'}")
    return lines
