"""What became of each registration and of each job of a run that farm_run has read: who, when, and how it
ended."""


class Registration:
    """A build server as the scheduler knows it, from the heartbeat that made it to its end."""

    def __init__(self, number, server, entry):
        self.number, self.server, self.made, self.ended, self.how = number, server, entry, None, None


class Job:
    """A job: `states` has each state that it came to, with the entry that brought it there."""

    def __init__(self, number, registration, entry):
        self.number, self.registration, self.states = number, registration, [("reserved", entry)]
        self.ended, self.how = None, None

    @property
    def server(self):
        return self.registration.server if self.registration else "?"

    def entry_of(self, state):
        return next((entry for name, entry in self.states if name == state), None)

    def end(self, how, entry):
        if self.ended is None:
            self.ended, self.how = entry, how


class Refusal:
    """A reply that refuses, or an allocation that gave no job: at whose door, and its texts."""

    def __init__(self, entry, server, text, job):
        self.entry, self.server, self.text, self.job = entry, server, text, job


def refusal_text(reply):
    """What a reply refuses, in one line; None where it grants."""
    if "causes" in reply:
        return ": ".join(reply["causes"])
    told = reply.get("message")
    if isinstance(told, dict) and "Fail" in told:
        return told["Fail"]["msg"]
    if told in ("JobNotFound", "CannotCache"):
        return told
    if "reply" in reply and not reply["reply"].startswith("200"):
        return ": ".join([reply["reply"], *[str(x) for x in (reply.get("refused"), told) if x]])
    return None


class History:
    def __init__(self, run):
        self.registrations, self.jobs, self.refusals = {}, {}, []
        self.beats, self.restarts, self.scheduler = [], [], None
        for entry in run.entries:
            if "core" in entry:
                self.scheduler = self.scheduler or run.places.get(entry["entry"])
                self.core(entry, entry["core"])
            if entry["event"] == "restart" and "step" in entry:
                self.restarts.append(entry)
            if "replies" in entry:
                self.reply(entry, run)

    def core(self, entry, core):
        for number in core.get("pruned", []):
            self.end_registration(number, "its server was pruned", entry)
        for number in core.get("reaped", []):
            if number in self.jobs:
                self.jobs[number].end("reaped", entry)
        if core["kind"] == "beat":
            if core["replaced"] is not None:
                self.end_registration(core["replaced"], "its server started again", entry)
            if core["is_new"]:
                self.registrations[core["number"]] = Registration(core["number"], core["server"], entry)
            self.beats.append(entry)
        elif core["kind"] == "reserve":
            registration = self.registrations.get(core["registration"])
            self.jobs[core["job"]] = Job(core["job"], registration, entry)
        elif core.get("job") in self.jobs:
            self.job_core(entry, core, self.jobs[core["job"]])

    def job_core(self, entry, core, job):
        if core["kind"] == "commit" and core["kept"]:
            job.states.append((core["state"], entry))
        elif core["kind"] == "commit":
            job.end("dropped at its commit", entry)
        elif core["kind"] == "undo":
            told = entry.get("replies", {}).get("causes", [""])[-1]
            job.end("given back" + (f": {told}" if told else ""), entry)
        elif core.get("outcome") == "accepted":
            job.states.append((core["state"], entry))
            if core["state"] == "complete":
                job.end("complete", entry)

    def end_registration(self, number, how, entry):
        registration = self.registrations.get(number)
        if registration is None or registration.ended is not None:
            return
        registration.ended, registration.how = entry, how
        for job in self.jobs.values():
            if job.registration is registration:
                job.end(how, entry)

    def reply(self, entry, run):
        text = refusal_text(entry["replies"])
        if text is None:
            return
        asked = run.by_number.get(entry["replies"]["to"], entry)
        core = entry.get("core", {})
        # A report that is refused is drawn where the server is that made it.
        server = core["server"] if core.get("kind") == "update" else run.places.get(asked["entry"])
        self.refusals.append(Refusal(entry, server, text, core.get("job")))

    def servers(self):
        """The addresses of build servers, in the order in which they come."""
        seen = [r.server for r in self.registrations.values()] + [e["server"] for e in self.restarts]
        return list(dict.fromkeys(seen))
