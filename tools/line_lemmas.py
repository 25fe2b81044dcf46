#!/usr/bin/env python3
"""Writes the lemmas on chains of fields of crates/run_lines/proofs: of each kind of line, that what its
reader reads is the one text of a value that fits, and that this text is read.

    tools/line_lemmas.py [CRATE]      CRATE: crates/run_lines
"""

import pathlib
import sys

WIDTH = 108


class Field:
    """A value in a line: its reader, relation and law, its text, and whether its fit is a premise."""

    def __init__(self, reader, relation, law, text, lacks, type_, fits=True):
        self.reader, self.relation, self.law = reader, relation, law
        self.text, self.lacks, self.type, self.fits = text, lacks, type_, fits


def exact(reader, text, fits, law, lacks, type_):
    shown = fits != "Anything"
    return Field(reader, f"(Exact {text} {fits})", law, text, lacks, type_, shown)


NUMBER = Field("number_at", "IsNumber", "number_law", "decimal", "decimal_lacks", "ℕ")
JOB = Field("number_at", "IsNumber", "number_law", "decimal", "decimal_lacks", "JobId")
ADDRESS = exact("exact_at", "addr_text", "HasText", "exact_law", "addr_lacks", "Addr")
NUMBERS = exact("numbers_at", "numbers_text", "AllFit", "numbers_law", "numbers_lack", "List ℕ")
JOBS = exact("jobs_at", "jobs_text", "JobsFit", "jobs_law", "jobs_lack", "List JobId")
MAYBE = exact("maybe_at", "number_text", "SomeFits", "maybe_law", "maybe_lacks", "Option ℕ")
STATE = exact("state_at", "state_text", "Anything", "state_law", "state_lacks", "JobState")
STAGE = exact("stage_at", "stage_text", "Anything", "stage_law", "stage_lacks", "Option JobState")
ID = exact("id_at", "itself", "IsId", "id_law", "id_lacks", "List ℕ")
IDS = exact("ids_at", "ids_text", "AreIds", "ids_law", None, "List (List ℕ)")
HEX = exact("lower_at", "hex_text", "HasHex", "lower_law", None, "List ℕ")
VERSION = exact("version_at", "decimal", "IsVersion", "version_law", "version_lacks", "ℕ")
ANSWER = exact("advance_at", "advance_text", "Anything", "advance_law", None, "UpdateAnswer")
OUTCOME = exact("outcome_at", "submitted_text", "SubmittedFits", "outcome_law", None, "Submitted")
RAN = exact("ran_at", "ran_text", "RanFits", "ran_law", None, "Ran")
EVENT = exact("printed_event_at", "event_text", "HasLine", "event_law", None, "Event")
CORE = exact("core_at", "core_text", "CoreFits", "core_law", None, "CoreKind")
STEP = exact("step_at", "step_text", "StepFits", "step_law", None, "StepKind")


def either(first, second, name, lacks=None):
    reader = f'(either_at (codes "{first}") (codes "{second}"))'
    return exact(reader, f"{name}_text", "Anything", f"{name}_law", lacks, "Bool")


# of a kind: its name, what its reader gives, the text and the fit of that, the word before it, the value, and
# its fields: a name, a word before it or none, and what it is
KINDS = {
    "Part": [
        ("job", "Reserved", "reserved_text", "ReservedFits", "job ", "reserve.Job {0} {1} {2}",
         [("job", None, JOB), ("reg", "reg ", NUMBER), ("forgiven", "forgiven ", NUMBERS)]),
        ("stored", "Submitted", "submitted_text", "SubmittedFits", "stored ", "submitted.Stored {0} {1}",
         [("size", None, NUMBER), ("dropped", "dropped ", IDS)]),
    ],
    "Core": [
        ("commit", "CoreKind", "core_text", "CoreFits", "commit ", "core.Commit {0} {1} {2}",
         [("job", "job ", JOB), ("state", "state ", STATE), ("kept", None, either("kept", "dropped", "kept"))]),
        ("undo", "CoreKind", "core_text", "CoreFits", "undo ", "core.Undo {0} {1} {2}",
         [("job", "job ", JOB), ("noted", "noted ", MAYBE), ("ended", "ended ", either("yes", "no", "ended"))]),
        ("beat", "CoreKind", "core_text", "CoreFits", "beat ", "core.Beat {0} {1} {2} [] {3} {4} {5} {6}",
         [("server", None, ADDRESS), ("nonce", "nonce ", NUMBER), ("cpus", "cpus ", NUMBER),
          ("pruned", "pruned ", NUMBERS), ("reaped", "reaped ", JOBS), ("replaced", "replaced ", MAYBE),
          ("is_new", None, either("new", "old", "age"))]),
        ("update", "CoreKind", "core_text", "CoreFits", "update ", "core.Update {0} {1} {2} {3}",
         [("server", None, ADDRESS), ("job", "job ", JOB), ("state", "state ", STATE), ("answer", None, ANSWER)]),
        ("status", "CoreKind", "core_text", "CoreFits", "status ", "core.Status {0} {1} {2} {3}",
         [("pruned", "pruned ", NUMBERS), ("servers", "servers ", NUMBER), ("cpus", "cpus ", NUMBER),
          ("jobs", "jobs ", NUMBER)]),
        ("drain", "CoreKind", "core_text", "CoreFits", "drain ", "core.Drain {0} {1} {2} {3}",
         [("server", None, ADDRESS), ("nonce", "nonce ", NUMBER), ("on", None, either("on", "off", "on", "on_lacks")),
          ("reg", "reg ", MAYBE)]),
    ],
    "Step": [
        ("assigned", "StepKind", "step_text", "StepFits", "assigned ", "step.Assigned {0} {1} {2}",
         [("job", None, JOB), ("tc", None, ID), ("ready", None, either("ready", "pending", "ready"))]),
        ("submitted", "StepKind", "step_text", "StepFits", "submitted ", "step.Submitted {0} {1}",
         [("job", None, JOB), ("outcome", None, OUTCOME)]),
        ("run_step", "StepKind", "step_text", "StepFits", "ran ", "step.Ran {0} {1} None",
         [("job", None, JOB), ("how", None, RAN)]),
    ],
    "Line": [
        ("run", "RunLine", "line_text", "LineFits", "run ", "Run {0} {1}",
         [("version", None, VERSION), ("entries", "entries ", NUMBER)]),
        ("entry", "RunLine", "line_text", "LineFits", "entry ", "Entry {0} {1}",
         [("number", None, NUMBER), ("event", None, EVENT)]),
        ("core_line", "RunLine", "line_text", "LineFits", "core ", "Core {0} {1}",
         [("number", None, NUMBER), ("kind", None, CORE)]),
        ("step_line", "RunLine", "line_text", "LineFits", "step ", "Step {0} {1}",
         [("server", None, ADDRESS), ("kind", None, STEP)]),
        ("call", "RunLine", "line_text", "LineFits", "call ", "Call {0} {1}",
         [("target", None, ADDRESS), ("bytes", None, HEX)]),
        ("reply", "RunLine", "line_text", "LineFits", "reply ", "Reply {0} {1}",
         [("to", None, NUMBER), ("bytes", None, HEX)]),
        ("ids", "RunLine", "line_text", "LineFits", "ids ", "Ids {0} {1}",
         [("base", "base ", NUMBER), ("count", "count ", NUMBER)]),
        ("row", "RunLine", "line_text", "LineFits", "server ",
         "Server (row_of {0} {1} {2} {3} {4} {5} {6})",
         [("server", None, ADDRESS), ("reg", "reg ", NUMBER), ("cpus", "cpus ", NUMBER),
          ("nonce", "nonce ", NUMBER), ("seen", "seen ", NUMBER), ("load", "load ", NUMBER),
          ("error", "error ", MAYBE)]),
        ("job_line", "RunLine", "line_text", "LineFits", "job ", "Job {0} {1} {2} {3}",
         [("job", None, JOB), ("reg", "reg ", NUMBER), ("stage", None, STAGE),
          ("claimed", None, either("claimed", "unclaimed", "claim"))]),
        ("held", "RunLine", "line_text", "LineFits", "held ", "Held {0} {1} {2}",
         [("server", None, ADDRESS), ("job", None, JOB), ("tc", None, ID)]),
        ("archive_line", "RunLine", "line_text", "LineFits", "archive ", "Archive {0} {1} {2}",
         [("server", None, ADDRESS), ("tc", None, ID), ("size", None, NUMBER)]),
    ],
}

# what a value that is shown has beside the fits of its fields: before the field of that place, a proof
BESIDE = {"beat": (3, "refl"), "run_step": (2, "refl"), "row": (7, "refl")}


def wrap(text, indent):
    """The words of a line, over as many lines as it takes; a text in quotes is one word."""
    words, current, quoted = [], "", False
    for letter in text:
        if letter == '"':
            quoted = not quoted
        if letter == " " and not quoted:
            words.append(current)
            current = ""
        else:
            current += letter
    words.append(current)
    lines, line = [], indent
    for word in words:
        if len(line) + len(word) + 1 > WIDTH and line.strip():
            lines.append(line.rstrip())
            line = (indent or "    ") + "" + word + " "
        else:
            line += word + " "
    lines.append(line.rstrip())
    return "\n".join(lines)


def read(field, before, is_last):
    """The reader of a field, with the word before it."""
    if is_last:
        return f'last (codes "{before}") {field.reader}' if before else field.reader
    return f'named (codes "{before}") {field.reader}' if before else f"field {field.reader}"


def sound(kind):
    name, gives, text, fits, word, value, fields = kind
    end = len(fields) - 1
    out = [
        wrap(f'{name}_sound : (t : List ℕ) (k : {gives}) → {name}_at t ≡ Some k'
             f' → Exact {text} {fits} (pre (codes "{word}") t) k', ""),
        f"unfolding {name}_at",
        f"{name}_sound t k e =",
    ]
    rest, so_far = "t", "e"
    for i, (_, before, field) in enumerate(fields):
        out.append(wrap(f"let a{i} = bind_some ({read(field, before, i == end)} {rest}) _ k {so_far} in", "    "))
        rest, so_far = f"a{i}.0.1", f"a{i}.2"
    rest = "t"
    for i, (_, before, field) in enumerate(fields):
        got = f"a{i}.0 a{i}.1" if i == end else f"a{i}.0.0 a{i}.0.1 a{i}.1"
        law = f"{field.reader} {field.relation} {field.law}"
        if i == end and not before:
            line = f"let f{i} = {field.law}.sound {rest} {got} in"
        elif i == end:
            line = f'let f{i} = last_sound (codes "{before}") {law} {rest} {got} in'
        elif before:
            line = f'let f{i} = named_sound (codes "{before}") {law} {rest} {got} in'
        else:
            line = f"let f{i} = field_sound {law} {rest} {got} in"
        out.append(wrap(line, "    "))
        rest = f"a{i}.0.1"
    values = []
    for i, (_, _, field) in enumerate(fields):
        got = f"a{i}.0" if i == end else f"a{i}.0.0"
        values.append(f"(job_of {got})" if field is JOB else got)
    out.append(wrap(f"let made : {gives} = {value.format(*values)} in", "    "))
    out.append(f'    let is : Exact {text} {fits} (pre (codes "{word}") t) made = (')
    steps = []
    for i, (_, before, _) in enumerate(fields):
        if i == end and before:
            steps.append(f'(f{i}.2 ∙ ap (λ (w : List ℕ). codes "{before}" ++ w) f{i}.1.0)')
        elif i == end:
            steps.append(f"f{i}.0")
        elif before:
            steps.append(f'(follow_number _ (codes "{before}") f{i}.0 _ _ _ f{i}.2 f{i}.1.0')
        else:
            steps.append(f"(follow _ _ _ _ _ f{i}.2 f{i}.1.0")
    steps[-1] += ")" * end
    out.append(wrap(f'ap (pre (codes "{word}")) {steps[0]}', "      "))
    for step in steps[1:]:
        out.append(wrap(step, "          "))
    out[-1] += ","
    kept = []
    for i, (_, before, field) in enumerate(fields):
        if field.fits:
            kept.append(f"f{i}.1" if i == end and not before else f"f{i}.1.1")
    if name in BESIDE:
        place, proof = BESIDE[name]
        kept.insert(place, proof)
    out.append("      " + (kept[0] if len(kept) == 1 else f"({', '.join(kept)})") + ",")
    out.append("    ) in")
    out.append(wrap(f'subst (Exact {text} {fits} (pre (codes "{word}") t)) (same_Some made k a{end}.2) is', "    "))
    return "\n".join(out)


def shown(kind, i):
    """The text of the fields from that place on, as parts are put together."""
    _, _, _, _, _, _, fields = kind
    name, before, field = fields[i]
    number = f"{name}.0" if field is JOB else name
    text = number if field.text == "itself" else f"({field.text} {number})"
    if i < len(fields) - 1:
        text = f"({text} ++ 32 ∷ {shown(kind, i + 1)})"
    return f'(codes "{before}" ++ {text})' if before else text


def complete(kind):
    name, gives, _, fits, _, value, fields = kind
    end = len(fields) - 1
    arguments = " ".join(f"({n} : {f.type})" for n, _, f in fields)
    given = value.format(*[n for n, _, _ in fields])
    made = value.format(*[f"(job_of {n}.0)" if f is JOB else n for n, _, f in fields])
    out = [
        wrap(f"{name}_complete : {arguments} → {fits} ({given}) → {name}_at {shown(kind, 0)} ≡ Some ({made})", ""),
        f"unfolding {name}_at",
        wrap(f"{name}_complete {' '.join(n for n, _, _ in fields)} h =", ""),
    ]
    for i in range(end, 0, -1):
        out.append(wrap(f"let r{i} : List ℕ = {shown(kind, i)} in", "    "))
    fitting = [i for i, (_, _, f) in enumerate(fields) if f.fits]
    places = {i: place for place, i in enumerate(fitting)}
    count = len(fitting)
    if name in BESIDE:
        beside = BESIDE[name][0]
        places = {i: place + (place >= beside) for i, place in places.items()}
        count += 1
    for i, (n, before, field) in enumerate(fields):
        number = f"{n}.0" if field is JOB else n
        text = number if field.text == "itself" else f"({field.text} {number})"
        fit = "tt" if not field.fits else "h" if count == 1 else f"h.{places[i]}"
        law = f"{field.reader} {field.relation} {field.law}"
        lacks = f"({field.lacks} {number}{' ' + fit if field.fits else ''})"
        if i == end and not before:
            inner = f"{field.law}.complete {text} {number} (refl, {fit})"
        elif i == end:
            inner = f'last_complete (codes "{before}") {law} {text} {number} (refl, {fit})'
        elif before:
            inner = f'named_complete (codes "{before}") {law} {text} {number} r{i + 1} (refl, {fit}) {lacks}'
        else:
            inner = f"field_complete {law} {text} {number} r{i + 1} (refl, {fit}) {lacks}"
        out.append(wrap(f"{'(' if i else ''}bind_is _ _ _ _ ({inner})", "    "))
    out.append("    refl" + ")" * end)
    return "\n".join(out)


def main():
    crate = pathlib.Path(sys.argv[1] if len(sys.argv) > 1 else "crates/run_lines")
    for name, kinds in KINDS.items():
        path = crate / "proofs" / f"{name}Chains.antt"
        head = path.read_text().split("-- ---- written by tools/line_lemmas.py\n")[0]
        lemmas = []
        for kind in kinds:
            lemmas += ["pub " + sound(kind), "pub " + complete(kind)]
        path.write_text(head + "-- ---- written by tools/line_lemmas.py\n\n" + "\n\n".join(lemmas) + "\n")


if __name__ == "__main__":
    main()
