"""The bytes of a script to its start, stamps and events, or to its first fault; and its text."""
import re
from collections import namedtuple

from model.calendar import DAY, FIRST_START_DAY, day_of_text, day_text, minute_of_text, minute_text
from model.crontab import Wrong, lines_of
from model.faults import Fault

MOST_BYTES = 16_777_216
# The forms of a line, whose first word is its kind; a name in capitals takes other words.
FORMS = ("start TIME WAY", "stamp ID DAY", "minute TIME", "up TIME", "down", "begin line N")
FORMS += ("got line N TIME", "catch ID", "end line N TIME", "end job ID TIME")
ANY = {"TIME": "(?P<time>[^ ]+ [^ ]+)", "DAY": "(?P<day>[^ ]+)", "ID": "(?P<id>[^ ]+)"}
ANY |= {"WAY": "(?P<way>up|down)", "N": "0*(?P<n>[0-9]+)"}
PATTERNS = [re.compile(re.sub("[A-Z]+", lambda it: ANY[it[0]], f).encode(), re.S) for f in FORMS]

# An event with the number of its line; job and minute are none where it has none.
Event = namedtuple("Event", "line kind job minute")
Start = namedtuple("Start", "minute is_up")
Script = namedtuple("Script", "start stamps events")


def said_by(line):
    """Returns the words that the form of a line leaves open, by name, and its kind."""
    for found in filter(None, (it.fullmatch(line) for it in PATTERNS)):
        return {**found.groupdict(), "kind": line.split(b" ")[0].decode()}
    raise Wrong("BadLine")


def dated(read, text, first):
    """Returns the day or minute that a line names, which is the first one or later."""
    try:
        found = read(text)
    except Fault:
        raise Wrong("BadDate") from None
    if found < first:
        raise Wrong("BadDate")
    return found


def job_in(said, plan):
    """Returns the number of the job that a line names, none where it names none."""
    names = [(it.is_cron, it.name) for it in plan.jobs]
    if "n" in said:
        name = True, b"line " + said["n"]
    elif "id" in said:
        name = False, said["id"]
    else:
        return None
    if name not in names:
        raise Wrong("UnknownName")
    return names.index(name)


class Reader:
    """What the lines so far have said."""

    def __init__(self, plan):
        self.plan, self.start, self.stamps, self.events = plan, None, {}, []
        self.stamped = set()

    def is_misplaced(self, said):
        """Returns whether a start or a stamp may not be here, whatever else it says."""
        if said["kind"] == "start":
            return self.start is not None
        is_late = bool(self.events) or said.get("id") in self.stamped
        return said["kind"] == "stamp" and is_late

    def read(self, number, text):
        said, minute, day = said_by(text), None, None
        if self.is_misplaced(said):
            raise Wrong("BadLine")
        if "time" in said:
            first = DAY * FIRST_START_DAY if said["kind"] == "start" else 0
            minute = dated(minute_of_text, said["time"], first)
        if "day" in said:
            day = dated(day_of_text, said["day"], 1)
        job = job_in(said, self.plan)
        if self.start is None and said["kind"] != "start":
            raise Wrong("NoStart")
        if said["kind"] == "start":
            self.start = Start(minute, said["way"] == b"up")
        elif said["kind"] == "stamp":
            self.stamped.add(said["id"])
            self.stamps[job] = day
        else:
            self.events.append(Event(number, said["kind"], job, minute))


def read_script(text, plan):
    """Returns the script that bytes denote for a plan."""
    if len(text) > MOST_BYTES:
        raise Fault("script", "TooLong", 0)
    reader = Reader(plan)
    for number, line in enumerate(lines_of(text), 1):
        try:
            if line and not line.startswith(b"#"):
                reader.read(number, line)
        except Wrong as wrong:
            raise Fault("script", str(wrong), number) from None
    if reader.start is None:
        raise Fault("script", "NoStart", 0)
    return Script(reader.start, reader.stamps, reader.events)


def event_text(plan, event):
    words = [event.kind]
    if event.job is not None:
        of = plan.jobs[event.job]
        words += [] if of.is_cron or event.kind == "catch" else ["job"]
        words.append(of.name.decode())
    words += [] if event.minute is None else [minute_text(event.minute)]
    return " ".join(words)


def script_text(plan, script):
    lines = [f"start {minute_text(script.start.minute)} {'up' if script.start.is_up else 'down'}"]
    for job, day in script.stamps.items():
        lines.append(f"stamp {plan.jobs[job].name.decode()} {day_text(day)}")
    lines += [event_text(plan, it) for it in script.events]
    return "".join(f"{it}\n" for it in lines)
