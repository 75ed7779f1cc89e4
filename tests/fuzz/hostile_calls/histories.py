"""Scripts of random events over random small plans, whether an event may come or not.

Events that get on with a history are likelier: what is pending, waits or runs is known from the
second reading, which plays each script as it is made. What comes of an event comes up often. In
the beginnings of histories that are judged no event is refused.
"""
import json
from collections import Counter
from pathlib import Path

from model.calendar import DAY
from model.declarations import MODES, plan_of
from model.replay import Refused, Rules, first_state
from model.script import Event, Script, Start, script_text

from hostile_calls.calls import call_of

PLANS = 400
EVENTS = 150
# Of one plan in so many the history is longer.
LONG_ONE_IN, EVENTS_OF_A_LONG_ONE = 20, 3_000
# Fewer events than that are judged, so that often no run is late.
JUDGED = 60
# 2024-09-13 00:00.
MIDNIGHT = 28_769_760
WEIGHTS = {"begin": 22, "minute": 12, "end": 14, "got": 6, "catch": 5, "down": 1, "up": 1}
# By how many minutes the clock goes on.
AHEAD = {"minute": (0, 2, *[1] * 10), "up": (-1, 0, 0, 1, 2, 3, 3, DAY, 2 * DAY, 3 * DAY)}
# What may come of events, by their kind, and a begin by its job's mode; and how often each does.
OUTCOMES = Path(__file__).parents[1].joinpath("outcomes").read_text().splitlines()
OUTCOMES = [tuple(it.split(": ")) for it in OUTCOMES]
LEAST = 20


def cron_entry(chance, line):
    said = {"line": line, "max": chance.randint(1, 5), "group": chance.choice(("g0", "g1"))}
    return {**said, "mode": chance.choice(MODES)}


def files_of(chance):
    """Returns tables and declarations of jobs that are due often, in one of two groups."""
    lines, jobs = chance.randint(2, 5), chance.randint(0, 3)
    first = chance.randint(0, 5)
    found = {
        "capacity": 64,
        "hours": [first, chance.choice((DAY, first + 10))],
        "groups": [{"name": "g0", "exclusive": True}, {"name": "g1", "exclusive": False}],
        "cron": [cron_entry(chance, at) for at in range(1, lines + 1)],
        "anacron": [{"id": f"job{at}", "max": chance.randint(1, 5)} for at in range(jobs)],
    }
    if chance.randrange(5):
        found["pass"] = chance.randint(0, 4)
    table = "".join(f"*/{chance.randint(1, 3)} * * * * a\n" for _ in range(lines))
    rows = [f"{chance.randint(1, 3)} {chance.randint(0, 3)} job{at} a\n" for at in range(jobs)]
    texts = {b"crontab": table, b"anacrontab": "".join(rows), b"declarations": json.dumps(found)}
    return {name: text.encode() for name, text in texts.items()}


class History:
    """A plan, a script so far, and the state that it leaves."""

    def __init__(self, chance, plan, counts):
        self.chance, self.plan, self.rules, self.counts = chance, plan, Rules(plan), counts
        start = Start(MIDNIGHT + chance.randint(-3, 1), bool(chance.randrange(3)))
        jobs = [job for job, it in enumerate(plan.jobs) if not it.is_cron and chance.randrange(4)]
        # Days around midnight, for some of the jobs of the anacrontab.
        stamps = {job: MIDNIGHT // DAY + chance.randint(-3, 2) for job in jobs}
        self.script, self.taken = Script(start, stamps, []), []
        self.state = first_state(self.script)

    def any_of(self, runs):
        """Returns the job and minute of one of these runs, mostly; else such as no run may have."""
        if runs and self.chance.randrange(8):
            return self.chance.choice(runs)[:2]
        job = self.chance.randrange(len(self.plan.jobs))
        return job, self.state.minute - self.chance.randint(0, 3)

    def any_event(self):
        state, chance = self.state, self.chance
        kind = chance.choices(list(WEIGHTS), list(WEIGHTS.values()))[0]
        if not state.is_up and chance.randrange(2):
            kind = "up"
        if kind == "begin" and not state.pending and chance.randrange(8):
            kind = "minute"
        likely = state.pending if kind == "begin" else []
        if kind == "catch" and state.open_pass:
            likely = state.open_pass.left
        is_likely = likely and chance.randrange(8)
        job = chance.choice(likely if is_likely else range(len(self.plan.jobs)))
        if kind in ("got", "end"):
            return Event(0, kind, *self.any_of(state.waiting if kind == "got" else state.running))
        if kind in ("minute", "up"):
            return Event(0, kind, None, state.minute + chance.choice(AHEAD[kind]))
        return Event(0, kind, None if kind == "down" else job, None)

    def add_event(self):
        """Adds an event that a script has a line for: each but an end names a job of one table."""
        event = self.any_event()
        if event.job is not None and event.kind != "end":
            if self.plan.jobs[event.job].is_cron == (event.kind == "catch"):
                return
        self.script.events.append(event)
        try:
            self.state, outcome = self.rules.take(self.state, event)
        except Refused as refused:
            outcome = str(refused)
        else:
            self.taken.append(event)
        self.counts[event.kind, outcome] += 1
        if event.kind == "begin":
            self.counts[f"begin {self.plan.jobs[event.job].mode}", outcome] += 1


def histories(chance):
    """Yields the calls that replay random scripts."""
    counts = Counter()
    for number in range(PLANS):
        files = files_of(chance)
        history = History(chance, plan_of(files), counts)
        for _ in range(EVENTS if number % LONG_ONE_IN else EVENTS_OF_A_LONG_ONE):
            history.add_event()
        text = script_text(history.plan, history.script).encode()
        yield call_of(f"history {number}", b"script", text, files)
        judged = history.script._replace(events=history.taken[: chance.randrange(JUDGED)])
        text = script_text(history.plan, judged).encode()
        call = call_of(f"judged history {number}", b"script", text, files)
        yield call._replace(words=[*call.words, b"--judge"])
    if rare := [it for it in OUTCOMES if counts[it] < LEAST]:
        raise ValueError(f"random histories hardly try {rare}")
