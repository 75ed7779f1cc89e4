"""The rules of histories, and what `cronsafe replay` prints: each event of a script in its turn,
and what the script breaks.

The rules are those of docs/DEFINITIONS.md. Of refusals that document says only that one comes
first; their numbers and names are those of the worked cases, and the smallest is told.
"""
import functools
from collections import namedtuple
from itertools import combinations
from typing import NamedTuple

from model.anacrontab import MONTHLY
from model.calendar import DAY, date_of, kind_of, minute_text

REFUSALS = "NotUp AlreadyUp WrongMinute NotSettled NotDue LockHeld NotWaiting NotRunning".split()
REFUSALS += ["NotCatchable"]

# A run by its job and the minute that names it; it started in the other minute.
Run = namedtuple("Run", "job named started")
# A pass that is open: the minute in which it began, and the jobs that it has still to start.
Pass = namedtuple("Pass", "minute left")


class Refused(Exception):
    """The name of the refusal of an event."""


class State(NamedTuple):
    """What the events so far have left."""

    minute: int
    is_up: bool
    # The jobs of the anacrontab that have a stamp, each with its day.
    stamps: tuple = ()
    # The jobs that are due now and haven't begun, and the runs that wait or go on.
    pending: tuple = ()
    waiting: tuple = ()
    running: tuple = ()
    open_pass: Pass = None


def first_state(script):
    return State(*script.start, tuple(sorted(script.stamps.items())))


def is_owed(period, stamp, day):
    """Returns whether an anacron job with that stamp, or none, is due on a day."""
    if stamp is None or stamp > day:
        return True
    if period == MONTHLY:
        return date_of(stamp).replace(day=1) != date_of(day).replace(day=1)
    return day - stamp >= period


def without(runs, run):
    return tuple(it for it in runs if it is not run)


class Rules:
    """Which event may come in a state of a plan, and what it leaves.

    A function of an event's kind returns the state that it leaves and the reply, or raises Refused.
    """

    def __init__(self, plan):
        self.plan, self.jobs = plan, plan.jobs
        self.due_at = functools.cache(self.due_at)

    def take(self, state, event):
        if event.kind not in ("up", "end") and not state.is_up:
            raise Refused("NotUp")
        return getattr(self, event.kind)(state, event)

    def due_at(self, minute):
        kind, minute, jobs = kind_of(minute // DAY), minute % DAY, enumerate(self.jobs)
        return tuple(job for job, it in jobs if it.is_cron and minute in it.due_on(kind))

    def is_free(self, state, job):
        """Returns whether a job gets its lock: it takes none, or it is free, or all share it."""
        of = self.jobs[job]
        others = [self.jobs[it.job] for it in state.running]
        others = [it for it in others if it.takes_lock and it.group == of.group]
        return not of.takes_lock or all(of.shares and it.shares for it in others)

    def late_runs(self, state):
        """Returns the runs that go on past their longest times."""
        return [it for it in state.running if state.minute >= it.started + self.jobs[it.job].max]

    def with_pass(self, state):
        """Returns a state with a pass, unless none is owed: by delay, then line."""
        stamps, busy, owed = dict(state.stamps), {it.job for it in state.running}, []
        for job, it in enumerate(self.jobs):
            is_idle = not it.is_cron and job not in busy
            if is_idle and is_owed(it.of.period, stamps.get(job), state.minute // DAY):
                owed.append((it.of.delay, it.of.line, job))
        if state.open_pass or not owed:
            return state
        return state._replace(open_pass=Pass(state.minute, tuple(it[-1] for it in sorted(owed))))

    def up(self, state, event):
        if state.is_up:
            raise Refused("AlreadyUp")
        if event.minute < state.minute:
            raise Refused("WrongMinute")
        return self.with_pass(state._replace(minute=event.minute, is_up=True)), "came"

    def down(self, state, _):
        return state._replace(is_up=False, pending=(), waiting=(), open_pass=None), "went"

    def minute(self, state, event):
        """Takes the clock a minute on, where nothing is left to do in the present one."""
        if event.minute != state.minute + 1:
            raise Refused("WrongMinute")
        if state.pending or any(self.is_free(state, it.job) for it in state.waiting):
            raise Refused("NotSettled")
        state = state._replace(minute=event.minute, pending=self.due_at(event.minute))
        is_pass = event.minute % DAY == self.plan.pass_minute
        return self.with_pass(state) if is_pass else state, "clock"

    def begin(self, state, event):
        if event.job not in state.pending:
            raise Refused("NotDue")
        pending = tuple(it for it in state.pending if it != event.job)
        state, run = state._replace(pending=pending), Run(event.job, state.minute, state.minute)
        if self.is_free(state, event.job):
            return state._replace(running=(*state.running, run)), "started"
        if self.jobs[event.job].waits:
            return state._replace(waiting=(*state.waiting, run)), "waiting"
        return state, "skipped"

    def got(self, state, event):
        """Gives the lock to the waiting run that was due at that minute."""
        for run in state.waiting:
            if (run.job, run.named) == (event.job, event.minute):
                if not self.is_free(state, run.job):
                    raise Refused("LockHeld")
                running = (*state.running, run._replace(started=state.minute))
                waiting = without(state.waiting, run)
                return state._replace(waiting=waiting, running=running), "started"
        raise Refused("NotWaiting")

    def catch(self, state, event):
        """Starts the next job of the pass: they go one after the other, each after its delay."""
        if state.open_pass is None or state.open_pass.left[0] != event.job:
            raise Refused("NotCatchable")
        (first, past), (begun, left) = self.plan.hours, state.open_pass
        is_time = state.minute >= begun + self.jobs[event.job].of.delay
        is_alone = all(self.jobs[it.job].is_cron for it in state.running)
        if not (is_alone and is_time and first <= state.minute % DAY < past):
            raise Refused("NotCatchable")
        running = (*state.running, Run(event.job, state.minute, state.minute))
        rest = Pass(begun, left[1:]) if left[1:] else None
        return state._replace(running=running, open_pass=rest), "started"

    def end(self, state, event):
        """Ends a run, whether the daemon is up or not; the stamp is the day of its start."""
        for run in state.running:
            if (run.job, run.named) == (event.job, event.minute):
                stamps = dict(state.stamps)
                if not self.jobs[run.job].is_cron:
                    stamps[run.job] = run.started // DAY
                rest = {"running": without(state.running, run)}
                after = state._replace(stamps=tuple(sorted(stamps.items())), **rest)
                return after, "ended late" if run in self.late_runs(state) else "ended in time"
        raise Refused("NotRunning")


def run_text(plan, job, named):
    of = plan.jobs[job]
    text = "{} due {}" if of.is_cron else "job {} at {}"
    return text.format(of.name.decode(), minute_text(named))


def may_meet(plan, one, other):
    is_exclusive = one.group is not None and plan.groups[one.group].exclusive
    return one.group != other.group or not is_exclusive or (one.shares and other.shares)


def breach(plan, state, event, reply):
    """Returns what the state that an event leaves breaks, as `judge` tells it, if anything."""
    for one, other in combinations(state.running, 2):
        if not may_meet(plan, plan.jobs[one.job], plan.jobs[other.job]):
            runs = " and ".join(run_text(plan, it.job, it.named) for it in (one, other))
            return f"unsafe: {runs} run together"
    load = sum(plan.jobs[it.job].weight for it in state.running)
    if load > plan.capacity:
        return f"unsafe: load {load} of {plan.capacity}"
    if reply == "skipped" and plan.jobs[event.job].is_never_skipped:
        return f"unsafe: {run_text(plan, event.job, state.minute)} is skipped"
    return ""


def verdict_line(plan, script):
    """Returns what is said of a script, and whether something goes wrong in it."""
    rules, state, broken = Rules(plan), first_state(script), ""
    for event in script.events:
        try:
            state, reply = rules.take(state, event)
        except Refused:
            return "", True
        if rules.late_runs(state):
            late = f"late: script line {event.line} comes when a run has passed its declared time"
            return (broken or late) + "\n", True
        broken = broken or breach(plan, state, event, reply)
    return (broken or "safe so far") + "\n", bool(broken)


def replay_answer(plan, script, is_judged):
    """Returns status and text of `replay`."""
    rules, state, lines, status = Rules(plan), first_state(script), [], 0
    for event in script.events:
        try:
            state, reply = rules.take(state, event)
        except Refused as refused:
            status = 1
            reply = f"refused {REFUSALS.index(str(refused)) + 1} {refused}"
        lines.append(f"{event.line}: {reply}\n")
    told = "%s %s, pending %d, waiting %d, running %d\n"
    counts = [len(it) for it in (state.pending, state.waiting, state.running)]
    lines.append(told % ("up" if state.is_up else "down", minute_text(state.minute), *counts))
    if is_judged:
        line, is_wrong = verdict_line(plan, script)
        lines.append(line)
        status = int(status or is_wrong)
    return status, "".join(lines).encode()
