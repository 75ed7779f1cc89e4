"""What a history breaks first, and all histories of a tiny plan, tried out over some minutes."""
from model.calendar import DAY
from model.faults import Fault
from model.replay import Refused, Rules, State, breach, first_state
from model.script import Event, Script, Start, read_script, script_text

# More states than that aren't looked at.
MOST_STATES = 300_000
# An outage lasts up to so many minutes.
OUTAGE = 2


class TooMany(Exception):
    """There are more states than are looked at."""


def shown_by(plan, text):
    """Returns what a script breaks first, as `judge` tells it, or why it shows nothing."""
    try:
        script = read_script(text, plan)
    except Fault as fault:
        return f"a script with a fault: {fault.text().decode()}"
    rules, state, broken = Rules(plan), first_state(script), ""
    for event in script.events:
        try:
            state, reply = rules.take(state, event)
        except Refused as refused:
            return f"a history in which line {event.line} is refused: {refused}"
        if rules.late_runs(state):
            return f"a history in which a run goes on beyond its time at line {event.line}"
        broken = broken or breach(plan, state, event, reply)
    if not broken:
        return "a history that breaks nothing"
    lines = [it for it in text.splitlines(True) if not it.startswith(b"#")]
    if b"".join(lines) != script_text(plan, script).encode():
        return "a script that isn't written as scripts are"
    return broken


def events_at(state):
    """Yields the events that may come, and some that may not."""
    for run in state.running:
        yield Event(0, "end", run.job, run.named)
    if not state.is_up:
        for minute in range(state.minute, state.minute + OUTAGE + 1):
            yield Event(0, "up", None, minute)
        return
    yield Event(0, "down", None, None)
    for job in state.pending:
        yield Event(0, "begin", job, None)
    for run in state.waiting:
        yield Event(0, "got", run.job, run.named)
    if state.open_pass:
        yield Event(0, "catch", state.open_pass.left[0], None)
    yield Event(0, "minute", None, state.minute + 1)


def starts(plan, minute):
    """Returns the states in which histories begin: down, and all jobs are owed, or one of them."""
    jobs = {job for job, it in enumerate(plan.jobs) if not it.is_cron}
    owed = {frozenset(jobs), *(frozenset({it}) for it in jobs)}
    stamps = [tuple((job, minute // DAY) for job in sorted(jobs - it)) for it in owed]
    return [State(minute, False, it) for it in stamps]


def next_states(rules, state, last):
    """Yields each event that comes in time by the last minute, what it leaves, and the reply.

    The order in which runs started and wait matters to no rule, so that they are sorted.
    """
    for event in events_at(state):
        try:
            after, reply = rules.take(state, event)
        except Refused:
            continue
        if after.minute <= last and not rules.late_runs(after):
            running, waiting = tuple(sorted(after.running)), tuple(sorted(after.waiting))
            yield event, after._replace(running=running, waiting=waiting), reply


def breaking_script(plan, first, last):
    """Returns a script between two minutes that breaks the plan, none where no history does."""
    rules = Rules(plan)
    came = {state: None for state in starts(plan, first)}
    left = list(came)
    while left:
        state = left.pop()
        for event, after, reply in next_states(rules, state, last):
            if breach(plan, after, event, reply):
                events = [event]
                while came[state] is not None:
                    event, state = came[state]
                    events.insert(0, event)
                return Script(Start(state.minute, state.is_up), dict(state.stamps), events)
            if after not in came:
                came[after] = event, state
                left.append(after)
        if len(came) > MOST_STATES:
            raise TooMany
    return None


