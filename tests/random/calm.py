"""Whether a plan is safe, by its windows over 28 years of days, looked at minute by minute.

A window is what a run may occupy: from its due minute for its declared time; of catch-up from the
start of its hours to their last minute plus the declared time; of a run that waits for a lock for
as long as that may last. Where no job waits, one history fills all windows that hold a minute, so
the plan is unsafe exactly where some minute isn't calm.
"""
from collections import defaultdict

from model.calendar import DAY, day_of_text, day_text, kind_of
from model.rules import Window, by_minute, first_block, first_clash, load
from waiting import exact_windows, least_windows, windows_by_waiters

# 28 years, in which each kind of day comes after each that it can follow, and some days before.
FIRST, LAST = day_of_text(b"2023-12-22"), day_of_text(b"2052-01-11")
# No run begun on a day goes on later than three days after it.
BACK = 3
# Where runs may wait for longer, those that are due on the days after hold what comes later.
LONGEST_WAIT = 12


class Calendar:
    """The days, each with the cron jobs that are due then: their numbers, and where `times` are."""

    def __init__(self, plan):
        self.plan, days, known = plan, range(FIRST, LAST), {}
        kinds, due = [kind_of(day) for day in days], {}
        for kind in set(kinds):
            its = [(at, tuple(it.due[kind])) for at, it in enumerate(plan.jobs) if it.is_cron]
            due[kind] = tuple((at, known.setdefault(it, len(known))) for at, it in its if it)
        self.due, self.times = {day: due[kind] for day, kind in zip(days, kinds)}, [*known]

    def minutes(self, day, place):
        """Returns the times at a place, on a day, since 1970."""
        return [day * DAY + it for it in self.times[place]]


def fault_of_day(plan, windows):
    """Returns what isn't calm at the first minute of a day that isn't; nothing on a calm day."""
    for minute, held in by_minute(windows):
        clash, block, weight = first_clash(plan, held), first_block(minute, held), load(plan, held)
        names = [it.job.name.decode() for it in clash or block or ()]
        at = f"at {minute // 60:02}:{minute % 60:02}"
        if clash:
            return f"{at} runs of {names[0]} and {names[1]} may meet"
        if weight > plan.capacity:
            return f"{at} the load may be {weight} of {plan.capacity}"
        if block:
            return f"{at} {names[1]} may bar {names[0]}"
    return ""


def waiting_windows(plan, windows):
    """Returns by day the windows of runs of groups that wait, as that day sees them."""
    # Of those of a job that the day sees alike one is enough, unless they share a lock and add up.
    alone, shared = defaultdict(set), defaultdict(list)
    for number, start, end in windows:
        first, job = start // DAY, plan.jobs[number]
        for day in range(first, min((end - 1) // DAY, first + LONGEST_WAIT) + 1):
            seen = max(start - day * DAY, -1), number, min(end - day * DAY, DAY)
            if job.shares:
                shared[day].append(Window(*seen, job))
            else:
                alone[day].add(Window(*seen, job))
    return {
        day: tuple(sorted([*alone[day], *shared[day]], key=lambda it: it[:3]))
        for day in {*alone, *shared}
    }


def catch_up_windows(plan):
    first, end = plan.hours
    for number, job in enumerate(plan.jobs):
        for start in range(first - DAY * (BACK + 1), first + 1, DAY) if not job.is_cron else ():
            yield Window(start, number, start + end - 1 - first + job.max, job)


def waiting_groups(plan):
    return {it.group for it in plan.jobs if it.waits}


def cron_windows(calendar, day, groups):
    """Yields the windows of jobs due on a day or before it, but for lock takers of groups."""
    for back in range(BACK + 1):
        for number, place in calendar.due[day - back]:
            job = calendar.plan.jobs[number]
            if not (job.takes_lock and job.group in groups):
                for minute in calendar.minutes(day - back, place):
                    start = minute - day * DAY
                    yield Window(start, number, start + job.max, job)


def fault_of(plan, calendar, windows=None):
    """Returns what isn't calm on some day; nothing where all are calm.

    `windows` are those of the groups in which runs may wait; without them all windows are as long
    as if no run waited.
    """
    waiting = {} if windows is None else waiting_windows(plan, windows)
    groups = set() if windows is None else waiting_groups(plan)
    known = {}
    for day in range(FIRST + BACK + 1, LAST):
        due = tuple(calendar.due[day - back] for back in range(BACK + 1))
        key = due, waiting.get(day, ())
        if key not in known:
            held = [*waiting.get(day, ()), *catch_up_windows(plan)]
            known[key] = fault_of_day(plan, [*held, *cron_windows(calendar, day, groups)])
        if known[key]:
            return f"on {day_text(day)} {known[key]}"
    return ""


def windows_by(windows_of, plan, calendar, **more):
    """Returns the windows of the groups in which runs may wait; None where one group has none."""
    found = []
    for group in waiting_groups(plan):
        takers = [at for at, it in enumerate(plan.jobs) if it.takes_lock and it.group == group]
        runs = []
        for day, due in calendar.due.items():
            numbers = [it for it in due if it[0] in takers]
            runs += sorted((at, it) for it, place in numbers for at in calendar.minutes(day, place))
        windows = windows_of(plan, runs, **more)
        if windows is None:
            return None
        found += windows
    return found


def fault_by_bounds(plan, calendar, at_midnight):
    least = windows_by(least_windows, plan, calendar, at_midnight=at_midnight)
    return "a run may wait for too long" if least is None else fault_of(plan, calendar, least)


def allowed_answers(plan):
    """Returns the answers that may be given of a plan, and why."""
    calendar = Calendar(plan)
    fault = fault_of(plan, calendar)
    if fault:
        return {"unsafe"}, fault
    if not waiting_groups(plan):
        return {"safe"}, "each minute is calm"
    fault = fault_by_bounds(plan, calendar, at_midnight=0)
    if not fault:
        fault = fault_by_bounds(plan, calendar, at_midnight=1)
        if not fault:
            return {"safe"}, "each minute is calm by the least bounds"
        return {"safe", "unknown"}, f"a minute after the least bounds {fault}"
    if any(it.shares for it in plan.jobs):
        return {"unsafe", "unknown"}, f"by the least bounds {fault}"
    exact = fault_of(plan, calendar, windows_by(exact_windows, plan, calendar))
    if not exact:
        return {"unknown"}, f"by the least bounds alone {fault}"
    if not fault_of(plan, calendar, windows_by(windows_by_waiters, plan, calendar)):
        return {"unsafe", "unknown"}, f"by runs that may be skipped {exact}"
    return {"unsafe"}, exact
