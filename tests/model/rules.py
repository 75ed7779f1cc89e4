"""The eight rules by which a certificate is accepted, each with the first place that breaks it.

A rule is a function of a claim, and answers the text of a refusal, or nothing where it holds. The
rules are tried in their order. Minutes of a stretch are counted from the midnight before its last
day, so those of the days before are below zero.
"""
import itertools
from collections import namedtuple

from model import calendar
from model.calendar import DAY, KINDS
from model.claims import Claim

FIRST_DAY = 1  # 1970-01-02
DAYS_LOOKED_AT = 28 * 366
LAST_MINUTE = DAY * (calendar.LAST_DAY + 1) - 1

KIND = b"month %d day %d weekday %d"

# The minutes from the start up to, and without, the end, in which one run of a job may go on.
Window = namedtuple("Window", "start number end job")


def midnight_of(claim, of):
    """Returns the civil minute at which the first day begins that ends days of these classes.

    All of these days are from 1970-01-02 on.
    """
    first = FIRST_DAY + len(of) - 1
    for day in range(first, first + DAYS_LOOKED_AT):
        kinds = [calendar.kind_of(day - back) for back in reversed(range(len(of)))]
        if claim.classes_of(kinds) == of:
            return DAY * day
    return DAY * first


def minute_text(minute):
    """Returns the text of a civil minute, kept within those that there are."""
    return calendar.minute_text(min(max(minute, calendar.FIRST_MINUTE), LAST_MINUTE)).encode()


def window_text(window, midnight):
    start = minute_text(midnight + window.start)
    if window.job.is_cron:
        return b"%s due %s" % (window.job.name, start)
    return b"catch-up of %s from %s" % (window.job.name, start)


def windows_on(claim, of):
    """Returns the windows of a stretch that reach its last day, by start, then job."""
    windows = []
    for back, number in enumerate(reversed(of)):
        for job_number, job in enumerate(claim.plan.jobs):
            starts = claim.due[number][job_number] if job.is_cron else [claim.plan.hours[0]]
            for start in (it - back * DAY for it in starts):
                end = start + claim.window_length(job_number)
                if end > 0:
                    windows.append(Window(start, job_number, end, job))
    return sorted(windows, key=lambda it: (it.start, it.number))


def splits_of(tree):
    if not isinstance(tree, tuple):
        return []
    at, before, after = tree
    return [at, *splits_of(before), *splits_of(after)]


def by_minute(windows, tree=None):
    """Yields the minutes at which other windows hold or a leaf begins, each with its windows."""
    ends = [it for window in windows for it in (window.start, window.end)]
    for minute in sorted({0} | {it for it in [*ends, *splits_of(tree)] if 0 <= it < DAY}):
        yield minute, [it for it in windows if it.start <= minute < it.end]


def minutes_in_use(claim):
    """Yields stretches in use with their trees, each minute that counts, and the windows there."""
    for of, tree in claim.used:
        for minute, windows in by_minute(windows_on(claim, of), tree):
            yield of, tree, minute, windows


def places(claim, of, minute, *windows):
    """Returns the texts of windows of a stretch and of a minute of its last day."""
    midnight = midnight_of(claim, of)
    return *(window_text(it, midnight) for it in windows), minute_text(midnight + minute)


def entry_of(window):
    """Returns how a leaf lists a window: its job, how many days back, and the minute."""
    return window.number, -(window.start // DAY), window.start % DAY


def due_fault(claim):
    """1: the class of each kind has exactly its due minutes, for every cron job."""
    for kind in KINDS:
        due = claim.due[claim.class_of(kind)]
        for number in claim.cron:
            if due[number] != claim.plan.jobs[number].due[kind]:
                return b"1 ClassNotDue: " + KIND % kind
    return None


def stretch_fault(claim):
    """2: each successive kinds have the stretch of their classes."""
    listed = {of for of, _ in claim.used}
    for chain in claim.chains:
        if claim.classes_of(chain) not in listed:
            return b"2 MissingPair: " + b" then ".join(KIND % kind for kind in chain)
    return None


def step_fault(claim):
    """3: a bound falls by at most one a minute below what is left and what arrives."""
    for of, _ in claim.used:
        day, next_day = of[-2:]
        groups = [
            (it, claim.arrivals(day, it), claim.bound(day, it) + claim.bound(next_day, it)[:1])
            for it in claim.waiting_groups()
        ]
        for minute in range(DAY):
            for group, arriving, bound in groups:
                if bound[minute] + arriving[minute] - 1 > bound[minute + 1]:
                    name = claim.plan.groups[group].name.encode()
                    at = minute_text(midnight_of(claim, of) - DAY + minute)
                    return b"3 BacklogRises: group %s at %s" % (name, at)
    return None


def is_free_in_time(claim, of, number, minute):
    """Returns whether the lock is free at a later minute within the reach of a job due then."""
    group, reach = claim.plan.jobs[number].group, claim.reach[number]
    for later in range(minute + 1, min(minute + reach, len(of) * DAY - 1) + 1):
        if claim.bound(of[later // DAY], group)[later % DAY] == 0:
            return True
    return False


def reach_fault(claim):
    """4: each job that waits has a reach, within which its group's lock is free."""
    for number in claim.cron:
        job = claim.plan.jobs[number]
        if not job.waits:
            continue
        is_clear = number in claim.reach and all(
            is_free_in_time(claim, of, number, minute)
            for of, _ in claim.used
            for minute in claim.due[of[0]][number]
        )
        if not is_clear:
            return b"4 ReachTooShort: " + job.name
    return None


def leaf_at(tree, minute):
    while isinstance(tree, tuple):
        at, before, after = tree
        tree = before if minute < at else after
    return tree


def leaf_fault(claim):
    """5: where windows are listed, the leaf of each minute lists all that hold it."""
    for of, tree, minute, windows in minutes_in_use(claim):
        leaf = leaf_at(tree, minute)
        for it in windows if tree is not None else ():
            if entry_of(it) not in leaf:
                return b"5 WindowMissing: %s at %s" % places(claim, of, minute, it)
    return None


def first_clash(plan, windows):
    for number, group in enumerate(plan.groups):
        held = [it for it in windows if it.job.group == number]
        for one, other in itertools.combinations(held if group.exclusive else (), 2):
            has_cron = one.job.is_cron or other.job.is_cron
            if has_cron and not (one.job.takes_lock and other.job.takes_lock):
                return one, other
    return None


def collision_fault(claim):
    """6: no two windows of an exclusive group clash."""
    for of, _, minute, windows in minutes_in_use(claim):
        if found := first_clash(claim.plan, windows):
            return b"6 Collision: %s and %s meet at %s" % places(claim, of, minute, *found)
    return None


def load(plan, windows):
    """Returns what the windows that hold a minute weigh together at most."""
    weight = sum(it.job.weight for it in windows if it.job.is_cron and not it.job.takes_lock)
    for number in range(len(plan.groups)):
        takers = [it.job for it in windows if it.job.takes_lock and it.job.group == number]
        alone = max((it.weight for it in takers if not it.shares), default=0)
        weight += max(alone, sum(it.weight for it in takers if it.shares))
    return weight + max((it.job.weight for it in windows if not it.job.is_cron), default=0)


def capacity_fault(claim):
    """7: what may run together weighs no more than the capacity."""
    for of, _, minute, windows in minutes_in_use(claim):
        weight, most = load(claim.plan, windows), claim.plan.capacity
        if weight > most:
            return b"7 OverCapacity: %d of %d at %s" % (weight, most, *places(claim, of, minute))
    return None


def first_block(minute, windows):
    """Returns the window of a skip job that is due, and another lock taker's of its group."""
    for skip, other in itertools.product(windows, repeat=2):
        if skip.job.is_never_skipped and skip.start == minute and other != skip:
            if other.job.takes_lock and other.job.group == skip.job.group:
                return skip, other
    return None


def skip_fault(claim):
    """8: where a skip job is due, no other lock taker of its group may run."""
    for of, _, minute, windows in minutes_in_use(claim):
        if found := first_block(minute, windows):
            return b"8 SkipBlocked: %s and %s" % places(claim, of, minute, *found)[:2]
    return None


RULES = (due_fault, stretch_fault, step_fault, reach_fault)
RULES += (leaf_fault, collision_fault, capacity_fault, skip_fault)


def verdict(plan, certificate):
    """Returns what `check` prints of a plan and a certificate."""
    claim = Claim(plan, certificate)
    for rule in RULES:
        if fault := rule(claim):
            return b"refused " + fault + b"\n"
    return b"safe\n"
