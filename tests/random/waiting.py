"""The windows of runs that may wait for the lock of a group, of all due runs (minute, job)."""
from collections import defaultdict

from model.calendar import DAY

# no reach of a certificate is longer
MOST = 4320


def exact_windows(plan, runs):
    """How late each run can end, where none shares the lock.

    A run can be put off by all that hold the lock one after the other, each to the last minute of
    its time; those of runs that are due before it, and of any due meanwhile. A run of mode try
    counts as if it waited, so that where there is one no run ends later, but some may end earlier.
    """
    after, busy = [], -1
    for due, job in runs:
        busy = max(busy, due) + plan.jobs[job].max - 1
        after.append(busy)
    found = []
    for own in {plan.jobs[job].max - 1 for _, job in runs}:
        # from the back: the place up to which a run of this length may be put off
        last = len(runs) - 1
        for place in range(len(runs) - 1, -1, -1):
            if place < len(runs) - 1 and runs[place + 1][0] > after[place] - own:
                last = place
            due, job = runs[place]
            if plan.jobs[job].max - 1 == own:
                waits = plan.jobs[job].waits
                start = max(due, after[last] - own) if waits else due
                found.append((job, due, start + own + 1))
    return found


def windows_by_waiters(plan, runs):
    """The same, where runs of mode try put off no others: so late each run can end, if not later.

    They begin when they are due, as those that hold the lock may end before, or end at once.
    """
    tried = [(due, job) for due, job in runs if plan.jobs[job].may_be_skipped]
    others = [(due, job) for due, job in runs if not plan.jobs[job].may_be_skipped]
    own = [(job, due, due + plan.jobs[job].max) for due, job in tried]
    return exact_windows(plan, others) + own


def clear_minutes(plan, runs):
    """For each run the first minute after it at which nothing is left to do, by the least bound.

    What is left falls by one a minute, and each due run brings its declared time.
    """
    found, chain, clear = [], 0, -1
    for due, job in runs:
        if due >= clear:
            found += [clear] * chain
            chain, clear = 0, due
        chain += 1
        clear += plan.jobs[job].max
    return found + [clear] * chain


def least_windows(plan, runs, at_midnight):
    """From the due minute for the least reach that a certificate may give; None where none may.

    `at_midnight`: how many minutes longer a reach is where nothing is left exactly at a midnight,
    but not before. A certificate may need one, as its stretch may end at that midnight.
    """
    reach = defaultdict(int)
    for (due, job), clear in zip(runs, clear_minutes(plan, runs)):
        its = plan.jobs[job]
        longest = clear - due + (at_midnight if clear % DAY == 0 else 0)
        reach[job] = max(reach[job], longest if its.waits else its.max)
    if any(it > MOST for it in reach.values()):
        return None
    return [(job, due, due + reach[job]) for due, job in runs]
