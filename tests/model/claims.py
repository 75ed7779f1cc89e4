"""What a certificate stands for: classes, stretches and reaches of days, as the rules see them.

What versions 1 and 2 list, the checker works out of version 3 from the plan: the due minutes of a
class are those of its first kind, its bounds begin with the carries and follow what arrives, and
the stretches are the lists of classes that successive kinds have.
"""
import functools

from model import calendar
from model.calendar import DAY, KINDS
from model.certificate import GREATEST_VALUE

FIRST_LENGTH, LAST_LENGTH = 2, 4


def kinds_after(kind):
    """Returns the kinds that can follow one; 29 February comes before 1 March."""
    weekday = (kind.weekday + 1) % 7
    month_after = kind.month % 12 + 1
    first = calendar.Kind(month_after, 1, weekday)
    next_one = calendar.Kind(kind.month, kind.day + 1, weekday)
    if kind.month == 2 and kind.day == 28:
        return [next_one, first]
    return [next_one] if kind.day < calendar.DAYS_IN[kind.month] else [first]


@functools.cache
def chains(length):
    """Returns the lists of so many kinds of which each can follow the one before, in order."""
    found = [[kind] for kind in KINDS]
    for _ in range(length - 1):
        found = [[*chain, kind] for chain in found for kind in kinds_after(chain[-1])]
    return found


def class_in(tree, kind):
    """Returns the class that a day tree gives a kind."""
    while isinstance(tree, tuple):
        field, numbers, yes, no = tree
        tree = yes if getattr(kind, field) in numbers else no
    return tree


def bound_of(pieces):
    """Returns the bound at each minute: the value of the last piece, less the minutes since."""
    bound, value, at = [], 0, dict(map(tuple, pieces))
    for minute in range(DAY):
        value = at[minute] if minute in at else max(0, value - 1)
        bound.append(value)
    return bound


def bound_that_follows(carry, arrivals):
    """Returns the bound that begins with a carry and follows what arrives at each minute."""
    bound = [carry]
    for minute in range(DAY - 1):
        bound.append(min(max(0, bound[minute] + arrivals[minute] - 1), GREATEST_VALUE))
    return bound


class Claim:
    """What is judged of a plan: a certificate's classes, stretches and reaches.

    due      of each class the due minutes of each cron job
    reach    the reaches that the certificate gives, by job
    length   of how many days the stretches have to be
    used     the stretches in use with their trees (None: nothing is listed), in the order of places
    """

    def __init__(self, plan, certificate):
        self.plan, self.certificate = plan, certificate
        self.cron = [number for number, it in enumerate(plan.jobs) if it.is_cron]
        self.classes_of_kinds = {kind: class_in(certificate.kinds, kind) for kind in KINDS}
        self.reach = dict(map(tuple, certificate.reach))
        self.length = self.least_length()
        self.chains = chains(self.length)
        self.due = self.due_worked_out() if certificate.version == 3 else self.due_listed()
        self.bounds, self.used = {}, self.stretches_in_use()

    def class_of(self, kind):
        return self.classes_of_kinds[kind]

    def classes_of(self, kinds):
        return tuple(self.classes_of_kinds[kind] for kind in kinds)

    def window_length(self, number):
        job = self.plan.jobs[number]
        if not job.is_cron:
            first, end = self.plan.hours
            return end - 1 - first + job.max
        return self.reach.get(number, job.max) if job.waits else job.max

    def least_length(self):
        """Returns the smallest of 2, 3 and 4 days after which no window ends that begins on one."""
        end = 0
        for number, job in enumerate(self.plan.jobs):
            due = job.due.values() if job.is_cron else [self.plan.hours[:1]]
            starts = {minute for minutes in due for minute in minutes}
            end = max([end, *(start + self.window_length(number) for start in starts)])
        return next(it for it in range(FIRST_LENGTH, LAST_LENGTH + 1) if end <= it * DAY)

    def due_listed(self):
        return [
            {number: dict(map(tuple, due)).get(number, []) for number in self.cron}
            for due, _ in self.certificate.classes
        ]

    def due_worked_out(self):
        """Returns the due minutes of each class of version 3: those of its first kind, if any."""
        found = [{number: [] for number in self.cron} for _ in self.certificate.classes]
        for kind in reversed(KINDS):
            found[self.class_of(kind)] = {it: self.plan.jobs[it].due[kind] for it in self.cron}
        return found

    def stretches_in_use(self):
        """Returns those stretches that some successive kinds of days have, with their trees."""
        had = list(dict.fromkeys(self.classes_of(chain) for chain in self.chains))
        if self.certificate.version == 3:
            return [(of, None) for of in had]
        met = set(had)
        return [(of, tree) for of, tree in self.certificate.stretches if of in met]

    def waiting_groups(self):
        return sorted({job.group for job in self.plan.jobs if job.waits})

    def arrivals(self, number, group):
        """Returns the longest times that arrive for a group's lock at each minute of a class."""
        arriving = [0] * DAY
        for job in self.cron:
            it = self.plan.jobs[job]
            if it.takes_lock and it.group == group:
                for minute in self.due[number][job]:
                    arriving[minute] += it.max
        return arriving

    def bound(self, number, group):
        """Returns the bound of a group at each minute of a class."""
        if (number, group) not in self.bounds:
            pieces = dict(map(tuple, self.certificate.classes[number][1])).get(group, [])
            if self.certificate.version == 3:
                carry = pieces[0][1] if pieces else 0
                found = bound_that_follows(carry, self.arrivals(number, group))
            else:
                found = bound_of(pieces)
            self.bounds[number, group] = found
        return self.bounds[number, group]
