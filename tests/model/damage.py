"""Certificates in which one thing is spoilt that a known rule needs.

A way to spoil one raises IndexError or ValueError where the certificate has nothing of its sort.
"""
import json

from model.calendar import DAY, KINDS
from model.certificate import day_tree_said, stretches_of
from model.claims import class_in


def parts_in(value):
    """Yields a value and all parts of it, each before its own."""
    yield value
    inner = value.values() if isinstance(value, dict) else value
    for it in inner if isinstance(value, (list, dict)) else ():
        yield from parts_in(it)


def trees_in(value, name):
    """Returns all objects in a value that have a member of that name."""
    return [it for it in parts_in(value) if isinstance(it, dict) and name in it]


def take_item(chance, items):
    """Takes any item out of a list."""
    del items[chance.randrange(len(items))]


def due_lists(value):
    """Returns the pairs of a job and its due minutes, of all classes."""
    return [it for one in value["classes"] for it in one["due"]]


def without_stretch(chance, value):
    take_item(chance, stretches_of(value))


def without_entry(chance, value):
    leaves = [it["list"] for it in trees_in(stretches_of(value), "list")]
    take_item(chance, chance.choice([leaf for leaf in leaves for _ in leaf]))


def without_due_minute(chance, value):
    take_item(chance, chance.choice(due_lists(value))[1])
    for one in value["classes"]:
        one["due"] = [it for it in one["due"] if it[1]]


def with_due_minute(chance, value):
    due = chance.choice(due_lists(value))
    due[1] = sorted([*due[1], chance.choice([it for it in range(DAY) if it not in due[1]])])


def lower(chance, bounds):
    """Makes one of these bounds a minute less; each stands behind its group and its minute.

    One at midnight is less in all classes that have so much left for the group: the maker may take
    days to be alike of which some would need less.
    """
    group, minute, it = chance.choice(bounds)
    alike = [found for *key, found in bounds if key == [group, 0] and found[1] == it[1]]
    for found in [it] if minute else alike:
        found[1] -= 1


def with_lower_bound(chance, value):
    pairs = [pair for one in value["classes"] for pair in one["backlog"]]
    lower(chance, [(group, it[0], it) for group, pieces in pairs for it in pieces])
    for one in value["classes"]:
        pairs = [[group, [it for it in pieces if it[1]]] for group, pieces in one["backlog"]]
        one["backlog"] = [it for it in pairs if it[1]]


def with_lower_carry(chance, value):
    lower(chance, [(it[0], 0, it) for one in value["classes"] for it in one["carry"]])
    for one in value["classes"]:
        one["carry"] = [it for it in one["carry"] if it[1]]


def without_reach(chance, value):
    take_item(chance, value["reach"])


def with_shorter_reach(chance, value):
    due = {job for job, _ in due_lists(value)}
    chance.choice([it for it in value["reach"] if it[0] in due and it[1] > 1])[1] -= 1


def without_split(chance, value):
    """Puts one half of a split in place of both, so that a class may have other days too."""
    split = chance.choice(trees_in(value["kinds"], "split"))
    half = split[chance.choice(["yes", "no"])]
    split.clear()
    split.update(half)


def are_due_alike(plan, kinds):
    """Returns whether on the days of each class the same jobs are due then, by a day tree."""
    tree, cron = day_tree_said(kinds), [it for it in plan.jobs if it.is_cron]
    due = {(class_in(tree, it), tuple(tuple(job.due[it]) for job in cron)) for it in KINDS}
    return len(due) == len({number for number, _ in due})


# Each way with the number of the rule that it breaks.
WAYS = {without_stretch: 2, without_entry: 5, without_due_minute: 1, with_due_minute: 1}
WAYS |= {with_lower_bound: 3, without_reach: 4, with_shorter_reach: 4}
COMPACT_WAYS = {with_lower_carry: 3, without_reach: 4, without_split: 1}


def damaged(text, plan, chance):
    """Returns what was done, the spoilt text and the rule that refuses it; or None."""
    ways = COMPACT_WAYS if json.loads(text)["version"] == 3 else WAYS
    for way in chance.sample([*ways], len(ways)):
        value = json.loads(text)
        try:
            way(chance, value)
        except (IndexError, ValueError):
            continue
        if way is not without_split or not are_due_alike(plan, value["kinds"]):
            return way.__name__.replace("_", " "), json.dumps(value).encode(), ways[way]
    return None
