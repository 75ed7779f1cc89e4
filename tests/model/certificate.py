"""Reads certificates as man/cronsafe-files.5 says, or tells their fault.

The fault of the smallest number that stands anywhere in the value is answered, so each kind of
fault is looked for in the whole certificate, in the order of the numbers. Whatever a number means,
it may be any whole one as long as shapes are read; if it is out of range is asked later.
"""
from model.calendar import DAY
from model.faults import Fault
from model.json_text import NotJson, OtherShape, is_whole, items_of, numbers_of, read_json, whole

LONGEST = 16_777_216
DEEPEST = 24
MOST_ENTRIES = 4096
MOST_CLASSES = {1: 512, 2: 512, 3: 2562}
GREATEST_REACH = {1: 1440, 2: 4320, 3: 4320}
DAYS_BACK = {1: 1, 2: 3}
STRETCH_DAYS = {1: (2,), 2: (2, 3, 4)}
JOBS, GROUPS, GREATEST_VALUE = 320, 64, 1_000_000
# The member of each version that lists stretches.
STRETCHES = {1: "pairs", 2: "stretches", 3: None}
NUMBERS_OF = {"month": range(1, 13), "day": range(1, 32), "weekday": range(7)}


class Certificate:
    """What a certificate says.

    version    1, 2 or 3
    classes    of each class its due minutes by job and its pieces of a backlog by group; in version
               3 the pieces are the carries at minute 0, and nothing is due
    kinds      the day tree: a number of a class, or (field, numbers, yes, no)
    stretches  of each stretch its classes and its minute tree: a list of entries, or (at, before,
               after); none in version 3
    reach      pairs of job and reach
    """

    def __init__(self, version, value):
        self.version = version
        self.classes = [class_said(it, version) for it in items_of(value["classes"])]
        self.kinds = day_tree_said(value["kinds"])
        self.reach = [numbers_of(it, 2) for it in items_of(value["reach"])]
        listed = items_of(stretches_of(value))
        self.stretches = [stretch_said(it, version) for it in listed]


def stretches_of(value):
    """Returns what the value of a certificate lists as its stretches; nothing in version 3."""
    return value.get(STRETCHES[value["version"]], [])


# Shapes: what a value has to be for any meaning. All else is BadShape.


def object_said(value, *names):
    """Returns the values of an object that has these members and no other."""
    if not isinstance(value, dict) or set(value) != set(names):
        raise OtherShape
    return [value[name] for name in names]


def class_said(value, version):
    """Returns the due minutes and the backlogs of a class: pairs of a job, a group and its list."""
    if version == 3:
        [carry] = object_said(value, "carry")
        pairs = [numbers_of(it, 2) for it in items_of(carry)]
        return [], [(group, [[0, minutes]]) for group, minutes in pairs]
    jobs, groups = (
        [items_of(it, 2) for it in items_of(of)] for of in object_said(value, "due", "backlog")
    )
    jobs = [(whole(job), numbers_of(minutes)) for job, minutes in jobs]
    groups = [(whole(group), items_of(pieces)) for group, pieces in groups]
    return jobs, [(group, [numbers_of(it, 2) for it in pieces]) for group, pieces in groups]


def day_tree_said(value):
    if isinstance(value, dict) and "class" in value:
        return whole(*object_said(value, "class"))
    field, numbers, yes, no = object_said(value, "split", "in", "yes", "no")
    if not isinstance(field, str) or field not in NUMBERS_OF:
        raise OtherShape
    return field, numbers_of(numbers), day_tree_said(yes), day_tree_said(no)


def minute_tree_said(value):
    if isinstance(value, dict) and "list" in value:
        return [tuple(numbers_of(it, 3)) for it in items_of(*object_said(value, "list"))]
    at, before, after = object_said(value, "at", "before", "after")
    return whole(at), minute_tree_said(before), minute_tree_said(after)


def stretch_said(value, version):
    of, tree = object_said(value, "of", "tree")
    classes = numbers_of(of)
    if len(classes) not in STRETCH_DAYS[version]:
        raise OtherShape
    return tuple(classes), minute_tree_said(tree)


# Rules: what stands in a certificate whose shape is right.


def rises(numbers):
    return all(one < next_one for one, next_one in zip(numbers, numbers[1:]))


def are_within(numbers, first, last):
    return all(first <= it <= last for it in numbers)


def depth(tree):
    """Returns the most splits on a way from the root of a tree of either sort to a leaf."""
    return 1 + max(depth(half) for half in tree[-2:]) if isinstance(tree, tuple) else 0


def leaves(tree):
    """Returns the leaves of a tree of either sort, from left to right."""
    return [it for half in tree[-2:] for it in leaves(half)] if isinstance(tree, tuple) else [tree]


def is_day_tree_split_well(tree, left):
    """Returns whether each split has rising numbers that are left there, one at least, not all."""
    if not isinstance(tree, tuple):
        return True
    field, numbers, yes, no = tree
    others = [it for it in left[field] if it not in numbers]
    if not numbers or not rises(numbers) or not set(numbers) <= set(left[field]) or not others:
        return False
    halves = (yes, numbers), (no, others)
    return all(is_day_tree_split_well(half, {**left, field: its}) for half, its in halves)


def is_minute_tree_split_well(tree, first, end):
    """Returns whether each split leaves minutes on both of its sides."""
    if not isinstance(tree, tuple):
        return True
    at, before, after = tree
    halves = (before, first, at), (after, at, end)
    return first < at < end and all(is_minute_tree_split_well(*it) for it in halves)


def trees_of(it):
    return [it.kinds, *(tree for _, tree in it.stretches)]


def has_bad_split(it):
    kinds, *others = trees_of(it)
    are_split_well = (is_minute_tree_split_well(tree, 0, DAY) for tree in others)
    return not (is_day_tree_split_well(kinds, NUMBERS_OF) and all(are_split_well))


def has_bad_class(it):
    named = leaves(it.kinds) + [number for of, _ in it.stretches for number in of]
    order = [(len(of), of) for of, _ in it.stretches]
    return not are_within(named, 0, len(it.classes) - 1) or not rises(order)


def rising_lists(it):
    """Yields the lists of numbers that have to rise, each with the greatest that one may be."""
    yield [job for job, _ in it.reach], JOBS - 1
    for due, backlogs in it.classes:
        yield [job for job, _ in due], JOBS - 1
        yield [group for group, _ in backlogs], GROUPS - 1
        yield from ((minutes, DAY - 1) for _, minutes in due)
        yield from (([at for at, _ in pieces], DAY - 1) for _, pieces in backlogs)


def has_bad_entry(it):
    if not all(rises(found) and are_within(found, 0, most) for found, most in rising_lists(it)):
        return True
    values = [value for _, found in it.classes for _, pieces in found for _, value in pieces]
    reaches = [reach for _, reach in it.reach]
    is_due_at_none = any(not minutes for due, _ in it.classes for _, minutes in due)
    is_valued_well = not is_due_at_none and are_within(values, 1, GREATEST_VALUE)
    if not is_valued_well or not are_within(reaches, 1, GREATEST_REACH[it.version]):
        return True
    return not all(
        0 <= job < JOBS and 0 <= back <= DAYS_BACK[it.version] and 0 <= minute < DAY
        for leaf in leaves_of(it)
        for job, back, minute in leaf
    )


def leaves_of(it):
    """Returns the lists of the minute trees."""
    return [leaf for _, tree in it.stretches for leaf in leaves(tree)]


RULES = (
    ("TooDeep", lambda it: any(depth(tree) > DEEPEST for tree in trees_of(it))),
    ("BadSplit", has_bad_split),
    ("BadClass", has_bad_class),
    ("BadEntry", has_bad_entry),
    ("TooManyClasses", lambda it: len(it.classes) > MOST_CLASSES[it.version]),
    ("LeafTooLong", lambda it: any(len(leaf) > MOST_ENTRIES for leaf in leaves_of(it))),
)


def certificate_of(value):
    """Returns the certificate of a JSON value whose shape is right."""
    if not isinstance(value, dict) or not is_whole(value.get("version")):
        raise OtherShape
    version = value["version"]
    if version not in (1, 2, 3):
        raise Fault("certificate", "BadVersion")
    object_said(value, "version", "classes", "kinds", "reach", *filter(None, [STRETCHES[version]]))
    return Certificate(version, value)


def read(text):
    """Returns the certificate that bytes stand for; raises its fault."""
    if len(text) > LONGEST:
        raise Fault("certificate", "TooLong")
    try:
        certificate = certificate_of(read_json(text))
    except NotJson:
        raise Fault("certificate", "NotJson") from None
    except OtherShape:
        raise Fault("certificate", "BadShape") from None
    for name, stands_in in RULES:
        if stands_in(certificate):
            raise Fault("certificate", name)
    return certificate
