"""The bytes of declarations, joined with two tables to a plan, or their first fault."""
import functools
from collections import namedtuple

from model.anacrontab import read_anacrontab
from model.calendar import DAY, KINDS, due_minutes, is_day_due, minutes_of
from model.crontab import Command, read_crontab
from model.faults import Fault
from model.json_text import NotJson, OtherShape, doubled_member, items_of, numbers_of, read_json
from model.json_text import whole
from model.nights import Zone, is_usable, starts_on

MODES = ("none", "skip", "try", "wait", "shared")
MOST_GROUPS = 64
GREATEST_MAX = 4_320
GREATEST_WEIGHT = 64
GREATEST_CAPACITY = 64
GREATEST_OFFSET = 1_439

# What the bytes say; no default is none.
Declared = namedtuple(
    "Declared", "capacity offset zone hours pass_minute default groups cron anacron left_out"
)
Group = namedtuple("Group", "name exclusive")
Default = namedtuple("Default", "max weight")
# How a line of the crontab is named: by its number, by its command, or by both, and perhaps by its
# schedule, a list of one as a command has it.
LineName = namedtuple("LineName", "number command when")
# `job` is the name of a line; of an anacron entry an identifier, and `mode` is whether it has one.
# `guess` is whether max is a draft's guess. `parts` are what a command runs, if that is known; no
# anacron entry has any.
Entry = namedtuple("Entry", "job max weight group guess mode parts name", defaults=[(), None])
Part = namedtuple("Part", "name max")
# Tables without the lines that are left out, whose numbers rise; the jobs of a plan, of which so
# many have the default, are those of the crontab first; a member that an object has twice; how many
# entries are a guess; the first line whose command others have too, and whose entry tells no schedule.
PLAN = "crontab anacrontab jobs groups capacity hours pass_minute offset"
PLAN += " left_out defaulted doubled guessed untimed zone"
Plan = namedtuple("Plan", PLAN, defaults=[[], 0, None, 0, None, None])


class Job:
    """A job of a plan: `of` is the command or the job of its table, `zone` that of the plan."""

    def __init__(self, of, longest, weight=1, group=None, mode="none", zone=None):
        self.of, self.max, self.weight, self.group, self.mode = of, longest, weight, group, mode
        self.zone = zone
        self.is_cron = isinstance(of, Command)
        self.name = b"line %d" % of.line if self.is_cron else of.identifier
        self.takes_lock, self.shares = mode != "none", mode == "shared"
        self.waits = mode in ("wait", "shared")
        self.is_never_skipped, self.may_be_skipped = mode == "skip", mode == "try"

    @functools.cached_property
    def due(self):
        """The due minutes of a command on each kind of day."""
        schedule, minutes = self.of.schedule, minutes_of(self.of.schedule)
        if self.zone is not None:
            starts = starts_on(self.zone, schedule)
            return {kind: [*dict.fromkeys(starts[kind])] for kind in KINDS}
        return {kind: minutes if is_day_due(schedule, kind) else [] for kind in KINDS}

    def due_on(self, kind):
        return due_minutes(self.of.schedule, kind) if self.zone is None else self.due[kind]


def such_that(is_right):
    """Returns the reader of values that a test is true of."""

    def read(value):
        if not is_right(value):
            raise OtherShape
        return value

    return read


boolean = such_that(lambda value: isinstance(value, bool))
text = such_that(lambda value: isinstance(value, str))
mode = such_that(lambda value: isinstance(value, str) and value in MODES)
offset = such_that(lambda value: -GREATEST_OFFSET <= whole(value) <= GREATEST_OFFSET)


def when(value):
    """Reads a schedule as a crontab has it in front of a command."""
    line = text(value).encode() + b" x"
    try:
        commands = read_crontab(line).commands
    except Fault:
        raise OtherShape from None
    if b"\n" in line or [it.text for it in commands] != [b"x"]:
        raise OtherShape
    return [commands[0].schedule]


def list_of(read):
    """Returns the reader of lists whose items it reads."""
    return lambda value: [read(item) for item in items_of(value)]


# The members of each kind of object: how each is read, and what it is where it is absent.
REQUIRED = object()
GROUP = {"name": (text, REQUIRED), "exclusive": (boolean, REQUIRED)}
DEFAULT = {"max": (whole, REQUIRED), "weight": (whole, 1)}
LINE = {"line": (whole, None), "command": (text, None), "when": (when, None)}
COMMON = {**DEFAULT, "group": (text, None), "guess": (boolean, False)}
PART = {"name": (text, REQUIRED), "max": (whole, REQUIRED)}
ANACRON = {"id": (text, REQUIRED), "mode": (lambda _: True, False), **COMMON}


def members(value, shape):
    """Returns the members of an object as that shape has them; any may have a note besides."""
    if not isinstance(value, dict) or any(name not in (*shape, "note") for name in value):
        raise OtherShape
    text(value.get("note", ""))
    found = {}
    for name, (read, default) in shape.items():
        if name not in value and default is REQUIRED:
            raise OtherShape
        found[name] = read(value[name]) if name in value else default
    return found


def object_of(made, shape):
    """Returns the reader of objects of a shape, of whose members something is made."""
    return lambda value: made(**members(value, shape))


CRON = {**LINE, "mode": (mode, "none"), "parts": (list_of(object_of(Part, PART)), []), **COMMON}
CRON["name"] = (text, None)


def name_in(found):
    """Takes the name of a line out of members, which have its number or its command."""
    name = LineName(found.pop("line"), found.pop("command"), found.pop("when"))
    if name[:2] == (None, None):
        raise OtherShape
    return name


def cron_entry(value):
    found = members(value, CRON)
    return Entry(name_in(found), **found)


def anacron_entry(value):
    found = members(value, ANACRON)
    return Entry(found.pop("id"), **found)


DECLARATIONS = {
    "capacity": (whole, REQUIRED),
    "offset": (offset, 0),
    "zone": (text, None),
    "hours": (lambda value: tuple(numbers_of(value, 2)), (0, DAY)),
    "pass": (whole, None),
    "default": (object_of(Default, DEFAULT), None),
    "groups": (list_of(object_of(Group, GROUP)), []),
    "cron": (list_of(cron_entry), []),
    "anacron": (list_of(anacron_entry), []),
    "left_out": (list_of(lambda value: name_in(members(value, LINE))), []),
}


def declared_of(value):
    found = members(value, DECLARATIONS)
    if "offset" in value and "zone" in value:
        raise OtherShape
    return Declared(pass_minute=found.pop("pass"), **found)


def identifier_text(job):
    return job.identifier.decode("utf-8")


def places(word, are_wrong):
    """Returns the places, from 1, at which something is wrong."""
    return [word + b" %d" % at for at, is_wrong in enumerate(are_wrong, 1) if is_wrong]


def second_times(word, keys, taken=()):
    """Returns the places of keys that are taken or come earlier too; none is no key."""
    is_again = (key is not None and key in [*taken, *keys[:at]] for at, key in enumerate(keys))
    return places(word, is_again)


def faults_alone(declared):
    """Yields the faults after NotJson and BadShape, by number, each with the places of it."""
    groups = [it.name for it in declared.groups]
    twice = second_times(b"group", groups)
    twice += second_times(b"cron", [it.job.number for it in declared.cron])
    yield "TwiceDeclared", twice + second_times(b"anacron", [it.job for it in declared.anacron])

    def of_entries(is_wrong):
        """Returns the places of entries that are wrong, of cron and then of anacron."""
        of_cron = places(b"cron", map(is_wrong, declared.cron))
        return of_cron + places(b"anacron", map(is_wrong, declared.anacron))

    def of_numbers(is_wrong):
        """Returns the same, and then no place where the default is wrong."""
        is_default_wrong = declared.default is not None and is_wrong(declared.default)
        return of_entries(is_wrong) + [b""] * is_default_wrong

    yield "BadMax", of_numbers(lambda it: not 1 <= it.max <= GREATEST_MAX)
    yield "BadWeight", of_numbers(lambda it: not 1 <= it.weight <= GREATEST_WEIGHT)
    yield "BadCapacity", [] if 1 <= declared.capacity <= GREATEST_CAPACITY else [b""]
    lacks_group = [it.mode != "none" and it.group is None for it in declared.cron]
    yield "ModeNeedsGroup", places(b"cron", lacks_group)
    yield "UnknownGroup", of_entries(lambda it: it.group not in [None, *groups])
    yield "TooManyGroups", [b"group %d" % (MOST_GROUPS + 1)] if len(groups) > MOST_GROUPS else []
    first, past = declared.hours
    yield "BadHours", [] if 0 <= first < past <= DAY else [b""]
    yield "ModeOnAnacron", places(b"anacron", [it.mode for it in declared.anacron])
    minute = declared.pass_minute
    yield "BadPassMinute", [] if minute is None or 0 <= minute < DAY else [b""]
    yield "BadParts", places(b"cron", [it.parts and are_bad(it.parts, it.max) for it in declared.cron])
    if declared.zone is not None:
        yield "BadZone", [] if is_usable(declared.zone) else [b""]
        yield "HoursInZone", [] if declared.hours == (0, DAY) else [b""]
        yield "PassInZone", [] if minute is None else [b""]


def are_bad(parts, longest):
    """Returns whether parts don't fit into a longest time."""
    times, names = [it.max for it in parts], {it.name for it in parts}
    has_bad_time = any(not 1 <= time <= GREATEST_MAX for time in times)
    return has_bad_time or len(names) < len(parts) or sum(times) > longest


def lines_named(name, crontab):
    """Returns the numbers of the lines that a name means, with a number at most one."""
    if name.number is not None:
        return [it.line for it in crontab.commands if it.line == name.number]
    command = name.command.encode()
    return [it.line for it in crontab.commands if it.text == command and has_when(it, name)]


def has_when(command, name):
    """Returns whether a name tells no schedule, or that of the command."""
    return name.when in (None, [command.schedule])


def is_other(name, crontab):
    """Returns whether the line of a name's number has another command than the name tells."""
    texts = [it.text for it in crontab.commands if it.line == name.number]
    return None not in name[:2] and texts != [name.command.encode()]


def is_mistimed(name, crontab):
    """Returns whether the line of a name's number has another schedule than the name tells."""
    return any(it.line == name.number and not has_when(it, name) for it in crontab.commands)


def faults_of_tables(declared, crontab, anacrontab):
    """Yields the faults of declarations that have none alone beside their tables, in order.

    All names are of lines of the whole table; where the first three are none, each means one line.
    """
    names, left_out = [it.job for it in declared.cron], declared.left_out

    def of_names(is_wrong):
        """Returns the places of names that are wrong, of cron and of left_out."""
        return places(b"cron", map(is_wrong, names)), places(b"left_out", map(is_wrong, left_out))

    identifiers = [identifier_text(it) for it in anacrontab.jobs]
    absent = places(b"anacron", (it.job not in identifiers for it in declared.anacron))
    of_cron, of_left_out = of_names(lambda it: not lines_named(it, crontab))
    yield "NoSuchLine", of_cron + absent + of_left_out
    yield "OtherCommand", sum(of_names(lambda it: is_other(it, crontab)), [])
    yield "AmbiguousCommand", sum(of_names(lambda it: len(lines_named(it, crontab)) > 1), [])
    lines = [line for it in names for line in lines_named(it, crontab)]
    out = [line for it in left_out for line in lines_named(it, crontab)]
    yield "TwiceDeclared", second_times(b"cron", lines) + second_times(b"left_out", out, lines)
    rest = without_lines(crontab, out)
    yield "Undeclared", [] if declared.default else undeclared(declared, rest, anacrontab, lines)
    yield "RebootLine", reboot_places(rest)
    yield "OtherSchedule", sum(of_names(lambda it: is_mistimed(it, crontab)), [])
    yield "StartsTwice", [b"line %d" % it for it in doubled_lines(declared, crontab)]


@functools.cache
def zone_by(rule):
    return Zone(rule)


def zone_of(declared):
    """Returns the zone by whose clock lines are due, none where all days have the same clock."""
    return None if declared.zone is None else zone_by(declared.zone)


def is_doubled(schedule, zone):
    """Returns whether cron starts a line more than once in some minute."""
    return any(len(set(it)) < len(it) for it in starts_on(zone, schedule).values())


def doubled_lines(declared, crontab):
    """Returns such lines by the clock of the zone, of those that aren't left out."""
    out = [line for it in declared.left_out for line in lines_named(it, crontab)]
    its, zone = without_lines(crontab, out).commands, zone_of(declared)
    return [it.line for it in its if zone and it.schedule and is_doubled(it.schedule, zone)]


def without_lines(crontab, numbers):
    return crontab._replace(commands=[it for it in crontab.commands if it.line not in numbers])


def undeclared(declared, crontab, anacrontab, lines):
    """Returns the places of jobs without an entry, the lines of which are given."""
    names = [it.job for it in declared.anacron]
    commands = [it.line for it in crontab.commands if it.schedule and it.line not in lines]
    jobs = [it.identifier for it in anacrontab.jobs if identifier_text(it) not in names]
    return [b"line %d" % it for it in commands] + [b"job " + it for it in jobs]


def reboot_places(crontab):
    return [b"line %d" % it.line for it in crontab.commands if it.schedule is None]


def joined(declared, crontab, anacrontab):
    """Returns the plan of tables and declarations in which no fault stands."""
    groups = {it.name: at for at, it in enumerate(declared.groups)} | {None: None}
    entries = {it.job: it for it in declared.anacron}
    entries |= {line: it for it in declared.cron for line in lines_named(it.job, crontab)}
    left_out = sorted(line for it in declared.left_out for line in lines_named(it, crontab))
    rest, jobs, defaulted = without_lines(crontab, left_out), [], 0
    zone = zone_of(declared)
    for of in (*rest.commands, *anacrontab.jobs):
        it = entries.get(of.line if isinstance(of, Command) else identifier_text(of))
        if it is None:
            defaulted += 1
            jobs.append(Job(of, *declared.default, zone=zone))
        else:
            its = it.max, it.weight, groups[it.group], it.mode or "none"
            jobs.append(Job(of, *its, zone))
    more = declared.groups, declared.capacity, declared.hours, declared.pass_minute
    guessed = sum(it.guess for it in [*declared.cron, *declared.anacron])
    offset = declared.offset if zone is None else zone.offset
    plan = Plan(rest, anacrontab, jobs, *more, offset, left_out, defaulted, zone=zone)
    return plan._replace(guessed=guessed, untimed=untimed(declared, crontab))


def untimed(declared, crontab):
    """Returns the first line with an entry that tells its command alone, where others have it too."""
    names = [it.job for it in declared.cron] + declared.left_out
    alone = [it for it in names if it.command is not None and it.when is None]
    lines = {line for it in alone for line in lines_named(it, crontab)}
    texts = [it.text for it in crontab.commands]
    shared = [it.line for it in crontab.commands if texts.count(it.text) > 1]
    return next((it for it in shared if it in lines), None)


def tell_first(faults):
    """Tells the first place of the first fault that has one."""
    for name, places_found in faults:
        for place in places_found:
            raise Fault("declarations", name, place)


def read_declared(data):
    """Returns what the bytes of declarations say, without their tables."""
    try:
        declared = declared_of(read_json(data))
    except NotJson:
        raise Fault("declarations", "NotJson") from None
    except OtherShape:
        raise Fault("declarations", "BadShape") from None
    tell_first(faults_alone(declared))
    return declared


def read_plan(data, crontab, anacrontab):
    """Returns the plan that the bytes of declarations make of two tables."""
    declared = read_declared(data)
    tell_first(faults_of_tables(declared, crontab, anacrontab))
    return joined(declared, crontab, anacrontab)._replace(doubled=doubled_member(data))


def plain_plan(longest, crontab, anacrontab):
    """Returns the plan of tables without declarations, each job with that longest time."""
    for place in reboot_places(crontab):
        raise Fault("declarations", "RebootLine", place)
    jobs = [Job(of, longest) for of in (*crontab.commands, *anacrontab.jobs)]
    return Plan(crontab, anacrontab, jobs, [], GREATEST_CAPACITY, (0, DAY), None, 0)


def plan_of(files):
    """Returns the plan of the bytes of tables and declarations, by their names as bytes."""
    anacrontab = read_anacrontab(files.get(b"anacrontab", b""))
    return read_plan(files[b"declarations"], read_crontab(files[b"crontab"]), anacrontab)
