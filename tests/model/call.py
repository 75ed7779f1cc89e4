"""What a whole call answers, as far as this reading goes.

Words, files and standard input go in; out come the status and both outputs. The words have to be
such as the program takes. Of `judge`, `make`, `advise` and `room` only faults of what is read are
known here: past them an answer is not told. Of `draft` it is known whether there is one.
"""
import re
from collections import namedtuple
from itertools import takewhile

from harness import NO_CONFLICT, OBEYED
from model import calendar, certificate, crontab, rules, script
from model.anacrontab import read_anacrontab
from model.calendar import DAY
from model.day import day_answer
from model.declarations import GREATEST_MAX, doubled_lines, lines_named, plain_plan
from model.declarations import read_declared, read_plan
from model.faults import Fault
from model.nights import Zone, is_usable, night_answer
from model.replay import replay_answer

# The words of each subcommand and its options; those in capitals are the paths of inputs.
CALLS = {
    b"day": (("TABLE", "date", "max"), ("ANACRONTAB", "from", "to", "zone")),
    b"check": (("TABLE", "DECLS", "CERT"), ("ANACRONTAB",)),
    b"judge": (("TABLE", "DECLS"), ("ANACRONTAB",)),
    b"make": (("TABLE", "DECLS"), ("ANACRONTAB", "compact")),
    b"advise": (("TABLE", "DECLS"), ("ANACRONTAB", "within", "first")),
    b"room": (("TABLE", "DECLS"), ("ANACRONTAB",)),
    b"replay": (("TABLE", "SCRIPT"), ("ANACRONTAB", "DECLARATIONS", "max", "judge")),
    b"draft": (("TABLE",), ("ANACRONTAB", "max", "UPDATE")),
}
# The options that have no value.
FLAGS = ("compact", "judge")
NUMBERS = ("max", "from", "to")
HELP = (b"help", b"-h", b"--help")
# Settings that other programs know and this one passes over.
WITHOUT_EFFECT = (b"CRON_TZ", b"RANDOM_DELAY", b"START_HOURS_RANGE")

# What isn't read here: what is told of the first words of commands, of an overload, and of the jobs
# that take the lock of which a bound rises.
UNREAD = re.compile(
    rb"warning: the command on line \d+ of the crontab begins with .*\n"
    rb"|note: .* may run then: weight \d+\n"
    rb"|note: .* takes the lock: .*\n"
)
# Outputs that aren't told are none, and so is a status.
Answer = namedtuple("Answer", "status out err")
HARMFUL = re.compile(rb"[\x00-\x1f\x7f\\]|" + OBEYED)


def shown(text):
    """Returns bytes as a comment shows them: in one line, and harmless to a terminal."""
    return HARMFUL.sub(lambda it: b"".join(b"\\x%02x" % byte for byte in it[0]), text)


def as_read(text):
    """Returns what a call says, without what isn't read here."""
    return UNREAD.sub(b"", text)


def agrees(told, answer):
    """Returns whether an answer is as told, in what of it is told."""
    outputs = (told.out, answer.out), (told.err, answer.err)
    return told.status == answer.status and all(it in (None, got) for it, got in outputs)


JOBS_HINT = b"cronsafe: the table reads as an anacrontab: give it with --anacrontab\n"
# What follows a date, a longest time and hours that are words of the call.
DATE_HINT = b"cronsafe: a date is YYYY-MM-DD, from 1970-01-04 to 9999-12-31, as $(date +%F) prints it\n"
MAX_HINT = b"cronsafe: the longest time is from 1 to 4320 minutes\n"
HOURS_HINT = b"cronsafe: --from is from 0 on and below --to, which is at most 1440\n"


class Unread(Exception):
    """A path can't be read, and why."""


def has_jobs(text):
    """Returns whether a text is that of an anacrontab, whose jobs have identifiers with letters."""
    try:
        jobs = read_anacrontab(text).jobs
    except Fault:
        return False
    return bool(jobs) and all(re.search(rb"[A-Za-z]", it.identifier) for it in jobs)


def asks_help(words):
    """Returns whether the answer is help or the version, of which this reading knows nothing."""
    return any(it in HELP or it == b"--version" for it in words)


def words_of_check(words):
    """Returns the words that check the certificate of a call, which `made` is of one of `make`."""
    flags = (b"--compact", b"--enforce", b"--home")
    command, *words = [it for it in words if it not in flags]
    for option in b"--keep --log --minutes --on-failure --on-limit --on-overrun --output".split():
        if option in words:
            at = words.index(option)
            del words[at : at + 2]
    if command == b"make":
        words.insert(2, b"made")
    if command == b"run":
        del words[3:4]
    return [b"check", *words]


def asked(words):
    """Returns what words ask, by name; numbers as such."""
    plain, options = CALLS[words[0]]
    names = {b"--" + it.lower().encode(): it for it in options}
    values, found, rest = [], {}, iter(words[1:])
    for word in rest:
        option, equals, value = word.partition(b"=")
        if option not in names:
            values.append(word)
        elif names[option] in FLAGS:
            found[names[option]] = True
        else:
            found[names[option]] = value if equals else next(rest)
    found.update(zip(plain, values))
    return found | {it: int(found[it]) for it in NUMBERS if it in found}


# The comments above a line of a gathered table, its place and then its parts; how a refusal names
# a line.
PLACE = re.compile(rb"#@ ([^\x00-\x1f\x7f]*?:[^\x00-\x1f\x7f]*?) +([^\x00-\x20\x7f]+)")
PART = re.compile(rb"#@ part [A-Za-z0-9_-]+")
NAMED = re.compile(rb"\bline (\d+)\b")
# What a certificate of other tables or declarations is refused with, and what is told of that.
STALE = (b"refused 1 ", b"refused 2 ", b"refused 5 ")
STALE_NOTE = b"note: the tables or declarations may have changed since the certificate was made: "
STALE_NOTE += b"cronsafe make TABLE DECLS makes a new one\n"


def warnings_of_settings(table, of):
    told = b"warning: %s on line %d of %s has no effect\n"
    found = [it for it in table.settings if it.name in WITHOUT_EFFECT]
    return b"".join(told % (it.name, it.line, of) for it in found)


def warnings_of(table, jobs):
    """Returns what is told of settings of two tables that were read well."""
    of_crontab = warnings_of_settings(table, b"the crontab")
    return of_crontab + warnings_of_settings(jobs, b"the anacrontab")


def notes_of(plan):
    """Returns what is told of a plan that is judged."""
    told = []
    if plan.doubled is not None:
        twice = b"warning: an object of the declarations has %s twice, and the last one counts\n"
        told.append(twice % plan.doubled.encode())
    if plan.untimed is not None:
        of_line = b"warning: another line has the command of line %d: " % plan.untimed
        told.append(of_line + b'add "when" to its entry, as cronsafe draft does\n')
    told += [b"note: line %d is left out of the plan\n" % it for it in plan.left_out]
    if plan.left_out and not plan.jobs:
        told.append(b"note: the plan has no job\n")
    if plan.defaulted == 1:
        told.append(b"note: 1 job without an entry has the default\n")
    elif plan.defaulted:
        told.append(b"note: %d jobs without an entry have the default\n" % plan.defaulted)
    if plan.guessed == 1:
        told.append(b"note: 1 longest time is a draft's guess\n")
    elif plan.guessed:
        told.append(b"note: %d longest times are a draft's guess\n" % plan.guessed)
    if decides_nothing(plan):
        told.append(NO_CONFLICT)
    if plan.zone is not None and len(plan.zone.names) > 1:
        names = tuple(it.encode() for it in plan.zone.names)
        told.append(b"note: times are by %s all year; those in brackets are by %s\n" % names)
    return b"".join(told)


def decides_nothing(plan):
    """Returns whether no exclusive group has two jobs, no job has mode skip, and all fit together."""
    groups = [it.group for it in plan.jobs if it.group is not None]
    exclusive = [it for it in groups if plan.groups[it].exclusive]
    has_skip = any(it.is_never_skipped for it in plan.jobs)
    are_apart = len(exclusive) == len(set(exclusive))
    return are_apart and not has_skip and sum(it.weight for it in plan.jobs) <= plan.capacity


def places_of(text, table):
    """Returns place, user and names of parts of each line of a gathered table, by its number."""
    if all(it.name != b"CRONSAFE_TABLE" for it in table.settings):
        return {}
    places, lines = {}, text.split(b"\n")
    for at, line in enumerate(lines, 1):
        if found := PLACE.fullmatch(line):
            parts = [it[8:] for it in takewhile(PART.fullmatch, lines[at:])]
            places[at + 1 + len(parts)] = *found.groups(), parts
    return places


def notes_of_lines(named, text, table, head):
    """Returns a note on each line of a gathered table that a text names, with its place."""
    places, numbers = places_of(text, table), {int(it) for it in NAMED.findall(named)}
    told = head + b"line %d is %s (%s): %s\n"
    placed = [it for it in table.commands if it.line in numbers & places.keys()]
    return b"".join(told % (it.line, *places[it.line][:2], shown(it.text)) for it in placed)


def notes_of_refusal(verdict, text):
    """Returns the places of the lines that a refusal names, and if its certificate seems old."""
    places = notes_of_lines(verdict, text, crontab.read_crontab(text), b"note: ")
    return places + (STALE_NOTE if verdict.startswith(STALE) else b"")


class Call:
    """A call that is answered, with its warnings and notes so far."""

    def __init__(self, words, files, stdin, is_judged):
        self.words, self.files, self.stdin, self.is_judged = words, files, stdin, is_judged
        self.warned = self.hint = b""

    def bytes_of(self, path):
        if path == b"-":
            return self.stdin
        if path not in self.files:
            is_folder = path == b"."
            raise Unread(path, b"it is a folder" if is_folder else b"there is no such file")
        return self.files[path]

    def read_tables(self, found):
        """Reads both tables, and warns of them once both were read well."""
        table = self.crontab_of(self.bytes_of(found["TABLE"]))
        path = found.get("ANACRONTAB")
        jobs = read_anacrontab(b"" if path is None else self.bytes_of(path))
        self.warned = warnings_of(table, jobs)
        return table, jobs

    def crontab_of(self, text):
        """Returns the crontab of a text; of another text it is told if it is an anacrontab's."""
        try:
            return crontab.read_crontab(text)
        except Fault:
            self.hint = JOBS_HINT if has_jobs(text) else b""
            raise

    def read_plan(self, found):
        tables = self.read_tables(found)
        return read_plan(self.bytes_of(found["DECLS"]), *tables)

    def read_placed_plan(self, found):
        """Reads a plan of which entries have the parts that a gathered table tells."""
        plan, text = self.read_plan(found), self.bytes_of(found["TABLE"])
        table, entries = crontab.read_crontab(text), read_declared(self.bytes_of(found["DECLS"])).cron
        places = places_of(text, table)
        for at, entry in enumerate(entries, 1):
            [line] = lines_named(entry.job, table)
            told, parts = places.get(line, (b"", b"", []))[2], [it.name for it in entry.parts]
            if told and parts and sorted(told) != sorted(it.encode() for it in parts):
                raise Fault("declarations", "OtherParts", b"cron %d" % at)
        return plan

    def look_at_max(self, longest):
        if not 1 <= longest <= GREATEST_MAX:
            self.hint = MAX_HINT
            raise Fault("declarations", "BadMax")

    def day(self, found):
        self.hint = DATE_HINT
        day = calendar.day_of_text(found["date"])
        if day < calendar.FIRST_START_DAY:
            raise Fault("date", "OutOfRange")
        longest, self.hint = found.get("max", 1), b""
        self.look_at_max(longest)
        hours = found.get("from", 0), found.get("to", DAY)
        if not 0 <= hours[0] < hours[1] <= DAY:
            self.hint = HOURS_HINT
            raise Fault("declarations", "BadHours")
        if "zone" in found:
            return self.night(found["zone"].decode(errors="replace"), found, day, longest)
        return 0, day_answer(*self.read_tables(found), day, longest, hours)

    def night(self, rule, found, day, longest):
        """Answers `day --zone`; what is told of a rule that isn't for it isn't read."""
        if not is_usable(rule):
            self.warned = None
            return 3, b""
        return 0, night_answer(self.read_tables(found)[0], day, longest, Zone(rule))

    def draft(self, found):
        self.look_at_max(found.get("max", 60))
        table, _ = self.read_tables(found)
        update = read_declared(self.bytes_of(found["UPDATE"])) if "UPDATE" in found else None
        self.warned = None
        return (2, b"") if update is not None and doubled_lines(update, table) else (0, None)

    def judge(self, found):
        plan = self.read_placed_plan(found)
        self.warned += notes_of(plan)
        return None, None

    make = advise = room = judge

    def check(self, found):
        """Notes are told beside a verdict alone, so not before a fault of the certificate."""
        plan, text = self.read_placed_plan(found), self.bytes_of(found["CERT"])
        said = certificate.read(text) if self.is_judged else None
        self.warned += notes_of(plan)
        if said is None:
            return None, None
        verdict = rules.verdict(plan, said)
        if verdict == b"safe\n":
            return 0, verdict
        self.warned += notes_of_refusal(verdict, self.bytes_of(found["TABLE"]))
        return 1, verdict

    def replay(self, found):
        tables = self.read_tables(found)
        if "DECLARATIONS" in found:
            plan = read_plan(self.bytes_of(found["DECLARATIONS"]), *tables)
        else:
            longest = found.get("max", DAY)
            self.look_at_max(longest)
            plan = plain_plan(longest, *tables)
        text = self.bytes_of(found["SCRIPT"])
        if "judge" in found and text.startswith(b"unsafe: "):
            text = b"#" + text[1:]
        return replay_answer(plan, script.read_script(text, plan), "judge" in found)

    def answer(self):
        try:
            found = asked(self.words)
            status, out = getattr(self, self.words[0].decode())(found)
            return Answer(status, out, self.warned)
        except Fault as fault:
            told = b"cronsafe: %s\n" % fault.text()
            return Answer(3, b"", self.warned + told + self.hint)
        except Unread as unread:
            told = b"cronsafe: can't read %s: %s\n" % unread.args
            return Answer(6, b"", self.warned + told)


def answer_of(words, files, stdin=b"", is_judged=True):
    """Returns the answer to words, over files by their paths and what standard input holds.

    Unless it is judged, of `check` too only faults of what is read before the certificate.
    """
    return Call(words, files, stdin, is_judged).answer()
