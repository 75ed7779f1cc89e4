"""The bytes of a crontab to a table, or to the first fault with its line."""
import re
from collections import namedtuple

from model.faults import Fault

BLANKS = b" \t"
# What begins a setting; its name, in quotes or without; and a value in quotes.
SETTING = re.compile(rb"[A-Za-z_\"']")
NAME = re.compile(rb"""(?:(["'])((?:(?!\1).)+)\1|([^"' \t=][^ \t=]*))[ \t]*=[ \t]*""", re.DOTALL)
QUOTED = re.compile(rb"""(["'])((?:(?!\1).)*)\1[ \t]*""", re.DOTALL)
DIGITS = re.compile(rb"([0-9]*)(.*)", re.DOTALL)
MOST_BYTES = 1_048_576
MOST_BYTES_OF_A_LINE = 4_096
MOST_COMMANDS = 256
MONTHS = b"jan feb mar apr may jun jul aug sep oct nov dec".split()
WEEKDAYS = b"sun mon tue wed thu fri sat".split()
WORDS = {b"@yearly": b"0 0 1 1 *", b"@annually": b"0 0 1 1 *", b"@monthly": b"0 0 1 * *"}
WORDS |= {b"@weekly": b"0 0 * * 0", b"@daily": b"0 0 * * *", b"@midnight": b"0 0 * * *"}
WORDS |= {b"@hourly": b"0 * * * *"}

# A field's range, and the numbers that names stand for in it.
Field = namedtuple("Field", "first last names")
FIELDS = (
    Field(0, 59, {}),
    Field(0, 23, {}),
    Field(1, 31, {}),
    Field(1, 12, dict(zip(MONTHS, range(1, 13)))),
    Field(0, 7, dict(zip(WEEKDAYS, range(7)))),
)

# The numbers of a field, and whether its text begins with `*`.
Choice = namedtuple("Choice", "numbers is_star")
Schedule = namedtuple("Schedule", "minute hour day month weekday")
# A setting on its line, and a command line: no schedule is `@reboot`, `text` is all behind it, and
# no input is `None`.
Setting = namedtuple("Setting", "line name value")
Command = namedtuple("Command", "line schedule text command input environment")
Crontab = namedtuple("Crontab", "settings commands")


class Wrong(Exception):
    """The name of a fault that stands in the line which is looked at."""


def lines_of(text):
    """Returns the lines of a text; what stands behind the last newline is one, unless empty."""
    lines = text.split(b"\n")
    return lines[:-1] if lines[-1] == b"" else lines


def lines_that_count(text, of):
    """Yields the number and the text, without blanks at its head, of each line that says something.

    The faults that any line may have, also an empty one or a comment, are told on the way.
    """
    if len(text) > MOST_BYTES:
        raise Fault(of, "TooLong", 0)
    for number, line in enumerate(lines_of(text), 1):
        if len(line) > MOST_BYTES_OF_A_LINE:
            raise Fault(of, "TooLong", number)
        if b"\0" in line:
            raise Fault(of, "NulByte", number)
        line = line.lstrip(BLANKS)
        if line and not line.startswith(b"#"):
            yield number, line


def part_of(line):
    """Returns what stands before the first blank, and what stands after the blanks there."""
    part, *rest = re.split(rb"[ \t]+", line, maxsplit=1)
    return part, b"".join(rest)


def setting_of(line):
    found = NAME.match(line)
    if not found:
        raise Wrong("BadSetting")
    value = line[found.end() :].rstrip(BLANKS)
    if value[:1] in (b'"', b"'"):
        quoted = QUOTED.fullmatch(value)
        if not quoted:
            raise Wrong("BadSetting")
        value = quoted[2]
    return found[2] or found[3], value


def digits_of(text):
    """Returns the digits at the head of a text, as many as there are, and what stands after."""
    return DIGITS.match(text).groups()


def number_of(text, field):
    """Returns the number or name at the head of a text as a number, and what stands behind it."""
    digits, behind = digits_of(text)
    if digits:
        if not field.first <= int(digits) <= field.last:
            raise Wrong("OutOfField")
        return int(digits), behind
    name = text[:3].lower()
    if name not in field.names:
        raise Wrong("BadNumber")
    return field.names[name], text[3:]


def item_of(text, field):
    """Returns the numbers of an item: `*`, `*/n`, `a`, `a-b` or `a-b/n`."""
    if text.startswith(b"*"):
        low, high, behind = field.first, field.last, text[1:]
    else:
        low, behind = number_of(text, field)
        high = low
        if behind.startswith(b"-"):
            high, behind = number_of(behind[1:], field)
            if low > high:
                raise Wrong("Reversed")
        elif behind.startswith(b"/"):
            raise Wrong("StepOnNumber")
    step = 1
    if behind.startswith(b"/"):
        digits, behind = digits_of(behind[1:])
        if not digits or int(digits) == 0:
            raise Wrong("BadStep")
        step = int(digits)
    if behind:
        raise Wrong("BadNumber")
    return list(range(low, high + 1, step))


def choice_of(text, field):
    numbers = {number for item in text.split(b",") for number in item_of(item, field)}
    is_weekday = field is FIELDS[4]
    numbers = frozenset(it % 7 if is_weekday else it for it in numbers)
    return Choice(numbers, text.startswith(b"*"))


def fields_of(line):
    """Returns the schedule of the five fields at the head of a line, and what stands behind."""
    choices = []
    for field in FIELDS:
        if not line:
            raise Wrong("MissingField")
        text, line = part_of(line)
        choices.append(choice_of(text, field))
    return Schedule(*choices), line


def schedule_of(line):
    """Returns the schedule of a command line, none for `@reboot`, and what stands behind it."""
    if not line.startswith(b"@"):
        return fields_of(line)
    word, behind = part_of(line)
    if word == b"@reboot":
        return None, behind
    if word not in WORDS:
        raise Wrong("UnknownWord")
    return fields_of(WORDS[word])[0], behind


def parts_of(text):
    """Returns the command and the standard input of the text behind a schedule.

    A zero byte, which no line holds, keeps the place of a `%` that a backslash escapes.
    """
    parts = text.replace(b"\\%", b"\0").split(b"%", 1)
    command, *told = [it.replace(b"%", b"\n").replace(b"\0", b"%") for it in parts]
    return command, told[0] if told else None


def environment_of(settings):
    """Returns the settings above a line as pairs: each name in its first place, its last value."""
    return list({it.name: it.value for it in settings}.items())


def command_of(number, line, settings, commands):
    schedule, text = schedule_of(line)
    if not text:
        raise Wrong("NoCommand")
    if len(commands) == MOST_COMMANDS:
        raise Wrong("TooManyJobs")
    return Command(number, schedule, text, *parts_of(text), environment_of(settings))


def read_crontab(text):
    """Returns the table that the bytes of a crontab denote."""
    settings, commands = [], []
    for number, line in lines_that_count(text, "crontab"):
        try:
            if SETTING.match(line):
                settings.append(Setting(number, *setting_of(line)))
            else:
                commands.append(command_of(number, line, settings, commands))
        except Wrong as wrong:
            raise Fault("crontab", str(wrong), number) from None
    return Crontab(settings, commands)
