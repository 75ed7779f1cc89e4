"""The bytes of an anacrontab to a table, or to the first fault with its line."""
from collections import namedtuple

from model import crontab
from model.crontab import Setting, Wrong, part_of
from model.faults import Fault

MOST_JOBS = 64
MOST_BYTES_OF_AN_IDENTIFIER = 200
GREATEST = 100_000
MONTHLY = "monthly"
WORDS = {b"@daily": 1, b"@weekly": 7, b"@monthly": MONTHLY}

# The period is a number of days, or MONTHLY.
Job = namedtuple("Job", "line period delay identifier command environment")
Anacrontab = namedtuple("Anacrontab", "settings jobs")


def number_from(least, text, fault):
    """Returns the value of digits, which is from the least one to 100,000."""
    if not text.isdigit() or not least <= int(text) <= GREATEST:
        raise Wrong(fault)
    return int(text)


def period_of(text):
    if not text.startswith(b"@"):
        return number_from(1, text, "BadPeriod")
    if text not in WORDS:
        raise Wrong("UnknownWord")
    return WORDS[text]


def delay_of(text):
    return number_from(0, text, "BadDelay")


def identifier_of(text):
    """Returns a text as an identifier, which no blank can be in here."""
    try:
        name = text.decode()
    except UnicodeDecodeError:
        raise Wrong("BadIdentifier") from None
    if len(text) > MOST_BYTES_OF_AN_IDENTIFIER or "/" in name or name in (".", ".."):
        raise Wrong("BadIdentifier")
    return text


def parts_of(line):
    """Returns period, delay, identifier and command of a line, each read before the next."""
    parts = []
    for read in (period_of, delay_of, identifier_of):
        if not line:
            raise Wrong("MissingField")
        text, line = part_of(line)
        parts.append(read(text))
    if not line:
        raise Wrong("MissingField")
    return [*parts, line]


def job_of(number, line, settings, jobs):
    period, delay, identifier, command = parts_of(line)
    if any(job.identifier == identifier for job in jobs):
        raise Wrong("TwiceNamed")
    if len(jobs) == MOST_JOBS:
        raise Wrong("TooManyJobs")
    return Job(number, period, delay, identifier, command, crontab.environment_of(settings))


def read_anacrontab(text):
    """Returns the table that the bytes of an anacrontab denote."""
    settings, jobs = [], []
    for number, line in crontab.lines_that_count(text, "anacrontab"):
        try:
            if line.endswith(b"\\"):
                raise Wrong("Continued")
            if crontab.SETTING.match(line):
                settings.append(Setting(number, *crontab.setting_of(line)))
            else:
                jobs.append(job_of(number, line, settings, jobs))
        except Wrong as wrong:
            raise Fault("anacrontab", str(wrong), number) from None
    return Anacrontab(settings, jobs)
