"""Days, dates, day kinds, and the minutes at which a schedule is due.

A day is its number since 1970-01-01, which is day 0; a civil minute is counted from 00:00 of it.
"""
import functools
import re
from collections import namedtuple
from datetime import date

from model.faults import Fault

DAY = 1_440
# The number that Python gives 1970-01-01; it ends with 9999-12-31 too.
FIRST = date(1970, 1, 1).toordinal()
LAST_DAY = date.max.toordinal() - FIRST
# Civil minutes begin a day after the first one.
FIRST_MINUTE = 1_440
# The first day of `day`, and of the start of a history: three days before it have dates too.
FIRST_START_DAY = 3
WEEKDAYS = ("Sun", "Mon", "Tue", "Wed", "Thu", "Fri", "Sat")
DATE = re.compile(rb"\d{4}-\d\d-\d\d")
MINUTE = re.compile(rb"(\d{4}-\d\d-\d\d) (\d\d):(\d\d)")
# How many days a month may have.
DAYS_IN = dict(enumerate((31, 29, 31, 30, 31, 30, 31, 31, 30, 31, 30, 31), 1))

# What a schedule sees of a day; Sunday is 0.
Kind = namedtuple("Kind", "month day weekday")
# The 2,562 kinds of days, by month, then day, then weekday.
KINDS = [
    Kind(month, day, weekday)
    for month, days in DAYS_IN.items()
    for day in range(1, days + 1)
    for weekday in range(7)
]


def date_of(day):
    return date.fromordinal(FIRST + day)


def weekday_of(day):
    return date_of(day).isoweekday() % 7


@functools.cache
def kind_of(day):
    return Kind(date_of(day).month, date_of(day).day, weekday_of(day))


def day_of_text(text):
    """Returns the day of a text YYYY-MM-DD from 1970-01-01 on, or its fault."""
    # Python begins with the year 1; the year 0 is a leap year, as 2000 is.
    is_year_0 = text.startswith(b"0000")
    try:
        if not DATE.fullmatch(text):
            raise ValueError
        found = date.fromisoformat((b"2000" + text[4:] if is_year_0 else text).decode())
    except ValueError:
        raise Fault("date", "NotADate") from None
    if is_year_0 or found.year < 1970:
        raise Fault("date", "OutOfRange")
    return found.toordinal() - FIRST


def minute_of_text(text):
    """Returns the civil minute of a text YYYY-MM-DD HH:MM, or its fault."""
    found = MINUTE.fullmatch(text)
    if not found or int(found[2]) > 23 or int(found[3]) > 59:
        raise Fault("date", "NotADate")
    minute = DAY * day_of_text(found[1]) + 60 * int(found[2]) + int(found[3])
    if minute < FIRST_MINUTE:
        raise Fault("date", "OutOfRange")
    return minute


def day_text(day):
    return date_of(day).isoformat()


def minute_text(minute):
    return f"{day_text(minute // DAY)} {minute // 60 % 24:02}:{minute % 60:02}"


def is_day_due(schedule, kind):
    by_day, by_weekday = kind.day in schedule.day.numbers, kind.weekday in schedule.weekday.numbers
    is_due = by_day and by_weekday
    if not schedule.day.is_star and not schedule.weekday.is_star:
        is_due = by_day or by_weekday
    return is_due and kind.month in schedule.month.numbers


def minutes_of(schedule):
    """Returns the minutes at which a schedule is due on its days, rising."""
    hours, minutes = sorted(schedule.hour.numbers), sorted(schedule.minute.numbers)
    return [60 * hour + minute for hour in hours for minute in minutes]


def due_minutes(schedule, kind):
    return minutes_of(schedule) if is_day_due(schedule, kind) else []
