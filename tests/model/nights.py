"""When cron starts lines by the clock of a zone, and what `cronsafe day --zone` prints of that.

A minute is one of UTC, counted from 1970-01-01 00:00. The wall is what the zone's clock shows in
it, counted alike. A plan's clock shows all year what the zone's clock shows on 28 February.
"""
import functools
import re
import struct
from datetime import datetime
from io import BytesIO
from zoneinfo import ZoneInfo

from model.calendar import DAY, WEEKDAYS, day_of_text, day_text, is_day_due, kind_of
from model.calendar import minute_text, minutes_of, weekday_of
from model.day import clock_text, days_text

# After so many days the same dates and weekdays come again, and Python knows the first ones.
CYCLE = 146_097
# In 28 years each kind of day comes.
YEARS = range(day_of_text(b"2001-01-01"), day_of_text(b"2029-01-01"))
WINTER = DAY * day_of_text(b"2001-02-28")
NAME, CLOCK = r"(?:[A-Za-z]{3,}|<[A-Za-z0-9+-]{3,}>)", r"(?:[01]?\d|2[0-3])(?::[0-5]\d)?(?::00)?"
DATE = rf",M([1-9]|1[0-2])\.([1-5])\.[0-6](?:/(?:{CLOCK}|24(?::00){{0,2}}))?"
RULE = re.compile(rf"{NAME}[+-]?{CLOCK}(?:{NAME}(?:[+-]?{CLOCK})?{DATE}{DATE})?", re.ASCII)


class Zone:
    def __init__(self, rule):
        # A file (TZif, RFC 9636) without a change but those of the rule.
        block = struct.pack(">4sc15x6LlBB4s", b"TZif", b"2", 0, 0, 0, 0, 1, 4, 0, 0, 0, b"UTC")
        text = block + block + f"\n{rule}\n".encode()
        self.rule, self.zone = rule, ZoneInfo.from_file(BytesIO(text))

    def moment(self, minute):
        return datetime.fromtimestamp(60 * (minute % (CYCLE * DAY)), self.zone)

    def wall(self, minute):
        return minute + int(self.moment(minute).utcoffset().total_seconds()) // 60

    def walls(self, day):
        """Returns the minutes about a day, each with its wall."""
        first = 2 * DAY * day - self.wall(DAY * day) - 360
        return [(it, self.wall(it)) for it in range(first, first + DAY + 720)]

    @functools.cached_property
    def offset(self):
        """Returns how many minutes the plan's clock is ahead of UTC."""
        return self.wall(WINTER) - WINTER

    @functools.cached_property
    def names(self):
        """Returns the name of the plan's clock, and of the other one if there is one."""
        minutes = range(WINTER, WINTER + 365 * DAY, DAY)
        return [*{self.wall(it) - it: f"{self.moment(it):%Z}" for it in minutes}.values()]

    def beside(self, minute):
        """Returns what stands behind a minute of the plan's clock if the wall shows another one."""
        wall, name = self.wall(minute - self.offset), f"{self.moment(minute - self.offset):%Z}"
        return "" if wall == minute else f" ({minute_text(wall)} {name})"

    @functools.cached_property
    def days(self):
        """Returns of each kind of day of the plan's clock one day, and what the wall shows there.

        It is so many minutes ahead; or about a jump, there are the minutes of the day and of six
        hours before it, each with its wall.
        """
        found = {}
        for kind, day in {kind_of(it): it for it in YEARS}.items():
            first = DAY * day - self.offset
            ahead, after = (self.wall(first + it) - DAY * day - it for it in (-360, DAY - 1))
            about = range(-360, DAY) if ahead != after else ()
            found[kind] = day, ahead, [(it, self.wall(first + it)) for it in about]
        return found

    def text(self, minute, day):
        """Returns what the wall shows, seen from a day."""
        shown, clock = divmod(self.wall(minute), DAY)
        away = days_text(abs(shown - day), "after" if shown > day else "before")
        return f"{clock_text(clock)} {self.moment(minute):%Z}{away}"

    def jump_text(self, minute, day):
        """Returns the line of the jump before a minute, if the rule names it on the day."""
        past, (named, clock) = self.moment(minute - 1), divmod(self.wall(minute - 1) + 1, DAY)
        if clock == 0 and re.search(rf",M{past.month}\.[^,]*/24\b", self.rule):
            named, clock = named - 1, DAY
        told = f"{clock_text(clock)} {past:%Z} becomes {self.text(minute, day)}\n"
        return told if named == day else ""


def is_usable(rule):
    """Returns whether a text is a rule that `day` takes."""
    found = RULE.fullmatch(rule)
    if not found or not found[1]:
        return bool(found)
    zone, (first, _, other, _) = Zone(rule), map(int, found.groups())
    try:
        offsets = [zone.wall(it) - it for it in range(0, 365 * DAY, DAY)]
    except ValueError:
        return False
    saving, apart = max(offsets) - min(offsets), abs((first - 3) % 12 - (other - 3) % 12)
    return 15 <= saving <= 120 and 2 <= apart <= 10 and not re.search(r",M(2\.[45]|3\.1)\.", rule)


def starts_of(schedule, walls):
    """Returns in which minutes cron starts a line, each as often as it does.

    If its minute or hour begins with `*`, it goes by the wall. Otherwise it starts for each minute
    of the wall once: late for those that are jumped over, and not when they are shown again.
    """
    starts, latest = [], walls[0][1] - 1
    is_by_wall = schedule.minute.is_star or schedule.hour.is_star
    minutes = {60 * hour + it for hour in schedule.hour.numbers for it in schedule.minute.numbers}
    for minute, wall in walls:
        for it in [wall] if is_by_wall else range(latest + 1, wall + 1):
            if it % DAY in minutes and is_day_due(schedule, kind_of(it // DAY)):
                starts.append(minute)
        latest = max(latest, wall)
    return starts


@functools.lru_cache(maxsize=64)
def starts_on(zone, schedule):
    """Returns at which minutes of each kind of day of the plan's clock cron starts a line.

    Each is there as often as it starts.
    """
    found, minutes, seen = {}, minutes_of(schedule), {}
    for kind, (day, ahead, walls) in zone.days.items():
        due = tuple(it for it in (-1, 0, 1) if is_day_due(schedule, kind_of(day + it)))
        if (ahead, due) not in seen:
            shown = [DAY * at + it - ahead for at in due for it in minutes]
            seen[ahead, due] = [it for it in shown if 0 <= it < DAY]
        starts = [it for it in starts_of(schedule, walls) if it >= 0] if walls else seen[ahead, due]
        found[kind] = starts
    return found


def night_answer(crontab, day, longest, zone):
    walls, told = zone.walls(day), f"{day_text(day)} {WEEKDAYS[weekday_of(day)]}\n"
    for (_, past), (minute, wall) in zip(walls, walls[1:]):
        told += zone.jump_text(minute, day) if wall != past + 1 else ""
    last = max(minute for minute, wall in walls if wall // DAY == day)
    walls = [it for it in walls if it[0] <= last]
    for command in crontab.commands:
        if command.schedule is None:
            told += f"line {command.line}: at reboot\n"
            continue
        starts = [it for it in starts_of(command.schedule, walls) if zone.wall(it) // DAY == day]
        told += f"line {command.line}: due {len(starts)}\n"
        for it in starts:
            told += f"  {zone.text(it, day)} to {zone.text(it + longest, day)}\n"
    return re.sub(r"to 00:00 (\S+) the day after\n", r"to 24:00 \1\n", told).encode()
