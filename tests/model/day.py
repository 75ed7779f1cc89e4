"""What `cronsafe day` prints: how often each line is due on a day, and its windows."""
from model.calendar import DAY, WEEKDAYS, day_text, due_minutes, kind_of, weekday_of

DAYS_BEFORE = 3


def clock_text(minute):
    return f"{minute // 60:02}:{minute % 60:02}"


def days_text(count, words):
    """Returns how many days before or after, nothing on the day itself."""
    if count == 0:
        return ""
    return f" the day {words}" if count == 1 else f" {count} days {words}"


def window_text(start, end):
    """Returns the line of a window from a minute up to another, both seen from the day's start."""
    first = clock_text(start % DAY) + days_text(-(start // DAY), "before")
    if end == DAY:
        return f"  {first} to 24:00\n"
    return f"  {first} to {clock_text(end % DAY)}{days_text(end // DAY, 'after')}\n"


def windows_text(starts, reach):
    """Returns the lines of the windows that hold a minute of the day, by their starts."""
    windows = [(start, start + reach) for start in starts]
    return "".join(window_text(*it) for it in windows if it[0] < DAY and it[1] > 0)


def command_text(command, day, longest):
    if command.schedule is None:
        return f"line {command.line}: at reboot\n"
    starts = [
        minute - back * DAY
        for back in range(DAYS_BEFORE, -1, -1)
        for minute in due_minutes(command.schedule, kind_of(day - back))
    ]
    count = sum(start >= 0 for start in starts)
    return f"line {command.line}: due {count}\n" + windows_text(starts, longest)


def job_text(job, longest, hours):
    """Returns the lines of an anacron job: each day it may be caught up in the hours."""
    first, past = hours
    starts = [first - back * DAY for back in range(DAYS_BEFORE, -1, -1)]
    windows = windows_text(starts, past - 1 - first + longest)
    return b"job %s: catch-up\n%s" % (job.identifier, windows.encode())


def day_answer(crontab, anacrontab, day, longest, hours):
    text = f"{day_text(day)} {WEEKDAYS[weekday_of(day)]}\n"
    text += "".join(command_text(it, day, longest) for it in crontab.commands)
    return text.encode() + b"".join(job_text(it, longest, hours) for it in anacrontab.jobs)
