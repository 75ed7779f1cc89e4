"""Random plans: the bytes of a crontab, of declarations and perhaps of an anacrontab, by names."""
import json
import re
from functools import partial
from pathlib import Path

from model.calendar import DAYS_IN
from model.crontab import read_crontab
from model.declarations import is_doubled, zone_by
from model.nights import is_usable

# day of the month, month, weekday
DAYS = Path(__file__).with_name("days").read_text().splitlines()
MODES = {
    "no waiting": ["none", "none", "skip", "try"],
    "waiting": ["none", "skip", "try", "wait", "wait"],
    "sharing": ["none", "skip", "try", "wait", "shared", "shared"],
    "all modes": ["none", "skip", "try", "wait", "shared"],
}
# How an entry names its line.
NAMES = [["line"], ["command"], ["line", "command"]]
PERIODS = ["1", "7", "@daily", "@weekly", "@monthly", "30"]
RULES = Path(__file__).parents[1].joinpath("zones/rules").read_text().splitlines()[1:]
RULES = [it for it in (line.split()[1] for line in RULES) if is_usable(it) and "," in it]


def minute_and_hour(rng, often):
    """Two fields: mostly one of a few minutes of the day, so that jobs meet."""
    minute = rng.choice(often) if rng.random() < 0.7 else rng.randrange(1440)
    hours = [str(minute // 60)] * 30
    hours += [f"*/{rng.choice([4, 6, 8, 12])}"] * 4
    hours += [f"{minute // 60},{rng.randrange(24)}"] * 3 + ["*"] * 3
    return f"{minute % 60} {rng.choice(hours)}"


def declared(rng, modes, groups, longest):
    said = {"max": longest}
    mode = rng.choice(modes)
    if mode != "none":
        said["mode"] = mode
    if mode != "none" or rng.random() < 0.5:
        said["group"] = f"g{rng.randrange(groups)}"
    if rng.random() < 0.3:
        said["weight"] = rng.randint(1, 3)
    return said


def name_of(rng, line):
    """Returns how declarations name a line, whose command no other line has."""
    whole = {"line": line, "command": f"/bin/job{line}"}
    return {it: whole[it] for it in rng.choice(NAMES)}


def has_entry(rng, said):
    """Returns whether a job has an entry: beside a default some have none."""
    return "default" not in said or rng.random() < 0.6


def with_lines(rng, modes, groups, schedules, longest, capacities):
    """Returns a crontab of these schedules, and its declarations: few lines are left out."""
    crontab, said = "", {"capacity": rng.choice(capacities), "cron": [], "left_out": []}
    said["groups"] = [{"name": f"g{it}", "exclusive": rng.random() < 0.8} for it in range(groups)]
    if rng.random() < 0.2:
        said["default"] = {"max": longest(), **rng.choice([{}, {}, {"weight": 2}])}
    for line, schedule in enumerate(schedules, 1):
        crontab += f"{schedule} /bin/job{line}\n"
        name, its = name_of(rng, line), declared(rng, MODES[modes], groups, longest())
        if rng.random() < 0.06:
            said["left_out"].append(name)
        elif has_entry(rng, said):
            said["cron"].append({**name, **its})
    if rng.random() < 0.06:
        crontab += "@reboot /bin/at-startup\n"
        said["left_out"].append({"command": "/bin/at-startup"})
    return crontab, said


def files_of(crontab, said, anacrontab):
    """Returns the files of a plan; of an empty anacrontab there is none."""
    texts = {b"crontab": crontab, b"declarations": json.dumps(said), b"anacrontab": anacrontab}
    return {name: text.encode() for name, text in texts.items() if text or name != b"anacrontab"}


def random_plan(rng, modes):
    """Two to six lines, due on all sorts of days, and up to three jobs of catch-up."""
    count, often = rng.choice([1, 1, 2, 3]), rng.sample(range(1440), 8)
    lines = range(rng.randint(2, 6))
    schedules = (f"{minute_and_hour(rng, often)} {rng.choice(DAYS)}" for _ in lines)

    def longest():
        return rng.randint(1, rng.choice([20, 90, 90, 600, 4320]))

    crontab, said = with_lines(rng, modes, count, schedules, longest, [2, 3, 4, 5, 6, 64])
    anacrontab = random_catch_up(rng, said, count) if rng.random() < 0.35 else ""
    return files_of(crontab, said, anacrontab)


def random_catch_up(rng, said, groups):
    """Puts hours, a pass minute and anacron jobs into declarations; returns the anacrontab."""
    first = rng.randrange(1440)
    said["hours"] = [first, rng.randint(first + 1, min(1440, first + rng.choice([1, 240, 1440])))]
    if rng.random() < 0.4:
        said["pass"] = rng.randrange(1440)
    anacrontab, said["anacron"] = "", []
    for number in range(rng.randint(1, 3)):
        delay = rng.choice([0, 5, 10, 65, rng.randint(0, 2000)])
        anacrontab += f"{rng.choice(PERIODS)} {delay} job{number} /bin/catch\n"
        most = rng.choice([1, rng.randint(1, 60), rng.randint(1, 2000)])
        its = {"id": f"job{number}", "max": most}
        if rng.random() < 0.5:
            its["group"] = f"g{rng.randrange(groups)}"
        if has_entry(rng, said):
            said["anacron"].append(its)
    return anacrontab


def schedule_about(rng, rule, often):
    """Returns the five fields of a line, most likely due about a jump of a zone's clock."""
    month, week, weekday = map(int, rng.choice(re.findall(r"M(\d+)\.(\d)\.(\d)", rule)))
    first, last = min(7 * week - 6, DAYS_IN[month] - 7), DAYS_IN[month]
    days = [f"{first}-{first + 7} {month} *", f"{first}-{last}/2 {month} *", rng.choice(DAYS)]
    days += [f"* {month} {weekday}", f"*/2 {month} {weekday}", f"* * {(weekday + 1) % 7}"]
    minute = rng.choice(["0", "30", "59", "15,45", "5-55/25", "*/30"])
    hour = rng.choice(["0", "1", "2", "1-3", "2,23", "*/8", "*,2"])
    time = minute_and_hour(rng, often) if rng.random() < 0.7 else f"{minute} {hour}"
    line = f"{time} {rng.choice(['* * *'] * 5 + days)}"
    [command] = read_crontab(f"{line} a".encode()).commands
    is_again = is_doubled(command.schedule, zone_by(rule))
    return schedule_about(rng, rule, often) if is_again else line


def zoned_plan(rng, modes):
    """The same by the clock of a zone, with catch-up in all hours."""
    rule, count = rng.choice(RULES), rng.choice([1, 1, 2])
    often = rng.sample([*range(300), *range(1320, 1440)], 6)
    schedules = [schedule_about(rng, rule, often) for _ in range(rng.randint(2, 5))]

    def longest():
        return rng.randint(1, rng.choice([5, 20, 60, 120]))

    crontab, said = with_lines(rng, modes, count, schedules, longest, [2, 3, 4, 5, 64])
    anacrontab, said["zone"] = "", rule
    if rng.random() < 0.15:
        anacrontab = random_catch_up(rng, said, count)
        del said["hours"]
        said.pop("pass", None)
    return files_of(crontab, said, anacrontab)


def tiny_plan(rng, modes, noon):
    """Two to four lines due within six minutes after noon of every day, with runs of minutes."""
    count = rng.choice([1, 1, 2])
    lines = range(rng.randint(2, 4))
    schedules = (f"{rng.randint(0, 6)} {noon // 60} * * *" for _ in lines)
    times = partial(rng.randint, 1, 4)
    crontab, said = with_lines(rng, modes, count, schedules, times, [1, 2, 2, 3, 4, 64])
    anacrontab = ""
    if rng.random() < 0.3:
        first = noon + rng.randint(0, 6)
        said["hours"], said["anacron"] = [first, first + rng.randint(1, 4)], []
        for number in range(rng.randint(1, 2)):
            anacrontab += f"1 {rng.randint(0, 2)} job{number} /bin/catch\n"
            its = {"id": f"job{number}", "max": rng.randint(1, 3)}
            if rng.random() < 0.6:
                its["group"] = f"g{rng.randrange(count)}"
            if has_entry(rng, said):
                said["anacron"].append(its)
    return files_of(crontab, said, anacrontab)
