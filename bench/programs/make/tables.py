"""tables.py FOLDER SHAPE LINES: always writes the same crontab 'table' and declarations 'jobs'.

varied   half of the lines daily, the others on one of 22 patterns of days; 3 % minutely, 9 % each
         five minutes, 8 % each 10 to 30; a quarter of the others wait for the lock of one of 16
         groups
distinct a line for each month, one for each day of a month and one for each weekday, so that no two
         of the 2,562 kinds of days have the same lines due; the others are due each day, 5 of them
         minutely, 18 each five minutes, 16 each twenty. Every run takes one minute and none waits;
         at most 40 run at once
waiting  every line waits for the lock of one of 16 groups
months   each line is due daily in one month
"""
import json
import random
import sys
from pathlib import Path

folder, shape, lines = sys.argv[1], sys.argv[2], int(sys.argv[3])
rng = random.Random(f"{shape} {lines}")
GROUPS = 16
PATTERNS = (
    [f"* * {it}" for it in ("1-5", "0,6", "0", "1", "3", "5", "6", "1,3,5")]
    + [f"{it} * *" for it in ("1", "15", "28", "31", "1,15", "1-7", "*/2", "8-14")]
    + [f"* {it} *" for it in ("1", "1-6", "3,6,9,12", "12")]
    + ["1 */3 *", "1-7 * 1"]
)
# the fields of the lines of `distinct`: the first 50 are restricted in one field each
DISTINCT = (
    [f"{it} 0 * {it + 1} *" for it in range(12)]
    + [f"{it} 1 {it + 1} * *" for it in range(31)]
    + [f"{it} 2 * * {it}" for it in range(7)]
    + ["* * * * *"] * 5 + ["*/5 * * * *"] * 18 + ["*/20 * * * *"] * 16
    + [f"{it % 60} {it // 60} * * *" for it in range(180, 1440, 6)]
)


def daily():
    return f"{rng.randrange(60)} {rng.randrange(24)}"


def varied():
    """Returns a line's fields, its longest time, and whether it waits."""
    days = "* * *" if rng.random() < 0.5 else rng.choice(PATTERNS)
    often = rng.random()
    if often < 0.03:
        return f"* * {days}", 1, False
    if often < 0.12:
        return f"*/5 * {days}", rng.randint(1, 4), False
    if often < 0.2:
        return f"*/{rng.choice([10, 15, 20, 30])} * {days}", rng.randint(1, 9), False
    return f"{daily()} {days}", rng.randint(1, 30), rng.random() < 0.25


def line_of(number):
    """Returns a line and its declaration."""
    if shape == "varied":
        fields, most, waits = varied()
    elif shape == "distinct":
        fields, most, waits = DISTINCT[number], 1, False
    else:
        months = "*" if shape == "waiting" else number % 12 + 1
        fields, most, waits = f"{daily()} * {months} *", rng.randint(1, 30), shape == "waiting"
    said = {"line": number + 1, "max": most}
    if waits:
        said |= {"group": f"g{rng.randrange(GROUPS)}", "mode": "wait"}
    return f"{fields} /bin/job {number}\n", said


made = [line_of(number) for number in range(lines)]
groups = [{"name": f"g{it}", "exclusive": True} for it in range(GROUPS)]
declared = {"capacity": 64, "groups": groups, "cron": [said for _, said in made]}
Path(folder, "table").write_text("".join(line for line, _ in made), "utf-8")
Path(folder, "jobs").write_text(json.dumps(declared), "utf-8")
