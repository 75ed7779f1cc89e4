"""Nights on which a clock jumps, as `record` saw Debian's cron start lines of a crontab."""
import re
from pathlib import Path
from types import SimpleNamespace

from model.calendar import DAY, day_of_text
from model.nights import Zone

FOLDER = Path(__file__).resolve().parent


def night_of(path):
    """Returns a night of a file; `span` has the minutes that were recorded, by their texts."""
    _, head, *rows = path.read_text("utf-8").splitlines(keepends=True)
    rule, date, first, last = re.fullmatch(r"# (\S+) (\S+) from (.+) to (.+)\n", head).groups()
    zone, day = Zone(rule), day_of_text(date.encode())
    span = {zone.text(it, day): it for it, wall in zone.walls(day) if wall // DAY == day}
    span = {text: it for text, it in span.items() if span[first] <= it <= span[last]}
    lines, rows = [it.split(" -> ")[0] for it in rows], "".join(rows)
    return SimpleNamespace(head=head, zone=zone, day=day, span=span, lines=lines, rows=rows)


def rows_text(lines, starts):
    return "".join(f"{it} -> {', '.join(own) or 'none'}\n" for it, own in zip(lines, starts))


NIGHTS = {it.name: night_of(it) for it in sorted(FOLDER.glob("*-*"))}
