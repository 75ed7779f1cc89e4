"""Crontabs of Debian packages, in tests/debian/tables, and the users of their commands."""
import re
from pathlib import Path

TABLES = Path(__file__).resolve().parent / "debian/tables"
ANACRONTAB = ".anacrontab"
NAMES = sorted(it.name for it in TABLES.iterdir() if it.suffix != ANACRONTAB)
# The users of the packages; those that aren't here have root.
USERS = dict(it.split() for it in (TABLES.parent / "users").read_text().splitlines())
TIMES = re.compile(rb"^[ \t]*((?:@\S+|[*\d]\S*(?:[ \t]+\S+){4})[ \t]+)", re.MULTILINE)


def user_of(name):
    return USERS.get(name, "root").encode()


def with_users(name):
    """Returns the system table of a package, which has the user before each command."""
    return TIMES.sub(rb"\g<0>" + user_of(name) + b"\t", (TABLES / name).read_bytes())
