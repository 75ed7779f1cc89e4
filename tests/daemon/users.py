"""The tests of `run` as root, of a gathered table: each command as the user of its place.

Each is in a mount namespace of its own, and without root in a user namespace too, with users that
are made here. Users, table and outputs are in the file `gathered`.
"""
import os
import subprocess
import time

from harness import wanted

from daemon import date_text, early_minute, sections_of
from tests import declared, due_at

DAY = 86_400
TEXTS = sections_of("gathered")
BIND = 'mount --bind passwd /etc/passwd && mount --bind shadow /etc/shadow && exec "$@"'
# the status of each command of the table that is started, and why the others aren't
STATUSES = {0: 0, 1: 0, 2: 7, 6: 137, 7: 0}
WHYS = {3: "'nobody-here': it isn't in /etc/passwd"}
WHYS |= {4: "'gone': the account has expired", 5: "'last': the account has expired"}


def as_root(words):
    """Returns words that start others as root, with the users of a room."""
    own = [] if os.geteuid() == 0 else ["--map-root-user", "--map-auto"]
    return ["unshare", "--mount", *own, "sh", "-c", BIND, "sh", *words]


def start_as_root(room, *options, **variables):
    """Starts a daemon with these users: of three the account expires yesterday, today and tomorrow."""
    today = int(time.time()) // DAY
    expiry = {"joe:!": "", "ann:*": "", "gone:*": today - 1, "last:*": today, "next:*": today + 1}
    room.write("shadow", "".join(f"{it}:19000:0:99999:7::{day}:\n" for it, day in expiry.items()))
    for name in ("passwd", "loaded.c"):
        room.write(name, TEXTS[name])
    library = ["-shared", "-fPIC", "-o", "loaded.so", "loaded.c"]
    subprocess.run([os.environ.get("CC", "cc"), *library], cwd=room.folder, check=True)
    (room.folder / "out").mkdir()
    words = room.words("--log", "log", "--output", "out", *options)
    room.start(as_root(words), **variables)


def users_of_a_gathered_table(room):
    """Each command as its user. For one that gets root's environment, or root by LD_PRELOAD."""
    minute = early_minute() + 1
    table = TEXTS["table"].replace("AT ", f"{due_at(minute)} ").replace("ROOM", str(room.folder))
    numbers = [at for at, it in enumerate(table.splitlines(), 1) if it[0].isdigit()]
    room.take(declared(len(numbers), numbers), table)
    start_as_root(room, SECRET="root's")
    names = [f"line {it} due {date_text(minute)}" for it in numbers]
    room.wait_for_logged(*(f" ended {names[it]} " for it in STATUSES), seconds=120)
    room.stop()
    statuses = {it.split(" after ")[0] for it in room.texts() if "ended " in it}
    wanted("ends", {f"ended {names[at]} status {it}" for at, it in STATUSES.items()}, statuses)
    output = {int(it.split("-")[5]): text for it, text in room.read("out").items()}
    wanted("first command of joe", TEXTS["first of joe"], output[numbers[0]] + "\n")
    wanted("second command of joe", TEXTS["second of joe"], output[numbers[1]])
    told, _, rest = output[numbers[6]].partition("\n")
    wanted("command without its home", (True, "next\n/\n"), ("/no/such" in told, rest[:7]))
    wanted("command of root", "root\nin a session of runuser\n", output[numbers[7]])
    everything = room.read("said") + room.read("printed") + "".join(output.values())
    wanted("libraries that root loaded", 0, everything.count("loaded by 0"))
    for at, why in WHYS.items():
        right = [f"{names[at]}: can't start a command as {why}", f"not started {names[at]}"]
        wanted(f"lines of {why}", right, [it for it in room.texts() if it in right])


def gathered_table_without_root(room):
    """A gathered table, for a user that isn't root."""
    table = "CRONSAFE_TABLE=gathered\n#@ /etc/crontab:1 root\n0 1 * * * echo x >>ran\n"
    room.take(declared(1, [3]), table)
    words = room.words("--minutes", "0")
    if os.geteuid() == 0:
        for it in (room.folder, *room.folder.rglob("*")):
            os.chown(it, 65534, 65534)
        words = ["setpriv", "--reuid=65534", "--regid=65534", "--clear-groups", *words]
    room.start(words)
    room.ends(6)
    said = "cronsafe: only root can run the gathered table crontab\n"
    room.holds(printed="", said=said, ran="", stamps={})
