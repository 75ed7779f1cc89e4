"""What `replay` makes of logs with times that daemons have written.

The clock of these daemons shows fixed minutes, each as soon as all is told that happens in the one
before. The tables, what is done to each daemon, the lines of the logs, the scripts and the answers
are in the file `replayed`; these were reckoned by hand, from the manual and DEFINITIONS.md. The logs
have each line that the manual lists, but for `status none`, a command outside of the plan that can't
be started, an output that can't be kept, and other reasons to end than a clock that went back.
"""
import re

from harness import wanted

from daemon import WAITED, minute_of, sections_of
from tests import MINUTE, declared, job_lines, moments_and_texts

TEXTS = sections_of("replayed")
JOB = "7 0 a true\n"
# so many minutes the clock of a plan is ahead of UTC, or behind it
AHEAD, BEHIND = 60, -60
# what `learn` says of the second plan's run, by the first plan's table
OTHER = "note: line 2: 1 run left out, since the log lists another command for it, or none"


def play(room, offset, steps):
    """Does to a daemon what the steps of a text say.

    `at` lets its clock go on from the sixth second of a minute of the plan's clock; `until` waits for
    lines of the log; `write` makes a file.
    """
    for word, text in (it.split(" ", 1) for it in steps.splitlines()):
        if word == "at":
            room.set_clock(MINUTE * (minute_of(text) - offset) + 5)
        elif word == "until":
            room.wait_for_logged(*text.split(", "))
        else:
            room.write(text, "")


def look_at_log(log, digests, table, right):
    """Holds the log of a daemon of this table against its lines, whose order isn't promised.

    A stamp that can't be written is told each second. How long a run took isn't looked at.
    """
    _, texts = moments_and_texts(log.splitlines())
    texts = [re.sub(r" after \d+ s$", "", it) for it in texts]
    often = "stamp not written a"
    texts = [it for it in texts if it != often] + [often] * (often in texts)
    right = [*right.splitlines(), *digests, *job_lines(table)]
    wanted("log", "\n".join(sorted(right)), "\n".join(sorted(texts)))


def look_at_replay(room, names, which=""):
    """Holds what `replay` says of a log against the script and the answers."""
    script, answers = TEXTS[f"{which}script"], TEXTS[f"{which}answers"]
    table, log, declarations = names
    words = ("replay", table, log, "--declarations", declarations, "--log")
    wanted("script", (0, script, ""), room.call(*words, "--script"))
    status = 0 if answers.endswith("safe so far\n") else 1
    wanted("answers", (status, answers, ""), room.call(*words, "--judge"))


def replayed_log(room):
    """A log of runs that wait, are skipped, fail, are killed, not started or late, and more."""
    wait, attempt = {"group": "g", "mode": "wait"}, {"group": "g", "mode": "try"}
    brief = {"group": "h", "max": 1}
    terms = {"line2": {**wait, "max": 10}, "line3": wait, "line4": attempt}
    terms |= {"line10": brief, "line11": brief}
    lines = (2, 3, 4, 5, 6, 8, 10, 11, 12)
    room.take(declared(6, lines, ["a"], ["g", "h"], AHEAD, **terms), TEXTS["table"], JOB)
    digests = room.digests()
    (room.folder / "stamps/a").mkdir()
    play(room, AHEAD, "at 2024-03-10 01:58")
    room.step("--log", "log", "--on-failure", "exit 1", "--on-overrun", "exit 2")
    room.wait_for_logged("ended job a", "stamp not written a")
    (room.folder / "stamps/a").rmdir()
    room.wait_for_file("stamps/a")
    play(room, AHEAD, TEXTS["steps"])
    certificate, place = room.read("certificate"), room.folder / "stamps/cronsafe answer new"
    room.write("certificate", "{")
    wanted("reload", (3, "", "cronsafe: certificate: 2 NotJson\n"), room.reload())
    room.write("certificate", certificate)
    place.mkdir()
    told = (6, "", "cronsafe: can't read the answer in stamps\n")
    wanted("reload without a place for its answer", told, room.reload())
    place.rmdir()
    room.stop_now()
    play(room, AHEAD, TEXTS["last steps"])
    room.ends(0)
    look_at_log(room.read("log"), digests, TEXTS["table"], TEXTS["log"])
    wanted("stamp", "20240310\n", room.read("stamps")["a"])
    look_at_replay(room, ("crontab", "log", "declarations"))


def begin_two_plans(room, lines, table, *options):
    """Has a daemon reload beside a run, and one that waits; returns digests, and what `reload` says."""
    wait = {"group": "g", "mode": "wait", "max": 5}
    old = declared(3, (1, 2), ["a"], ["g"], BEHIND, line1=wait, line2=wait)
    room.take(old, TEXTS["old table"], JOB)
    digests = room.digests()
    play(room, BEHIND, "at 2024-03-10 00:10")
    room.step("--log", "log")
    play(room, BEHIND, TEXTS["first steps"])
    for name in ("crontab", "declarations"):
        room.write(f"old {name}", room.read(name))
    room.take(declared(2, lines, ["a"], offset=BEHIND), table, JOB)
    status, out, said = room.ask("reload", "stamps", *options)
    wanted("reload", (0, ""), (status, out))
    return digests, said


def look_at_two_plans(room, digests, which=""):
    """Holds a log of two plans, and what `replay` says of each."""
    log = room.read("log")
    front = log[: log.rindex("\n", 0, log.rindex(" running ")) + 1]
    room.write("front", front)
    look_at_log(front, digests, TEXTS["old table"], TEXTS[f"{which}old log"])
    new = log.removeprefix(front), room.digests(), room.read("crontab")
    look_at_log(*new, TEXTS[f"{which}new log"])
    look_at_replay(room, ("old crontab", "front", "old declarations"), f"{which}old ")
    look_at_replay(room, ("crontab", "log", "declarations"), f"{which}new ")


def replayed_logs_of_two_plans(room):
    """A log with a `reload` in it, whose second plan ends by itself."""
    digests, _ = begin_two_plans(room, [2], TEXTS["new table"], "--drain")
    play(room, BEHIND, TEXTS["draining steps"])
    room.ends(6)
    room.holds(printed="", said="cronsafe: the clock went back, or is before 1970-01-04\n")
    look_at_two_plans(room, digests)
    for table, line, other in (("old crontab", 1, [OTHER]), ("crontab", 2, [])):
        status, _, told = room.ask("learn", table, "log")
        wanted("status of learn", 0, status)
        wanted("the run of the table", True, f"line {line}: 1 run (fewer than 10)" in told)
        wanted("other runs", other, [it for it in told.splitlines() if "left out" in it])


def replayed_logs_without_a_gap(room):
    """The same with a new plan that begins in the minute in which the old one has nothing to do."""
    # its last line is due in the minute in which the new plan begins
    table = f"{TEXTS['new table']}12 0 * * * true\n"
    digests, said = begin_two_plans(room, [2, 3], table)
    said = re.sub(r"(until 2024-03-10T01:16:)\d\dZ", r"\1", said).removeprefix(WAITED)
    wanted("what it waits for", TEXTS["gapless waits"], said)
    play(room, BEHIND, TEXTS["gapless steps"])
    room.wait_for("the state", lambda: "T01:13:" in room.read("stamps/cronsafe state"))
    play(room, BEHIND, TEXTS["last gapless steps"])
    room.stop_now()
    room.ends(0)
    look_at_two_plans(room, digests, "gapless ")
