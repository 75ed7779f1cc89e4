"""The tests of `run`. A job of an anacrontab that has no stamp is started at once, so that tests
with such jobs alone take some seconds; a command of a crontab waits for its minute.
"""
import fcntl
import json
import os
import pwd
import re
import signal
import socket
import subprocess
import time
from concurrent.futures import ThreadPoolExecutor
from contextlib import contextmanager
from pathlib import Path

from harness import NO_CONFLICT, Fault, wanted, without_shown

import failures
from daemon import SOON, UNUSED, WAITED, date_text, early_minute, minute_now, minute_of
from daemon import moment_text, moments_and_texts, runs, seconds_of, sections_of, stamp_text

MINUTE = 60
DAY = 1440
# so long a run of a job may take that ends at once
MAX = 2
# a command that ends once there is a file of this name
UNTIL = "until [ -e {} ]; do sleep 0.1; done"
# one that says then that it ran
HELD = f"{UNTIL.format('done')}; echo x >>ran"
# a job of an anacrontab that says that it ran
ONE_JOB = "7 0 a echo x >>ran\n"
ONCE = ("--minutes", "0")
OVER = "the minutes of --minutes are over"
NO_COUNTS = "skipped 0, overruns 0, not started 0, outages 0, stamps not written 0, missed 0"
TEXTS = sections_of("tables")


def declared(capacity, lines=(), identifiers=(), groups=(), offset=0, left_out=(), **terms):
    """Returns declarations of jobs, each with the short time and the terms of its name.

    The name is the identifier, or line1 for line 1. The groups are exclusive.
    """
    return {
        "capacity": capacity,
        "left_out": [{"line": it} for it in left_out],
        "offset": offset,
        "groups": [{"name": it, "exclusive": True} for it in groups],
        "cron": [{"line": it, "max": MAX, **terms.get(f"line{it}", {})} for it in lines],
        "anacron": [{"id": it, "max": MAX, **terms.get(it, {})} for it in identifiers],
    }


def program_of(command):
    """Returns what a job is called if its entry doesn't say so."""
    return re.split("[ \t]", command)[0].rpartition("/")[2]


def job_lines(table):
    """Returns the lines of a log that list the commands of a crontab, and what these are called."""
    lines = [(at, it.split(None, 5)) for at, it in enumerate(table.splitlines(), 1)]
    lines = [(at, words[5]) for at, words in lines if len(words) == 6]
    texts = ((f"job line {at}: {it}", f"called line {at}: {program_of(it)}") for at, it in lines)
    return [it for both in texts for it in both]


def take_job(room, command="echo x >>ran", **terms):
    """Takes a job of an anacrontab; returns the minute that it is, and the job's run in it."""
    room.take(declared(1, [], ["a"], a=terms), "", f"7 0 a {command}\n")
    minute = early_minute()
    return minute, f"job a at {date_text(minute)}"


def begin(room, *options, **paths):
    """Starts a daemon of a plan without a job, and waits until it tells its state."""
    room.take(declared(1), "")
    room.start(room.words(*options, **paths), given="")
    room.wait_for_file("stamps/cronsafe state")


def begin_job(room, command):
    """Starts a daemon of a job of an anacrontab, and waits for the run; returns minute and run."""
    minute, run = take_job(room, command)
    room.start(room.words())
    room.wait_for_line(f"started {run}")
    return minute, run


def due_at(minute):
    """Returns the five fields of a line that is due at that minute of each day."""
    return f"{minute % 60} {minute // 60 % 24} * * *"


def refuses(room, said, *options, folder="stamps", **texts):
    """Runs a daemon that ends at once with status 6 and this message, and does nothing else."""
    room.run(*ONCE, *options, status=6, seconds=SOON, stamps=folder)
    room.holds(**{"printed": "", "said": f"cronsafe: {said}\n", "ran": "", "stamps": {}, **texts})


def in_place(path, *ways):
    """Yields while at a path there is what each of these ways makes of it, or a link to such a path."""
    for way in ways:
        way(path) if callable(way) else path.symlink_to(way)
        yield
        path.rmdir() if path.is_dir() else path.unlink()


@contextmanager
def locked(room):
    """Locks the folder of stamps, as a daemon of an earlier version does."""
    folder = os.open(room.folder / "stamps", os.O_RDONLY)
    fcntl.flock(folder, fcntl.LOCK_EX)
    yield
    fcntl.flock(folder, fcntl.LOCK_UN)  # a child that another test forks may hold the descriptor still
    os.close(folder)


def jobs_are_run(room):
    """Minutely commands and a job of an anacrontab, at an offset, with settings and inputs."""
    shell = room.folder / "shell"
    shell.write_text("#!/bin/sh\nprintf '%s\\n' \"$0 $1 $2\" >>words\nexec /bin/sh \"$@\"\n")
    shell.chmod(0o755)
    anacrontab = 'KIND=anacron\n7 0 a.b echo "$KIND %" >own; cat >>own\n'
    lines, left_out = (3, 4, 5, 6, 13), (7, 8)
    table = TEXTS["jobs"].replace("OWN_SHELL", str(shell))
    room.take(declared(11, lines, ["a.b"], offset=90, left_out=left_out), table, anacrontab)
    first = early_minute() + 90
    room.run("--minutes", "2", seconds=4 * MINUTE)
    minutes = [first + 1, first + 2]
    names = [f"line {it} due {date_text(minute)}" for it in lines for minute in minutes]
    started = [int(it) // MINUTE + 90 for it in room.read("times").split()]
    wanted("minutes of the runs", minutes, started)
    files = ("said", "settings", "input", "nothing", "others", "words")
    files = {it: TEXTS[f"{it} of the jobs"].replace("OWN_SHELL", str(shell)) for it in files}
    lines, stamps = runs(f"job a.b at {date_text(first)}", *names), {"a.b": stamp_text(first)}
    room.holds(lines, own="anacron %\n", stamps=stamps, **files)


def table_of_standard_input(room):
    """A clock that stops at once, with the table on standard input; and `reload` of such a daemon.

    For one that takes an empty table then.
    """
    begin(room, table="-")
    wanted("reload", (6, "", "cronsafe: can't read standard input again\n"), room.reload())
    room.stop()
    table, stamp = "* * * * * echo x >>ran\n", stamp_text(minute_now() - DAY)
    room.take(declared(3, [1], ["a"]), table, ONE_JOB)
    room.write("stamps/a", stamp)
    room.run(*ONCE, table="-", given=table, seconds=SOON)
    room.holds(printed="", said="", ran="", stamps={"a": stamp})


def stamps_of_a_job(room):
    """A job with a stamp: none, so many days old, to come, or of another text; each time twice."""
    rows = [(None, True), (6, False), (7, True), (-1, True), ("", True)]
    for stamp, is_run, *more in *rows, ("yesterday\n", True, "stamp not read a"):
        minute, run = take_job(room)
        text = stamp_text(minute - stamp * DAY) if isinstance(stamp, int) else stamp
        if text is not None:
            room.write("stamps/a", text)
        room.write("ran", "")
        left = {"a": stamp_text(minute) if is_run else text}
        for lines in [*more, *(runs(run) if is_run else [])], []:
            room.run(*ONCE)
            room.holds(lines, ran="x\n" if is_run else "", stamps=left)
        (room.folder / "stamps/a").unlink()


def refused_folders(room):
    """Folders of stamps that are refused: nothing can be written to them, or other users can write
    to them, or they have an old request, or in place of a list of runs a folder, a pipe or a link.
    """
    take_job(room)
    # (not even the superuser makes files there)
    refuses(room, "can't lock /proc", folder="/proc")
    folder = room.folder / "stamps"
    for mode in (0o777, 0o1777, 0o702):
        folder.chmod(mode)
        refuses(room, "other users can write to stamps")
    folder.chmod(0o775)
    for _ in in_place(folder / "cronsafe stop", Path.mkdir):
        refuses(room, "can't remove old requests from stamps", stamps={"cronsafe stop": {}})
    for _ in in_place(folder / "cronsafe runs", Path.mkdir, os.mkfifo, "none"):
        refuses(room, "can't read the list of runs in stamps")
    room.run(*ONCE, seconds=SOON)
    room.holds(said="", ran="x\n")


def kinds_of_lock(room):
    """What stands in the place of a folder's lock: nothing, its file, links, a pipe, a folder."""
    take_job(room)
    lock, victim = room.folder / "stamps/cronsafe lock", room.folder / "victim"
    room.run(*ONCE, seconds=SOON)
    wanted("mode of the lock", 0o600, lock.stat().st_mode & 0o777)
    number = lock.stat().st_ino
    room.run(*ONCE, seconds=SOON)
    wanted("number of the lock", number, lock.stat().st_ino)
    wanted("stop of nobody", UNUSED, room.ask("stop", "stamps"))
    lock.unlink()
    wanted("stop without a lock", UNUSED, room.ask("stop", "stamps"))
    wanted("a lock that nobody has made", False, lock.exists())
    victim.touch()
    left = {"ran": "x\n", "victim": "", "nowhere": "", "stamps": room.read("stamps")}
    for _ in in_place(lock, victim, room.folder / "nowhere", os.mkfifo, Path.mkdir):
        refuses(room, "can't lock stamps", **left)


def daemon_of_before(room):
    """A daemon of an earlier version, which locks the folder alone."""
    take_job(room)
    with locked(room):
        refuses(room, "another daemon uses stamps")
        (room.folder / "stamps/cronsafe lock").unlink()
        room.stop_now()
    wanted("stop of nobody", UNUSED, room.ask("stop", "stamps"))


def lock_of_a_stranger(room):
    """Another process that locks the folder itself, as one of another user that can read it could.

    It waits for that while a daemon goes on. For a `stop` that waits for it.
    """
    begin(room)
    with subprocess.Popen(["flock", "-F", room.folder / "stamps", "sleep", "60"]) as stranger:
        try:
            room.stop()
            wanted("stop of nobody", UNUSED, room.ask("stop", "stamps"))
            wanted("reload of nobody", UNUSED, room.reload())
            room.look_at_nobody()
        finally:
            stranger.kill()


def folder_taken_away(room):
    """A folder of stamps, or its lock, that is moved away or removed. For two daemons at once."""
    folder, aside = room.folder / "stamps", room.folder / "aside"
    lock = folder / "cronsafe lock"
    for take_away in (
        lambda: folder.rename(aside),
        lambda: (folder.rename(aside), folder.mkdir()),
        lambda: (folder.rename(aside), folder.symlink_to(aside / "none")),
        lock.unlink,
        lambda: (lock.unlink(), lock.touch()),
    ):
        (folder / "cronsafe state").unlink(missing_ok=True)
        begin(room, "--log", "log")
        take_away()
        room.ends(6)
        why = "the folder of stamps was taken away\n"
        room.holds(said=f"cronsafe: {why}")
        wanted("reason in the log", 1, room.read("log").count(f" {why}"))
        if aside.exists():
            wanted("what is in the new folder", [], list(folder.iterdir()) if folder.is_dir() else [])
            folder.unlink() if folder.is_symlink() else folder.is_dir() and folder.rmdir()
            aside.rename(folder)
        (room.folder / "log").unlink()


def stamp_of_a_folder_taken_away(room):
    """A job that ends after another folder has come. For a stamp that is written there."""
    begin_job(room, HELD)
    folder = room.folder / "stamps"
    folder.rename(room.folder / "aside")
    folder.mkdir()
    time.sleep(3)
    room.write("done", "")
    room.ends(6)
    wanted("lost stamps", True, "stamp not written a" in room.read("printed").splitlines())
    wanted("what is in the new folder", {}, room.read("stamps"))


def kinds_of_log(room):
    """What is no log: a pipe, a socket, a folder, a device. For a daemon that waits for a reader."""
    take_job(room)
    os.mkfifo(room.folder / "pipe")
    with socket.socket(socket.AF_UNIX) as there:
        others = ("/dev/full", "/dev/zero", "pipe", lambda it: there.bind(str(it)))
        for _ in in_place(room.folder / "log", os.mkfifo, Path.mkdir, *others):
            refuses(room, "can't write log", "--log", "log")
    (room.folder / "log").symlink_to("/dev/null")
    room.run(*ONCE, "--log", "log", seconds=SOON)
    room.holds(printed="", said="", ran="x\n")


def reloads_at_once(room):
    """Eight calls of `reload` at once, four times. For one that is told another answer."""
    begin(room)
    with ThreadPoolExecutor(8) as pool:
        for status, table in [(0, "")] * 3 + [(3, "24 * * *\n")]:
            room.write("crontab", table)
            answers = set(pool.map(lambda _: room.reload(), range(8)))
            wanted("answers and statuses", (1, {status}), (len(answers), {it[0] for it in answers}))
            wanted("what is said", status != 0, any(out + err for _, out, err in answers))
    room.stop()


def moved_log(room):
    """A log that is moved, as logrotate(8) does, and one that is removed, with `reload` after each. For
    lines that are lost, or that go on into the old file.
    """
    begin(room, "--log", "log")
    for way in lambda log: log.rename(room.folder / "old"), Path.unlink:
        way(room.folder / "log")
        wanted("reload", 0, room.reload()[0])
        room.wait_for_file("log")
        room.wait_for_logged(" running ")
    old = [it.partition(" ")[2] for it in room.read("old").splitlines()]
    wanted("last line of the old log", "stopped", old[-1])
    room.stop()
    wanted("last lines of the log", ["asked to stop", "stopped"], room.texts()[-2:])


def unwritable_stamps(room):
    """A folder that stands in the place of a stamp file: while `stop` waits, and till it is taken away.

    For a `stop` with status 0.
    """
    in_the_way = room.folder / "stamps/a"
    in_the_way.mkdir()
    _, run = begin_job(room, "true")
    room.wait_for_line(f"ended {run} status 0")
    room.wait_for_line("stamp not written a")
    wanted("stop", (1, "", "cronsafe: stamps not written: a\n"), room.ask("stop", "stamps"))
    room.ends(0)
    since = int(time.time())
    minute, run = begin_job(room, "true")
    room.wait_for_line("stamp not written a", 2 * SOON, times=3)
    state = written_state(room, lambda it: it["stamps_not_written"] > 2)
    wanted("a time between", True, since <= seconds_of(state["stamp_fault_at"]) <= time.time())
    in_the_way.rmdir()
    room.wait_for_file("stamps/a")
    written = os.stat(in_the_way).st_mtime_ns
    tries = room.read("printed").splitlines().count("stamp not written a")
    time.sleep(3)
    room.stop()
    lines = [*runs(run), "stamp not read a", *["stamp not written a"] * tries]
    room.holds(lines, stamps={"a": stamp_text(minute)})
    wanted("time of the stamp file", written, os.stat(in_the_way).st_mtime_ns)
    lock = room.read("stamps/cronsafe lock")
    wanted("the lock", ("all stamps are written", 4_096), (lock.rstrip(" "), len(lock)))


def second_daemon(room):
    """A second daemon on a folder of stamps, while the first goes on and after it was killed."""
    minute, run = begin_job(room, "sleep 100; echo x >>ran")
    first = room.daemons[-1]
    refuses(room, "another daemon uses stamps")
    os.killpg(first.pid, signal.SIGKILL)
    os.waitid(os.P_PID, first.pid, os.WEXITED | os.WNOWAIT)
    room.write("stamps/a", stamp_text(minute))
    room.run(*ONCE, seconds=SOON)
    room.holds(printed=f"cut off {run}\n", said="", ran="")


def stopped(room):
    """`stop` beside a daemon with a run under way, and then `stop` without one."""
    minute, run = begin_job(room, "sleep 9; echo x >>ran")
    waited = "cronsafe: waiting for the runs under way to end\n"
    wanted("stop", (0, "", waited), room.ask("stop", "stamps"))
    room.ends(0)
    room.holds(runs(run), said="", ran="x\n", stamps={"a": stamp_text(minute)})
    wanted("stop of nobody", UNUSED, room.ask("stop", "stamps"))
    room.holds(stamps={"a": stamp_text(minute)})


def overrun_while_it_stops(room):
    """A run that becomes late after `stop --now`. For a daemon that looks at no clock by then."""
    minute, run = take_job(room, HELD, max=1)
    room.step("--log", "log", "--on-overrun", 'echo "$CRONSAFE_RUN" >>late')
    room.wait_for_logged(f"started {run}")
    room.stop_now()
    room.wait_for_logged("asked to stop")
    for passed in (1, 2):
        room.set_clock(MINUTE * (minute + passed) + 5)
        room.wait_for("the hook", lambda: room.read("late") == f"{run}\n")
        time.sleep(3)
    state = written_state(room, lambda it: it["overruns"])
    told = state["overruns"], state["stopping"], state["running"][0]["late"]
    wanted("state", (1, True, True), told)
    room.write("done", "")
    room.ends(0)
    texts = room.texts()
    kinds = [" ".join(it.split()[:2]) for it in texts[texts.index("asked to stop") :]]
    wanted("lines", ["asked to", "overrun job", "outside of", "ended job", "stopped"], kinds)


def stopped_in_a_jump(room):
    """`stop` in the second in which the clock skips minutes. For a log that doesn't say so."""
    room.take(declared(2, [1]), "* * * * * echo x >>ran\n")
    for jump in (9, 18, 27, 36):
        for name in ("log", "stamps/cronsafe state"):
            (room.folder / name).unlink(missing_ok=True)
        room.step("--log", "log")
        room.wait_for_file("stamps/cronsafe state")
        room.send(signal.SIGSTOP)
        room.stop_now()
        room.set_clock(MINUTE * (minute_now() + jump) + 5)
        room.send(signal.SIGCONT)
        room.ends(0)
        words = [it.split()[0] for it in room.texts()[5:] if "line 1" not in it]
        # it may be held up between a look at the clock and one for a request, and then sees no jump
        if words != ["asked", "stopped"]:
            break
    wanted("lines behind those of the files", ["outage", "asked", "stopped"], words)
    answer = room.call(*"replay crontab log --declarations declarations --log --judge".split())
    wanted("replay", (0, ["safe so far"]), (answer[0], answer[1].splitlines()[-1:]))


def stopped_twice(room):
    """`stop --now`, which doesn't wait, twice, and a daemon that comes next."""
    _, run = begin_job(room, HELD)
    for _ in range(2):
        room.stop_now()
    room.write("done", "")
    room.ends(0)
    room.holds(runs(run), ran="x\n")
    room.start(room.words())
    room.wait_for("the end of what asks to stop", lambda: "cronsafe stop" not in room.read("stamps"))
    time.sleep(3)
    room.holds([])
    room.stop()
    room.holds([], ran="x\n")


def reloaded(room):
    """`reload` beside a run under way, with other tables, with no certificate, and of nobody."""
    minute, run = take_job(room, HELD)
    room.start(room.words("--log", "log"))
    room.wait_for_logged(f"started {run}")
    room.take(declared(1, [], ["a", "b"]), "", "7 0 a echo y >>ran\n7 0 b echo z >>ran\n")
    status, out, said = room.reload()
    waits = re.fullmatch(r"cronsafe: waiting for (.+), which may run until \S+Z\n", said)
    wanted("reload", (0, "", run), (status, out, waits and waits[1]))
    room.write("done", "")
    room.wait_for("the new job", lambda: room.read("ran") == "x\nz\n")
    room.wait_for("the stamps", lambda: {"a", "b"} <= set(room.read("stamps")))
    room.write("certificate", "safe\n")
    told = "cronsafe: certificate: 2 NotJson\n"
    wanted("reload", (3, "", told), room.reload())
    room.stop()
    room.holds(printed="", ran="x\nz\n")
    texts = [it for it in room.texts() if not it.startswith("no plan after ")]
    refused = texts.index("reload refused, the old plan goes on")
    wanted("the refusal", told.splitlines(), texts[refused + 1 : -2])
    kinds = [" ".join(it.split()[:2]) for it in texts[:refused] + texts[-2:]]
    wanted("kinds of lines", TEXTS["kinds of lines of two plans"].splitlines(), kinds)
    wanted("the stamp", stamp_text(minute), room.read("stamps")["a"])
    wanted("reload of nobody", UNUSED, room.ask("reload", "stamps"))
    wanted("what is left", {"a", "b", "cronsafe answer"}, set(room.read("stamps")))


def refused_reload(room):
    """`reload` with what `check` refuses: an old certificate, and parts that weren't gathered."""
    table = "* * * * * echo old >>ran\n30 23 * * * :\n"
    room.take(declared(4, (1, 2), line2={"max": 10}), table)
    room.step("--log", "log", seconds=6)
    room.wait_for("a run", lambda: room.read("ran"))
    refusal = "refused 5 WindowMissing: line 2 due 1970-01-02 23:30 at 1970-01-03 00:00\n"
    fault = "cronsafe: declarations: 20 OtherParts at cron 1\n"
    check = ("check", "crontab", "declarations", "certificate")
    room.take_tables(declared(4, (1, 2), line2={"max": 60}), table.replace("old", "new"))
    notes = TEXTS["note beside the refusal"]
    wanted("check", (1, refusal, notes), room.call(*check))
    wanted("reload", (1, "", notes + refusal), room.reload())
    room.take_tables(json.loads(TEXTS["other parts"]), TEXTS["gathered table"])
    wanted("check of other parts", (3, "", fault), room.call(*check))
    wanted("reload of other parts", (3, "", fault), room.reload())
    before = len(room.read("ran").split())
    room.wait_for("more runs", lambda: len(room.read("ran").split()) > before + 2)
    room.stop()
    wanted("runs", {"old"}, set(room.read("ran").split()))
    log = "\n".join(room.texts()[4:]).encode()
    log = without_shown(log, lambda it: room.read(it.decode()).encode(), True).decode()
    log = re.sub("(?m)^(?:started|ended|overrun) .*\n", "", log)
    told = ["asked to reload", "reload refused, the old plan goes on"]
    notes = NO_CONFLICT.decode() + notes
    told = [*job_lines(table), *told, *(notes + refusal).splitlines(), *told, fault.strip()]
    told += ["asked to stop", "stopped"]
    wanted("log", "\n".join(told), log)


def answers_of_a_reload(room):
    """`reload` where the answer has no place, of a daemon that is held up, and of a table with a
    setting that has no effect. For one that waits for ever, or doesn't wait, or doesn't say so; and a
    daemon that reloads, or warns nobody.
    """
    begin(room, "--log", "log")
    for _ in in_place(room.folder / "stamps/cronsafe answer new", Path.mkdir):
        wanted("no place", (6, "", "cronsafe: can't read the answer in stamps\n"), room.reload())
    wanted("another reload", (0, "", ""), room.reload())
    wait_for_plans(room, 2)
    room.send(signal.SIGSTOP)
    with ThreadPoolExecutor(1) as pool:
        asked = pool.submit(room.ask, "reload", "stamps")
        time.sleep(5)
        room.send(signal.SIGCONT)
        wanted("late answer", (0, "", WAITED), asked.result())
    wait_for_plans(room, 3)
    room.write("crontab", "CRON_TZ=UTC\n")
    status, out, err = room.call("check", "crontab", "declarations", "certificate")
    wanted("check", (0, "safe\n", 1), (status, out, err.count("CRON_TZ")))
    wanted("reload with a warning", (0, "", err), room.reload())
    room.stop()
    told = ("can't answer, the old plan goes on", " reload accepted", " running crontab ")
    wanted("counts of lines", [1, 3, 4], [room.read("log").count(it) for it in told])


def stopped_while_it_reloads(room):
    """`stop` while the last run of the old plan ends. For a daemon that opens the new plan by then."""
    minute, run = begin_job(room, HELD)
    room.take(declared(1, [], ["a", "b"]), "", "7 0 a echo y >>ran\n7 0 b echo z >>ran\n")
    wanted("reload", (0, ""), room.reload()[:2])
    room.stop_now()
    room.write("done", "")
    room.ends(0)
    room.holds(runs(run), said="", ran="x\n")
    wanted("the stamp", stamp_text(minute), room.read("stamps")["a"])


def reload_of_a_pipe(room):
    """`reload` where a pipe or a folder has taken a file's place. For a daemon that waits for it."""
    begin(room, "--log", "log")
    unread = "can't read a pipe, a device or a folder again"
    whys = dict.fromkeys(("crontab", "declarations", "certificate"), unread)
    for name, why in {**whys, "log": "can't write the log"}.items():
        path, aside = room.folder / name, room.folder / "aside"
        path.rename(aside)
        for _ in in_place(path, os.mkfifo, Path.mkdir):
            wanted(f"another kind of {name}", (6, "", f"cronsafe: {why}\n"), room.reload())
        aside.rename(path)
    (room.folder / "log").unlink()
    wanted("reload", (0, "", ""), room.reload())
    room.wait_for_file("log")
    room.stop()


def wait_for_plans(room, number):
    """Waits until so many plans have begun: what is asked by then is asked of the last one."""
    what = f"a log of {number} plans"
    room.wait_for(what, lambda: room.read("log").count(" running crontab ") >= number)


def look_at_minutes(log):
    """Holds a log against that the command of line 1 was started in each minute."""
    due = [minute_of(it) for it in re.findall("started line 1 due (.+)", log)]
    wanted("minutes of the runs", list(range(due[0], due[-1] + 1)), due)
    wanted("gaps", (0, 0), (log.count("outage"), log.count("no plan after")))


def reloaded_often(room):
    """Minutely runs while the daemon is asked to reload six times, by a clock of steps."""
    room.take(declared(2, [1]), "* * * * * echo x >>ran\n")
    room.step("--log", "log", seconds=7)
    for times in range(6):
        room.wait_for("runs", lambda: len(room.read("ran").split()) > 3 * times + 2)
        wanted("reload", (0, ""), room.reload()[:2])
    wait_for_plans(room, 7)
    room.stop()
    look_at_minutes(room.read("log"))
    wanted("plans", 7, room.read("log").count(" running crontab "))


def reload_beside_a_long_run(room, words, *options):
    """Has `reload` wait for a run of minutes beside minutely ones, by a clock of steps.

    The new table says other words in each minute. Returns what `reload` says.
    """
    table = f"* * * * * echo x >>ran\n{due_at(minute_now() + 3)} {UNTIL.format('done')}\n"
    room.take(declared(5, [1, 2], line2={"max": 4000}), table)
    room.step("--log", "log", seconds=7)
    room.wait_for_logged("started line 2")
    room.take(declared(5, [1, 2], line2={"max": 4000}), table.replace("echo x", f"echo {words}"))
    status, out, told = room.ask("reload", "stamps", *options)
    wanted("reload", (0, ""), (status, out))
    wanted("the long run", 1, told.count("waiting for line 2 due "))
    return told


def reloaded_beside_a_long_run(room):
    """Minutely runs while `reload` waits for a run of minutes. For a gap."""
    told = reload_beside_a_long_run(room, "y")
    wanted("the end of what it says", True, told.endswith(TEXTS["said of busy minutes"]))
    before = len(room.read("ran").split())
    room.wait_for("more runs of the old plan", lambda: len(room.read("ran").split()) > before + 5)
    wanted("runs before the end", {"x"}, set(room.read("ran").split()))
    room.write("done", "")
    room.wait_for("runs of the new plan", lambda: room.read("ran").count("y") > 3)
    room.stop()
    log = room.read("log")
    look_at_minutes(log)
    begins = re.search("begins in (.+) and starts nothing due in it", log)
    first = re.search("started line 1 due (.+)", log[begins.start() :])
    wanted("the first run of the new plan", minute_of(begins[1]) + 1, minute_of(first[1]))


def reloaded_by_draining(room):
    """`reload --drain` beside a run under way. For a daemon that starts more by its old plan."""
    told = reload_beside_a_long_run(room, "x", "--drain")
    left = re.search("until then up to (.+) runs of the old files are left out\n", told)
    wanted("runs that are left out", True, 0 < int(left[1]) <= 4004)
    wanted("requests that stay", False, (room.folder / "stamps/cronsafe drain").exists())
    time.sleep(2)
    before = len(room.read("ran").split())
    time.sleep(3)
    wanted("runs while it ends", before, len(room.read("ran").split()))
    room.write("done", "")
    wait_for_plans(room, 2)
    room.wait_for("more runs", lambda: len(room.read("ran").split()) > before + 2)
    room.stop()
    log = room.read("log")
    latest, now = re.search("no plan after (.+) up to (.+)", log).groups()
    state = json.loads(room.read("stamps/cronsafe state"))
    wanted("missed runs", minute_of(now) - minute_of(latest), state["missed"])
    wanted("how it was accepted", 1, log.count("reload accepted, the runs under way end first"))
    wanted("gaps", (0, 1), (log.count("outage"), log.count("no plan after")))


def own_home(room):
    """Commands with `--home`, with and without a HOME of the table."""
    user = pwd.getpwuid(os.geteuid())
    tell = f"echo $HOME $LOGNAME $USER $(pwd) >>{room.folder}/ran"
    table = f"* * * * * {tell}\nHOME = /\nUSER = someone\n* * * * * {tell}\n"
    room.take(declared(4, [1, 4]), table)
    room.step("--home", seconds=6)
    room.wait_for("runs", lambda: len(room.read("ran").split()) >= 8)
    room.stop()
    lines = {f"{user.pw_dir} {user.pw_name} {user.pw_name} {user.pw_dir}", f"/ {user.pw_name} someone /"}
    wanted("environments", lines, set(room.read("ran").splitlines()))


def timed_log(room):
    """A log with times, behind what its file holds already, and on standard output."""
    _, run = take_job(room, "echo printed; sleep 3; exit 4")
    room.write("log", "what was there\n")
    before = int(time.time())
    room.run(*ONCE, "--log", "log", seconds=SOON)
    room.holds(printed="printed\n", said="")
    first, *lines = room.read("log").splitlines()
    wanted("what was there", "what was there", first)
    times, texts = moments_and_texts(lines)
    wanted("order of times", sorted(times), times)
    wanted("times", True, before <= times[0] and times[-1] <= time.time())
    opening = "running crontab with declarations and certificate and anacrontab, stamps in stamps"
    seconds = times[6] - times[4]
    wanted("seconds", True, 3 <= seconds <= 3 + SOON)
    events = [f"started {run}", OVER, f"ended {run} status 4 after {seconds} s", "stopped"]
    wanted("log", [f"{opening}, capacity 1", *room.digests(), *events], texts)
    (room.folder / "stamps/a").unlink()
    room.run(*ONCE, "--log", "-", seconds=SOON)
    _, texts = moments_and_texts(it for it in room.read("printed").splitlines() if it != "printed")
    kinds = "running table declarations certificate started the ended stopped".split()
    wanted("kinds of lines", kinds, [it.split()[0] for it in texts])


def state_of(room, line, status=0):
    """Returns the lines that `status` prints, with this status, once one of them begins so."""
    found = []

    def is_told():
        got, out, err = room.ask("status", "stamps")
        found[:] = out.splitlines()
        return (got, err) == (status, "") and any(it.startswith(line) for it in found)

    room.wait_for(f"a state with '{line}'", is_told)
    return found


def compact(state):
    """Returns the line of a state: compact JSON, its members in their order."""
    return json.dumps(state, separators=(",", ":"), ensure_ascii=False) + "\n"


def written_state(room, is_it, seconds=SOON):
    """Returns the state that `status --json` prints, as compact JSON, once it is one."""
    found = {}

    def is_there():
        _, out, _ = room.ask("status", "stamps", "--json")
        if not out or not is_it(json.loads(out)):
            return False
        found.update(json.loads(out))
        wanted("text of --json", compact(found), out)
        return True

    room.wait_for("such a state", is_there, seconds)
    return found


def told_state(room):
    """What `status` says of a run, of a daemon that is asked to stop, and of none."""
    _, run = take_job(room, HELD)
    before = int(time.time())
    room.start(room.words())
    lines = state_of(room, run)
    after = int(time.time())
    moment = r"\d{4}-\d\d-\d\dT\d\d:\d\d:\d\dZ"
    head = re.fullmatch(f"running since ({moment}), seen at ({moment})", lines[0])
    started = re.fullmatch(f"{re.escape(run)} runs since ({moment}) until ({moment})", lines[2])
    wanted("the first line and the run", True, bool(head and started))
    times = [seconds_of(it) for it in (head[1], started[1], head[2])]
    wanted("until", started[2], moment_text(times[1] + MAX * MINUTE))
    wanted("order of times", sorted([before, *times, after]), [before, *times, after])
    files = "crontab with declarations and certificate and anacrontab, capacity 1"
    last = f"job a: last {started[1]}"
    wanted("lines", [files, NO_COUNTS, last], [lines[1], *lines[3:]])
    status, out, err = room.ask("status", "stamps", "--json")
    wanted("end of --json", (0, ""), (status, err))
    told = {"VERSION": room.call("--version")[1].split()[1], "AT": json.loads(out)["at"], "RUN": run}
    told |= {"SINCE": head[1], "STARTED": started[1], "UNTIL": started[2]}
    told |= {"DIGEST": room.digests()[-1].split()[-1], "COMMAND": HELD}
    right = re.sub("[A-Z]{2,}", lambda it: told[it[0]], TEXTS["state of a run"])
    wanted("text of --json", right, out)
    room.stop_now()
    lines = state_of(room, "nothing more is started")
    wanted("lines while it stops", [files, "nothing more is started"], lines[1:3])
    room.write("done", "")
    room.ends(0)
    *left, ended = room.look_at_nobody()[1:]
    wanted("lines of the last state", [*lines[1:3], NO_COUNTS], left)
    wanted("the job", True, bool(re.fullmatch(f"{last}, status 0 after \\d+ s", ended)))


def late_run(room):
    """A run that is late for two minutes: its line, what `status` says, and what a reload keeps."""
    minute, run = take_job(room, HELD, max=1)
    room.step()
    room.wait_for_line(f"started {run}")
    for passed in (1, 2):
        room.set_clock(MINUTE * (minute + passed) + 5)
        room.wait_for_line(f"overrun {run}")
        time.sleep(3)
    shown = state_of(room, f"{run} runs since ", status=1)[2]
    wanted("a late run", True, shown.endswith(", late"))
    room.holds(ran="")
    room.write("done", "")
    room.wait_for_line(f"ended {run} status 0")
    room.wait_for_file("stamps/a")
    wanted("lines", 4, len(state_of(room, "skipped 0, overruns 1,")))
    begun = room.state()["since"]
    wanted("reload", (0, "", ""), room.reload())
    wanted("overruns", 1, written_state(room, lambda it: it["since"] != begun)["overruns"])
    room.end()
    left = {"a": stamp_text(minute), "cronsafe answer": "0\n"}
    room.holds([*runs(run), f"overrun {run}"], ran="x\n", stamps=left)


def late_run_that_meets(room):
    """A run that takes longer than declared, and a line whose run comes meanwhile."""
    due = early_minute() + 1
    table = f"{due_at(due)} {UNTIL.format('done')}\n{due_at(due + 2)} sleep 9\n"
    terms = {"group": "g", "max": 1}
    room.take(declared(1, (1, 2), groups=["g"], line1=terms, line2=terms), table)
    hook = 'echo "$CRONSAFE_EVENT, $CRONSAFE_RUN, $CRONSAFE_MAY_MEET" >>told; sleep 600'
    room.start(room.words("--log", "log", "--on-overrun", hook))
    first = f"line 1 due {date_text(due)}"
    room.wait_for_logged(f"overrun {first}", f"started {hook}", seconds=4 * MINUTE)
    told = written_state(room, lambda it: [one["late"] for one in it["running"]] == [True])
    (run,), meets = told["running"], "line 1, line 2"
    until = moment_text(seconds_of(run["since"]) + MINUTE)
    shown = {"run": first, "since": run["since"], "until": until, "late": True, "may_meet": meets}
    wanted("the late run", shown, run)
    line = f"{first} runs since {run['since']} until {until}, late, may meet {meets}"
    state_of(room, line, status=1)
    status, out, _ = room.ask("status", "stamps", "--json")
    wanted("status --json", 1, status)
    told = json.loads(out)
    seen = seconds_of(told["at"]) // MINUTE
    coming = [(1, due), (2, due + 2), (1, due + DAY)]
    number, minute = next(it for it in coming if it[1] > seen)
    wanted("what is due next", f"line {number} due {date_text(minute)}", told["next_due"])
    room.write("done", "")
    room.wait_for_logged(f"ended {first}")
    room.end()
    texts = room.texts()
    wanted("the call", f"overrun, {first}, {meets}\n", room.read("told"))
    wanted("behind it", f"{first} may meet {meets}", texts[texts.index(f"overrun {first}") + 1])
    wanted("lines of what meets", 1, sum(" may meet " in it for it in texts))


# The state of a daemon with one run that waits. What makes it another one, with the status and the text
# that are shown of that; its times are seconds from now. And what makes it none.
STATE, *STATES = map(json.loads, Path(__file__).with_name("states").read_text("utf-8").splitlines())
STATES, NO_STATES = ([it for it in STATES if isinstance(it, kind)] for kind in (list, dict))
COUNTS = "skipped 1, overruns 2, not started 4, outages 3, stamps not written 5"


def states_by_hand(room):
    """States that a lock holder has written, and what `status` says of each."""
    now = int(time.time())
    run = {"run": "job a\\x1b at 2024-09-13 23:30", "since": "2024-09-13T23:30:01Z"}
    old = "cronsafe: no state of the last two minutes in stamps\n"
    with locked(room):
        for members, status, told, *jobs in STATES:
            state = {**STATE, "at": 0, **members}
            times = {it: state[it] for it in ("at", "stamp_fault_at") if state[it] is not None}
            state |= {name: moment_text(now + it) for name, it in times.items()}
            state["running"] = [{**run, **it} for it in state["running"]]
            files = "evening.cron with evening.json and evening.cert"
            files += f" and {state['anacrontab']}" if state["anacrontab"] else ""
            counts = f"{COUNTS}, missed {state.get('missed', 0)}"
            limits = state.get("ended_at_limit")
            local = f" ({state['next_due_local']})" if state.get("next_due_local") else ""
            lines = [
                *(f"running since {state['since']}, seen at {state['at']}", f"{files}, capacity 3"),
                f"{run['run']} runs since {run['since']}{told}" if state["running"] else told,
                "line 2 due 2024-09-13 23:30 waits",
                f"next is {state['next_due']}{local}" if state.get("next_due") else "",
                counts if limits is None else f"{counts}, ended at their limit {limits}",
                *jobs,
            ]
            out, err = "".join(f"{it}\n" for it in lines if it), old if status == 2 else ""
            text = json.dumps(state)
            room.write("stamps/cronsafe state", text)
            wanted(f"status of {members}", (status, out, err), room.ask("status", "stamps"))
            as_it_is = room.ask("status", "--json", "stamps")
            wanted(f"status --json of {members}", (status, text, err), as_it_is)
    room.look_at_nobody()


def states_that_cant_be_read(room):
    """What is no state: no file, another kind of file, too much, no JSON or another."""
    path = room.folder / "stamps/cronsafe state"
    unread = (6, "", "cronsafe: can't read the state in stamps\n")
    fine = {**STATE, "at": moment_text(int(time.time()))}
    room.write("fine", json.dumps(fine))

    def look(what):
        for words in (["stamps"], ["stamps", "--json"]):
            wanted(f"status of {what}", unread, room.ask("status", *words))

    with locked(room):
        look("nothing")
        for _ in in_place(path, Path.mkdir, os.mkfifo, room.folder / "fine"):
            look("another kind of file")
        wrong = [{key: it for key, it in fine.items() if key != absent} for absent in list(fine)[1:]]
        wrong += [{**fine, **it} for it in NO_STATES]
        texts = ["", "{}", "[]", "1", json.dumps(fine)[:-1], json.dumps(fine) + " " * 2**20]
        for text in (*texts, *map(json.dumps, wrong), json.dumps(fine).replace("evening", "\udcff")):
            path.write_bytes(text.encode("utf-8", "surrogateescape"))
            look(text[:200])
        path.write_text(json.dumps(fine))
        wanted("status of a state", 0, room.ask("status", "stamps")[0])


def shown_texts(room):
    """An identifier that would make a line and colours of its own, such a command, and MAILTO, which
    isn't heeded. For a log that tells it where no mail is asked.
    """
    name = "a\x1b[31m\rb"
    table = "MAILTO=root\nMAILTO=\"\"\nMAIL=x\n0 0 1 1 * printf 'a\\tb'\t|\x1b[31m cat\n"
    room.take(declared(2, [4], [name]), table, f"# jobs\nMAILTO = operator\n7 0 {name} true\n")
    early_minute()
    room.run(*ONCE, "--log", "log", seconds=SOON)
    *texts, started = room.texts()[4:9]
    lines = [f"MAILTO on line {it} has no effect" for it in ("1 of the crontab", "2 of the anacrontab")]
    lines += ["job line 4: printf 'a\\x5ctb'\\x09|\\x1b[31m cat", "called line 4: printf"]
    wanted("lines of MAILTO and of the command", sorted(lines), sorted(texts))
    wanted("the name", "started job a\\x1b[31m\\x0db at", started[: started.index(" at") + 3])


def output_name(minute, job, name=""):
    """Returns the name of the file with the output of a run of a job; those of a line are called so."""
    end = re.sub("[^A-Za-z0-9._-]", "_", f"-{name}".encode()[:61].decode("latin-1")) if name else ""
    return time.strftime(f"%Y-%m-%dT%H-%M-{job}{end}", time.gmtime(MINUTE * minute))


def output_files(room):
    """What jobs print goes into files of their own, of which two of each job are kept."""
    out = room.folder / "out"
    out.mkdir()
    others = [f"2024-01-01T00-00-{it}" for it in ("line-1", "line-1-a", "job-aa", "job-a ")]
    others += ["2024-01-01T00:00-job-a", "x-job-a"]
    old = [f"2024-01-0{it}T00-00-job-a" for it in (1, 2, 3)]
    for name in (*others, *old):
        room.write(f"out/{name}", name)
    minute, run = take_job(room, "echo told; echo wrong >&2; exit 3")
    name = output_name(minute, "job-a")
    room.write(f"out/{name}", "before\n")
    words = (*ONCE, "--output", "out", "--keep", "2")
    room.run(*words, seconds=SOON)
    room.holds([f"started {run}", f"ended {run} status 3"], said="")
    kept = {it: it for it in (*others, old[2])}
    wanted("files", {**kept, name: "before\ntold\nwrong\n"}, room.read("out"))
    for path in (room.folder / "stamps/a", *out.iterdir()):
        path.unlink()
    minute = early_minute()
    (out / output_name(minute, "job-a")).mkdir()
    room.run(*words, seconds=SOON)
    run = f"job a at {date_text(minute)}"
    room.holds([f"started {run}", "told", f"ended {run} status 3"])
    wanted("what is said", ("cronsafe: ", "wrong"), (room.read("said")[:10], room.read("said")[-6:-1]))


def next_of_a_table(room):
    """What `status` says is due next, at an offset: this minute's next, then the first of two."""
    due = early_minute() + 31
    fields = [due_at(due + 60), due_at(due), due_at(due + 60)]
    room.take(declared(3, (1, 2, 3), offset=30), "".join(f"{it} :\n" for it in fields))
    room.start(room.words())
    state_of(room, f"next is line 2 due {date_text(due)}")
    room.wait_for_line(f"ended line 2 due {date_text(due)} status 0", 2 * MINUTE)
    lines = state_of(room, f"next is line 1 due {date_text(due + 60)}")
    wanted("lines of what is next", 1, sum(it.startswith("next ") for it in lines))
    room.stop()


def closed_streams(room):
    """A daemon that is started without standard input, output or error, or without any of them."""
    command = "cat; echo to_output; echo to_error >&2; (ls -l /proc/$$/fd >fds); true"
    streams = ("<&-", ">&-", "2>&-")
    for closed in (*streams, "<&- >&- 2>&-"):
        minute, _ = take_job(room, command)
        words = room.words(*ONCE, "--log", "log")
        room.start(["sh", "-c", f'exec "$@" {closed}', "sh", *words])
        room.ends(0)
        room.holds(stamps={"a": stamp_text(minute)})
        wanted("log", 8, len(room.texts()))
        files = [it.split(" -> ")[1] for it in room.read("fds").splitlines() if " -> " in it]
        for stream, what in enumerate(streams):
            if what in closed.split():
                wanted(f"stream {stream} with {closed}", "/dev/null", files[stream])
        wanted("stamps or log", [], [it for it in files if it.endswith(("stamps/a", "/log"))])
        for name in ("stamps/a", "log"):
            (room.folder / name).unlink()


def pipes_among_stamps(room):
    """Pipes and a link in place of a stamp, of one that is being written, and of a state."""
    minute, run = take_job(room)
    stamp = room.folder / "stamps/a"
    for name in ("a", "a new", "cronsafe state new"):
        os.mkfifo(room.folder / "stamps" / name)
    room.run(*ONCE, seconds=SOON)
    room.holds([*runs(run), "stamp not read a"], said="", ran="x\n")
    wanted("stamp", stamp_text(minute), stamp.read_text())
    stamp.unlink()
    room.write("elsewhere", "20240101\n")
    stamp.symlink_to(room.folder / "elsewhere")
    room.run(*ONCE, seconds=SOON)
    room.holds(runs(run), said="", ran="x\nx\n", elsewhere="20240101\n")
    wanted("stamp", stamp_text(minute), stamp.read_text())


def clock_put_back(room):
    """A clock that is put back by three minutes, catches up, and is put back by two hours."""
    take_job(room, "echo x >>ran; sleep 100")
    room.step("--log", "log")
    room.wait_for("a run", lambda: room.read("ran"))
    for seconds, end in (-180, "waiting until it has passed"), (-7200, "ending, for it had shown"):
        room.shift(seconds)
        room.wait_for_logged(end)
        room.shift(0 if seconds > -3600 else seconds)
        time.sleep(3)
    backs = [it for it in room.texts() if it.startswith("clock back to ")]
    shown = [[*map(minute_of, re.findall(r"\d{4}-\d\d-\d\d \d\d:\d\d", it))] for it in backs]
    wanted(f"minutes in {backs}", [3, 120], [latest - back for back, latest in shown])
    wanted("the daemon while its run goes on", None, room.status())
    wanted("runs", "x\n", room.read("ran"))


def day_of_steps(room):
    """A day of two jobs, by a clock that goes on by a minute in a hundredth of a second."""
    hourly, twice = "7 * * * * echo x >>hours", "*/30 * * * * echo x >>halves"
    room.take(declared(2, [1, 2], line1={"max": 50}, line2={"max": 25}), f"{hourly}\n{twice}\n")
    # it runs nothing in its first minute
    daemon = room.step("--minutes", "1440", seconds=60)
    room.wait_for("an hour", lambda: len(room.read("hours")) >= 2)
    early = resident(daemon)
    room.wait_for("a day", lambda: len(room.read("hours")) >= 46, 6 * MINUTE)
    late = resident(daemon)
    room.ends(0, 2 * MINUTE)
    wanted("runs of an hour", 24, len(room.read("hours").split()))
    wanted("runs of half an hour", 48, len(room.read("halves").split()))
    wanted("starts", 72, room.read("printed").count("started "))
    if late > early + 512 or late > 20480:
        raise Fault(f"it takes {late} KiB after a day, and {early} after an hour")


def resident(daemon):
    """Returns the memory of a process, in KiB."""
    with open(f"/proc/{daemon.pid}/status", encoding="ascii") as lines:
        return next(int(it.split()[1]) for it in lines if it.startswith("VmRSS:"))


def many_at_once(room):
    """64 runs that start in one minute. For a daemon that loses one, or runs them one by one."""
    minute = (early_minute() + 2) % 60
    table = "".join(f"{minute} * * * * sleep 4; echo x >>ran{it}\n" for it in range(64))
    terms = {f"line{it}": {"max": 50} for it in range(1, 65)}
    room.take(declared(64, range(1, 65), **terms), table)
    room.step(seconds=1)
    room.wait_for("all runs", lambda: room.read("printed").count("ended ") >= 64, 2 * MINUTE)
    wanted("runs", ["x\n"] * 64, [room.read(f"ran{it}") for it in range(64)])
    starts = [it.startswith("started ") for it in room.read("printed").splitlines()[:64]]
    if sum(starts) < 48:
        raise Fault(f"only {sum(starts)} of the first 64 lines tell of a start")


def demanding_runs(room):
    """Runs that print megabytes, close their streams, ignore TERM and leave processes, of a daemon
    with 24 descriptors. For one that loses output, or has none left for a run.
    """
    due, numbers = early_minute() + 1, (1, 2, 3, 4)
    commands = ("head -c 3000000 /dev/zero", "exec <&- >&- 2>&-; sleep 2")
    commands += ('trap "" TERM; kill $$; sleep 1; echo on', "sleep 3 & sleep 3 & echo left")
    room.take(declared(4, numbers), "".join(f"{due_at(due)} {it}\n" for it in commands))
    (room.folder / "out").mkdir()
    words = room.words("--log", "log", "--output", "out")
    room.start(["sh", "-c", 'ulimit -n 24; exec "$@"', "sh", *words])
    ends = [f" ended line {it} due {date_text(due)} status 0 " for it in numbers]
    room.wait_for_logged(*ends, seconds=2 * MINUTE)
    room.stop()
    output = {int(name.split("-")[5]): len(text) for name, text in room.read("out").items()}
    wanted("sizes of outputs", dict(zip(numbers, (3_000_000, 0, 3, 5))), output)


def killed_anywhere(room):
    """Daemons that are killed a moment after their start, and what one does that comes next."""
    take_job(room, "echo a >>ran")
    with ThreadPoolExecutor(8) as pool:
        list(pool.map(lambda which: killed_at(room, which), range(200)))


def killed_at(room, which):
    """Kills a daemon of its own so many hundredths of a second after it came, and runs one more."""
    with room.another(f"killed after {which} hundredths of a second") as own:
        day = early_minute()
        own.start(own.words(*ONCE))
        time.sleep(which / 100)
        own.send(signal.SIGKILL)
        own.wait_for("its end", lambda: own.status() is not None)
        time.sleep(0.2)
        failures.look_at_second_call(own, day)


def runs_that_wait(room):
    """Two commands of one minute and one lock that wait, and two that share another lock."""
    names = ("wait1", "wait2", "share1", "share2")
    wait, share = {"group": "g", "mode": "wait"}, {"group": "h", "mode": "shared"}
    terms = {"line1": wait, "line2": wait, "line3": share, "line4": share}
    due = early_minute() + 1
    write = "date +\\%s >>"
    table = "".join(f"{due_at(due)} {write}{it}; sleep 8; {write}{it}\n" for it in names)
    room.take(declared(4, (1, 2, 3, 4), groups=["g", "h"], **terms), table)
    room.start(room.words("--minutes", "1"))
    lines = [f"line {it} due {date_text(due)}" for it in (1, 2, 3, 4)]
    state = written_state(room, lambda it: len(it["running"]) == 3, 2 * MINUTE)
    wanted("those that wait", lines[1:2], state["waiting"])
    wanted("those that run", [lines[0], *lines[2:]], sorted(it["run"] for it in state["running"]))
    room.ends(0, 3 * MINUTE)
    room.holds([*runs(*lines), f"waiting {lines[1]}"])
    times = {it: [int(second) for second in room.read(it).split()] for it in names}
    wanted("number of times", [2] * 4, [len(it) for it in times.values()])
    if times["wait2"][0] < times["wait1"][1]:
        raise Fault(f"the second waiting run began before the first had ended: {times}")
    if not max(times[it][0] for it in names[2:]) < min(times[it][1] for it in names[2:]):
        raise Fault(f"the runs that share a lock weren't at work at once: {times}")


def lost_log(room):
    """A log that can't be written: a full device, a pipe that nobody reads, or that is full and that
    somebody holds open, and a closed output. For a daemon that waits for a reader.
    """
    take_job(room)
    words = room.words(*ONCE)
    (read_end, write_end), (held, full_end) = os.pipe(), os.pipe()
    os.close(read_end)
    fcntl.fcntl(full_end, 1031, 4096)  # F_SETPIPE_SZ
    os.write(full_end, b"x" * 4096)
    closed = ["/bin/sh", "-c", 'exec "$@" >&-', "sh", *words]
    with open("/dev/full", "wb") as full, open(write_end, "wb") as broken, open(full_end, "wb") as pipe:
        calls = [(full, words), (broken, words), (None, closed)]
        calls += [(pipe, words), (pipe, [*words, "--log", "-"])]
        for number, (output, call) in enumerate(calls, 1):
            (room.folder / "stamps/a").unlink(missing_ok=True)
            stamps = {"a": stamp_text(early_minute())}
            room.start(call, output=output)
            room.ends(0)
            room.holds(ran="x\n" * number, stamps=stamps, anacrontab=ONE_JOB)
            room.holds(**{"said": ""} if output is pipe else {})
    os.close(held)


def job_not_started(room):
    """Jobs whose shell isn't there or whose command isn't UTF-8, and one more; and all in a log with
    times, where the output of the last one has a folder in its file's place.
    """
    anacrontab = b"SHELL = /no/such\n1 0 a echo x >>ran\n"
    anacrontab += b"SHELL = /bin/sh\n1 0 b echo \xff >>ran\n1 0 c echo c >>ran\n"
    room.take(declared(1, [], "abc"), "", anacrontab)
    day = early_minute()
    room.run("--minutes", "1", seconds=3 * MINUTE)
    names = [f"job {it} at {date_text(day)}" for it in "abc"]
    lost = [f"{word} {it}" for it in names[:2] for word in ("started", "not started")]
    stamps = dict.fromkeys("abc", stamp_text(day))
    reason = "can't start '/no/such': No such file or directory (os error 2)"
    said = f"cronsafe: {reason}\ncronsafe: can't start a command: it or a setting of it isn't UTF-8\n"
    room.holds([*lost, *runs(names[2])], said=said, ran="c\n", stamps=stamps)
    for it in "abc":
        (room.folder / "stamps" / it).unlink()
    first = early_minute()
    lost, kept = (f"job {it} at {date_text(first)}" for it in "ac")
    (room.folder / "out" / output_name(first, "job-c")).mkdir(parents=True)
    room.run("--minutes", "1", "--log", "log", "--output", "out", seconds=3 * MINUTE)
    texts = room.texts()
    at = texts.index(f"{lost}: {reason}")
    wanted("the line behind the reason", f"not started {lost}", texts[at + 1])
    reason = f"can't keep the output of {kept} in 'out': no regular file is there"
    wanted("the file", 1, texts.count(reason))
    wanted("the runs", "c\nc\n", room.read("ran"))


def ways_to_end(room):
    """Jobs of an anacrontab that end in several ways, and the order in which they are started.

    One leaves a process with its outputs open: for a daemon that waits for that.
    """
    statuses = {"fine": 0, "failed": 3, "killed": "none", "unknown": 127, "child": 0, "later": 0}
    room.take(declared(1, [], statuses), "", TEXTS["ways to end"])
    first = early_minute()
    room.run("--minutes", "1", seconds=3 * MINUTE)
    lines = ["told"]
    for name, status in statuses.items():
        run = f"job {name} at {date_text(first + (name == 'later'))}"
        lines += [f"started {run}", f"ended {run} status {status}"]
    wanted("first line on standard error", "wrong", room.read("said").partition("\n")[0])
    stamps = {**dict.fromkeys(statuses, stamp_text(first)), "later": stamp_text(first + 1)}
    room.holds(lines, order="\n".join(["fine", *statuses, ""]), stamps=stamps)


def outage(room):
    """A daemon that is held up for more than a minute."""
    room.take(declared(3, [1], ["a"]), "* * * * * echo x >>line\n", ONE_JOB)
    first = early_minute()
    room.start(room.words())
    room.wait_for_file("stamps/a")
    room.send(signal.SIGSTOP)
    time.sleep(max(0, MINUTE * (first + 2) + 3 - time.time()))
    room.send(signal.SIGCONT)
    line = f"outage {date_text(first)} to {date_text(first + 2)}"
    room.wait_for_line(line)
    run = f"line 1 due {date_text(first + 3)}"
    room.wait_for_line(f"ended {run} status 0", 2 * MINUTE)
    told = room.state()
    wanted("outages, and missed runs", (1, 2), (told["outages"], told["missed"]))
    room.end()
    room.holds([line, *runs(f"job a at {date_text(first)}", run)], line="x\n", ran="x\n")
