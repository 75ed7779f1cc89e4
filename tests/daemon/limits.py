"""The tests of `run --enforce`: what timeout(1) is given, and what is said of a run that it ends.

In most the daemon's clock is set so that little is left of a minute. That of timeout(1) isn't.
"""
import re
import time
from pathlib import Path

from harness import wanted

from daemon import SOON, date_text, early_minute, minute_now, moments_and_texts, runs
from tests import MINUTE, NO_COUNTS, UNTIL, declared, due_at, state_of, wait_for_plans
from users import start_as_root

# writes down the words by which the shell of a command was started
PARENT = r"tr '\0' ' ' </proc/$PPID/cmdline >words"
# what a hook writes down
TELL = 'echo "$CRONSAFE_EVENT $CRONSAFE_RUN $CRONSAFE_STATUS$CRONSAFE_MAY_MEET" >>told'
# so many seconds may pass between the line of a start and the start
SLOW = 5


def begin_at(room, second, command, *options):
    """Starts a daemon in that second of a minute, of a job that may take a minute.

    Returns the run, and the first second of the next minute.
    """
    room.take(declared(1, [], ["a"], a={"max": 1}), "", f"7 0 a {command}\n")
    minute = minute_now()
    room.set_clock(MINUTE * minute + second)
    room.step("--enforce", *options)
    return f"job a at {date_text(minute)}", MINUTE * (minute + 1)


def seconds_given(room, how="-k 5"):
    """Returns the seconds that timeout(1) was given before the shell, with such an option."""
    room.wait_for("the words", lambda: " -c " in room.read("words"))
    found = re.match(r"/usr/bin/timeout (-\S+ \w+) (\d+) /bin/sh -c ", room.read("words"))
    wanted(f"option of timeout in {room.read('words')!r}", how, found and found[1])
    return int(found[2])


def look_at_count(room, number):
    """Waits until `status` says that so many runs were ended at their limit."""
    line = f"{NO_COUNTS}, ended at their limit {number}"
    wanted("counts", 1, state_of(room, line, status=1).count(line))
    wanted("member of --json", number, room.state()["ended_at_limit"])


def ended_at_its_limit(room):
    """A run that is asked to end, six seconds before its minute has passed."""
    hooks = ("--on-limit", TELL, "--on-failure", TELL)
    run, end = begin_at(room, 30, f"{PARENT}; sleep 100; echo x >>ran", "--log", "log", *hooks)
    room.wait_for_logged(f" ended {run} ")
    look_at_count(room, 1)
    room.wait_for("the calls", lambda: room.read("told").count("\n") == 2)
    wanted("calls", [f"failure {run} 124", f"limit {run} "], sorted(room.read("told").splitlines()))
    moments, texts = moments_and_texts(room.read("log").splitlines())
    seconds, most = seconds_given(room), end - 7 - moments[texts.index(f"started {run}")]
    wanted(f"{seconds} of {most} seconds", True, most - SLOW <= seconds <= most)
    at = texts.index(f"{run} was ended at its limit") + 1
    wanted("the end", True, bool(re.fullmatch(f"ended {run} status 124 after \\d+ s", texts[at])))
    wanted("the end before the minute", True, moments[at] < end)
    wanted("late runs", 0, sum(it.startswith("overrun ") for it in texts))
    room.stop()
    room.holds(ran="")


def killed_at_its_limit(room):
    """A run that doesn't end when it is asked. The log without times says only its status."""
    run, _ = begin_at(room, 30, "trap '' TERM; sleep 100; sleep 100; echo x >>ran")
    room.wait_for_line(f"ended {run} status 137")
    look_at_count(room, 1)
    room.stop()
    room.holds([f"started {run}", f"ended {run} status 137"], ran="")


def little_time_left(room):
    """A command for which fewer than seven seconds are left is killed after one, not after 0."""
    for _ in range(5):
        for name in ("log", "words", "stamps/a"):
            (room.folder / name).unlink(missing_ok=True)
        begin_at(room, 54, f"{PARENT}; sleep 20", "--log", "log")
        room.wait_for_logged(" ended job a ")
        room.end()
        # on a slow machine the next minute may have come before
        if " status 0 " not in room.read("log"):
            break
    if room.read("words"):
        wanted("seconds", 1, seconds_given(room, "-s KILL"))
    texts = room.texts()
    end = re.fullmatch(r"ended job a at \S+ \S+ status 137 after (\d+) s", texts[-1])
    wanted("the end, soon", True, bool(end) and int(end[1]) < 15)
    wanted("lines of the limit", 1, sum(it.endswith(" was ended at its limit") for it in texts))


def ends_of_their_own(room):
    """Runs that end before their limit as timeout(1) would have ended them."""
    jobs = {"exit 124": "status 124", "exit 137": "status 137", "kill -9 $$": "signal 9"}
    jobs["cat >>ran"] = "status 0"
    table = "".join(f"7 0 {at} {command}\n" for at, command in enumerate(jobs))
    room.take(declared(1, [], "0123"), "", table)
    names = [f"job {it} at {date_text(early_minute())}" for it in "0123"]
    room.start(room.words("--enforce", "--log", "log", "--on-limit", TELL))
    room.wait_for_logged(f" ended {names[-1]} ")
    look_at_count(room, 0)
    room.stop()
    texts = room.texts()
    ends = [it.partition(" after ")[0] for it in texts if it.startswith("ended ")]
    wanted("ends", [f"ended {name} {it}" for name, it in zip(names, jobs.values())], ends)
    wanted("lines of limits", 0, sum("limit" in it for it in texts))
    room.holds(told="", ran="")


def limit_of_a_run_that_waited(room):
    """A run that waits for its lock has its time from then on. For one that counts from its due
    minute, or has the time of the job that it waited for.
    """
    due = minute_now() + 1
    table = f"{due_at(due)} {UNTIL.format('done')}\n{due_at(due)} {PARENT}; echo x >>ran\n"
    wait = {"group": "g", "mode": "wait"}
    both = {"line1": {**wait, "max": 3}, "line2": {**wait, "max": 1}}
    room.take(declared(1, (1, 2), groups=["g"], **both), table)
    room.set_clock(MINUTE * due - 20)
    room.step("--enforce")
    holder, waiter = (f"line {it} due {date_text(due)}" for it in (1, 2))
    room.wait_for_line(f"waiting {waiter}")
    room.set_clock(MINUTE * (due + 1) + 5)
    time.sleep(3)
    room.write("done", "")
    room.wait_for_line(f"ended {waiter} status 0")
    seconds = seconds_given(room)
    # the lock was free at least eight seconds after its minute had begun
    wanted(f"{seconds} of 45 seconds", True, 45 - SOON < seconds <= 45)
    room.end()
    room.holds([*runs(holder, waiter), f"waiting {waiter}"], ran="x\n")


def limit_of_another_user(room):
    """A command of a gathered table that doesn't end when it is asked: runuser(1) kills it."""
    minute = early_minute() + 1
    table = f"CRONSAFE_TABLE=gathered\n#@ ann:1 ann\n{due_at(minute)} echo $$; trap '' TERM; "
    room.take(declared(1, [3], line3={"max": 1}), f"{table}sleep 100; sleep 100\n")
    start_as_root(room, "--enforce")
    run = f"line 3 due {date_text(minute)}"
    room.wait_for_logged(f" ended {run} ", seconds=3 * MINUTE)
    moments, texts = moments_and_texts(room.read("log").splitlines())
    at = texts.index(f"{run} was ended at its limit") + 1
    wanted("the end", True, texts[at].startswith(f"ended {run} status 124 "))
    wanted("the end before the minute", True, moments[at] < MINUTE * (minute + 1))
    (shell,) = room.read("out").values()
    stat = Path(f"/proc/{int(shell.split()[0])}/stat")
    wanted("its shell", True, not stat.exists() or ") Z " in stat.read_text("ascii"))
    room.stop()


def enforced_after_a_reload(room):
    """The files are read again, and the option stays."""
    room.take(declared(1), "")
    room.step("--enforce", "--log", "log")
    room.wait_for_file("stamps/cronsafe state")
    due = minute_now() + 3
    room.take(declared(1, [1]), f"{due_at(due)} {PARENT}\n")
    wanted("reload", (0, "", ""), room.reload())
    wait_for_plans(room, 2)
    room.set_clock(MINUTE * due - 20)
    seconds_given(room)
    room.stop()
