"""`run` where calls of the C library fail: each call that the program makes, one at a time."""
import errno
from concurrent.futures import ThreadPoolExecutor

from harness import Fault, failing, wanted

from daemon import date_text, early_minute, minute_now, runs, stamp_text

# how many daemons go on side by side
AT_ONCE = 12
MOST_CALLS = 5_000
# one job, so that all calls come in one order
ANACRONTAB = "7 0 a echo a >>ran\n"
DECLARED = {"capacity": 1, "anacron": [{"id": "a", "max": 2}]}
# the functions, and the error that each of their calls fails with
FUNCTIONS = {
    **{"memory": errno.ENOMEM, "open": errno.EMFILE, "read": errno.EIO, "write": errno.ENOSPC},
    **{"fsync": errno.EIO, "rename": errno.EACCES, "clock_gettime": errno.EINVAL},
    **{"posix_spawn": errno.EAGAIN, "pthread_create": errno.EAGAIN},
}


def look_at_call(room, name, which):
    """Runs a daemon of which one call of a function fails; returns whether it made that call."""
    with room.another(f"call {which} of {name}") as own:
        failed, day = own.folder / "failed", early_minute()
        variables = failing(room.libraries / "failing.so", name, which, FUNCTIONS[name], failed)
        own.start(own.words("--minutes", "0"), **variables)
        own.wait_for("its end", lambda: own.status() is not None)
        status, said = own.status(), own.read("said")
        if not failed.exists():
            wanted("status with nothing that fails", (0, ""), (status, said))
        if status not in (0, 5, 6) or status == 5 and said != "cronsafe: out of memory\n":
            raise Fault(f"status {status}; {own.told()}")
        look_at_log(own.read("printed").splitlines(), day, len(own.read("ran").split()))
        look_at_second_call(own, day)
    return failed.exists()


def look_at_log(lines, day, times):
    """Holds the log against whether the job ran: at most once, and not told otherwise."""
    run = f"job a at {date_text(day)}"
    lost, ends = f"not started {run}", [runs(run)[1], f"ended {run} status none"]
    allowed = {f"started {run}", lost, *ends, "stamp not read a", "stamp not written a"}
    if times > 1 or len(lines) != len(set(lines)) or not set(lines) <= allowed:
        raise Fault(f"the job ran {times} times, and the log is {lines}")
    if ends[0] in lines and times != 1:
        raise Fault(f"the job is told as ended, and hasn't run: {lines}")
    if lost in lines and (times != 0 or set(ends) & set(lines)):
        raise Fault(f"the job is told as not started, and ran: {lines}")


def look_at_second_call(room, day):
    """Runs what is left to run from the stamp that the first call has left."""
    stamp, ran = room.read("stamps").get("a", ""), room.read("ran").count("a")
    if stamp not in ("", stamp_text(day)):
        raise Fault(f"the stamp is {stamp!r}")
    room.run("--minutes", "0")
    wanted("runs of a second call", 0 if stamp else 1, room.read("ran").count("a") - ran)
    if minute_now() // 1440 == day // 1440:
        wanted("stamp of a second call", stamp_text(day), room.read("stamps").get("a"))


def test_of(name):
    """Returns a test that lets each call of a function fail, until a run makes no more of them."""

    def test(room):
        room.take(DECLARED, "", ANACRONTAB)
        with ThreadPoolExecutor(AT_ONCE) as pool:
            for first in range(1, MOST_CALLS, AT_ONCE):
                calls = range(first, first + AT_ONCE)
                failed = list(pool.map(lambda which: look_at_call(room, name, which), calls))
                if not failed[0] and first == 1:
                    raise Fault(f"{name} isn't called at all")
                if not all(failed):
                    return
        raise Fault(f"{name} is called more than {MOST_CALLS} times")

    test.__name__ = f"failing_{name}"
    return test


TESTS = [test_of(it) for it in FUNCTIONS]
