"""`run` after a daemon that was killed, and what is left of that."""
import json
import os
import re
import shutil
import signal
import subprocess
import time
from pathlib import Path

from harness import wanted

from daemon import SOON, UNUSED, moment_text, stamp_text
from tests import HELD, ONCE, UNTIL, begin_job, state_of, take_job

LIST = "stamps/cronsafe runs"
BOOT = Path("/proc/sys/kernel/random/boot_id").read_text("ascii").strip()


def start_of(process):
    """Returns the 22nd field of what proc(5) says of a process: its name may hold brackets."""
    return Path(f"/proc/{process}/stat").read_text("utf-8").rpartition(")")[2].split()[19]


def line_of(process, run, start=None, boot=BOOT):
    """Returns a line of the list of runs."""
    return f"{process}\t{start or start_of(process)}\t{boot}\t{run}\n"


def killed(room, number):
    """Ends a daemon whose job runs by this signal.

    Returns the minute, the run, its line in the list, and what the next daemon calls it.
    """
    minute, run = begin_job(room, HELD)
    room.wait_for("the list", lambda: room.read(LIST))
    process = room.read(LIST).split("\t")[0]
    listed = line_of(process, run)
    wanted("the list", listed, room.read(LIST))
    room.end(number)
    room.holds(printed=f"started {run}\n", said="", stamps={})
    return minute, run, listed, f"{run}, process {process}"


def killed_and_waited_for(room):
    """A daemon that is ended while its job runs, and the next one. For one that begins at once."""
    minute, run, _, left = killed(room, signal.SIGTERM)
    front = [f"still running {left}", f"no longer running {run}"]
    room.start(room.words())
    room.wait_for_line(front[0])
    told = f"waiting for a run of an earlier daemon: {left}"
    wanted("status", told, state_of(room, told)[2])
    state = room.state()
    wanted("the state", ([left], []), (state["left_running"], state["running"]))
    time.sleep(3)
    room.holds(front[:1], ran="", said="")
    room.write("done", "")
    room.wait_for_file("stamps/a")
    room.stop()
    wanted("first lines", front, room.read("printed").splitlines()[:2])
    room.holds(ran="x\nx\n", stamps={"a": stamp_text(minute)})
    wanted("the list", "", room.read(LIST))


def killed_with_its_jobs(room):
    """A daemon that is killed with its job. For a run that nobody hears of again."""
    _, run = begin_job(room, HELD)
    room.wait_for("the list", lambda: room.read(LIST))
    os.killpg(room.daemons[-1].pid, signal.SIGKILL)
    room.ends(-signal.SIGKILL)
    room.write("done", "")
    room.run(*ONCE, "--log", "log", seconds=SOON)
    lines = room.texts()
    wanted("cut off", 1, lines.count(f"cut off {run}"))
    wanted("order", True, lines.index(f"cut off {run}") < lines.index(f"started {run}"))
    room.holds(printed="", said="", ran="x\n")


def asked_while_it_waits(room):
    """A check, `reload`, `stop` and a kill of a daemon that waits. For a lost list, or a late stop."""
    _, run, listed, left = killed(room, signal.SIGKILL)
    wanted("a check alone", (0, "", ""), room.ask(*room.words("--check-only")[1:]))
    for is_killed in (False, True):
        room.start(room.words())
        room.wait_for_line(f"still running {left}")
        wanted("reload", (0, "", ""), room.reload())
        room.end(signal.SIGKILL) if is_killed else room.stop()
        wanted("the list", listed, room.read(LIST))
    room.write("done", "")
    time.sleep(2)
    room.run(*ONCE, seconds=SOON)
    wanted("first line", f"cut off {run}", room.read("printed").splitlines()[0])
    room.holds(ran="x\nx\n")


def processes_that_are_listed(room):
    """Lists by hand: numbers that are used again, names with brackets, processes that have ended."""
    take_job(room)
    program = room.folder / "x) Z 1 (y"
    # (a process that another test forks may have open what is copied here, and nobody could start it)
    subprocess.run(["cp", shutil.which("sleep"), program], check=True)
    with subprocess.Popen([program, "1000"]) as other, subprocess.Popen(["true"]) as ended:
        try:
            os.waitid(os.P_PID, ended.pid, os.WEXITED | os.WNOWAIT)
            names = [f"job b{it} at 2024-09-13 23:30" for it in range(5)]
            lines = [
                line_of(other.pid, names[0]),
                line_of(other.pid, names[1], int(start_of(other.pid)) + 1),
                line_of(other.pid, names[2], boot="0" * 8 + BOOT[8:]),
                line_of(ended.pid, names[3]),
                line_of(2**22 + 1, names[4], 1),
                "no line of a list\n",
            ]
            room.write(LIST, "".join(lines))
            room.start(room.words())
            room.wait_for_line(f"still running {names[0]}, process {other.pid}")
            cut = [it for it in room.read("printed").splitlines() if it.startswith("cut off ")]
            wanted("cut off", [f"cut off {it}" for it in names[1:]], sorted(cut))
            wanted("the list", lines[0], room.read(LIST))
            room.stop()
        finally:
            other.kill()


def last_state(room):
    """`status` after a daemon that was killed, and after one that was stopped."""
    _, run = begin_job(room, UNTIL.format("done"))
    room.wait_for("its state", lambda: run in room.read("stamps/cronsafe state"))
    room.end(signal.SIGKILL)
    wanted("the run", True, room.look_at_nobody()[2].startswith(f"{run} runs since "))
    status, out, err = room.ask("status", "stamps", "--json")
    wanted("status --json", UNUSED, (status, "", err))
    state = json.loads(out)
    wanted("the run in --json", [run], [it["run"] for it in state["running"]])
    room.write("stamps/cronsafe state", json.dumps({**state, "at": moment_text(time.time() - 3_630)}))
    wanted("age", "last state, 60 min old", room.ask("status", "stamps")[1].splitlines()[0])
    room.write("stamps/cronsafe state", "{")
    wanted("no state", UNUSED, room.ask("status", "stamps"))
    room.write("done", "")
    room.start(room.words())
    room.wait_for_file("stamps/a")
    room.stop()
    lines = room.look_at_nobody()
    wanted("lines", "nothing more is started", lines[2])
    wanted("runs", [], [it for it in lines if " runs since " in it])


def stop_of_a_daemon_that_is_killed(room):
    """`stop` whose daemon is killed while its job runs. For a status of 0."""
    begin_job(room, "sleep 1000")
    words = [room.program, "stop", "stamps"]
    with subprocess.Popen(words, cwd=room.folder, stderr=subprocess.PIPE, text=True) as stop:
        room.wait_for("the request", (room.folder / "stamps/cronsafe stop").exists)
        room.send(signal.SIGKILL)
        _, err = stop.communicate(timeout=SOON)
    err = re.sub("(?m)^cronsafe: waiting for .*\n", "", err)
    told = "cronsafe: can't tell whether all stamps are written\n"
    wanted("stop", (1, told), (stop.returncode, err))
