"""What a daemon shows of each of its jobs, and the commands of the operator's that it calls."""
import json
import re
import subprocess
import time

from harness import Fault, wanted

from daemon import SOON, date_text, minute_now, minute_of, moment_text, moments_and_texts, seconds_of
from tests import DAY, MINUTE, UNTIL, declared, due_at, output_name, program_of, state_of
from tests import written_state

# leaves the input of a call and then its variables, all of these at once
TELL = "mkdir -p calls; cat >calls/$$.in; env -0 >calls/$$.new; mv calls/$$.new calls/$$.env"
# the commands of ten jobs, the names of some, and how the runs of all end that do; the last two are
# due once
COMMANDS = (":", "/bin/true", "echo told", "X=1 sleep 1", "cat /dev/null", "exit 3")
COMMANDS += ("[ -e fixed ] || exit 4", "kill -9 $$", UNTIL.format("done"), "echo skipped")
NAMES = {3: 'a "name"\nof\ttwo\\lines', 6: "back up \u00e9", 7: "../etc"}
CALLED = {**{at: program_of(it) for at, it in enumerate(COMMANDS, 1)}, **NAMES}
STATUSES = {**dict.fromkeys(range(1, 6), "0"), 6: "3", 7: "4", 8: "signal 9"}
RUN = re.compile(r"(started|ended) (line (\d+)) due (\S+ \S+)(?: (?:status )?(.+) after (\d+) s)?")
# reads metrics, and prints of each its name, its labels and its number
READ = """import json, sys
from prometheus_client.parser import text_string_to_metric_families as read
families = list(read(sys.stdin.read()))
assert all(it.documentation and it.type in ("gauge", "counter") for it in families), families
json.dump([[it.name, it.labels, it.value] for of in families for it in of.samples], sys.stdout)"""


def hooks(*events, command=TELL):
    """Returns the options by which a command is called at these events."""
    return [word for it in events for word in (f"--{it}", command)]


def calls_of(room, number):
    """Returns the calls of hooks once there are so many: their variables, and their input."""
    folder = room.folder / "calls"
    room.wait_for(f"{number} calls", lambda: len(list(folder.glob("*.env"))) >= number)
    time.sleep(2)
    calls = []
    for path in folder.glob("*.env"):
        pairs = [it.partition("=") for it in path.read_text("utf-8").split("\0")]
        given = {name[9:]: text for name, _, text in pairs if name.startswith("CRONSAFE_")}
        calls.append({**given, "input": path.with_suffix(".in").read_text("utf-8")})
    wanted("number of calls", number, len(calls))
    return calls


def shown(text):
    """Returns a text as logs and states show it."""
    return re.sub(r"[\x00-\x1f\x7f\\]", lambda it: f"\\x{ord(it[0]):02x}", text)


def output_of(number, minute):
    """Returns the path of the output of a run of the ten jobs."""
    return f"out/{output_name(minute, f'line-{number}', CALLED[number])}"


def records_in(room):
    """Returns what the log says of the last runs of each of the ten jobs, as a state shows it."""
    members = ("user", "last_run", "last_start", "last_end", "last_status", "last_seconds")
    records = [dict.fromkeys((*members, "last_output"), None) for _ in COMMANDS]
    for number, record in enumerate(records, 1):
        record |= {"job": f"line {number}", "name": shown(CALLED[number]), "failures": 0}
        record["command"] = shown(COMMANDS[number - 1])
    for moment, text in zip(*moments_and_texts(room.read("log").splitlines())):
        if not (found := RUN.fullmatch(text)):
            continue
        word, job, number, due, status, seconds = found.groups()
        record, at = records[int(number) - 1], moment_text(moment)
        if word == "started":
            output = output_of(int(number), minute_of(due))
            record |= {"last_run": f"{job} due {due}", "last_start": at, "last_output": output}
        else:
            record |= {"last_end": at, "last_status": status, "last_seconds": int(seconds)}
            record["failures"] = 0 if status == "0" else record["failures"] + 1
    return records


def line_of(job):
    """Returns what `status` says of a job of a state."""
    line = f"{job['job']} {job['name']}: "
    line += f"next {job['next_due']}, " if job["next_due"] else ""
    line += f"last {job['last_start']}" if job["last_run"] else "no run yet"
    if status := job["last_status"]:
        line += f", {'' if ' ' in status else 'status '}{status} after {job['last_seconds']} s"
    if job["failures"]:
        line += ", failed " + ("once" if job["failures"] == 1 else f"{job['failures']} times in a row")
    return line + (f", output {job['last_output']}" if job["last_output"] else "")


def metrics_of(room):
    """Returns the numbers of the metrics, by their name, or by job, name of that and their own."""
    given = room.ask("status", "stamps", "--metrics")[1]
    read = subprocess.run(["/usr/bin/python3", "-c", READ], input=given, capture_output=True, text=True)
    if read.returncode != 0:
        raise Fault(f"no metrics: {read.stderr}\n{given}")
    rows = [((*of.values(), name), it) for name, of, it in json.loads(read.stdout)]
    wanted("metrics that come twice", len(rows), len(dict(rows)))
    return dict(rows)


def look_at_jobs(room, due):
    """Holds what is said of the ten jobs, the next day's runs of which are next, against the log."""
    right = records_in(room)
    for number, job in enumerate(right, 1):
        job["next_due"] = date_text(due + DAY) if number < 9 else None
    ends = [it["last_end"] for it in right]
    state = written_state(room, lambda it: [job["last_end"] for job in it["jobs"]] == ends)
    for job, told in zip(right, state["jobs"], strict=True):
        wanted(job["job"], job, told)
    status, out, err = room.ask("status", "stamps")
    lines = [it for it in out.splitlines() if it.startswith("line ") and ": " in it]
    wanted("status", (1, "", list(map(line_of, right))), (status, err, lines))
    metrics = {("cronsafe_up",): 1, ("cronsafe_running",): len(state["running"])}
    for job in right:
        of, failures = (job["job"], job["name"]), job["failures"]
        metrics[(*of, "cronsafe_job_last_failed")] = failures > 0
        metrics[(*of, "cronsafe_job_failures_in_a_row")] = failures
    found = metrics_of(room)
    wanted("metrics", metrics, {it: found.get(it) for it in metrics})


def look_at_calls(room, due, events):
    """Holds the calls for runs that were due in a minute against their events."""
    right, records = [], {it["last_run"]: it for it in records_in(room)}
    for event, number in events:
        run, status = f"line {number} due {date_text(due)}", STATUSES.get(number)
        status = status if event == "failure" else "0"
        call = {"EVENT": event, "RUN": run, "JOB": CALLED[number], "COMMAND": COMMANDS[number - 1]}
        call |= {"USER": "", "TABLE": "crontab", "OUTPUT": output_of(number, due)}
        call |= {"STATUS": status, "SECONDS": str(records[run]["last_seconds"])}
        right.append({**call, "input": "told\n" if event == "mail" else ""})
    found = calls_of(room, len(right))
    right, found = ({(it["EVENT"], it["RUN"]): it for it in calls} for calls in (right, found))
    wanted("the calls", sorted(right), sorted(found))
    for name, call in right.items():
        wanted(f"{name[0]} of {name[1]}", call, found[name])
    for path in (room.folder / "calls").iterdir():
        path.unlink()


def ten_jobs(room):
    """Ten jobs, of which three fail, one hangs and one is skipped, and the next day of eight, when one
    has recovered. For what is said of another job, or of another run.
    """
    due, lock = minute_now() + 3, {"group": "g", "max": 500}
    once = time.strftime(f"{due % 60} %-H %-d %-m *", time.gmtime(MINUTE * due))
    terms = {f"line{it}": {"name": name} for it, name in NAMES.items()}
    terms |= {"line9": {**lock, "mode": "wait"}, "line10": {**lock, "mode": "try"}}
    table = [f"{due_at(due) if at < 8 else once} {it}\n" for at, it in enumerate(COMMANDS)]
    room.take(declared(10, range(1, 11), groups=["g"], **terms), "".join(table))
    (room.folder / "out").mkdir()
    words = hooks("on-failure", "on-success", "on-recovered", "mail")
    room.step("--log", "log", "--output", "out", *words)
    room.wait_for_logged("called line 10:")
    told = [f"called line {it}: {shown(CALLED[it])}" for it in range(1, 11)]
    wanted("names in the log", told, [it for it in room.texts() if it.startswith("called ")])
    room.set_clock(MINUTE * due - 5)
    runs = [f"line {it} due {date_text(due)}" for it in range(11)]
    room.wait_for_logged(*(f"ended {runs[it]} " for it in STATUSES), seconds=2 * SOON)
    room.wait_for_logged(f"started {runs[9]}", f"skipped {runs[10]}")
    look_at_jobs(room, due)
    events = [("failure" if it != "0" else "success", number) for number, it in STATUSES.items()]
    look_at_calls(room, due, [*events, ("mail", 3)])
    room.write("fixed", "")
    room.write("done", "")
    room.wait_for_logged(f"ended {runs[9]} status 0")
    look_at_calls(room, due, [("success", 9)])
    room.set_clock(MINUTE * (due + DAY) - 5)
    room.wait_for_logged(*(f"ended line {it} due {date_text(due + DAY)} " for it in STATUSES))
    look_at_jobs(room, due + DAY)
    events.remove(("failure", 7))
    look_at_calls(room, due + DAY, [*events, ("success", 7), ("recovered", 7), ("mail", 3)])
    room.stop()
    wanted("metric up of nobody", 0, metrics_of(room)[("cronsafe_up",)])


def next_by_a_zone(room):
    """What a daemon says of its runs in a part of the year in which the zone's clock is ahead."""
    declarations = {**declared(1, [1]), "zone": "CET-1CEST,M3.5.0,M10.5.0/3"}
    del declarations["offset"]
    room.take(declarations, "30 2 * * * true\n")
    due = seconds_of("2097-07-01T00:30:00Z")
    room.set_clock(due - 5000)
    room.step("--log", "log")
    told = "2097-07-01 01:30 (2097-07-01 02:30 CEST)"
    lines = state_of(room, f"next is line 1 due {told}")
    wanted("the job's line", f"line 1 true: next {told}, no run yet", lines[-1])
    clock = "runs are named by CET all year; CEST is 60 minutes ahead of it"
    wanted("the clock in the log", 1, room.texts().count(clock))
    room.set_clock(due - 5)
    room.wait_for_logged("ended line 1 due 2097-07-01 01:30 status 0")
    room.stop()


def failures_of_hours(room):
    """A job that fails in each minute, by a clock of steps. For a call in each, or for one in all.

    One hook isn't there, one hangs, and one prints megabytes: for a daemon that waits for it. Of the
    output of each job 30 files are kept.
    """
    (room.folder / "out").mkdir()
    room.take(declared(4, [1, 2]), "* * * * * exit 3\n* * * * * echo told\n")
    once = "[ -e big ] || { : >big; head -c 3000000 /dev/zero; }"
    words = hooks("on-failure", command=f"{TELL}; sleep 1000") + hooks("mail", command=once)
    words += hooks("on-success", command="/no/such/hook")
    room.step("--log", "log", "--output", "out", *words, seconds=20)
    room.wait_for("failures", lambda: room.read("log").count(" status 3 ") > 190, 2 * SOON)
    room.stop()
    wanted("what is printed", 3_000_000, len(room.read("printed")))
    wanted("what a shell says", True, "/no/such/hook" in room.read("said"))
    due = [minute_of(it) for it in re.findall("ended line 2 due (.+) status 0", room.read("log"))]
    newest = {output_name(it, "line-2", "echo"): "told\n" for it in sorted(due)[-30:]}
    wanted("files", newest, {it: text for it, text in room.read("out").items() if "echo" in it})
    times, texts = moments_and_texts(room.read("log").splitlines())
    ends = [at for at, it in zip(times, texts) if it.startswith("ended line 1 ")]
    calls = [at for at, it in zip(times, texts) if it.endswith(" sleep 1000")]
    wanted("calls", (len(calls), True), (len(calls_of(room, len(calls))), len(calls) > 2))
    wanted("the first call", True, ends[0] <= calls[0] <= ends[0] + MINUTE)
    gaps = [later - at for at, later in zip(calls, calls[1:])]
    wanted(f"hours in {gaps}", True, all(3_580 <= it <= 3_600 + 3 * MINUTE for it in gaps))


def records_after_a_reload(room):
    """A job that failed, whose line moves. For a record that is lost, or that another job gets."""
    table = ("* * * * * exit 3\n", "* * * * * echo x >>ran\n")
    room.take(declared(4, [1, 2], line1={"name": "the failing one"}), "".join(table))
    room.step("--log", "log", seconds=6)
    room.wait_for("failures", lambda: room.read("log").count(" status 3 ") > 3)
    room.take(declared(4, [1, 2], line2={"name": "the failing one"}), "".join(reversed(table)))
    wanted("reload", (0, ""), room.reload()[:2])
    jobs = written_state(room, lambda it: it["jobs"][0]["command"] != "exit 3")["jobs"]
    failures = room.read("log").count(" status 3 ")
    wanted("failures", True, jobs[0]["failures"] == 0 and 3 < jobs[1]["failures"] <= failures)
    wanted("the name", "the failing one", jobs[1]["name"])
