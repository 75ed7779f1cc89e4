"""The built program as a process, over the files of one test."""
import calendar
import hashlib
import json
import os
import re
import signal
import subprocess
import time
from contextlib import contextmanager
from pathlib import Path

from harness import Fault, called, itself, wanted

# a call that starts no daemon, or one that has to end by itself at once
SECONDS = 60
# how long something may take that the daemon does once a second
SOON = 40
# the last second of a minute at which a daemon is started whose first minute a test relies on
LAST_SECOND = 40
# what `reload` says where an answer takes long
WAITED = "cronsafe: waiting for the daemon's answer\n"
INPUT = "what the daemon itself is given to read\n"
UNUSED = (2, "", "cronsafe: no daemon uses stamps\n")


def minute_now():
    """Returns the civil minute of the machine's clock in UTC."""
    return int(time.time()) // 60


def early_minute():
    """Returns the minute that it is, of which there is time left; waits for the next if need be."""
    second = time.time() % 60
    if second > LAST_SECOND:
        time.sleep(60.5 - second)
    return minute_now()


def date_text(minute):
    return time.strftime("%Y-%m-%d %H:%M", time.gmtime(60 * minute))


def stamp_text(minute):
    return time.strftime("%Y%m%d\n", time.gmtime(60 * minute))


def moment_text(seconds):
    return time.strftime("%Y-%m-%dT%H:%M:%SZ", time.gmtime(seconds))


def seconds_of(moment):
    """Returns the seconds since 1970 of a moment such as 2024-09-13T23:30:01Z."""
    return calendar.timegm(time.strptime(moment, "%Y-%m-%dT%H:%M:%SZ"))


def minute_of(text):
    """Returns the minute since 1970 of a text as `2024-09-13 23:30`."""
    return calendar.timegm(time.strptime(text, "%Y-%m-%d %H:%M")) // 60


def moments_and_texts(lines):
    """Returns the seconds since 1970 at the front of lines of a log, and what is behind them."""
    found = [re.fullmatch(r"(\d{4}-\d\d-\d\dT\d\d:\d\d:\d\dZ) (.+)", it) for it in lines]
    wanted("lines with times", True, all(found))
    return [seconds_of(it[1]) for it in found], [it[2] for it in found]


def sections_of(name):
    """Returns the texts of a file here, each of which stands below its name."""
    text = Path(__file__).with_name(name).read_text("utf-8")
    return dict(re.findall(r"(?ms)^=== (.*?)\n(.*?)(?=^=== |\Z)", text))


def without_note(text):
    """Returns what a call says, without that the plan decides nothing, as most of these plans do."""
    return re.sub(r"(?m)^note: no two jobs can conflict, .*\n", "", text)


def runs(*names):
    """Returns the lines of runs that exit with status 0."""
    return [line for it in names for line in (f"started {it}", f"ended {it} status 0")]


class Room:
    """A folder of files and stamps, and the last daemon, which prints into `printed` and `said`."""

    def __init__(self, program, folder, libraries):
        self.program, self.folder, self.libraries = program, folder, libraries
        self.daemons, self.options = [], []
        (folder / "stamps").mkdir(parents=True)

    def write(self, name, text):
        (self.folder / name).write_bytes(text if isinstance(text, bytes) else text.encode())

    def read(self, name):
        """Returns the text of a file, '' for none, or of each in a folder but a daemon's own."""
        path = self.folder / name
        if path.is_dir():
            own = tuple(f"cronsafe {it}" for it in ("accepted", "lock", "runs", "state"))
            inside = (it for it in path.iterdir() if not it.name.startswith(own))
            return {it.name: self.read(it) for it in inside}
        return without_note(path.read_text("utf-8", "replace")) if path.is_file() else ""

    def texts(self):
        """Returns what is behind the times in the log."""
        return moments_and_texts(self.read("log").split("\n")[:-1])[1]

    def digests(self):
        """Returns the lines of a log that tell the digests of the files."""
        files = {"table": "crontab", "declarations": "declarations", "certificate": "certificate"}
        texts = {name: (self.folder / file).read_bytes() for name, file in files.items()}
        return [f"{name} sha256 {hashlib.sha256(it).hexdigest()}" for name, it in texts.items()]

    def holds(self, lines=None, **texts):
        """Holds files, the folder of stamps, and what was printed against texts and lines.

        The order of lines isn't promised, but a run is told as started before it is told as ended.
        """
        printed = self.read("printed").splitlines()
        if lines is not None:
            wanted("lines of the log", sorted(lines), sorted(printed))
        for place, line in enumerate(printed if lines else []):
            start = f"started {line[6:].rpartition(' status ')[0]}"
            if line.startswith("ended ") and start not in printed[:place]:
                raise Fault(f"'{line}' isn't after '{start}': {printed}")
        for name, text in texts.items():
            wanted(name, text, self.read(name))

    def call(self, *words):
        """Returns status, standard output and standard error of a call that ends at once."""
        return self.ask(*words, *self.options)

    def ask(self, *words, **how):
        """Returns the same of a call that has no tables."""
        status, *sides = called(self.program, words, self.folder, seconds=SECONDS, **how)
        return status, *(without_note(it.decode("utf-8", "replace")) for it in sides)

    def reload(self):
        """Returns the same of `reload`, without that it waits where the daemon is slow."""
        status, out, err = self.ask("reload", "stamps")
        return status, out, err.removeprefix(WAITED)

    def stop(self):
        """Has `stop` end the daemon."""
        wanted("stop", (0, ""), self.ask("stop", "stamps")[:2])
        self.ends(0)

    def stop_now(self):
        """Has `stop --now` ask the daemon to end."""
        wanted("stop --now", (0, "", ""), self.ask("stop", "stamps", "--now"))

    def state(self):
        """Returns the state that `status --json` prints."""
        return json.loads(self.ask("status", "stamps", "--json")[1])

    def look_at_nobody(self):
        """Holds what `status` says where no daemon goes on; returns the lines of the last state."""
        status, out, err = self.ask("status", "stamps")
        wanted("status of nobody", UNUSED, (status, "", err))
        age, *lines = out.splitlines()
        wanted("age of the state", True, re.fullmatch(r"last state, \d+ min old", age) is not None)
        return lines

    def take_tables(self, declared, crontab="", anacrontab=None):
        """Takes tables and declarations for the calls to come."""
        self.write("crontab", crontab)
        self.write("declarations", json.dumps(declared))
        if anacrontab is not None:
            self.write("anacrontab", anacrontab)
            self.options = ["--anacrontab", "anacrontab"]

    def take(self, declared, crontab="", anacrontab=None):
        """Takes them, and the certificate that `make` prints for them."""
        self.take_tables(declared, crontab, anacrontab)
        status, out, err = self.call("make", "crontab", "declarations")
        if status != 0:
            raise Fault(f"make ended with status {status}, and printed {out[:200]!r}, {err!r}")
        self.write("certificate", out)

    def words(self, *options, table="crontab", stamps="stamps"):
        """Returns the words of a call of `run`."""
        words = [self.program, "run", table, "declarations", "certificate", stamps]
        return [*words, *self.options, *options]

    def start(self, words, output=None, given=INPUT, **variables):
        """Starts and returns a daemon with OUTSIDE and these variables in its environment."""
        self.write("given", given)
        if "LD_PRELOAD" in variables:
            words = [itself(words[0], words[1]), *words[1:]]
        env = {**os.environ, "OUTSIDE": "inherited", **variables}
        with (
            open(self.folder / "given", "rb") as given,
            open(self.folder / "printed", "wb") as printed,
            open(self.folder / "said", "wb") as said,
        ):
            how = {"stdin": given, "stdout": output or printed, "stderr": said, "env": env}
            daemon = subprocess.Popen(words, cwd=self.folder, start_new_session=True, **how)
        self.daemons.append(daemon)
        return daemon

    def step(self, *options, seconds=0):
        """Starts a daemon whose clock goes on by so many seconds in a hundredth of one.

        With 0 it goes on as ever. What `shift` writes is added to it.
        """
        library, shift = self.libraries / "stepping.so", self.folder / "shift"
        variables = {"LD_PRELOAD": str(library), "STEP": str(seconds), "SHIFT": str(shift)}
        return self.start(self.words(*options), **variables)

    def shift(self, seconds):
        """Lets the clock of the daemon show so many seconds more than it would."""
        self.write("shift to come", str(seconds))
        (self.folder / "shift to come").rename(self.folder / "shift")

    def set_clock(self, moment):
        """Lets the clock of the daemon go on from a moment, in seconds since 1970."""
        self.shift(moment - int(time.time()))

    def status(self):
        """Returns how the daemon ended, minus the number of a signal; None while it goes on.

        It is kept as a process that has ended, so that nothing else gets its number.
        """
        options = os.WEXITED | os.WNOHANG | os.WNOWAIT
        ended = os.waitid(os.P_PID, self.daemons[-1].pid, options)
        if ended is None:
            return None
        return ended.si_status if ended.si_code == os.CLD_EXITED else -ended.si_status

    def wait_for(self, what, is_so, seconds=SOON):
        """Waits until something is so, while the daemon goes on."""
        end = time.monotonic() + seconds
        while not is_so():
            status = self.status()
            if status is not None and not is_so() or time.monotonic() > end:
                raise Fault(f"there wasn't {what}, with status {status}; {self.told()}")
            time.sleep(0.1)

    def wait_for_line(self, line, seconds=SOON, times=1):
        """Waits until the daemon has printed a line so often."""
        what = f"the line '{line}' {times} times"
        self.wait_for(what, lambda: self.read("printed").splitlines().count(line) >= times, seconds)

    def wait_for_logged(self, *texts, seconds=SOON):
        """Waits until the log holds these texts."""
        for text in texts:
            self.wait_for(f"'{text}' in the log", lambda it=text: it in self.read("log"), seconds)

    def wait_for_file(self, name):
        self.wait_for(f"a file {name}", (self.folder / name).is_file)

    def ends(self, status, seconds=SOON):
        """Waits for the daemon to end by itself, with this status."""
        self.wait_for("its end", lambda: self.status() is not None, seconds)
        wanted(f"status, where {self.told()}", status, self.status())

    def run(self, *options, status=0, seconds=SECONDS, given=INPUT, **paths):
        """Runs a daemon that ends by itself, with this status."""
        self.start(self.words(*options, **paths), given=given)
        self.ends(status, seconds)

    def told(self):
        return f"it had printed {self.read('printed')!r} and said {self.read('said')!r}"

    def send(self, number):
        # unlike `send_signal`, without a look whether it has ended
        os.kill(self.daemons[-1].pid, number)

    def end(self, number=signal.SIGTERM):
        self.send(number)
        self.ends(-number)

    @contextmanager
    def another(self, name):
        """Gives a room of this name with the same tables, in whose faults it stands."""
        own = Room(self.program, self.folder / name, self.libraries)
        own.options = self.options
        for file in ("crontab", "anacrontab", "declarations", "certificate"):
            own.write(file, self.read(file))
        try:
            yield own
        except Fault as fault:
            raise Fault(f"{name}: {fault}") from None
        finally:
            own.close()

    def close(self):
        """Ends what is left of the daemons and their jobs."""
        for it in self.daemons:
            os.killpg(it.pid, signal.SIGKILL)
            it.wait()
