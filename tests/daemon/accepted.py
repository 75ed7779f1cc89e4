"""Files that are refused, only checked or applied; a full folder of stamps; a daemon in a container."""
import os
import signal
import subprocess
import time
from pathlib import Path

from harness import TOP, wanted

from daemon import UNUSED
from tests import HELD, NO_COUNTS, ONCE, begin_job, declared, in_place, look_at_minutes, state_of
from tests import take_job, written_state

KEPT = "stamps/cronsafe accepted"
RUNS_KEPT = "cronsafe: the files that were accepted last are run\n"
FILES = ("crontab", "declarations", "certificate")
APPLY = ("apply", *FILES, "stamps")
# two jobs at once, each of which needs all that the machine has
UNSAFE = declared(1, [1, 2]), "0 1 * * * a\n0 1 * * * b\n"


def minutely(word):
    """Returns declarations and a table of a job that says this word in each minute."""
    return declared(2, [1]), f"* * * * * echo {word} >>ran\n"


def goes_on(room, word):
    """Waits until the job says that word three times more."""
    before = room.read("ran").split().count(word)
    room.wait_for(f"runs of {word}", lambda: room.read("ran").split().count(word) > before + 2)


def runs_kept(room, word):
    """Holds what the next daemon says, does and shows, which refuses the files, against that."""
    room.stop()
    refusal = room.ask("check", *FILES, is_whole=True)
    room.run(*ONCE, status=refusal[0])
    room.holds(printed=refusal[1], said=refusal[2])
    for name in ("log", "ran"):
        room.write(name, "")
    kept = room.read(KEPT)
    room.step("--last-accepted", "--log", "log", seconds=6)
    goes_on(room, word)
    wanted("other runs", {word}, set(room.read("ran").split()))
    room.holds(printed="", said=f"{refusal[2]}{refusal[1]}{RUNS_KEPT}")
    state_of(room, RUNS_KEPT[10:-1], status=1)
    told = room.texts().count(RUNS_KEPT[10:-1]), room.state()["last_accepted"]
    wanted("the log and the state", (1, True), told)
    wanted("reload, and what is kept", (refusal[0], kept), (room.reload()[0], room.read(KEPT)))


def last_accepted_files(room):
    """Boots with files that are refused, a reload, and copies that are cut, changed or gone. For one
    that runs what it hasn't accepted, or nothing, or that doesn't say so."""
    room.take(*minutely("old"))
    room.step(seconds=6)
    goes_on(room, "old")
    wanted("rights", 0o600, (room.folder / KEPT).stat().st_mode & 0o777)
    edits = [lambda: room.take_tables(*UNSAFE), lambda: room.write("crontab", "60 * * * * a\n")]
    for edit in (*edits, (room.folder / "crontab").unlink):
        edit()
        runs_kept(room, "old")
    room.take(*minutely("new"))
    wanted("reload", (0, ""), room.reload()[:2])
    goes_on(room, "new")
    state = written_state(room, lambda it: "new" in it["jobs"][0]["command"])
    wanted("the member", False, "last_accepted" in state)
    state_of(room, NO_COUNTS)
    room.write("declarations", "{")
    runs_kept(room, "new")
    room.stop()
    path, fine = room.folder / KEPT, room.read(KEPT).encode()
    refusal = room.ask("check", *FILES, is_whole=True)
    texts = [b"", fine[:1], fine[:-1], fine[: len(fine) // 2], fine + b" "]
    texts += [fine[:it] + bytes([fine[it] ^ 1]) + fine[it + 1 :] for it in range(0, 30, 3)]
    ways = [lambda it, text=text: it.write_bytes(text) for text in texts]
    path.rename(room.folder / "fine")
    for _ in in_place(path, *ways, Path.mkdir, os.mkfifo, room.folder / "fine", room.folder / "none"):
        room.run("--last-accepted", status=refusal[0])
        room.holds(printed=refusal[1], said=refusal[2])


def all_in(folder):
    """Returns all in a folder: names, rights, sizes and times."""
    return subprocess.check_output(["find", folder, "-printf", r"%p %m %s %T@\n"])


def only_checked(room):
    """`--check-only` of files that are accepted, and of what hinders a daemon. For one that writes."""
    take_job(room)
    room.run(*ONCE, "--log", "log")

    def look(status, out, said, *options):
        before = all_in(room.folder)
        found = room.call("run", *FILES, "stamps", "--check-only", *options)
        wanted(f"check {options}", (status, out, said), found)
        wanted(f"what is written by {options}", before, all_in(room.folder))

    look(0, "", "")
    look(0, "", "", "--log", "log", "--last-accepted", "--output", "stamps")
    look(6, "", "cronsafe: no folder absent\n", "--output", "absent")
    look(6, "", "cronsafe: can't write absent/log\n", "--log", "absent/log")
    (room.folder / "stamps").chmod(0o777)
    look(6, "", "cronsafe: other users can write to stamps\n")
    (room.folder / "stamps").chmod(0o700)
    (room.folder / "stamps/a").unlink()
    begin_job(room, HELD)
    found = room.call("run", *FILES, "stamps", "--check-only")
    wanted("check beside a daemon", (6, "", "cronsafe: another daemon uses stamps\n"), found)
    room.write("done", "")
    room.stop()
    room.write("crontab", "60 * * * * a\n")
    refusal = room.call("check", *FILES)
    look(*refusal)
    look(0, "", f"{refusal[2]}{RUNS_KEPT}", "--last-accepted")
    (room.folder / KEPT).unlink()
    look(*refusal, "--last-accepted")


def applied(room):
    """Edits that are safe, unsafe and wrong, a certificate without a place, calls that are killed, and
    nobody. For one that takes a wrong edit, a certificate that is cut, or a gap.
    """
    room.take(*minutely("old"))
    old = room.read("certificate")
    room.step("--log", "log", seconds=6)
    room.take_tables(*minutely("new"))
    wanted("apply", (0, ""), room.ask(*APPLY)[:2])
    goes_on(room, "new")
    compact = room.ask("make", *FILES[:2], "--compact")[1]
    wanted("the certificate", compact, room.read("certificate"))
    before, asked = room.read("stamps").keys(), room.texts().count("asked to reload")
    for edit in UNSAFE, (declared(1, [2]), "0 1 * * * a\n"), (declared(0, []), ""):
        room.take_tables(*edit)
        wanted("an edit", room.ask("make", *FILES[:2]), room.ask(*APPLY))
    room.take_tables(*minutely("third"))
    for place in "absent/certificate", "stamps":
        answer = (6, "", f"cronsafe: can't write {place}\n")
        wanted(f"apply to {place}", answer, room.ask("apply", *FILES[:2], place, "stamps"))
    goes_on(room, "new")
    wanted("the certificate", compact, room.read("certificate"))
    wanted("files of stamps", before, room.read("stamps").keys())
    wanted("requests", asked, room.texts().count("asked to reload"))
    for which in range(40):
        room.write("certificate", old)
        with subprocess.Popen([room.program, *APPLY], cwd=room.folder, stderr=subprocess.DEVNULL) as it:
            time.sleep(which / 200)
            it.kill()
        wanted("a whole certificate", True, room.read("certificate") in (old, compact))
    wanted("apply", (0, ""), room.ask(*APPLY)[:2])
    goes_on(room, "third")
    room.stop()
    look_at_minutes(room.read("log"))
    wanted("apply to nobody", UNUSED, room.ask(*APPLY))


def full_folder(room):
    """A folder of stamps that is filled up while a job runs. For one that ends, or a lost stamp."""
    _, run = take_job(room, HELD)
    own = [] if os.geteuid() == 0 else ["--map-root-user"]
    mount = 'mount -t tmpfs -o size=128k,mode=700 none stamps && exec "$@"'
    words = ["unshare", "--mount", *own, "sh", "-c", mount, "sh", *room.words("--log", "log")]
    folder = Path(f"/proc/{room.start(words).pid}/root{room.folder}/stamps")
    room.wait_for_logged(f"started {run}")
    room.wait_for("its state", (folder / "cronsafe state").exists)
    # (what is open keeps its room when another file takes its place)
    held = [os.open(it, os.O_RDONLY) for it in folder.iterdir()]
    subprocess.run(["dd", "if=/dev/zero", f"of={folder}/fill"], stderr=subprocess.DEVNULL)
    room.write("done", "")
    room.wait_for_logged("stamp not written a")
    answer = (6, "", f"cronsafe: can't read the answer in {folder}\n")
    wanted("reload", answer, room.ask("reload", folder))
    (folder / "fill").unlink()
    for it in held:
        os.close(it)
    room.wait_for("the stamp", (folder / "a").exists)
    wanted("reload", (0, "", ""), room.ask("reload", folder))
    wanted("stop", (0, "", ""), room.ask("stop", folder, "--now"))
    room.ends(0)
    room.holds(printed="", said="", ran="x\n")


def in_the_foreground(room):
    """The script for containers: HUP, then TERM or INT. For one that leaves a job behind, or deaf."""
    (room.folder / "bin").mkdir()
    room.write("bin/cronsafe", f'#!/bin/sh\nexec {room.program} "$@"\n')
    (room.folder / "bin/cronsafe").chmod(0o755)
    for number in signal.SIGTERM, signal.SIGINT:
        for name in ("log", "ran", "done", "stamps/a"):
            (room.folder / name).unlink(missing_ok=True)
        _, run = take_job(room, f"trap 'echo x >>ran' INT; kill -INT $$; {HELD}")
        words = ["env", "--default-signal", TOP / "share/cronsafe/foreground"]
        words += room.words("--log", "log")[2:]
        room.start(words, PATH=f"{room.folder}/bin:{os.environ['PATH']}")
        room.wait_for_logged(f"started {run}")
        room.send(signal.SIGHUP)
        room.wait_for_logged("reload accepted")
        room.send(number)
        room.wait_for_logged("asked to stop")
        time.sleep(2)
        wanted("its status while a job runs", None, room.status())
        room.write("done", "")
        room.ends(0)
        wanted("the job", ("x\nx\n", 1), (room.read("ran"), room.texts().count("stopped")))
