"""A call over files, what the second reading answers to it, and whether a program does so too."""
import os
import resource
from collections import namedtuple

from harness import Fault, called, folder_with
from model.call import STALE_NOTE, Answer, agrees, answer_of, as_read
from model.declarations import GREATEST_MAX

START = b"start 2024-01-01 00:00 up\n"
JOB = b"0 1 * * * a\n"
OPTIONS = (b"anacrontab", b"declarations")
SECONDS = 10
MEMORY = 1 << 30
# Of the drafts of so many calls one is made.
DRAFTS_OF_ONE = 3

# What a call is about, its words and its files.
Call = namedtuple("Call", "what words files")


def call_of(what, kind, text, beside):
    """Returns the call that reads an input: day for tables, check for certificates, else replay."""
    files = {**beside, kind: text}
    files.setdefault(b"crontab", b"")
    if kind in (b"crontab", b"anacrontab"):
        words = [b"day", b"crontab", b"2024-09-13", b"60"]
    elif kind == b"certificate":
        words = [b"check", b"crontab", b"declarations", b"certificate"]
    else:
        words = [b"replay", b"crontab", b"script"]
        files.setdefault(b"script", START)
    for name in OPTIONS:
        if name in files and name not in words:
            words += [b"--" + name, name]
    return Call(what, words, files)


def drafts(calls):
    """Yields drafts or updates of the files of some calls; each such call once."""
    seen = set()
    for at, it in enumerate(calls):
        files = {name: text for name, text in it.files.items() if name != b"script"}
        words = [b"draft", b"crontab", b"--max", b"%d" % GREATEST_MAX]
        words += [b"--anacrontab", b"anacrontab"] if b"anacrontab" in files else []
        words += [b"--update", b"declarations"] if b"declarations" in files else []
        key = tuple(sorted(files.items()))
        if at % DRAFTS_OF_ONE == 0 and key not in seen:
            seen.add(key)
            yield Call(f"draft, {it.what}", words, files)


def limit():
    resource.setrlimit(resource.RLIMIT_AS, (MEMORY, MEMORY))
    resource.setrlimit(resource.RLIMIT_CPU, (SECONDS, SECONDS))
    resource.setrlimit(resource.RLIMIT_CORE, (0, 0))


def run(program, call):
    """Returns the program's answer to a call; no status: out of time."""
    with folder_with(call.files) as folder:
        try:
            given = {"seconds": SECONDS, "preexec_fn": limit}
            status, out, err = called(program, call.words, folder, **given)
            return Answer(status, out, as_read(err))
        except Fault:
            return Answer(None, b"", b"")


def is_met(wanted, got):
    """Returns whether an answer is the wanted one, in what of it the second reading tells."""
    if wanted.status is None:
        notes = [wanted.err] if got.status == 0 else [wanted.err, wanted.err + STALE_NOTE]
        return got.status in (0, 1) and got.err in notes
    return agrees(wanted, got)


def looked_at(program, call):
    """Returns what differs in a call, as text; nothing where the answers are the same."""
    wanted, got = answer_of(call.words, call.files), run(program, call)
    if is_met(wanted, got):
        return ""
    files = [f"{it.decode()} {text[:300]!r}" for it, text in call.files.items()]
    sides = [f"wanted {printed(wanted)}", f"got {printed(got)}"]
    words = " ".join(os.fsdecode(it) for it in call.words)
    return "\n  ".join([f"{call.what} is answered otherwise", words, *files, *sides])


def printed(answer):
    """Returns an answer as text, of long outputs the beginning."""
    outputs = ["not told" if it is None else f"{it[:200]!r}" for it in answer[1:]]
    return "status {}, output {}, error {}".format(answer.status, *outputs)
