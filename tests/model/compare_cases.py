#!/usr/bin/env python3
"""Compares the second reading with what the worked cases of the folder above want.

  tests/model/compare_cases.py [NAME..]   all cases, those of a subcommand, or those named

Read are the cases of `day`, `check`, `judge`, `make`, `advise`, `room`, `replay` and `draft`, but
for those of help, of words that are no call, of logs and of the longest times that they give. Where
the wanted answer is one of what is read, the reading has to answer the same: status and both
outputs. Where it comes later, all has to read well, with the wanted warnings and notes.

Judged are certificates; the reading of `check` has to give the whole answer, its verdict too:
  of `check`   all cases but those that want help or say that the words are no call
  of `run`     those that want a certificate's fault or refusal, or that were run; `check` of the
               same files has to answer so
  of `make`    those that want a certificate, which `check` has to accept

No program is run. Needs Python 3 alone.
"""
import sys
from functools import partial

sys.dont_write_bytecode = True
# In place of the folder of this script, whose modules have names of Python's own.
sys.path[0] += "/.."

from cases import cases_of  # noqa: E402
from harness import Fault, count, end_with, without_shown, words_of  # noqa: E402
from model.call import CALLS, Answer, agrees, answer_of, as_read, asks_help  # noqa: E402
from model.call import words_of_check  # noqa: E402

SAFE = b"safe\n"
# Options with files that aren't read here.
UNREAD = {b"--log", b"--max-from"}
# What standard error says first; what it says after the warnings where the text of a certificate
# holds a fault.
WARNING, NOTE = b"warning: ", b"note: "
OF_CERTIFICATES = b"cronsafe: certificate: "


def lines_with(heads, text):
    """Returns the lines of a text that begin with one of these."""
    return b"".join(it for it in text.splitlines(True) if it.startswith(heads))


def is_met(wanted, got):
    """Returns whether an answer is the wanted one, in what of it is told."""
    if got.status is None:
        if wanted.status == 3:
            return wanted.err.startswith(lines_with(WARNING, got.err) + OF_CERTIFICATES)
        beside = wanted.err.removeprefix(got.err)
        is_beside = beside == lines_with(NOTE, beside) and wanted.err.startswith(got.err)
        return is_beside and wanted.status in (0, 1, 2)
    return agrees(got, wanted)


def look_at_reading(case):
    err = case.stderr
    if b": fault: " in err:
        err = without_shown(err, lambda it: case.files.get(it, case.stdin), True)
    wanted = Answer(case.status, case.stdout, as_read(err))
    got = answer_of(case.words, case.files, case.stdin, is_judged=False)
    if not is_met(wanted, got):
        raise Fault(f"\n  wanted: {wanted}\n  read:   {got}")


def is_judged(case):
    """Returns whether a case says what `check` of its certificate answers."""
    if b"*" in case.stdout + case.stderr:
        return False
    if case.words[:1] == [b"make"]:
        return case.stdout.startswith(b'{"')
    if case.words[:1] == [b"run"]:
        is_refused = OF_CERTIFICATES in case.stderr or case.stdout.startswith(b"refused ")
        return len(case.words) > 4 and (case.status == 0 or is_refused)
    return case.words[:1] == [b"check"]


def look_at_verdict(case):
    wanted = Answer(case.status, case.stdout, as_read(case.stderr))
    if case.words[0] != b"check" and case.status == 0:
        wanted = Answer(0, SAFE, lines_with((WARNING, NOTE), wanted.err))
    files = {**case.files, b"made": case.stdout}
    got = answer_of(words_of_check(case.words), files, case.stdin)
    if got != wanted:
        raise Fault(f"\n  wanted: {wanted}\n  judged: {got}")


def main():
    cases = cases_of(words_of(__doc__).names)
    read = [it for it in cases if it.name.split("/")[0].encode() in CALLS and it.status != 4]
    read = [it for it in read if not asks_help(it.words) and UNREAD.isdisjoint(it.words)]
    tests = [(f"reading of {it.name}", partial(look_at_reading, it)) for it in read]
    judged = filter(is_judged, cases)
    tests += [(f"verdict of {it.name}", partial(look_at_verdict, it)) for it in judged]
    return count(tests, 1)


end_with(main)
