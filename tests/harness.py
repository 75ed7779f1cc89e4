"""What the test programs have in common: their words, folders, calls of the program, the count.

A test is a name and a function that raises Fault where it finds something wrong; a text that it
returns says what it came upon, and how often each is printed. A test program ends with status 0
where all tests pass, 1 where one fails, and 2 where its words or its files are malformed; its last
line is 'N passed, M failed'.
"""
import argparse
import difflib
import os
import re
import signal
import subprocess
import sys
import tempfile
from collections import Counter
from concurrent.futures import ThreadPoolExecutor
from contextlib import contextmanager
from functools import cache
from inspect import getfullargspec, isfunction
from pathlib import Path

# A draft tells the offset of the time zone, and `gather` to which tables others may write.
os.environ["TZ"] = "UTC"
os.umask(0o022)

TOP = Path(__file__).resolve().parent.parent
PROGRAM = TOP / "tests/program"
WHICH = TOP / "share/cronsafe/which"
# What is told of a plan that decides nothing.
NO_CONFLICT = (
    b"note: no two jobs can conflict, unless one still runs when it starts again: no exclusive group "
    b"has two jobs, no job has mode skip, and all together fit into the capacity\n"
)
# A fault of a table or of declarations, what may follow it in place of lines that show it, and the
# first of these.
FAULT = re.compile(rb"cronsafe: (?:(?!script line ).+ line (\d+)|declarations): (\d+ [A-Z]\w+.*)")
HINT = re.compile(rb"cronsafe: (the table reads as|the longest time is|--from is)")
SHOWN = re.compile(rb"(.+?):(\d+):(\d+): fault: (.+)")
# Characters of UTF-8 that a terminal obeys, that end a line or that turn the direction of a text.
OBEYED = rb"\xc2[\x80-\x9f]|\xd8\x9c|\xe2\x80[\x8e\x8f\xa8-\xae]|\xe2\x81[\xa6-\xa9]"
NAME = os.path.relpath(os.path.realpath(sys.argv[0]), TOP)


class Fault(Exception):
    """What a test finds wrong."""


class BadUse(Exception):
    """What is wrong with the words of a test program or with its files, a line for each fault."""


def wanted(what, right, got):
    """Raises a Fault where something isn't what it has to be."""
    if got == right:
        return
    if isinstance(right, str) and right.count("\n") > 1:
        sides = right.splitlines(), got.splitlines()
        told = "\n".join(difflib.unified_diff(*sides, "wanted", "got", lineterm=""))
        raise Fault(f"{what}:\n{told}")
    raise Fault(f"{what}: wanted {right!r}, got {got!r}")


def words_of(doc, has_names=True, **options):
    """Returns what is asked of a test program: options with their defaults, and `names` of tests.

    An option `program` has to be a program, or a command of programs, that is there.
    """
    parser = argparse.ArgumentParser(
        prog=NAME,
        usage=argparse.SUPPRESS,
        description=doc,
        formatter_class=argparse.RawDescriptionHelpFormatter,
    )
    for option, default in options.items():
        parser.add_argument(f"--{option}", type=type(default), default=default)
    if has_names:
        parser.add_argument("names", nargs="*")
    asked = parser.parse_args()
    if "program" in options:
        asked.program = asked.program.resolve()
        for word in "--help", "explain":
            it = itself(asked.program, word)
            if not it.is_file() or not os.access(it, os.X_OK):
                raise BadUse(f"there is no program {it}: ./cronsafe {word} builds it")
    return asked


def tests_in(names, word):
    """Returns the functions of a module, by its names, that take one argument, which is so called."""
    own = [it for it in names.values() if isfunction(it) and it.__globals__ is names]
    return [it for it in own if getfullargspec(it)[:3] == ([word], None, None)]


def chosen(tests, names):
    """Returns the tests of these names, by which they stand or which the functions have; or all."""
    by_name = tests if isinstance(tests, dict) else {it.__name__: it for it in tests}
    for it in names:
        if it not in by_name:
            raise BadUse(f"there is no test {it}: it is one of {', '.join(by_name)}")
    return [by_name[it] for it in names or by_name]


@contextmanager
def folder_with(files):
    """Makes a folder of these files, whose names and texts are bytes, and takes it away again."""
    with tempfile.TemporaryDirectory(prefix="cronsafe-test-") as folder:
        for name, text in files.items():
            path = Path(folder, os.fsdecode(name))
            path.parent.mkdir(parents=True, exist_ok=True)
            path.write_bytes(text)
        yield Path(folder)


@cache
def suffix_of(word):
    """Returns what the program that answers a word has behind its name: '-aids' or ''."""
    call = ["sh", "-c", '. "$0" && printf %s "$1"', WHICH, word]
    return subprocess.run(call, stdout=subprocess.PIPE, check=True).stdout.decode()


@cache
def itself(program, word):
    """Returns the program that a command becomes for a call's first word, or what is no command."""
    if program == PROGRAM:
        name = f"cronsafe{suffix_of(word).replace('-', '_')}"
        return TOP / f"crates/{name}/out/{name}"
    if program.is_file() and program.read_bytes().startswith(b"#!"):
        return program.parents[1] / f"lib/cronsafe/cronsafe{suffix_of(word)}"
    return program


def is_shown(place, lines, text):
    """Returns whether a line of a text is shown as it stands there, with a mark at the place."""
    number, column = int(place[2]), int(place[3])
    line = [*text.split(b"\n"), b""][number - 1]
    plain = re.sub(rb"[\x00-\x08\x0a-\x1f\x7f]|" + OBEYED, b"?", line)
    if len(line) > 160 or column > 100:
        return lines[0].removeprefix(b"...").removesuffix(b"...") in plain
    front = re.sub(rb"[^\t]", b" ", re.sub(rb"[\x80-\xbf]", b"", line[: column - 1]))
    return lines[0] == plain and re.fullmatch(front + rb"\^~*", lines[1])


def without_shown(err, text_of, is_declared):
    """Returns what a call says without the lines that show a fault, which have to be so."""
    lines, kept = err.split(b"\n"), []
    while lines:
        kept.append(lines.pop(0))
        fault, names = FAULT.fullmatch(kept[-1]), []
        while fault and len(lines) > 2 and (place := SHOWN.fullmatch(lines[0])):
            is_there = fault[1] in (None, b"0", place[2])
            if not is_there or not is_shown(place, lines[1:], text_of(place[1])):
                raise Fault(f"{place[0]!r} isn't shown: {lines[1:3]}")
            names.append(place[4])
            del lines[: 4 if lines[3].startswith(b"  line ") else 3]
        is_wanted = fault and not HINT.match(lines[0]) and (fault[1] or is_declared)
        if is_wanted and not any(it.startswith(fault[2] + b": ") for it in names):
            raise Fault(f"no line shows {kept[-1]!r}: {names}")
    return b"\n".join(kept)


def called(program, words, folder, stdin=b"", seconds=10, is_whole=False, **more):
    """Returns status, standard output and standard error of a call of the program.

    A library that is preloaded and limits are for the program itself, not for the sh before it.
    Unless the whole is asked for, the lines that show a fault of a file are looked at here.
    """
    if "preexec_fn" in more or "LD_PRELOAD" in more.get("env", ()):
        program = itself(program, words[0] if words else "")
    pipes = dict.fromkeys(("stdin", "stdout", "stderr"), subprocess.PIPE)
    given = {"executable": program, "cwd": folder, "start_new_session": True, **pipes, **more}
    try:
        ran = subprocess.Popen(["cronsafe", *words], **given)
    except OSError as error:
        raise BadUse(f"{program} doesn't start: {error.strerror}") from error
    try:
        out, err = ran.communicate(stdin, seconds)
    except subprocess.TimeoutExpired:
        os.killpg(ran.pid, signal.SIGKILL)
        ran.communicate()
        raise Fault(f"it ran for more than {seconds} seconds") from None
    if err and words and not is_whole:

        def text_of(path):
            path = Path(folder, os.fsdecode(path))
            return path.read_bytes() if path.is_file() else stdin

        first, *rest = [os.fsencode(it) for it in words]
        is_declared = first not in (b"day", b"chart", b"replay") or b"--declarations" in rest
        err = without_shown(err, text_of, is_declared)
    return ran.returncode, out, err


def answered(program, files, *words, **more):
    """Returns the answer to a call over these files, of which an anacrontab is named in it too."""
    words += ("--anacrontab", "anacrontab") if b"anacrontab" in files else ()
    with folder_with(files) as folder:
        return called(program, words, folder, **more)


def compiled(folder, name="failing"):
    """Returns a library to be preloaded: that of failing.c lets calls of the C library fail."""
    library, source = folder / f"{name}.so", TOP / f"tests/{name}.c"
    words = [os.environ.get("CC", "cc"), "-shared", "-fPIC", "-o", library, source, "-ldl"]
    try:
        subprocess.run(words, check=True)
    except (OSError, subprocess.SubprocessError) as error:
        raise BadUse(f"{source.name} isn't compiled: {error}") from error
    return library


def failing(library, name, which, error, told):
    """Returns the variables by which a call of a function fails; `told` is made when one does.

    It is the call of the number `which`; that one and all after it where the number is negative.
    """
    return {"LD_PRELOAD": library, "FAILING": f"{name} {which} {error}", "FAILED": told}


def outcome(test):
    """Returns what is wrong, nothing where the test passes, and the text that it returns."""
    try:
        found = test()
    except (Fault, OSError, subprocess.SubprocessError) as fault:
        return str(fault) or type(fault).__name__, ""
    return "", found if isinstance(found, str) else ""


def count(tests, at_once=os.cpu_count()):
    """Runs tests, so many side by side; prints which fail and the count, and returns the status."""
    failed, texts = 0, Counter()
    with ThreadPoolExecutor(at_once) as pool:
        for (name, _), (wrong, text) in zip(tests, pool.map(outcome, [it for _, it in tests])):
            texts[text] += 1
            if wrong:
                failed += 1
                print(f"{name} failed: {wrong}", flush=True)
    for text in sorted(filter(None, texts)):
        print(f"{texts[text]:6}  {text}")
    print(f"{len(tests) - failed} passed, {failed} failed")
    return 1 if failed else 0


def end_with(main):
    """Ends this program with the status that `main` returns."""
    try:
        sys.exit(main())
    except BadUse as error:
        print(*(f"{NAME}: {it}" for it in str(error).split("\n")), sep="\n", file=sys.stderr)
        sys.exit(2)
