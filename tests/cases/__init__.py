"""Worked examples: calls of the program with the answers that are wanted.

The cases of a subcommand are in a folder of its name; those of `run` are in 'running', and calls
without a subcommand in 'program'. A file TOPIC.cases has many, each below a line '=== NAME'; a long
case may have a file for itself, NAME.case, without that line. The name of the case is then
SUBCOMMAND/NAME. It has these sections, each once and in any order:

  --- call        the call as one line of a shell, as 'cronsafe judge crontab evening.json'
  --- file NAME   a file that a word of the calls names, or that is in a folder that one names
  --- stdin       standard input; without this section it is empty
  --- status N    the exit status; this section has no text
  --- stdout      the whole standard output; a line '*' takes one or more lines, YYYY-MM-DD any
                  date, HH: and :MM any hour and minute
  --- stderr      the same of standard error; without this section it is empty
  --- then        a second call, which puts to use what the first one printed: its word 'stdout'
                  names that, 'script' the same without its first line, and it ends with status 0
  --- then status N   the exit status of the second call, if that isn't 0
  --- then stdout     the whole standard output of the second call, as that of the first one

The text of a section is all lines up to the next one that begins with '--- ' or '=== '. A text
that ends without a newline says so on its head: '--- file NAME (no newline)'. A text with a line
that begins so, with control characters or with bytes that aren't UTF-8 is '(escaped)', or
'(escaped, no newline)': \\xNN is the byte of these two hexadecimal digits, and \\\\ a backslash.
"""
import re
import shlex
from collections import namedtuple
from functools import cache
from pathlib import Path

from harness import BadUse

FOLDER = Path(__file__).resolve().parent
TITLE = re.compile(rb"=== ([a-z0-9_]+)")
NAME = r"[^\s()/](?:[^()]*[^\s()/])?"
HEAD = re.compile(
    rf"--- (call|stdin|stdout|stderr|then(?: stdout)?|(?:then )?status (\d{{1,3}})|file ({NAME}))"
    r"(?: \((escaped|no newline|escaped, no newline)\))?"
)
ESCAPE = re.compile(rb"\\(x[0-9a-f]{2}|\\|)")
ANY = {rb"YYYY\-MM\-DD": rb"\d{4}-\d\d-\d\d", b"HH:": rb"\d\d:", b":MM": rb":\d\d"}
# The lines of a case below that number of a file.
Part = namedtuple("Part", "name file above lines")
# Words, names of files and texts are bytes; the words leave out `cronsafe`; `text` is all of it.
Case = namedtuple(
    "Case", "name text words then then_status then_stdout stdin status stdout stderr files"
)


def cases_of(names=()):
    """Returns the cases of these names, which may be subcommands or files; all without a name.

    A BadUse tells all that is wrong with them, a line for each fault.
    """
    folders = sorted(it.name for it in FOLDER.iterdir() if it.is_dir() and it.name != "__pycache__")
    cases, wrong = [], []
    for name in names or folders:
        name = name.removeprefix("tests/").removeprefix("cases/").removesuffix(".case").rstrip("/")
        folder = name.partition("/")[0]
        parts = parts_in(folder) if folder in folders else []
        parts = [it for it in parts if name in (folder, it.name, it.file)]
        if not parts:
            raise BadUse(f"there is no case {name}")
        for it in parts:
            try:
                cases.append(Reader(it).case())
            except BadUse as error:
                wrong.append(str(error))
    if wrong:
        raise BadUse("\n".join(wrong))
    return cases


@cache
def parts_in(folder):
    """Returns the parts of the files in a folder, in the order of their names."""
    parts = {}
    for path in sorted((FOLDER / folder).iterdir()):
        for it in parts_of(path, f"{folder}/{path.name}"):
            if it.name in parts:
                raise BadUse(f"{it.file}: {it.name} is also in {parts[it.name].file}")
            parts[it.name] = it
    return sorted(parts.values())


def parts_of(path, file):
    """Yields the parts of a file, one for each case."""
    if path.suffix not in (".case", ".cases") or not path.is_file():
        raise BadUse(f"{file} is no case")
    *lines, last = path.read_bytes().split(b"\n")
    if last:
        raise BadUse(f"{file}, line {len(lines) + 1}: the last line has no newline")
    if path.suffix == ".case":
        yield Part(file.removesuffix(".case"), file, 0, lines)
        return
    heads = [number for number, line in enumerate(lines, 1) if TITLE.fullmatch(line)]
    if heads[:1] != [1]:
        raise BadUse(f"{file}, line 1: cases begin with a line '=== NAME'")
    for head, end in zip(heads, [*heads[1:], len(lines) + 1]):
        name = f"{file.partition('/')[0]}/{lines[head - 1][4:].decode()}"
        yield Part(name, file, head, lines[head : end - 1])


def is_plain(line):
    """Returns whether a line has only tabs and printable characters, as UTF-8."""
    try:
        return line.decode().replace("\t", "").isprintable()
    except UnicodeDecodeError:
        return False


def call_line(words):
    """Returns a call as a line of a shell."""
    words = [it.decode("utf-8", "surrogateescape") for it in [b"cronsafe", *words]]
    return shlex.join(words).encode("utf-8", "surrogateescape") + b"\n"


def words_of(line):
    """Returns the words of a call, which is to be written as call_line does."""
    try:
        words = shlex.split(line.decode("utf-8", "surrogateescape"))
    except ValueError as error:
        raise BadUse(f"the call is no line of a shell: {error}") from error
    words = [it.encode("utf-8", "surrogateescape") for it in words]
    if words[:1] != [b"cronsafe"]:
        raise BadUse("the call doesn't begin with 'cronsafe'")
    if line != call_line(words[1:]):
        right = call_line(words[1:]).decode("utf-8", "backslashreplace").rstrip()
        raise BadUse(f"the call is to be written as: {right}")
    return words[1:]


def shell_text(text):
    """Returns a text as the shell takes it by printf."""
    signs = {10: "\\n", 9: "\\t", 37: "%%", 39: "'\\''", 92: "\\\\"}
    plain = [signs.get(it) or (chr(it) if 32 <= it < 127 else f"\\{it:03o}") for it in text]
    return f"printf '{''.join(plain)}'"


def shell_call(words, stdin):
    """Returns a call as it is typed, with its standard input."""
    call = call_line(words).decode("utf-8", "surrogateescape").rstrip("\n")
    return f"{shell_text(stdin)} | {call}" if stdin else call


def is_named(name, words):
    """Returns whether a word is that name, its folder, or an option with it after its equals sign."""
    return any(word in (name, name.partition(b"/")[0]) or word.endswith(b"=" + name) for word in words)


def is_met(wanted, got):
    """Returns whether a text is the wanted one; a line '*' stands for one or more lines."""
    lines = wanted.split(b"\n")
    parts = [rb"(?s:.*)" if it == b"*" else pattern_of(it) for it in lines]
    if lines[-2:] == [b"*", b""] or lines[-1] == b"*":
        parts = [*parts[: -2 if lines[-1] == b"" else -1], b"(?s:.+)"]
    return re.fullmatch(b"\n".join(parts), got) is not None


def pattern_of(line):
    """Returns what a wanted line takes: itself, and any date, hour and minute where it says so."""
    pattern = re.escape(line)
    for sign, taken in ANY.items():
        pattern = pattern.replace(sign, taken)
    return pattern


class Reader:
    """The sections of a case: the text of each by its head, and the line of that."""

    def __init__(self, part):
        self.part, self.texts, self.heads = part, {}, {}
        lines = part.lines
        for number, line in enumerate(lines, 1):
            if not is_plain(line):
                self.fail(number, "a control character, or bytes that aren't UTF-8")
        at = [number for number, line in enumerate(lines) if line.startswith((b"--- ", b"=== "))]
        if at[:1] != [0]:
            self.fail(1, "a case begins with the head of a section")
        for start, end in zip(at, [*at[1:], len(lines)]):
            self.read_section(start + 1, lines[start].decode(), lines[start + 1 : end])
        for key in ("call", "status", "stdout"):
            if key not in self.texts:
                self.fail(len(lines), f"the case ends without a section '{key}'")

    def fail(self, number, what):
        raise BadUse(f"{self.part.file}, line {self.part.above + number}: {what}")

    def read_section(self, number, head, lines):
        found = HEAD.fullmatch(head)
        if not found:
            self.fail(number, f"there is no section '{head[4:]}'")
        key, status, _, marks = found.groups("")
        key = key.removesuffix(f" {status}") if status else key
        if key in self.heads:
            self.fail(number, "this section is there already")
        if status and (lines or marks or int(status) > 255):
            self.fail(number, "this is no exit status alone")
        self.heads[key] = number
        self.texts[key] = int(status) if status else self.text_of(number, lines, marks)

    def text_of(self, number, lines, marks):
        if "escaped" in marks:
            lines = [self.unescaped(it, line) for it, line in enumerate(lines, number + 1)]
        text = b"".join(line + b"\n" for line in lines)
        if "no newline" not in marks:
            return text
        if not text[:-1] or text.endswith(b"\n\n"):
            self.fail(number, "there is no last line without a newline")
        return text[:-1]

    def unescaped(self, number, line):
        if any(not it for it in ESCAPE.findall(line)):
            self.fail(number, r"a backslash begins neither \xNN nor \\")
        return ESCAPE.sub(lambda it: bytes.fromhex(it[1][1:].decode()) or b"\\", line)

    def words(self, key):
        try:
            return words_of(self.texts[key]) if key in self.texts else []
        except BadUse as error:
            return self.fail(self.heads[key] + 1, error)

    def case(self):
        then, outputs = self.words("then"), (b"stdout", b"script")
        texts = {key: self.texts.get(key, b"") for key in ("stdin", "status", "stdout", "stderr")}
        texts["then_status"] = self.texts.get("then status", 0)
        texts["then_stdout"] = self.texts.get("then stdout")
        text = b"\n".join([*self.part.lines, b""])
        case = Case(self.part.name, text, self.words("call"), then, **texts, files={})
        for key in [it for it in self.texts if it.startswith("file ")]:
            name = key[5:].encode()
            if not is_named(name, case.words + then) or then and name in outputs:
                self.fail(self.heads[key], "no word of the calls names this file")
            case.files[name] = self.texts[key]
        if "then" in self.texts:
            if not any(is_named(it, then) for it in outputs):
                self.fail(self.heads["then"], "no word of this call is 'stdout' or 'script'")
        elif any(it.startswith("then ") for it in self.texts):
            self.fail(1, "there is no second call")
        elif set(case.stdout.split(b"\n")) - {b""} == {b"*"}:
            self.fail(self.heads["stdout"], "this takes any text")
        return case
