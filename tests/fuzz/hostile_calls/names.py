"""Declarations that name lines by number and command, and leave lines out."""
import json

from hostile_calls.calls import Call

# Where a command begins on a line, and how many bytes it may then have.
HEAD = b"0 1 * * * "
MOST_OF_A_COMMAND = 4_096 - len(HEAD)
# Lines of the crontabs of random names, of which most stand more than once; the last is no UTF-8.
LINES = (b"0 1 * * * a", b"0 2 * * * a", b"0 1 * * * b", b"@reboot a", b"# a", b"0 3 * * * a\xff")
COMMANDS = ("a", "b", "c", "a ", "", "a\ufffd")
PARTS = (("line",), ("command",), ("command",), ("line", "command"))
NAMED = 2_000
# Signs of commands, and how JSON may write each.
SHORT = dict(zip('"\\/\b\f\r\t', ('\\"', "\\\\", "\\/", "\\b", "\\f", "\\r", "\\t")))
SIGNS = (*SHORT, *"\x01\x1f\x7f\x85 %é€\u2028\ufeff\uffff")


def judge_of(what, lines, declared):
    """Returns the call that judges lines of a crontab; `declared` is a value or its text."""
    text = declared if isinstance(declared, bytes) else json.dumps(declared).encode()
    files = {b"crontab": b"".join(it + b"\n" for it in lines), b"declarations": text}
    return Call(what, [b"judge", b"crontab", b"declarations"], files)


def any_name(chance, lines):
    """Returns a name for a line, mostly for one that is there, and then mostly by its command."""
    number, command = chance.randrange(len(lines) + 2), chance.choice(COMMANDS)
    if 0 < number <= len(lines) and chance.random() < 0.8:
        command = lines[number - 1].split(b" ")[-1].decode("utf-8", "replace")
    whole = {"line": number, "command": command}
    return {it: whole[it] for it in chance.choice(PARTS)}


def random_names(chance):
    """Yields random names of lines: such as are not there, or stand twice, or have no command."""
    for number in range(NAMED):
        lines = [chance.choice(LINES) for _ in range(chance.choice((1, 2, 2, 3, 3, 4)))]
        found = {"capacity": 64}
        for member, more in (("cron", {"max": 1}), ("left_out", {})):
            count = chance.choice((0, 0, 1, 1, 2, 3))
            found[member] = [{**any_name(chance, lines), **more} for _ in range(count)]
        if chance.random() < 0.6:
            found["default"] = {"max": 1}
        yield judge_of(f"names {number}", lines, found)


def named(what, line, text):
    """Yields the calls that name a line by the text of a command, alone and with its number."""
    for name in (b'"command":%s' % text, b'"line":1,"command":%s' % text):
        entry = b'{"capacity":1,"cron":[{%s,"max":1}]}' % name
        yield judge_of(f"{what}, of an entry", [line], entry)
        yield judge_of(f"{what}, left out", [line], b'{"capacity":1,"left_out":[{%s}]}' % name)


def forms_of(sign):
    """Yields the ways in which JSON writes a sign, and some that aren't any."""
    yield from (f"\\u{ord(sign):04x}", f"\\u{ord(sign):04X}", sign, SHORT.get(sign, sign + sign))
    yield from ("\\" + sign, "\\\\" + sign)


def commands():
    """Yields commands told with escapes, long ones, and such as aren't UTF-8."""
    for sign in SIGNS:
        line = HEAD + f"a{sign}b".encode()
        for form in dict.fromkeys(forms_of(sign)):
            yield from named(f"a command with {sign!r} as {form!r}", line, f'"a{form}b"'.encode())
    for length in (MOST_OF_A_COMMAND - 1, MOST_OF_A_COMMAND, MOST_OF_A_COMMAND + 1):
        for told in (length - 1, length, length + 1, 4_096, 4_097):
            what = f"a command of {length} bytes, told with {told}"
            yield from named(what, HEAD + b"a" * length, b'"%s"' % (b"a" * told))
    for told in ("a\ufffd", "a\u00ff", "a", "a\\u00ff", "a\\xff", "a\\ufffd"):
        yield from named(f"a command that isn't UTF-8 as {told!r}", LINES[-1], f'"{told}"'.encode())
    yield from named("a command and the bytes that it has", LINES[-1], b'"a\xff"')


def names(chance):
    yield from random_names(chance)
    yield from commands()
