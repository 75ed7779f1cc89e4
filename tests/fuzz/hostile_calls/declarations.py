"""Declarations with any value anywhere, such as say something twice, are deep or at a limit."""
from pathlib import Path

from hostile_calls.calls import JOB, call_of

WHOLE = (
    b'{"capacity":1,"offset":0,"hours":[0,1440],"pass":0,"groups":[{"name":"g","exclusive":true}],'
    b'"cron":[{"line":1,"max":1,"weight":1,"group":"g","mode":"wait"}],'
    b'"anacron":[{"id":"b","max":1,"weight":1,"group":"g"}],'
    b'"left_out":[{"command":"b"}],"default":{"weight":1,"max":1}}'
)
# The tables of these: one of two jobs, of which one is left out, and one of one job.
TABLES_OF_WHOLE = {b"crontab": JOB + b"0 2 * * * b\n", b"anacrontab": b"1 0 b c\n"}
# The file beside this folder has most values, and the members in which they are put.
PARTS = Path(__file__).parents[1].joinpath("declarations").read_bytes().split(b"\n= ")
VALUES = (
    *PARTS[1].split()[1:],
    *(b'"%s"' % it for it in b"\0 \x1f \x7f \t \n \xff \xc3 \xc0\xaf \xed\xa0\x80".split(b" ")),
    *(b'"\xf4\x90\x80\x80"', b'"\xe2\x82\xac"', b"\xff", b"\xef\xbb\xbf1", b"\x0c1", b"\xa01"),
    *(b"1" * 400, b"1" * 5_000, b"1" * 300 + b".5", b"0." + b"0" * 400 + b"1e401"),
    *(b"1e" + b"9" * 50, b"0e" + b"9" * 50, b"1e-" + b"9" * 50, b"1" + b"0" * 400 + b"e-400"),
)
PLACES = (
    b"%s",
    b'{"capacity":%s}',
    b'{"capacity":1} %s',
    b'%s {"capacity":1}',
    *(b'{"capacity":1,' + it + b"}" for it in PARTS[2].splitlines()[1:]),
)


def deep():
    """Yields lists and objects inside each other, as deep as they may be and deeper."""
    for depth in (1, 2, 126, 127, 128, 129, 500, 100_000):
        for opened, closed in ((b"[", b"]"), (b'{"a":', b"}"), (b"[1,", b"]"), (b" [ ", b" ] ")):
            for inner in (b"", b"0"):
                for count in (depth, depth - 1, 0):
                    text = opened * depth + inner + closed * count
                    what = f"{depth} times {opened!r}, {count} times {closed!r}"
                    yield call_of(what, b"declarations", text, {})
                    member = b'{"capacity":1,"groups":' + text + b"}"
                    yield call_of(f"groups of {what}", b"declarations", member, {})


def values():
    """Yields declarations that have each value at each place, beside the tables named there."""
    anacrontab = {b"crontab": b"", b"anacrontab": b"1 0 g b\n"}
    for place in PLACES:
        tables = {b"crontab": JOB if b"cron" in place else b""}
        for value in VALUES:
            what = f"{value[:40]!r} in {place.decode()}"
            text = place.replace(b"%s", value)
            beside = anacrontab if b"anacron" in place else tables
            yield call_of(what, b"declarations", text, beside)


def doubled_members():
    """Yields declarations in which a member comes twice, in the object or in one inside it."""
    tables = TABLES_OF_WHOLE
    others = (b"0", b"null", b"[]", b'"x"', b"true", b"2", b"[5,5]", b"{}", b'{"max":2}')
    yield call_of("no member twice", b"declarations", WHOLE, tables)
    for name in b"capacity offset zone hours pass groups cron anacron left_out default note".split():
        for other in others:
            member = b'"' + name + b'":' + other
            texts = WHOLE[:-1] + b"," + member + b"}", b"{" + member + b"," + WHOLE[1:]
            for text in texts:
                yield call_of(f"{member!r} too", b"declarations", text, tables)
    for name in b"name exclusive line command max weight group mode id note".split():
        for other in (*others, b'"a"', b'"g"', b'"b"', b"1"):
            member = b'"' + name + b'":' + other
            for opened in (b'{"name"', b'{"line"', b'{"id"', b'{"command"', b'{"weight"'):
                text = WHOLE.replace(opened, b"{" + member + b"," + opened[1:])
                yield call_of(f"{member!r} before {opened!r}", b"declarations", text, tables)
                at = WHOLE.index(b"}", WHOLE.index(opened))
                text = WHOLE[:at] + b"," + member + WHOLE[at:]
                yield call_of(f"{member!r} after {opened!r}", b"declarations", text, tables)
    escaped = WHOLE[:-1] + b',"\\u0063apacity":65}'
    yield call_of("a name written in two ways", b"declarations", escaped, tables)
