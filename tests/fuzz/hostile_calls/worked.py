"""The inputs of the worked cases, such as end early, and such in which a byte is another."""
import functools
from collections import namedtuple

from cases import cases_of
from model import certificate
from model.call import answer_of, asked, asks_help, words_of_check
from model.faults import Fault

from hostile_calls.calls import call_of

SUBCOMMANDS = ("day", "check", "judge", "make", "replay")
OF_CERTIFICATES = ("check", "make", "running")
# The kinds of inputs by what the words of a call name them.
KINDS = {"TABLE": b"crontab", "ANACRONTAB": b"anacrontab", "SCRIPT": b"script"}
KINDS |= {"DECLS": b"declarations", "DECLARATIONS": b"declarations"}
# What each kind of input is read after.
BEFORE = {b"crontab": (), b"anacrontab": (), b"declarations": (b"crontab", b"anacrontab")}
BEFORE |= {b"script": (b"crontab", b"anacrontab", b"declarations")}
# Of a longer input as many prefixes are taken, by the seed.
LONG, PREFIXES_OF_A_LONG_ONE = 600, 100
LONG_CERTIFICATE, PREFIXES_OF_A_LONG_CERTIFICATE = 122, 6
BYTES = b"\0\t\n\r \"%',-./01:=@\\a\xff"
BYTES_OF_CERTIFICATES = BYTES + b"29[]{}eE+"
# Of so many changes one is made of certificates too: these take longer.
CHANGES_OF_ONE = 5

# What an input is, its kind and its bytes, and the files by their kinds that it needs beside it.
Worked = namedtuple("Worked", "what kind text beside")


def found_in(case, words, kinds):
    """Returns the files that words name, by their kinds."""
    files = {**case.files, b"-": case.stdin, b"made": case.stdout}
    found = {} if case.status == 4 or asks_help(words) else asked(words)
    return {kinds[role]: files[found[role]] for role in kinds if found.get(role) in files}


def is_reached(it):
    """Returns whether all that is read before a worked input reads well."""
    call = call_of(it.what, it.kind, it.text, it.beside)
    told = answer_of(call.words, call.files).err
    return not any(b"cronsafe: " + name in told for name in BEFORE[it.kind])


@functools.cache
def worked_inputs():
    """Returns each input of the cases once, with what the first fit case has beside it."""
    found = {}
    for case in cases_of(SUBCOMMANDS):
        inputs = found_in(case, case.words, KINDS)
        for kind, text in inputs.items():
            beside = {name: inputs[name] for name in BEFORE[kind] if name in inputs}
            it = Worked(f"{kind.decode()} of {case.name}", kind, text, beside)
            if (kind, text) not in found and is_reached(it):
                found[kind, text] = it
    return list(found.values())


def certificate_of(case):
    """Returns the certificate of a case with what is beside it; none where it doesn't read well."""
    inputs = found_in(case, words_of_check(case.words), {**KINDS, "CERT": b"certificate"})
    text = inputs.pop(b"certificate", b"")
    try:
        certificate.read(text)
    except Fault:
        return None
    it = Worked(case.name, b"certificate", text, inputs)
    call = call_of(it.what, it.kind, it.text, it.beside)
    is_read = answer_of(call.words, call.files, is_judged=False).status is None
    return it if is_read else None


@functools.cache
def worked_certificates():
    """Returns each certificate of the cases with the files beside it, each such pair once."""
    found = {}
    for it in map(certificate_of, cases_of(OF_CERTIFICATES)):
        if it:
            found.setdefault((it.text, tuple(sorted(it.beside.items()))), it)
    return list(found.values())


def prefixes(inputs, chance, long=LONG, count=PREFIXES_OF_A_LONG_ONE):
    """Yields each prefix of each worked input, of a long one some; each text once."""
    seen = set()
    for it in inputs:
        lengths = range(len(it.text) + 1)
        if len(it.text) > long:
            lengths = sorted(chance.sample(lengths, count))
        for length in lengths:
            text = it.text[:length]
            if (it.kind, text) not in seen:
                seen.add((it.kind, text))
                yield call_of(f"{length} bytes of {it.what}", it.kind, text, it.beside)


def changes(inputs, chance, count, signs=BYTES):
    """Yields a number of worked inputs in which one byte is another."""
    inputs = [it for it in inputs if it.text]
    for _ in range(count):
        it = chance.choice(inputs)
        at, byte = chance.randrange(len(it.text)), chance.choice(signs)
        text = it.text[:at] + bytes([byte]) + it.text[at + 1 :]
        yield call_of(f"byte {at} of {it.what} as {byte}", it.kind, text, it.beside)


def prefixes_of_certificates(chance):
    """Yields prefixes of each worked certificate, of longer ones fewer than of other inputs."""
    long = LONG_CERTIFICATE, PREFIXES_OF_A_LONG_CERTIFICATE
    return prefixes(worked_certificates(), chance, *long)


def changes_of_certificates(chance, count):
    """Yields worked certificates in which one byte is another, fewer than of other inputs."""
    return changes(worked_certificates(), chance, count // CHANGES_OF_ONE, BYTES_OF_CERTIFICATES)
