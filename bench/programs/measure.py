"""measure.py COMMAND..: prints the middle of the milliseconds of five calls, and the most MiB.

What the command writes is thrown away. A call counts what Python held as it began, so less than
that isn't told, but `<15` or the like.
"""
import math
import os
import subprocess
import sys
import time

NOWHERE = subprocess.DEVNULL


def call(words):
    """Returns the milliseconds of a call, and the most memory that it held in MiB."""
    begun = time.perf_counter()
    process = subprocess.Popen(words, stdin=NOWHERE, stdout=NOWHERE, stderr=NOWHERE)
    used = os.wait4(process.pid, 0)[2]
    process.returncode = 0
    return (time.perf_counter() - begun) * 1000, used.ru_maxrss / 1024


took, held = zip(*(call(sys.argv[1:]) for _ in range(5)))
least = math.ceil(call(["true"])[1])
print(f"{sorted(took)[2]:.1f}", f"<{least}" if max(held) < least else f"{max(held):.0f}")
