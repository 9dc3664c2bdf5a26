"""What a run of a program takes."""

import os
import subprocess
import time

RUNS = 5


def measured(words, script="/dev/null", runs=RUNS, statuses=(0,)):
    """The least time of some runs in seconds, and the most memory of one in KiB. A run that ends with another status than
    these ends the measuring."""
    times, peaks = [], []
    for _ in range(runs):
        with open(script, "rb") as given, open("/dev/null", "wb") as answers:
            start = time.monotonic()
            running = subprocess.Popen(words, stdin=given, stdout=answers)
            _, status, usage = os.wait4(running.pid, 0)
            times.append(time.monotonic() - start)
        if os.waitstatus_to_exitcode(status) not in statuses:
            raise SystemExit("%s: status %d" % (words[0], os.waitstatus_to_exitcode(status)))
        peaks.append(usage.ru_maxrss)
    return min(times), max(peaks)
