#!/usr/bin/env python3
"""What a process takes: its time and its peak of memory. A small helper starts it, since a process begins with the peak of what
starts it, and reads what it prints over a pipe.

As a program it measures 1, 4 and 8 processes side by side, each with a list of its own: until all are ready, and then that many
edits with a question behind each, by what a run takes longer that makes them:

    bench/processes.py PROGRAM FILE [EDITS]"""

import os
import subprocess
import sys
import tempfile
import time

ROUNDS = 3

HELPER = """
import os, sys, time
start = time.monotonic()
told, telling = os.pipe()
child = os.fork()
if child == 0:
    os.dup2(telling, 1)
    os.dup2(os.open("/dev/null", os.O_WRONLY), 2)
    os.execvp(sys.argv[1], sys.argv[1:])
os.close(telling)
while os.read(told, 1 << 20):
    pass
_, status, usage = os.wait4(child, 0)
print(time.monotonic() - start, usage.ru_maxrss * 1024, os.waitstatus_to_exitcode(status))
"""


def process(words, environment=None, statuses=(0,)):
    """The seconds that a process takes, and its peak of memory in bytes; one below that of the helper, some 10 MB, isn't seen."""
    done = subprocess.run([sys.executable, "-I", "-S", "-c", HELPER, *words], env=environment, stdout=subprocess.PIPE, check=True)
    seconds, peak, status = done.stdout.split()
    if int(status) not in statuses:
        raise SystemExit("%s: status %d" % (" ".join(words[:4]), int(status)))
    return float(seconds), int(peak)


def peak_of(pid):
    """The peak of memory of a process that runs, in bytes."""
    with open("/proc/%d/status" % pid, encoding="ascii") as file:
        return next(int(line.split()[1]) for line in file if line.startswith("VmHWM:")) * 1024


def processors():
    """How many processors there are, and how busy they have been for a minute."""
    return len(os.sched_getaffinity(0)), os.getloadavg()[0]


def edits(count):
    """A script of so many edits, each with a question behind it: a stanza comes in the place of the last, and depends on another version."""
    return b"".join(b"put main\nPackage: hello\nVersion: 9.0\nDepends: libc6 (>= 2.%d)\n.\npolicy hello\n" % number for number in range(count))


def side_by_side(program, file, count, script):
    """The seconds until so many processes that run a script side by side have ended, and the greatest memory of one of them."""
    with tempfile.NamedTemporaryFile() as commands:
        commands.write(script)
        commands.flush()
        start = time.monotonic()
        words = [program, "-l", "main=" + file, commands.name]
        processes = [subprocess.Popen(words, stdout=subprocess.DEVNULL) for _ in range(count)]
        peak = 0
        for running in processes:
            _, status, usage = os.wait4(running.pid, 0)
            running.returncode = os.waitstatus_to_exitcode(status)
            if running.returncode != 0:
                raise SystemExit("the program ended with status %d" % running.returncode)
            peak = max(peak, usage.ru_maxrss * 1024)
    return time.monotonic() - start, peak


def main(program, file, count=100000):
    script = edits(int(count))
    print("| Processes | Ready, s | Memory of each, MB | Memory of all, MB | Edits and questions a second, all together |")
    print("|---|---|---|---|---|")
    for number in (1, 4, 8):
        ready = min(side_by_side(program, file, number, b"")[0] for _ in range(ROUNDS))
        whole, peak = side_by_side(program, file, number, script)
        edited = number * int(count) / (whole - ready)
        print("| %d | %.2f | %.0f | %.0f | %.0f |" % (number, ready, peak / 1e6, number * peak / 1e6, edited), flush=True)
    print("%d processors, busy in the last minute: %.1f" % processors())


if __name__ == "__main__":
    main(*sys.argv[1:])
