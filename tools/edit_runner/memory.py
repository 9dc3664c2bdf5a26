"""Tells whether there is memory for one more check."""

# So much a check takes at most, and as much is left to what has begun and still grows.
OF_A_CHECK = 3 << 30
LEFT = 3 << 30


def is_enough():
    return free() >= OF_A_CHECK + LEFT


def free():
    with open("/proc/meminfo", encoding="utf-8") as it:
        return next(int(line.split()[1]) << 10 for line in it if line.startswith("MemAvailable:"))
