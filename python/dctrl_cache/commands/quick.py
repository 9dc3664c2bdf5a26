"""What has to be quick, so that it needs little more than sockets: a question to a served session, and names for a completion.

The program loads this file by itself, without the package that it is in.

A question is its words with a NUL behind each, up to where the client ends its side. The answer is a line of three numbers, the exit
status and the bytes of output and errors; then those bytes."""

import os
import socket
import sys

# How long the names of a served session may take, in seconds, before kept ones are taken.
PATIENCE = 0.15


class NotServed(Exception):
    """There is no answer; the text says why."""


def exchange(path: str, words: list[bytes], patience: "float | None" = None) -> tuple[int, bytes, bytes]:
    """The status, the output and the errors of a question to a session that is served at a path."""
    with socket.socket(socket.AF_UNIX, socket.SOCK_STREAM) as talk:
        talk.settimeout(patience)
        try:
            talk.connect(path)
            talk.sendall(b"".join(word + b"\0" for word in words))
            talk.shutdown(socket.SHUT_WR)
            with talk.makefile("rb") as file:
                numbers = file.readline().split()
                if len(numbers) != 3:
                    raise NotServed("%s: the session gave no answer" % path)
                status, output, errors = (int(number) for number in numbers)
                answer, said = file.read(output), file.read(errors)
        except OSError as error:
            raise NotServed("%s: %s" % (path, error.strerror or "the session gave no answer in time")) from None
    if len(answer) != output or len(said) != errors:
        raise NotServed("%s: the session broke off" % path)
    return status, answer, said


def write_out(data: bytes) -> int:
    """Writes to standard output. 0, or 2 where that failed. A reader that has stopped ends the program by the signal of pipes."""
    view = memoryview(data)
    try:
        while view:
            view = view[os.write(1, view):]
    except BrokenPipeError:
        import signal
        signal.signal(signal.SIGPIPE, signal.SIG_DFL)
        os.kill(os.getpid(), signal.SIGPIPE)
    except OSError:
        return 2
    return 0


def ask(path: str, words: list[str]) -> int:
    """Asks a served session, prints what it answers, and returns the exit status."""
    try:
        status, output, errors = exchange(path, [os.fsencode(word) for word in words])
    except NotServed as fault:
        sys.stderr.write("dctrl-cache-apt: %s\n" % fault)
        return 2
    if write_out(output) != 0:
        sys.stderr.write("dctrl-cache-apt: write failed\n")
        return 2
    if errors:
        os.write(2, errors)
    return status


def served_path() -> "str | None":
    """Where the session of the user is served, as the units of systemd have it."""
    folder = os.environ.get("XDG_RUNTIME_DIR", "")
    return os.path.join(folder, "dctrl-cache-apt.socket") if folder else None


def kept_path(root: str) -> str:
    """The file of names of a system that are kept."""
    folder = os.environ.get("XDG_CACHE_HOME", "") or os.path.join(os.path.expanduser("~"), ".cache")
    place = os.path.realpath(root or "/").strip("/").replace("%", "%25").replace("/", "%2f")
    return os.path.join(folder, "dctrl-cache", "names" + ("-" + place if place else ""))


def stamp_of(path: bytes) -> bytes:
    """What a file is told by: its time, its size and its number, or that it isn't there."""
    try:
        found = os.stat(path)
    except OSError:
        return b"-"
    return b"%d %d %d" % (found.st_mtime_ns, found.st_size, found.st_ino)


def read_kept(path: str) -> "tuple[bool, bytes]":
    """Whether the kept names are those of the lists of now, and the names, a line each. FileNotFoundError where none are kept.

    The file has a line for each file that the names come from, its stamp and its path, then an empty line, then the names."""
    with open(path, "rb") as file:
        data = file.read()
    head, _, names = data.partition(b"\n\n")
    stamps = [line.partition(b"\t") for line in head.split(b"\n")]
    return all(stamp_of(place) == stamp for stamp, _, place in stamps), b"\n" + names


def beginning_with(names: bytes, prefix: bytes) -> bytes:
    """The names with a prefix, of names with a newline before each."""
    found, place, key = [], 0, b"\n" + prefix
    while (place := names.find(key, place)) >= 0:
        end = names.find(b"\n", place + 1)
        if end < 0:
            break
        found.append(names[place + 1:end + 1])
        place = end
    return b"".join(found)


def refresh_behind(program: str, root: str) -> None:
    """Starts a run that keeps the names anew, and doesn't wait for it."""
    if os.fork() != 0:
        return
    os.setsid()
    nothing = os.open(os.devnull, os.O_RDWR)
    for number in (0, 1, 2):
        os.dup2(nothing, number)
    os.execv(sys.executable, [sys.executable, program, *(["--root", root] if root else []), "--keep-names"])


def names(program: str, words: list[str]) -> "int | None":
    """Prints the names that begin with the last word: of the served session, or kept ones. Where the lists have changed since, the kept
    ones are made anew for the next time. None where nothing is kept yet."""
    root = words[1] if len(words) > 2 and words[0] == "--root" else ""
    prefix = os.fsencode(words[-1])
    served = served_path()
    if not root and served is not None and os.path.exists(served):
        try:
            status, output, _ = exchange(served, [b"pkgnames", prefix], PATIENCE)
            if status == 0:
                return write_out(output)
        except NotServed:
            pass
    try:
        is_new, kept = read_kept(kept_path(root))
    except OSError:
        return None
    if not is_new:
        refresh_behind(program, root)
    return write_out(beginning_with(kept, prefix))
