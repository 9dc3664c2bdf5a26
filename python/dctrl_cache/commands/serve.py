"""A session that stays, and answers on a socket."""

import os
import select
import signal
import socket
import stat
import threading
from collections.abc import Callable
from types import FrameType

from ..script import to_text
from .asking import Reply

# How long a client may take to say its words or to hear its answer, in seconds, and how many bytes of words it may say.
PATIENCE = 30.0
LONGEST_QUESTION = 1 << 26
# Where systemd hands a socket over.
_FIRST_SOCKET = 3


class ServeError(Exception):
    """The session can't be served; the text says why."""


def _handed_over() -> socket.socket | None:
    """The socket that systemd listens on for this process."""
    if os.environ.get("LISTEN_PID") != str(os.getpid()) or os.environ.get("LISTEN_FDS") != "1":
        return None
    return socket.socket(fileno=_FIRST_SOCKET)


def _is_served(path: str) -> bool:
    """Whether somebody listens at a path."""
    with socket.socket(socket.AF_UNIX, socket.SOCK_STREAM) as talk:
        try:
            talk.connect(path)
        except OSError:
            return False
    return True


def listen(path: str) -> socket.socket:
    """A socket that its owner alone may use. One that is left of a session that ended is replaced."""
    try:
        if stat.S_ISSOCK(os.lstat(path).st_mode):
            if _is_served(path):
                raise ServeError("%s: a session is served there" % path)
            os.unlink(path)
    except FileNotFoundError:
        pass
    listener = socket.socket(socket.AF_UNIX, socket.SOCK_STREAM)
    mask = os.umask(0o177)
    try:
        listener.bind(path)
    except OSError as error:
        listener.close()
        raise ServeError("%s: %s" % (path, error.strerror or error)) from None
    finally:
        os.umask(mask)
    return listener


class Server:
    """Answers questions one after the other, however many clients there are.

    answer  gives the reply to words; it is called by one thread at a time"""

    def __init__(self, path: str, answer: Callable[[list[str]], Reply]) -> None:
        handed = _handed_over()
        self._listener = handed if handed is not None else listen(path)
        self._is_ours = handed is None
        self._path = path
        self._answer = answer
        self._lock = threading.Lock()
        self._ends = False

    def run(self) -> None:
        """Serves until a signal ends it (TERM, INT or HUP). One that comes just before the wait for a client, or that another thread takes,
        doesn't break that wait off: so each is also told by a byte that is waited for."""
        told, teller = socket.socketpair()
        teller.setblocking(False)
        signal.set_wakeup_fd(teller.fileno())
        for number in (signal.SIGTERM, signal.SIGINT, signal.SIGHUP):
            signal.signal(number, self._end)
        self._listener.setblocking(False)
        self._listener.listen(64)
        try:
            while not self._ends:
                select.select([self._listener, told], [], [])
                self._take_client()
        finally:
            signal.set_wakeup_fd(-1)
            told.close()
            teller.close()
            self._listener.close()
            if self._is_ours:
                os.unlink(self._path)

    def _end(self, _number: int, _frame: FrameType | None) -> None:
        self._ends = True

    def _take_client(self) -> None:
        """Answers the next client, if there is one, in a thread of its own."""
        try:
            talk, _ = self._listener.accept()
        except BlockingIOError:
            return
        threading.Thread(target=self._serve, args=(talk,), daemon=True).start()

    def _serve(self, talk: socket.socket) -> None:
        """Answers one client. One that breaks off costs nobody else anything."""
        with talk:
            talk.settimeout(PATIENCE)
            try:
                words = _question(talk)
                if words:
                    with self._lock:
                        reply = self._answer(words)
                    talk.sendall(b"%d %d %d\n" % (reply.status, len(reply.output), len(reply.errors)) + reply.output + reply.errors)
            except OSError:
                return


def _question(talk: socket.socket) -> list[str]:
    """The words of a client; none where its question is no such thing."""
    data = bytearray()
    while piece := talk.recv(1 << 16):
        data += piece
        if len(data) > LONGEST_QUESTION:
            return []
    return [to_text(word) for word in bytes(data).split(b"\0")[:-1]] if data.endswith(b"\0") else []
