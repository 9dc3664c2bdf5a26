"""dctrl-cache-apt: asks the program about the lists that apt keeps on a machine, or below another folder."""

import json
import os
import signal
import sys
from collections.abc import Callable
from dataclasses import asdict
from types import TracebackType

from ..apt import AptSystem, apt_lists
from ..apt_files import AptFault
from ..errors import Ended, Refused, UnexpectedAnswer
from ..session import Session
from . import kept_names, quick
from .asking import Asker
from .loading import Choice, list_names, load_lists, load_preferences
from .opening import Progress, find_program
from .scripts import ScriptRun
from .serve import ServeError, Server
from .served import ServedSession
from .trials import Fault
from .words import Call, WordsError, read_call

VERSION = "0.1.0"
USAGE = """\
Usage: dctrl-cache-apt [OPTION]... COMMAND [WORD]...
       dctrl-cache-apt [OPTION]... < SCRIPT
       dctrl-cache-apt [OPTION]... --lists
       dctrl-cache-apt [OPTION]... --serve SOCKET
       dctrl-cache-apt [--json] --ask SOCKET COMMAND [WORD]...

Asks dctrl-cache about the package lists that apt keeps, what dpkg says is
installed, and the preferences of apt. With words it gives one command, as
`policy bash`; without, standard input is a script.

      --root DIR        reads the folders of the system below DIR
      --only LIST       reads this list alone; it may be given again
      --without LIST    leaves a list out; it may be given again
      --installed-only  reads what is installed alone
      --strict          ends where a list has a fault; else it is left out
      --json            prints the answer to a query as JSON
      --lists           prints the lists: their names, short names, classes,
                        sources and files
      --serve SOCKET    keeps a session, and answers queries on a socket
      --ask SOCKET      asks such a session
  -h, --help            prints this
  -V, --version         prints the version
"""


class WriteFailed(Exception):
    """Standard output can't be written."""


def say(text: str) -> None:
    """A line on standard error."""
    sys.stderr.write("dctrl-cache-apt: %s\n" % text)
    sys.stderr.flush()


def write(data: bytes) -> None:
    if quick.write_out(data) != 0:
        raise WriteFailed


class Opened:
    """A session that is loaded with what a call asks for; it is ended at the end of `with`."""

    def __init__(self, script: str, call: Call) -> None:
        choice = _choice(call)
        self.system: AptSystem = apt_lists(call.root or "/")
        self.stamps = kept_names.stamps(self.system, call.root) if call.mode == "names" else b""
        self.session = Session(find_program(script))
        progress = Progress()
        try:
            lists = load_lists(self.session, self.system, choice, say, progress)
            progress("Reading preferences")
            load_preferences(self.session, self.system, lists, say)
        except BaseException:
            self.session.kill()
            raise
        finally:
            progress.end()
        self.names = list_names(lists)

    def __enter__(self) -> "Opened":
        return self

    def __exit__(self, _kind: type[BaseException] | None, _error: BaseException | None, _trace: TracebackType | None) -> None:
        self.session.kill()


def _choice(call: Call) -> Choice:
    return Choice(("status",) if call.installed_only else tuple(call.only), tuple(call.without), call.strict)


def run_command(script: str, call: Call) -> int:
    with Opened(script, call) as opened:
        reply = Asker(opened.session, opened.names, opened.system.architecture).answer(call.words, json=call.json)
    write(reply.output)
    sys.stderr.flush()
    sys.stderr.buffer.write(reply.errors)
    sys.stderr.buffer.flush()
    return reply.status


def run_script(script: str, call: Call) -> int:
    with Opened(script, call) as opened:
        return ScriptRun(opened.session, opened.names, write).run(sys.stdin.buffer)


def run_lists(_script: str, call: Call) -> int:
    """Prints the lists."""
    system = apt_lists(call.root or "/")
    if call.json:
        write(json.dumps([asdict(entry) for entry in system.lists]).encode("utf-8", "surrogateescape") + b"\n")
        return 0
    for entry in system.lists:
        kind = entry.kind if entry.classification is None else "%s %s" % (entry.kind, entry.classification)
        shown = entry.name if entry.short in ("", entry.name) else "%s (%s)" % (entry.name, entry.short)
        write(("%s\n  %s\n  %s\n  %s\n" % (shown, kind, entry.description, entry.path)).encode("utf-8", "surrogateescape"))
    return 0


def run_names(script: str, call: Call) -> int:
    """Keeps the names for the completion, and prints those that begin with a word where one is given."""
    with Opened(script, call) as opened:
        names = kept_names.keep(opened.session, opened.stamps, call.root)
    if call.words:
        write(quick.beginning_with(b"\n" + names, os.fsencode(call.words[0])))
    return 0


def run_serve(script: str, call: Call) -> int:
    program = find_program(script)
    served = ServedSession(call.root, _choice(call), lambda: Session(program), say)
    try:
        served.load()
        Server(call.socket, served.answer).run()
    except ServeError as fault:
        raise Fault(str(fault)) from None
    finally:
        served.end()
    return 0


def run_ask(_script: str, call: Call) -> int:
    return quick.ask(call.socket, (["--json"] if call.json else []) + call.words)


def run_help(_script: str, _call: Call) -> int:
    write(USAGE.encode())
    return 0


def run_version(_script: str, _call: Call) -> int:
    write(b"dctrl-cache-apt %s\n" % VERSION.encode())
    return 0


MODES: dict[str, Callable[[str, Call], int]] = {
    "command": run_command, "script": run_script, "lists": run_lists, "names": run_names, "serve": run_serve, "ask": run_ask,
    "help": run_help, "version": run_version,
}


def main(script: str, words: list[str]) -> int:
    """Runs the command, and returns its exit status. `script` is the path of the program."""
    signal.signal(signal.SIGINT, signal.SIG_DFL)
    try:
        call = read_call(words)
        return MODES[call.mode](script, call)
    except (WordsError, Fault, AptFault) as fault:
        say(str(fault))
    except WriteFailed:
        say("write failed")
    except (Ended, Refused, UnexpectedAnswer) as fault:
        say(str(fault))
    return 2

