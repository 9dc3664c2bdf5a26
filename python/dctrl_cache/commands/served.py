"""The session that `--serve` keeps: it is asked, and reads its lists anew where their files have changed."""

from collections.abc import Callable

from ..apt import AptList, AptSystem, apt_lists
from ..apt_files import AptFault
from ..errors import Ended, Refused, UnexpectedAnswer
from ..session import Session
from .asking import Asker, Reply
from .loading import Choice, Say, list_names, load_lists, load_preferences, watched
from .quick import stamp_of
from .trials import Fault
from .words import WordsError, check_words

Stamps = dict[str, bytes]


def stamps_of(system: AptSystem, root: str) -> Stamps:
    """What the files of a system are told by, as they are now."""
    return {path: stamp_of(path.encode("utf-8", "surrogateescape")) for path in watched(system, root)}


class ServedSession:
    """A session over the lists of apt that follows their files.

    open_session  makes a new session
    say           takes lines about faults, which nobody waits for"""

    def __init__(self, root: str, choice: Choice, open_session: Callable[[], Session], say: Say) -> None:
        self._root = root
        self._choice = choice
        self._open_session = open_session
        self._say = say
        self._session: Session | None = None
        self._system: AptSystem | None = None
        self._lists: list[AptList] = []
        self._stamps: Stamps = {}
        self._asker: Asker | None = None

    def load(self) -> None:
        """Reads all lists into a new session. Fault or AptFault where that can't be done; the session that was there is left then."""
        system = apt_lists(self._root or "/")
        stamps = stamps_of(system, self._root)
        session = self._open_session()
        try:
            lists = load_lists(session, system, self._choice, self._say, lambda _text: None)
            load_preferences(session, system, lists, self._say)
        except BaseException:
            session.kill()
            raise
        self.end()
        self._session, self._system, self._lists, self._stamps = session, system, lists, stamps
        self._asker = Asker(session, list_names(lists), system.architecture)

    def end(self) -> None:
        """Ends the session."""
        if self._session is not None:
            self._session.kill()
        self._session = self._asker = None

    def answer(self, words: list[str]) -> Reply:
        """The answer to the words of a client: a query, behind `--json` where it is to be JSON. A program that has ended is started
        again."""
        try:
            try:
                return self._answer(words)
            except Ended:
                self.end()
                return self._answer(words)
        except (WordsError, Fault, AptFault, Ended, Refused, UnexpectedAnswer, OSError) as fault:
            reply = Reply(2)
            reply.say("dctrl-cache-apt: %s" % fault)
            return reply

    def _answer(self, words: list[str]) -> Reply:
        self._follow()
        assert self._asker is not None
        json = words[0] == "--json"
        if not words[json:]:
            raise WordsError("--ask: no command is named")
        check_words(words[json:])
        return self._asker.answer(words[json:], json=json, may_edit=False)

    def _follow(self) -> None:
        """Reads anew what has changed: dpkg's status alone where nothing else has, else all."""
        if self._session is None or self._system is None:
            self.load()
            return
        stamps = stamps_of(self._system, self._root)
        changed = {path for path in stamps.keys() | self._stamps.keys() if stamps.get(path) != self._stamps.get(path)}
        if not changed:
            return
        status = next((entry for entry in self._lists if entry.kind == "status"), None)
        if status is not None and changed == {status.path}:
            self._read_status(self._session, self._system, status)
            self._stamps = stamps
        else:
            self.load()

    def _read_status(self, session: Session, system: AptSystem, status: AptList) -> None:
        text = status.read(system.architecture)
        session.drop_list(status.name)
        self._stamps = {}
        session.add_list(status.name, "status", text)
        load_preferences(session, system, self._lists, self._say)
        self._asker = Asker(session, list_names(self._lists), system.architecture)
