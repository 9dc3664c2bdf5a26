"""The lists of apt for dctrl-cache-try: those of archives, and what is installed where that is asked for."""

from collections.abc import Callable
from typing import Protocol

from ..apt import apt_lists
from ..apt_files import AptFault
from ..session import Session
from .loading import Choice, load_lists
from .opening import Progress
from .trials import Fault


class TrialCall(Protocol):
    """What a call of dctrl-cache-try asks for."""

    list_name: str
    root: str
    only: list[str]
    without: list[str]
    installed: bool
    architecture: str
    strict: bool


def load_for_trial(session: Session, call: TrialCall, say: Callable[[str], None]) -> tuple[str, str]:
    """Reads the lists of apt. Returns the name of the list that is changed, and the architecture."""
    try:
        system = apt_lists(call.root or "/")
    except AptFault as fault:
        raise Fault(str(fault)) from None
    try:
        changed = system.find(call.list_name)
    except KeyError:
        raise Fault("%s: no list has this name; dctrl-cache-apt --lists prints them" % call.list_name) from None
    without = [*call.without] + ([] if call.installed or "status" in call.only or changed.name == "status" else ["status"])
    progress = Progress()
    try:
        taken = load_lists(session, system, Choice(tuple(call.only), tuple(without), call.strict), say, progress)
    finally:
        progress.end()
    if changed not in taken:
        raise Fault("%s: the list isn't among those that are read" % call.list_name)
    return changed.name, call.architecture or system.architecture
