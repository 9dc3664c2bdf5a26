"""A cache of Debian packages in memory: edits, and the queries of apt-cache(8) and grep-dctrl(1) between them.

    from pathlib import Path
    from dctrl_cache import Session

    with Session() as session:
        session.add_list("main", "packages", Path("Packages"))
        session.put("main", "Package: hello\\nVersion: 2.12-1\\nDepends: libc6 (>= 2.34)\\n")
        print(session.run("unmet").decode())

The program `dctrl-cache` holds the lists and answers; this module talks to it."""

from .answers import (Alternative, AskedBy, Dependency, Dependent, Depends, HeldVersion, ListPriority, Pinned, Policy, PolicyRow,
                      Priorities, ProvidedBy, Relation, ReverseDepends, RowProvides, RowRelation, ShowPackage, Stanza, Unmet)
from .apt import AptList, AptSystem, apt_lists
from .apt_files import AptFault
from .apt_preferences import Preference
from .channel import Answer
from .errors import REFUSALS, BodyError, Ended, Refused, UnexpectedAnswer
from .session import Session

__all__ = [
    "Alternative", "Answer", "AptFault", "AptList", "AptSystem", "AskedBy", "BodyError", "Dependency", "Dependent", "Depends", "Ended",
    "HeldVersion", "ListPriority", "Pinned", "Policy", "PolicyRow", "Preference", "Priorities", "ProvidedBy", "REFUSALS", "Refused",
    "Relation", "ReverseDepends", "RowProvides", "RowRelation", "Session", "ShowPackage", "Stanza", "UnexpectedAnswer", "Unmet",
    "apt_lists",
]
