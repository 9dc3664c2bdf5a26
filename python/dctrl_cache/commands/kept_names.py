"""Names of packages that are kept for the completion, with what tells whether the lists have changed since."""

import os
import tempfile

from ..apt import AptSystem
from ..session import Session
from .loading import watched
from .quick import kept_path, stamp_of


def stamps(system: AptSystem, root: str) -> bytes:
    """A line for each file that the names come from; the folders of lists are among them."""
    paths = watched(system, root)
    folders = sorted({os.path.dirname(entry.path) for entry in system.lists})
    places = [os.fsencode(path) for path in [*paths, *folders]]
    return b"".join(b"%s\t%s\n" % (stamp_of(place), place) for place in places if b"\n" not in place)


def keep(session: Session, stamped: bytes, root: str) -> bytes:
    """Keeps the names that a session has, and returns them, a line each. Where they can't be kept that is no fault."""
    names = session.run("pkgnames")
    path = kept_path(root)
    try:
        os.makedirs(os.path.dirname(path), mode=0o700, exist_ok=True)
        handle, made = tempfile.mkstemp(dir=os.path.dirname(path))
        with os.fdopen(handle, "wb") as file:
            file.write(stamped + b"\n" + names)
        os.replace(made, path)
    except OSError:
        pass
    return names
