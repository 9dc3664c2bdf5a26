"""Versions in the order of deb-version(7)."""

import functools
import re
from typing import TypeAlias

_Key: TypeAlias = tuple[tuple[tuple[int, ...], int], ...]
_PIECES = re.compile(r"([^0-9]*)([0-9]*)")


def _weight(sign: str) -> int:
    """A tilde comes before the end of a part, and letters before all other signs."""
    if sign == "~":
        return -1
    return ord(sign) if sign.isalpha() else ord(sign) + 256


def _key(part: str) -> _Key:
    """What a part is compared by: runs of other signs and numbers in turn. The end of a run weighs nothing."""
    return tuple(((*(_weight(sign) for sign in signs), 0), int(digits or "0")) for signs, digits in _PIECES.findall(part))


@functools.lru_cache(maxsize=4096)
def version_key(version: str) -> tuple[int, _Key, _Key]:
    """What versions are compared by; equal versions have equal keys. ValueError for an epoch that is no number."""
    epoch, colon, rest = version.partition(":")
    if not colon:
        epoch, rest = "0", version
    upstream, hyphen, revision = rest.rpartition("-")
    if not hyphen:
        upstream, revision = rest, "0"
    return int(epoch), _key(upstream), _key(revision)
