"""The reference program of tests/reference, for the comparisons in this folder: what they ask of its modules."""

import pathlib
import sys

sys.path.append(str(pathlib.Path(__file__).resolve().parent.parent / "tests/reference"))

from control import PACKAGES, STATUS, TextFault, read_records, read_stanzas  # noqa: E402, F401
from relations import EIGHT, RelationFault, met_by, parse_relations, print_group, printed_field  # noqa: E402, F401
from rows import View, pairs, without_removed  # noqa: E402, F401
from state import Limits, Refused, State, place_of_edit, step  # noqa: E402, F401
from versions import Version  # noqa: E402, F401
