"""The queries of apt-cache(8): their words, and the text of each answer.

What is told of a row is told of its lead. Names are answered in the order of the words; else packages come in the order of their bytes,
and the rows of each newest first."""

from filters import answer_filter, parse_filter
from relations import DEPENDENCIES, EIGHT, met_by, print_atom, print_group, printed_field
from rows import View
from state import Refused
from versions import is_name, read_version

USAGE, NAME, VERSION = 2, 8, 9
IMPORTANT = EIGHT[:2]

NO_ALL_VERSIONS = b"--no-all-versions"
ALL_VERSIONS = [b"-a", b"--all-versions", NO_ALL_VERSIONS]
ONLY_IMPORTANT = [b"-i", b"--important"]
INSTALLED = b"--installed"
ALL_NAMES = b"--all-names"


def unknown(name):
    return b"N: Unable to locate package " + name + b"\n"


def for_each_known(state, names, answer):
    """The answers on each of some names, with a line in the place of one that isn't known."""
    view = View(state)
    known = view.known_names()
    return b"".join(answer(view, name) if name in known else unknown(name) for name in names)


# ---- pkgnames


def pkgnames(state, options, words):
    """Lists the names of packages that begin with a prefix; with --all-names those too that are only offered or named."""
    view = View(state)
    prefix = words[0] if words else b""
    names = view.known_names() if ALL_NAMES in options else view.packages()
    return b"".join(name + b"\n" for name in names if name.startswith(prefix))


# ---- show


def show(state, options, words):
    """Displays the package records of the named packages."""
    view = View(state)
    is_candidate = bool(options) and options[-1] == NO_ALL_VERSIONS
    return b"".join(show_word(view, word, is_candidate) for word in words)


def show_word(view, word, is_candidate):
    """A name, or a name and a version behind the first equals sign."""
    name, equals, text = word.partition(b"=")
    if not view.has_row(name):
        return unknown(name)
    if equals:
        row = view.row(name, read_version(text))
        if row is None:
            return b"N: Version " + text + b" of " + name + b" was not found\n"
        return row.lead.text + b"\n"
    rows = view.rows(name)
    if is_candidate:
        candidate = view.candidate(name)
        rows = [] if candidate is None else [candidate]
    return b"".join(row.lead.text + b"\n" for row in rows)


# ---- depends


def depends(state, options, words):
    """Shows a listing of each dependency a package has and all the possible other packages that can fulfill that dependency."""
    fields = IMPORTANT if any(option in ONLY_IMPORTANT for option in options) else EIGHT
    return for_each_known(state, words, lambda view, name: depends_of(view, name, fields, INSTALLED in options))


def depends_of(view, name, fields, is_installed):
    if not view.has_row(name):
        return b"<" + name + b">\n"
    row = view.candidate(name) or view.rows(name)[0]
    text = name + b"\n"
    for field in fields:
        for group in row.lead.groups(field):
            for at, atom in enumerate(group):
                text += depends_line(view, field, atom, at + 1 < len(group), is_installed)
    return text


def depends_line(view, field, atom, is_followed, is_installed):
    """An alternative, and under it the packages of other names with an offer that meets it. With --installed those alone that are
    installed, and no alternative that is neither."""
    providers = sorted({stanza.package for stanza, offer in view.offers(atom.name) if met_by(atom, offer) and stanza.package != atom.name})
    if is_installed:
        providers = [name for name in providers if view.installed(name) is not None]
        if not providers and view.installed(atom.name) is None:
            return b""
    name = atom.name if atom.qualifier is None else atom.name + b":" + atom.qualifier
    if not view.has_row(atom.name):
        name = b"<" + name + b">"
    text = (b" |" if is_followed else b"  ") + printed_field(field) + b": " + name + b"\n"
    return text + b"".join(b"    " + provider + b"\n" for provider in providers)


# ---- rdepends


def rdepends(state, options, words):
    """Shows a listing of each reverse dependency a package has."""
    return for_each_known(state, words, lambda view, name: rdepends_of(view, name, INSTALLED in options))


def rdepends_of(view, name, is_installed):
    """Each package that names the name, with a bar where an alternative follows in each such place."""
    text = name + b"\nReverse Depends:\n"
    for package in view.packages():
        followed = [
            at + 1 < len(group)
            for row in view.rows(package)
            for field in EIGHT
            for group in row.lead.groups(field)
            for at, atom in enumerate(group)
            if atom.name == name
        ]
        if followed and not (is_installed and view.installed(package) is None):
            text += (b" |" if all(followed) else b"  ") + package + b"\n"
    return text


# ---- unmet


def unmet(state, options, _words):
    """Displays a summary of all unmet dependencies in the package cache."""
    view = View(state)
    fields = IMPORTANT if options else DEPENDENCIES
    text = b""
    for package in view.packages():
        for row in view.rows(package):
            clauses = [(field, clause) for field, _, clause in row.lead.clauses() if field in fields and not view.is_met(clause)]
            if clauses:
                text += b"Package " + package + b" version " + row.version.text + b" has an unmet dep:\n"
            for field, clause in clauses:
                text += b" " + printed_field(field) + b": " + print_group(clause) + b"\n"
    return text


# ---- policy


def policy(state, _options, words):
    """Displays the priorities of each source, or detailed information about the priority selection of the named packages."""
    return for_each_known(state, words, policy_of) if words else policy_of_all(state)


def policy_of_all(state):
    view = View(state)
    text = b"Package files:\n"
    for entry in state.lists:
        text += b"%4d " % view.list_priority(entry) + entry.name + b"\n"
    text += b"Pinned packages:\n"
    for package in view.packages():
        for row in view.rows(package):
            priority, is_pinned = view.row_priority(row)
            if is_pinned:
                text += b"     " + package + b" -> " + row.version.text + b" with priority %d\n" % priority
    return text


def policy_of(view, name):
    installed, candidate = view.installed(name), view.candidate(name)
    text = name + b":\n"
    for what, row in ((b"Installed", installed), (b"Candidate", candidate)):
        text += b"  " + what + b": " + (b"(none)" if row is None else row.version.text) + b"\n"
    text += b"  Version table:\n"
    for row in view.rows(name):
        is_installed = installed is not None and row.version.equals(installed.version)
        text += (b" *** " if is_installed else b"     ") + row.version.text + b" %d\n" % view.row_priority(row)[0]
        for entry in row.sources:
            text += b"       %4d " % view.list_priority(entry) + entry.name + b"\n"
    return text


# ---- showpkg


def showpkg(state, _options, words):
    """Displays information about the packages listed: the available versions, what depends on them, what they depend on and offer."""
    return for_each_known(state, words, showpkg_of)


def showpkg_of(view, name):
    text = b"Package: " + name + b"\nVersions:\n"
    rows = view.rows(name)
    for row in rows:
        text += row.version.text + b"".join(b" (" + entry.name + b")" for entry in row.sources) + b"\n"
    text += b"\nReverse Depends:\n"
    all_rows = [(package, row) for package in view.packages() for row in view.rows(package)]
    for package, row in all_rows:
        atoms = [(field, atom) for field in EIGHT for group in row.lead.groups(field) for atom in group if atom.name == name]
        for field, atom in atoms:
            text += b"  " + package + b" " + row.version.text + b" " + printed_field(field) + b": " + print_atom(atom) + b"\n"
    text += b"Dependencies:\n"
    for row in rows:
        for field in EIGHT:
            for group in row.lead.groups(field):
                text += row.version.text + b" " + printed_field(field) + b": " + print_group(group) + b"\n"
    text += b"Provides:\n"
    for row in rows:
        text += b"".join(row.version.text + b" " + print_group(entry) + b"\n" for entry in row.lead.groups(b"Provides"))
    text += b"Reverse Provides:\n"
    for package, row in all_rows:
        entries = [entry for entry in row.lead.groups(b"Provides") if entry[0].name == name]
        text += b"".join(b"  " + package + b" " + row.version.text + b" " + print_group(entry) + b"\n" for entry in entries)
    return text


# ---- the words


# For each query its options, how few and how many words it takes, and its answer.
QUERIES = {
    b"pkgnames": ([ALL_NAMES], 0, 1, pkgnames),
    b"show": (ALL_VERSIONS, 1, None, show),
    b"depends": ([*ONLY_IMPORTANT, INSTALLED], 1, None, depends),
    b"rdepends": ([INSTALLED], 1, None, rdepends),
    b"unmet": (ONLY_IMPORTANT, 0, 0, unmet),
    b"policy": ([], 0, None, policy),
    b"showpkg": ([], 1, None, showpkg),
}
FILTER = b"grep-dctrl"


def is_query(name):
    return name in QUERIES or name == FILTER


def check_word(query, word):
    """Refuses a word of a query that isn't a name. The prefix of pkgnames may be any bytes."""
    if query == b"pkgnames":
        return
    name, equals, version = word.partition(b"=") if query == b"show" else (word, b"", b"")
    if not is_name(name):
        raise Refused(NAME)
    if equals and read_version(version) is None:
        raise Refused(VERSION)


def parse_query(name, words):
    """A query as a function of a state. A word that begins with a hyphen is an option, but in a filter."""
    if name == FILTER:
        query = parse_filter(words)
        return lambda state: answer_filter(state, query)
    allowed, fewest, most, answer = QUERIES[name]
    options = [word for word in words if word.startswith(b"-")]
    plain = [word for word in words if not word.startswith(b"-")]
    if any(option not in allowed for option in options) or len(plain) < fewest or (most is not None and len(plain) > most):
        raise Refused(USAGE)
    for word in plain:
        check_word(name, word)
    return lambda state: answer(state, options, plain)
