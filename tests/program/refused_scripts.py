"""Scripts for refusals.py: worked ones on the counters of what meets a clause, on priorities and on preferences; every edit and its
refusals, with questions that show what the edits left; every query; filters; and lists that are loaded from files."""

COUNTERS = b"""add-list main packages
Package: s
Version: 1
Depends: x
Provides: x, x

Package: t
Version: 1
Depends: x
.
unmet
put main
Package: s
Version: 1
Depends: x
Provides: x, x
.
unmet
remove main s 1
unmet
"""

TWO_VERSIONS = b"""add-list main packages
Package: foo
Version: 1.0-1
.
add-list sid packages
Package: foo
Version: 2.0-1
.
add-list status status
Package: foo
Status: install ok installed
Version: 1.0-1
.
policy foo
"""

PRIORITIES = TWO_VERSIONS + b"""pin foo version 1.0* 999
policy foo
pin foo version 1.0* 1000
remove status foo 1.0-1
mark foo 2.0-1
policy foo
pin foo version 1.0* 999
policy foo
"""

PREFERENCES = TWO_VERSIONS + b"""prefs
Explanation: keep
Explanation: the old one
Package: foo bar
Pin: version 1.0*
Pin-Priority: 1001

Package: *
Pin: release a=sid
Pin-Priority: 50

Package: foo
Pin: version 1.0*
Pin-Priority: 1
.
policy
prefs
Package: bar
Pin: version 2
Pin-Priority: 5

Package: foo
Pin: origin x
Pin-Priority: 500
.
policy
prefs
.
policy foo
"""

LISTS = b"""add-list main packages
Package: s
Version: 1
Depends: x, y (>= 1) | z:any
Provides: x, x (= 2)
Description: a stanza
 with more
 .
 lines

Package: t
Version: 1:2.0-1
Pre-Depends: x
.
add-list sid packages notauto
Package: foo
Version: 2.0-1
.
add-list status status
Package: foo
Status: install ok installed
Version: 1.0-1
Enhances: a | b

Package: gone
Status: deinstall ok config-files
.
pkgnames
"""

STANZAS = b"""put main
Package: s
Version: 0:1-0
Conflicts: x (<< 2)
.
put main
Package: u
Version: 3
Replaces: s
.
pkgnames
put status
Package: gone
Status: purge ok not-installed
.
put status
Package: gone
Status: install ok unpacked
Version: 7
.
pkgnames
remove main s 1
remove main s 1
remove status gone 7
remove sid foo 2.0-1
pkgnames
put main
Package: v
Version: 1

Package: w
Version: 1
.
put nope
Package: v
Version: 1
.
put main
Package: v
Depends: x
Version: 1_0
.
add-list main packages
Package: a
Version: 1
.
add-list dpkg status
Package: a
Status: install ok installed
Version: 1
.
drop-list sid
drop-list sid
add-list sid packages butauto
Package: bar
Version: 9
.
pkgnames
pkgnames b
drop-list main
drop-list status
pkgnames
"""

SETTINGS = b"""mark foo 1.0-1
mark foo 2.0-1
mark bar none
unmark foo
unmark foo
unmark bar
mark 'f'oo 0:none
pin foo version 1.0* 999
pin foo version 1.0* 1000
pin foo version 1.0 -5
pin foo release main 700
pin '*' release sid 100
unpin foo version 1.0*
unpin foo version 1.0*
unpin foo version 1.0-0
target sid
target none
target 'main'
prefs
Explanation: keep
Explanation: the old one
Package: foo bar baz
Pin: version 1.0*
Pin-Priority: 1001

# a comment
Package: *
Pin: release a=sid
Pin-Priority: 50

Package: foo
Pin: version 1.0*
Pin-Priority: 1
.
unpin foo release main
unpin foo version 1.0*
unpin foo version 1.0*
unpin bar version 1.0*
unpin '*' release sid
prefs
Package: foo
Pin: version 2
Pin-Priority: 5

Package: bar
Pin: origin x
Pin-Priority: 500
.
unpin baz version 1.0*
unpin foo version 2
pin foo version 3 5
prefs
.
unpin foo version 3
unmark foo
pin foo version 1 0
mark foo 1_0
frob
pkgnames 'f
pkgnames
"""

FILTERS = b"""grep-dctrl -sPackage ''
grep-dctrl -c -F Depends,Pre-Depends --rx '[xy]+' -a ! -P -X t
grep-dctrl -i -F description 'A STANZA' -o ( --eq 1 -o -F Version --lt 1:2.0-2 )
grep-dctrl -v -dns Package,Version --rx -i '^PACKAGE: [fg]' -o -P --pattern=-
grep-dctrl -c -F Version --ge 1:2.0-1 -o -F Version --le 0:1.0000000000000000000000-1
grep-dctrl -F Depends --rx 'x('
grep-dctrl ( x
grep-dctrl -F a, x
grep-dctrl -z x
"""

QUERIES = b"""mark s 0:1
pin s version 1* 990
pin '*' release sid 300
target main
pkgnames
pkgnames --all-names
pkgnames --all-names x
show s t=1:2.0-1 nope s=9 t=3
show -a s
show --all-versions --no-all-versions s foo
depends s t foo x nope
depends -i t
depends --important --installed s
rdepends x y nope
rdepends --installed x
unmet
unmet -i
unmet --important
policy
policy s foo x nope
showpkg s x foo nope
put sid
Package: t
Version: 1:2.0
Recommends: s (>= 2) | x (= 2), z
Conflicts: s (<< 1), foo
Provides: s (= 3)
.
depends t
rdepends s
unmet
policy t s
showpkg s t
show s=1_0
show
depends -z s
rdepends s!
unmet x
policy --all
pkgnames a b
grep-dctrl -X -X s
grep-dctrl -c ''
"""

FILES = {
    "main": b"Package: s\nVersion: 1\nDepends: x, y (>= 1) | z:any\nProvides: x\n\nPackage: t\nVersion: 1:2.0-1\nX: y\n z\n",
    "sid": b"Package: foo\nVersion: 2.0-1\n",
    "status": b"Package: foo\nStatus: install ok installed\nVersion: 1.0-1\n\nPackage: gone\nStatus: deinstall ok config-files\n",
}

LOADED = ["-l", "main={0}/main", "-l", "sid={0}/sid", "--status", "{0}/status"]

# The name of a case, its script, and the words of the program, in which {0} is the folder of FILES.
SCRIPTS = [
    ("counters of what meets a clause", COUNTERS, []),
    ("priorities", PRIORITIES, []),
    ("preferences", PREFERENCES, []),
    ("every query and every edit", LISTS + QUERIES + STANZAS + SETTINGS, []),
    ("filters", LISTS + FILTERS, []),
    ("lists of -l and --status", b"pkgnames --all-names\nunmet\npolicy\ngrep-dctrl ''\n" + STANZAS + SETTINGS, LOADED),
]
