"""Folders of a system that apt keeps: sources, lists, the status of dpkg, preferences."""

import bz2
import gzip
import hashlib
import lzma
import os
import shutil
import subprocess
import tempfile

from harness import finished

# How a list can be packed: the ending of its file, and what packs it.
PACKERS = {"": lambda text: text, ".gz": gzip.compress, ".xz": lzma.compress, ".bz2": bz2.compress}
PROGRAMS = {".lz4": ["lz4", "-q", "-c"], ".zst": ["zstd", "-q", "-c"]}


def packed(text, ending):
    """The text in a packed form; nothing where the program for it isn't there."""
    if ending in PACKERS:
        return PACKERS[ending](text)
    if shutil.which(PROGRAMS[ending][0]) is None:
        return None
    return subprocess.run(PROGRAMS[ending], input=text, stdout=subprocess.PIPE, check=True).stdout


def stanza(name, version, *lines):
    """A stanza of a packages list."""
    return "\n".join(["Package: " + name, "Version: " + version, "Architecture: amd64", *lines]) + "\n\n"


def installed(name, version, *lines):
    """A stanza of dpkg's status."""
    return "\n".join(["Package: " + name, "Status: install ok installed", "Version: " + version, "Architecture: amd64", *lines]) + "\n\n"


class AptRoot:
    """A folder that goes when the tests that use it are done. Its machine is one of amd64."""

    def __enter__(self):
        self.holder = tempfile.TemporaryDirectory()
        self.folder = os.path.join(self.holder.name, "a root")
        for path in ("etc/apt/apt.conf.d", "etc/apt/preferences.d", "var/lib/apt/lists/partial", "var/lib/dpkg", "var/cache/apt"):
            os.makedirs(os.path.join(self.folder, path))
        self.sources = []
        self.status("")
        return self

    def __exit__(self, *_):
        self.holder.cleanup()

    def path(self, name):
        return os.path.join(self.folder, name)

    def write(self, name, text):
        """The path of a new file."""
        with open(self.path(name), "wb") as file:
            file.write(text.encode() if isinstance(text, str) else text)
        return self.path(name)

    def status(self, text):
        """What is installed beside dpkg, which tells the architecture."""
        self.write("var/lib/dpkg/status", installed("dpkg", "1.21.22") + text)

    def list_file(self, name):
        return self.path("var/lib/apt/lists/" + name)

    def add_release(self, suite, lists, ending="", fields="", codename=None, signed=False, packed_lists=None):
        """A release of the archive example.org/debian, with a list for each component."""
        start = "example.org_debian_dists_%s_" % suite
        sums = []
        for component, text in lists.items():
            name = "%s/binary-amd64/Packages" % component
            sums.append(" %s %d %s" % (hashlib.sha256(text.encode()).hexdigest(), len(text.encode()), name))
            body = packed(text.encode(), ending) if packed_lists is None else packed_lists[component]
            self.write("var/lib/apt/lists/" + start + name.replace("/", "_") + ending, body)
        release = ("Origin: Example\nLabel: Example archive\nSuite: %s\nCodename: %s\nVersion: 12.1\nArchitectures: amd64\nComponents: %s\n%sSHA256:\n%s\n"
                   % (suite, codename or suite + "-name", " ".join(lists), fields, "\n".join(sums)))
        if signed:
            release = "-----BEGIN PGP SIGNED MESSAGE-----\nHash: SHA256\n\n%s-----BEGIN PGP SIGNATURE-----\n\nAAAA\n-----END PGP SIGNATURE-----\n" % release
        self.write("var/lib/apt/lists/" + start + ("InRelease" if signed else "Release"), release)
        self.sources.append("deb [trusted=yes] http://example.org/debian %s %s" % (suite, " ".join(lists)))
        self.write("etc/apt/sources.list", "\n".join(self.sources) + "\n")

    def settings(self, *more):
        """The environment in which apt's own programs have this folder for theirs."""
        text = ('Dir "%s/";\nDir::State::status "%s/var/lib/dpkg/status";\nAPT::Architecture "amd64";\nAPT::Architectures { "amd64"; };\n'
                'Dir::Cache::pkgcache "";\nDir::Cache::srcpkgcache "";\nDir::Etc::sourceparts "/dev/null";\n%s' % (self.folder, self.folder, "".join(more)))
        return {**os.environ, "APT_CONFIG": self.write("apt.conf", text), "LC_ALL": "C"}

    def apt_cache(self, *words):
        """What apt-cache answers here."""
        return finished(["apt-cache", *words], env=self.settings())


def has_apt():
    return shutil.which("apt-cache") is not None
