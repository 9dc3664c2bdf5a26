"""A folder in which apt knows some lists of packages, and nothing else of the machine."""

import os
import re
import shutil
import subprocess

CONFIGURATION = """Dir "{0}";
Dir::State "{0}/state";
Dir::State::lists "{0}/state/lists";
Dir::State::status "{0}/status";
Dir::Cache "{0}/cache";
Dir::Cache::pkgcache "pkgcache.bin";
Dir::Cache::srcpkgcache "srcpkgcache.bin";
Dir::Etc "{0}/etc";
Dir::Log "{0}/log";
Dir::Bin::methods "/usr/lib/apt/methods";
APT::Architecture "amd64";
APT::Architectures {{ "amd64"; }};
APT::Sandbox::User "root";
Acquire::Languages "none";
Acquire::AllowInsecureRepositories "true";
"""


class AptFolder:
    """A folder of apt's own files. Each list, a file by its name, is a flat archive without a signature; what is installed is said by
    a status file, or nothing is."""

    def __init__(self, folder, lists, status=None):
        self.folder = folder
        for name in ("archive", "state/lists/partial", "cache/archives/partial", "etc/apt.conf.d", "etc/preferences.d",
                     "etc/sources.list.d", "etc/trusted.gpg.d", "log"):
            os.makedirs(os.path.join(folder, name))
        for name, path in lists.items():
            os.mkdir(os.path.join(folder, "archive", name))
            os.symlink(os.path.abspath(path), os.path.join(folder, "archive", name, "Packages"))
        if status is None:
            self.write("status", "")
        else:
            shutil.copy(status, os.path.join(folder, "status"))
        self.write("apt.conf", CONFIGURATION.format(folder))
        self.write("etc/sources.list", "".join("deb [trusted=yes] file:%s/archive/%s ./\n" % (folder, name) for name in lists))
        self.environment = dict(os.environ, APT_CONFIG=os.path.join(folder, "apt.conf"), LC_ALL="C")
        subprocess.run(["apt-get", "-qq", "update"], env=self.environment, check=True, stderr=subprocess.DEVNULL)

    def list_of(self, file):
        """The name of the list that apt calls so in its answers; `status` for what is installed."""
        match = re.search(r"/archive/([^/ ]+)", file)
        return "status" if match is None else match.group(1)

    def write(self, name, text):
        with open(os.path.join(self.folder, name), "w", encoding="ascii") as file:
            file.write(text)

    def forget(self):
        """Takes the caches away."""
        for name in ("pkgcache.bin", "srcpkgcache.bin"):
            path = os.path.join(self.folder, "cache", name)
            if os.path.exists(path):
                os.remove(path)
