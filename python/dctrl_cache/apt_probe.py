"""Tells, as one object of JSON on standard output, where apt has its files and what its sources name.

It is a program of its own: the configuration of python3-apt is one for a whole process, and parts of it are read once. Its environment
says which system is meant, by APT_CONFIG."""

import glob
import json
import os
import sys

import apt_pkg


def has_sources(source: str, parts: str) -> bool:
    """Whether there is a file of sources."""
    files = [source, *glob.glob(glob.escape(parts) + "/*.list"), *glob.glob(glob.escape(parts) + "/*.sources")]
    return any(os.path.isfile(file) for file in files)


def indexes() -> list[dict[str, str]]:
    """The lists of packages that the sources name and that are there, in their order."""
    sources = apt_pkg.SourceList()
    sources.read_main_list()
    return [{"uri": release.uri, "dist": release.dist, "described": index.describe}
            for release in sources.list for index in release.index_files
            if index.has_packages and index.exists and index.label == "Debian Package Index"]


def main() -> None:
    apt_pkg.init_config()
    apt_pkg.init_system()
    config = apt_pkg.config
    told: dict[str, object] = {
        "lists": config.find_dir("Dir::State::lists"),
        "status": config.find_file("Dir::State::status"),
        "preferences": config.find_file("Dir::Etc::preferences"),
        "preferences_parts": config.find_dir("Dir::Etc::preferencesparts"),
        "default_release": config.find("APT::Default-Release"),
        "architecture": config.find("APT::Architecture"),
    }
    is_named = has_sources(config.find_file("Dir::Etc::sourcelist"), config.find_dir("Dir::Etc::sourceparts"))
    told["indexes"] = indexes() if is_named else None
    json.dump(told, sys.stdout)


if __name__ == "__main__":
    try:
        main()
    except apt_pkg.Error as error:
        sys.exit(str(error))
