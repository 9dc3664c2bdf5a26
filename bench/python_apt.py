"""python_apt.py [NAME]: opens the cache by python-apt, chooses the candidate of each package, or of one, and prints how long the choosing
took, in seconds. It is run by the Python that has apt_pkg, with APT_CONFIG set."""

import sys
import time

import apt_pkg

apt_pkg.init()
cache = apt_pkg.Cache(None)
choice, policy = apt_pkg.DepCache(cache), apt_pkg.Policy(cache)
start = time.monotonic()
for package in [cache[sys.argv[1]]] if len(sys.argv) > 1 else cache.packages:
    if package.has_versions:
        choice.get_candidate_ver(package)
        for version in package.version_list:
            policy.get_priority(version)
print(time.monotonic() - start)
