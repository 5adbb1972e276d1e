"""Installs Debian's packages for the checks. Checks run at the same time, and apt can't: so they wait for one another here."""

import fcntl
import os
import shutil
import subprocess


def install(package: str) -> None:
    """Installs a package if the user is root and apt-get is there. Whether it is there then, the caller looks."""
    if os.geteuid() != 0 or not shutil.which("apt-get"):
        return
    quiet = os.environ | {"DEBIAN_FRONTEND": "noninteractive"}
    wanted = ["install", "-y", "--no-install-recommends", package]
    with open(__file__) as lock:
        fcntl.flock(lock, fcntl.LOCK_EX)
        for words in (wanted, ["update"], wanted):
            done = subprocess.run(["apt-get", "-q", *words], env=quiet, stdin=subprocess.DEVNULL, capture_output=True, check=False)
            if words is wanted and done.returncode == 0:
                return
