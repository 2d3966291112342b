"""The version of the package. The build backend loads this file alone, so it imports nothing of the package."""
import os
import re
import subprocess

# The version of the whole, the programs too; docs/RELEASES.md lists them all.
NEWEST = "1.3"

PACKAGE = os.path.dirname(os.path.abspath(__file__))
CHECKOUT = os.path.dirname(os.path.dirname(PACKAGE))

# What the build backend writes the version into.
FILE = os.path.join(PACKAGE, "VERSION")


def version():
    """The version: the newest one in docs/RELEASES.md, if that is released. Before it is released it is that of the commit, as 1.1.dev120+gabcdef,
    where 120 commits lead to it: so a later one is newer, and the release is newer than all of them."""
    try:
        with open(FILE, encoding="ascii") as written:
            return written.read().strip()
    except OSError:
        pass
    listed = os.path.join(CHECKOUT, "docs", "RELEASES.md")
    try:
        with open(listed, encoding="utf-8") as releases:
            return NEWEST if is_released(NEWEST, releases.read()) else f"{NEWEST}.dev{commit(CHECKOUT)}"
    except OSError:
        return f"{NEWEST}.dev0"


def is_released(number, text):
    """Whether a list of releases has checksums for this version.

    >>> row = "| 9.1 | 2030-01-31 | c | k | " + "1" * 64 + " | " + "2" * 64 + " |"
    >>> is_released("9.1", row), is_released("9.1", "| 9.1 | not released yet | - | - | - | - |"), is_released("9", row)
    (True, False, False)
    """
    checksum = "`?[0-9a-f]{64}`?"
    return re.search(rf"(?m)^\| {re.escape(number)} \|.*\| {checksum} \| {checksum} \|$", text) is not None


def commit(checkout):
    """What the version has behind `dev`: the number of commits, and the last one; 0 where that can't be told."""
    if not os.path.exists(os.path.join(checkout, ".git")):
        return "0"
    try:
        asked = [["git", "-C", checkout, *words.split()] for words in ("rev-list --count HEAD", "rev-parse --short=10 HEAD")]
        count, last = (subprocess.run(it, stdout=subprocess.PIPE, stderr=subprocess.DEVNULL, check=True).stdout for it in asked)
        return f"{int(count)}+g{last.decode().strip()}"
    except (OSError, ValueError, subprocess.CalledProcessError):
        return "0"
