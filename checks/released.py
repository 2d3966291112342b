"""What release/ is, and what is wrong with it, for the scripts beside this one."""
import hashlib
import os
import re
import subprocess
import sys

from common import TOP

sys.path.insert(0, os.path.join(TOP, "python"))
from coxeter_shell import provenance

PROGRAMS = ("coxeter", "coxcheck")
RELEASE = os.path.join(TOP, "release")
RELEASES = os.path.join(TOP, "docs", "RELEASES.md")


def sources_of(checkout):
    """The sum of the sources of a checkout, as the launcher makes it."""
    listed = subprocess.run([os.path.join(checkout, "launch", "sources")], cwd=checkout, stdout=subprocess.PIPE, check=True).stdout
    return hashlib.sha256(listed).hexdigest()


def problems():
    """What release/ is, in words, and what is wrong with it, line for line. A release of other crates is nothing wrong."""
    if not os.path.lexists(RELEASE):
        return "there is no release/", []
    wrong = [f"release/ has {it}, which is no part of a release" for it in sorted(set(os.listdir(RELEASE)) - {*PROGRAMS, "sources"})]
    try:
        with open(os.path.join(RELEASE, "sources"), encoding="ascii") as record:
            found = re.fullmatch(r"([0-9.]+) ([0-9a-f]{64})\n", record.read())
    except (OSError, UnicodeDecodeError):
        found = None
    if not found:
        return "there is a release/ without a record", [*wrong, "release/sources should have a version and a checksum"]
    version, sources = found.groups()
    with open(RELEASES, encoding="utf-8") as listed:
        release = next((it for it in provenance.read_releases(listed.read()) if it.version == version), None)
    if release is None:
        wrong.append(f"docs/RELEASES.md has no checksums for version {version}, which release/ is of")
    for name in PROGRAMS:
        path = os.path.join(RELEASE, name)
        if not os.path.isfile(path) or os.path.islink(path):
            wrong.append(f"release/{name} is no file")
            continue
        with open(path, "rb") as program:
            digest = hashlib.sha256(program.read()).hexdigest()
        if release is not None and digest != getattr(release, name):
            wrong.append(f"release/{name} is not that of version {version}: its checksum is {digest}")
        if not os.access(path, os.X_OK):
            wrong.append(f"release/{name} may not be run: its mode has no x")
    same = sources == sources_of(TOP)
    return f"release/ is version {version}, of {'the crates that are there' if same else 'other crates than these: ./coxeter proves and builds'}", wrong
