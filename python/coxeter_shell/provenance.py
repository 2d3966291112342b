"""Where a program comes from: its file, the release that it is, and the logic that it was proved in.

What shows that a program is one of a release is its checksum alone. The rest is what the file says of itself.
"""
import collections
import errno
import functools
import hashlib
import os
import platform
import re
import stat

from . import elf
from .documents import read_document
from .errors import CoxeterError, ProgramNotFound

# Where a wheel has programs of its own.
OWN = os.path.join(os.path.dirname(os.path.abspath(__file__)), "programs")

Release = collections.namedtuple("Release", "version date commit kit coxeter coxcheck")


class Provenance(collections.namedtuple("Provenance", "path sha256 release logic glibc script")):
    """Where a program comes from. As a text it has a line for each of these.

    `path` is its file and `sha256` the checksum of that. `release` is the `Release` that it is one of by this checksum, or None;
    it has `version`, `date`, `commit`, `kit`, and the checksums of the two programs. `logic` is the identity of the logic in which
    the toolchain has proved it, as the file says, and `glibc` the least version of the GNU C library that it needs, as (2, 34):
    each None where the file says nothing. `script` is whether the file is a script, as the launcher of a checkout is: then it is the script whose
    checksum this is, and not a program that it starts.
    """

    __slots__ = ()

    def __str__(self):
        lines = [f"program  {self.path}", f"sha256   {self.sha256}"]
        if self.script:
            lines.append("script   what was hashed is this script, and not a program that it starts: give the path of that")
        if self.release is not None:
            lines.append("release  {0.version} of {0.date}, commit {0.commit}, proved by {0.kit}".format(self.release))
        else:
            known = ", ".join(it.version for it in releases())
            lines.append(f"release  none of those that this package knows{f' ({known})' if known else ', since it knows none'}")
        lines.append(f"logic    {self.logic or 'the file names none: it was built without proof, or is no program of the toolchain'}")
        if self.glibc is not None:
            lines.append(f"needs    Linux on x86-64, and version {version(self.glibc)} or later of the GNU C library")
        return "\n".join(lines)


def provenance(path, process=None):
    """The provenance of the program in this file, or of the one that the process of this number runs, which may have been built anew
    since. Raises ProgramNotFound where it can't be read."""
    running = f"/proc/{process}/exe"
    try:
        runs = process is not None and os.readlink(running) in (os.path.realpath(path), f"{os.path.realpath(path)} (deleted)")
        data = read_file(running if runs else path)
    except OSError as error:
        raise ProgramNotFound(f"the program {os.fspath(path)!r} can't be read: {error.strerror}") from None
    digest = hashlib.sha256(data).hexdigest()
    release = next((it for it in releases() if digest in (it.coxeter, it.coxcheck)), None)
    return Provenance(os.path.abspath(path), digest, release, elf.logic(data), elf.glibc(data), data.startswith(b"#!"))


def read_file(path):
    """The bytes of a regular file. Others, which may have no end, are an OSError."""
    number = os.open(path, os.O_RDONLY | os.O_CLOEXEC | os.O_NONBLOCK)
    with os.fdopen(number, "rb") as file:
        if not stat.S_ISREG(os.fstat(number).st_mode):
            raise OSError(errno.EINVAL, "it is no regular file")
        return file.read()


def releases():
    """The releases that this package knows, the newest first: none where it has no list of them."""
    try:
        listed = read_document("RELEASES.md")
    except CoxeterError:
        return []
    return read_releases(listed)


def read_releases(text):
    """The releases in a text such as docs/RELEASES.md: the rows of its table that have all checksums."""
    rows = [[cell.strip().strip("`") for cell in line.strip().strip("|").split("|")] for line in text.splitlines() if line.startswith("|")]
    hexadecimal = functools.partial(re.fullmatch, "[0-9a-f]{64}")
    return [Release(*row) for row in rows if len(row) == len(Release._fields) and all(map(hexadecimal, row[-2:]))]


def own_program(name):
    """The path of the program of this name that came with the package, and why it can't be run here: each None where that is not so."""
    path = os.path.join(OWN, name)
    if not os.path.isfile(path):
        return None, None
    if not os.access(path, os.X_OK):
        return None, f"the package's own one, {path}, is not executable"
    try:
        with open(path, "rb") as program:
            needed = elf.glibc(program.read())
    except OSError:  # it may be run and not read
        return path, None
    kind, there = platform.libc_ver()
    if needed is not None and (kind != "glibc" or tuple(map(int, re.findall(r"\d+", there)[:2])) < needed):
        here = f"{kind or 'none'} {there}".rstrip()
        return None, f"the package's own one needs version {version(needed)} of the GNU C library, and here is {here}"
    return path, None


def version(pair):
    """The text of a version.

    >>> version((2, 34))
    '2.34'
    """
    return ".".join(map(str, pair))
