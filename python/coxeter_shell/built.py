"""The programs of a checkout."""
import os
import subprocess


def program_of(checkout, name):
    """The path of the program of this name in a checkout, and what is to be said where there is none: each None where that is not so.

    It is the one that the launcher runs at once: proved and built from exactly the sources that are there, in the checkout or in its
    release/. Where neither is, it is the one that was built there from others.
    """
    built = os.path.join(checkout, "crates", name, "out", name)
    asked = os.path.join(checkout, "launch", "program")
    said = ""
    if os.path.isfile(asked) and os.access(asked, os.X_OK):
        ran = subprocess.run([asked, "--quiet", name], stdin=subprocess.DEVNULL, stdout=subprocess.PIPE, stderr=subprocess.PIPE)
        if not ran.returncode:
            return os.path.join(checkout, os.fsdecode(ran.stdout).rstrip("\n")), None
        said = "".join(f" {line}" for line in ran.stderr.decode(errors="replace").splitlines())
    if os.path.isfile(built) and os.access(built, os.X_OK):
        return built, None
    if not os.path.isdir(os.path.join(checkout, "crates", name)):
        return None, None
    return None, f" It is not built yet in {checkout}: run ./{name} </dev/null there once.{said}"
