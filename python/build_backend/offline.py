"""Packs the package by itself, so that nothing has to be fetched: pip builds in an environment of its
own, into which setuptools would have to be downloaded.

A wheel has the documents that the package reads, which lie in docs/ of the checkout. Old versions of
pip copy the folder python/ alone before they build: then the wheel has none, and the package reads
those of the checkout.

A wheel has the programs too, on Linux on x86-64, where the checkout has both: in release/, or built
there, from the sources that are there. `pip wheel ./python --config-settings programs=false` leaves
them out, and `programs=true` is refused where there are none. In the place of these stands a folder
for the programs in it: `coxeter`, and `coxcheck` if there is one. Where pip has no such option, the
environment variable COXETER_SHELL_PROGRAMS says the same.
"""
import base64
import hashlib
import importlib.util
import io
import os
import re
import stat
import subprocess
import sys
import sysconfig
import tarfile
import zipfile

TOP = os.path.dirname(os.path.dirname(os.path.abspath(__file__)))
PACKAGE = os.path.join(TOP, "coxeter_shell")
CHECKOUT = os.path.dirname(TOP)
SWITCH = "COXETER_SHELL_PROGRAMS"

# What the package reads of docs/.
DOCUMENTS = ("MANUAL.md", "RELEASES.md")


def get_requires_for_build_wheel(config_settings=None):
    return []


get_requires_for_build_editable = get_requires_for_build_sdist = get_requires_for_build_wheel


def build_wheel(wheel_directory, config_settings=None, metadata_directory=None):
    added, needs = programs(config_settings)
    return pack(wheel_directory, {**package(), **added}, needs)


def build_editable(wheel_directory, config_settings=None, metadata_directory=None):
    return pack(wheel_directory, {"coxeter_shell.pth": f"{TOP}\n".encode()})


def build_sdist(sdist_directory, config_settings=None):
    name, metadata = described()
    backend = f"build_backend/{os.path.basename(__file__)}"
    files = {it: read(os.path.join(TOP, it)) for it in ("pyproject.toml", backend)}
    files.update(package(), **{"PKG-INFO": metadata})
    with tarfile.open(os.path.join(sdist_directory, f"{name}.tar.gz"), "w:gz") as out:
        for path, data in files.items():
            item = tarfile.TarInfo(f"{name}/{path}")
            item.size = len(data)
            out.addfile(item, io.BytesIO(data))
    return f"{name}.tar.gz"


def package():
    """The files of the package, by their names in a wheel."""
    names = [it for it in sorted(os.listdir(PACKAGE)) if it.endswith((".py", ".typed"))]
    paths = [os.path.join(PACKAGE, it) for it in names]
    # What build_sdist packs has the documents in the package, and is no checkout.
    folder = os.path.join(CHECKOUT, "docs") if os.path.basename(TOP) == "python" else PACKAGE
    paths += filter(os.path.isfile, (os.path.join(folder, it) for it in DOCUMENTS))
    files = {f"coxeter_shell/{os.path.basename(it)}": read(it) for it in paths}
    return {**files, "coxeter_shell/VERSION": f"{module('version').version()}\n".encode()}


def read(path):
    with open(path, "rb") as file:
        return file.read()


def programs(config_settings):
    """The programs that the wheel is to have, by their names in it, and the version of the GNU C library that they need."""
    wanted = (config_settings or {}).get("programs") or os.environ.get(SWITCH) or "there"
    if wanted.lower() in ("false", "no", "0"):
        return {}, None
    if wanted.lower() in ("there", "true", "yes", "1"):
        places, why = of_checkout()
        if why and wanted != "there":
            sys.exit(f"coxeter_shell: {why}")
        if why or wanted == "there" and sysconfig.get_platform() != "linux-x86_64":
            return {}, None
    else:
        places = {name: os.path.join(wanted, name) for name in ("coxeter", "coxcheck")}
        if not os.path.isfile(places["coxeter"]):
            sys.exit(f"coxeter_shell: there is no program {places['coxeter']}")
    found = {f"coxeter_shell/programs/{name}": read(path) for name, path in places.items() if os.path.isfile(path)}
    elf = module("elf")
    for name, data in found.items():
        if elf.machine(data) != elf.X86_64:
            sys.exit(f"coxeter_shell: {os.path.basename(name)} is no program of Linux on x86-64")
    return found, max(filter(None, map(elf.glibc, found.values())), default=(2, 0))


def of_checkout():
    """The paths of the programs of this checkout, by their names, as the launcher finds them, and why one of them is not there."""
    ask = os.path.join(CHECKOUT, "launch", "program")
    if os.path.basename(TOP) != "python" or not os.path.exists(ask):
        return {}, f"there is no checkout around {TOP}: give the folder of the programs, as programs=FOLDER"
    places = {}
    for name in ("coxeter", "coxcheck"):
        ran = subprocess.run([ask, "--quiet", name], stdin=subprocess.DEVNULL, stdout=subprocess.PIPE)
        if ran.returncode:
            return {}, f"the program {name} is not built from these sources: run ./{name} </dev/null in {CHECKOUT} first"
        places[name] = os.path.join(CHECKOUT, os.fsdecode(ran.stdout).rstrip("\n"))
    return places, None


def module(name):
    """A file of the package that imports nothing of it."""
    spec = importlib.util.spec_from_file_location(name, os.path.join(PACKAGE, f"{name}.py"))
    found = importlib.util.module_from_spec(spec)
    spec.loader.exec_module(found)
    return found


def described(needs=None):
    """The name of the package with its version, and its metadata."""
    with open(os.path.join(TOP, "pyproject.toml"), encoding="utf-8") as project:
        fields = dict(re.findall('^(name|description|requires-python) = "(.*)"$', project.read(), re.M))
    fields["version"] = module("version").version()
    metadata = [
        "Metadata-Version: 2.1",
        f"Name: {fields['name']}",
        f"Version: {fields['version']}",
        f"Summary: {fields['description']}",
        f"Requires-Python: {fields['requires-python']}",
    ]
    if needs is not None:
        metadata += ["Requires-External: glibc (>={}.{})".format(*needs)]
    return f"{fields['name']}-{fields['version']}", "".join(f"{line}\n" for line in metadata).encode()


def pack(folder, files, needs=None):
    """Writes a wheel of these files, and gives its name. `needs` is the version of the GNU C library that programs in it need."""
    version, metadata = described(needs)
    tag = "py3-none-any" if needs is None else "py3-none-linux_x86_64"
    wheel = ["Wheel-Version: 1.0", "Generator: offline", f"Root-Is-Purelib: {str(needs is None).lower()}", f"Tag: {tag}"]
    files[f"{version}.dist-info/METADATA"] = metadata
    files[f"{version}.dist-info/WHEEL"] = "".join(f"{line}\n" for line in wheel).encode()
    record = ""
    for name, data in files.items():
        digest = base64.urlsafe_b64encode(hashlib.sha256(data).digest()).rstrip(b"=").decode()
        record += f"{name},sha256={digest},{len(data)}\n"
    files[f"{version}.dist-info/RECORD"] = f"{record}{version}.dist-info/RECORD,,\n".encode()
    made = f"{version}-{tag}.whl"
    with zipfile.ZipFile(os.path.join(folder, made), "w", zipfile.ZIP_DEFLATED) as out:
        for name, data in files.items():
            # The same files make the same wheel, so there is no date. Programs can be run.
            item = zipfile.ZipInfo(name)
            item.compress_type = zipfile.ZIP_DEFLATED
            item.external_attr = (stat.S_IFREG | (0o755 if "/programs/" in name else 0o644)) << 16
            out.writestr(item, data)
    return made
