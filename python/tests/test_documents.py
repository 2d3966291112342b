"""The documents that the package reads: copies in a wheel, else those of a checkout."""
import importlib.util
import json
import os
import pathlib
import shutil
import subprocess
import sys
import tarfile
import tempfile
import unittest
import zipfile

from coxeter_shell.documents import read_document

TOP = os.path.dirname(os.path.dirname(os.path.dirname(os.path.abspath(__file__))))
READ = """
import sys
from coxeter_shell.documents import read_document

sys.stdout.write(read_document(sys.argv[1]))
"""
NAMES = ("MANUAL.md", "RELEASES.md")


def text(name):
    with open(os.path.join(TOP, "docs", name), encoding="utf-8") as document:
        return document.read()


def backend(folder):
    """The build backend in a copy of the folder python/."""
    path = os.path.join(folder, "build_backend", "offline.py")
    found = importlib.util.spec_from_file_location("offline", path)
    made = importlib.util.module_from_spec(found)
    found.loader.exec_module(made)
    return made


class Documents(unittest.TestCase):
    def setUp(self):
        if not os.path.isdir(os.path.join(TOP, "docs")):
            self.skipTest("there is no checkout around these tests")
        place = tempfile.TemporaryDirectory()
        self.addCleanup(place.cleanup)
        self.base = os.path.realpath(place.name)

    def installed(self, wheel, url=None):
        """The folder into which a wheel is installed, with pip's record of where it comes from."""
        site = os.path.join(tempfile.mkdtemp(dir=self.base), "site")
        with zipfile.ZipFile(os.path.join(self.base, wheel)) as content:
            content.extractall(site)
        if url is not None:
            record = pathlib.Path(site, f"{wheel.partition('-py3')[0]}.dist-info", "direct_url.json")
            record.write_text(json.dumps({"dir_info": {}, "url": url}), encoding="ascii")
        return site

    def read_there(self, site, name):
        """What is read where this folder's package is used, and the last line of standard error."""
        environment = {**os.environ, "PYTHONPATH": site}
        pipes = {"stdout": subprocess.PIPE, "stderr": subprocess.PIPE}
        ran = subprocess.run([sys.executable, "-c", READ, name], cwd="/", env=environment, **pipes)
        return ran.stdout.decode(), (ran.stderr.decode().splitlines() or [""])[-1]

    def copied(self):
        """A wheel that is built in a copy of python/ alone, as old versions of pip do."""
        copy = os.path.join(self.base, "pip-req-build")
        shutil.copytree(os.path.join(TOP, "python"), copy)
        return backend(copy).build_wheel(self.base)

    def test_in_this_package(self):
        for name in NAMES:
            self.assertEqual(read_document(name), text(name))

    def test_a_wheel_has_copies(self):
        site = self.installed(backend(os.path.join(TOP, "python")).build_wheel(self.base))
        for name in NAMES:
            self.assertTrue(os.path.isfile(os.path.join(site, "coxeter_shell", name)))
            self.assertEqual(self.read_there(site, name), (text(name), ""))

    def test_a_source_archive_has_copies(self):
        made = backend(os.path.join(TOP, "python")).build_sdist(self.base)
        with tarfile.open(os.path.join(self.base, made)) as archive:
            archive.extractall(self.base)
        folder = os.path.join(self.base, made[: -len(".tar.gz")])
        # A folder that has the same name as that of a checkout is none of this package.
        os.makedirs(os.path.join(self.base, "docs"))
        pathlib.Path(self.base, "docs", "MANUAL.md").write_text("another", encoding="ascii")
        wheels = []
        for source in (folder, os.path.join(TOP, "python")):
            # The archive has no programs.
            made = backend(source).build_wheel(self.base, {"programs": "false"})
            wheels.append(pathlib.Path(self.base, made).read_bytes())
        self.assertEqual(wheels[0], wheels[1])

    def test_those_of_the_recorded_checkout(self):
        site = self.installed(self.copied(), pathlib.Path(TOP, "python").as_uri())
        for name in NAMES:
            self.assertFalse(os.path.exists(os.path.join(site, "coxeter_shell", name)))
            self.assertEqual(self.read_there(site, name), (text(name), ""))

    def test_none(self):
        wheel = self.copied()
        gone = pathlib.Path(self.base, "nowhere", "python").as_uri()
        for url in (None, "https://example.org/python", gone):
            site = self.installed(wheel, url)
            another = pathlib.Path(os.path.dirname(site), "docs", "MANUAL.md")
            another.parent.mkdir()
            another.write_text("another", encoding="ascii")
            read, said = self.read_there(site, "MANUAL.md")
            self.assertEqual(read, "")
            self.assertIn("not installed with the package: see docs/MANUAL.md of the checkout", said)


if __name__ == "__main__":
    unittest.main()
