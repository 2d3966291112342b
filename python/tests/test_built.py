"""Which program of a checkout the package takes."""
import hashlib
import os
import shutil
import subprocess
import sys
import tempfile
import unittest

PACKAGE = os.path.dirname(os.path.dirname(os.path.abspath(__file__)))
LAUNCH = os.path.join(os.path.dirname(PACKAGE), "launch")
PROGRAM = "#!/bin/sh\necho usage\n"
LIST = """
| version | date | commit | kit | sha256 of `coxeter` | sha256 of `coxcheck` |
|---|---|---|---|---|---|
| 7.7 | 2030-01-31 | abab | kit | {0} | {0} |
"""


@unittest.skipUnless(os.path.isdir(LAUNCH), "this is no checkout")
class Built(unittest.TestCase):
    """A checkout with a release."""

    def setUp(self):
        folder = tempfile.TemporaryDirectory()
        self.addCleanup(folder.cleanup)
        self.top = os.path.join(folder.name, "a checkout")
        shutil.copytree(os.path.join(PACKAGE, "coxeter_shell"), self.path("python/coxeter_shell"))
        shutil.copytree(LAUNCH, self.path("launch"))
        self.write("crates.txt", "coxeter:\n")
        self.write("crates/coxeter/src/main.rt", "one")
        self.write("release/coxeter", PROGRAM, 0o755)
        self.write("docs/RELEASES.md", LIST.format(hashlib.sha256(PROGRAM.encode()).hexdigest()))
        self.write("release/sources", f"7.7 {self.sources()}\n")

    def path(self, name):
        return os.path.join(self.top, name)

    def write(self, name, text, mode=0o644):
        os.makedirs(os.path.dirname(self.path(name)), exist_ok=True)
        with open(self.path(name), "w", encoding="utf-8") as out:
            out.write(text)
        os.chmod(self.path(name), mode)

    def sources(self):
        listed = subprocess.run([self.path("launch/sources")], cwd=self.top, stdout=subprocess.PIPE, check=True).stdout
        return hashlib.sha256(listed).hexdigest()

    def found(self):
        """What a Python finds that has the package in this checkout, or what it says."""
        source = "from coxeter_shell import *\ntry: print(find_program())\nexcept ProgramNotFound as error: print(error)"
        environment = {"PATH": "/usr/bin:/bin", "PYTHONPATH": self.path("python")}
        ran = subprocess.run([sys.executable, "-c", source], env=environment, stdout=subprocess.PIPE, stderr=subprocess.PIPE, cwd="/", check=True)
        self.assertEqual(ran.stderr, b"")
        return ran.stdout.decode().rstrip("\n")

    def test_a_release(self):
        for _ in range(2):
            self.assertEqual(self.found(), self.path("release/coxeter"))

    def test_one_that_has_changed(self):
        self.write("release/coxeter", PROGRAM + "#\n", 0o755)
        self.assertIn("it is not version 7.7, by the checksum", self.found())

    def test_one_of_other_sources(self):
        self.write("crates/coxeter/src/main.rt", "two")
        said = self.found()
        self.assertIn(f"It is not built yet in {self.top}: run ./coxeter", said)
        self.assertIn("it is version 7.7, of other sources", said)

    def test_built_here(self):
        path = "crates/coxeter/out/coxeter"
        self.write(path, PROGRAM + "# built here\n", 0o755)
        self.assertEqual(self.found(), self.path("release/coxeter"))
        digest = hashlib.sha256((PROGRAM + "# built here\n").encode()).hexdigest()
        self.write(f"{path}.built-from", f"{self.sources()} {digest}\n")
        self.assertEqual(self.found(), self.path(path))
        # One of other sources is taken where there is no other, as long as nobody builds it anew.
        self.write("crates/coxeter/src/main.rt", "two")
        self.assertEqual(self.found(), self.path(path))


if __name__ == "__main__":
    unittest.main()
