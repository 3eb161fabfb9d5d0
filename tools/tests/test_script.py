"""The words `man` and `install` of the script, and the manual page."""
import os
import shutil
import subprocess
import tempfile
import unittest

from tests import TOP, needs

PAGE = os.path.join(TOP, "man", "biostack.1")
# whether other manuals are there is no matter of the page
OF_OTHERS = ("referenced manual not found", "outdated mandoc.db")


class ManualPage(unittest.TestCase):
    @needs(shutil.which("mandoc"), "mandoc")
    def test_lint(self):
        ran = subprocess.run(["mandoc", "-T", "lint", PAGE], stdout=subprocess.PIPE, stderr=subprocess.STDOUT)
        found = [line for line in ran.stdout.decode().splitlines() if not any(words in line for words in OF_OTHERS)]
        self.assertEqual(found, [])


class Script(unittest.TestCase):
    """A copy of the script in a folder of its own, where nothing is built."""

    def setUp(self):
        self.folder = tempfile.TemporaryDirectory()
        self.top = os.path.join(self.folder.name, "top")
        os.makedirs(os.path.join(self.top, "man"))
        shutil.copy(os.path.join(TOP, "biostack"), self.top)
        shutil.copy(PAGE, os.path.join(self.top, "man"))
        self.prefix = os.path.join(self.folder.name, "prefix")

    def tearDown(self):
        self.folder.cleanup()

    def run_script(self, *words, path=None):
        env = dict(os.environ, MANPAGER="cat", PAGER="cat", **({"PATH": path} if path else {}))
        ran = subprocess.run([shutil.which("bash"), os.path.join(self.top, "biostack"), *words], env=env,
                             stdin=subprocess.DEVNULL, stdout=subprocess.PIPE, stderr=subprocess.PIPE)
        return ran.returncode, ran.stdout.decode("utf-8", "replace"), ran.stderr.decode()

    def add_program(self):
        out = os.path.join(self.top, "crates", "biostack", "out")
        os.makedirs(out)
        with open(os.path.join(out, "biostack"), "w", encoding="ascii") as into:
            into.write("#!/bin/sh\n")
        os.chmod(os.path.join(out, "biostack"), 0o755)

    def test_installs_both(self):
        self.add_program()
        status, _, errors = self.run_script("install", self.prefix)
        self.assertEqual((status, errors), (0, ""))
        self.assertTrue(os.access(os.path.join(self.prefix, "bin", "biostack"), os.X_OK))
        self.assertTrue(os.path.isfile(os.path.join(self.prefix, "share", "man", "man1", "biostack.1")))

    def test_says_what_it_could_not(self):
        status, _, errors = self.run_script("install", self.prefix)
        self.assertEqual((status, errors.count("\n")), (73, 1))
        self.assertIn("not installed: " + os.path.join(self.prefix, "bin", "biostack"), errors)
        self.assertTrue(os.path.isfile(os.path.join(self.prefix, "share", "man", "man1", "biostack.1")))

    def test_needs_a_prefix(self):
        for words in ([], [""], ["a", "b"]):
            self.assertEqual(self.run_script("install", *words)[::2], (2, "biostack: usage: install PREFIX\n"))

    @needs(shutil.which("man"), "man")
    def test_shows_the_page(self):
        status, out, errors = self.run_script("man")
        self.assertEqual(status, 0, errors)
        self.assertIn("NeedsRescuer", out)

    def test_without_man(self):
        # a folder with what the script itself calls, and no man
        tools = os.path.join(self.folder.name, "tools")
        os.makedirs(tools)
        for name in ("dirname", "readlink"):
            os.symlink(shutil.which(name), os.path.join(tools, name))
        status, _, errors = self.run_script("man", path=tools)
        self.assertEqual(status, 69)
        self.assertIn("there is no command man", errors)
