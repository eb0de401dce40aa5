"""How the module is made, and what it says of itself."""

from __future__ import annotations

import subprocess
from importlib import metadata

import tigmavresh
from common import TOP, Case, tool


class Version(Case):
    def test_the_version_is_the_tools(self):
        self.assertEqual(tool("--version").split()[:2], ["tigmavresh", tigmavresh.__version__])
        self.assertEqual(metadata.version("tigmavresh"), tigmavresh.__version__)


class Library(Case):
    def test_the_usage(self):
        for words in [[], ["one", "two"]]:
            call = [str(TOP / "python/library"), *words]
            done = subprocess.run(call, stdout=subprocess.PIPE, stderr=subprocess.PIPE, text=True)
            self.assertEqual((done.returncode, done.stdout), (2, ""))
            self.assertEqual(done.stderr, "library: usage: python/library FILE\n")

    def test_a_folder_that_is_not_there(self):
        name = "/no such folder/libscp.so"
        done = subprocess.run([str(TOP / "python/library"), name], stderr=subprocess.PIPE, text=True)
        self.assertEqual((done.returncode, done.stderr), (2, f"library: {name} cannot be made: its folder is not there\n"))


class Docs(Case):
    def test_every_field_has_its_words(self):
        kinds = [tigmavresh.Pointer, tigmavresh.Field, tigmavresh.Entry, tigmavresh.IndexEntry]
        for kind in [*kinds, tigmavresh.Coded, tigmavresh.NewLead]:
            for name in kind._fields:
                self.assertRegex(kind.__doc__, f"(?m)^ *{name}: ", kind.__name__)
        for name in tigmavresh.Lead.__dataclass_fields__:
            self.assertRegex(tigmavresh.Lead.__doc__, f"(?m)^ *{name}: ")

    def test_everything_has_its_words(self):
        for name in set(tigmavresh.__all__) - {"DEFAULT_TABLE", "__version__"}:
            self.assertTrue(getattr(tigmavresh, name).__doc__, name)
