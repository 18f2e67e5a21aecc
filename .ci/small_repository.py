"""A small repository in a folder of its own, on which the scripts beside this file are tried by their tests."""
import contextlib
import io
import os
import runpy
import shutil
import subprocess
import sys
import tempfile
import unittest
from pathlib import Path
from unittest import mock

SCRIPTS = Path(os.environ.get("TRIED_SCRIPTS", Path(__file__).resolve().parent))
sys.path.insert(0, str(SCRIPTS))  # others can be tried in their place, with what they import


class Repository:
    def __init__(self, files):
        self.room = tempfile.TemporaryDirectory()
        self.root = Path(self.room.name)
        for file, text in files.items():
            self.write(file, text)

    def write(self, file, text):
        (self.root / file).parent.mkdir(parents=True, exist_ok=True)
        (self.root / file).write_text(text)

    def change(self, file, old, new):
        text = (self.root / file).read_text()
        assert text.count(old) == 1, f"{old!r} stands in {file} {text.count(old)} times"
        self.write(file, text.replace(old, new))

    def remove(self, file):
        (self.root / file).unlink()

    def commit(self):
        """Keeps what is there as a commit of git's, which begins with the first."""
        me = ["-c", "user.name=small", "-c", "user.email=small@localhost", "-c", "commit.gpgsign=false"]
        for words in (["init", "-q"], ["add", "-A"], [*me, "commit", "-q", "--allow-empty", "-m", "A state"]):
            subprocess.run(["git", "-C", self.root, *words], check=True)

    def run(self, script, *words):
        """The exit status of a script that stands in this repository, and what it prints."""
        there = self.root / ".ci" / script
        there.parent.mkdir(exist_ok=True)
        shutil.copy(SCRIPTS / script, there)
        told = io.StringIO()
        with mock.patch.object(sys, "argv", [str(there), *map(str, words)]), contextlib.redirect_stdout(told):
            try:
                runpy.run_path(str(there), run_name="__main__")
            except SystemExit as end:
                return end.code, told.getvalue()
        return 0, told.getvalue()

    def close(self):
        self.room.cleanup()


def run_tests(title):
    """Runs the tests of the script that is run, and says in a line how many held."""
    told = io.StringIO()
    result = unittest.main(exit=False, testRunner=unittest.TextTestRunner(told)).result
    if not result.wasSuccessful():
        print(told.getvalue())
        sys.exit(1)
    print(f"{title}: {result.testsRun} tests held")
