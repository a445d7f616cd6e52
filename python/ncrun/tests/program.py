"""The program that the tests run: the environment variable NCRUN names it."""
import os
import shutil
import tempfile
import unittest

PROGRAM = os.environ.get("NCRUN", "")


@unittest.skipUnless(PROGRAM, "NCRUN names no program")
class WithProgram(unittest.TestCase):
    """Each test has an empty folder, in which it is, and on its path the program as ncrun."""

    def setUp(self):
        top, path = os.getcwd(), os.environ["PATH"]
        self.folder = tempfile.mkdtemp()
        self.addCleanup(shutil.rmtree, self.folder)
        self.addCleanup(os.environ.__setitem__, "PATH", path)
        self.addCleanup(os.chdir, top)
        os.mkdir(f"{self.folder}/bin")
        os.symlink(os.path.abspath(PROGRAM), f"{self.folder}/bin/ncrun")
        os.environ["PATH"] = f"{self.folder}/bin" + os.pathsep + path
        os.chdir(self.folder)
