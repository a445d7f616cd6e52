import contextlib
import io
import json
import os
import tempfile
import unittest

from ncclassic.__main__ import main

from .small import SMALL, VALUES


class Commands(unittest.TestCase):
    def setUp(self) -> None:
        room = tempfile.TemporaryDirectory()
        self.addCleanup(room.cleanup)
        self.sound, self.cut = (os.path.join(room.name, name) for name in ("sound.nc", "cut.nc"))
        for path, data in ((self.sound, SMALL + VALUES), (self.cut, SMALL[:50])):
            with open(path, "wb") as file:
                file.write(data)

    def run_main(self, *words: str) -> tuple[int, str, str]:
        out, err = io.StringIO(), io.StringIO()
        with contextlib.redirect_stdout(out), contextlib.redirect_stderr(err):
            status = main(words)
        return status, out.getvalue(), err.getvalue()

    def test_check(self) -> None:
        self.assertEqual(self.run_main("check", self.sound), (0, f"{self.sound}: CDF-1, 2 dimensions, 2 variables, 2 records, 164 bytes\n", ""))
        words = f"{self.cut}: the header is cut off within the field at byte 48\n"
        self.assertEqual(self.run_main("check", self.cut), (1, "", words))
        self.assertEqual(self.run_main("check", self.cut, self.sound)[0], 1)

    def test_what_can_not_be_read(self) -> None:
        status, out, err = self.run_main("check", self.sound + ".not", self.cut)
        self.assertEqual((status, out, len(err.splitlines())), (2, "", 2))

    def test_references(self) -> None:
        status, out, err = self.run_main("references", self.sound, "s3://there/sound.nc")
        self.assertEqual((status, err), (0, ""))
        self.assertEqual(json.loads(out)["refs"]["v/0"], ["s3://there/sound.nc", 132, 16])

    def test_other_words(self) -> None:
        for words in ((), ("check",), ("references",), ("look", self.sound)):
            status, out, err = self.run_main(*words)
            self.assertEqual((status, out), (2, ""))
            self.assertIn("python -m ncclassic check", err)
