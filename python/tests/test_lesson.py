"""The lesson of examples/ and the code of README.md run from their beginning to their end."""
import os
import re
import subprocess
import sys
import tempfile
import unittest

from .test_pictures import Page

HERE = os.path.dirname(os.path.abspath(__file__))
LESSON = os.path.join(HERE, "..", "examples", "teaching.py")


class Scripts(unittest.TestCase):
    def said(self, room, *words):
        """What Python prints when it runs these words in that folder."""
        done = subprocess.run([sys.executable, *words], stdout=subprocess.PIPE, stderr=subprocess.PIPE, cwd=room,
                              env={**os.environ, "PYTHONPATH": os.path.join(HERE, "..")}, check=False)
        self.assertEqual(done.returncode, 0, done.stderr.decode())
        return done.stdout.decode().splitlines()

    def test_the_readme(self):
        with open(os.path.join(HERE, "..", "README.md"), encoding="utf-8") as file:
            code = re.search("```python\n(.*?)```", file.read(), re.DOTALL)[1]
        with tempfile.TemporaryDirectory() as room:
            os.symlink(os.path.join(HERE, "..", "..", "examples"), os.path.join(room, "examples"))
            said = self.said(room, "-c", code)
            self.assertEqual(said[0], "A counterexample: agent 2 envies agent 1 (goal 3).")
            self.assertTrue(said[-1].startswith("All 6 goals are refuted"))
            self.assertTrue(os.path.isfile(os.path.join(room, "cc.cert")))

    def test_the_lesson_ends_with_its_page(self):
        with tempfile.TemporaryDirectory() as room:
            self.said(room, LESSON, "page.html")
            with open(os.path.join(room, "page.html"), encoding="utf-8") as file:
                page = Page(file.read().replace("<!doctype html>", ""))
        self.assertIn("All 6 goals are refuted", page.text)
        self.assertIn("isn't fair: agent 1 envies agent 2", page.text)
        self.assertIn("[0, 0, 0, 0, 0] remains", page.text)
        self.assertEqual(sum(kind == "envied" for kind, _ in page.cells), 1)


if __name__ == "__main__":
    unittest.main()
