"""The words for refusals and faults: their fields fill them, and tools/explain has the same ones."""
import importlib.machinery
import importlib.util
import os
import sys
import unittest
from unittest import mock

from slice_cake.words import WORDS, meaning, named

FILE = os.path.join(os.path.dirname(os.path.abspath(__file__)), "..", "..", "tools", "explain")
FIELDS = {"file": "f", "name": "n", "agent": 1, "index": 0, "query": 0, "goal": 0, "atom": 0, "line": 1, "row": 0,
          "unknown": 0, "field": "kind"}


class Words(unittest.TestCase):
    def test_fields_fill_them(self):
        for group in ("refusals", "faults"):
            for name in WORDS[group]:
                self.assertNotIn("{", named(group, name, FIELDS))
        self.assertEqual(meaning("Overflow", {"goal": 3, "unknown": 1}, 0), "a number at goal 3 doesn't fit into 128 bits")

    def test_explain_says_the_same(self):
        loader = importlib.machinery.SourceFileLoader("explain", FILE)
        spec = importlib.util.spec_from_loader("explain", loader)
        explain = importlib.util.module_from_spec(spec)
        with mock.patch.object(sys, "dont_write_bytecode", True):
            loader.exec_module(explain)
        for group, table in (("refusals", explain.MEANINGS), ("faults", explain.FAULTS), ("sides", explain.SIDES)):
            self.assertEqual({name: table.get(name) for name in WORDS[group]}, WORDS[group])


if __name__ == "__main__":
    unittest.main()
