"""Checks that what people open under examples/ and tests/stored/ is what the gate's programs are run on: `rt ci` allows no links, so these are copies."""

import pathlib
import unittest

ROOT = pathlib.Path(__file__).resolve().parent.parent
COPIES = {
    "tests/stored/calls.bin": "crates/gate_calls/stdin",
    "tests/stored/walk.bin": "crates/gate_walk/stdin",
}


class Copies(unittest.TestCase):
    def test_stored_calls(self):
        for copy, original in COPIES.items():
            self.assertEqual((ROOT / copy).read_bytes(), (ROOT / original).read_bytes(), copy)

    def test_examples(self):
        shown = {p.name: p for p in (ROOT / "crates/slots/data").glob("*.bin")}
        copies = {p.name: p for p in (ROOT / "examples").glob("*.bin")}
        self.assertEqual(set(shown), set(copies))
        for name, path in copies.items():
            self.assertEqual(path.read_bytes(), shown[name].read_bytes(), name)


if __name__ == "__main__":
    unittest.main()
