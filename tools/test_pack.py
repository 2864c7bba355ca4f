#!/usr/bin/env python3
"""Tests of pack.py, and of the examples that it packs. usage: python3 tools/test_pack.py"""
import pathlib
import re
import struct
import sys
import unittest

sys.dont_write_bytecode = True
import pack

ROOT = pathlib.Path(__file__).resolve().parent.parent
EXAMPLES = ROOT / 'examples'
NAMES = ['gain-ladder', 'limiter', 'frame-sizes', 'warnings', 'unbound', 'damaged']

# Where the name and its span stand among the numbers of a record of a tree.
NAMED = {'VA': (0, 1), 'BV': (0, 1), 'BF': (0, 1), 'PA': (0, 1), 'FH': (1, 2)}


def stored_calls():
    """The tree, the output and the diagnostics of each stored call of crates/gate_calls."""
    stored = (ROOT / 'crates/gate_calls/stdin').read_bytes()
    at = 8
    for _ in range(struct.unpack_from('<I', stored, 4)[0]):
        lengths = [struct.unpack_from('<I', stored, at + place)[0] for place in (44, 56, 60)]
        at += 84
        for length in lengths:
            yield stored[at:at + length]
            at += length


class Packing(unittest.TestCase):
    def refused(self, text, part):
        with self.assertRaises(pack.Fault) as caught:
            pack.pack(text)
        self.assertIn(part, str(caught.exception))

    def test_worked_case(self):
        text = 'JT 0, LO 1, BV 5 9, TV 3, VA 5 8'
        self.assertEqual(len(pack.pack(text)), 38)
        self.assertEqual(pack.unpack(pack.pack(text)), text.replace(', ', '\n') + '\n')

    def test_comments_and_line_ends(self):
        self.assertEqual(pack.pack('# a\nJT 1 7 # b, c\n\n  OX,, TV 3\n'), pack.pack('JT 1 7, OX, TV 3'))

    def test_outputs_and_diagnostics(self):
        for text in ('AC 2 4 5, CS 0, SH 1 2 0 3 1 4', 'DG 1 9 5 12, DG 0 1 2 3'):
            self.assertEqual(pack.unpack(pack.pack(text)), text.replace(', ', '\n') + '\n')

    def test_damage(self):
        self.assertEqual(pack.unpack(b'JT\0\0\0\0T'), 'JT 0\n? 54\n')
        self.assertEqual(pack.pack('JT 0, ? 54'), b'JT\0\0\0\0T')

    def test_names(self):
        line = pack.unpack(pack.pack('SH 1 1 0 3'), with_names=True)
        self.assertEqual(line.split(' # ')[1], 'at 0: locals 1, captures 1, source 0, source 3\n')

    def test_refusals(self):
        self.refused('JT 0\nXX 3', 'line 2: no mark `XX`')
        self.refused('JT 0, LS 3', 'a mark of an output')
        self.refused('JT 0, BV 1 2 3', '`BV` has 2 numbers')
        self.refused('JT 0, VA', '`VA` has 2 numbers')
        self.refused('JT 2 7', '`JT` has 3 numbers')
        self.refused('JT 0, TV 4294967296', 'over 32 bits')
        self.refused('JT 0, TV -1', 'no number')
        self.refused('? 4g', 'hexadecimal')

    def test_texts_of_the_documents(self):
        """Every tree without externals that is written out in docs and in the comparison with the Rust."""
        files = [*(ROOT / 'docs').glob('*.md'), *(ROOT / 'tests/oracle').rglob('*.rs')]
        texts = [text for file in files for text in re.findall(r'["`](JT 0,[A-Z0-9 ,]*)["`]', file.read_text())]
        self.assertTrue(texts)
        for text in texts:
            self.assertEqual(pack.unpack(pack.pack(text)), text.replace(', ', '\n') + '\n')

    def test_stored_calls_come_back(self):
        for stored in stored_calls():
            self.assertEqual(pack.pack(pack.unpack(stored)), stored)


class Examples(unittest.TestCase):
    def test_packed(self):
        for name in NAMES:
            self.assertEqual(pack.pack((EXAMPLES / f'{name}.txt').read_text()), (EXAMPLES / f'{name}.bin').read_bytes())

    def test_names_stand_where_their_spans_say(self):
        for name in NAMES:
            text = (EXAMPLES / f'{name}.txt').read_text()
            source = (EXAMPLES / f'{name}.jsonnet').read_text().split('\n')
            called = dict(re.findall(r'^# name (\d+): (\S+)$', text, re.M))
            for _, mark, numbers in pack.records(pack.pack(text)):
                if mark in NAMED:
                    number, span = (numbers[place] for place in NAMED[mark])
                    self.assertRegex(source[span // 100 - 1][span % 100 - 1:], rf'^{called[str(number)]}\b')

    def test_shown_as_in_the_gate(self):
        """The gate runs `slots` on all six; its last line counts the files of a run."""
        shown = (ROOT / 'crates/slots/stdout').read_text()
        for name in NAMES:
            alone = (EXAMPLES / f'{name}.out').read_text()
            self.assertIn(alone[:alone.index('files: ')], shown)


if __name__ == '__main__':
    unittest.main()
