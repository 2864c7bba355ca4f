#!/usr/bin/env python3
"""Tests of try_edit.py, and that every must-fail edit applies. usage: python3 tools/test_try_edit.py"""
import pathlib
import sys
import unittest

sys.dont_write_bytecode = True
import try_edit

ROOT = pathlib.Path(__file__).resolve().parent.parent


class Edits(unittest.TestCase):
    def test_parts(self):
        text = '# why\nfile: src/lib.rt\nold:     7\nnew:     8\nold: a\nnew:\n'
        self.assertEqual(list(try_edit.replacements(text)), [('src/lib.rt', '    7', '    8'), ('src/lib.rt', 'a', '')])
        with self.assertRaises(try_edit.Fault):
            list(try_edit.replacements('old: a\nnew: b\n'))

    def test_old_text_stands_once(self):
        self.assertEqual(try_edit.edited('a b', 'b', 'c', 'F'), 'a c')
        for text in ('a', 'b b'):
            with self.assertRaises(try_edit.Fault):
                try_edit.edited(text, 'b', 'c', 'F')

    def test_every_edit_applies(self):
        edits = sorted((ROOT / 'crates').glob('*/must-fail/*.edit'))
        self.assertTrue(edits)
        for edit in edits:
            texts = {}
            for file, old, new in try_edit.replacements(edit.read_text()):
                text = texts.get(file) or (edit.parent.parent / file).read_text()
                texts[file] = try_edit.edited(text, old, new, f'{edit.parent.parent.name}/{file}')
            self.assertTrue(texts, edit)

    def test_verdicts(self):
        fact = 'P.antt:36:150: error: `s`: the two types first differ\nlogic=not-proved\n'
        self.assertTrue(try_edit.verdict(fact, 1)[1])
        goal = 'note: src/parts.rt:29:32: it is not proved that the index is below the length (`bounds-table-i`)\nlogic=not-proved\n'
        words, good = try_edit.verdict(goal, 1)
        self.assertTrue(good)
        self.assertIn('bounds-table-i', words)
        self.assertFalse(try_edit.verdict('logic=proved\n', 0)[1])
        for fault in ('S.antt:1:2: error: `S`: `x` is not in scope', 'P.antt:1:2: error: `p`: record `After-f` has no field `g`',
                      'l.rt:4:58: error: module `M` has no `B` that can be named from here', 'l.rt:17:15: error[unknown-name]: cannot find value `left`'):
            self.assertFalse(try_edit.verdict(f'{fault}\n{fact}', 1)[1])


if __name__ == '__main__':
    unittest.main()
