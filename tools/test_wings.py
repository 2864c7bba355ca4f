#!/usr/bin/env python3
"""Tests of wings.py, of crates.txt and of what the documents say of crates. usage: python3 tools/test_wings.py"""
import os
import pathlib
import re
import subprocess
import sys
import unittest
import xml.etree.ElementTree

sys.dont_write_bytecode = True
import wings

ROOT = pathlib.Path(__file__).resolve().parent.parent
LIST = (ROOT / 'crates.txt').read_text()
WINGS = wings.wings_of(LIST)
CRATES = [crate.name for wing in WINGS for crate in wing.crates]
RUST = pathlib.Path(os.environ.get('TSILMOGAR_SHARED', ROOT.parent / 'shared')) / 'docs/src/crates/jrsonnet-evaluator/src/analyze.rs'


class List(unittest.TestCase):
    def refused(self, text, part):
        with self.assertRaises(wings.Fault) as caught:
            wings.wings_of(text)
        self.assertIn(part, str(caught.exception))

    def test_every_folder_is_listed_once(self):
        self.assertEqual(sorted(CRATES), sorted(folder.name for folder in (ROOT / 'crates').iterdir()))

    @unittest.skipUnless(RUST.exists(), 'the Rust is not at hand (tests/README.md: the documents)')
    def test_names_that_are_carried_over_are_in_the_rust(self):
        rust = set(re.findall(r'\w+', RUST.read_text()))
        for crate in (crate for wing in WINGS for crate in wing.crates):
            for name in re.findall(r'`([^`]+)`', crate.carries):
                self.assertLessEqual(set(name.split('::')), rust, crate.name)

    def test_small_list(self):
        (wing,) = wings.wings_of('# about the file\n\n## low: the ground\n\n# Holds a. Carries over: `A`, `B`\na:\n# Holds b.\nb staticlib: a io # why\n')
        self.assertEqual((wing.name, wing.what), ('low', 'the ground'))
        self.assertEqual([(c.name, c.holds, c.carries, c.stands_on) for c in wing.crates],
                         [('a', 'Holds a.', '`A`, `B`', []), ('b', 'Holds b.', '', ['a', 'io'])])

    def test_faults(self):
        self.refused('## low: x\n# about a\na:\nb: a\n', 'line 4: no line above b')
        self.refused('# about a\n\na:\n', 'no line above a')
        self.refused('# about a\na:\n', 'a stands in no wing')
        self.refused('## low\n', 'line 1: a wing is')
        self.refused('## low: x\n# about a\na: gone\n', 'a stands on gone')


class Tables(unittest.TestCase):
    def test_short_names(self):
        (wing,) = wings.wings_of('## w: x\n# .\nstep_a:\n# .\nstep_b:\n# .\ntree:\n# .\ntree_c:\n# .\ncall_d:\n')
        self.assertEqual(wings.short_names(wing), '`step_*`, `tree`, `tree_c`, `call_d`')

    def test_between_the_marks(self):
        text = 'a\n<!-- wings: begin -->\nold\n<!-- wings: end -->\nb\n'
        self.assertEqual(wings.with_table('D', text, 'wings', 'new'), text.replace('old', 'new'))
        for broken in ('a\n', text + text, text.replace('begin', 'end')):
            with self.assertRaises(wings.Fault):
                wings.with_table('D', broken, 'wings', 'new')

    def test_times(self):
        made = wings.wings_of('## low: x\n# .\na:\n# .\nb:\n# .\nc:\n')
        log = 'rt: a proved (3 s)\nnoise\nrt: b proved (14 s)\nrt: must-fail b/x: refused, as it must be (first at P:1:2; 5 s)\n'
        log += 'rt: must-fail b/y: refused, as it must be (7 s)\n'
        table = wings.times_table(made, log)
        self.assertIn('| low | `b` 14, `a` 3 | `b` 2, 12 s |', table)
        self.assertIn('Not in that log: `c`.', table)
        for bad in ('', 'rt: gone proved (3 s)\n'):
            with self.assertRaises(wings.Fault):
                wings.times_table(made, bad)

    def test_documents_are_up_to_date(self):
        self.assertEqual(wings.stale(ROOT), [])
        self.assertEqual(subprocess.run([sys.executable, ROOT / 'tools/wings.py', '--check']).returncode, 0)


class Arrows(unittest.TestCase):
    def test_what_follows_is_left_out(self):
        self.assertEqual(wings.needed([('a', 'b'), ('b', 'c'), ('a', 'c')]), [('a', 'b'), ('b', 'c')])

    def test_beside_hides_nothing_between_wings_with_code(self):
        """steps would reach state by way of the laws; that arrow is drawn all the same."""
        made = wings.wings_of('## state: x\n# .\ns:\n## steps: x\n# .\nt: s l\n# .\nu: t\n## laws: x\n# .\nl: s\n# .\nm: l t\n')
        self.assertEqual(wings.drawn_edges(made), [('steps', 'state'), ('steps', 'laws'), ('laws', 'steps')])

    def test_no_circle(self):
        with self.assertRaises(wings.Fault):
            wings.drawn_edges(wings.wings_of('## low: x\n# .\na: b\n# .\nc:\n## high: x\n# .\nb: c\n'))

    def test_all_is_reached_as_in_the_list(self):
        whole, drawn = wings.wing_edges(WINGS), wings.drawn_edges(WINGS)
        self.assertLess(len(drawn), len(whole))
        for first, second in whole:
            self.assertTrue(wings.reaches(drawn, first, second), (first, second))


class Picture(unittest.TestCase):
    def test_every_name_stands_there_once(self):
        drawn = xml.etree.ElementTree.fromstring(wings.picture(WINGS))
        texts = [text.text for text in drawn.iter('{http://www.w3.org/2000/svg}text')]
        for wing in WINGS:
            # a wing of one crate has its name
            for name in {wing.name, *(crate.name for crate in wing.crates)}:
                self.assertEqual(texts.count(name), 1 + (name == wing.name and name in CRATES), name)

    def test_nothing_overlaps(self):
        boxes = list(wings.boxes_of(WINGS).values())
        for i, box in enumerate(boxes):
            for other in boxes[i + 1:]:
                apart = box.right < other.left or other.right < box.left or box.bottom < other.top or other.bottom < box.top
                self.assertTrue(apart, (box.wing.name, other.wing.name))
            for name, left, top, wide in box.chips:
                self.assertLess(left + wide, box.width, name)
                self.assertLess(top + 24, box.height, name)


class Documents(unittest.TestCase):
    def test_crates_that_are_named_are_there(self):
        """Every crates/NAME, every `NAME::function` whose NAME begins with a wing's word, and every `NAME` like a crate's that no theorem has."""
        known = set(CRATES)
        declared = re.compile(r'^ *(?:(?:pub|abbrev|unfoldable|opaque|record|data) )*([a-z_]+) *:', re.M)
        written = [file for part in ('specs', 'proofs') for file in ROOT.glob(f'crates/*/{part}/**/*.antt')]
        theorems = {name for file in written for name in declared.findall(file.read_text())} - known
        prefixes = {name.split('_')[0] + '_' for name in CRATES if '_' in name}
        files = [*ROOT.glob('*.md'), *(ROOT / 'docs').glob('*.md'), *ROOT.glob('examples/*.md'), *ROOT.glob('bindings/rust/*.md'), *ROOT.glob('include/*.h')]
        for file in files:
            text = file.read_text()
            named = set(re.findall(r'\bcrates/([a-z_]+)\b', text)) - {'jrsonnet', 'NAME'}
            named |= {name for name in re.findall(r'`([a-z_]+)::', text) if name.startswith(tuple(prefixes))}
            named |= set(re.findall(r'`((?:step|law|claim|call|gate|slots)_[a-z_]+)`', text)) - theorems
            self.assertLessEqual(named, known, file.name)

    def test_functions_that_are_named_are_there(self):
        """Every `CRATE::function` of the documents is in that crate's code."""
        for file in [*ROOT.glob('*.md'), *(ROOT / 'docs').glob('*.md')]:
            for crate, name in re.findall(r'`([a-z_]+)::([a-z_]+)`', file.read_text()):
                if crate in CRATES:
                    code = ''.join(source.read_text() for source in (ROOT / 'crates' / crate / 'src').glob('*.rt'))
                    self.assertTrue(re.search(rf'\bfn {name}\b', code), f'{file.name}: {crate}::{name}')

    def test_edits_that_are_counted_or_named_are_there(self):
        """The table of leaves in docs/PROOFS.md ends each line with how many must-fail edits the crate has, or with their names."""
        lines = re.findall(r'^\| `([a-z_]+)` \| .* \| ([^|]*) \|$', (ROOT / 'docs/PROOFS.md').read_text(), re.M)
        counted = [(crate, edits) for crate, edits in lines if crate in CRATES]
        self.assertTrue(counted)
        for crate, edits in counted:
            there = {edit.stem for edit in (ROOT / 'crates' / crate / 'must-fail').glob('*.edit')}
            told = int(edits) if edits.isdigit() else set() if edits == 'none' else set(edits.split(', '))
            self.assertEqual(told, len(there) if isinstance(told, int) else there, crate)


if __name__ == '__main__':
    unittest.main()
