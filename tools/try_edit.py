#!/usr/bin/env python3
"""Tries one must-fail edit alone, which `rt must-fail NAME` cannot: it tries all of NAME.

usage: try_edit.py NAME/EDIT     as step_static/static_equal_highest, for crates/step_static/must-fail/static_equal_highest.edit

The edit is made in crates/NAME, `rt check` is run there, and the files are put back, whatever happens. What the checker said is kept in
target/try_edit/NAME/EDIT.log. It ends with 0 if the edit was refused and no message speaks of a name that is missing: then a fact no longer holds,
as it should be. The verdict is still that of `rt ci`.
"""
import argparse
import pathlib
import re
import subprocess
import sys

ROOT = pathlib.Path(__file__).resolve().parent.parent

# What the checker says where an edit breaks the text and not a fact: a name that is missing in a definition, one that is missing in a `use`, a
# call that a proof speaks of and that is gone, and whatever is wrong with the code before anything is proved.
TEXT_FAULTS = ['is not in scope', 'that can be named from here', 'has no field', ': error[']

# An error of the code, of a definition or of a proof, and a goal that is left.
SAID = re.compile(r'.*: error|note: \S+:\d+:\d+: .*not proved')


class Fault(Exception):
    """What is wrong with an edit."""


def replacements(text):
    """The file, the old and the new text of each replacement of an edit; a `file:` line holds for those after it."""
    file = old = None
    for line in text.split('\n'):
        if line.startswith('file: '):
            file = line[len('file: '):]
        elif line.startswith('old: '):
            old = line[len('old: '):]
        elif line.startswith('new:'):
            if file is None or old is None:
                raise Fault('a `new:` line with no `file:` and `old:` before it')
            yield file, old, line[len('new:'):].removeprefix(' ')
            old = None


def edited(text, old, new, file):
    """A file's text with the old part, which must stand there once, replaced."""
    if text.count(old) != 1:
        raise Fault(f'`{old}` stands in {file} {text.count(old)} times, and must stand there once')
    return text.replace(old, new)


def tried(crate, edit):
    """What `rt check` says of a crate with an edit made in it, and how it ends."""
    folder = ROOT / 'crates' / crate
    before = {}
    try:
        for file, old, new in replacements((folder / 'must-fail' / f'{edit}.edit').read_text()):
            path = folder / file
            text = path.read_text()
            before.setdefault(path, text)
            path.write_text(edited(text, old, new, file))
        if not before:
            raise Fault('the edit has no `old:` and `new:`')
        done = subprocess.run(['rt', 'check'], cwd=folder, stdout=subprocess.PIPE, stderr=subprocess.STDOUT, text=True)
        return done.stdout, done.returncode
    finally:
        for path, text in before.items():
            path.write_text(text)


def verdict(said, status):
    """What became of an edit, from what the checker said and how it ended; and whether that is as it should be."""
    if status == 0:
        return 'NOT REFUSED: the crate is still proved with this edit', False
    errors = [line for line in said.split('\n') if SAID.match(line)]
    faults = [line for line in errors if any(fault in line for fault in TEXT_FAULTS)]
    if faults or 'logic=not-proved' not in said:
        return 'NO GOOD: it breaks the text and not a fact: ' + (faults or errors or ['(see the log)'])[0], False
    return 'refused: ' + (errors or ['(see the log)'])[0], True


def main(arguments):
    parser = argparse.ArgumentParser(description=__doc__, formatter_class=argparse.RawDescriptionHelpFormatter)
    parser.add_argument('edit', metavar='NAME/EDIT')
    crate, _, edit = parser.parse_args(arguments).edit.removesuffix('.edit').partition('/')
    try:
        said, status = tried(crate, edit)
    except (Fault, OSError) as fault:
        print(f'try_edit.py: {fault}', file=sys.stderr)
        return 2
    log = ROOT / 'target/try_edit' / crate / f'{edit}.log'
    log.parent.mkdir(parents=True, exist_ok=True)
    log.write_text(said)
    words, good = verdict(said, status)
    print(f'{words[:400]}\nthe whole is in {log.relative_to(ROOT)}')
    return 0 if good else 1


if __name__ == '__main__':
    sys.exit(main(sys.argv[1:]))
