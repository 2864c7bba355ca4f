#!/usr/bin/env python3
"""dev.py NAME [--write] [--full] ..: `rt check` in crates/NAME, its messages shortened.

The proof files that Rattle offers are listed and not printed; with --write they are written where there is none yet. Further
words go on to `rt check`, such as `--only FUNCTION`.
"""

import argparse
import re
import subprocess
from pathlib import Path

OFFER = re.compile(r'help: write (\S+) with these lines')
NOISE = re.compile(r'logic|library|note: antt.s advice')
CRATES = Path(__file__).resolve().parent.parent / 'crates'
DETAIL = re.compile(r'note: what antt said|note: /(?!.*(?:it is not proved|goal))|  (?:was found|= \d|Congruence)')


def offered_files(log):
    """The proof files that a log of `rt check` offers: their paths with their texts."""
    offered, path = {}, None
    for line in log.split('\n'):
        if found := OFFER.match(line):
            path = found.group(1)
            offered[path] = ''
        elif path and line.startswith('    '):
            offered[path] += line[4:] + '\n'
        else:
            path = None
    return offered


def other_lines(log):
    """The lines of a log that are no part of an offered file."""
    inside = False
    for line in log.split('\n'):
        inside = bool(OFFER.match(line)) or (inside and line.startswith('    '))
        if not inside:
            yield line


def main():
    parser = argparse.ArgumentParser(description=__doc__, formatter_class=argparse.RawDescriptionHelpFormatter)
    parser.add_argument('name', metavar='NAME', help='the crate')
    parser.add_argument('--write', action='store_true', help='write the offered files where there is none yet')
    parser.add_argument('--full', action='store_true', help='print every message whole')
    options, words = parser.parse_known_args()
    folder = CRATES / options.name
    run = subprocess.run(['rt', 'check', *words], cwd=folder, capture_output=True, text=True)
    log = run.stdout + run.stderr
    for line in other_lines(log):
        if line.strip() and not NOISE.match(line) and (options.full or not DETAIL.match(line)):
            print(line if options.full else line[:700])
    for path, text in offered_files(log).items():
        file = folder / path
        if file.exists():
            print('there is', path)
        elif options.write:
            file.parent.mkdir(parents=True, exist_ok=True)
            file.write_text(text)
            print('wrote', path)
        else:
            print('wanted', path)
    raise SystemExit(run.returncode)


if __name__ == '__main__':
    main()
