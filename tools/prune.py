#!/usr/bin/env python3
"""prune.py FILE ..: take out of the `use` lines of proof files what the files do not use.

A name counts as used where the text has it as a whole name outside of comments and `use` lines; an operator where it stands
between spaces. Several lines for one module become one.
"""

import argparse
import re
from pathlib import Path

USE_LINE = re.compile(r'^use ([^\s{]+)(?:\.\{([^}]*)\}| as (\S+))\n', re.M)
# What stands beside a name's letters and is part of a name too.
NAME_SIGNS = r"\w′'·«»-"
# Nothing of a name, and no dot, which would make what follows a field or a part of a module.
STARTS = rf'(?<![.{NAME_SIGNS}])'


def without_comments(text):
    """The text with what stands after `--` on a line taken out."""
    return re.sub(r'(?:^|(?<=\s))--.*$', '', text, flags=re.M)


def uses_name(text, name):
    """Does the text use this name? An operator `_+_` is used as itself, or as `+` between spaces."""
    if name.startswith('_') and name.endswith('_'):
        return name in text or re.search(rf'(?<!\S){re.escape(name.strip("_"))}(?!\S)', text) is not None
    return re.search(rf'{STARTS}{re.escape(name)}(?![{NAME_SIGNS}])', text) is not None


def uses_alias(text, alias):
    """Does the text name something of the module that `use .. as` calls so?"""
    return re.search(rf'{STARTS}{re.escape(alias)}\.', text) is not None


def needed_uses(uses, text):
    """The `use` lines that a text needs, of (module, names, alias), in their order and one for each module."""
    names_of = {}
    for module, names, alias in uses:
        known = names_of.setdefault((module, alias), [])
        known += [name for name in names if name not in known]
    lines = []
    for (module, alias), names in names_of.items():
        if alias:
            lines += [f'use {module} as {alias}'] if uses_alias(text, alias) else []
        else:
            used = [name for name in names if uses_name(text, name)]
            lines += [f'use {module}.{{{", ".join(used)}}}'] if used else []
    return lines


def read_uses(text):
    """The `use` lines of a text, as (module, names, alias)."""
    return [(module, [name.strip() for name in names.split(',') if name.strip()], alias)
            for module, names, alias in USE_LINE.findall(text)]


def pruned(text):
    """A proof file's text with the `use` lines that it needs, all where its first one stood."""
    first = USE_LINE.search(text)
    if not first:
        return text
    rest = USE_LINE.sub('', text[first.start():])
    lines = needed_uses(read_uses(text), without_comments(rest))
    return text[:first.start()] + ''.join(line + '\n' for line in lines) + rest


def main():
    parser = argparse.ArgumentParser(description='Take out of the `use` lines of proof files what the files do not use.')
    parser.add_argument('files', nargs='+', type=Path, metavar='FILE')
    for path in parser.parse_args().files:
        before = path.read_text()
        after = pruned(before)
        if after != before:
            path.write_text(after)
            print(f'pruned {path}')


if __name__ == '__main__':
    main()
