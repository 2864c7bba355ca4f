#!/usr/bin/env python3
"""Writes the list of crates, which stands in crates.txt alone, into the documents, and draws docs/architecture.svg from it.

usage: wings.py                 write the tables and the picture
       wings.py --check         say which of them are not up to date, and end with 1 if there is one
       wings.py --times LOG     write the seconds of each check into CONTRIBUTING.md, from the log of a gate (`.ci/run > LOG`)

In crates.txt `## WING: what it is` begins a wing. A comment line above a crate says what it holds; what stands after "Carries over:" are names of
the Rust's analyze.rs. In a document a table stands between `<!-- crates: begin -->` and `<!-- crates: end -->` (every crate, by wing) or between
`<!-- wings: begin -->` and `<!-- wings: end -->` (a line for each wing).

In the picture an arrow leads from a wing to one that it stands on. Arrows that follow from others are left out. The laws and claims have no code, so
they stand beside: what the code stands on is drawn first, as if they were not there.
"""
import argparse
import pathlib
import re
import sys
from dataclasses import dataclass, field
from xml.sax.saxutils import escape

ROOT = pathlib.Path(__file__).resolve().parent.parent
PICTURE = 'docs/architecture.svg'

# Libraries of the toolchain: they are no crates of ours.
KIT = {'std', 'io', 'bytes', 'check', 'memchr', 'itoa'}

# The wings without code.
BESIDE = {'laws', 'claims'}


class Fault(Exception):
    """What is wrong with crates.txt or with a document."""


@dataclass
class Crate:
    name: str
    holds: str
    carries: str
    stands_on: list


@dataclass
class Wing:
    name: str
    what: str
    crates: list = field(default_factory=list)


# Reading crates.txt

def wings_of(text):
    """The wings of a crates.txt, each with its crates."""
    wings, comment = [], ''
    for number, line in enumerate(text.split('\n'), 1):
        if line.startswith('## '):
            name, colon, what = line[3:].partition(': ')
            if not colon:
                raise Fault(f'crates.txt, line {number}: a wing is `## NAME: what it is`')
            wings.append(Wing(name, what))
        elif line.startswith('#'):
            comment = line[1:].strip()
            continue
        elif line.strip():
            name, _, names = line.partition(':')
            # what stands behind a name is its kind: `analyze_c staticlib: ..`
            name = name.split()[0]
            if not comment:
                raise Fault(f'crates.txt, line {number}: no line above {name} says what it holds')
            if not wings:
                raise Fault(f'crates.txt, line {number}: {name} stands in no wing')
            holds, _, carries = comment.partition(' Carries over: ')
            wings[-1].crates.append(Crate(name, holds, carries, names.split('#')[0].split()))
        comment = ''
    known = {crate.name for wing in wings for crate in wing.crates}
    for wing in wings:
        for crate in wing.crates:
            unknown = [name for name in crate.stands_on if name not in known | KIT]
            if unknown:
                raise Fault(f'crates.txt: {crate.name} stands on {unknown[0]}, which is not listed')
    return wings


# Tables

def crates_table(wings):
    """Every crate, by wing."""
    lines = ['| crate | holds | carries over from analyze.rs |', '|---|---|---|']
    for wing in wings:
        lines.append(f'| **{wing.name}** | **{wing.what}** | |')
        lines += [f'| `{crate.name}` | {crate.holds.rstrip(".")} | {crate.carries} |' for crate in wing.crates]
    return '\n'.join(lines)


def short_names(wing):
    """A wing's crates, those with the same first word as one: `step_*`."""
    words = [crate.name.split('_')[0] for crate in wing.crates]
    names = []
    for crate, word in zip(wing.crates, words):
        alone = words.count(word) == 1 or any(other.name == word for other in wing.crates)
        name = f'`{crate.name}`' if alone else f'`{word}_*`'
        if name not in names:
            names.append(name)
    return ', '.join(names)


def wings_table(wings):
    """A line for each wing, the lowest last, as in the picture; then those beside."""
    lines = ['| wing | what it is | crates |', '|---|---|---|']
    ordered = sorted(reversed(wings), key=lambda wing: wing.name in BESIDE)
    lines += [f'| {wing.name} | {wing.what} | {short_names(wing)} |' for wing in ordered]
    return '\n'.join(lines)


TABLES = {'crates': crates_table, 'wings': wings_table}
DOCUMENTS = {'README.md': ['wings'], 'docs/ARCHITECTURE.md': ['crates']}


def with_table(document, text, mark, table):
    """A document's text with what stands between the two marks replaced."""
    begin, end = f'<!-- {mark}: begin -->', f'<!-- {mark}: end -->'
    if text.count(begin) != 1 or text.count(end) != 1 or text.index(end) < text.index(begin):
        raise Fault(f'{document}: `{begin}` and `{end}` must stand there once each, in this order')
    before, _, rest = text.partition(begin)
    return f'{before}{begin}\n{table}\n{end}{rest.partition(end)[2]}'


# How long checks take

def times_table(wings, log):
    """A line for each wing: the seconds of each crate's check and, where the log has them, of its must-fail edits."""
    proved = {name: int(seconds) for name, seconds in re.findall(r'^rt: (\w+) proved \((\d+) s\)', log, re.M)}
    edits = {}
    for name, seconds in re.findall(r'^rt: must-fail (\w+)/\w+: refused, as it must be \(.*?(\d+) s\)', log, re.M):
        edits.setdefault(name, []).append(int(seconds))
    known = {crate.name for wing in wings for crate in wing.crates}
    if not proved or not proved.keys() <= known:
        raise Fault('the log tells of no crate that was proved, or of one that is not in crates.txt')
    lines = ['| wing | seconds of each check |' + (' its must-fail edits, and their seconds together |' if edits else ''), '|---|---|' + ('---|' if edits else '')]
    for wing in wings:
        names = sorted((crate.name for crate in wing.crates if crate.name in proved), key=lambda name: -proved[name])
        line = f'| {wing.name} | ' + ', '.join(f'`{name}` {proved[name]}' for name in names) + ' |'
        if edits:
            counts = [f'`{crate.name}` {len(edits[crate.name])}, {sum(edits[crate.name])} s' for crate in wing.crates if crate.name in edits]
            line += f' {"; ".join(counts)} |'
        lines.append(line)
    missing = sorted(known - proved.keys())
    return '\n'.join(lines) + (f'\n\nNot in that log: {", ".join(f"`{name}`" for name in missing)}.' if missing else '')


# Which wing stands on which


def wing_edges(wings):
    """The pairs of wings of which the first has a crate that stands on one of the second."""
    home = {crate.name: wing.name for wing in wings for crate in wing.crates}
    pairs = {(wing.name, home[name]) for wing in wings for crate in wing.crates for name in crate.stands_on if name in home}
    order = [wing.name for wing in wings]
    return sorted((pair for pair in pairs if pair[0] != pair[1]), key=lambda pair: [order.index(name) for name in pair])


def reaches(edges, start, end):
    """Whether some way of one edge or more leads from one wing to another."""
    met, open_ends = set(), [start]
    while open_ends:
        here = open_ends.pop()
        for first, second in edges:
            if first == here and second not in met:
                met.add(second)
                open_ends.append(second)
    return end in met


def needed(edges, fixed=()):
    """The edges that do not follow from the others; those fixed stay."""
    kept = list(edges)
    for edge in edges:
        rest = [other for other in kept if other != edge]
        if edge not in fixed and reaches(rest, *edge):
            kept = rest
    return kept


def drawn_edges(wings):
    """The arrows of the picture: first between the wings with code, then those from and to the wings beside."""
    edges = wing_edges(wings)
    code = [edge for edge in edges if not BESIDE & set(edge)]
    for first, second in code:
        if reaches(code, second, first):
            raise Fault(f'crates.txt: {first} and {second} stand on one another')
    column = needed(code)
    return needed(column + [edge for edge in edges if BESIDE & set(edge)], fixed=column)


# The picture

# Where each wing stands: its column (0 left, 1 middle; 2 both) and its row from the top.
PLACES = {
    'programs': (1, 0), 'call': (1, 1), 'walkers': (1, 2), 'steps': (1, 3), 'state': (1, 4), 'resolver and settling': (1, 5), 'finding': (1, 6),
    'tables': (1, 7), 'values': (1, 8), 'rules': (2, 9), 'claims': (0, 1), 'laws': (0, 3), 'first walk': (0, 5), 'bytes': (0, 7),
}
LEFTS = [30, 440, 30]
WIDTHS = [320, 560, 970]
MARGIN, ROW_GAP, LANE = 30, 34, 20
PAPER, INK, LINE = '#fbfaf7', '#1f2933', '#52606d'
FILLS = {'rules': '#fde9c9', 'programs': '#dcefe0', 'laws': '#ece4f5', 'claims': '#ece4f5'}
FILL = '#dfeaf6'
FONT = 'Helvetica, Arial, sans-serif'


@dataclass
class Box:
    """A wing as it is drawn: its corner and size, and where each crate's name stands in it."""
    wing: Wing
    left: float
    top: float
    width: float
    height: float
    chips: list
    column: int
    row: int

    @property
    def right(self):
        return self.left + self.width

    @property
    def bottom(self):
        return self.top + self.height

    @property
    def middle(self):
        return self.left + self.width / 2


def text_width(text, size):
    """How wide a text is at most in a plain sans font, roughly."""
    return len(text) * size * 0.56


def words_in_lines(text, width, size):
    """A text cut into lines that fit."""
    lines = ['']
    for word in text.split():
        longer = f'{lines[-1]} {word}'.strip()
        if lines[-1] and text_width(longer, size) > width:
            lines.append(word)
        else:
            lines[-1] = longer
    return lines


def laid_chips(wing, width):
    """Where each crate's name stands in a box of this width: its left and top in the box, its width; and the box's height."""
    left, top = 14, 34 + 17 * len(words_in_lines(wing.what, width - 28, 13))
    chips = []
    for crate in wing.crates:
        wide = text_width(crate.name, 13) + 16
        if chips and left + wide > width - 14:
            left, top = 14, top + 30
        chips.append((crate.name, left, top, wide))
        left += wide + 8
    return chips, top + 36


def boxes_of(wings):
    """The boxes of all wings by name; a row is as high as its highest box, and boxes of one row begin at one height."""
    if {wing.name for wing in wings} != set(PLACES):
        missing = {wing.name for wing in wings} ^ set(PLACES)
        raise Fault(f'tools/wings.py: PLACES and crates.txt do not have the same wings: {", ".join(sorted(missing))}')
    boxes, top = {}, 70
    by_row = sorted(wings, key=lambda wing: PLACES[wing.name][1])
    for row in sorted({place[1] for place in PLACES.values()}):
        bottom = top
        for wing in by_row:
            column, its_row = PLACES[wing.name]
            if its_row == row:
                chips, height = laid_chips(wing, WIDTHS[column])
                # a box of the left column may be higher than its row: the row below it is empty there
                boxes[wing.name] = Box(wing, LEFTS[column], top, WIDTHS[column], height, chips, column, row)
                if column:
                    bottom = max(bottom, top + height)
        top = bottom + ROW_GAP
    return boxes


def between(boxes, first, second):
    """Whether a box stands between two of one column."""
    return any(first.row < box.row < second.row and (box.column == first.column or box.column == 2) for box in boxes.values())


def ways(boxes, edges):
    """For each pair of wings its points, and whether the arrow has two heads."""
    drawn, lanes = [], []
    for first, second in edges:
        above, below = boxes[first], boxes[second]
        both = (second, first) in edges
        if both and above.column < below.column:
            continue
        if above.row == below.row:
            left, right = sorted((above, below), key=lambda box: box.left)
            y = above.top + 26
            points = [(left.right, y), (right.left, y)]
            drawn.append((points if above is left else points[::-1], both))
        elif (above.column == below.column or 2 in (above.column, below.column)) and not between(boxes, above, below):
            x = above.middle if below.column == 2 else below.middle
            drawn.append(([(x, above.bottom), (x, below.top)], both))
        else:
            lanes.append((above, below, both))
    # the others go down between the columns; the higher its end, the further to the left, so that these lines do not cross one another
    lanes.sort(key=lambda lane: lane[1].row)
    for i, (above, below, both) in enumerate(lanes):
        x = LEFTS[0] + WIDTHS[0] + LANE * (i + 1.5)
        y, end = above.bottom - 18, below.top + 26
        if above.column == below.column == 1:
            raise Fault(f'tools/wings.py: no way for an arrow from {above.wing.name} to {below.wing.name}: place the wings otherwise')
        start = above.left if above.column else above.right
        finish = below.right if not below.column else below.left
        drawn.append(([(start, y), (x, y), (x, end), (finish, end)], both))
    return drawn


def head(tip, back):
    """An arrow's head at a tip, coming from another point."""
    (x, y), (from_x, from_y) = tip, back
    across = (x != from_x)
    step = -9 if (x, y) > (from_x, from_y) else 9
    corners = [(x + step, y - 5), (x + step, y + 5)] if across else [(x - 5, y + step), (x + 5, y + step)]
    return '<polygon fill="{}" points="{}"/>'.format(LINE, ' '.join(f'{a:g},{b:g}' for a, b in [tip, *corners]))


def arrow(points, both):
    """An arrow along some points, with paper around it, so that a crossing is seen as one."""
    path = 'M' + ' L'.join(f'{x:g} {y:g}' for x, y in points)
    parts = [f'<path d="{path}" fill="none" stroke="{PAPER}" stroke-width="8"/>', f'<path d="{path}" fill="none" stroke="{LINE}" stroke-width="1.8"/>']
    parts.append(head(points[-1], points[-2]))
    if both:
        parts.append(head(points[0], points[1]))
    return parts


def drawn_text(x, y, size, words, weight='normal', anchor='start'):
    return f'<text x="{x:g}" y="{y:g}" font-size="{size}" font-weight="{weight}" text-anchor="{anchor}" fill="{INK}">{escape(words)}</text>'


def drawn_box(box):
    wing = box.wing
    dashes = ' stroke-dasharray="6 4"' if wing.name in BESIDE else ''
    parts = [f'<rect x="{box.left:g}" y="{box.top:g}" width="{box.width:g}" height="{box.height:g}" rx="8" fill="{FILLS.get(wing.name, FILL)}" '
             f'stroke="{LINE}"{dashes}/>', drawn_text(box.left + 14, box.top + 24, 16, wing.name, 'bold')]
    for i, line in enumerate(words_in_lines(wing.what, box.width - 28, 13)):
        parts.append(drawn_text(box.left + 14, box.top + 43 + 17 * i, 13, line))
    for name, left, top, wide in box.chips:
        parts.append(f'<rect x="{box.left + left:g}" y="{box.top + top:g}" width="{wide:g}" height="24" rx="5" fill="#ffffff" stroke="#9aa5b1"/>')
        parts.append(drawn_text(box.left + left + wide / 2, box.top + top + 16.5, 13, name, anchor='middle'))
    return parts


def picture(wings):
    """The picture as SVG, with a background of its own, so that it is read on light and on dark pages."""
    boxes = boxes_of(wings)
    width = LEFTS[2] + WIDTHS[2] + MARGIN
    height = max(box.bottom for box in boxes.values()) + MARGIN
    parts = [f'<svg xmlns="http://www.w3.org/2000/svg" viewBox="0 0 {width:g} {height:g}" width="{width:g}" height="{height:g}" font-family="{FONT}" role="img">',
             '<title>The wings of the repository and their crates</title>',
             '<desc>Written by tools/wings.py from crates.txt. An arrow leads from a wing to one that it stands on.</desc>',
             f'<rect width="{width:g}" height="{height:g}" rx="10" fill="{PAPER}"/>',
             drawn_text(LEFTS[0], 38, 14, 'An arrow leads from a wing to one that it stands on; arrows that follow from others are left out. '
                                          'Dashed: theorems without code.')]
    for points, both in ways(boxes, drawn_edges(wings)):
        parts += arrow(points, both)
    for box in boxes.values():
        parts += drawn_box(box)
    return '\n'.join([*parts, '</svg>', ''])


# Files

def files_of(root):
    """What each file that this script writes should hold."""
    wings = wings_of((root / 'crates.txt').read_text())
    files = {}
    for document, marks in DOCUMENTS.items():
        text = (root / document).read_text()
        for mark in marks:
            text = with_table(document, text, mark, TABLES[mark](wings))
        files[document] = text
    files[PICTURE] = picture(wings)
    return files


def stale(root):
    """The files that do not hold what they should."""
    return [name for name, text in files_of(root).items() if not (root / name).exists() or (root / name).read_text() != text]


def main(arguments):
    parser = argparse.ArgumentParser(description=__doc__, formatter_class=argparse.RawDescriptionHelpFormatter)
    parser.add_argument('--check', action='store_true', help='write nothing, and end with 1 if a file is not up to date')
    parser.add_argument('--times', metavar='LOG', help='write the seconds of each check into CONTRIBUTING.md')
    options = parser.parse_args(arguments)
    try:
        if options.times:
            document = ROOT / 'CONTRIBUTING.md'
            table = times_table(wings_of((ROOT / 'crates.txt').read_text()), pathlib.Path(options.times).read_text())
            document.write_text(with_table(document.name, document.read_text(), 'times', table))
            return 0
        old = stale(ROOT)
        if not options.check:
            for name, text in files_of(ROOT).items():
                (ROOT / name).write_text(text)
    except (Fault, OSError) as fault:
        print(f'wings.py: {fault}', file=sys.stderr)
        return 1
    for name in old:
        print(f'{name}: ' + ('not up to date; run python3 tools/wings.py' if options.check else 'written'))
    return 1 if options.check and old else 0


if __name__ == '__main__':
    sys.exit(main(sys.argv[1:]))
