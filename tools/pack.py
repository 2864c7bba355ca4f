#!/usr/bin/env python3
"""Packs records written as text into bytes, and writes bytes as text again.

usage: pack.py TEXT-FILE > FILE.bin          text to bytes
       pack.py --back [--names] FILE.bin     bytes to text, one record to a line;
                                             --names adds each record's offset and fields as a comment

A text is records, each a mark and its numbers, separated by commas or line ends:

    JT 0, LO 1, BV 5 9, TV 3, VA 5 8        # local x = 1; x

`#` begins a comment. `? 4a 54` stands for those bytes as they are, in hexadecimal: it is how a damaged file is
written, and how bytes that are no whole record come back. A file is `-` for standard input.

The first mark tells what a text or a file holds: a tree (`JT`), diagnostics (`DG`), or else an analyser's output.
The marks and their fields are those of document 01. Only single records are looked at: whether they make a tree is for
`slots` to say.
"""
import struct
import sys

# The fields of each mark. A name that ends in `*` stands for as many numbers as TAILS says.
TREE = {
    'JT': 'externals name*', 'ID': 'kind span', 'TV': 'constant', 'VA': 'name span', 'AR': 'items', 'OX': '',
    'UN': 'operator', 'BI': 'operator', 'AS': 'message', 'LO': 'binds', 'ER': 'span', 'IM': 'kind span literal path',
    'AP': 'positional named tailstrict span', 'NA': 'name', 'IX': 'parts', 'PT': 'span', 'FN': 'span parameters',
    'IF': 'else', 'SC': 'set', 'OB': 'locals assertions fields', 'BV': 'name span', 'BF': 'name span',
    'PA': 'name span default', 'AT': 'message', 'FH': 'kind name span plus visibility method',
}
OUTPUT = {
    'LS': 'slot', 'CS': 'capture', 'SU': '', 'BL': 'kind', 'TV': 'constant', 'AC': 'items constant*', 'AR': 'items', 'OX': '',
    'UN': 'operator', 'BI': 'operator', 'AS': 'message', 'LO': 'binds', 'ER': 'span', 'IM': 'kind span path',
    'AP': 'positional named tailstrict span', 'NA': 'name', 'IX': 'parts', 'PT': 'span', 'FN': 'named name parameters',
    'IY': '', 'IF': 'else', 'SC': 'set', 'OB': 'this dollar super locals assertions fields static', 'BV': 'slot',
    'PA': 'name slot default', 'AT': 'message', 'FH': 'kind name plus visibility', 'FV': '', 'SH': 'locals captures source*',
}
DIAGNOSTICS = {'DG': 'level code name span'}
KINDS = {'a tree': TREE, 'an output': OUTPUT, 'diagnostics': DIAGNOSTICS}

# Which number says how long a tail is, and how many numbers each of its entries has.
TAILS = {'JT': (0, 1), 'AC': (0, 1), 'SH': (1, 2)}


class Fault(Exception):
    """What is wrong with a text."""


def table_of(mark):
    """The table that a text or a file goes by whose first mark is this one."""
    return {'JT': TREE, 'DG': DIAGNOSTICS}.get(mark, OUTPUT)


def fixed_fields(table, mark):
    """The names of a mark's fields but for its tail."""
    return [name for name in table[mark].split() if not name.endswith('*')]


def tail_length(mark, numbers):
    """How many numbers follow a mark's fixed fields, whose values these are."""
    if mark not in TAILS:
        return 0
    field, width = TAILS[mark]
    return numbers[field] * width


# Text to bytes

def pieces(text):
    """Each record's text, with its line's number."""
    for line, content in enumerate(text.split('\n'), 1):
        for piece in content.split('#')[0].split(','):
            if piece.strip():
                yield line, piece.split()


def raw_bytes(words):
    try:
        return bytes(int(word, 16) for word in words)
    except ValueError:
        raise Fault('`?` is followed by bytes in hexadecimal, as `? 4a 54`') from None


def number(word):
    if not (word.isascii() and word.isdigit()):
        raise Fault(f'`{word}` is no number')
    if 2 ** 32 <= int(word):
        raise Fault(f'{word} is over 32 bits')
    return int(word)


def record(table, mark, words):
    """The bytes of a record whose numbers are these words."""
    if mark not in table:
        homes = [kind for kind, other in KINDS.items() if mark in other]
        raise Fault(f'no mark `{mark}` here' + (f': it is a mark of {" and of ".join(homes)}' if homes else ''))
    numbers = [number(word) for word in words]
    wanted = len(fixed_fields(table, mark))
    if wanted <= len(numbers):
        wanted += tail_length(mark, numbers)
    if len(numbers) != wanted:
        raise Fault(f'`{mark}` has {wanted} numbers here ({table[mark].replace(" ", ", ") or "none"}), not {len(numbers)}')
    return mark.encode() + struct.pack(f'<{len(numbers)}I', *numbers)


def pack(text):
    """The bytes of a text."""
    table, packed = None, b''
    for line, (mark, *words) in pieces(text):
        try:
            if mark == '?':
                packed += raw_bytes(words)
                continue
            table = table or table_of(mark)
            packed += record(table, mark, words)
        except Fault as fault:
            raise Fault(f'line {line}: {fault}') from None
    return packed


# Bytes to text

def record_at(table, packed, at):
    """The mark and numbers of the whole record at an offset, or nothing where none stands."""
    mark = packed[at:at + 2].decode('latin-1')
    if mark not in table:
        return None
    count = len(fixed_fields(table, mark))
    if len(packed) < at + 2 + 4 * count:
        return None
    numbers = struct.unpack_from(f'<{count}I', packed, at + 2)
    count += tail_length(mark, numbers)
    if len(packed) < at + 2 + 4 * count:
        return None
    return mark, struct.unpack_from(f'<{count}I', packed, at + 2)


def records(packed):
    """Each record's offset, mark and numbers; what is no whole record is `?` and all bytes that are left."""
    table = table_of(packed[:2].decode('latin-1'))
    at = 0
    while at < len(packed):
        found = record_at(table, packed, at)
        if found is None:
            yield at, '?', [f'{byte:02x}' for byte in packed[at:]]
            return
        yield at, *found
        at += 2 + 4 * len(found[1])


def named(table, mark, numbers):
    """The fields by name: `name 5, span 9`."""
    names = table[mark].split()
    if names and names[-1].endswith('*'):
        tail = names.pop().rstrip('*')
        names += [tail] * (len(numbers) - len(names))
    return ', '.join(f'{name} {n}' for name, n in zip(names, numbers))


def unpack(packed, with_names=False):
    """The text of some bytes, one record to a line."""
    table = table_of(packed[:2].decode('latin-1'))
    lines = []
    for at, mark, numbers in records(packed):
        line = ' '.join([mark, *map(str, numbers)])
        if with_names:
            words = 'no whole record' if mark == '?' else named(table, mark, numbers)
            line = f'{line:<24} # at {at}' + (f': {words}' if words else '')
        lines.append(line + '\n')
    return ''.join(lines)


def main(arguments):
    options = {word for word in arguments if word.startswith('--')}
    files = [word for word in arguments if not word.startswith('--')]
    if '-h' in files or '--help' in options or not options <= {'--back', '--names'} or len(files) != 1:
        print(__doc__.strip(), file=sys.stderr)
        return 0 if '-h' in files or '--help' in options else 2
    try:
        content = sys.stdin.buffer.read() if files[0] == '-' else open(files[0], 'rb').read()
        if '--back' in options:
            sys.stdout.write(unpack(content, '--names' in options))
        else:
            sys.stdout.buffer.write(pack(content.decode()))
    except (Fault, OSError, UnicodeDecodeError) as fault:
        print(f'pack.py: {files[0]}: {fault}', file=sys.stderr)
        return 1
    return 0


if __name__ == '__main__':
    sys.exit(main(sys.argv[1:]))
