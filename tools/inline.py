#!/usr/bin/env python3
"""inline.py FILE ..: answer each need of a proof file where `spec` asks for it, not in a declaration before it.

`rt dev` prints a proof with a declaration for each need. Half of such a file is the needs' types, written again and again.
This puts the answers into the call of `spec`, in the order in which it asks, each with its need's name as a comment. A need
that opens definitions (`unfolding`) stays declared, because only a declaration can. In a member of a cycle the tuple of what
its callees promise is named once (`called`). Files of another form are left as they are; so is a file that has the form
already.
"""

import argparse
import re
from dataclasses import dataclass
from pathlib import Path

SPEC = re.compile(r'(?:tie|[^\s()]+-lts)\.spec(?=\s)')
NEED = re.compile(r'(?:tie|[^\s()]+-lts)\.Need-')
TUPLE = re.compile(r'\(\n(?:  [^\n]*,\n)+\)')
COMMENT = re.compile(r'(?<!\S)--.*')


@dataclass
class Answer:
    """What answers a need: the names that it binds, and the text after its `=`."""

    binds: list
    text: str


def blocks_of(text):
    """The parts of a file between blank lines."""
    return re.split(r'\n\n+', text.strip('\n'))


def declared_name(block):
    """The name that a block declares, past the comments before it; none if it declares nothing."""
    for line in block.split('\n'):
        if line.startswith('--'):
            continue
        found = re.match(r'([^\s:]+) :', line)
        return found.group(1) if found else None
    return None


def answer_in(block):
    """A need's name and answer, if the block declares one that opens no definition."""
    name = declared_name(block)
    if name is None or not NEED.search(block) or re.search(r'^unfolding ', block, re.M):
        return None
    found = re.search(r'^' + re.escape(name) + r'((?: [^\s=]+)*) =[ ]?(.*)\Z', block, re.S | re.M)
    return (name, Answer(found.group(1).split(), found.group(2).rstrip())) if found else None


def signs_of(text):
    """Each sign of a text with its place, a comment up to its line's end as one sign."""
    place = 0
    while place < len(text):
        comment = COMMENT.match(text, place)
        sign = comment.group() if comment else text[place]
        yield place, sign
        place += len(sign)


def words_of(text):
    """The arguments of a call: words, and what stands in parentheses; a comment goes with the argument before it."""
    words, depth, start = [], 0, None
    for place, sign in signs_of(text + ' '):
        depth += (sign in '({') - (sign in ')}')
        if start is None and sign.startswith('--'):
            words[-1] += '  ' + sign
        elif start is None and not sign.isspace():
            start = place
        elif start is not None and depth == 0 and sign.isspace():
            words.append(text[start:place])
            start = None
    return words


def lambda_for(name, answer, member):
    """The answer as a function, with the need's name beside it; a cycle's member binds its measure already."""
    binds = answer.binds[1:] if member else answer.binds
    name = name.removeprefix(f'{member}-')
    head = 'λ ' + ' '.join(binds) + '.' if binds else ''
    if '\n' in answer.text:
        body = '\n'.join('    ' + line.strip() for line in answer.text.strip('\n').split('\n'))
        return f'({head}  -- {name}\n{body})'
    return f'({head} {answer.text})  -- {name}' if head else f'({answer.text})  -- {name}'


def argument_text(word, answers, used, member):
    """One argument of `spec`: a need's answer, or what stood there."""
    measured = re.fullmatch(r'\((\S+) t\)', word)
    name = measured.group(1) if measured else word
    if name not in answers:
        return word
    used.add(name)
    return lambda_for(name, answers[name], member if measured else None)


def end_of_call(text):
    """Where the call that starts at the front of the text ends: at the parenthesis that closes around it, or with the text."""
    depth = 0
    for place, sign in signs_of(text):
        depth += (sign in '({') - (sign in ')}')
        if depth < 0:
            return place
    return len(text)


def joined(words):
    """The arguments of `spec`, one to a line where one of them is an answer."""
    return ''.join('\n    ' + word for word in words)


def name_called(text):
    """What the callees of a cycle's member promise, named once: the text with the name in the tuple's place, its declaration."""
    tuples = set(TUPLE.findall(text))
    member = re.search(r'^pub (\S+)-met :', text, re.M)
    if len(tuples) != 1 or not member or re.search(r'^abbrev called :', text, re.M):
        return text, None
    whole = tuples.pop()
    parts = [line.strip().rstrip(',') for line in whole.strip('()\n').split('\n')]
    lines, line = [], '    ('
    for place, part in enumerate(parts):
        word = part + (',' if place + 1 < len(parts) else ')')
        if len(line) + len(word) > 130:
            lines.append(line.rstrip())
            line = '    '
        line += word + ' '
    lines.append(line.rstrip())
    declaration = ('-- what the members and functions that it calls ask and promise\n'
                   f'abbrev called : (t : ℕ) → {member.group(1)}-lts.Claims\n'
                   'called t =\n' + '\n'.join(lines))
    return text.replace(whole, '(called t)'), declaration


def inlined(text):
    """A proof file's text in the short form."""
    if not SPEC.search(text):
        return text
    text, called = name_called(text)
    blocks = blocks_of(text)
    answers = dict(found for found in map(answer_in, blocks) if found)
    kept = [block for block in blocks if not answer_in(block)]
    used = set()
    out = [with_answers(block, answers, used) for block in kept]
    left = sorted(set(answers) - used)
    if left:
        raise ValueError('`spec` asks for none of: ' + ', '.join(left))
    if called:
        out.insert(next(place for place, block in enumerate(out) if not is_heading(block)), called)
    return '\n\n'.join(out) + '\n'


def with_answers(block, answers, used):
    """A block with the answers put into the call of `spec`, if it has one; their names are noted as used."""
    found = SPEC.search(block)
    if not found:
        return block
    rest = block[found.end():]
    end = end_of_call(rest)
    member = found.group(0).removesuffix('-lts.spec')
    words = [argument_text(word, answers, used, member) for word in words_of(rest[:end])]
    tail = rest[end:].lstrip()
    ends_in_comment = ' -- ' in words[-1].split('\n')[-1]
    return block[:found.end()] + joined(words) + ('\n    ' if tail and ends_in_comment else '') + tail


def is_heading(block):
    """Does the block declare nothing, but say what the module is and uses?"""
    return all(line.startswith(('--', 'use ', 'mod ')) for line in block.split('\n'))


def main():
    parser = argparse.ArgumentParser(description=__doc__, formatter_class=argparse.RawDescriptionHelpFormatter)
    parser.add_argument('files', nargs='+', type=Path, metavar='FILE')
    for path in parser.parse_args().files:
        before = path.read_text()
        after = inlined(before)
        if after != before:
            path.write_text(after)
            print(f'shortened {path}')


if __name__ == '__main__':
    main()
