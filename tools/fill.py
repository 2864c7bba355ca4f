#!/usr/bin/env python3
"""fill.py LOG GENERATED ANSWERS: write a cycle's proof modules from the answers that people edit.

LOG is what `rt dev NAME` printed with no proof of the cycle there, GENERATED the folder that `rt dev NAME --generated GENERATED`
filled, ANSWERS a text as tools/answer_text.py describes it. Written are, where LOG says that the proof is wanted: a module for
the measures, one for each member, and the proof that closes over them. tools/README.md has the steps from code to proof.
"""

import argparse
import re
import sys
from dataclasses import dataclass, field
from functools import cached_property
from pathlib import Path

from answer_text import Answers, TextError
from dev import offered_files
from inline import blocks_of, declared_name, end_of_call, inlined, words_of
from prune import needed_uses, read_uses, without_comments

NEED = re.compile(r'(\S+)-lts\.(Need|InvT|MeasureT)-(\S+)')
QUESTION = re.compile(r'^(?P<head>\S+(?: [^\s=]+)* =)(?P<gap>\s+)(?:\?|search needs)\s*\Z', re.M)
LONG_TUPLE = re.compile(r'\(\n(?: +.*,\n)+ *\)')
SPEC_CALL = re.compile(r'λ t\. (\S+)-lts\.spec')


# What was printed

@dataclass
class Question:
    """A declaration that wants an answer: of a need, or of a loop's invariant or measure."""

    block: str
    key: str       # what the answers call it
    is_need: bool  # else it is a loop's


@dataclass
class Member:
    """A function of the cycle, with what was printed for it."""

    name: str   # as in the code
    claims: str  # what its callees ask and promise
    given: str
    promised: str
    arguments: list  # what `spec` asks for after these
    questions: list = field(default_factory=list)

    @property
    def dashed(self):
        return self.name.replace('_', '-')


@dataclass
class Cycle:
    """The proof of a cycle as it was printed."""

    path: Path
    uses: list
    measures: list  # the blocks of the measures, and of what a member is given at one and asks below one
    members: dict   # by the name with dashes, in the printed order
    statement: str

    @property
    def folder(self):
        return self.path.parent.name

    @cached_property
    def crate(self):
        return self.path.parts[-4]


def read_cycle(path, text):
    """The printed proof of a cycle."""
    blocks = blocks_of(text)
    closing = blocks.pop()
    members = read_members(closing)
    measures = []
    for block in blocks[1:]:
        block = outdented(re.sub(r'^-- src/.*\n', '', block))
        found = NEED.search(block)
        if not found:
            measures.append(block)
            continue
        member, kind, name = found.groups()
        key = {'Need': name, 'InvT': f'invariant {name}', 'MeasureT': f'measure {name}'}[kind]
        members[member].questions.append(Question(block, key, kind == 'Need'))
    return Cycle(Path(path), read_uses(blocks[0] + '\n'), measures, members, declared_name(closing.removeprefix('pub ')))


def outdented(text):
    """The text with each tuple of several lines indented by two, so that one tuple reads the same wherever it stands."""
    return LONG_TUPLE.sub(lambda found: re.sub(r'^ +', '  ', found.group(), flags=re.M).replace('\n  )', '\n)'), text)


def read_members(closing):
    """The members, as the printed proof's last declaration calls `spec` for each."""
    members = {}
    for found in SPEC_CALL.finditer(closing):
        rest = closing[found.end():]
        claims, given, promised, *arguments = words_of(rest[:end_of_call(rest)])
        members[found.group(1)] = Member(found.group(1).replace('-', '_'), outdented(claims), given, promised, arguments)
    return members


# What is known where a need stands

class Places:
    """A member's generated module: which records are known where, each with a field for what came before it."""

    def __init__(self, path, member):
        self.member = member
        self.records = {}  # by name: the type of each field
        self.needs = {}    # by name: the record that is known there
        self.rows = {}     # by name: the row of the function's table that the need is about first
        record = need = None
        for line in path.read_text().split('\n'):
            if found := re.match(r' +pub record (\S+) :', line):
                record = self.records[found.group(1)] = {}
            elif found := re.match(r' +pub (\S+) : *(\S*)', line):
                if record is not None:
                    record[found.group(1)] = found.group(2)
            elif found := re.match(r' +Need-(\S+) =', line):
                need = found.group(1)
            if need and need not in self.needs and (found := re.search(r'\(c : ([^\s)]+)\)', line)):
                self.needs[need] = found.group(1)
            if need and need not in self.rows and (found := re.search(r'\(Row\.get (\d+)', line)):
                self.rows[need] = int(found.group(1))

    def back_from(self, need):
        """What is known at a need, the latest first: pairs of a path from `c` and the fields there."""
        record, path = self.needs[need], 'c'
        while record:
            fields = self.records[record]
            yield path, fields
            record, path = fields.get('before'), path + ' .before'

    def path_to(self, need, thing):
        """The path from a need's place to the latest THING before it."""
        for path, fields in self.back_from(need):
            if thing in fields:
                return f'{path} .{thing}'
        raise TextError(f'nothing is known as @{thing}\n  for {need} of {self.member}')


# The rule `lengths`

def parameters_of(function, source):
    """The parameters of a function, each as its name and its type."""
    found = re.search(rf'\bfn {function}\((.*?)\)', source, re.S)
    return re.findall(r'(\w+): ([^,\n]+)', found.group(1)) if found else []


class Lengths:
    """Says that a buffer is as long as when it was lent: by each call since then that could write to it, back to the function's
    start, or to a loop whose invariant says it (as `longs`)."""

    def __init__(self, cycle):
        crates = cycle.path.parents[3]
        self.lent = {}        # by the callee's name: the place of each buffer that it may write to among its arguments
        self.parameters = {}  # by the callee's name
        for module, _, alias in cycle.uses:
            if found := re.fullmatch(r'Rattle·(\w+?)(?:·proofs)?\.proofs\.(?:\w+\.)*(\w+)\.Reads', module):
                crate, function = found.groups()
                source = '\n'.join(path.read_text() for path in sorted((crates / crate / 'src').glob('*.rt')))
                parameters = parameters_of(function, source)
                callee = alias.removesuffix('-reads')
                self.parameters[callee] = [name for name, _ in parameters]
                self.lent[callee] = {name: place for place, (name, kind) in enumerate(parameters) if kind.startswith('&mut [')}

    def answer(self, member, places, need):
        """That the buffer of a need has its length still."""
        # the first row is for what the function answers, then comes one for each parameter
        buffer = self.parameters[member.dashed][places.rows[need] - 1]
        said = []
        for path, fields in places.back_from(need):
            for thing in fields:
                if thing == 'loop':
                    return ' ∙ '.join([*said, f'{path} .loop .inv .longs .{buffer}'])
                place = self.lent.get(thing.rstrip('0123456789'), {}).get(buffer)
                if place is not None:
                    said.append(f'{path} .{thing} .kept' + ' .1' * place + ' .0')
        return ' ∙ '.join(said) or 'search needs'


def with_lets(text, places, need):
    """The lines that name the path to each @THING of an answer, and the answer in those names."""
    things = dict.fromkeys(re.findall(r'@([\w-]+)', text))
    lets = [f'let {thing}· = {places.path_to(need, thing)} in' for thing in things]
    return lets, re.sub(r'@([\w-]+)', r'\1·', text)


# The modules

class Writer:
    """Writes a cycle's modules from its answers."""

    def __init__(self, cycle, generated, answers):
        self.cycle = cycle
        self.generated = generated
        self.answers = answers
        self.base = f'Rattle·{cycle.crate}·proofs.proofs.{cycle.folder}'
        self.unanswered = []

    def modules(self):
        """Each module's name with its text."""
        yield 'Measures', self.measures_module()
        for member in self.cycle.members.values():
            yield self.module_of(member), self.member_module(member)

    def module_of(self, member):
        return self.answers.members[member.name].module

    @cached_property
    def lengths(self):
        return Lengths(self.cycle)

    def answered(self, member, key, block, places=None):
        """A declaration with the answer in the place of its question mark; places: where a need stands."""
        answer = self.answers.answer(member.name, key)
        if answer is None:
            self.unanswered.append(f'{member.name}: {key}')
            return block
        text = answer.text
        if text == 'by rule lengths':
            text = self.lengths.answer(member, places, key)
        lets, text = with_lets(text, places, key) if places else ([], text)
        unfolding = f'unfolding {answer.unfolding}\n' if answer.unfolding else ''
        return QUESTION.sub(lambda found: unfolding + found['head'] + ('\n    ' if lets or '\n' in found['gap'] else ' ')
                            + ''.join(f'{let}\n    ' for let in lets) + text, block)

    def measures_module(self):
        blocks = []
        for block in self.cycle.measures:
            if found := re.match(r'abbrev μ-(\S+) :', block):
                block = self.answered(self.cycle.members[found.group(1)], 'measure', block)
            blocks.append(block.replace('abbrev ', 'abbrev pub ', 1))
        title = 'The measures of the cycle, and what a member is given at a measure and asks below one. Assumes nothing.'
        return self.module(title, [], blocks)

    def member_module(self, member):
        generated = self.generated / f'Rattle·{self.cycle.crate}·proofs/proofs/{self.cycle.folder}'
        places = Places(generated / f'Lts-{member.name}.antt', member.name)
        blocks = [self.answered(member, question.key, question.block, places if question.is_need else None)
                  for question in member.questions]
        name = member.dashed
        claims = f'{member.claims} {member.given} {member.promised}'
        blocks.append(f'pub {name}-met : {{M : Type 1}} (t : ℕ) → {name}-lts.Closed {claims} M\n'
                      f'{name}-met t = {name}-lts.spec {claims} {" ".join(member.arguments)}')
        blocks = blocks_of(inlined('\n\n'.join(blocks)))
        about = self.answers.answer(member.name, 'about')
        measures = [declared_name(block.removeprefix('abbrev ')) for block in self.cycle.measures]
        return self.module(about.text if about else '', [(f'{self.base}.Proof.Measures', measures, '')], blocks)

    def module(self, title, further_uses, blocks):
        """A module's text, with the `use` lines that it needs of the answers' and the printed ones."""
        body = '\n\n'.join(blocks)
        uses = needed_uses(self.answers.uses + self.cycle.uses + further_uses, without_comments(body))
        return f'-- {title}\n' + '\n'.join(uses) + '\n\n' + body + '\n'

    def closing_module(self):
        """The proof that closes over the members."""
        members = self.cycle.members.values()
        lines = ["-- The one proof of the cycle: the measures, and what each member's module shows. Assumes nothing."]
        lines += ['mod Measures', *(f'mod {self.module_of(member)}' for member in members)]
        lines += needed_uses(self.cycle.uses, 'statement close')
        lines += ['use Measures.{' + ', '.join(f'μ-{member.dashed}' for member in members) + '}']
        lines += [f'use {self.module_of(member)}.{{{member.dashed}-met}}' for member in members]
        parts = [f'μ-{member.dashed}' for member in members] + [f'{member.dashed}-met' for member in members]
        name = self.cycle.statement
        return '\n'.join(lines) + f'\n\npub {name} : {{M : Type 1}} → statement M\n{name} = close {" ".join(parts)}\n'


def find_cycle(log, answers):
    """The cycle that the log offers a proof for and that the answers are about."""
    complaints = ['the log offers no proof of the cycle of ' + ', '.join(answers.members)]
    for path, text in offered_files(log).items():
        members = Path(path).parent.name.split('+')[1:]
        without_section = [member for member in members if member not in answers.members]
        no_members = [member for member in answers.members if member not in members]
        if members and not without_section and not no_members:
            return read_cycle(path, text)
        if members:
            complaints.append(f'  but of one where {", ".join(without_section) or "nothing"} is more '
                              f'and {", ".join(no_members) or "nothing"} is missing')
    raise TextError('\n'.join(complaints))


def unused_names(uses, texts):
    """The names in `use` lines, each with its module, that none of the texts uses."""
    used = {use for text in texts for use in named(read_uses(text))}
    return [use for use in named(uses) if use not in used]


def named(uses):
    """Each name of `use` lines with its module."""
    return [(module, name) for module, names, alias in uses for name in names or [alias]]


def main():
    parser = argparse.ArgumentParser(description=__doc__, formatter_class=argparse.RawDescriptionHelpFormatter)
    parser.add_argument('log', type=Path, metavar='LOG', help='what `rt dev NAME` printed')
    parser.add_argument('generated', type=Path, metavar='GENERATED', help='the folder of `rt dev NAME --generated`')
    parser.add_argument('answers', type=Path, metavar='ANSWERS', help='the answers, as tools/answers/tree.answers')
    parser.add_argument('--into', type=Path, metavar='FOLDER', help='write to this folder, not to where the log says')
    options = parser.parse_args()
    try:
        answers = Answers(options.answers.read_text())
        cycle = find_cycle(options.log.read_text(), answers)
        writer = Writer(cycle, options.generated, answers)
        folder = options.into or cycle.path.parent
        modules = dict(writer.modules())
    except TextError as error:
        sys.exit(f'{options.answers}: {error}')
    (folder / 'Proof').mkdir(parents=True, exist_ok=True)
    for name, text in modules.items():
        (folder / 'Proof' / f'{name}.antt').write_text(text)
    (folder / 'Proof.antt').write_text(writer.closing_module())
    print(f'wrote {len(modules) + 1} modules below {folder}')
    complaints = [f'no answer: {need}' for need in writer.unanswered]
    complaints += [f'answers nothing: {line}' for line in answers.unused()]
    complaints += [f'used by no module: {name} of {module}' for module, name in unused_names(answers.uses, modules.values())]
    print('\n'.join(complaints), end='\n' if complaints else '')
    sys.exit(1 if complaints else 0)


if __name__ == '__main__':
    main()
