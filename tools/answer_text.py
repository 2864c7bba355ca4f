"""The text in which people write a cycle's answers: its abbreviations, its sections and their lines.

    use MODULE.{names}              every name that an answer may use; each module keeps those that it needs
    let tree = (@args .tree .now)   an abbreviation, written $tree where it is meant, ${tree} before a dash
    let call(less, ready) = ($less, $ready)    one with parameters, written $call(omega arith, $tree)
    shape loop(step)                lines for several members, taken over by `like loop(walk-expr)`
    every member                    lines for all members
    member walk_array in Array      a member of the cycle, and the module that its proof is written to

Below `shape`, `every member` and `member` stand, indented, further `let` lines, which hold there only (as does $member, the
member's name), and

    about: TEXT                     the first line of the module
    measure: TEXT                   the member's measure
    NEEDS: ANSWER                   the answer for all of these needs: names with commas between them, `*` for any letters
    invariant LOOP: TEXT            what holds in a loop, and
    measure LOOP: TEXT              its measure
    unfolding NAMES: NEEDS          the answers for these needs open these definitions
    like SHAPE(TEXT, ..)            the lines of a shape

The first line that fits a need answers it: the member's own, then those of the shapes it is like, then those of every member.
An `unfolding` line below a member holds for its own lines and those of its shapes, one below `every member` for the lines there.
A line that is indented deeper goes on with the line before it; `#` starts a comment line. In an answer `@THING` is what is
known as THING at that place, however far back, and `.1^3` is `.1 .1 .1`.
"""

import re
from dataclasses import dataclass, field
from fnmatch import fnmatchcase

from prune import read_uses

NAME = r'[A-Za-z][\w-]*'
MEANT = re.compile(rf'\$(?:(?P<name>{NAME})|{{(?P<braced>{NAME})}})')
OPENING, CLOSING = '([{', ')]}'


class TextError(Exception):
    """The answers' text can't be read so."""


# Abbreviations

@dataclass
class Abbreviation:
    """What a `let` line says: its parameters, its text, and the scope whose names the text sees."""

    parameters: list
    text: str
    scope: 'Scope'


@dataclass
class Scope:
    """Abbreviations by name, and the scope around them."""

    around: 'Scope' = None
    own: dict = field(default_factory=dict)

    def define(self, name, parameters, text):
        if name in self.own:
            raise TextError(f'${name} is said twice')
        self.own[name] = Abbreviation(parameters, text, self)

    def find(self, name):
        if name in self.own:
            return self.own[name]
        if self.around is None:
            raise TextError(f'nothing is called ${name}')
        return self.around.find(name)

    def inside(self, parameters, texts):
        """A scope in this one where each parameter stands for its text."""
        scope = Scope(self)
        for parameter, text in zip(parameters, texts, strict=True):
            scope.define(parameter, [], text)
        return scope


def split_at_commas(text):
    """The parts of a text between the commas that stand in no parenthesis."""
    parts, depth, start = [], 0, 0
    for place, letter in enumerate(text):
        depth += (letter in OPENING) - (letter in CLOSING)
        if letter == ',' and depth == 0:
            parts.append(text[start:place].strip())
            start = place + 1
    return [*parts, text[start:].strip()] if text.strip() else []


def closing_place(text, start):
    """Where the parenthesis closes that opens at the start."""
    depth = 0
    for place in range(start, len(text)):
        depth += (text[place] in OPENING) - (text[place] in CLOSING)
        if depth == 0:
            return place
    raise TextError('a parenthesis is not closed: ' + text[start:start + 60])


def expand(text, scope):
    """The text with what is meant put in for each $NAME and $NAME(TEXT, ..)."""
    out, place = [], 0
    while found := MEANT.search(text, place):
        out.append(text[place:found.start()])
        place = found.end()
        name = found['name'] or found['braced']
        meant = scope.find(name)
        texts = []
        if meant.parameters and text[place:place + 1] == '(':
            end = closing_place(text, place)
            texts = [expand(part, scope) for part in split_at_commas(text[place + 1:end])]
            place = end + 1
        if len(texts) != len(meant.parameters):
            raise TextError(f'${name} is given {len(texts)} texts and wants {len(meant.parameters)}')
        out.append(expand(meant.text, meant.scope.inside(meant.parameters, texts)))
    return ''.join(out) + text[place:]


def repeat_projections(text):
    """`.1^3` written out."""
    return re.sub(r' (\.\d)\^(\d+)', lambda found: f' {found.group(1)}' * int(found.group(2)), text)


# Sections

@dataclass
class Section:
    """What stands below `shape`, `every member` or `member`."""

    title: str
    parameters: list
    module: str = None
    lets: list = field(default_factory=list)         # of (name, parameters, text)
    answers: list = field(default_factory=list)      # of (needs, text)
    unfoldings: list = field(default_factory=list)   # of (needs, definitions)
    likes: list = field(default_factory=list)        # of (shape, texts)

    def scope(self, around, texts):
        """The scope of its lines where these texts are given for its parameters."""
        if len(texts) != len(self.parameters):
            raise TextError(f'{self.title} is given {len(texts)} texts and wants {len(self.parameters)}')
        scope = Scope(around.inside(self.parameters, texts))
        for name, parameters, text in self.lets:
            scope.define(name, parameters, text)
        return scope


@dataclass
class Answer:
    """An answer with all abbreviations put in, and the definitions that it opens."""

    text: str
    unfolding: str


def fits(need, patterns):
    """Is the need one of these? What is no need (`about`, `measure`, ..) is found by its own name only."""
    return any(need == pattern or (not is_said(need) and fnmatchcase(need, pattern)) for pattern in split_at_commas(patterns))


def is_said(key):
    """Is this the key of something that a section says beside its answers?"""
    return key == 'about' or re.match(r'(measure|invariant)\b(?!-)', key) is not None


class Answers:
    """All that a cycle's answers say."""

    def __init__(self, text):
        self.uses = []
        self.scope = Scope()
        self.shapes = {}
        self.members = {}
        self.every = Section('every member', [])
        self.section = None
        self.used = set()
        for line in logical_lines(text):
            try:
                self.read_inner(line.strip()) if line.startswith(' ') else self.read_outer(line)
            except TextError as error:
                raise TextError(f'{error}\n  in the line: {line.strip()}') from None

    def read_outer(self, line):
        """A line that is not indented."""
        self.section = None
        if line.startswith('use '):
            self.uses += read_uses(line + '\n')
        elif line.startswith('let '):
            self.scope.define(*read_let(line))
        elif line == 'every member':
            self.section = self.every
        elif found := re.fullmatch(rf'shape ({NAME})\((.*)\)', line):
            self.section = self.shapes[found.group(1)] = Section(f'shape {found.group(1)}', split_at_commas(found.group(2)))
        elif found := re.fullmatch(r'member (\w+) in (\w+)', line):
            self.section = self.members[found.group(1)] = Section(f'member {found.group(1)}', [], found.group(2))
        else:
            raise TextError('this is none of: use, let, shape, every member, member')

    def read_inner(self, line):
        """A line of a section."""
        if line.startswith('let '):
            self.section.lets.append(read_let(line))
        elif found := re.fullmatch(rf'like ({NAME})\((.*)\)', line):
            self.section.likes.append((found.group(1), split_at_commas(found.group(2))))
        elif found := re.fullmatch(r'unfolding ([^:]+): (.+)', line):
            self.section.unfoldings.append((found.group(2), found.group(1)))
        elif found := re.fullmatch(r'([^:]+): (.+)', line):
            self.section.answers.append(found.groups())
        else:
            raise TextError('this is none of: let, like, unfolding NAMES: NEEDS, NEEDS: ANSWER')

    def sections_for(self, member):
        """The sections that answer for a member, each with its scope: its own with the shapes it is like, then that of all."""
        own = self.members[member]
        around = self.scope.inside(['member'], [member])
        scope = own.scope(around, [])
        sections = [(own, scope)]
        for name, texts in own.likes:
            if name not in self.shapes:
                raise TextError(f'no shape is called {name}')
            sections.append((self.shapes[name], self.shapes[name].scope(around, [expand(text, scope) for text in texts])))
        return [sections, [(self.every, self.every.scope(around, []))]]

    def answer(self, member, need):
        """The answer for a member's need; none if no line fits."""
        try:
            for sections in self.sections_for(member):
                for section, scope in sections:
                    for number, (patterns, text) in enumerate(section.answers):
                        if fits(need, expand(patterns, scope)):
                            self.used.add((section.title, number))
                            return Answer(repeat_projections(expand(text, scope)), unfolding_for(need, sections))
        except TextError as error:
            raise TextError(f'{error}\n  for {need} of {member}') from None
        except RecursionError:
            raise TextError(f'an abbreviation stands for itself\n  for {need} of {member}') from None
        return None

    def unused(self):
        """The lines that answered nothing."""
        return [f'{section.title}: {patterns}' for section in [self.every, *self.shapes.values(), *self.members.values()]
                for number, (patterns, _) in enumerate(section.answers) if (section.title, number) not in self.used]


def unfolding_for(need, sections):
    """The definitions that the first line for this need opens; none if there is no such line."""
    return next((expand(names, scope) for section, scope in sections for needs, names in section.unfoldings
                 if fits(need, expand(needs, scope))), '')


def logical_lines(text):
    """The lines without comments and blank ones, each with the deeper lines that go on with it."""
    lines, depth_below = [], None
    for line in text.split('\n'):
        if not line.strip() or line.lstrip().startswith('#'):
            continue
        depth = len(line) - len(line.lstrip())
        if depth == 0:
            lines.append(line.rstrip())
            # what is indented below a section's title is a line of its own
            depth_below = None if re.match(r'(shape|every|member) ', line) else 0
        elif depth_below is None or depth <= depth_below:
            lines.append(line.rstrip())
            depth_below = depth
        else:
            lines[-1] += ' ' + line.strip()
    return lines


def read_let(line):
    """The name, the parameters and the text of a `let` line."""
    found = re.fullmatch(rf'let ({NAME})(?:\(([^)]*)\))? = (.+)', line)
    if not found:
        raise TextError('a `let` line reads: let NAME = TEXT, or let NAME(PARAMETER, ..) = TEXT')
    return found.group(1), split_at_commas(found.group(2) or ''), found.group(3)
