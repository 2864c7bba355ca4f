#!/usr/bin/env python3
"""Counts the places of docs/DESIGN-PASS.md in crates/*/src. usage: python3 tools/places.py [-v POINT] [FOLDER]

A line of code is one that is no comment, no `ghost use` and no text of a clause. Each row of ROWS is a sub-point: its number, what it is, the
expression that its lines match, and one that they must not match. `-v 3.1` lists the lines. FOLDER is a checkout, this one if left out."""
import glob
import itertools
import pathlib
import re
import sys

FN = r'^ *(pub )?(extern "C" )?fn '
ENUM = r'^(pub )?(enum|struct) '
LIKE_RESULT = 'Written|Kept|Found|FoundCapture|Next|Held|Resolved|Step|Walked|Specs|FirstWalk|Used|Reading|Replay'
ROWS = [
    ('1.1', 'own enums shaped like Option or Result', rf'^(pub )?enum ({LIKE_RESULT}) ', None),
    ('1.1b', 'lines that make or match one of those', rf'\b({LIKE_RESULT})::[A-Z]', ': use '),
    ('1.2', 'flags with a value beside', r'(has_name|is_record|in_object|analyzed): bool,$', None),
    ('1.3', 'a made-up place or count handed over with a refusal', r'(walked_to|specs_to)\(opened, 0', None),
    ('1.3a', 'the greatest number for none (`NEVER`)', 'NEVER', '^use |::NEVER;$'),
    ('1.4a', 'refusals made from a number', r'Refused\([0-9]+', None),
    ('1.4b', 'types and signatures with a refusal as a bare number', r'Refused\(u32|number: u32', None),
    ('1.4c', 'diagnostic codes and kinds of bad places as numbers at a call', r'report\(.*Level::[A-Za-z]+, [0-9]+|bad_place\(.*, at, [0-9]', None),
    ('1.4d', 'the same as parameters', r'code: u32|bad: u32', None),
    ('1.4f', 'self, super and $ as a number', r'which: u32|match which|2 <= which|which == |3 \+ which|let which', None),
    ('1.4g', 'marks as constants', r'^(pub )?const [A-Z]+: u32 = 0x', None),
    ('1.4k', "numbers of the system's errors as own constants", r'^const E[A-Z]+: i32', None),
    ('1.5', 'enums without PartialEq, Eq and Debug', None, None),
    ('1.6a', 'let-else that hands a refusal on', r'^ *let (Step|Walked|Specs|FirstWalk|Written|Resolved|Held)::.* else \{$', None),
    ('1.6b', 'arms that hand a refusal on', r'(Refused\([a-z]+(, [a-z]+)?\)|NoRoom) => (Step|Walked|Specs|Written|FirstWalk)::(Refused|NoRoom)', None),
    ('1.6c', 'arms in a loop that return the same refusal', r'return (Step|Walked|Specs|FirstWalk)::Refused\([a-z]+, [a-z]+\);$', None),
    ('1.6e', 'calls of conversions of answers', r'(walked_to|specs_to|none_kept|walked_past)\(', r'\bfn '),
    ('2.1', 'functions that stand in two crates or for two item types', FN + r'(wide|lower|higher|zero_bytes|zero_numbers|read_full|read_some|say|told|members|flag|bit|new_local|new_external)[(<]', r'met: &mut'),
    ('3.1', 'while loops', '^ *while ', None),
    ('3.2', 'of these with a counter that goes up or down by one', None, None),
    ('4.1', 'equality by hand', FN + r'(same|is_first_slot|same_bytes|zero_from|all_zero|is_at)\(', None),
    ('4.2', 'min and max by hand', FN + r'(lower|higher)\(', None),
    ('4.3', 'a struct copied, then fields set', r'let mut (after|clean|entered|below|used|referenced|done|fresh|quiet) = (st|here|l|run);', None),
    ('4.4', 'conversions by hand', FN + r'(walked_to|specs_to|none_kept|walked_past|wide|slot_kind|slot_number|slot_of|level_number|flag|errored_number|bit|first_mark|first_number|whole_number|told)\(', r'met: &mut'),
    ('5.1', 'the six buffers as parameters of their own', None, None),
    ('5.2', 'functions with ten or more parameters', None, None),
    ('6.2', 'parallel arrays', r'fn (index|deepen|arrange|show_lines)\(.*', None),
    ('7.1', '`LoopKind`, a switch on which loop to run', 'LoopKind', '^use '),
]


def code_lines(folder):
    """The lines of code, as (file, number, text)."""
    for path in sorted(glob.glob(f'{folder}/crates/*/src/*.rt')):
        clause = 0
        for number, line in enumerate(open(path), 1):
            line = line.rstrip('\n')
            if re.match(r' *//|ghost use', line):
                continue
            if clause > 0 or re.match(r' *(requires|ensures)\b', line):
                clause += line.count('{') - line.count('}')
                continue
            yield path, number, line


def functions(folder):
    """Each function's head, as (file, line, parameters)."""
    for path in sorted(glob.glob(f'{folder}/crates/*/src/*.rt')):
        text = open(path).read()
        for match in re.finditer(r'^ *(?:pub )?(?:extern "C" )?fn \w+(?:<[^>]*>)?\(', text, re.M):
            depth, at = 1, match.end()
            while depth:
                depth += (text[at] in '([') - (text[at] in ')]')
                at += 1
            inner = re.sub(r'\([^()]*\)|<[^<>]*>', '', text[match.end():at - 1])
            parameters = [p for p in inner.split(',') if p.strip()]
            yield path, text[:match.start()].count('\n') + 1, match.group().strip(), parameters


def bare_enums(folder):
    for path in sorted(glob.glob(f'{folder}/crates/*/src/*.rt')):
        derived = ''
        for number, line in enumerate(open(path), 1):
            if line.startswith('#[derive'):
                derived = line
            elif re.match(r'(pub )?enum ', line):
                if 'PartialEq' not in derived:
                    yield path, number, line.rstrip()
                derived = ''
            elif line.strip():
                derived = ''


def counting_loops(folder):
    """The while loops whose condition has a variable that the body counts by one."""
    for path in sorted(glob.glob(f'{folder}/crates/*/src/*.rt')):
        lines = open(path).read().split('\n')
        for number, line in enumerate(lines):
            head = re.match(r'( *)while (.*) \{$', line)
            if not head:
                continue
            body = itertools.takewhile(lambda l: l != head.group(1) + '}', lines[number + 1:])
            counted = {m.group(1) for l in body for m in [re.match(r' *(\w+) [+-]= 1;', l)] if m}
            if counted & set(re.findall(r'\w+', head.group(2))):
                yield path, number + 1, line


def of(row, folder):
    name, _, wanted, unwanted = row
    if name == '1.5':
        return list(bare_enums(folder))
    if name == '3.2':
        return list(counting_loops(folder))
    if name == '5.1':
        return [(p, n, h) for p, n, h, ps in functions(folder)
                if {'out', 'diagnostics', 'locals', 'frames', 'captures', 'references'} <= {x.split(':')[0].strip() for x in ps}]
    if name == '5.2':
        return [(p, n, f'{h} {len(ps)}') for p, n, h, ps in functions(folder) if len(ps) >= 10]
    return [(p, n, l) for p, n, l in code_lines(folder)
            if re.search(wanted, l) and not (unwanted and re.search(unwanted, l))]


def main(arguments):
    shown = arguments[arguments.index('-v') + 1] if '-v' in arguments else None
    rest = [a for a in arguments if a not in ('-v', shown)]
    folder = rest[0] if rest else pathlib.Path(__file__).resolve().parent.parent
    for row in ROWS:
        places = of(row, folder)
        print(f'{row[0]:5} {len(places):4}  {row[1]}')
        if row[0] == shown:
            for path, number, line in places:
                print(f'        {pathlib.Path(path).relative_to(folder)}:{number}: {line.strip()}')


if __name__ == '__main__':
    main(sys.argv[1:])
