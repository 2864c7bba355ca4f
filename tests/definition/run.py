#!/usr/bin/env python3
"""Has the checker compute our definition of document 01 on stored cases, and compares every number of the answer.

A case is a line of 21 words: L F C R, the lengths of the tables of locals, frames, captures and references in
numbers, the lengths of the output and the diagnostics buffer in bytes, the tree in hex; then the answer: number,
place, output in hex, diagnostics in hex, errored, rounds, object depth, local depth, greatest local depth; and
where the answer is from (0 the Rust, 1 the model, 2 a hand). `-` stands for no bytes.

The definition is copied to a temporary folder, where the cases become theorems that hold by computing alone.
Exit status: 0 all agree (--selftest: every alteration is noticed), 1 not, 2 the checker could not tell.
"""

import argparse
import hashlib
import re
import shutil
import subprocess
import sys
import tempfile
import time
from collections import Counter
from dataclasses import dataclass, replace
from pathlib import Path

REPOSITORY = Path(__file__).resolve().parents[2]
DEFINITION = REPOSITORY / "crates" / "rules"
CASES = REPOSITORY / "tests" / "stored" / "definition.txt"
ORIGINS = {"0": "Rust", "1": "model", "2": "hand"}

# what the checker says of a theorem that does not hold
NOT_EQUAL = re.compile(r".*Stored\.antt:\d+:\d+: error: `([^`]+)`: .*(the two types|expected type)")

# the parts of an answer, and where the definition's answer has them
PARTS = {
    "number": ".report.number",
    "place": ".report.place",
    "out": ".out",
    "out_length": ".report.out_length",
    "diagnostics": ".diagnostics",
    "diagnostics_length": ".report.diagnostics_length",
    "errored": ".report.errored",
    "rounds": ".report.rounds",
    "object_depth": ".report.depths.object_dependent_depth",
    "local_depth": ".report.depths.local_dependent_depth",
    "greatest_local_depth": ".report.depths.local_dependent_depth_max",
}

HEAD = """-- Generated: stored cases as theorems.
use Rattle.std.specs.Prelude.{ℕ, Bool, true, false, replicate}
use mathlib.Core.List.{List, [], ◌∷◌, map}
use mathlib.Core.Path.{◌≡◌, refl}
use Rattle.rules.specs.Depths.{AnalysisResult}
use Rattle.rules.specs.Call.{Lent, AnalysisReport}
use Rattle.rules.specs.Cases.{Case, Answer, answered}
use Rattle.rules.proofs.Computing.{everything}

unfoldable pub lent : (L F C R locals frames captures references out diagnostics : ℕ) → List ℕ → Lent
lent L F C R locals frames captures references out diagnostics tree = record {
  tree = tree;
  out = replicate out 0;
  diagnostics = replicate diagnostics 0;
  locals = replicate locals 0;
  frames = replicate frames 0;
  captures = replicate captures 0;
  references = replicate references 0;
  max_locals = L;
  max_frames = F;
  max_captures = C;
  max_references = R;
}

unfoldable pub answer : (number place : ℕ) → (out : List ℕ) → ℕ → (diagnostics : List ℕ) → ℕ → Bool → (rounds object local most : ℕ) → Answer
answer number place out out_length diagnostics diagnostics_length errored rounds object local most = record {
  report = record {
    number = number;
    place = place;
    out_length = out_length;
    diagnostics_length = diagnostics_length;
    errored = errored;
    rounds = rounds;
    depths = record { object_dependent_depth = object; local_dependent_depth = local; local_dependent_depth_max = most };
  };
  out = out;
  diagnostics = diagnostics;
}
"""


@dataclass(frozen=True)
class Case:
    line: int
    lent: tuple  # the ten numbers
    tree: bytes
    answer: dict  # from each of PARTS to a number, a Bool or bytes
    origin: str

    def number(self):
        return self.answer["number"]


# Reading


def bytes_of(word):
    return b"" if word == "-" else bytes.fromhex(word)


def case_of(line, text):
    words = text.split()
    if len(words) != 21:
        raise ValueError(f"line {line} has {len(words)} words, not 21")
    number, place, errored, rounds, *depths = (int(words[i]) for i in (11, 12, 15, 16, 17, 18, 19))
    out, diagnostics = bytes_of(words[13]), bytes_of(words[14])
    lengths = len(out), len(diagnostics)
    values = (number, place, out, lengths[0], diagnostics, lengths[1], errored == 1, rounds, *depths)
    answer = dict(zip(PARTS, values, strict=True))
    return Case(line, tuple(int(w) for w in words[:10]), bytes_of(words[10]), answer, words[20])


def cases_in(text):
    cases = [case_of(n, line) for n, line in enumerate(text.splitlines(), 1) if line.strip()]
    if not cases:
        raise ValueError("the file has no cases")
    return cases


# Writing theorems


def literal(value):
    if isinstance(value, bool):
        return "true" if value else "false"
    if isinstance(value, bytes):
        return "(" + "".join(f"{byte} ∷ " for byte in value) + "[])"
    return str(value)


def words_of(values):
    return " ".join(literal(value) for value in values)


def name_of(case):
    return f"line_{case.line}"


def case_lines(case):
    lent = f"lent {words_of(case.lent)} {literal(case.tree)}"
    answer = f"answer {words_of(case.answer.values())}"
    name = name_of(case)
    return f"\nunfoldable pub {name} : Case\n{name} = record {{ lent = {lent}; answer = {answer} }}\n"


def theorem(name, statement, opened):
    return f"\npub {name} : {statement}\nunfolding everything lent answer {opened}\n{name} = refl\n"


def batch_lines(batch, name):
    """One theorem for a whole batch: every answer is the stored one."""
    names = [name_of(case) for case in batch]
    table = f"\nunfoldable pub {name}_cases : List Case\n{name}_cases = {' ∷ '.join(names)} ∷ []\n"
    statement = f"map answered {name}_cases ≡ map (λ c. c.answer) {name}_cases"
    opened = f"{name}_cases {' '.join(names)}"
    return "".join(map(case_lines, batch)) + table + theorem(name, statement, opened)


def part_lines(case):
    """One theorem for each part of one answer."""
    name = name_of(case)
    theorems = (
        theorem(f"{name}_{part}", f"(answered {name}){path} ≡ {literal(case.answer[part])}", name)
        for part, path in PARTS.items()
    )
    return case_lines(case) + "".join(theorems)


# The checker


class CheckerFailed(Exception):
    """The checker said something else than which theorems hold."""


class Checker:
    """A copy of the definition in a folder of its own, and the command that checks it."""

    def __init__(self, folder, rt):
        self.folder, self.rt = folder, rt
        crate = folder / "crates" / "rules"
        for part in ("specs", "src"):
            shutil.copytree(DEFINITION / part, crate / part)
        self.proofs = crate / "proofs"
        self.proofs.mkdir()
        # of the proofs only the one name that opens every definition is needed
        shutil.copy(DEFINITION / "proofs" / "Computing.antt", self.proofs)
        (self.proofs / "Lib.antt").write_text("-- Generated.\npub mod Computing\npub mod Stored\n")
        (folder / "crates.txt").write_text("rules:\n")

    def failing(self, theorems):
        """The names of those theorems that do not hold."""
        (self.proofs / "Stored.antt").write_text(HEAD + theorems)
        ran = subprocess.run([self.rt, "check"], cwd=self.proofs.parent, capture_output=True, text=True)
        said = ran.stdout + ran.stderr
        errors = [line for line in said.splitlines() if ": error: " in line]
        names = [NOT_EQUAL.match(line) for line in errors]
        passed = ran.returncode == 0 and "logic=proved" in said and not errors
        refuted = ran.returncode == 1 and "logic=not-proved" in said and errors and all(names)
        if not passed and not refuted:
            raise CheckerFailed(said)
        return {name.group(1) for name in names}


# Comparing


def pieces(things, size):
    return [things[i : i + size] for i in range(0, len(things), size)]


def disagreeing(checker, cases, size):
    """Those cases whose answer is another: first by batches of this size, then each case of a failed batch alone."""
    batches = {f"batch_{batch[0].line}": batch for batch in pieces(cases, size)}
    failed = checker.failing("".join(batch_lines(batch, name) for name, batch in batches.items()))
    suspects = [case for name, batch in batches.items() if name in failed for case in batch]
    if size == 1 or not suspects:
        return suspects
    alone = disagreeing(checker, suspects, 1)
    if not alone:
        raise CheckerFailed(f"a batch of {sorted(failed)} fails, but no case of it alone")
    return alone


def differing_parts(checker, cases):
    """From the line of each case to the parts of its answer that differ."""
    failed = checker.failing("".join(part_lines(case) for case in cases)) if cases else set()
    differing = {case.line: [part for part in PARTS if f"{name_of(case)}_{part}" in failed] for case in cases}
    if not all(differing.values()):
        raise CheckerFailed(f"an answer fails, but no part of it: {differing}")
    return differing


def compare(checker, cases, size, at_once):
    """From each line that differs to the parts that do."""
    found = {}
    for some in pieces(cases, at_once):
        began = time.monotonic()
        differing = differing_parts(checker, disagreeing(checker, some, size))
        for line, parts in differing.items():
            print(f"line {line} differs in: {', '.join(parts)}")
        agreed = f"{len(some) - len(differing)} of {len(some)} agree"
        print(f"lines {some[0].line} to {some[-1].line}: {agreed}, {time.monotonic() - began:.0f} s", flush=True)
        found |= differing
    return found


def print_counts(cases, differing):
    def tally(chosen):
        return Counter((ORIGINS[case.origin], case.number()) for case in chosen)

    agreed = tally(case for case in cases if case.line not in differing)
    for (origin, number), count in sorted(tally(cases).items()):
        kind = f"refusal {number}" if number else "accepted"
        print(f"  {origin:5} {kind:10} {agreed[origin, number]:5} of {count:5} agree")


# Altering, to see that it is noticed


def altered_value(value):
    if isinstance(value, bool):
        return not value
    if isinstance(value, bytes):
        return bytes([value[0] ^ 1]) + value[1:]
    return value + 1


def altered(case, turn):
    """The case with one number of its answer changed, and which part: another at each turn."""
    parts = list(PARTS)
    part = next(p for p in parts[turn % len(parts) :] + parts if case.answer[p] != b"")
    return replace(case, answer=case.answer | {part: altered_value(case.answer[part])}), part


def spread(cases, count):
    """So many cases from all over."""
    return cases[:: max(1, len(cases) // count)][:count]


def selftest(checker, cases, size, at_once):
    """Every second case is altered: those, and no others, must be reported, each with the part that was altered."""
    # with diagnostics no part of the answer is empty, so that each part has its turn
    accepted = spread([case for case in cases if case.answer["diagnostics"]], 2 * len(PARTS))
    refused = spread([case for case in cases if case.number()], 8)
    tried, expected = [], {}
    for turn, case in enumerate(accepted + refused):
        if turn % 2:
            case, part = altered(case, turn // 2)
            expected[case.line] = [part]
        tried.append(case)
    found = compare(checker, tried, size, at_once)
    noticed = sum(found.get(line) == parts for line, parts in expected.items())
    print(f"{len(expected)} of {len(tried)} cases altered, {noticed} noticed, {len(found.keys() - expected.keys())} others reported")
    return found == expected


# The command


def arguments():
    parser = argparse.ArgumentParser(description=__doc__, formatter_class=argparse.RawDescriptionHelpFormatter)
    parser.add_argument("cases", nargs="?", type=Path, default=CASES, help="the file of cases (default: tests/stored/definition.txt)")
    parser.add_argument("--batch", type=int, default=20, metavar="N", help="cases in one theorem (default: 20)")
    parser.add_argument("--at-once", type=int, default=200, metavar="N", help="cases in one run of the checker (default: 200)")
    parser.add_argument("--rt", default="rt", metavar="COMMAND", help="the command that checks a crate (default: rt)")
    parser.add_argument("--selftest", action="store_true", help="alter one number in some of the cases and see that just these are reported")
    return parser.parse_args()


def main():
    given = arguments()
    content = given.cases.read_bytes()
    cases = cases_in(content.decode())
    print(f"{len(cases)} cases, sha256 of the file {hashlib.sha256(content).hexdigest()[:16]}", flush=True)
    began = time.monotonic()
    with tempfile.TemporaryDirectory(prefix="definition-") as folder:
        checker = Checker(Path(folder), given.rt)
        if given.selftest:
            return 0 if selftest(checker, cases, given.batch, given.at_once) else 1
        differing = compare(checker, cases, given.batch, given.at_once)
    print(f"{len(cases) - len(differing)} of {len(cases)} cases agree, {time.monotonic() - began:.0f} s")
    print_counts(cases, differing)
    return 1 if differing else 0


if __name__ == "__main__":
    try:
        sys.exit(main())
    except CheckerFailed as failure:
        print(f"the checker could not tell:\n{failure}", file=sys.stderr)
        sys.exit(2)
