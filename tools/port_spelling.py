#!/usr/bin/env python3
"""Brings this repository's own names to the spelling of today's Rattle. Run once, at the top, after port.py and before any edit by hand.

- A definition, lemma, field or variable of our own that is written with dashes gets underscores; names of the library and names that Rattle
  makes keep theirs. With --list nothing is written: it lists the names, and those that fall together.
- In clauses `was x`, `is x`, `held ..`, `before ..` and `after ..` become `x.now`, `x.old`, `x.new` and `buffers ..` of them.
  (The abbreviations over lent slices that those were are gone from state's Seen.antt.)
- What a struct's depths mean was called `result`, which is a word of clauses now: it is called `result_of`.
- The two cycles get short names, and each crate's root file asks for tactics.
"""
import collections
import glob
import os
import re
import sys

TOKEN = re.compile(r"[^\s(){}\[\];,.:«»@λ→×≡`'\"/|]+(?:'+)?")
APART = {"bit-or": "or_bit"}  # where the plain new name is another one already
CYCLES = {"walk_array_walk_bind": "first_walk", "analyze_on_array": "analysis"}


def own_crates():
    return sorted(p.split("/")[1] for p in glob.glob("crates/*/src"))


def antt_files():
    return sorted(glob.glob("crates/*/specs/**/*.antt", recursive=True) + glob.glob("crates/*/proofs/**/*.antt", recursive=True))


def is_shared(path):
    """Whether a file holds definitions or lemmas, and is no proof of one function."""
    parts = path.split("/")
    return parts[2] == "specs" or len(parts) == 4


def library_names(text, crates):
    """The dashed names that the file takes from the library, and the aliases of the library's modules."""
    names, aliases = set(), set()
    for line in re.findall(r"(?m)^\s*(?:pub )?(?:ghost )?use ([^\n;]+)", text):
        head = line.split()[0]
        parts = head.split(".")
        if parts[0] == "Rattle" and len(parts) > 1 and parts[1] in crates and ".declared." not in head:
            continue
        if parts[0] not in ("Rattle", "std", "borrow", "base", "mathlib", "native", "lib", "Prim", "denote", "contract", "mir", "types", "prog"):
            continue
        inside = re.search(r"\{([^}]*)\}", line)
        for it in (inside.group(1).split(",") if inside else []):
            names |= {w for w in it.split() if w != "as"}
        alias = re.search(r" as (\S+)$", line)
        if alias:
            aliases.add(alias.group(1))
    return names, aliases


def code_of(line):
    """The line's code and its comment."""
    m = re.search(r"(^|\s)--(\s|$)", line)
    return (line[: m.start()], line[m.start() :]) if m else (line, "")


def dashed(token):
    return "-" in token.strip("-") and re.match(r"[^\W\d_+]", token) and "◌" not in token


def new_name(t):
    """Words and lemmas in snake case, types in camel case."""
    if t in APART:
        return APART[t]
    if t[0].isupper():
        return "".join(w[:1].upper() + w[1:] for w in t.split("-"))
    return t.replace("-", "_")


def own_names(crates):
    found = collections.Counter()
    for path in filter(is_shared, antt_files()):
        text = open(path, encoding="utf-8").read()
        kept, _ = library_names(text, crates)
        for line in text.split("\n"):
            if re.match(r"\s*(pub )?use (?!Rattle\.)", line):
                continue
            for t in TOKEN.findall(code_of(line)[0]):
                if dashed(t) and t not in kept:
                    found[t] += 1
    return found


def respell(text, own, kept, aliases, comments="`"):
    def one(m):
        t = m.group(0)
        if t not in own or t in kept:
            return t
        before = m.string[: m.start()]
        q = re.search(r"([^\s(){}.,]+)\.$", before)
        if q and q.group(1) in aliases:
            return t
        return new_name(t)

    lines = []
    for line in text.split("\n"):
        code, note = code_of(line)
        note = re.sub(r"`[^`]*`", lambda q: TOKEN.sub(one, q.group(0)), note)
        lines.append(TOKEN.sub(one, code) + note)
    return "\n".join(lines)


CLAUSE = re.compile(r"(?m)^    (requires|ensures)(\*?)( \w+)? \{")


def clause_spans(text):
    for m in CLAUSE.finditer(text):
        depth, i = 1, m.end()
        while depth:
            depth += {"{": 1, "}": -1}.get(text[i], 0)
            i += 1
        yield m.start(), m.end(), i


def lent_word(name, which, signature):
    name = name.strip()
    m = re.fullmatch(r"\(unchanged (\w+)\)", name)
    if m:
        return m.group(1) + ".now"
    if not re.search(rf"\b{name}: &mut\b", signature):
        return name + ".now"
    return f"{name}.{which}"


SIX = r"((?: (?:\w+|\(unchanged \w+\))){6})"


def turn_clause(text, signature):
    text = re.sub(r"\s*\n\s*", " ", text)
    for word, which in (("held", "old"), ("before", "old"), ("after", "new")):
        text = re.sub(rf"\b{word}{SIX}(?![\w.])", lambda m: "buffers " + " ".join(lent_word(n, which, signature) for n in re.findall(r"\(unchanged \w+\)|\w+", m.group(1))), text)
    for word, which in (("was", "old"), ("is", "new")):
        text = re.sub(rf"\({word} (\w+)\)", lambda m: lent_word(m.group(1), which, signature), text)
        text = re.sub(rf"(?<![\w.]){word} (\w+)", lambda m: lent_word(m.group(1), which, signature), text)
    return text


def wrapped(text, width=118):
    """A clause on lines that fit, broken between words."""
    if len(text) <= width:
        return text
    lines, line = [], ""
    for word in text.split(" ")[4:]:
        pad = "    " if not lines else "        "
        if line and len(pad + line + " " + word) > width:
            lines.append(pad + line)
            line = word
        else:
            line = (line + " " + word).strip()
    lines.append(("        " if lines else "    ") + line)
    return "\n".join(lines)


def turn_source(text, own, kept, aliases):
    out, last = [], 0
    for start, opened, end in clause_spans(text):
        signature = text[text.rfind("fn ", 0, start) : start]
        clause = text[start:end]
        star = re.match(r"(    ensures)\*((?: \w+)? \{) λ (\w+)\. ⌜ (.*) ⌝ \}$", clause, re.S)
        if star:
            head, label, name, body = star.groups()
            body = re.sub(r"(?<![\w.-])result(?![\w-])", "result_of", body)
            body = re.sub(rf"(?<![\w.-]){name}(?![\w-])", "result", body)
            clause = f"{head}{label} {body} }}"
        clause = turn_clause(clause, signature)
        clause = TOKEN.sub(lambda m: new_name(m.group(0)) if m.group(0) in own and m.group(0) not in kept else m.group(0), clause)
        out += [text[last:start], wrapped(clause)]
        last = end
    text = "".join(out) + text[last:]

    def use(m):
        line = m.group(0)
        if line.startswith("ghost use Rattle.value_depths.specs.Meaning"):
            line = re.sub(r"(?<=[{ ])result(?=[,}])", "result_of", line)
        if line.startswith("ghost use Rattle.state.specs.Seen"):
            inside = re.search(r"\{([^}]*)\}", line).group(1)
            names = [n for n in inside.split(", ") if n not in ("was", "is", "held", "before", "after", "unchanged")]
            if "buffers " in text and "buffers" not in names:
                names.append("buffers")
            if not names:
                return ""
            line = line.replace(inside, ", ".join(names))
        return TOKEN.sub(lambda t: new_name(t.group(0)) if t.group(0) in own and t.group(0) not in kept else t.group(0), line)

    text = re.sub(r"(?m)^ghost use [^\n]*;\n", lambda m: use(m), text)
    return re.sub(r"`[^`\n]*`", lambda q: TOKEN.sub(lambda t: new_name(t.group(0)) if t.group(0) in own else t.group(0), q.group(0)), text)


def short_cycles(text):
    for head, name in CYCLES.items():
        text = re.sub(rf"(?<=cycle\(){head}\w*(?=\))|(?<=\+){head}\w*", name, text)
    return text


def with_tactics(text):
    if "#![tactic" in text:
        return text
    lines = text.split("\n")
    i = 0
    while i < len(lines) and lines[i].startswith("//"):
        i += 1
    return "\n".join(lines[:i] + (["", "#![tactic(auto)]", ""] if i else ["#![tactic(auto)]", ""]) + lines[i:])


def without_lent(text):
    """Seen.antt without the abbreviations that clauses now say by `.old` and `.new`."""
    a, b = text.index("-- The same in a contract: what"), text.index("-- the rules' state that they hold")
    text = text[:a] + text[b:]
    return re.sub(r"use (Rattle\.std\.specs\.Borrow\.\{Bor\}|denote\.Triple\.Both\.\{Both\})\n", "", text)


def main():
    crates = set(own_crates())
    own = set(own_names(crates))
    if "--list" in sys.argv:
        every = collections.Counter()
        for path in antt_files() + sorted(glob.glob("crates/*/src/**/*.rt", recursive=True)):
            text = open(path, encoding="utf-8").read()
            for t in TOKEN.findall(text):
                every[t] += 1
        print(len(own), "names")
        for t in sorted(own):
            if new_name(t) in every:
                print("together:", t, every[t], new_name(t), every[new_name(t)])
        print(" ".join(sorted(own)))
        return
    for path in antt_files():
        text = open(path, encoding="utf-8").read()
        kept, aliases = library_names(text, crates)
        new = respell(text, own, kept, aliases)
        if "Rattle.value_depths.specs.Meaning.{" in new and re.search(r"Rattle\.value_depths\.specs\.Meaning\.\{[^}]*\bresult\b", new) or path == "crates/value_depths/specs/Meaning.antt":
            new = "\n".join(re.sub(r"(?<![\w.-])result(?![\w-])", "result_of", code_of(l)[0]) + code_of(l)[1] for l in new.split("\n"))
        new = short_cycles(new)
        if path == "crates/state/specs/Seen.antt":
            new = without_lent(new)
        if new != text:
            open(path, "w", encoding="utf-8").write(new)
    for folder in glob.glob("crates/*/proofs/+*"):
        if short_cycles(folder) != folder:
            os.rename(folder, short_cycles(folder))
    for path in sorted(glob.glob("crates/*/src/**/*.rt", recursive=True)):
        text = open(path, encoding="utf-8").read()
        kept, aliases = library_names(text, crates)
        new = short_cycles(turn_source(text, own, kept, aliases))
        if path.endswith(("/lib.rt", "/main.rt")):
            new = with_tactics(new)
        if new != text:
            open(path, "w", encoding="utf-8").write(new)


if __name__ == "__main__":
    main()
