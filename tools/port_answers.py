#!/usr/bin/env python3
"""Writes proofs/F/Answers.antt and Invariants.antt from a Proof.antt of the older form.

usage, in the clone (at its top):
    tools/port_answers.py CRATE [F ..]          F: function folders (put_entry, AnalysisResult/same, +first_walk); none: all
    options: --names FILE   a names.json that is at hand, in place of running `rt names` on a stripped copy (about 10 s)
             --trivial      also writes answers that are only `search rules`, `omega arith` or `refl`
             --keep         leaves Proof.antt where it is (else it is moved to out/old_proofs/F, as Rattle reads it first)
             --from COMMIT  takes Proof.antt from that commit, as HEAD, for a folder where it is gone

What it does: the goals of the old list of answers and the steps that they cite are looked up in names.json, which
`rt names` makes of each crate from its source alone (no proof is read, and libraries below it need not be proved, but their sources must
pass the borrow checker: so `#[derive(Clone, Copy)]` first). Paths `c.before.before.STEP.FIELD` become `c.NEWSTEP.FIELD`.
A function's whole first try is: this script, `rt fmt`, `rt check`. Where everything closes without the file, delete it again.

What it leaves for the hand:
  - `?STEP` in a path: no such step on the way to that goal. `rt check --only F` with the answer `let h = c in ?` prints those there.
  - `-- ? GOAL`: no such goal today; the answer stands below it, commented out.
  - joins (`elim`/`⊎_elim` over `c.if1.branch`): write `elim c.if-a-b.branch [ then-a-b w ↦ .. | else-a-b w ↦ .. ]` as the check's note prints.
  - `c.STEP.auto.1.0` becomes `c.STEP.auto.PARAM` by the callee's signature: parameters by reference in order.
  - an arm on a call's result has `.ensures`, the call's clause at that very value: `rw c.in-X.is at c.f.ensures` may be just `c.in-X.ensures`.

Cycles (`proofs/+NAME/` with modules below Proof/): one Answers.antt and one Invariants.antt of all members; goals are `MEMBER-GOAL`, answers are
`MEMBER-GOAL t c = ..`, measures `decreases-MEMBER l = ..` (l has the arguments by name), loops `invariant-MEMBER-loop-i`. The old lists of what each
member's callees ask and promise (`called`, `claims`, `.. -at`, `.. -below`) are not needed any more. Where `c` has requires of a call inside the cycle, its first
part is that the measure falls: `(omega arith, ..)` as before.
"""

import json
import os
import re
import shutil
import subprocess
import sys
import tempfile

WORD = r"[A-Za-z_μ+][\w·'₀-₉-]*"
TRIVIAL = re.compile(r"\(?\s*(search rules|omega arith|refl|cc)\s*\)?")


def norm(name):
    return name.replace("-", "_").replace("·", "")


def bare(name):
    return re.sub(r"_?\d+$", "", norm(name))


def common_names():
    kit = os.path.dirname(subprocess.run(["rt", "doc"], capture_output=True, text=True, check=True).stdout.strip())
    text = open(os.path.join(kit, "rattle/std/proofs/Common.antt"), encoding="utf-8").read()
    names = set()
    for group in re.findall(r"\{([^}]*)\}", text):
        names.update(it.strip() for it in group.split(","))
    return names


def close_of(text, at):
    """The index past the bracket that closes the one at `at`; comments are passed."""
    depth, i = 0, at
    while i < len(text):
        ch = text[i]
        if text.startswith("--", i) and (i == 0 or text[i - 1].isspace()):
            i = text.find("\n", i)
            if i < 0:
                return len(text)
        elif ch in "([{":
            depth += 1
        elif ch in ")]}":
            depth -= 1
            if depth == 0:
                return i + 1
        i += 1
    return len(text)


def arguments(text):
    """The top-level arguments at the head of `text`, each with the comment within or just behind it; ends at a closing bracket or the declaration's end."""
    out, i = [], 0
    while i < len(text):
        ch = text[i]
        if ch == "\n" and i + 1 < len(text) and not text[i + 1].isspace():
            break
        if ch.isspace():
            i += 1
        elif text.startswith("--", i):
            end = text.find("\n", i)
            end = len(text) if end < 0 else end
            said = text[i + 2 : end].strip()
            if out and out[-1][1] is None and "\n" not in text[out[-1][2] : i]:
                out[-1][1] = said
            i = end
        elif ch in ")]}":
            break
        elif ch in "([{":
            end = close_of(text, i)
            body = text[i:end]
            said = re.match(r"\(λ [^.\n]*\.[ ]*--([^\n]*)", body)
            out.append([body, said and said[1].strip(), end])
            i = end
        else:
            m = re.match(r"[^\s(){}\[\]]+", text[i:])
            out.append([m[0], None, i + m.end()])
            i += m.end()
    return [(a, b) for a, b, _ in out]


class Function:
    """What names.json says of one function."""

    def __init__(self, key, data):
        self.key, self.data = key, data
        self.stem = data["stem"]
        self.cycle = ".+" in key
        self.at = {p[0]: k for k, p in enumerate(data["places"])}
        self.goal_place = {}
        self.goals = {}
        for (old, new), (place, _) in zip(data["needs"], data["asked_at"]):
            self.goals.setdefault(norm(old), new)
            self.goal_place.setdefault(norm(old), place)

    def chain(self, place):
        while place is not None and place in self.at:
            k = self.at[place]
            yield self.data["places"][k], self.data["arms"][k]
            place = self.data["places"][k][1]

    def step(self, place, old, fields):
        """The path, after `c`, of the fields of an old step."""
        for same in (lambda a: norm(a) == norm(old), lambda a: bare(a) == bare(old)):
            best = None
            for p, arm in self.chain(place):
                for new, its, path in (arm[2] if arm else []):
                    if same(its) and path and fields[: len(path)] == path and (best is None or len(path) > best[0]):
                        best = (len(path), [arm[0], new] + fields[len(path) :])
            if best:
                return best[1]
            for p, arm in self.chain(place):
                if p[2][0] and same(p[2][0]) and not (fields and fields[0] == "given"):
                    new = p[2][1]
                    if fields and fields[0] == "rest" and arm:
                        keys = {}
                        for its in self.data["arms"]:
                            for f, o, path in its[2] if its else []:
                                if f == "is" and norm(o) == norm(old) and path and path[0].startswith("keys"):
                                    keys[int(path[0][4:])] = its[0]
                        k = len(fields) - 1 - fields[1:][::-1].index("1") if "1" in fields[1:] else 0
                        at = len(keys) - (k - 1) if k else 0
                        if at in keys:
                            return [arm[0], "not" + keys[at][2:]] + fields[k + 1 :]
                    if fields and fields[0] == "auto" and len(fields) > 1:
                        k, rest = 0, fields[1:]
                        while rest and rest[0] == "1":
                            k, rest = k + 1, rest[1:]
                        name = auto_of(p[3], k) if p[3] else None
                        return [new, "auto", name or "?" + "_".join(fields[1:])] + rest[1:]
                    if fields and fields[0] == "new" and len(fields) > 1 and fields[1] in ("0", "1") and p[3]:
                        k, rest = 0, fields[1:]
                        while rest and rest[0] == "1":
                            k, rest = k + 1, rest[1:]
                        ps = params_of(p[3].split("::")[0], p[3].split("::")[-1])
                        return [new, "new", ps[k] if k < len(ps) else "?" + "_".join(fields[1:])] + rest[1:]
                    return [new] + fields
        if fields and fields[0] == "given":
            typed = self.data["typed"][self.at[place]]
            for same in (lambda a, b: norm(a) == norm(b), lambda a, b: bare(a) == bare(b)):
                for var, step in typed:
                    if same(step, old) or same(var, old):
                        return ["type_inv", var] + fields[1:]
        return ["?" + old] + fields


SIGNATURES = {}


def signatures(top):
    for at, _, files in os.walk(os.path.join(top, "crates")):
        if "/src" not in at or not re.search(r"crates/(\w+)/src", at):
            continue
        for f in files:
            if f.endswith(".rt"):
                crate = re.search(r"crates/(\w+)/src", at)[1]
                text = open(os.path.join(at, f), encoding="utf-8").read()
                for m in re.finditer(r"\bfn (\w+)(?:<[^>]*>)?\(", text):
                    end = close_of(text, m.end() - 1)
                    ps = re.findall(r"(\w+)\s*:\s*([^,]+)", text[m.end() : end - 1])
                    SIGNATURES[(crate, m[1])] = ps


def auto_of(callee, k):
    parts = callee.split("::")
    ps = SIGNATURES.get((parts[0], parts[-1]))
    its = [n for n, t in ps or [] if t.startswith("&")]
    return its[k] if k < len(its) else None


def params_of(crate, name):
    return [n for n, _ in SIGNATURES.get((crate, name), [])]


PATH = re.compile(r"(?<![\w·'.?-])(" + WORD + r")((?:\.[\w·'?-]+)*)")


def turned(body, var, fn, place):
    """The body of an answer with today's paths. Aliases of places and of steps are put in where they are used."""
    places, steps = {var}, {}

    def path(head, fields):
        its = path_of(head, fields)
        if fn.cycle and its[:2] == ["c", "requires"] and len(its) > 2 and its[2] in ("0", "1"):
            its = ["c", "decreases"] + its[3:] if its[2] == "0" else ["c", "requires"] + its[3:]
        return its

    def path_of(head, fields):
        if head in steps:
            base = steps[head]
            if isinstance(base, list):
                return ["c"] + base + fields
            return ["c"] + fn.step(place, base, fields)
        while fields and fields[0] == "before":
            fields = fields[1:]
        if not fields:
            return ["c"]
        if fields[0] in ("args", "requires", "pre", "ranges"):
            return ["c", {"pre": "requires"}.get(fields[0], fields[0])] + fields[1:]
        return ["c"] + fn.step(place, fields[0], fields[1:])

    out, i = [], 0
    token = re.compile(r"--[^\n]*|let (" + WORD + r") = (" + WORD + r"(?:\.[\w·'-]+)*) in[ \n]*|" + PATH.pattern)
    while True:
        m = token.search(body, i)
        if not m:
            out.append(body[i:])
            break
        out.append(body[i : m.start()])
        i = m.end()
        if m[0].startswith("--"):
            out.append(m[0])
        elif m[1]:
            head, *fields = m[2].split(".")
            if head in places or head in steps:
                was = list(fields)
                if head in places:
                    while fields and fields[0] == "before":
                        fields = fields[1:]
                    if not fields:
                        places.add(m[1])
                        continue
                    if len(fields) == 1 and fields[0] in ("args", "requires", "pre", "ranges"):
                        steps[m[1]] = [{"pre": "requires"}.get(fields[0], fields[0])]
                        continue
                    if len(fields) == 1:
                        steps[m[1]] = fields[0]
                        continue
                new = ".".join(path(head, was))
                steps.pop(m[1], None)
                places.discard(m[1])
                out.append(f"let {m[1]} = {new} in" + re.search(r"in([ \n]*)$", m[0])[1])
            else:
                out.append(m[0])
        else:
            head, rest = m[3], m[4]
            fields = rest.split(".")[1:]
            if head in places or head in steps:
                out.append(".".join(path(head, fields)))
            else:
                out.append(m[0])
    return "".join(out)


def declarations(text):
    """The file's head comment, its use lines, and its declarations as (name, signature text, body text, whole)."""
    lines = text.split("\n")
    head = []
    while lines and lines[0].startswith("--"):
        head.append(lines.pop(0))
    rest = "\n".join(lines)
    uses = re.findall(r"(?m)^(?:pub )?use [^\n{]*(?:\{[^}]*\})?[^\n]*", rest)
    rest = re.sub(r"(?m)^(?:(?:pub )?use [^\n{]*(?:\{[^}]*\})?[^\n]*|mod \w+)\n", "", rest)
    blocks = [it.strip("\n") for it in re.split(r"\n(?=\n)", rest) if it.strip()]
    return head, uses, blocks


def words(text):
    return set(re.findall(r"[^\s(){}\[\],;.]+", text))


def used_imports(uses, text, common):
    """The use lines that the text needs, old libraries' names taken from Common."""
    its, out, from_common, by = words(text), [], set(), {}
    dotted = set(re.findall(r"(" + WORD + r")\.", text))
    ops = re.sub(r"[\w'.-]+", " ", text)

    def needed(name):
        name = name.split(" as ")[-1].strip()
        if "◌" not in name:
            return re.search(r"(?<![\w.·'-])" + re.escape(name) + r"(?![\w·'-])" + ("" if name[:1].isupper() else r"(?!\.\w)"), text) is not None
        if "◌" in name:
            parts = [p for p in name.split("◌") if p]
            return all(p in its or p in ops for p in parts)
        return False

    for line in uses:
        m = re.match(r"(?:pub )?use (\S+?)\.\{([^}]*)\}", line)
        if m:
            names = [it.strip() for it in m[2].split(",") if it.strip()]
            kept = [it for it in names if needed(it)]
            if not m[1].startswith("Rattle.") or m[1].startswith("Rattle.std"):
                from_common.update(it for it in kept if it in common)
                kept = [it for it in kept if it not in common]
            if kept and not re.search(r"\.(Statement|Tie|Reads|Kinds|Measures)$|Lts|\.\+\w+$", m[1]):
                by.setdefault(m[1], []).extend(it for it in kept if it not in by.get(m[1], []))
            continue
        m = re.match(r"(?:pub )?use (\S+) as (\S+)", line)
        if m and m[2] in dotted and not re.search(r"\.(Tie|Reads|Kinds)$|Lts", m[1]):
            out.append(line)
    out = [f"use {k}.{{{', '.join(v)}}}" for k, v in by.items()] + sorted(set(out))
    if from_common:
        out.insert(0, f"use Rattle.std.proofs.Common.{{{', '.join(sorted(from_common))}}}")
    return out


def live(body, args, fn, k):
    """The body of an invariant or a measure, its arguments as fields of `l`."""
    names, changed = fn.data["loops"][k][1], fn.data["changed"][k] if k < len(fn.data["changed"]) else []
    changed = list(changed) + [False] * (len(names) - len(changed))
    want = [("l.initial." + n if c else "l." + n) for n, c in zip(names, changed)]
    want += ["l." + n for n, c in zip(names, changed) if c]
    note = "" if len(want) == len(args) else f"  -- ? arguments {' '.join(args)} against {' '.join(want)}"
    by = {}
    for a in args:
        own = a.rstrip("₀")
        if own in names:
            by[a] = ("l.initial." if a.endswith("₀") else "l.") + own
    if not note:
        by = dict(zip(args, want))
    put = lambda m: by.get(m[1], m[1]) + m[2]
    return PATH.sub(put, body) + note


def spec_body(text):
    m = re.search(r"\b(?:tie|[\w-]*lts)\.spec\b", text)
    return m and text[m.end() :]


def member(fn_key):
    return re.search(r"\.Lts-?(.*)$", fn_key)[1]


def convert(crate, folder, files, data, trivial, common):
    """Returns the texts of Answers.antt and of Invariants.antt."""
    keys = {k: v for k, v in data.items() if isinstance(v, dict) and "places" in v}
    module = f"Rattle.{crate}.proofs." + folder.replace("/", ".")
    is_cycle = "+" in folder
    heads, uses, answers, invariants, helpers, brought = [], [], [], [], [], {}
    for name, text in files:
        head, its, blocks = declarations(text)
        heads += head
        uses += its
        spec = next((b for b in blocks if spec_body(b)), None)
        decls = {}
        for b in blocks:
            m = re.match(r"(?:--[^\n]*\n)*(?:abbrev |unfoldable )?(?:pub )?(\S+) :", b)
            if m:
                decls[m[1]] = b
        # measures of a cycle's members
        for b in blocks:
            m = re.match(r"(?:abbrev )?(?:pub )?μ-(\S+) : [^\n]*\nμ-\S+ κs a =\s*((?:.|\n)*)", b)
            if m:
                fnname = norm(m[1])
                ps = params_of(crate, fnname)

                def arg(mm):
                    parts, k = mm[1].split(".")[1:], 0
                    while parts and parts[0] == "1":
                        k, parts = k + 1, parts[1:]
                    parts = parts[1:] if parts else parts
                    return "l." + (ps[k] if k < len(ps) else f"?{k}") + "".join("." + p for p in parts)

                body = re.sub(r"\ba((?:\.\d+)+)", arg, m[2])
                invariants.append((f"decreases-{fnname}", body.strip(), "l"))
        if not spec:
            continue
        lts = re.search(r"use (\S+)\.Lts-(\S+) as (\S+)", text) if is_cycle else None
        spec_of = re.search(r"\b([\w-]*lts)\.spec\b", spec)
        if is_cycle and spec_of:
            lts = re.search(r"use \S+\.(?:Lts)-(\S+) as " + re.escape(spec_of[1]) + r"\b", text)
            key = next((k for k in keys if folder in k.replace("·", "/") and member(k) == lts[1]), None)
        else:
            key = next((k for k in keys if k == f"Rattle-{crate}-proofs." + folder.replace("/", ".") + ".Lts"), None)
            key = key or next((k for k in keys if k.split("proofs.")[-1].replace(".", "/").replace("·", "/") == folder + "/Lts"), None)
        if not key:
            print(f"  ? {folder}/{name}: names.json knows no such function")
            continue
        fn = Function(key, keys[key])
        args = arguments(spec_body(spec))
        if is_cycle:
            args = args[3:]
        # invariants and measures
        done = set()
        for a, _ in list(args):
            b = decls.get(a)
            m = b and re.match(r"(?:--[^\n]*\n)*(?:abbrev |unfoldable )?(?:pub )?\S+ : \S*\b(?:tie|lts)\.(invariant|decreases)-(\S+)[^\n]*\n(?:unfolding [^\n]*\n)?\S+ ([^=]*?) ?=\s*((?:.|\n)*)", b)
            if m:
                done.add(a)
                k = next((k for k, it in enumerate(fn.data["loops"]) if norm(it[0][0]) == norm(m[2])), None)
                if k is None:
                    invariants.append((f"{m[1]}-{fn.stem}?{m[2]}", m[4], m[3]))
                    continue
                new = fn.data["loops"][k][0][1]
                invariants.append((f"{m[1]}-{fn.stem}{new}", live(m[4].strip(), m[3].split(), fn, k), "l"))
        args = [it for it in args if it[0] not in done]
        unnamed = {}
        for a, said in args:
            unfold = ""
            of_t = re.fullmatch(r"\(([^\s()]+) t\)", a)
            a = of_t[1] if of_t else a
            if a.startswith("("):
                m = re.match(r"\(λ ([^.\s]+)((?: [^.\s]+)*)\.\s*(?:--[^\n]*\n)?((?:.|\n)*)\)$", a)
                goal, var, more, body = said, m and m[1], m and m[2], m and m[3].strip()
                if not m:
                    m2 = re.match(r"\(((?:.|\n)*)\)$", a)
                    var, more, body = "c", "", m2[1] if m2 else a
            else:
                b = decls.get(a)
                if not b:
                    print(f"  ? {folder}: no declaration of {a}")
                    continue
                done.add(a)
                m = re.match(r"(?:--[^\n]*\n)*(?:abbrev )?(?:pub )?(\S+) :\s+((?:.|\n)*?)\n((?:unfolding [^\n]*\n)?)\1((?: [^=\s]+)*) =\s*((?:.|\n)*)", b)
                if not m:
                    print(f"  ? {folder}: {a} is not read")
                    continue
                need = re.search(r"\b(?:tie|lts)\.Need-(\S+)", m[2])
                goal, unfold, body = (need and need[1]) or said or a, m[3], m[5].strip()
                vs = m[4].split()
                vs = [it for it in vs if it != "t"] if is_cycle else vs
                var, more = (vs or ["c"])[0], ""
            if goal is None:
                print(f"  ? {folder}: an answer with no name: {a[:60]}")
                continue
            goal = goal.split()[0]
            now = re.sub(r"-again\b", "-preserved", re.sub(r"-holds\b", "-init", re.sub(r"-less\b", "-smaller", goal)))
            if norm(now) not in fn.goals:
                now = re.sub(r"^(overflow|nonzero)-", "", re.sub(r"^(offset-bounds|slice-bounds|bounds)-", "", now))
            new = fn.goals.get(norm(now))
            is_trivial = re.fullmatch(TRIVIAL, body) is not None and not unfold
            if new is None:
                if not is_trivial and not re.match(r"same[_-]length|enum|struct|slice|known|shared", goal):
                    answers.append((None, f"-- ? {fn.stem}{goal}, no such goal today (settled: {', '.join(fn.data['settled'])})\n" + "\n".join("-- " + it for it in (unfold + body).split("\n"))))
                continue
            if is_trivial and not trivial:
                continue
            body = turned(body, var, fn, fn.goal_place[norm(now)])
            name_ = fn.stem + new
            c = "t c" if is_cycle else "c"
            sep = "\n    " if "\n" in body or len(body) > 110 else " "
            answers.append((name_, f"pub {name_} : goal.{name_}\n{unfold}{name_} {c} ={sep}{body}"))
        for n, b in decls.items():
            if n in done or spec_body(b) or n.startswith("μ-") or re.search(r"-(at|below|met)$", n) or n in ("called", "claims") or re.search(r"\b(?:tie|lts)\.", b):
                continue
            if b not in helpers:
                helpers.append(b)
    heads = heads[:1] if is_cycle else heads
    own = "\n".join(heads) + "\n" if heads else ""
    body = "\n\n".join(helpers + [it for _, it in answers])
    a_text = i_text = None
    if any(n for n, _ in answers) or "-- ?" in body:
        a_text = own + "\n".join(used_imports(uses, body, common) + [f"use {module}.Goals as goal"]) + "\n\n" + body + "\n"
    if invariants:
        body = "\n\n".join(f"abbrev pub {n} : goal.{n}\n{n} {v} = {b}" for n, b, v in invariants)
        i_text = own + "\n".join(used_imports(uses, body, common) + [f"use {module}.Given as goal"]) + "\n\n" + body + "\n"
    return a_text, i_text


def names_of(top, crate):
    at = tempfile.mkdtemp(prefix="port_answers_")
    shutil.copytree(os.path.join(top, "crates"), os.path.join(at, "crates"), ignore=shutil.ignore_patterns("out"))
    shutil.copy(os.path.join(top, "crates.txt"), at)
    subprocess.run(["git", "init", "-q"], cwd=at)
    for d, folders, files in os.walk(os.path.join(at, "crates")):
        if "/proofs" not in d:
            continue
        if "Proof.antt" in files:
            os.remove(os.path.join(d, "Proof.antt"))
        for f in ("Answers.antt", "Invariants.antt"):
            if f in files:
                os.remove(os.path.join(d, f))
        if "/+" in d and "/Proof" in d:
            shutil.rmtree(d)
    out = os.path.join(at, "names")
    r = subprocess.run(["rt", "names", out], cwd=os.path.join(at, "crates", crate), capture_output=True, text=True)
    found = [os.path.join(d, f) for d, _, fs in os.walk(out) for f in fs if f == "names.json"]
    if not found:
        print(r.stdout + r.stderr)
        sys.exit("port_answers: rt names gave nothing: mend the sources first")
    data = json.load(open(found[0], encoding="utf-8"))
    shutil.rmtree(at)
    return data


def main():
    args = sys.argv[1:]
    option = lambda o: args.pop(args.index(o) + 1) if o in args else None
    given, commit = option("--names"), option("--from")
    flags = {it for it in args if it.startswith("--")}
    args = [it for it in args if not it.startswith("--")]
    if not args:
        sys.exit(__doc__)
    crate, only = args[0], args[1:]
    top = os.getcwd()
    signatures(top)
    data = json.load(open(given, encoding="utf-8")) if given else names_of(top, crate)
    proofs = os.path.join(top, "crates", crate, "proofs")
    common = common_names()
    found = {}
    if commit:
        listed = subprocess.run(["git", "ls-tree", "-r", "--name-only", commit, f"crates/{crate}/proofs/"], cwd=top, capture_output=True, text=True).stdout.split("\n")
        show = lambda p: subprocess.run(["git", "show", f"{commit}:{p}"], cwd=top, capture_output=True, text=True).stdout
        for p in listed:
            m = re.match(rf"crates/{crate}/proofs/(.*?)/Proof(?:/(\w+))?\.antt$", p)
            if m:
                found.setdefault(m[1], []).append((m[2] or "Proof", show(p)))
    else:
        for d, _, files in os.walk(proofs):
            rel = os.path.relpath(d, proofs)
            for f in sorted(files):
                m = re.match(r"(.*?)/Proof(?:/(\w+))?\.antt$", rel + "/" + f)
                if m:
                    found.setdefault(m[1], []).append((m[2] or "Proof", open(os.path.join(d, f), encoding="utf-8").read()))
    for folder, files in sorted(found.items()):
        if only and folder not in only:
            continue
        a_text, i_text = convert(crate, folder, files, data, "--trivial" in flags, common)
        at = os.path.join(proofs, folder)
        if "--keep" not in flags and not commit:
            old = os.path.join(top, "crates", crate, "out", "old_proofs", folder)
            os.makedirs(old, exist_ok=True)
            for it in ("Proof.antt", "Proof"):
                if os.path.exists(os.path.join(at, it)):
                    to = os.path.join(old, it)
                    if os.path.isdir(to):
                        shutil.rmtree(to)
                    shutil.move(os.path.join(at, it), to)
        os.makedirs(at, exist_ok=True)
        for name, text in (("Answers.antt", a_text), ("Invariants.antt", i_text)):
            if text:
                open(os.path.join(at, name), "w", encoding="utf-8").write(text)
        if not os.listdir(at):
            os.rmdir(at)
        marks = sum((t or "").count("?") for t in (a_text, i_text))
        print(f"{folder}: {'Answers ' if a_text else ''}{'Invariants ' if i_text else ''}{'' if a_text or i_text else 'nothing left to answer'}{f'({marks} ?)' if marks else ''}")


if __name__ == "__main__":
    main()
