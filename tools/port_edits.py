#!/usr/bin/env python3
"""Brings must-fail edits of definitions and lemmas to today's spelling, as port.py and port_spelling.py did their files. Run once, after both.

An edit whose old text no longer stands once in its file is respelled; it is written only where the old text then stands once.
"""
import glob
import os
import re
import subprocess
import sys

sys.path.insert(0, os.path.dirname(os.path.realpath(__file__)))
import port_spelling

WORDS = {"getD": "get_or", "take-record": "take_record"}
LANDED = "48e23c45c883f29c52e39ce742af991d263e04c1"


def own_names_at_landed():
    """Every dashed word of the landed specs and proofs: what those names are today, port_spelling says."""
    names = set()
    paths = subprocess.run(["git", "ls-tree", "-r", "--name-only", LANDED, "crates"], capture_output=True, text=True, check=True).stdout.split("\n")
    for path in paths:
        if path.endswith(".antt") and ("/specs/" in path or path.count("/") == 3):
            text = subprocess.run(["git", "show", f"{LANDED}:{path}"], capture_output=True, text=True, check=True).stdout
            names |= {t for t in port_spelling.TOKEN.findall(text) if port_spelling.dashed(t)}
    return names


def respelled(text, own):
    text = re.sub(r"(?<=[\w′)}\]]) \.(?=[\w«])", ".", text).replace("′", "'")
    text = re.sub(r"\((\w+(?:\.\w+)+)\)", r"\1", text)
    text = port_spelling.TOKEN.sub(lambda m: port_spelling.new_name(m.group(0)) if m.group(0) in own else m.group(0), text)
    return port_spelling.TOKEN.sub(lambda m: WORDS.get(m.group(0), m.group(0)), text)


def stands(folder, text):
    """Whether each old text stands once in its file, after the pairs before it."""
    texts, current, old = {}, None, None
    for line in text.split("\n"):
        if line.startswith("file: "):
            current = line[6:]
            texts.setdefault(current, open(os.path.join(folder, current), encoding="utf-8").read())
        elif line.startswith("old: "):
            old = line[5:]
            if texts[current].count(old) != 1:
                return f"{current} has {texts[current].count(old)} times: {old}"
        elif line.startswith("new: "):
            texts[current] = texts[current].replace(old, line[5:])
    return ""


def main():
    own = own_names_at_landed()
    for path in sorted(glob.glob("crates/*/must-fail/*.edit")):
        folder = os.path.dirname(os.path.dirname(path))
        text = open(path, encoding="utf-8").read()
        if not stands(folder, text):
            continue
        new = "\n".join(l[:5] + respelled(l[5:], own) if l[:5] in ("old: ", "new: ") else l for l in text.split("\n"))
        said = stands(folder, new)
        if said:
            print(f"by hand: {path}: {said}")
        else:
            open(path, "w", encoding="utf-8").write(new)
            print(f"respelled: {path}")


if __name__ == "__main__":
    main()
