#!/usr/bin/env python3
"""Respells must-fail edits after the texts that they edit: FROM is a checkout of the commit that the texts were turned from.

usage: python3 tools/turn_edits.py FROM [NAME..]     at the top of the repository

A line of the old text and the line of the new one that stands for it show how each word is spelled now. It turns the edits of FROM with
these words, writes those whose `old:` text then stands once in its file, and names the others.
"""

import collections
import difflib
import glob
import os
import re
import sys

TOKEN = re.compile(r"[^\s(){};,.\"«»]+|[(){};,.]|\s+|.")


def tight(text):
    """A projection as it is written now: `x .f` is `x.f`, and of a call `(f x).f` stays."""
    was = None
    while was != text:
        was = text
        text = re.sub(r"(?<=[^\s(,;{=→×λ≡+*<≤≢]) \.(?=[\w·])", ".", text)
    return re.sub(r"(?<=[\s({])\(([\w']+(?:\.[\w'-]+)+)\)", r"\1", re.sub(r"\bnow \((\w+)\.entry\)", r"\1.now", text))


def words(text):
    return [it for it in TOKEN.findall(text) if not it.isspace()]


def bare(line):
    return re.sub(r"[-_·.\s]", "", line).lower()


def observed(old, new, into):
    a, b = old.split("\n"), new.split("\n")
    for tag, i, j, k, l in difflib.SequenceMatcher(None, [bare(tight(it)) for it in a], [bare(it) for it in b], autojunk=False).get_opcodes():
        if tag == "equal" or tag == "replace" and j - i == l - k:
            for x, y in zip(a[i:j], b[k:l]):
                if x.startswith("use ") or x.startswith("ghost use "):
                    continue
                p, q = words(tight(x)), words(y)
                if len(p) == len(q):
                    for s, t in zip(p, q):
                        into[s][t] += 1


def best(maps, word):
    for it in maps:
        if word in it and it[word]:
            return it[word].most_common(1)[0][0]
    return word


def turned(text, maps):
    return "".join(it if it.isspace() else best(maps, it) for it in TOKEN.findall(tight(text)))


def read(path):
    with open(path, encoding="utf-8") as it:
        return it.read()


def main(old, crates):
    fresh = lambda: collections.defaultdict(collections.Counter)
    every, by_crate, by_file = fresh(), collections.defaultdict(fresh), collections.defaultdict(fresh)
    for path in glob.glob(f"{old}/crates/*/s*/**/*.*", recursive=True):
        here = os.path.relpath(path, old)
        if not path.endswith((".antt", ".rt")) or not os.path.isfile(here):
            continue
        crate = here.split("/")[1]
        one = fresh()
        observed(read(path), read(here), one)
        for s in one:
            by_file[here][s].update(one[s])
            by_crate[crate][s].update(one[s])
            every[s].update(one[s])
    done = left = 0
    for path in sorted(glob.glob(f"{old}/crates/*/must-fail/*.edit")):
        here = os.path.relpath(path, old)
        crate = here.split("/")[1]
        if crates and crate not in crates:
            continue
        file, texts, lines, why = None, {}, [], []
        source = read(path).split("\n")
        pending = None
        for line in source:
            if line.startswith("file: "):
                file = f"crates/{crate}/{line[6:].strip()}"
                texts.setdefault(file, read(file) if os.path.isfile(file) else "")
                lines.append(line)
            elif line.startswith("old: ") or line.startswith("new:"):
                what, text = line[:4], line[5:]
                if what == "old:":
                    if texts[file].count(text) == 1:
                        pending, kept = text, True
                    else:
                        pending, kept = turned(text, [by_file[file], by_crate[crate], every]), False
                    if texts[file].count(pending) != 1:
                        why.append(f"{file} has it {texts[file].count(pending)} times: {pending}")
                    lines.append(f"old: {pending}")
                else:
                    new = text if kept and turned(text, [by_file[file], by_crate[crate], every]) == text else turned(text, [by_file[file], by_crate[crate], every])
                    lines.append(f"new: {new}" if new else "new:")
                    texts[file] = texts[file].replace(pending, new)
            else:
                lines.append(turned_note(line, [by_crate[crate], every]))
        with open(here, "w", encoding="utf-8") as it:
            it.write("\n".join(lines))
        done, left = done + (not why), left + bool(why)
        if why:
            print(here, *why, sep="\n   ")
    print(f"{done} edits fit, {left} are left")


def turned_note(line, maps):
    """A comment's names of theorems and definitions."""
    return re.sub(r"[\w'↔-]*[\w'↔]", lambda m: best(maps, m[0]) if re.search(r"[a-z][A-Z]|\w-\w|↔", m[0]) else m[0], line)


if __name__ == "__main__":
    main(sys.argv[1], sys.argv[2:])
