#!/usr/bin/env python3
"""Spells this repository's own names of specs/ and proofs/ in snake case, as the kit's library spells its names.

usage: python3 tools/respell.py    once, at the top of the repository, after the kit's port.py

A definition, a lemma, a field or a constructor that the repository declares turns: `fillsFrom` and `fills-short` become `fills_from` and
`fills_short`. Types and modules keep their capitals, names of src/ stay, and so does what Rattle itself makes (the names of goals, and the
paths of facts in an answer). Two names that would fall together stay apart: the lemma gets `_lem`.
It prints each name that did not turn by the plain rule.
"""

import collections
import glob
import os
import re

NAME = r"[^\s(){}.;,@\"«»]+"
TOKEN = re.compile(NAME)
USE = re.compile(r"^(\s*(?:pub |ghost )*use )([^\s;{]+?)(?:\.\{([^}]*)\})?( as [^\s;]+)?;?\s*$", re.S)
DECLARED = re.compile(rf"^\s*((?:abbrev |unfoldable |pub |data |record )*)((?:{NAME} )+?)((?:\{{[^{{}}]*\}} )*):(?=\s|$)(.*)")
HEAD = re.compile(rf"^\s*(?:pub )?(?:data|record) ({NAME})")
COMMENT = re.compile(r"(?<![^\s(){}.;,@\"«»])--.*")
OF_A_FUNCTION = re.compile(r"/proofs/.+/(Proof|Answers|Invariants)\.antt$")


def snake(name):
    if name.split("-")[0].isupper() or name[0].isupper() and "-" not in name:
        return name.replace("-", "_") if name.isupper() else name
    if name[0].isupper():
        # a type joined to a name
        return "".join(it[0].upper() + it[1:] for it in name.split("-")) if "→" not in name else name
    return re.sub(r"(?<=[^\W_A-Z])[A-Z]", lambda m: "_" + m[0].lower(), name).replace("-", "_")


def module(path):
    parts = path[:-5].split("/")  # crates/NAME/specs/M.antt
    return ".".join(["Rattle", parts[1], *parts[2:]])


def declared(text):
    """The names that a text declares, each with the rest of its line."""
    found, inside = [], None
    for line in text.split("\n"):
        bare = COMMENT.sub("", line)
        head = HEAD.match(bare)
        if head:
            found.append((head[1], "Type"))
            continue
        at = DECLARED.match(bare)
        if at:
            for name in at[2].split():
                if name not in ("where", "let", "in", "|", "=", "pub", "abbrev", "unfoldable", "module", "_", "λ") and not name.startswith("("):
                    found.append((name, at[4].strip()))
    return found


def uses(text):
    """The imports of a text: (module, names or None, alias)."""
    found = []
    for m in re.finditer(r"^[ \t]*(?:pub |ghost )*use ([^\s;{]+?)(?:\.\{([^}]*)\})?(?: as ([^\s;]+))?;?[ \t]*$", text, re.M):
        found.append((m[1], [it.strip() for it in m[2].split(",")] if m[2] is not None else None, m[3]))
    return found


def main():
    crates = set(os.listdir("crates"))
    antt = sorted(glob.glob("crates/*/specs/**/*.antt", recursive=True) + glob.glob("crates/*/proofs/**/*.antt", recursive=True))
    code = sorted(glob.glob("crates/*/src/**/*.rt", recursive=True))
    texts = {it: open(it, encoding="utf-8").read() for it in antt + code}
    shared = [it for it in antt if not OF_A_FUNCTION.search(it)]
    by_module = {module(it): [name for name, _ in declared(texts[it])] for it in shared}
    every = collections.Counter(name for it in by_module.values() for name in it)

    # one new name for each old one, and none that falls together with another
    rust = set()
    for it in code:
        rust.update(re.findall(r"\b(?:let(?: mut)?|const|static) (\w+)", texts[it]))
        rust.update(re.findall(r"[(,{]\s*(?:mut |pub )?(\w+): ", texts[it]))
    new, taken = {}, collections.defaultdict(set)
    for name in every:
        taken[snake(name)].add(name)
    for to, names in taken.items():
        camel = [it for it in names if re.search(r"[^\W_A-Z][A-Z]", it)]
        ranked = sorted(names, key=lambda it: (it not in camel, "-" in it, it))
        for i, it in enumerate(ranked):
            spelled = to if i == 0 else to + "_lem"
            if i > 1:
                raise SystemExit(f"three names fall together: {names}")
            if spelled != it:
                new[it] = spelled
                if i:
                    print(f"{it} -> {spelled} (beside {ranked[0]})")
    clash = {it: to for it, to in new.items() if to in every and to not in new}
    if clash:
        raise SystemExit(f"names that fall together: {clash}")

    for path in antt:
        text = texts[path]
        mine = {} if OF_A_FUNCTION.search(path) else {it: new[it] for it, _ in declared(text) if it in new}
        if OF_A_FUNCTION.search(path):
            # lemmas of the file itself, but not the answers to goals
            for name, rest in declared(text):
                if not re.search(r"\b(tie|goal)\.|statement", rest) and re.search(r"[-]|[^\W_A-Z][A-Z]", name) and not re.match(r"μ|Inv|inv|decreases|loop|\+", name):
                    mine[name] = snake(name)
        texts[path] = turned(text, mine, new, by_module, path)
    for path in code:
        texts[path] = turned(texts[path], {}, new, by_module, path)
    for path, text in texts.items():
        with open(path, "w", encoding="utf-8") as it:
            it.write(text)
    for path in sorted(glob.glob("crates/*/must-fail/*.edit")):
        crate = path.split("/")[1]
        with open(path, encoding="utf-8") as it:
            text = it.read()
        with open(path, "w", encoding="utf-8") as it:
            it.write(edit(text, crate, new, by_module))
    for old, to in sorted(new.items()):
        if to in rust:
            print(f"look: {old} -> {to}, which is also a parameter, a field, a constant or a local of src/")


def turned(text, mine, new, by_module, path):
    table = dict(mine)
    heads = set()
    for of, names, alias in uses(text):
        if of in by_module:
            if names is None:
                heads.add(alias or of.split(".")[-1])
            else:
                for it in names:
                    old, _, to = it.partition(" as ")
                    if old in new and old in by_module[of]:
                        table[old] = new[old]
        elif any(it.startswith(of + ".") for it in by_module) and names:
            heads.update(it.partition(" as ")[2] or it for it in names)
    fields = {it for it in new if ("-" in it or not it.islower())}
    words = {it: to for it, to in table.items()}
    before = set(TOKEN.findall(text))
    for old, to in words.items():
        if to in before and old in before and to not in table:
            print(f"look: {path}: {old} -> {to}, and {to} stands there already")

    def word(m):
        at, old = m.start(), m[0]
        prime = ""
        if old not in words and old not in new:
            bare = old.rstrip("'")
            if bare in words:
                old, prime = bare, m[0][len(bare):]
            else:
                return m[0]
        if at and text[at - 1] == ".":
            head = re.search(rf"([^\s(){{}};,@\"«»]+)\.$", text[:at])
            path_before = head[1] if head else ""
            if path_before in by_module and old in by_module[path_before] or path_before in heads or path_before.split(".")[-1] in heads:
                return new.get(old, old) + prime
            if old in FIELDS:
                return new[old] + prime
            return m[0]
        return words.get(old, old) + prime

    return TOKEN.sub(word, text)


# Fields of the repository's records that turn wherever they stand behind a dot.
FIELDS = set()


def edit(text, crate, new, by_module):
    """An edit's lines, by the names that its crate sees."""
    def line(it):
        if it.startswith("file: "):
            return it

        def word(m):
            at, old = m.start(), m[0]
            if old in new and not (at and it[at - 1] == "." and not re.search(r"specs\.\w+\.$", it[:at]) and old not in FIELDS):
                return new[old]
            return old

        return TOKEN.sub(word, it)

    return "\n".join(line(it) for it in text.split("\n"))


if __name__ == "__main__":
    for it in glob.glob("crates/*/specs/**/*.antt", recursive=True):
        with open(it, encoding="utf-8") as file:
            lines = file.read().split("\n")
        inside = False
        for each in lines:
            if HEAD.match(each) and "record" in each.split(":")[0]:
                inside = True
            elif each and not each.startswith(" "):
                inside = False
            elif inside and (found := re.match(rf"^  (?:pub )?({NAME}) :", each)) and re.search(r"-|[a-z][A-Z]", found[1]):
                FIELDS.add(found[1])
    print("fields:", " ".join(sorted(FIELDS)))
    main()
