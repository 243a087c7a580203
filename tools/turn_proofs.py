#!/usr/bin/env python3
"""Turns a crate's Proof.antt files, which name the goals of an older Rattle, into Invariants.antt and Answers.antt.

usage: python3 tools/turn_proofs.py NAME..     at the top of the repository, where the crates below NAME prove

Rattle says each goal's old and new name (`rt check --generated DIR --old-names`), and so which step of the code a path of facts came
from. Answers that only called the search or plain arithmetic go: the check finds them. It prints what wants a look.
"""

import json
import os
import re
import shutil
import subprocess
import sys
import tempfile

NAME = r"[^\s(){};,.@\"«»]+"
PLAIN = re.compile(r"(search rules|omega arith|refl|tt)$")
SIGNATURE = re.compile(rf"(?:abbrev )?(?:pub )?({NAME}) (?:\{{[^{{}}]*\}} )?: (.*)$", re.S)


def chunks(text):
    """The imports of a file, and its declarations: a signature with its clauses and the comment in front."""
    uses, found, now = [], [], []
    for line in text.split("\n"):
        if line.startswith("use "):
            uses.append(line)
        elif not line.strip():
            if now and not all(it.startswith("--") for it in now):
                found.append(now)
                now = []
        elif now and not line.startswith((" ", ")")) and re.match(rf"(?:abbrev |pub |unfoldable )*{NAME} (?:\{{[^{{}}]*\}} )?:(?= |$)", line) and not all(it.startswith("--") for it in now):
            found.append(now)
            now = [line]
        else:
            now.append(line)
    if now:
        found.append(now)
    return uses, found


class Function:
    def __init__(self, crate, path, names):
        self.crate, self.path, self.said, self.whole, self.lemmas = crate, path, [], set(), {}
        self.names = names
        self.parent = {it[0]: it[1] for it in names["places"]}
        self.field = {it[0]: it[2] for it in names["places"]}
        self.new_place = dict(zip([it[0] for it in names["places"]], names["places_by_name"]))
        self.arm = dict(zip([it[0] for it in names["places"]], names["arms"]))

    def parameter(self, name):
        """An array by value went by its place among the parameters."""
        of = self.path.split(".")[-1].removeprefix("+")
        if not re.fullmatch(r"t\d", name):
            return name
        for folder, _, files in os.walk(f"crates/{self.crate}/src"):
            for it in files:
                with open(f"{folder}/{it}", encoding="utf-8") as file:
                    at = re.search(rf"\bfn {of}\b[^(]*\(([^)]*)\)", file.read())
                if at:
                    given = [each.split(":")[0].strip().removeprefix("mut ") for each in at[1].split(",") if each.strip()]
                    if name in given:
                        return name
                    return given[int(name[1:]) - 1] if int(name[1:]) <= len(given) else name
        return name

    def say(self, text):
        self.said.append(f"{self.crate}/{self.path}: {text}")

    def above(self, place, steps):
        for _ in range(steps):
            place = self.parent.get(place) or place
        return place

    def fact(self, place, field, path):
        """The new path of an old one from a place: a step's name tells it, however many steps lie between."""
        plain = lambda it: re.sub(r"(?<![a-z])Is-?(?=[A-Z])", "", it).lower().replace("_", "-").removesuffix("-lem")
        if field == "args":
            return ".".join(["args", *(self.parameter(it) if not i else it for i, it in enumerate(path))])
        at = place
        while at is not None:
            # what a pattern binds, and what it says of the value
            for step, _, fields in [self.arm[at]] if self.arm.get(at) else []:
                for new, old, way in sorted(fields, key=lambda it: -len(it[2])):
                    if plain(old) == plain(field) and path[: len(way)] == way:
                        return ".".join([step, new, *path[len(way) :]])
            if plain(self.field[at][0]) == plain(field):
                return ".".join([self.field[at][1], *path])
            at = self.parent[at]
        return None

    def body(self, text, var, place, goal):
        # a name for the facts of an earlier step is written out, since the steps lie side by side now
        while at := re.search(rf"let (\w+) = ({var}(?:\.before)*) in\s*", text):
            text = text[: at.start()] + re.sub(rf"(?<![\w.'-]){at[1]}(?![\w'-])", at[2], text[at.end() :])
        def one(m):
            path = m[3].strip(".").split(".") if m[3] else []
            new = self.fact(place, m[2], path)
            if new is None and m[2] not in ("requires", "ranges", "auto", "type_inv", "well_formed", "lifetimes"):
                self.say(f"{goal}: {m[0]} leads nowhere")
            return f"{var}.{new or m[2] + (m[3] or '')}"

        text = re.sub(rf"(?<![\w.'-]){var}((?:\.before)*)\.(?!before\b)({NAME})((?:\.{NAME})*)", one, text)

        def whole(m):
            before = re.search(rf"({NAME}) $", text[: m.start()])
            new = self.lemmas.get(before[1]) if before else None
            new = new or self.new_place.get(self.above(place, m[1].count(".before")))
            if not goal:
                self.say(f"a fact of {place} is passed whole: {m[0]}")
                return m[0]
            self.whole.add(new)
            return f"(goal.at.{goal} {var}).{new}"

        for it in re.findall(rf"let (\w+) = {var}\.args in", text):
            text = re.sub(rf"\b{it}\.(t\d)\b", lambda m: f"{it}.{self.parameter(m[1])}", text)
        return re.sub(rf"(?<![\w.'-]){var}((?:\.before)*)(?![\w.'-])", whole, text)


def invariant(fn, name, params, body, live, changed):
    """The body over `l`: the live variables by position, first as they were when the loop began, then those that change."""
    values = {}
    later = [v for v, c in zip(live, changed) if c]
    for i, p in enumerate(params):
        if i < len(live):
            values[p] = f"l.initial.{live[i]}" if changed[i] else f"l.{live[i]}"
        elif i - len(live) < len(later):
            values[p] = f"l.{later[i - len(live)]}"
        else:
            fn.say(f"{name}: more parameters than variables: {params}, {live}")
    if len(params) != len(live) + len(later):
        fn.say(f"{name}: parameters {params}, variables {live}, changed {changed}")
    for p in values:
        if re.search(rf"λ (?:[^.]* )?{re.escape(p)}(?: [^.]*)?\.", body) and not re.search(rf"{re.escape(p)}'", body):
            body = re.sub(rf"λ ((?:[^.(]* )?){re.escape(p)}((?: [^.(]*)?)\. ([^()]*(?:\([^()]*(?:\([^()]*(?:\([^()]*\)[^()]*)*\)[^()]*)*\)[^()]*)*)", lambda m: f"λ {m[1]}{p}'{m[2]}. " + re.sub(rf"(?<![\w.'-]){re.escape(p)}(?![\w'-])", p + "'", m[3]), body)
    return names_in(fn, name, body, values)


def names_in(fn, name, body, values):
    for p in values:
        if re.search(rf"λ [^.]*(?<![\w'-]){re.escape(p)}(?![\w'-])[^.]*\.|\({re.escape(p)} :", body):
            fn.say(f"{name}: {p} is bound in it")
    return re.sub(rf"(?<![\w.'₀-])[^\W\d_][\w₀'·-]*", lambda m: values.get(m[0], m[0]), body)


def turn(crate, path, folder, names):
    fn = Function(crate, path, names)
    with open(f"{folder}/Proof.antt", encoding="utf-8") as it:
        uses, found = chunks(it.read())
    needs = [it[1] for it in names["needs"]]
    old_needs = {it[0]: i for i, it in enumerate(names["needs"])}
    given, answers, loops = [], [], {}
    order = []
    parsed = []
    for lines in found:
        notes = [it for it in lines if it.startswith("--") and not re.match(r"-- src/", it)]
        code = [it for it in lines if not it.startswith("--")]
        if not code:
            continue
        at = SIGNATURE.match(code[0])
        if not at:
            fn.say(f"not read: {code[0][:80]}")
            continue
        k = next((i for i, it in enumerate(code) if i and re.match(rf"unfolding |{re.escape(at[1])}(?: |$)", it)), 1)
        parsed.append((at[1], "\n".join([at[2], *code[1:k]]), notes, code[k - 1 :]))
    of_needs = [name for name, kind, _, _ in parsed if kind.startswith("tie.Need-")]
    # the last lines hand the answers over in the order of the goals
    last = "\n".join(found[-1]).partition("tie.spec")[2]
    handed = [it for it in re.findall(NAME, last) if it in of_needs]
    if len(handed) == len(of_needs):
        of_needs = handed
    if len(of_needs) != len(needs):
        fn.say(f"{len(of_needs)} answers for {len(needs)} goals")
    for name, kind, notes, code in parsed:
        clauses = code[1:]
        if kind.startswith("tie.invariant") or kind.startswith("tie.decreases"):
            left, _, right = "\n".join(clauses).partition(" =")
            params = left.split()[1:]
            given.append((name, kind, notes, params, right.strip()))
        elif kind.startswith("tie.Need-"):
            order.append((name, kind, notes, clauses))
        elif re.search(r"\bstatement\b", kind) or name.endswith("-spec") or name.endswith("_spec"):
            continue
        else:
            order.append((name, kind, notes, clauses))
    # invariants and measures
    invariants = []
    for name, kind, notes, params, right in given:
        what, _, of = kind.split()[0].removeprefix("tie.").partition("-")
        if names["loops"] and (which := [it for it in names["loops"] if it[0][0] == of or it[0][1] == of]):
            at = names["loops"].index(which[0])
            new = which[0][0][1]
            text = invariant(fn, name, params, right, which[0][1], names["changed"][at])
        else:
            new = of if not names["args"] else of
            text = names_in(fn, name, right, {p: f"l.{p}" for p in params})
            fn.say(f"{name}: a recursion's measure? {names['args']} {params}")
        label = f"{what}-{new}"
        invariants.append("\n".join([*notes, f"abbrev pub {label} : goal.{label}", f"{label} l = {text}" if "\n" not in text else f"{label} l =\n    {text}"]))
    # answers
    i = -1
    bodies = []
    for name, kind, notes, clauses in order:
        text = "\n".join(clauses)
        if kind.startswith("tie.Need-"):
            i += 1
            bare = kind.split()[0].removeprefix("tie.Need-").replace("overflow-", "")
            at = of_needs.index(name) if len(of_needs) == len(needs) else next((old_needs[it] for it in (name, bare) if it in old_needs), None)
            if at is None:
                fn.say(f"no goal for {name}: {text[:120]}")
                continue
            new, place = needs[at], names["asked_at"][at][0]
            unfold = [it for it in clauses if it.startswith("unfolding ")]
            rest = "\n".join(it for it in clauses if not it.startswith("unfolding "))
            left, _, right = rest.partition(" =")
            params = left.split()[1:]
            if not params:
                fn.say(f"{name}: no parameter: {rest[:80]}")
                continue
            if not unfold and PLAIN.match(right.strip()):
                continue
            right = fn.body(right, params[0], place, new)
            keep = [it for it in params if it == params[0] or re.search(rf"(?<![\w.'-]){re.escape(it)}(?![\w'-])", right)]
            if keep != params[:1] and keep != params:
                fn.say(f"{name}: parameters {params}")
            bodies.append("\n".join([*notes, f"pub {new} : goal.{new}", *unfold, f"{new} {' '.join(keep)} ={right}"]))
        else:
            at = re.search(rf"\((\S+) : tie\.(\S+?)(?: invariant-\S+ decreases-\S+)*\)", kind)
            if at:
                place = next((it for it in fn.field if re.sub("_", "-", it) == re.sub("_", "-", at[2])), None)
                if place is None:
                    fn.say(f"{name}: no place {at[2]}")
                    bodies.append("\n".join([*notes, f"{name} : {kind}", text]))
                    continue
                fn.lemmas[name] = fn.new_place[place]
                kind = kind.replace(at[0], f"({at[1]} : {fn.new_place.get(place, place)})")
                kind = fn.body(kind, at[1], place, "")
                kind = re.sub(rf"\({at[1]} : ", f"({at[1]} : ", kind)
                first, _, right = text.partition(" =")
                right = fn.body(right, at[1], place, "")
                text = f"{first} ={right}"
                fn.say(f"a lemma over {fn.new_place.get(place, place)}: {name}")
                uses.append(f"use Rattle.{crate}.proofs.{path}.Goals.{{{fn.new_place.get(place, place)}}}")
            elif "tie." in kind:
                fn.say(f"a lemma over the record of facts: {name}")
            bodies.append("\n".join([*notes, f"{name} : {kind}", text]))
    # what a test of `!x` says is said of x now
    bodies = [re.sub(r"not-(?:true|false) _ (c\.if-not[\w-]*\.(?:true|false))", r"\1", it) for it in bodies]
    kept = [it for it in uses if not re.search(r"\.(Statement\.\{|Tie as |Reads as |Lts as )", it)]
    if fn.whole:
        kept.append(f"use Rattle.{crate}.proofs.{path}.Goals.{{{', '.join(sorted(fn.whole))}}}")
    files = {}
    if invariants:
        files["Invariants"] = [*kept, f"use Rattle.{crate}.proofs.{path}.Given as goal"], invariants
    if bodies:
        files["Answers"] = [*kept, f"use Rattle.{crate}.proofs.{path}.Goals as goal"], bodies
    for name, (heads, parts) in files.items():
        text = "\n\n".join(parts)
        need = [it for it in heads if used(it, text) or it.endswith(" as goal")]
        with open(f"{folder}/{name}.antt", "w", encoding="utf-8") as it:
            it.write("\n".join(dict.fromkeys(cut(line, text) for line in need)) + "\n\n" + text + "\n")
    os.makedirs(f"{tempfile.gettempdir()}/turned/{crate}/{path}", exist_ok=True)
    shutil.move(f"{folder}/Proof.antt", f"{tempfile.gettempdir()}/turned/{crate}/{path}/Proof.antt")
    return fn.said


def words(line):
    at = re.match(r"use (\S+?)\.\{(.*)\}$", line)
    return (at[1], [it.strip() for it in at[2].split(",")]) if at else (None, [])


def stands(word, text):
    word = word.split(" as ")[-1]
    bare = word.strip("◌").split("◌")[0] if "◌" in word else word
    if word == "[]":
        return "[]" in text
    if not bare:
        return True
    return bool(re.search(rf"(?<![\w'-]){re.escape(bare)}(?![\w'-])", text)) if re.match(r"\w", bare) else bare in text


def used(line, text):
    of, names = words(line)
    return of is None or any(stands(it, text) for it in names)


def cut(line, text):
    of, names = words(line)
    return line if of is None else f"use {of}.{{{', '.join(it for it in names if stands(it, text))}}}"


def main(crates):
    for crate in crates:
        where = f"crates/{crate}"
        out = f"{tempfile.gettempdir()}/old-names-{crate}"
        shutil.rmtree(out, ignore_errors=True)
        said = subprocess.run(["rt", "check", "--generated", out, "--old-names"], cwd=where, stdout=subprocess.PIPE, stderr=subprocess.STDOUT, text=True).stdout
        if not os.path.isfile(f"{out}/names.json"):
            print("\n".join(it for it in said.split("\n") if "error" in it)[-3000:])
            raise SystemExit(f"{crate}: no names")
        with open(f"{out}/names.json", encoding="utf-8") as it:
            names = json.load(it)
        for folder, _, files in sorted(os.walk(f"{where}/proofs")):
            if "Proof.antt" not in files:
                continue
            path = os.path.relpath(folder, f"{where}/proofs").replace("/", ".")
            with open(f"{folder}/Proof.antt", encoding="utf-8") as it:
                if "tie.spec" not in it.read():
                    print(f"{crate}/{path}: a proof by hand, left as it is")
                    continue
            key = f"Rattle-{crate}-proofs.{path}.Lts"
            if key not in names:
                print(f"{crate}/{path}: no names for it")
                continue
            print("\n".join(turn(crate, path, folder, names[key])) or f"{crate}/{path}: turned")


if __name__ == "__main__":
    main(sys.argv[1:])
