#!/usr/bin/env python3
"""Turns imports to where theorems live now. tools/moved.tsv lists the moves, a line each:

CRATE<TAB>OLD MODULE<TAB>NEW MODULE<TAB>NAME NAME..     (modules as `specs.Small`; `*` for a whole file)

usage: python3 tools/turn_moves.py [DIR..]     at the top of the repository; by default all of crates/

It rewrites the `use` lines of every .antt below, those of must-fail edits too, splits an import whose names live in two modules now, and
merges two imports of one module. An import by a module's name (`use .. as T`) gets a second one, `TLaws`, for names that moved.
It can be run again: what has been turned stays as it is. A contract that names what moved is reported, for it may cite specs/ alone.
"""

import collections
import glob
import os
import re
import sys

USE = re.compile(r"^(?P<head>(?:(?:old|new): )?(?:pub )?use )Rattle\.(?P<crate>\w+)\.(?P<module>(?:specs|proofs)\.[\w.]+)"
                 r"(?:\.\{(?P<names>[^}]*)\}| as (?P<alias>\S+))?[ \t]*$", re.M)
GHOST = re.compile(r"ghost use Rattle\.(\w+)\.(specs\.[\w.]+)\.\{([^}]*)\}")


def moves():
    whole, single = {}, collections.defaultdict(dict)
    with open(os.path.join(os.path.dirname(os.path.abspath(__file__)), "moved.tsv"), encoding="utf-8") as it:
        for line in it:
            if not line.strip() or line.startswith("#"):
                continue
            crate, old, new, names = line.rstrip("\n").split("\t")
            if names.strip() == "*":
                whole[crate, old] = new
            else:
                for name in names.split():
                    single[crate, old][name] = new
    return whole, single


def home(crate, module, name, whole, single):
    """The module in which a name lives now; a name may have moved twice."""
    seen = set()
    while (crate, module) not in seen:
        seen.add((crate, module))
        module = single.get((crate, module), {}).get(name) or whole.get((crate, module)) or module
    return module


def turned(text, whole, single):
    renamed = []

    def one(m):
        crate, module, head = m["crate"], m["module"], m["head"]
        if (crate, module) not in whole and (crate, module) not in single:
            return m[0]
        if m["names"] is None:
            to = whole.get((crate, module), module)
            alias = m["alias"] or module.split(".")[-1]
            lines = [f"{head}Rattle.{crate}.{to}" + (f" as {m['alias']}" if m["alias"] else "")]
            for new in sorted(set(single.get((crate, module), {}).values())):
                moved = [n for n, at in single[crate, module].items() if at == new and f"{alias}.{n}" in text]
                if moved:
                    lines.append(f"{head}Rattle.{crate}.{new} as {alias}Laws")
                    renamed.extend((alias, n) for n in moved)
            return "\n".join(lines)
        groups = {}
        for name in (it.strip() for it in m["names"].split(",")):
            if name:
                groups.setdefault(home(crate, module, name.split(" as ")[0], whole, single), []).append(name)
        return "\n".join(f"{head}Rattle.{crate}.{to}.{{{', '.join(names)}}}" for to, names in groups.items())

    text = USE.sub(one, text)
    for alias, name in renamed:
        text = re.sub(rf"(?<![\w.'-]){re.escape(alias)}\.{re.escape(name)}(?![\w'↔-])", f"{alias}Laws.{name}", text)
    return text


def merged(text):
    """Two imports of one module become one, where the first stands."""
    first, lines = {}, []
    for line in text.split("\n"):
        m = USE.match(line)
        if m and m["names"] is not None and m["head"].startswith(("use", "pub")):
            key = (m["head"], m["crate"], m["module"])
            if key in first:
                at, names = first[key]
                more = [it.strip() for it in m["names"].split(",") if it.strip() not in names]
                joined = f"{m['head']}Rattle.{m['crate']}.{m['module']}.{{{', '.join(names + more)}}}"
                if len(joined) <= 140:
                    lines[at], first[key] = joined, (at, names + more)
                    continue
            else:
                first[key] = (len(lines), [it.strip() for it in m["names"].split(",")])
        lines.append(line)
    return "\n".join(lines)


def main(places):
    whole, single = moves()
    changed = 0
    for place in places or ["crates"]:
        for path in sorted(glob.glob(f"{place}/**/*.*", recursive=True)):
            if "/out/" in path or not path.endswith((".antt", ".rt", ".edit")):
                continue
            with open(path, encoding="utf-8") as it:
                text = it.read()
            if path.endswith(".rt"):
                for crate, module, names in GHOST.findall(text):
                    for name in (it.strip() for it in names.split(",")):
                        if home(crate, module, name, whole, single) != module:
                            print(f"{path}: a contract names {name} of {crate}, {module}, which moved")
                continue
            new = turned(text, whole, single)
            if new != text:
                if path.endswith(".antt"):
                    new = merged(new)
                with open(path, "w", encoding="utf-8") as it:
                    it.write(new)
                changed += 1
                here = re.match(r".*?crates/\w+/specs/", path)
                if here and re.search(r"^use Rattle\." + path.split("crates/")[1].split("/")[0] + r"\.proofs\.(?!.*\.Goals)", new, re.M):
                    print(f"{path}: a file of specs/ names its own crate's proofs")
    print(f"{changed} files turned")


if __name__ == "__main__":
    main(sys.argv[1:])
