#!/usr/bin/env python3
"""Respells this repository's own definitions and lemmas, after port.py: types and facts in upper camel case, all else in snake case.

usage: python3 tools/respell_names.py [--list]     at the top of the repository, once

A name is taken from its definition in specs/ or proofs/ (definitions, lemmas, records, fields, constructors). Names of
goals, which the toolchain makes, and names of the functions of src/ keep their spelling. With --list the new names are
printed and nothing is written. Comments, strings and must-fail edits are left.
"""

import os
import re
import sys

SIGNATURE = re.compile(r"^(\s*)((?:abbrev |unfoldable |mutual |pub )*)((?:record |data )?)([^\s:(){}=.;,«»]+)\s*((?:[({].*?[)}]\s*)*):\s+(.*)$")
USE = re.compile(r"^\s*(?:pub )?(?:ghost )?use ([\w.'+-]+)\.\{([^}]*)\}")
TOKEN = re.compile(r"[\w'\-]+")
# lemmas that would get the name of a definition
LEMMAS = {
    "layer-run": "layer_run_lem",
    "layer-step": "layer_step_lem",
    "row-end": "row_end_lem",
    "row_from": "row_from_lem",
    "site-run": "site_run_lem",
    "site-step": "site_step_lem",
    "size-after": "size_after_lem",
    "terms-floor": "terms_floor_lem",
    "told-after": "told_after_lem",
}


def files():
    for folder, dirs, names in os.walk("crates"):
        dirs[:] = sorted(d for d in dirs if d not in ("out", "must-fail", "data"))
        for name in sorted(names):
            if name.endswith((".antt", ".rt")):
                yield os.path.join(folder, name)


def snake(name):
    name = name.replace("-", "_")
    return re.sub(r"(?<=[a-z0-9])([A-Z])", lambda m: "_" + m.group(1).lower(), name)


def camel(name):
    return "".join(part[:1].upper() + part[1:] for part in name.split("-"))


def new_name(name):
    return camel(name) if name[0].isupper() else snake(name)


def defined():
    found, foreign = {}, {}
    for path in files():
        if not path.endswith(".antt"):
            continue
        with open(path, encoding="utf-8") as f:
            for line in f:
                if line.lstrip().startswith("--"):
                    continue
                m = USE.match(line)
                if m:
                    if not any(m.group(1).startswith("Rattle." + c + ".") for c in os.listdir("crates")):
                        for item in m.group(2).split(","):
                            foreign.setdefault(item.strip().split(" as ")[0], path)
                    continue
                m = SIGNATURE.match(line.rstrip("\n"))
                if m and not m.group(6).startswith("goal."):
                    found.setdefault(m.group(4), []).append(path)
    return found, foreign


def main(argv):
    found, foreign = defined()
    words = {}
    for name in found:
        if name in foreign:
            if new_name(name) != name:
                print("kept, since the library has it too:", name, foreign[name], found[name])
            continue
        new = LEMMAS.get(name, new_name(name))
        if new != name:
            words[name] = new
    taken = {}
    for name in found:
        taken.setdefault(words.get(name, name), set()).add(name)
    for new, old in sorted(taken.items()):
        if len(old) > 1:
            print("fall together:", new, sorted(old), [sorted(set(found[o])) for o in sorted(old)])
    if "--list" in argv:
        for name in sorted(words):
            print(name, words[name])
        return 0
    for path in files():
        with open(path, encoding="utf-8") as f:
            lines = f.read().split("\n")
        out = []
        for line in lines:
            bare = line.lstrip()
            if bare.startswith("--") or bare.startswith("//"):
                out.append(line)
                continue
            if path.endswith(".antt") and re.match(r"\s*use [^{]*$", line):
                out.append(line)
                continue
            out.append(TOKEN.sub(lambda m: words.get(m.group(0), m.group(0)), line))
        if out != lines:
            with open(path, "w", encoding="utf-8") as f:
                f.write("\n".join(out))
    return 0


if __name__ == "__main__":
    raise SystemExit(main(sys.argv[1:]))
