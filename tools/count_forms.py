#!/usr/bin/env python3
"""Counts, in crates/*/src, the places that docs/DESIGN-PASS.md speaks of.

    tools/count_forms.py            the counts
    tools/count_forms.py --places   every place too, by file and line

It goes by text and finds candidates: what stays is listed in docs/DESIGN-PASS.md with a reason.
"""
import collections
import pathlib
import re
import sys

ROOT = pathlib.Path(__file__).resolve().parent.parent
WORD = re.compile(r"[A-Za-z_][A-Za-z_0-9]*|\d[\d_]*|'[a-z_]+|\S")


class Function:
    def __init__(self, path, line, name, head, requires, body, owner):
        self.path, self.line, self.name = path, line, name
        self.head, self.requires, self.body, self.owner = head, requires, body, owner

    def place(self):
        return f"{self.path}:{self.line} {self.owner}{self.name}"


def sources():
    for path in sorted(ROOT.glob("crates/*/src/**/*.rt")):
        yield path.relative_to(ROOT), path.read_text()


def bare(text):
    """The text without comments and ghost lines, line numbers kept."""
    return "\n".join("" if re.match(r"\s*(//|ghost )", line) else re.sub(r"\s//.*", "", line)
                     for line in text.split("\n"))


def closing(text, start):
    depth = 0
    for at in range(start, len(text)):
        if text[at] in "({[":
            depth += 1
        elif text[at] in ")}]":
            depth -= 1
            if depth == 0:
                return at
    return len(text) - 1


def functions():
    for path, text in sources():
        text = bare(text)
        for found in re.finditer(r"\bfn ([a-z_0-9]+)", text):
            at = found.end()
            if text[at:at + 1] == "<":
                at = text.index("(", at)
            end = closing(text, text.index("(", at))
            head = text[found.start():end + 1]
            requires, at = [], end + 1
            body = None
            while at < len(text):
                clause = re.compile(r"\s*(?:->[^{;]*?)?\s*(requires|ensures)\b[^{]*").match(text, at)
                if clause:
                    stop = closing(text, text.index("{", clause.end() - 1) if text[clause.end() - 1] != "{" else clause.end() - 1)
                    inner = text[clause.end():stop + 1].strip()
                    if clause.group(1) == "requires":
                        requires.append(" ".join(inner.strip("{} \n").split()))
                    at = stop + 1
                    continue
                opened = re.compile(r"\s*(?:->[^{;]*)?\s*([{;])").match(text, at)
                if opened and opened.group(1) == "{":
                    stop = closing(text, opened.end() - 1)
                    body = text[opened.end():stop]
                break
            if body is None:
                continue
            before = text[:found.start()]
            owner = ""
            for block in re.finditer(r"^impl\b[^{]*", before, re.M):
                if closing(text, block.end()) > found.start():
                    owner = re.sub(r"impl(<[^>]*>)?\s*", "", block.group(0)).strip().split(" for ")[-1] + "::"
            yield Function(path, before.count("\n") + 1, found.group(1), head, requires, body, owner)


def lines_with(pattern, keep=lambda line: True):
    for path, text in sources():
        for number, line in enumerate(bare(text).split("\n"), 1):
            if re.search(pattern, line) and keep(line):
                yield f"{path}:{number} {line.strip()}"


def two_sided_enums():
    for path, text in sources():
        text = bare(text)
        for found in re.finditer(r"\benum (\w+)[^{]*\{", text):
            inner = text[found.end():closing(text, found.end() - 1)]
            inner = re.sub(r"\([^)]*\)|\{[^}]*\}", "()", inner)
            variants = [v.strip() for v in inner.split(",") if v.strip()]
            if len(variants) == 2 and any("(" in v for v in variants):
                yield f"{path}:{text[:found.start()].count(chr(10)) + 1} enum {found.group(1)}: {', '.join(variants)}"


def passed_on_by_hand():
    arm = re.compile(r"(Ok\((\w+)\) => Ok\(\2\)|Err\((\w+)\) => Err\(|None => (?:None|Err\()|let Ok\(\w+\) = )")
    for path, text in sources():
        for number, line in enumerate(bare(text).split("\n"), 1):
            if arm.search(line):
                yield f"{path}:{number} {line.strip()}"


def shape(function):
    """The tokens of a function, with names, numbers and types made the same."""
    names, out = {}, []
    for word in WORD.findall(function.head[function.head.index("("):] + " => " + function.body):
        if re.match(r"\d", word):
            out.append("0")
        elif re.match(r"[A-Za-z_]", word) and word not in ("if", "else", "match", "let", "mut", "for", "in", "while", "return", "self", "Some", "None", "Ok", "Err"):
            out.append(names.setdefault(word, f"n{len(names)}"))
        else:
            out.append(word)
    return tuple(out)


def twins():
    groups = collections.defaultdict(list)
    for function in functions():
        made = shape(function)
        if len(made) >= 24:
            groups[made].append(function)
    for group in groups.values():
        if len(group) > 1:
            yield " ~ ".join(function.place() for function in group)


def twin_types():
    groups = collections.defaultdict(list)
    for path, text in sources():
        text = bare(text)
        for found in re.finditer(r"\bstruct (\w+)[^{;(]*\{", text):
            inner = text[found.end():closing(text, found.end() - 1)]
            fields = tuple(sorted(re.findall(r"(\w+: [^,\n]+),", inner)))
            if len(fields) > 1:
                groups[fields].append(f"{path}:{text[:found.start()].count(chr(10)) + 1} {found.group(1)}")
    for group in groups.values():
        if len(group) > 1:
            yield " ~ ".join(group)


def repeated_facts():
    seen = collections.defaultdict(list)
    for function in functions():
        for clause in set(function.requires):
            for fact in re.split(r"\s×\s", clause):
                fact = re.sub(r"\.(now|old)\b", "", fact).strip("() ")
                seen[(function.path.parts[1], fact)].append(function)
    for (crate, fact), group in sorted(seen.items()):
        if len(group) > 2:
            yield f"{crate}: {fact} ({len(group)}: {', '.join(f.name for f in group)})"


def travelling():
    seen = collections.defaultdict(set)
    for function in functions():
        inner = function.head[function.head.index("(") + 1:-1]
        given = [" ".join(p.split()) for p in re.split(r",(?![^<(\[]*[>)\]])", inner) if ":" in p]
        given = [re.sub(r"^mut ", "", p) for p in given]
        for a in range(len(given)):
            for b in range(a + 1, len(given)):
                for c in range(b + 1, len(given)):
                    seen[(function.path.parts[1], given[a], given[b], given[c])].add(function.owner + function.name)
    best = {}
    for (crate, *three), group in seen.items():
        if len(group) > 2:
            best.setdefault((crate, frozenset(group)), set()).update(three)
    for (crate, group), together in sorted(best.items(), key=lambda x: (x[0][0], sorted(x[0][1]))):
        yield f"{crate}: {', '.join(sorted(together))} ({', '.join(sorted(group))})"


POINTS = {
    "1a enums of two variants that carry values": two_sided_enums,
    "1b numbers for kinds": lambda: lines_with(r"\b\w*(kind|KIND)\w*: u\d+"),
    "1c results passed on by hand": passed_on_by_hand,
    "2a functions of one shape": twins,
    "2b types of the same fields": twin_types,
    "3 loops over numbers": lambda: lines_with(r"^\s*while\b|^\s*for \w+ in [^{]*\.\."),
    "4a conversions by hand": lambda: (f.place() for f in functions()
                                       if len(f.body.split(";")) == 1 and re.search(r"\bas [ui]\w+$|=> Some\(usize::from|::from\(\w+\)\s*$", f.body.strip(), re.M)),
    "4b texts chosen by hand": lambda: (f.place() for f in functions() if re.search(r"=> (f\.write_str\()?\"", f.body)),
    "4c comparisons by hand": lambda: lines_with(r"if (\w+) < (\w+) \{ \2 \} else \{ \1 \}"),
    "5a facts required three times or more in a crate": repeated_facts,
    "5b three parameters that travel together": travelling,
    "6a arrays in fields": lambda: lines_with(r"^\s*(pub |pub\(crate\) )\w+: \[[^\]]*; "),
    "6b lists searched by hand": lambda: lines_with(r"while \w+ < \w+ \{"),
    "7 switches: a bool that picks a step, a match on a call": lambda: lines_with(r"\b\w+: bool\b|match call|if names_sparse"),
}


def main():
    shown = "--places" in sys.argv[1:]
    for point, places in POINTS.items():
        found = list(places())
        print(f"{len(found):4} {point}")
        if shown:
            for place in found:
                print(f"       {place}")


main()
