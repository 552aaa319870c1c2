#!/usr/bin/env python3
"""Spells this repository's own definitions and lemmas as Rattle spells its library's: types, records and facts in camel
case, everything else in snake case. Run once at the top of the repository, after the kit's port.py:

    python3 tools/respell.py [--check]

It goes over clauses in crates/*/src and over crates/*/specs and crates/*/proofs. Names that come from a library, names
of Rust items, names that Rattle makes of them (after `c.`, `l.`, `w.` and `goal.`, and the goals themselves), comments,
strings and edits stay. In README.md and docs/ it goes over what stands in backticks. It prints each name with its new spelling, and stops before it writes where two of them would
fall together in one file.
"""
import collections
import os
import re
import sys

LETTER = r"[A-Za-z_0-9'\u0370-\u03ffℕℤ]"
WORD = rf"{LETTER}+(?:-(?:{LETTER}|[*+])+)*"
USE = re.compile(r"^\s*(?:pub )?(?:ghost )?use ([^;\n{]*)\{?([^;\n]*)$", re.M)
QUIET_ANTT = re.compile(r'"(?:[^"\\\n]|\\.)*"|(?:^|(?<=\s))--(?:\s.*)?$', re.M)
QUIET_RT = re.compile(r'"(?:[^"\\\n]|\\.)*"|//.*$', re.M)
LIBRARIES = ("std", "core", "io")


def paths():
    for top in sorted(os.listdir("crates")):
        for part in ("src", "specs", "proofs"):
            for folder, folders, files in os.walk(os.path.join("crates", top, part)):
                folders.sort()
                for name in sorted(files):
                    if name.endswith((".rt", ".antt")):
                        yield os.path.join(folder, name)


def code_of(path, text):
    """The text with comments and strings blanked, at the same offsets."""
    quiet = QUIET_ANTT if path.endswith(".antt") else QUIET_RT
    return quiet.sub(lambda it: re.sub(r"[^\n]", " ", it.group()), text)


def from_library(path):
    own = re.match(r"Rattle\.(\w+)\.", path)
    return not own or own.group(1) in LIBRARIES


def made_names(code):
    made = set(re.findall(rf"({WORD}) : goal\.", code))
    for path, items in USE.findall(code):
        if re.search(r"\.(Goals|Given|Needs)\.?$", path.strip()):
            made |= set(re.findall(WORD, items))
    return made


def declared_names(code):
    code = USE.sub("", code)
    names = set(re.findall(rf"\b(?:record|data) ({WORD})", code))
    names |= set(re.findall(rf"\blet ({WORD})", code))
    names |= set(re.findall(rf"(?:^|[\s(;{{|])({WORD}) *: ", code))
    for binders in re.findall(rf"[({{]((?:{WORD} +)*{WORD}) : ", code):
        names |= set(binders.split())
    for binders in re.findall(rf"λ ((?:{WORD} *)+)\.", code):
        names |= set(binders.split())
    # the patterns on the left of a definition, and names given to imports
    for line in re.findall(rf"^ *{WORD}((?: {WORD})+) =", code, re.M):
        names |= set(line.split())
    names |= set(re.findall(rf"\bas ({WORD})", code))
    return {it for it in names if "-" in it}


def respelt(name):
    if name[0].isupper() and name[1] != "-":
        return "".join(part[:1].upper() + part[1:] for part in name.split("-"))
    return name.replace("-", "_")


def main():
    texts = {path: open(path, encoding="utf-8").read() for path in paths()}
    codes = {path: code_of(path, text) for path, text in texts.items()}
    table, brought = {}, set()
    for path, code in codes.items():
        for where, items in USE.findall(code):
            if from_library(where):
                brought |= set(re.findall(WORD, items))
            else:
                table.update({new: respelt(new) for new in re.findall(rf"\bas ({WORD})", items) if "-" in new})
        if path.endswith(".antt"):
            made = made_names(code)
            for name in declared_names(code):
                if name not in made:
                    table[name] = respelt(name)
    table = {old: new for old, new in table.items() if old not in brought}
    token = re.compile(rf"(?<![\w'-])(?:(?<![\w'])(?:[cwl]|goal|need)\.)?{WORD}")
    failed = False
    for path, code in codes.items():
        made = made_names(code)
        words = set(re.findall(WORD, USE.sub(lambda it: it.group(2), code)))
        news = collections.defaultdict(set)
        for old in words & set(table):
            news[table[old]].add(old)
        for new, olds in news.items():
            if len(olds) > 1 or (new in words and path.endswith(".antt")):
                print(f"falls together: {path}: {', '.join(sorted(olds))} -> {new}")
                failed = True

        def turned(it):
            word = it.group()
            if word.startswith(("c.", "w.", "l.", "goal.", "need.")) or word in made:
                return word
            return table.get(word, word)

        out, at = [], 0
        for it in token.finditer(code):
            out.append(texts[path][at : it.start()])
            out.append(turned(it))
            at = it.end()
        out.append(texts[path][at:])
        texts[path] = ("".join(out), texts[path])
    for old, new in sorted(table.items()):
        print(f"{old} -> {new}")
    for page in ["README.md", *(os.path.join("docs", it) for it in sorted(os.listdir("docs")) if it.endswith(".md"))]:
        text = open(page, encoding="utf-8").read()
        named = re.compile(rf"(?<![\w'-]){WORD}")
        new = re.sub(r"`[^`\n]+`", lambda it: named.sub(lambda word: table.get(word.group(), word.group()), it.group()), text)
        texts[page] = (new, text)
    if failed or "--check" in sys.argv:
        sys.exit(1 if failed else 0)
    for path, (new, old) in texts.items():
        if new != old:
            with open(path, "w", encoding="utf-8") as f:
                f.write(new)


main()
