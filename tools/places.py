"""Lists the places of src/ where an older form of code may stand, by point of docs/DESIGN-PASS.md.

    python3 tools/places.py [COMMIT] [POINT ..]

Without a commit it reads the working tree. Tests (behind `#[cfg(test)]`) are left out. A line is a place to
look at, and no verdict.
"""

import collections
import os
import re
import subprocess
import sys

BY_LINE = {
    "1": [
        r"^\s*(pub )?enum \w+",
        r"^\s+(pub )?\w+: bool,$",
        r"(Err|Some)\(\w+\) => (return )?Err\(",
        r"-> Option<\w*(Refusal|Fault|Refused)\w*>",
        r"fn number\w*\(|^\s+pub number: u32",
    ],
    "3": [
        r"\bwhile\b",
        r"for \w+ in [^{]*\.\.",
        r"\.enumerate\(\)",
    ],
    "4": [
        r"=> true,$",
        r"fn (bits|of_letter|digit_value|digit_byte|word|carry|negated|is_lower|side)\b",
        r"fn (push_decimal|push_hex|push_pattern|print_\w+|none|plus)\b",
    ],
    "6": [
        r"\[\w+; \w+\]",
        r"^\s+(pub )?(\(crate\) )?len: usize",
        r"fn (descending|inserted)\b",
        r"^    \w+: &(mut )?\[",
    ],
    "7": [
        r"match (self|operation|form|sides)\b",
        r"\bdyn\b|: fn\(",
        r"impl Fn|F: Fn",
        r"^\s+(let \w+ = )?if \w+(\.\w+)*\.is_far\(",
    ],
}


def files(commit):
    """The sources of crates, by path."""
    if commit is None:
        names = subprocess.check_output(["git", "ls-files", "crates"], text=True).split()
        names = [n for n in names if os.path.exists(n)]
    else:
        names = subprocess.check_output(["git", "ls-tree", "-r", "--name-only", commit, "crates"], text=True).split()
    for name in names:
        if "/src/" in name and name.endswith(".rt"):
            if commit is None:
                text = open(name).read()
            else:
                text = subprocess.check_output(["git", "show", f"{commit}:{name}"], text=True)
            yield name, text.split("#[cfg(test)]")[0]


def by_line(sources, point):
    """Lines that a pattern of the point finds."""
    found = 0
    for name, text in sources:
        for number, line in enumerate(text.split("\n"), 1):
            if line.lstrip().startswith("//"):
                continue
            if any(re.search(pattern, line) for pattern in BY_LINE[point]):
                found += 1
                print(f"  {name}:{number}: {line.strip()}")
    print(f"point {point}: {found} lines")


def impls(sources):
    """Traits of the repository with several impls: the impls may be twins."""
    of = collections.defaultdict(list)
    own = set()
    for name, text in sources:
        own.update(re.findall(r"^pub trait (\w+)", text, re.M))
        for trait, target in re.findall(r"^impl(?:<.*>)? (\w+) for (\w+)", text, re.M):
            of[trait].append(f"{target} ({name})")
    rows = {t: v for t, v in of.items() if t in own and len(v) > 1}
    for trait, targets in sorted(rows.items()):
        print(f"  {trait}: {', '.join(targets)}")
    twins = shapes(sources)
    for places in twins:
        print(f"  alike: {', '.join(places)}")
    print(f"point 2: {len(rows)} traits with several impls, {len(twins)} groups of functions of one shape")


def shapes(sources):
    """Functions whose lines differ in words and numbers only, five lines or more."""
    of = collections.defaultdict(list)
    for name, text in sources:
        starts = [m.start() for m in re.finditer(r"^ *(pub(\(crate\))? )?(extern \"C\" )?fn \w+", text, re.M)]
        for start in starts:
            indent = re.match(r" *", text[start:]).group(0)
            end = text.find(f"\n{indent}}}\n", start)
            body = text[start : end if end >= 0 else len(text)]
            lines = [line.strip() for line in body.split("\n") if not line.strip().startswith(("//", "requires", "ensures"))]
            if len(lines) < 5:
                continue
            shape = re.sub(r"\w+", "w", " ".join(lines))
            function = re.search(r"fn (\w+)", body).group(1)
            of[shape].append(f"{name}::{function}")
    return [places for places in of.values() if len(places) > 1]


def functions(sources):
    """Each function's crate, name, parameters and required facts."""
    for name, text in sources:
        starts = [m.start() for m in re.finditer(r"\bfn \w+", text)] + [len(text)]
        for start, end in zip(starts, starts[1:]):
            body = text[start:end]
            head = re.match(r"fn (\w+)", body).group(1)
            facts = re.findall(r"requires (?:\w+ )?\{ (.*) \}\n", body)
            signature = re.search(r"\((.*?)\)\s*(?:->|\n|\{)", body, re.S)
            pairs = re.findall(r"(\w+): ([^,()]+)", signature.group(1)) if signature else []
            yield name.split("/")[1], head, [(n, t.strip()) for n, t in pairs], facts


def together(sources):
    """Facts required by three or more functions, and pairs of parameters of three or more."""
    facts = collections.defaultdict(list)
    pairs = collections.defaultdict(list)
    for crate, name, parameters, required in functions(sources):
        for fact in required:
            facts[crate, fact].append(name)
        for i, first in enumerate(parameters):
            for second in parameters[i + 1 :]:
                pairs[crate, first, second].append(name)
    rows = [(k, v) for k, v in sorted(facts.items()) if len(v) >= 3]
    for (crate, fact), names in rows:
        print(f"  {crate}: {fact}: {', '.join(names)}")
    others = [(k, v) for k, v in sorted(pairs.items()) if len(v) >= 3]
    for (crate, first, second), names in others:
        print(f"  {crate}: {': '.join(first)}, {': '.join(second)}: {', '.join(names)}")
    print(f"point 5: {len(rows)} facts, {len(others)} pairs of parameters")


def answers(commit):
    """Answers and lines in proof files, by crate."""
    count = collections.Counter()
    lines = collections.Counter()
    if commit is None:
        names = subprocess.check_output(["git", "ls-files", "crates"], text=True).split()
    else:
        names = subprocess.check_output(["git", "ls-tree", "-r", "--name-only", commit, "crates"], text=True).split()
    for name in names:
        if "/proofs/" not in name or not name.endswith(".antt"):
            continue
        if commit is None:
            if not os.path.exists(name):
                continue
            text = open(name).read()
        else:
            text = subprocess.check_output(["git", "show", f"{commit}:{name}"], text=True)
        crate = name.split("/")[1]
        lines[crate] += text.count("\n")
        if name.endswith("/Answers.antt"):
            count[crate] += len(re.findall(r"^pub [\w+-]+ : goal\.", text, re.M))
    for crate in sorted(lines):
        print(f"  {crate}: {count[crate]} answers, {lines[crate]} lines of proof files")
    print(f"point 8: {sum(count.values())} answers, {sum(lines.values())} lines")


def main():
    arguments = sys.argv[1:]
    commit = None
    if arguments and not arguments[0].isdigit() or arguments and len(arguments[0]) > 1:
        commit = arguments.pop(0)
    points = arguments or list("12345678")
    sources = list(files(commit))
    for point in points:
        if point in BY_LINE:
            by_line(sources, point)
        elif point == "2":
            impls(sources)
        elif point == "5":
            together(sources)
        else:
            answers(commit)


if __name__ == "__main__":
    main()
