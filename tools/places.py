#!/usr/bin/env python3
"""Lists, in src/ at a commit, the places that a newer form of the language might make plainer.

    python3 tools/places.py [COMMIT] [POINT..]

A line that is listed is only a candidate. docs/DESIGN-PASS.md says what became of each.
"""
import re
import subprocess
import sys


def git(*words):
    return subprocess.run(["git", *words], capture_output=True, text=True, check=True).stdout


def sources(commit):
    names = git("ls-tree", "-r", "--name-only", commit, "crates").split("\n")
    return {n: git("show", f"{commit}:{n}") for n in names if re.fullmatch(r"crates/\w+/src/.*\.rt", n)}


def lines(files, test):
    for name, text in sorted(files.items()):
        for number, line in enumerate(text.split("\n"), 1):
            line = line.strip()
            if not line.startswith("//") and re.search(test, line):
                yield f"{name}:{number}: {line}"


def functions(files):
    """Each function: its file, name, parameters, and clauses."""
    for name, text in sorted(files.items()):
        for found in re.finditer(r"\bfn (\w+)(?:<[^(]*?>)?\((.*?)\)[^{;]*?((?:\n\s*(?:requires|ensures)[^\n]*)*)\n?\s*[{;]", text, re.S):
            parameters = [p.strip() for p in re.split(r",\s*(?![^<(\[]*[>)\]])", found[2]) if p.strip()]
            yield name, found[1], parameters, re.findall(r"(?:requires|ensures)\s*\w*\s*\{ (.*) \}", found[3])


def enums(files):
    for name, text in sorted(files.items()):
        for found in re.finditer(r"enum (\w+)[^{]*\{(.*?)\n\}", text, re.S):
            variants = re.findall(r"^    (\w+)([({]?)", found[2], re.M)
            if len(variants) <= 3 and any(v[1] for v in variants):
                yield f"{name}: enum {found[1]}: {', '.join(v[0] for v in variants)}"


def repeated_clauses(files):
    where = {}
    for name, function, _, clauses in functions(files):
        for clause in set(clauses):
            where.setdefault(clause, []).append(f"{name.split('/')[1]}::{function}")
    for clause, users in sorted(where.items()):
        if len(users) >= 3:
            yield f"{{ {clause} }} in {len(users)}: {', '.join(users)}"


def travelling(files):
    """Pairs and more of parameters, of one name and type, in three functions or more."""
    sets = {}
    for name, function, parameters, _ in functions(files):
        plain = sorted({p for p in parameters if ":" in p})
        for i, one in enumerate(plain):
            for other in plain[i + 1 :]:
                sets.setdefault((one, other), []).append(f"{name.split('/')[1]}::{function}")
    for pair, users in sorted(sets.items()):
        if len(users) >= 3:
            yield f"({pair[0]}, {pair[1]}) in {len(users)}: {', '.join(users)}"


def twins(files):
    """Functions and types of one shape: the same text once names, numbers and types are left out."""
    shapes = {}
    for name, text in sorted(files.items()):
        for found in re.finditer(r"(?m)^( *)(?:pub(?:\(crate\))? )?(?:fn|struct|enum|impl[^{\n]* for) ?(\w*).*?\n\1\}", text, re.S):
            body = re.sub(r"(?m)^\s*(?://|requires|ensures|ghost|#\[).*$", "", found[0])
            shape = re.sub(r"\w+", "w", re.sub(r"\s+", " ", body))
            if len(shape) > 40:
                shapes.setdefault(shape, []).append(f"{name}: {found[0].strip().splitlines()[0]}")
    for users in sorted(shapes.values()):
        if len(users) > 1:
            yield " ~ ".join(users)
    yield from handed_on(files)


def handed_on(files):
    """Functions that only hand their parameters on to another."""
    for name, text in sorted(files.items()):
        for found in re.finditer(r"fn (\w+)(?:<[^(]*?>)?\(([^{}]*?)\)[^{}]*(?:\{[^{}]*\}[^{}]*)*\{\n\s*(\w+)\(([\w, &]*)\)\n\s*\}", text):
            parameters = [p.split(":")[0].strip(" &") for p in found[2].split(",") if ":" in p]
            if parameters and parameters == [a.strip(" &") for a in found[4].split(",")]:
                yield f"{name}: {found[1]} hands on to {found[3]}"


POINTS = {
    1: ("enums of two or three cases with values, flags, numbers for kinds or refusals", lambda f: [*enums(f), *lines(f, r"^(pub(\(crate\))? )?\w+: bool,$|:\w+(\([^)]*\))?\)? => \d+,$|^(pub(\(crate\))? )?(order|policy|note|last): (u\d+|\[u32; 8\]),$")]),
    2: ("functions and types of one shape", twins),
    3: ("loops over numbers", lambda f: lines(f, r"\bfor \w+ in [^{]*\.\.|\bwhile (?!let)")),
    4: ("derives without equality, conversions to and from by name, literals of zeros, printing", lambda f: lines(f, r"#\[derive\(Clone, Copy\)\]|fn (number|cause|of|item)\(|^pub fn new\(\)|fn new\(\) -> \w+$|println!\(rt; \"FA")),
    5: ("clauses in three contracts or more, parameters that travel together", lambda f: [*repeated_clauses(f), *travelling(f)]),
    6: ("arrays beside a length, and lists by number", lambda f: lines(f, r"^(pub(\(crate\))? )?\w+: (\[.*; \d+\]|usize),$|let mut \w+ = \[.*; \w+\]")),
    7: ("traits, unit structs, and functions as values", lambda f: lines(f, r"^pub trait|^pub struct \w+;|\bfn\(|\bdyn\b|impl Fn")),
}


def main():
    words = sys.argv[1:]
    commit = words.pop(0) if words and not words[0].isdigit() else "HEAD"
    files = sources(commit)
    for point, (what, find) in POINTS.items():
        if words and str(point) not in words:
            continue
        found = list(find(files))
        print(f"{point}. {what}: {len(found)}")
        for one in found:
            print("   ", one)
    answers = [n for n in git("ls-tree", "-r", "--name-only", commit, "crates").split("\n") if re.search(r"/proofs/.*\.antt$", n)]
    if not words or "8" in words:
        total = sum(git("show", f"{commit}:{n}").count("\n") for n in answers)
        print(f"8. proof files: {len(answers)}, of them answers: {sum(n.endswith('/Answers.antt') for n in answers)}, lines in all: {total}")


if __name__ == "__main__":
    main()
