#!/usr/bin/env python3
"""Brings the repository's own definitions, lemmas and their variables to snake case.

Run once at the top of the repository, right after the toolchain's port.py: python3 tools/respell.py
A second run is no run over: it takes `is_body`, by then a definition, for the lemma that port.py spells so.
It goes by text: a name is the repository's own if some file of specs/ or proofs/ declares or binds it and none imports it
from the library. Functions of src/ have snake case already. Names with a capital first keep it.
"""
import collections
import glob
import os
import re

ID = r"[A-Za-zℕℤμ][A-Za-z0-9_'₀-₉ℕℤ≡≤≢]*(?:-[A-Za-z0-9_'₀-₉ℕℤ≡≤≢]+)*"
# names that would fall together with another: a lemma of a definition's name, and a constructor of a function's
APART = {
    "all-ships": "all_ships_lem", "at-end": "at_end_lem", "class-within": "class_within_lem",
    "content-good": "content_good_lem", "empty-book": "empty_book_lem", "last-is": "last_is_lem",
    "note-class": "note_class_lem", "on-shelves": "on_shelves_lem", "settings-within": "settings_within_lem",
    "is_body": "is_body_lem", "so-far": "so_far_lem",
    "fired-book": "is_fired", "open-book": "is_open",
}


def odd(name):
    return "-" in name or (name[0].islower() and re.search("[A-Z]", name) is not None)


def snake(name):
    out = ""
    for i, c in enumerate(name.replace("-", "_")):
        out += ("_" if c.isupper() and i > 0 and out[-1] != "_" else "") + (c.lower() if name[0].islower() else c)
    return out if name[0].islower() else name.replace("-", "_")


def declared(text):
    """The names that a file declares or binds, and those that it imports, each with its module."""
    own, imported = set(), []
    for line in text.split("\n"):
        if line.strip().startswith("--"):
            continue
        m = re.match(r"\s*use (\S+?)\.\{(.*)\}", line)
        if m:
            for n in m.group(2).split(","):
                imported += [(m.group(1), part) for part in n.strip().split(" as ")]
            continue
        if line.strip().startswith("use "):
            continue
        m = re.match(r"\s*(?:(?:abbrev|pub|unfoldable) )*(" + ID + "(?: " + ID + r")*) :(?= |$)(.*)", line)
        if m and not re.match(r"\s*goal\.", m.group(2)):
            own.update(m.group(1).split())
        for m in re.finditer(r"[({](" + ID + "(?: " + ID + r")*) :", line):
            own.update(m.group(1).split())
        for m in re.finditer(r"let (" + ID + ")", line):
            own.add(m.group(1))
        for m in re.finditer(r"λ ((?:" + ID + r"|_)(?: (?:" + ID + r"|_))*)\.", line):
            own.update(n for n in m.group(1).split() if n != "_")
    return own, imported


def main():
    proofs = sorted(glob.glob("crates/*/specs/**/*.antt", recursive=True) + glob.glob("crates/*/proofs/**/*.antt", recursive=True))
    sources = sorted(glob.glob("crates/*/src/**/*.rt", recursive=True))
    crates = {line.split(":")[0] for line in open("crates.txt") if ":" in line and not line.startswith("#")}
    own, library = set(), set()
    for path in proofs:
        names, imported = declared(open(path).read())
        own |= names
        library |= {n for module, n in imported if module.split(".")[1] not in crates or module.split(".")[0] != "Rattle"}
    for path in sources:
        own.update(re.findall(r"ghost (" + ID + r"): \{", open(path).read()))
    table = {n: APART.get(n, snake(n)) for n in own if n not in library and (odd(n) or n in APART)}
    taken = collections.defaultdict(list)
    for n in own | library:
        taken[table.get(n, n)].append(n)
    for new, names in sorted(taken.items()):
        if len(names) > 1:
            print("fall together:", new, names)
    word = re.compile(ID)
    for path in proofs + sources:
        text = open(path).read()
        turn = lambda m: table.get(m.group(0), m.group(0)) if "-" not in m.group(0) or path.endswith(".antt") else m.group(0)
        new = "\n".join(line if line.strip().startswith(("--", "//")) else word.sub(turn, line) for line in text.split("\n"))
        if new != text:
            open(path, "w").write(new)
    # the library's own All goes by index; what these files say goes by recursion, so it takes that name
    for path in proofs + sources:
        text = open(path).read()
        if "AllByRecursion as All" in text:
            text = text.replace("AllByRecursion as All", "AllByRecursion")
            open(path, "w").write("\n".join(
                line if line.strip().startswith(("--", "//")) else word.sub(lambda m: "AllByRecursion" if m.group(0) == "All" else m.group(0), line)
                for line in text.split("\n")))
    pages = [p for p in glob.glob("docs/*.md") + ["README.md"] if os.path.exists(p) and not p.endswith("PORT.md")]
    for path in pages:
        text = open(path).read()
        new = re.sub(r"`([^`\n]+)`", lambda m: "`" + word.sub(lambda n: table.get(n.group(0), n.group(0)), m.group(1)) + "`", text)
        if new != text:
            open(path, "w").write(new)


main()
