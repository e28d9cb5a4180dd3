#!/usr/bin/env python3
"""Spells the definitions and lemmas of this repository as today's Rattle does: in snake case. Run once after port.py: tools/port_names.py [FOLDER]

A name is turned where an .antt file below crates/ declares it: a lower-case name with a capital or a dash in it gets underscores. Names that
begin with a capital (types, modules, constructors named after the Rust's variants) stay, and so do the names that Rattle makes (returns-2,
loop-i-preserved: what is declared at a type `tie.` or `goal.`). OTHER says which names would fall together with another, and what they
become. Turned are the words of .antt and .rt files and of the must-fail edits. A name that falls together with one that its file has
already is an error, and nothing is written.
"""
import os
import re
import sys

WORD = re.compile(r'[^\s(){}.;,@"«»\x60]+')
# labels of clauses, of .rt files alone, that would have a definition's name
LABELS = {"requires pair_cell {": "requires is_pair {", "requires table_len {": "requires whole_table {"}
UNDOTTED = re.compile(r"(?<![.\w:])" + WORD.pattern)
DECLARED = re.compile(r"(?m)^ *(?:(?:pub|abbrev|unfoldable|pattern|open|field) )*([^\s(){}.;,@\"«»:]+)(?: \{[^{}\n]*\})* :(?=\s)(.*)$")
USE = re.compile(r"\buse ([\w.]+)\.\{([^}]*)\}")
RULESET = re.compile(r"(?m)^ *(?:pub )?ruleset (?:pub )?(\S+)")
MADE = re.compile(r"\b(tie|goal)\.")

# where plain underscores would make two names one: a lemma that would have its function's name ends in _lem
OTHER = {
    name: name.replace("-", "_") + "_lem"
    for name in "dir-code from-leg is-leg leg-bytes opened-blank rest-of sent-kind silent-full state-code stored-msg2 to-look unsent-kind with-digit".split()
}
# lemmas that port.py gave such a name already; of .antt files alone, and not behind a dot
LEMMAS = {name: name + "_lem" for name in "held_bytes held_in next_word no_answer stored_on".split()}


def snake(name):
    words = re.sub(r"(?<=[a-z0-9])[A-Z]", lambda m: "_" + m[0].lower(), name)
    words = re.sub(r"(?<=[a-z0-9])[A-Z]", lambda m: m[0].lower(), words)
    return OTHER.get(name) or words.replace("-", "_")


def files(top, *ends):
    for folder, dirs, names in os.walk(os.path.join(top, "crates")):
        dirs[:] = sorted(d for d in dirs if d != "out")
        for name in sorted(names):
            if name.endswith(ends):
                yield os.path.join(folder, name)


def read(path):
    with open(path, encoding="utf-8") as f:
        text = f.read()
    for old, new in LABELS.items() if path.endswith(".rt") else ():
        text = text.replace(old, new)
    return text


def code(text, path):
    return re.sub(r"--[^\n]*" if path.endswith(".antt") else r"//[^\n]*", "", text)


def borrowed(text, crates):
    """The names that a file has from a library."""
    return {n for path, names in USE.findall(text) if path.split(".")[1:2] != [] and not (path.startswith("Rattle.") and path.split(".")[1] in crates) for n in names.split(", ")}


def turned(top):
    """The names to be turned, each with its new spelling."""
    found = {}
    for path in files(top, ".antt"):
        text = code(read(path), path)
        names = [n for n, rest in DECLARED.findall(text) if not MADE.search(rest)] + RULESET.findall(text)
        for name in names:
            if name[0].islower() and snake(name) != name and "◌" not in name:
                found[name] = snake(name)
    return found


def clashes(top, table):
    crates = set(os.listdir(os.path.join(top, "crates")))
    back = {}
    for old, new in table.items():
        back.setdefault(new, set()).add(old)
    for path in files(top, ".antt", ".rt"):
        words = set(UNDOTTED.findall(code(read(path), path)))
        words -= set(LEMMAS) if path.endswith(".antt") else set(re.findall(r"\b\w+(?=\()", code(read(path), path)))
        for new in sorted({table[w] for w in words & set(table) - borrowed(read(path), crates)}):
            here = (back[new] | {new}) & words
            if len(here) > 1:
                yield f"{os.path.relpath(path, top)}: {' and '.join(sorted(here))}"


def main():
    top = os.path.abspath(sys.argv[1] if len(sys.argv) > 1 else ".")
    table = turned(top)
    together = list(clashes(top, table))
    if together or "--list" in sys.argv:
        print("\n".join(together))
        sys.exit(f"{len(table)} names, {len(together)} fall together: nothing was written")
    crates = set(os.listdir(os.path.join(top, "crates")))
    count = 0
    for path in files(top, ".antt", ".rt", ".edit"):
        old = read(path)
        lemmas = LEMMAS if path.endswith(".antt") else {}
        kept = borrowed(old, crates)
        new = WORD.sub(lambda m: m[0] if m[0] in kept else table.get(m[0], m[0]), UNDOTTED.sub(lambda m: lemmas.get(m[0], m[0]), old))
        if new != old:
            count += 1
            with open(path, "w", encoding="utf-8") as f:
                f.write(new)
    print(f"{len(table)} names turned in {count} files")


if __name__ == "__main__":
    main()
