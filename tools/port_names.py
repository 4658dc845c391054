#!/usr/bin/env python3
"""Brings the repository's own definitions and lemmas to the spelling of today's Rattle: snake case, and upper camel case
for types. Run once, at the top of the repository, after the toolchain's own script. It changes names in specs/ and
proofs/ and in the clauses and ghost imports of src/; strings and Rust's own names stay."""
import collections
import glob
import re
import sys

NAME = r"[^\s(){}\[\].,;:λ→×≡⊎≤\"`⊢]+"
DEFINED = re.compile(r"\s*((?:pub |abbrev |unfoldable |record |data )*)(" + NAME + r")\s+(?:[({].*?)?:")


def files(*ends):
    found = []
    for end in ends:
        found += glob.glob(f"crates/*/{end}", recursive=True)
    return sorted(set(found))


def respelled(name):
    if re.match(r"[A-Z]-", name):
        name = name[0].lower() + name[1:]
    if name[0].isupper() and "-" in name:
        first, *rest = name.split("-")
        return first + "".join(part[:1].upper() + part[1:] for part in rest)
    if name[0].isupper():
        return name
    return re.sub(r"(?<=[a-z])[A-Z]", lambda m: "_" + m.group().lower(), name).replace("-", "_")


def own_names():
    names = collections.defaultdict(set)
    for path in files("specs/**/*.antt", "proofs/**/*.antt"):
        for line in open(path, encoding="utf-8"):
            found = DEFINED.match(line)
            if found and ": goal." not in line and not line.lstrip().startswith("--"):
                names[found.group(2)].add(path)
    return names


def renames():
    names = own_names()
    return {name: respelled(name) for name in names if respelled(name) != name and re.search(r"\w", name)}


def foreign(text, crates):
    """The names that a file takes from other libraries: they stay."""
    taken = set()
    for path, listed in re.findall(r"use ([\w.'-]+)\.\{([^}]*)\}", text):
        parts = path.split(".")
        if not (parts[0] == "Rattle" and parts[1] in crates):
            for item in listed.split(","):
                taken |= set(item.split())
    return taken


def turned(text, table):
    return re.sub(NAME, lambda m: table.get(m.group(), m.group()), text)


def turned_code(text, table):
    """Only ghost lines and clauses of a .rt file, and no string in them."""
    out = []
    for line in text.split("\n"):
        bare = line.strip()
        ghost = re.match(r"(ghost|requires|ensures|//)", bare) or "ghost " in bare or "λ" in bare
        out.append(turned(line, table) if ghost and '"' not in line else line)
    return "\n".join(out)


def main():
    table = renames()
    crates = {path.split("/")[1] for path in glob.glob("crates/*/src")}
    everything = collections.Counter()
    for path in files("specs/**/*.antt", "proofs/**/*.antt", "src/**/*.rt"):
        everything.update(re.findall(NAME, open(path, encoding="utf-8").read()))
    targets = collections.Counter(table.values())
    for old, new in sorted(table.items()):
        if everything[new] or targets[new] > 1:
            print(f"falls together: {old} and {new} ({everything[new]} uses)", file=sys.stderr)
    if "--dry" in sys.argv:
        return
    for path in files("specs/**/*.antt", "proofs/**/*.antt", "src/**/*.rt"):
        text = open(path, encoding="utf-8").read()
        kept = foreign(text, crates)
        mine = {old: new for old, new in table.items() if old not in kept}
        new = turned_code(text, mine) if path.endswith(".rt") else turned(text, mine)
        if new != text:
            open(path, "w", encoding="utf-8").write(new)


main()
