#!/usr/bin/env python3
"""Brings the repository's own definitions, fields and lemmas to snake case, wherever ghost text or a document names them.

    tools/respell.py [FOLDER]            respells the repository in FOLDER, or the one that the script stands in
    tools/respell.py --names [FOLDER]    prints each old and new name, and changes nothing

Run it once, on what /opt/rattle/port/port.py leaves. Functions of src/, strings, file names, types and modules keep their
names, and so do the names that the checker makes for goals. It stops if two names would fall together in one file.
"""

import re
import sys
from pathlib import Path

# A name as ghost text has it.
NAME = r"[A-Za-zℕℤ_][A-Za-z0-9ℕℤ_'·-]*"
TOKEN = re.compile(r'"(?:[^"\\]|\\.)*"|' + NAME)
DEFINED = re.compile(r"^\s*(?:(?:abbrev|unfoldable|opaque|pub|private|record|data)\s+)*(" + NAME + r")\s*(?::|\(|\{)")
# What the checker makes: the goals of a function, and the modules of its own.
MADE = re.compile(r":\s*(?:abbrev\s+)?goal\.")
# Text of a .rt file that is read as ghost text: imports, clauses and ghost items.
GHOST = re.compile(r"^\s*(?:ghost\b|requires\b|ensures\b)")

# Names that would fall together with another one of the same file.
OTHERS = {
    "is-number": "is_number_within",
    "isFree": "is_free_state",
    "residualPart": "residual_part_of",
    "standingUnder": "standing_under_serial",
    "total-in": "total_inside",
}


def respelled(name):
    """The name in snake case."""
    if name in OTHERS:
        return OTHERS[name]
    name = name.replace("ℤ", "-int").replace("·", "-")
    return re.sub(r"([a-z0-9])([A-Z])", r"\1_\2", name).replace("-", "_").lower()


def sources(root, ending):
    return sorted(p for p in (root / "crates").rglob("*" + ending) if "out" not in p.relative_to(root).parts)


def defined(root):
    """The names that specs/ and the lemma files of proofs/ define, and the lemmas that stand beside the answers of goals."""
    names = set()
    for path in sources(root, ".antt"):
        goals = set()
        lines = path.read_text().split("\n")
        for line in lines:
            found = DEFINED.match(line)
            if found and MADE.search(line):
                goals.add(found.group(1))
        for line in lines:
            found = DEFINED.match(line)
            if found and found.group(1) not in goals:
                names.add(found.group(1))
    return names


def mapped(root):
    """Each name that is not in snake case yet, and what it becomes. Types and modules begin with a capital, and stay."""
    return {n: respelled(n) for n in defined(root) if n[0].islower() and respelled(n) != n}


def foreign(text, crates):
    """The names that a file takes from the library: they keep their spelling there."""
    found = set()
    for path, list_of in re.findall(r"\buse\s+([A-Za-z0-9_.]+)\.\{([^}]*)\}", text):
        parts = path.split(".")
        if len(parts) < 2 or parts[0] != "Rattle" or parts[1] not in crates:
            found |= set(re.split(r"[,\s]+", list_of))
    return found


def without(names, text, crates):
    taken = foreign(text, crates)
    return {old: new for old, new in names.items() if old not in taken}


def turned(text, names):
    return TOKEN.sub(lambda m: names.get(m.group(0), m.group(0)), text)


def turned_rust(text, names):
    """A .rt file with its ghost text respelled. A clause or a ghost item may go on over lines, until its braces close."""
    lines, depth, inside = [], 0, False
    for line in text.split("\n"):
        if inside or GHOST.match(line):
            lines.append(turned(line, names))
            bare = re.sub(r'"(?:[^"\\]|\\.)*"', "", line)
            depth += bare.count("{") - bare.count("}")
            inside = depth > 0
            if not inside:
                depth = 0
        else:
            lines.append(line)
    return "\n".join(lines)


def turned_document(text, names):
    """A document: only what stands between backticks."""
    return re.sub(r"`[^`\n]*`", lambda m: turned(m.group(0), names), text)


def together(path, text, names):
    """Names that would fall together in the file: one that stands there already, or two that become one."""
    tokens = set(TOKEN.findall(text))
    found = {}
    for token in tokens:
        found.setdefault(names.get(token, token), set()).add(token)
    return [f"{path}: {sorted(olds)} become {new}" for new, olds in sorted(found.items()) if len(olds) > 1]


def main(words):
    show = words[:1] == ["--names"]
    folder = words[show:]
    root = Path(folder[0]) if folder else Path(__file__).resolve().parent.parent
    names = mapped(root)
    if show:
        for old in sorted(names):
            print(old, names[old])
        return 0
    crates = {p.name for p in (root / "crates").iterdir()}
    clashes = []
    for path in sources(root, ".antt"):
        text = path.read_text()
        clashes += together(path, text, without(names, text, crates))
    if clashes:
        print("\n".join(clashes), file=sys.stderr)
        return 1
    for path in sources(root, ".antt"):
        text = path.read_text()
        path.write_text(turned(text, without(names, text, crates)))
    for path in sources(root, ".rt"):
        text = path.read_text()
        path.write_text(turned_rust(text, without(names, text, crates)))
    for path in [root / "README.md", *sorted((root / "docs").glob("*.md"))]:
        path.write_text(turned_document(path.read_text(), names))
    return 0


if __name__ == "__main__":
    raise SystemExit(main(sys.argv[1:]))
