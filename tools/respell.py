#!/usr/bin/env python3
"""Respells the repository's own definitions and lemmas as today's Rattle spells its own: words in snake case.

usage: python3 tools/respell.py [FOLDER]     once, right after port.py, at the top of the repository (or in FOLDER)

Types, modules and the variants of types keep their capitals; a constant keeps its capitals and gets `_` for `-`. A name that would fall
together with another one gets `_lem`. It goes by tokens: in .antt files everywhere but in comments and in texts, in .rt files in `ghost use`
items and in the braces of clauses alone. Proof.antt files that walk the code are turned too, where they cite a name.
"""

import collections
import glob
import os
import re
import subprocess
import sys

DECLARED = re.compile(
    r"^( *)((?:abbrev |unfoldable |opaque |pub |mut )*)(record |data )?([^\s:(){}λ∀.,;=]+)"
    r"((?: +\{[^}]*\}| +\([^()]*(?:\([^()]*\)[^()]*)*\)| +ℓ\w*)*) *:(?: |$)",
    re.M,
)
TOKEN = re.compile(r"[^\s(){}\[\].,;=λ\"`·]+")
IMPORT = re.compile(r"^(?:pub )?(?:ghost )?use ([^\s{;]+?)\.\{([^}]*)\}", re.M)
CLAUSE = re.compile(r"^\s*(?:requires|ensures|ghost)\b[^{]*\{(.*)\}\s*$")


def read(path):
    with open(path, encoding="utf-8") as f:
        return f.read()


def snake(name):
    name = name.replace("getD", "get_or").replace("-", "_")
    if name[0].isupper() or re.search(r"[A-Z]{2}", name):
        return name
    return re.sub(r"(?<=[a-z0-9])([A-Z])", lambda m: "_" + m.group(1).lower(), name)


def own_files():
    found = glob.glob("crates/*/specs/**/*.antt", recursive=True) + glob.glob("crates/*/proofs/**/*.antt", recursive=True)
    return sorted(found)


def own_names(files):
    """Each declared name with the files that declare it. A walk's own names go with the walk."""
    found = collections.defaultdict(set)
    for path in files:
        if not path.endswith("/Proof.antt"):
            for m in DECLARED.finditer(re.sub(r"--.*", "", read(path))):
                found[m.group(4)].add(path)
    return found


def library_names():
    """The names that the kit's libraries declare. They lie beside the page that rt names."""
    page = subprocess.run(["rt", "doc"], capture_output=True, text=True, check=True, stdin=subprocess.DEVNULL).stdout.strip()
    found = set()
    for folder, _, names in os.walk(os.path.join(os.path.dirname(page), "rattle")):
        for name in names:
            if name.endswith(".antt"):
                with open(os.path.join(folder, name), encoding="utf-8", errors="replace") as f:
                    found |= {m.group(4) for m in DECLARED.finditer(f.read())}
    return found


def from_libraries(texts, crates):
    """The names that some file imports from a library of the kit."""
    found = set()
    for text in texts.values():
        for path, names in IMPORT.findall(text):
            parts = path.split(".")
            if not (parts[0] == "Rattle" and len(parts) > 1 and parts[1] in crates):
                found |= {n.split(" as ")[0].strip() for n in names.split(",")}
    return found


def cited(path, text):
    """The names that a file cites, without those behind a dot, which are a record's or a path's."""
    if path.endswith(".rt"):
        text = "\n".join(line for line in text.split("\n") if line.startswith("ghost use") or CLAUSE.match(line))
    return {m.group(0) for m in TOKEN.finditer(re.sub(r"--.*", "", text)) if text[m.start() - 1 : m.start()] != "."}


def renames(files, texts, crates):
    own, library, imported = own_names(files), library_names(), from_libraries(texts, crates)
    tokens = {path: cited(path, text) for path, text in texts.items() if not path.endswith("/Proof.antt")}
    users = collections.defaultdict(set)
    for path, those in tokens.items():
        for token in those:
            users[token].add(path)
    turned = {}
    for name in sorted(own):
        new = snake(name)
        if new != name and not (name in library and name in imported):
            turned[name] = new
    groups = collections.defaultdict(set)
    for name in own:
        groups[turned.get(name, name)].add(name)
    for new, names in groups.items():
        for name in sorted(names):
            meets = any(users[name] & users[other] for other in names if other != name)
            if name in turned and (meets or len(names) > 1) and "-" in name:
                turned[name] = new + "_lem"
    for new, names in groups.items():
        if new in names and any(users[new] & users[other] for other in names if turned.get(other) == new and other != new):
            turned[new] = new + "_lem"
    for name, new in list(turned.items()):
        others = [other for other in groups.get(new, ()) if other != name]
        if not others and users[name] & users[new]:
            turned[name] = new + "_lem"
    for name, new in list(turned.items()):
        if "◌" in name:
            turned.update(zip(filter(None, name.split("◌")), filter(None, new.split("◌"))))
    return turned


def turn(text, turned):
    def one(m):
        return turned.get(m.group(0), m.group(0))

    return TOKEN.sub(one, text)


def outside_comments(text, turned):
    lines = []
    for line in text.split("\n"):
        code, dashes, comment = line.partition("--") if line.lstrip().startswith("--") else re.match(r"(.*?)( --(?= ).*)?$", line).group(1, 2, 2)
        if line.lstrip().startswith("--"):
            lines.append(code + dashes + re.sub(r"`[^`]*`", lambda m: turn(m.group(0), turned), comment))
        else:
            parts = re.split(r'("[^"]*")', code)
            lines.append("".join(p if p.startswith('"') else turn(p, turned) for p in parts) + (comment or ""))
    return "\n".join(lines)


def in_clauses(text, turned):
    lines, inside = [], False
    for line in text.split("\n"):
        if line.lstrip().startswith("//"):
            line = re.sub(r"`[^`]*`", lambda m: turn(m.group(0), turned), line)
        elif line.startswith("ghost use") or inside or CLAUSE.match(line) or re.match(r"\s*(requires|ensures|ghost)\b", line):
            line = turn(line, turned)
            opened = line.count("{") - line.count("}")
            inside = opened > 0 if not inside else line.strip() not in ("}", "};")
        lines.append(line)
    return "\n".join(lines)


def no_dots(text):
    """`a as M·a` is `a` for a constant, and `a as m_a` otherwise."""
    for head, name in sorted(set(re.findall(r"(\w+)·([^\s(){}\[\].,;=λ]+)", text))):
        plain = name if name.isupper() or re.fullmatch(r"[A-Z_]+", name) else f"{head.lower()}_{name.replace('-', '_')}"
        text = text.replace(f"{head}·{name}", plain)
        text = re.sub(rf"\b{re.escape(name)} as {re.escape(name)}(?![\w'-])", name, text)
    return text


def main():
    if len(sys.argv) > 1:
        os.chdir(sys.argv[1])
    files = own_files()
    sources = sorted(glob.glob("crates/*/src/**/*.rt", recursive=True))
    crates = {path.split("/")[1] for path in files + sources}
    texts = {path: read(path) for path in files + sources}
    turned = renames(files, texts, crates)
    changed = 0
    for path, text in texts.items():
        new = in_clauses(text, turned) if path.endswith(".rt") else outside_comments(text, turned)
        new = no_dots(new)
        if new != text:
            changed += 1
            with open(path, "w", encoding="utf-8") as f:
                f.write(new)
    with open("tools/respelled.tsv", "w", encoding="utf-8") as f:
        f.writelines(f"{old}\t{new}\n" for old, new in sorted(turned.items()))
    print(f"respell: {len(turned)} names, {changed} files")


if __name__ == "__main__":
    main()
