#!/usr/bin/env python3
"""Brings the names of this repository's own definitions, lemmas and variables to snake case.

usage: python3 tools/respell.py [--show]     at the top of the repository, once, after the kit's port.py

The names are those that files of crates/*/specs and crates/*/proofs declare or bind: camel case and dashes become underscores.
Types and modules keep their capitals, a name that a file takes from a library stays, and so does a name that Rattle makes.
Functions of src/ have snake case already. Comments and pages turn where a name stands in backticks, or stands bare and is in
camel case. --show prints the table and what would fall together, and writes nothing.
"""

import os
import re
import subprocess
import sys

TOKEN = r"[^\s(){}.;,@\"«»`]+"
DECLARED = re.compile(
    rf"(?m)^ *(?:(?:pub|abbrev|unfoldable|data|record|where|let|ruleset) )*({TOKEN})(?: \{{[^{{}}\n]*\}})* [:=](?= |$)"
)
BOUND = re.compile(r"[({]([^(){}:λ.→\n]+?) :(?= )")
LAMBDA = re.compile(r"λ ([^.(){}]+)\.")
USE = re.compile(r"\buse ([^\s;{]+)\.\{([^}]*)\}")
# Names that Rattle makes.
MADE = {"invariant-loop", "decreases-loop"}
# Names that the rule does not spell well, and the words of operators.
OTHERWISE = {
    "askedAt3Billion": "asked_at_3_billion",
    "askedBeside3Billion": "asked_beside_3_billion",
    "asks-for": "asks_for",
    "announces-itself": "announces_itself",
    "requests-as-root": "requests_as_a_root",
    "walks-to": "walks_to",
    "◌asks-for◌lasting◌": "◌asks_for◌lasting◌",
    "◌announces-itself": "◌announces_itself",
    "◌requests-as-root◌": "◌requests_as_a_root◌",
    "◌walks-to◌": "◌walks_to◌",
}


def files(*ends):
    tracked = subprocess.run(["git", "ls-files"], capture_output=True, text=True, check=True).stdout.split("\n")
    return [f for f in tracked if f.endswith(ends) and os.path.exists(f)]


def read(path):
    with open(path, encoding="utf-8") as f:
        return f.read()


def without_comments(text):
    return re.sub(r"(?m)(^|(?<=\s))--[^\n]*", "", text)


def in_snake_case(name):
    words = re.sub(r"(?<=[a-z0-9'])([A-Z]+)(?![a-z])", lambda m: "_" + m[1].lower(), name)
    words = re.sub(r"(?<=[a-z0-9'])[A-Z]", lambda m: "_" + m[0].lower(), words)
    return words.replace("-", "_")


def own_names():
    found = set()
    for path in files(".antt"):
        text = without_comments(read(path))
        found.update(DECLARED.findall(text))
        for group in BOUND.findall(text) + LAMBDA.findall(text):
            found.update(group.split())
    return {n for n in found if re.match(r"[a-z]", n) and (re.search(r"[A-Z]", n) or "-" in n)} - MADE


def library_names():
    found = set()
    for path in files(".antt", ".rt"):
        for module, names in USE.findall(without_comments(read(path))):
            own = re.match(r"Rattle\.(\w+)\.(specs|proofs)\b", module)
            if not own or own[1] == "std":
                found.update(n.strip().split(" as ")[0] for n in names.split(","))
    return found


def table():
    """Returns the new name of each old one. A lemma that would have the name of a definition beside it gets `_lem`."""
    names = {n: in_snake_case(n) for n in sorted(own_names() - library_names())}
    names.update(OTHERWISE)
    for _, tokens in fallen_together(names):
        for name in tokens:
            if "-" in name and name not in OTHERWISE:
                names[name] += "_lem"
    return names


def turn(text, names):
    return re.sub(TOKEN, lambda m: names.get(m[0], m[0]), text)


class ForPages(dict):
    """The table for text that port.py leaves alone: also the names that port.py has respelled."""

    def __init__(self, names):
        super().__init__(names)
        text = "\n".join(without_comments(read(path)) for path in files(".antt"))
        self.declared = set(DECLARED.findall(text))

    def get(self, name, otherwise):
        if name in self or not re.match(r"[a-z]", name):
            return super().get(name, otherwise)
        to = in_snake_case(name)
        return to if to in self.declared and re.search(r"[A-Z-]", name) else otherwise


def turn_prose(text, names):
    text = re.sub(r"`[^`\n]+`", lambda m: "`" + turn(m[0][1:-1], names) + "`", text)
    return re.sub(r"\w+", lambda m: names.get(m[0], m[0]) if re.search(r"[A-Z]", m[0]) else m[0], text)


def turn_antt(text, names):
    parts = re.split(r"((?:^|(?<=\s))--[^\n]*)", text)
    return "".join(turn_prose(p, names) if i % 2 else turn(p, names) for i, p in enumerate(parts))


def turn_rt(text, names):
    parts = re.split(r"(//[^\n]*)", text)
    return "".join(turn_prose(p, names) if i % 2 else turn(p, names) for i, p in enumerate(parts))


def fallen_together(names):
    """Returns, without repetition, names of one file that would be one name, unless one of them is a function of src/."""
    found = {}
    for path in files(".antt"):
        at = {}
        for token in set(re.findall(TOKEN, without_comments(read(path)))):
            at.setdefault(names.get(token, token), set()).add(token)
        for to, tokens in at.items():
            if len(tokens) > 1 and any("-" in t for t in tokens):
                found.setdefault(tuple(sorted(tokens)), path)
    return [(path, tokens) for tokens, path in sorted(found.items())]


def main():
    names = table()
    clashes = fallen_together(names)
    for path, tokens in clashes:
        print(f"{path}: {' and '.join(tokens)} would be one name")
    if "--show" in sys.argv[1:]:
        for old, new in names.items():
            print(f"{old}\t{new}")
        return
    if clashes:
        raise SystemExit(1)
    pages = ForPages(names)
    for ends, how, its in ((".antt", turn_antt, names), (".rt", turn_rt, names), (".edit", turn, pages), (".md", turn_prose, pages)):
        for path in files(ends):
            text = read(path)
            turned = how(text, its)
            if turned != text:
                with open(path, "w", encoding="utf-8") as f:
                    f.write(turned)
    print(f"{len(names)} names respelled")


main()
