#!/usr/bin/env python3
"""Brings the names of this repository's own definitions from camelCase to snake_case.

The kit's script lets a file say `All` for the library's `AllByRecursion`, a name that stands for
something else there; each such file says `AllByRecursion` after this script.

    python3 tools/spell.py [--list] [FOLDER]

A name is one that a file of specs/ or proofs/ declares: a definition, a lemma, a field of a record
or a constructor. Facts and types begin with a capital and stay as they are. Each is respelled
wherever it stands as a whole word in an .antt file, and in the ghost lines and clauses of an .rt
file. A name that would fall together with another one, declared, imported or bound there, is
refused, and nothing is written. Functions, strings and what the programs read and print keep their
spelling.
"""
import glob
import re
import sys

SIGNATURE = re.compile(
    r"^\s*(?:(?:abbrev|unfoldable|pub)\s+)*([^\s(){};,.:λ→\"◌]+)\s+:\s"
)
# A word of antt: letters, digits, _, - and ', not glued to another such sign.
WORD = re.compile(r"[^\s(){}\[\];,.:λ→\"◌∷≡≤×⊎∙⌜⌝«»]+")
# What a `use` line brings in, and what a signature or a λ binds.
IMPORTED = re.compile(r"^\s*(?:ghost )?use [^\n{]*\{([^}]*)\}", re.MULTILINE)
BOUND = re.compile(r"[({]([^(){}:\n]+) : ")
# A lemma whose name a definition takes.
MOVED = {"first_pieces": "first_pieces-fitted"}
CAMEL = re.compile(r"(?<=[a-z0-9])[A-Z]")


ALIAS = "AllByRecursion as All"


def snake(name):
    return CAMEL.sub(lambda hump: "_" + hump.group(0).lower(), name)


def is_camel(name):
    return name[0].islower() and CAMEL.search(name) is not None


def proof_files(top):
    for part in ("specs", "proofs"):
        yield from sorted(glob.glob(f"{top}/crates/*/{part}/**/*.antt", recursive=True))


def source_files(top):
    yield from sorted(glob.glob(f"{top}/crates/*/src/**/*.rt", recursive=True))


def declared(top):
    names = set()
    for path in proof_files(top):
        for line in open(path, encoding="utf-8"):
            match = SIGNATURE.match(line)
            if match and ": goal." not in line and is_camel(match.group(1)):
                names.add(match.group(1))
    return names


def renamed(text, new):
    """The names that change in a text: those of `new`, and the library's, where it goes by another."""
    return {**new, "All": "AllByRecursion"} if ALIAS in text else new


def respelled(text, new):
    return WORD.sub(lambda word: new.get(word.group(0), word.group(0)), text)


def ghost_spans(text):
    """The parts of a source that antt reads: ghost items and the clauses of a contract."""
    start = re.compile(
        r"^[ \t]*(?:ghost\b|requires\b|ensures\b)[^\n{;]*[{;]", re.MULTILINE
    )
    at = 0
    while match := start.search(text, at):
        end = match.end()
        if text[end - 1] == "{":
            depth = 1
            while depth:
                depth += {"{": 1, "}": -1}.get(text[end], 0)
                end += 1
            if text.startswith(";", end):
                end += 1
        yield match.start(), end
        at = end


def turned_source(text, new):
    parts, last = [], 0
    for start, end in ghost_spans(text):
        parts += [text[last:start], respelled(text[start:end], new)]
        last = end
    return "".join(parts + [text[last:]])


def main():
    words = [word for word in sys.argv[1:] if word != "--list"]
    top = words[0] if words else "."
    new = {name: snake(name) for name in sorted(declared(top))}
    new.update({old: to for old, to in MOVED.items() if old in new.values()})
    texts = {path: open(path, encoding="utf-8").read() for path in proof_files(top)}
    sources = {path: open(path, encoding="utf-8").read() for path in source_files(top)}
    taken = set()
    ghosts = ["\n".join(text[a:b] for a, b in ghost_spans(text)) for text in sources.values()]
    for text in [*texts.values(), *ghosts]:
        for pattern in (IMPORTED, BOUND):
            for part in pattern.findall(text):
                taken.update(WORD.findall(part))
    for text in texts.values():
        taken.update(match.group(1) for match in map(SIGNATURE.match, text.splitlines()) if match)
    taken -= new.keys()
    fall = [name for name in new if new[name] in taken]
    if len(set(new.values())) < len(new) or fall:
        sys.exit(f"fall together: {', '.join(sorted(fall)) or 'two of the new names'}")
    if "--list" in sys.argv:
        for name, spelling in new.items():
            print(name, spelling)
        return
    for path, text in texts.items():
        turned = respelled(text.replace(ALIAS, "AllByRecursion"), renamed(text, new))
        if turned != text:
            open(path, "w", encoding="utf-8").write(turned)
    for path, text in sources.items():
        turned = turned_source(text.replace(ALIAS, "AllByRecursion"), renamed(text, new))
        if turned != text:
            open(path, "w", encoding="utf-8").write(turned)
    print(f"{len(new)} names respelled")


main()
