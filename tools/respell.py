#!/usr/bin/env python3
"""Spells this repository's own definitions and lemmas as today's Rattle does: words in snake case, types and facts in camel case.

    tools/respell.py [ROOT]      ROOT: a repository that port.py of the kit has just turned; this one by default

Only names with a hyphen change that the crates' own specs/ and lemma files use and that no library is asked for. A name that begins
with a capital loses its hyphens and joins its words, any other has underscores. Where that would meet another name, NAMED gives one.
Names that Rattle makes for goals and steps, and functions, strings and prose stay.
"""
import pathlib
import re
import sys

ROOT = pathlib.Path(sys.argv[1] if len(sys.argv) > 1 else pathlib.Path(__file__).resolve().parent.parent).resolve()

# what would meet a type, a variant or a library's word of that spelling
NAMED = {
    "Account-command": "AccountAction",
    "Entry-command": "EntryAction",
    "Shell-command": "ShellAction",
    "Setup-line": "LineOfSetup",
    "No-session": "HasNoSession",
    "bit-or": "or_of_bits",
    "every-getD": "every_get_or",
    "Mode-of": "mode_of",
}

# a definition of `moving` has the name of a clause's label: the label stays
LABELLED = {"held-after": "buffer_after", "held_after": "buffer_after"}

NAME = re.compile(r"[^\s(){}.;,@\"«»\[\]`]+")
HYPHENS = re.compile(r"[A-Za-zα-ω]\w*(-[\w']+)+")
JOINED = re.compile(r"[A-Z]\w*[a-z]_[a-z]\w*")
USE = re.compile(r"^\s*(?:pub )?use ([^\s{]+?)(?:\.\{([^}]*)\})?(?: as \S+)?\s*$", re.M)
PARTS = re.compile(r'(--.*|//.*|"(?:[^"\\\n]|\\.)*")')
QUOTED = re.compile(r"`[^`\n]*`")


def lemma_files():
    """The files whose names are this repository's own."""
    return [*ROOT.glob("crates/*/specs/*.antt"), *ROOT.glob("crates/*/proofs/*.antt")]


def code_parts(text):
    """The text in pieces, each with whether it is code and no comment or string."""
    return [(part, n % 2 == 0) for n, part in enumerate(PARTS.split(text))]


def of_libraries(files):
    """The names that are asked of libraries."""
    own = {folder.name for folder in (ROOT / "crates").iterdir()}
    found = set()
    for file in files:
        for path, items in USE.findall("".join(part for part, code in code_parts(file.read_text()) if code)):
            steps = path.split(".")
            if steps[0] != "Rattle" or steps[1] not in own:
                found |= {item.split(" as ")[0].strip() for item in items.split(",")}
    return found


def spelling(name):
    """The new spelling of a name with hyphens."""
    if name in NAMED:
        return NAMED[name]
    if name[0].isupper():
        return "".join(word[:1].upper() + word[1:] for word in name.split("-"))
    return name.replace("-", "_")


def turned(text, names):
    """A text with the names in their new spelling: all of code, of comments what is quoted, of strings nothing."""
    def in_code(part):
        return NAME.sub(lambda m: names.get(m[0], m[0]), part)

    def in_comment(part):
        return QUOTED.sub(lambda m: in_code(m[0]), part)

    return "".join(in_code(part) if code else part if part[0] == '"' else in_comment(part) for part, code in code_parts(text))


def main():
    files = sorted(lemma_files())
    every = sorted([*ROOT.glob("crates/*/specs/**/*.antt"), *ROOT.glob("crates/*/proofs/**/*.antt")])
    libraries = of_libraries(every)
    sources = sorted(ROOT.glob("crates/*/src/*.rt"))
    used = {name for file in [*files, *sources] for part, code in code_parts(file.read_text()) if code for name in NAME.findall(part)}
    names = {name: spelling(name) for name in used if HYPHENS.fullmatch(name) and name not in libraries}
    # types that port.py has given an underscore
    names |= {name: spelling(name.replace("_", "-")) for name in used if JOINED.fullmatch(name) and name not in libraries}
    names["held-after"] = LABELLED["held-after"]
    meet = {name for name, new in names.items() if new in used or new in libraries}
    print("meets another name, and may:", *sorted(meet))
    for file in [*every, *sources]:
        text = file.read_text()
        new = turned(text, names | LABELLED if file.match("crates/moving/specs/*") else names)
        if new != text:
            file.write_text(new)
    print(f"{len(names)} names")


main()
