#!/usr/bin/env python3
"""Counts the places in crates/*/src that docs/DESIGN-PASS.md speaks of, point by point.

    tools/places.py [--list] [COMMIT]      in the working tree, or as COMMIT has it; --list prints each place

Each count is what a pattern finds, so that it can be repeated; what is to be thought of a place the page says.
"""
import collections
import pathlib
import re
import subprocess
import sys

ROOT = pathlib.Path(__file__).resolve().parent.parent
# Variants that say that there is nothing, or why not.
NOTHING = {"Refused", "Missed", "Missing", "Nothing", "Wrong", "Nobody", "Unlisted", "NoForm", "End", "TooDeep", "WrongLine", "Other", "Failed"}


def texts(commit, ending, folder):
    if commit is None:
        for path in sorted(ROOT.glob(f"crates/*/{folder}/**/*{ending}")):
            if "/out/" not in str(path):
                yield str(path.relative_to(ROOT)), path.read_text()
        return
    names = subprocess.run(["git", "-C", ROOT, "ls-tree", "-r", "--name-only", commit, "crates"], capture_output=True, text=True, check=True).stdout
    for name in names.split("\n"):
        if name.endswith(ending) and f"/{folder}/" in name and name.split("/")[2] == folder:
            yield name, subprocess.run(["git", "-C", ROOT, "show", f"{commit}:{name}"], capture_output=True, text=True, check=True).stdout


def bare(text):
    """Without comments and without clauses, which say what holds and not what is done."""
    text = re.sub(r"//[^\n]*", "", text)
    return re.sub(r"\n *(?:requires|ensures)\b[^{\n]*\{(?:[^{}]|\{[^{}]*\})*\}", "", text)


def functions(text):
    for found in re.finditer(r"\n( *)(?:pub (?:extern \"C\" )?)?fn (\w+)(?:<[^>]*>)?\(([^)]*)\)[^{]*\{\n(.*?)\n\1\}", bare(text), re.S):
        yield found.group(2), found.group(3), found.group(4), found.start()


def shape(name, body):
    """A body with its numbers, constants, variants and texts, and the function's own name, left out."""
    body = re.sub(r'b?"[^"]*"|b?\'[^\']*\'', "T", body)
    body = re.sub(rf"\b{name}\b", "F", body)
    body = re.sub(r"\b[A-Z][A-Z0-9_]+\b|\b0?x?[0-9][0-9a-z_]*\b", "N", body)
    return re.sub(r"\s+", " ", body)


def places(commit):
    found = collections.defaultdict(list)
    shapes = collections.defaultdict(list)
    for file, text in texts(commit, ".rt", "src"):
        code = bare(text)

        def each(point, pattern):
            for one in re.finditer(pattern, code):
                found[point].append(f"{file}: {' '.join(one.group(0).split())[:100]}")

        for one in re.finditer(r"enum (\w+) \{(.*?)\n\}", code, re.S):
            variants = set(re.findall(r"\n    (\w+)", "\n" + one.group(2)))
            if variants & NOTHING:
                found["1 enums with a variant for nothing or why not"].append(f"{file}: {one.group(1)} {sorted(variants)}")
        each("1 refusals passed on by hand", r"\b\w+::(?:Refused|Missed)\(\w+\)\s*=>\s*\w+::(?:Refused|Missed)\(\w+\)")
        each("1 numbers for kinds or failures", r"\bkind: u8|-> isize|got: isize")
        each("3 while and loop", r"\bwhile [^\n]*\{|\bloop \{")
        each("4 true and false written out by hand", r"=> (?:true|false),|\breturn (?:true|false);")
        each("4 equality by a method or function of our own", r"\.is\(|\bsame\(|\bis_of_kind\(")
        each("7 enums that say which test or step to run", r"\bSought\b|\bDeed\b(?!::)")
        for name, parameters, body, _ in functions(text):
            if body.count("\n") >= 1 or len(body) > 60:
                shapes[shape(name, body)].append(f"{file}: {name}")
            if re.search(r"\brow: usize,\s*above: usize", parameters):
                found["5 row and above side by side"].append(f"{file}: {name}")
            if re.search(r"&(?:mut )?\[u8\],\s*n: usize", parameters) or re.search(r"\bn: usize,\s*\w+: &(?:mut )?\[u8\]", parameters):
                found["6 a buffer with a length beside it"].append(f"{file}: {name}")
    for group in shapes.values():
        if len(group) > 1:
            found["2 functions alike but for names of constants, numbers and texts"].append("; ".join(group))
    for file, text in texts(commit, ".antt", "proofs"):
        for one in re.finditer(r"\n([\w-]+) c = (?:omega arith|tt)\n", text):
            found["8 answers that only say omega arith or tt"].append(f"{file}: {one.group(1)}")
    return found


def main(words):
    listed = "--list" in words
    commit = next((word for word in words if word != "--list"), None)
    for point, here in sorted(places(commit).items()):
        print(f"{len(here):5} {point}")
        if listed:
            for one in here:
                print(f"        {one}")


main(sys.argv[1:])
