"""What the tests take of the toolchain beside `rt`'s own commands: a check of a crate with altered texts, and the archive of a static
library, both over the libraries below as `rt` has built them. They are made by the words that `rt` itself gives to `rattle`."""
import importlib.machinery
import importlib.util
import os
import pathlib
import shutil
import subprocess
import sys
import tempfile

sys.dont_write_bytecode = True
BIN = pathlib.Path(os.path.realpath(shutil.which("rt") or "rt")).parent
PARTS = ("src", "specs", "proofs")


def of_rt():
    """The module in which `rt` says what a crate is and how it is checked."""
    if "rtlib" not in sys.modules:
        loader = importlib.machinery.SourceFileLoader("rtlib", str(BIN / "rtlib.py"))
        made = importlib.util.module_from_spec(importlib.util.spec_from_loader("rtlib", loader))
        sys.modules["rtlib"] = made
        loader.exec_module(made)
    return sys.modules["rtlib"]


def crate_of(root, name):
    """A crate as the repository's crates.txt lists it."""
    return next(it for it in of_rt().crates_below(str(root)) if it.name == name)


def are_built(crate):
    """Whether each library below the crate has been built."""
    return all(os.path.isdir(it.rlib) for it in crate.below())


def stands(crate):
    """Whether `rt check` proves the crate as it stands; it builds the libraries below and keeps its work for the checks that come."""
    return subprocess.run(["rt", "check"], cwd=crate.folder, stdout=subprocess.DEVNULL).returncode == 0


def linked(folder, to):
    """Copies kept work; what was proved, which a check replaces and never changes, by links where these can be made."""

    def copy(one, other):
        try:
            if one.endswith(".oantt"):
                return os.link(one, other)
        except OSError:
            pass
        return shutil.copy2(one, other)

    shutil.copytree(folder, to, copy_function=copy)


def rattle(crate, verb, room, *more):
    """A command of `rattle` on the crate's files in this folder: its status and what it said."""
    words = [str(BIN / "rattle"), verb, *crate.words(["--jobs", str(min(2, os.cpu_count() or 1))], keeps=False), *more]
    ran = subprocess.run(words, cwd=room, stdin=subprocess.DEVNULL, stdout=subprocess.PIPE, stderr=subprocess.STDOUT, text=True, errors="replace")
    return ran.returncode, ran.stdout


def checked(crate, texts, kept=None, keeps=False):
    """A check of the crate with these texts in place of its own, by their places in it: its status and what it said. It begins with
    what an earlier check kept in a folder, by default what `rt check` kept, if it kept anything; with `keeps` it adds to that folder."""
    with tempfile.TemporaryDirectory() as room:
        for part in PARTS:
            if os.path.isdir(f"{crate.folder}/{part}"):
                shutil.copytree(f"{crate.folder}/{part}", f"{room}/{part}")
        for place, text in texts.items():
            pathlib.Path(room, place).write_text(text)
        kept, more = kept or f"{crate.folder}/out/incremental", []
        if keeps:
            more = ["--incremental", str(kept)]
        elif os.path.isdir(kept):
            linked(kept, f"{room}/kept")
            more = ["--incremental", f"{room}/kept"]
        return rattle(crate, "check", room, *more)
