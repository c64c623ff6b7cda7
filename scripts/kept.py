#!/usr/bin/env python3
"""Gives a checkout the libraries that an earlier `rt ci` on this machine proved of the same files, so that a check of an upper crate begins at once.

    scripts/kept.py [FOLDER]

It asks the kit's `rt` for what it kept, by names that no page of the kit promises: where these are others it says so and gives nothing, and a check builds all
libraries itself. It is for whoever works on a crate; the gate doesn't use it."""
import importlib.machinery
import importlib.util
import os
import shutil
import sys


def kit():
    """The kit's command `rt`, as a module."""
    path = os.path.realpath(shutil.which("rt") or sys.exit("kept: there is no rt here"))
    loader = importlib.machinery.SourceFileLoader("rt_command", path)
    module = importlib.util.module_from_spec(importlib.util.spec_from_loader("rt_command", loader))
    loader.exec_module(module)
    return module


def give(rt, folder: str) -> tuple[list[str], list[str]]:
    """The names of the libraries that are there now, and of those that aren't: each stands on libraries that are."""
    os.chdir(folder)
    rt.Crate.allowed = rt.handles_of(folder)
    crates = [crate for crate in rt.crates_of(folder) if not crate.is_program]
    kept = rt.Kept(crates)
    given, lacking = [], []
    for crate in crates:
        if any(below.name in lacking for below in crate.below()) or not give_one(kept, crate):
            lacking.append(crate.name)
            continue
        kept.is_built(crate)
        given.append(crate.name)
    return given, lacking


def give_one(kept, crate) -> bool:
    """Whether the crate's library is there, with the stamp of a check's own."""
    key, note = kept.key(crate), f"{crate.folder}/out/rlib/given"
    if crate.is_built() and os.path.exists(note) and open(note, encoding="utf-8").read() == key:
        return True
    # What is given is the store's own files by other names, so none that stands there may be written over.
    shutil.rmtree(f"{crate.folder}/out/rlib", ignore_errors=True)
    os.makedirs(f"{crate.folder}/out", exist_ok=True)
    if not kept.give(crate, False, key):
        return False
    for path, text in ((f"{crate.folder}/out/rlib/stamp", crate.stamp()), (note, key)):
        with open(path, "w", encoding="utf-8") as file:
            file.write(text)
    return True


def main() -> None:
    """Gives, and says what is lacking."""
    sys.dont_write_bytecode = True
    folder = os.path.abspath(sys.argv[1] if len(sys.argv) > 1 else ".")
    try:
        rt = kit()
        given, lacking = give(rt, folder)
    except (AttributeError, TypeError, ValueError) as why:
        sys.exit(f"kept: this kit keeps its work otherwise ({why}): checks build the libraries themselves")
    print(f"kept: {len(given)} libraries given; lacking: {' '.join(lacking) or 'none'}")


main()
