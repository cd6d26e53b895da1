#!/usr/bin/env python3
"""Applies each edit of .ci/compile-errors to a copy of the sources, and demands the compile error that the edit names.

An edit has lines 'crate:', 'file:', 'old:' (standing once in the file), 'new:' and 'error:'. A program that reaches the edited
crate is then tried, which proves nothing: the compiler must refuse it with just that error, and no other.
"""
import pathlib
import shutil
import subprocess
import sys
import tempfile

TOP = pathlib.Path(__file__).resolve().parent.parent


def dependencies():
    """The dependencies of each crate, as crates.txt lists them."""
    deps = {}
    for line in (TOP / "crates.txt").read_text().splitlines():
        line = line.split("#")[0].strip()
        if line:
            name, rest = line.split(":")
            deps[name.split()[0]] = rest.split()
    return deps


def reached(deps, name):
    """The crates that a crate reaches."""
    seen = set(deps.get(name, ()))
    for d in deps.get(name, ()):
        seen |= reached(deps, d)
    return seen


def program_over(deps, crate):
    """The first program that reaches the crate."""
    return next(p for p in deps if (TOP / "crates" / p / "src" / "main.rt").exists() and crate in reached(deps, p))


def read_edit(path):
    """The fields of an edit."""
    fields = {}
    for line in path.read_text().splitlines():
        key, found, value = line.partition(": ")
        if found and key in ("crate", "file", "old", "new", "error"):
            fields[key] = value
    return fields


def errors(deps, edit):
    """What the compiler says of the edited crate."""
    with tempfile.TemporaryDirectory() as temp:
        copy = pathlib.Path(temp)
        shutil.copy(TOP / "crates.txt", copy)
        shutil.copytree(TOP / "crates", copy / "crates", ignore=shutil.ignore_patterns("out"))
        source = copy / "crates" / edit["crate"] / edit["file"]
        text = source.read_text()
        if text.count(edit["old"]) != 1:
            return [f"the old text does not stand once in {edit['file']}"]
        source.write_text(text.replace(edit["old"], edit["new"]))
        program = copy / "crates" / program_over(deps, edit["crate"])
        said = subprocess.run(["rt", "try"], cwd=program, text=True, capture_output=True, stdin=subprocess.DEVNULL)
        lines = (said.stdout + said.stderr).splitlines()
        return [line for line in lines if "error" in line] or [f"no error (status {said.returncode})"]


def main():
    deps = dependencies()
    wrong = 0
    for path in sorted((TOP / ".ci" / "compile-errors").glob("*.edit")):
        edit = read_edit(path)
        said = errors(deps, edit)
        if len(said) == 1 and f": {edit['error']}:" in said[0]:
            print(f"compile error {path.stem}: refused, as it must be")
        else:
            print(f"compile error {path.stem}: NOT AS EXPECTED: {said}")
            wrong += 1
    sys.exit(1 if wrong else 0)


main()
