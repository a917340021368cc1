#!/usr/bin/env python3
"""Shows that the programs of tools/turned_away/ are turned away: each edit is applied to a copy of the repository, and
the compiler has to refuse the program in words that the edit names. Where it names several, any of them will do: the
compiler says it otherwise of a library that is built already."""
import pathlib
import shutil
import subprocess
import sys
import tempfile

ROOT = pathlib.Path(__file__).resolve().parent.parent


def fields(edit):
    told = {}
    for line in filter(None, edit.read_text().splitlines()):
        name, text = line.split(": ", 1)
        told.setdefault(name, []).append(text)
    return told


def copy_to(folder):
    files = subprocess.run(["git", "ls-files", "-z"], cwd=ROOT, check=True, capture_output=True).stdout
    for name in filter(None, files.decode().split("\0")):
        target = folder / name
        target.parent.mkdir(parents=True, exist_ok=True)
        shutil.copy2(ROOT / name, target)


def turned_away(edit, folder):
    told = fields(edit)
    [file], [old], [new] = told["file"], told["old"], told["new"]
    source = folder / file
    text = source.read_text()
    if text.count(old) != 1:
        return None, f"'{old}' stands {text.count(old)} times in {file}"
    source.write_text(text.replace(old, new))
    crate = source.parent.parent
    run = subprocess.run(["rt", "check", "--only", ""], cwd=crate, capture_output=True, text=True)
    source.write_text(text)
    output = run.stdout + run.stderr
    said = [words for words in told["says"] if words in output]
    return said[0] if run.returncode != 0 and said else None, output[-2000:]


def main():
    edits = sorted((ROOT / "tools" / "turned_away").glob("*.edit"))
    with tempfile.TemporaryDirectory() as name:
        folder = pathlib.Path(name)
        copy_to(folder)
        for edit in edits:
            said, output = turned_away(edit, folder)
            if said is None:
                print(output)
                sys.exit(f"not turned away as {edit.name} says")
            print(f"turned away: {edit.stem}: {said}")
    if len(edits) != 3:
        sys.exit("three programs are to be turned away")


if __name__ == "__main__":
    main()
