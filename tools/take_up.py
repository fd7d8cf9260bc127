#!/usr/bin/env python3
"""Makes the branch `unfinished-work`: the commit that the unfinished work was written on, and the work laid over it as one
commit. `git merge unfinished-work` then sets it against what has changed since.

Each file of unfinished/ goes to its place (without .txt where the file was a source, a proof or an edit), and what
unfinished/removed.txt names goes away.

usage: python3 tools/take_up.py      at the top of the repository, once
"""

import os
import shutil
import subprocess
import tempfile

WRITTEN_ON = "c4d1267d13798ce0f466b3b51cf4fd4e6c0dffb7"
BRANCH = "unfinished-work"
SOURCES = (".rt.txt", ".antt.txt", ".edit.txt")


def git(*words, at="."):
    subprocess.run(["git", "-C", at, *words], check=True)


def place(path):
    """Where a file of unfinished/ belongs."""
    if path == "crate-list.txt":
        return "crates.txt"
    return path[: -len(".txt")] if path.endswith(SOURCES) else path


def lay_over(top):
    """Lays the unfinished work of a tree over that tree."""
    kept = os.path.join(top, "unfinished")
    with open(os.path.join(kept, "removed.txt"), encoding="utf-8") as names:
        for name in names.read().split():
            os.remove(os.path.join(top, name))
    os.remove(os.path.join(kept, "removed.txt"))
    for folder, _, files in os.walk(kept):
        for name in files:
            path = os.path.join(folder, name)
            to = os.path.join(top, place(os.path.relpath(path, kept)))
            os.makedirs(os.path.dirname(to), exist_ok=True)
            shutil.move(path, to)
    shutil.rmtree(kept)


def main():
    top = os.path.join(tempfile.mkdtemp(), BRANCH)
    git("worktree", "add", "-q", "-b", BRANCH, top, WRITTEN_ON)
    lay_over(top)
    git("add", "-A", at=top)
    git("commit", "-q", "-m", "Lay the unfinished work over the tree", at=top)
    git("worktree", "remove", top)
    print(f"now: git merge {BRANCH}")


main()
