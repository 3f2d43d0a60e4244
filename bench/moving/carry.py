#!/usr/bin/env python3
"""Carries patches for the old names over to the new ones.

bench/moving/carry.py OLD OUT PATCH..      (OLD: the last commit with the old names; OUT: a folder for the new patches)

It takes the patches, as `git format-patch` writes them, one after another on OLD in a clone of its own, runs move.py of this tree on the tree behind each,
and writes what came to it as a patch of the same name and message. A patch that does not fit any more has to be mended on OLD first.
"""
import shutil
import subprocess
import sys
import tempfile
from pathlib import Path

HERE = Path(__file__).resolve().parent


def git(folder, *words, **more):
    return subprocess.run(["git", "-C", folder, *words], check=True, text=True, stdout=subprocess.PIPE, **more).stdout


def commit_moved(old, moved, message):
    """The tree of `old` by its new names, as the next commit of `moved`."""
    for item in moved.iterdir():
        if item.name != ".git":
            shutil.rmtree(item) if item.is_dir() else item.unlink()
    shutil.copytree(old, moved, ignore=shutil.ignore_patterns(".git"), dirs_exist_ok=True)
    shutil.rmtree(moved / "bench/moving", ignore_errors=True)
    subprocess.run([sys.executable, HERE / "move.py", moved], stdout=subprocess.PIPE)
    git(moved, "add", "-A")
    git(moved, "commit", "-q", "--allow-empty", "--file=-", input=message)


def main():
    revision, out, *patches = sys.argv[1:]
    Path(out).mkdir(parents=True, exist_ok=True)
    with tempfile.TemporaryDirectory() as work:
        old, moved = Path(work, "old"), Path(work, "moved")
        git(HERE, "clone", "-q", "--no-checkout", git(HERE, "rev-parse", "--show-toplevel").strip(), str(old))
        git(old, "checkout", "-q", revision)
        moved.mkdir()
        git(moved, "init", "-q")
        commit_moved(old, moved, "moved")
        for patch in patches:
            git(old, "am", "-q", "-3", str(Path(patch).resolve()))
            commit_moved(old, moved, git(old, "log", "-1", "--format=%B"))
            Path(out, Path(patch).name).write_text(git(moved, "format-patch", "-1", "--stdout"))
            print(patch, git(moved, "diff", "--shortstat", "HEAD~1").strip())


if __name__ == "__main__":
    main()
