#!/usr/bin/env python3
"""Runs the commands of README.md and docs/OPERATING.md as they are written, and compares their outputs with the pages.

    tried.py [PAGE ..]    runs those of these pages instead

A block of commands begins with ```sh, and a block that begins with ```text is the standard output of the commands since
the last such block; in it the line `..` stands for any lines. All commands of a page are run by one shell, in a copy of
the files of this checkout that git knows or doesn't ignore, which is removed afterwards. Blocks with `rt`, `docker`
and `./do gate` are left out. The exit status is 1 if an output differs or a command fails, and the time of each page is printed.
"""
import argparse
import pathlib
import re
import shutil
import subprocess
import sys
import tempfile
import time

TOP = pathlib.Path(__file__).resolve().parent.parent
PAGES = ("README.md", "docs/OPERATING.md")
BLOCK = re.compile(r"^```(sh|text)\n(.*?)^```$", re.MULTILINE | re.DOTALL)
ELSEWHERE = re.compile(r"^(rt|docker|sudo|\./do gate)\b", re.MULTILINE)
MARK = "---- after block"


def copy(folder):
    """Copies the files that git knows or doesn't ignore, with the program that was built here, if there is one."""
    listed = subprocess.run(["git", "ls-files", "-z", "--cached", "--others", "--exclude-standard"], cwd=TOP, capture_output=True, text=True, check=True)
    for name in filter(None, listed.stdout.split("\0")):
        if (TOP / name).is_symlink() or (TOP / name).is_file():
            (folder / name).parent.mkdir(parents=True, exist_ok=True)
            shutil.copy2(TOP / name, folder / name, follow_symlinks=False)
    built = TOP / "crates/kyoto_link/out"
    for name in ("kyoto_link", "kyoto-link.sources"):
        if (built / name).is_file():
            (folder / "crates/kyoto_link/out").mkdir(exist_ok=True)
            shutil.copy2(built / name, folder / "crates/kyoto_link/out" / name)


def fits(output, expected):
    """Whether the output is the expected text, in which the line `..` stands for any lines."""
    parts = [re.escape(line) if line != ".." else "(.*\n)*?.*" for line in expected.splitlines()]
    return re.fullmatch("\n".join(parts) + "\n?", output) is not None


def run(page, folder):
    """Runs the blocks of a page, and prints each output that differs. Returns the numbers of blocks and of faults."""
    blocks = [block for block in BLOCK.findall((TOP / page).read_text(encoding="utf-8")) if not ELSEWHERE.search(block[1])]
    script = "".join(f"{text}echo '{MARK}'\n" for kind, text in blocks if kind == "sh")
    shell = subprocess.run(["bash", "-euo", "pipefail", "-c", script], cwd=folder, capture_output=True, text=True, timeout=600)
    outputs, output, faults = iter(shell.stdout.split(f"{MARK}\n")), "", 0
    for kind, text in blocks:
        if kind == "sh":
            output = next(outputs, "")
        elif not fits(output, text):
            print(f"{page}: expected:\n{text}output:\n{output}")
            faults += 1
    if shell.returncode:
        print(f"{page}: a command ended with status {shell.returncode}\n{shell.stderr}")
        faults += 1
    return len(blocks), faults


def main():
    parser = argparse.ArgumentParser(description=__doc__.splitlines()[0])
    parser.add_argument("pages", metavar="PAGE", nargs="*", default=PAGES, help="a page, such as README.md")
    faults = 0
    for page in parser.parse_args().pages:
        with tempfile.TemporaryDirectory() as temporary:
            folder = pathlib.Path(temporary) / "kyoto-link"
            copy(folder)
            begin = time.monotonic()
            count, wrong = run(page, folder)
            print(f"{page}: {count} blocks in {time.monotonic() - begin:.1f} seconds, {wrong} faults")
            faults += wrong
    sys.exit(1 if faults else 0)


if __name__ == "__main__":
    main()
