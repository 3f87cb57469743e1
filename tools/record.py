#!/usr/bin/env python3
"""Runs a bench or a trial, and keeps its output in docs/log/bench/NAME-DATE.txt.

    record.py NAME [WORDS ..]    runs bench/NAME.py or trials/NAME.py with these words

The file begins with the date, the machine, the sum of the sources and the command, and ends with the exit status of the
script. The output of a script that fails is kept too. The exit status is that of the script, and 2 after wrong words.
"""
import argparse
import datetime
import os
import pathlib
import platform
import subprocess
import sys

TOP = pathlib.Path(__file__).resolve().parent.parent
LOG = TOP / "docs/log/bench"


def processor():
    """Returns the name of the processor."""
    for line in pathlib.Path("/proc/cpuinfo").read_text(encoding="utf-8").splitlines():
        if line.startswith("model name"):
            return line.partition(":")[2].strip()
    return platform.machine()


def head(script, words):
    """Returns the lines above the output of a script."""
    sources = subprocess.run([TOP / "release/sources"], capture_output=True, text=True, check=True).stdout.strip()
    memory = os.sysconf("SC_PAGE_SIZE") * os.sysconf("SC_PHYS_PAGES") // 2**30
    busy = os.getloadavg()[0]
    return [f"date: {datetime.date.today()}", f"machine: {os.cpu_count()} of {processor()}, {memory} GB, load {busy:.1f} before",
            f"sources: {sources}", f"command: {script} {' '.join(words)}".rstrip()]


def main():
    parser = argparse.ArgumentParser(description=__doc__.splitlines()[0])
    parser.add_argument("name", metavar="NAME", help="a script of bench/ or trials/, without its ending")
    parser.add_argument("words", metavar="WORDS", nargs=argparse.REMAINDER, help="the words of the script")
    given = parser.parse_args()
    name, words = given.name, given.words
    script = next((it for it in (f"bench/{name}.py", f"trials/{name}.py") if (TOP / it).is_file()), None)
    if script is None:
        parser.error(f"neither bench/ nor trials/ has {name}.py")
    lines = head(script, words)
    bench = subprocess.Popen([sys.executable, script, *words], cwd=TOP, stdout=subprocess.PIPE, stderr=subprocess.STDOUT, text=True)
    for line in bench.stdout:
        print(line, end="", flush=True)
        lines.append(line.rstrip("\n"))
    status = bench.wait()
    LOG.mkdir(parents=True, exist_ok=True)
    path = LOG / f"{name}-{datetime.date.today()}.txt"
    path.write_text("\n".join([*lines, f"status: {status}", ""]), encoding="utf-8")
    sys.exit(status if status >= 0 else 1)


if __name__ == "__main__":
    main()
