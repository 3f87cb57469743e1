#!/usr/bin/env python3
"""Finds goals of a crate that `search` leaves and a call of `grind` proves, and writes that call as their answer.

    name_tactics.py --check "WORDS" --kept DIR CRATE FUNCTION..

Without an answer such a goal takes four to six seconds, and with it a third of a second. WORDS are the command of a
check of the crate with one job and the folder DIR (`--jobs 1 --incremental DIR`), to which the script adds `--start`,
`--only` and `--allow-holes`. The crates that CRATE uses must be built, and DIR may have the files of an earlier check,
as copies (never as links, since a check writes into it). FUNCTION is a name as a check prints it.

First `#![tactic(auto)]` at the root of the crate is replaced by `none` for a moment, and thus all goals are offered.
Then each goal is tried with `search rules` in a module of its own below the answers; the time of the module's file
gives its seconds. Goals that `search` leaves, or needs long for, are tried with each call of TACTICS. At the end only
the answers of the crate are changed. The script prints the numbers of functions, goals and answers. The exit status is
0, and 2 if the words are wrong.
"""

import argparse
import dataclasses
import pathlib
import re
import shlex
import subprocess
import sys
import time

SETS = ("common_steps", "elements")
TACTICS = ("grind (arith, common_steps)", "grind (arith, elements)", "grind arith")
# The seconds of `search` after which another call is tried, and the seconds by which that must be faster.
LONG, GAIN = 0.7, 0.3
GOAL = re.compile(r"^pub (\S+) : goal\.(\S+)\n(\S+) ([^=\n]*)= \?$", re.M)
TRIED = re.compile(r"\bTried(\d{5})\b")


@dataclasses.dataclass(frozen=True)
class Goal:
    name: str
    values: str


@dataclasses.dataclass
class Function:
    """The folder of a function's answers, the present answers, the imports that are offered for it, and its goals
    without an answer."""
    folder: pathlib.Path
    answers: str | None
    imports: list
    goals: list
    found: list = dataclasses.field(default_factory=list)


class Crate:
    def __init__(self, name, words, kept):
        self.name, self.words, self.kept = name, words, kept
        self.proofs, source = (pathlib.Path("crates") / name / it for it in ("proofs", "src"))
        self.root = next(it for it in (source / "main.rt", source / "lib.rt") if it.exists())
        self.texts = {it: it.read_text() for it in self.proofs.rglob("*.antt")}
        self.folders = {it for it in self.proofs.rglob("*") if it.is_dir()}

    def check(self, *flags):
        done = subprocess.run([*self.words, *flags], capture_output=True, text=True)
        return done.stdout + done.stderr

    def restore(self):
        """Restores the proof files."""
        for it in self.proofs.rglob("*.antt"):
            if it not in self.texts:
                it.unlink()
        for it, text in self.texts.items():
            if not it.exists() or it.read_text() != text:
                it.write_text(text)
        for it in sorted(self.proofs.rglob("*"), key=lambda it: -len(it.parts)):
            if it.is_dir() and it not in self.folders and not any(it.iterdir()):
                it.rmdir()

    def offered(self, functions):
        """Returns the functions that have goals without an answer."""
        text = self.root.read_text()
        found = []
        try:
            for it in self.texts:
                if it.name == "Answers.antt":
                    it.unlink()
            self.root.write_text(text.replace("#![tactic(auto)]", "#![tactic(none)]"))
            self.check(*[f"--start={it}" for it in functions])
            for it in self.proofs.rglob("Answers.antt"):
                offer, answers = it.read_text(), self.texts.get(it)
                answered = set(re.findall(r"^pub (\S+) :", answers or "", re.M))
                goals = [Goal(name, values) for name, _, _, values in GOAL.findall(offer) if name not in answered]
                if goals:
                    found.append(Function(it.parent, answers, [line for line in offer.split("\n") if line.startswith("use ")], goals))
        finally:
            self.root.write_text(text)
            self.restore()
        return found

    def tried(self, functions, named, tries):
        """Returns the seconds of each try, or None if it fails, and the seconds of all files. A try is a function, one
        of its goals, and a tactic."""
        begin = time.time()
        try:
            for function in functions:
                own = [(number, goal, tactic) for number, (it, goal, tactic) in enumerate(tries) if it is function]
                self.write_tries(function, own)
            said = self.check("--allow-holes", *[f"--only={it}" for it in named])
        finally:
            self.restore()
        failed = {int(TRIED.search(line)[1]) for line in said.split("\n") if "error" in line and TRIED.search(line)}
        files = sorted((it.stat().st_mtime, it) for it in self.kept.rglob("*.oantt") if not it.name.endswith(".decls.oantt"))
        seconds = {}
        for (before, _), (after, it) in zip(files, files[1:]):
            number = TRIED.search(it.name)
            if number and after > begin:
                seconds[int(number[1])] = after - before
                it.unlink()
        return [None if number in failed else seconds.get(number) for number in range(len(tries))], seconds

    def write_tries(self, function, own):
        folder = function.folder / "Answers"
        folder.mkdir(parents=True, exist_ok=True)
        path = ".".join(["Rattle", self.name, "proofs", *folder.relative_to(self.proofs).parts])
        first = {}
        for number, goal, tactic in own:
            imports = with_imports("\n".join(function.imports) + "\n", tactic)
            (folder / f"Tried{number:05}.antt").write_text(f"{imports}\npub it : goal.{goal.name}\nit {goal.values}= {tactic}\n")
            first.setdefault(goal, number)
        lines = (function.answers or "\n".join(function.imports)).split("\n")
        last = max(at for at, line in enumerate(lines) if line.startswith("use ")) + 1
        lines[last:last] = [f"pub mod Tried{it:05}" for it, _, _ in own] + [f"use {path}.Tried{it:05}.{{it as it{it:05}}}" for it, _, _ in own]
        for goal in function.goals:
            value = f"{goal.name} = it{first[goal]:05}" if goal in first else f"{goal.name} {goal.values}= ?"
            lines += ["", f"pub {goal.name} : goal.{goal.name}", value]
        (function.folder / "Answers.antt").write_text("\n".join(lines) + "\n")


def with_imports(text, tactics):
    """Returns the text with imports of the names in the tactics."""
    lines = text.split("\n")
    for source, names in ("Rattle.std.proofs.Common", ("arith", "rules")), ("Rattle.std.proofs.lemmas.Grind", SETS):
        wanted = [it for it in names if re.search(rf"\b{it}\b", tactics) and not re.search(rf"^use .*\b{it}\b", text, re.M)]
        at = next((at for at, line in enumerate(lines) if line.startswith(f"use {source}.{{")), None)
        if wanted and at is None:
            lines.insert(1 if "Grind" in source and lines[0].startswith("use Rattle.std.proofs.Common") else 0, f"use {source}.{{{', '.join(wanted)}}}")
        elif wanted:
            lines[at] = lines[at].replace("{", "{" + ", ".join(wanted) + ", ", 1)
    return "\n".join(lines)


def write_answers(function):
    tactics = " ".join(tactic for _, tactic in function.found)
    own = [line for line in function.imports if line.endswith(".Goals as goal")]
    text = with_imports(function.answers or "\n".join(own) + "\n", tactics).rstrip("\n") + "\n"
    for goal, tactic in function.found:
        text += f"\npub {goal.name} : goal.{goal.name}\n{goal.name} {goal.values}= {tactic}\n"
    function.folder.mkdir(parents=True, exist_ok=True)
    (function.folder / "Answers.antt").write_text(text)


def name_of(crate, function, names):
    """Returns the name of the function to which a folder of answers belongs, or of the function around its closure."""
    parts = list(function.folder.relative_to(crate.proofs).parts)
    if "fn" in parts:
        at = parts.index("fn")
        parts[at : at + 3] = parts[at + 1 : at + 2]
    return names.get(".".join(parts))


def main():
    parser = argparse.ArgumentParser(description=__doc__, formatter_class=argparse.RawDescriptionHelpFormatter)
    parser.add_argument("--check", required=True, metavar="WORDS")
    parser.add_argument("--kept", required=True, type=pathlib.Path, metavar="DIR")
    parser.add_argument("crate", metavar="CRATE")
    parser.add_argument("functions", nargs="+", metavar="FUNCTION")
    words = parser.parse_args()
    crate = Crate(words.crate, shlex.split(words.check), words.kept)
    names = {re.sub(r"[+<>&\[\]]", "", it).split("::", 1)[1].replace("::", "."): it for it in words.functions}
    functions = [it for it in crate.offered(words.functions) if name_of(crate, it, names)]
    named = sorted({name_of(crate, it, names) for it in functions})
    searches = [(it, goal, "search rules") for it in functions for goal in it.goals]
    proved, seconds = crate.tried(functions, named, searches)
    left = [(it, goal, took) for (it, goal, _), took in zip(searches, proved) if took is None or took > LONG]
    print(f"{len(functions)} functions with {len(searches)} goals, {sum(seconds.values()):.0f} seconds of search, {len(left)} left", flush=True)
    tries = [(it, goal, tactic) for it, goal, _ in left for tactic in TACTICS]
    proved, _ = crate.tried(functions, named, tries) if tries else ([], {})
    for at, (function, goal, took) in enumerate(left):
        found = [(it, tactic) for it, tactic in zip(proved[at * len(TACTICS) :], TACTICS) if it is not None]
        best = min(found, default=None, key=lambda it: it[0])
        if best and (took is None or best[0] < took - GAIN):
            function.found.append((goal, best[1]))
    for it in functions:
        if it.found:
            write_answers(it)
    print(f"{sum(len(it.found) for it in functions)} answers", flush=True)


if __name__ == "__main__":
    sys.exit(main())
