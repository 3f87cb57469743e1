"""Builds programs in C for the benches, by `gcc`."""

import shutil
import sys

from endings import run_to_end


def need(program, use):
    """Exits with status 1 if the program isn't on PATH."""
    if shutil.which(program) is None:
        sys.exit(f"{program}, which {use}, isn't on PATH")


def build_c(source, program, *options):
    """Builds a program from a source in C by gcc, whose messages go to standard error."""
    need("gcc", f"builds {source.name}")
    run_to_end(["gcc", "-O2", "-Wall", "-Wextra", "-o", program, source, *options])
