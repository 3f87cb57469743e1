"""Lets the trials import the modules of checker/, bench/ and tools/."""

import pathlib
import sys

TOP = pathlib.Path(__file__).resolve().parent.parent
# checker/ has a module of the name of a trial, and comes first.
sys.path.insert(0, str(TOP / "checker"))
sys.path += [str(TOP / "bench"), str(TOP / "tools")]
