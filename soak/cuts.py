"""Ends or fails a program at one of its calls on files, by a library that is loaded before it (cut.c)."""
import os
import subprocess

from common import ROOT


def library(folder):
    made = folder / "cut.so"
    if not made.exists():
        subprocess.run(["cc", "-shared", "-fPIC", "-O1", "-Wall", "-Wextra", str(ROOT / "soak/cut.c"), "-o", str(made), "-ldl"], check=True)
    return made


def environment(made, at, how):
    """At the call with the number `at`: kill, half (of a write, then kill), or an errno with which it fails."""
    return {**os.environ, "LD_PRELOAD": str(made), "CUT_AT": str(at), "CUT_HOW": str(how)}


def told_environment(made, told):
    """No call is cut, and each is told."""
    return {**os.environ, "LD_PRELOAD": str(made), "CUT_TOLD": str(told)}


def shown(given):
    return f"CUT_AT={given['CUT_AT']} CUT_HOW={given['CUT_HOW']}"
