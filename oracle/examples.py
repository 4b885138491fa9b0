#!/usr/bin/env python3
"""Compares examples/*.out with the Rust's answers, over the standard's paper where it decides, as program `plan` prints them.

    examples.py            says which differ
    examples.py --write    writes them anew

Needs rustc. The exit status is 1 on a difference, and 2 where there is no answer to compare with.
"""

import argparse
import subprocess
import sys

from driver import ROOT, built, started, stop
from jobs import line


def said(program, *words, given=b""):
    """What a program writes."""
    done = subprocess.run([program, *words], input=given, stdout=subprocess.PIPE)
    if done.returncode:
        stop(f"{program} ends with {done.returncode}")
    return done.stdout


def answered(driver, example):
    """What the driver prints for a job, without the empty line behind it."""
    job = said(ROOT / "tools/job", example)
    return said(driver, given=line(job).encode()).decode().removesuffix("\n")


def main():
    words = argparse.ArgumentParser(description=__doc__, formatter_class=argparse.RawDescriptionHelpFormatter)
    words.add_argument("--write", action="store_true")
    chosen = words.parse_args()
    driver = built("jobs")
    different = 0
    for example in sorted((ROOT / "examples").glob("*.txt")):
        out, answer = example.with_suffix(".out"), answered(driver, example)
        if chosen.write:
            out.write_text(answer, encoding="ascii")
        elif not out.is_file() or out.read_text(encoding="ascii") != answer:
            different += 1
            print(f"{out.name} differs, the Rust says:\n{answer}", end="")
    if different:
        sys.exit(f"examples: {different} different")


if __name__ == "__main__":
    started(main)
