#!/usr/bin/env python3
"""Writes crates/paper_list/stdout and crates/standard_papers/stdout from the lists, without any code of the crates.

    papers.py PAPER_LIST

PAPER_LIST is a Markdown table of ECMA-376's paper sizes, pairs of cells `code | size` with sizes such as `8.5 x 11 in`
or `210 x 297 mm`. The Rust's list is read out of taken.rs; the sizes of five codes are the standard's (standard.py). Without a
table of sizes, or where one of these five is another there, nothing is written, and the exit status is 2.
"""

import argparse
import pathlib
import re

import standard
from driver import ROOT, started, stop
from standard import units


def standard_sizes(text):
    sizes = {}
    for line in text.splitlines():
        cells = [cell.strip() for cell in line.strip().strip("|").split("|")]
        for code, size in zip(cells[::2], cells[1::2]):
            found = re.fullmatch(r"([0-9]{1,5}(?:\.[0-9]+)?) x ([0-9]{1,5}(?:\.[0-9]+)?) (in|mm)", size)
            if found and not re.fullmatch("[0-9]{1,5}", code):
                stop(f"a size and no code: {code} | {size}")
            if found:
                unit = 1.0 if found[3] == "in" else 25.4
                sizes[int(code)] = tuple(units(float(side) / unit) for side in found.group(1, 2))
    return sizes


def rust_inches(side):
    millimetres = re.fullmatch(r"mm_to_inches\(([0-9.]+)\)", side)
    return float(millimetres[1]) / 25.4 if millimetres else float(side.replace("_", ""))


def rust_sizes(text):
    row = re.compile(r"^ +([0-9]+) => \(\1, (\S+), (\S+)\),$", re.MULTILINE)
    return {int(code): (units(rust_inches(w)), units(rust_inches(h))) for code, w, h in row.findall(text)}


def lines(here, theirs):
    agree = other = missing = alone = 0
    for code in range(121):
        our = "%d x %d" % here[code] if code in here else None
        their = "%d x %d" % theirs[code] if code in theirs else None
        if our and their and our == their:
            agree += 1
        elif our and their:
            other += 1
            yield f"{code} another size: {our} here, {their} in the standard"
        elif their:
            missing += 1
            yield f"{code} not here: {their} in the standard"
        elif our:
            alone += 1
            yield f"{code} here only: {our}"
    yield f"{agree} agree, {other} of another size, {missing} not here, {alone} here only"


def write(program, its_lines):
    """Writes what a program has to print."""
    text = "".join(line + "\n" for line in its_lines)
    (ROOT / "crates" / program / "stdout").write_text(text, encoding="utf-8")


def main():
    words = argparse.ArgumentParser(description=__doc__, formatter_class=argparse.RawDescriptionHelpFormatter)
    words.add_argument("paper_list", metavar="PAPER_LIST", type=pathlib.Path)
    chosen = words.parse_args()
    theirs = standard_sizes(chosen.paper_list.read_text(encoding="utf-8", errors="replace"))
    if not theirs:
        stop(f"{chosen.paper_list} has no sizes")
    for code, sides in standard.UPRIGHT.items():
        if theirs.get(code) != sides:
            stop(f"{code} is {theirs.get(code)} in {chosen.paper_list}, and {sides} in standard.py")
    here = rust_sizes((ROOT / "oracle/taken.rs").read_text(encoding="utf-8")) | standard.UPRIGHT
    write("paper_list", lines(here, theirs))
    write("standard_papers", standard.lines())


if __name__ == "__main__":
    started(main)
