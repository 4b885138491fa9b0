#!/usr/bin/env python3
"""Takes items unchanged out of the Rust source and writes them to taken.rs.

    take.py SRC           write taken.rs
    take.py --check SRC   say whether taken.rs is what would be written

SRC is the folder that holds render/src/print.rs and src/model/print.rs. The exit status is 1 where taken.rs is not that, and 2
where an item is not found.
"""

import argparse
import pathlib
import re
import sys

from driver import started, stop

COMMIT = "04f9f004cc"

# File and item, in the order in which they are written. An item is named as the Rust names it:
# its keyword and its name, or the head of an impl.
ITEMS = [
    ("render/src/error.rs", "enum LimitKind"),
    ("render/src/error.rs", "enum RenderError"),
    ("render/src/scene.rs", "const FIXED_UNITS_PER_PIXEL"),
    ("render/src/scene.rs", "struct Fixed"),
    ("render/src/scene.rs", "impl Fixed"),
    ("render/src/scene.rs", "impl fmt::Debug for Fixed"),
    ("render/src/scene.rs", "fn format_fixed"),
    ("render/src/scene.rs", "struct Rect"),
    ("src/model/print.rs", "enum PrintPageOrder"),
    ("src/model/print.rs", "struct PageSetup"),
    ("render/src/print.rs", "const ROW_HEADING_WIDTH"),
    ("render/src/print.rs", "const COLUMN_HEADING_HEIGHT"),
    ("render/src/print.rs", "const DEFAULT_LEFT_RIGHT_INCHES"),
    ("render/src/print.rs", "const DEFAULT_TOP_BOTTOM_INCHES"),
    ("render/src/print.rs", "const DEFAULT_HEADER_FOOTER_INCHES"),
    ("render/src/print.rs", "const MIN_PRINT_SCALE_PERMILLE"),
    ("render/src/print.rs", "const MAX_PRINT_SCALE_PERMILLE"),
    ("render/src/print.rs", "const MAX_FIT_SCALE_PERMILLE"),
    ("render/src/print.rs", "enum PrintWarningCode"),
    ("render/src/print.rs", "struct PrintWarning"),
    ("render/src/print.rs", "struct PaperGeometry"),
    ("render/src/print.rs", "struct PrintWarnings"),
    ("render/src/print.rs", "impl PrintWarnings"),
    ("render/src/print.rs", "struct AxisSegment"),
    ("render/src/print.rs", "struct PageSlot"),
    ("render/src/print.rs", "fn normalize_repeat_rows"),
    ("render/src/print.rs", "fn normalize_repeat_cols"),
    ("render/src/print.rs", "fn expand_repeat_rows_for_merges"),
    ("render/src/print.rs", "fn expand_repeat_cols_for_merges"),
    ("render/src/print.rs", "fn paper_geometry"),
    ("render/src/print.rs", "fn mm_to_inches"),
    ("render/src/print.rs", "fn content_geometry"),
    ("render/src/print.rs", "fn choose_scale"),
    ("render/src/print.rs", "fn unscaled_capacity"),
    ("render/src/print.rs", "fn axis_segment_repeats_titles"),
    ("render/src/print.rs", "fn axis_rendered_size"),
    ("render/src/print.rs", "fn axis_overflow_count"),
    ("render/src/print.rs", "fn axis_segments_fit"),
    ("render/src/print.rs", "fn partition_axis"),
    ("render/src/print.rs", "fn partition_axis_with_breaks"),
    ("render/src/print.rs", "fn merge_intervals_rows"),
    ("render/src/print.rs", "fn merge_intervals_columns"),
    ("render/src/print.rs", "fn ensure_row_segment"),
    ("render/src/print.rs", "fn ensure_column_segment"),
    ("render/src/print.rs", "fn measured_axis_range"),
    ("render/src/print.rs", "fn interval_union_count"),
    ("render/src/print.rs", "fn rectangle_union_count"),
    ("render/src/print.rs", "fn axis_total"),
    ("render/src/print.rs", "fn axis_slice_total"),
    ("render/src/print.rs", "fn scale_fixed"),
    ("render/src/print.rs", "fn inches_to_fixed"),
    ("render/src/print.rs", "fn enforce_print_limit"),
]

HEADER = f"""\
// Taken unchanged from rxls at commit {COMMIT} (licence MIT, see NOTICE).
// Made by oracle/take.py; not to be edited.
"""

TARGET = pathlib.Path(__file__).resolve().parent / "taken.rs"


def first_line(lines, item):
    """The index of the line at which the item starts, below its comments and attributes."""
    head = re.compile(r"(pub(\([a-z]+\))? )?((const|async|unsafe) )*" + re.escape(item) + r"(?![A-Za-z0-9_])")
    found = [i for i, line in enumerate(lines) if head.match(line)]
    if len(found) != 1:
        stop(f"`{item}` stands {len(found)} times")
    return found[0]


def last_line(lines, first):
    """The index of the item's last line: the source is laid out so that only its end is not indented."""
    if lines[first].endswith((";\n", "{}\n")):
        return first
    for i in range(first + 1, len(lines)):
        if lines[i] in ("}\n", "];\n", ");\n"):
            return i
    stop(f"no end after line {first + 1}")


def taken(source, item):
    """The number of the item's first line, and its text."""
    lines = source.splitlines(keepends=True)
    first = first_line(lines, item)
    last = last_line(lines, first)
    while first > 0 and lines[first - 1].startswith(("///", "#[")):
        first -= 1
    return first + 1, "".join(lines[first : last + 1])


def text(folder):
    parts = [HEADER]
    for name, item in ITEMS:
        source = (folder / name).read_bytes().decode("utf-8")
        line, body = taken(source, item)
        parts.append(f"\n// {name}:{line}\n{body}")
    return "".join(parts)


def main():
    words = argparse.ArgumentParser(description=__doc__, formatter_class=argparse.RawDescriptionHelpFormatter)
    words.add_argument("--check", action="store_true")
    words.add_argument("src", metavar="SRC", type=pathlib.Path)
    chosen = words.parse_args()
    wanted = text(chosen.src).encode("utf-8")
    if not chosen.check:
        TARGET.write_bytes(wanted)
    elif TARGET.read_bytes() == wanted:
        print(f"taken.rs: {len(ITEMS)} items, unchanged")
    else:
        sys.exit("taken.rs: not what take.py would write")


if __name__ == "__main__":
    started(main)
