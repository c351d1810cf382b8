#!/usr/bin/env python3
"""Writes crates/wrap_tests/src/answers.rt: what the two breaking rules answer on every short line.

Run it from the repository's root: python3 tools/wrap_answers.py

It is made from the rules as docs/rows.md states them, and not from the code: each answer is found by
trying every place of the line, and none of it keeps a running sum or a state. A line is a list of
(is a space, width). The lines are those over the three glyphs letter, space and wide of up to
LONGEST glyphs: line n of a length has the base-3 digits of n, lowest first, as its glyphs.

For each rule, length and width the file has the number of rows of all lines together, and a digest of
every row's start and end in order, with a mark behind each line.
"""

LETTER, SPACE, WIDE = (False, 1), (True, 1), (False, 2)
LONGEST, WIDEST = 6, 8


def counted(glyphs, width):
    """What glyphs count in a row: each min(its width, the row's)."""
    return sum(min(g[1], width) for g in glyphs)


def first_misfit(line, width, start):
    """The first glyph up to which the row would exceed its width; None where the rest fits."""
    wrong = [i for i in range(start, len(line)) if counted(line[start : i + 1], width) > width]
    return min(wrong) if wrong else None


def word_rule(line, width, start):
    misfit = first_misfit(line, width, start)
    if misfit is None:
        return len(line), len(line)
    if line[misfit][0]:
        others = [k for k in range(misfit, len(line)) if not line[k][0]]
        return misfit, min(others) if others else len(line)
    breaks = [
        k
        for k in range(start, misfit)
        if line[k][0] and any(not line[m][0] for m in range(start, k))
    ]
    if breaks:
        return max(breaks), max(breaks) + 1
    return misfit, misfit


def cutting_rule(line, width, start):
    ends = [e for e in range(start, len(line) + 1) if counted(line[start:e], width) <= width]
    return max(ends), max(ends)


def rows_of(rule, line, width):
    """The rows of a line, each by its start and end; an empty line is one row."""
    if not line:
        return [(0, 0)]
    rows, start = [], 0
    while start < len(line):
        end, after = rule(line, width, start)
        assert start <= end <= after and start < after <= len(line)
        assert counted(line[start:end], width) <= width
        assert all(g[0] for g in line[end:after])
        rows.append((start, end))
        start = after
    return rows


def numbered(length, n):
    return [(LETTER, SPACE, WIDE)[n // 3**k % 3] for k in range(length)]


def mixed(digest, byte):
    """FNV-1a of 64 bits, one byte on."""
    return ((digest ^ byte) * 0x100000001B3) % 2**64


def tally(rule, length, width):
    rows, digest = 0, 0xCBF29CE484222325
    for n in range(3**length):
        line = numbered(length, n)
        found = rows_of(rule, line, width)
        assert width == 1 or len(found) <= len(rows_of(rule, line, width - 1))
        for start, end in found:
            digest = mixed(mixed(digest, start), end)
        digest = mixed(digest, 255)
        rows += len(found)
    return rows, digest


def table(name, rule):
    tallies = [[tally(rule, length, width) for width in range(1, WIDEST + 1)] for length in range(LONGEST + 1)]
    lines = [f"pub const {name}: Stored = Stored {{", "    rows: ["]
    lines += ["        [" + ", ".join(str(rows) for rows, _ in line) + "]," for line in tallies]
    lines += ["    ],", "    digests: ["]
    for line in tallies:
        lines += ["        ["] + [f"            {digest:#018x}," for _, digest in line] + ["        ],"]
    return lines + ["    ],", "};"]


HEAD = """// What the breaking rules answer on every line of up to 6 glyphs over letter, space and wide glyph: for
// each length, at widths 1 to 8, the rows of all lines together and a digest of their places.
// Written by tools/wrap_answers.py, which says how; do not edit.

pub struct Stored {
    pub rows: [[u32; 8]; 7],
    pub digests: [[u64; 8]; 7],
}
"""

if __name__ == "__main__":
    with open("crates/wrap_tests/src/answers.rt", "w") as out:
        out.write("\n".join([HEAD] + table("WORD_RULE", word_rule) + [""] + table("CUTTING_RULE", cutting_rule)) + "\n")
