#!/usr/bin/env python3
"""Writes crates/layout_tests/src/answers.rt: how one mixed sheet is laid out at many widths.

Run it from the repository's root: python3 tools/height_answers.py

It is made from the rules as docs/heights.md, docs/columns.md and docs/rows.md state them, and not from the
code: a row's end is found by trying every place of the line (wrap_answers.py), a table's cells are handed
out one at a time, and the height of a sheet is counted on a picture of it, one row after another.

The notation of a sheet is that of crates/layout_tests/src/sheets.rt: "#3" begins a table of 3 columns and
"#3!" one that is open; "^a|b" is its head, "|a|b" a body row, "." its end; any other line is a line of text.
"""

from wrap_answers import cutting_rule, rows_of, word_rule

SHEET = """a few words, and then some more of them

two
#3
^item|count|price of all
|screws and bolts|10|7
|世界 map||世
|a
.
#2
.
right behind it
#1
|no head
|aaaaaaaaaaaaaaaaaaaaaaaa
.
   spaces   first   
世世世世世世世
#4!
^a|bb|ccc|dddd
|dddddd dd d|ccc|bb|a
.
"""

WIDTHS = list(range(41)) + [65535]
RULES = [word_rule, cutting_rule]
TABLES, COLUMNS = 4, 4


def line_of(text):
    """A line's glyphs: whether each is a space, and its width."""
    return [(c == " ", 2 if "\u4e00" <= c <= "\u9fff" else 1) for c in text]


def blocks_of(sheet):
    """The blocks: ("text", lines) or ("table", rows with the header first, open)."""
    blocks, lines, table = [], [], None

    def flush():
        while lines and not lines[-1]:
            lines.pop()
        if lines:
            blocks.append(("text", [list(line) for line in lines]))
        lines.clear()

    for line in sheet.split("\n"):
        if line.startswith("#"):
            flush()
            columns = max(1, int(line[1:].rstrip("!")))
            table = (columns, [[[] for _ in range(columns)]], line.endswith("!"))
        elif line == ".":
            blocks.append(("table", table[1], table[2]))
            table = None
        elif table and line[:1] in "^|":
            row = [line_of(entry) for entry in line[1:].split("|")]
            row += [[]] * (table[0] - len(row))
            if line[0] == "^":
                table[1][0] = row
            else:
                table[1].append(row)
        else:
            lines.append(line_of(line))
    flush()
    return blocks


def columns_of(rows, width, growing):
    """The final widths, and the cells taken away one by one."""
    count = len(rows[0])
    cells = [max([1] + [sum(g[1] for g in row[c]) for row in rows]) for c in range(count)]
    budget = max(0, width - (3 * count + 1))
    taken = 0
    if sum(cells) > budget:
        while sum(cells) > budget and max(cells) > 1:
            widest = max(c for c in range(count) if cells[c] == max(cells))
            cells[widest] -= 1
            taken += 1
    elif growing:
        while sum(cells) < budget:
            cells[-1] += 1
    return cells, taken


def picture(blocks, rule, width, streaming):
    """One mark for each row of the sheet."""
    marks = []
    for block in blocks:
        if marks:
            marks.append("gap")
        marks += block_picture(block, rule, width, streaming)
    return marks


def block_picture(block, rule, width, streaming):
    if block[0] == "text":
        return ["row" for line in block[1] for _ in rows_of(rule, line, width)]
    cells, _ = columns_of(block[1], width, streaming and block[2])
    marks = ["rule"]
    for number, row in enumerate(block[1]):
        if number == 1:
            marks.append("rule")
        marks += ["row"] * max(len(rows_of(rule, e, w)) for e, w in zip(row, cells))
    return marks + ["rule"]


def stored(blocks, width, streaming):
    """Width, streaming, the two heights; for each table its count, widths, cells taken and rows by both rules."""
    numbers = [width, int(streaming)]
    numbers += [len(picture(blocks, rule, width, streaming)) if width else 0 for rule in RULES]
    for table in [b for b in blocks if b[0] == "table"]:
        cells, taken = columns_of(table[1], width, streaming and table[2])
        rows = [len(block_picture(table, rule, width, streaming)) for rule in RULES]
        numbers += [len(cells)] + cells + [0] * (COLUMNS - len(cells)) + [taken] + rows
    return numbers


def packed(numbers):
    """An array's lines, as many numbers on each as fit."""
    lines, line = [], "       "
    for number in numbers:
        if len(line) + len(f" {number},") > 99:
            lines.append(line)
            line = "       "
        line += f" {number},"
    return ["    ["] + lines + [line, "    ],"]


def main():
    blocks = blocks_of(SHEET)
    assert sum(b[0] == "table" for b in blocks) == TABLES
    answers = [stored(blocks, w, s) for s in (False, True) for w in WIDTHS]
    sheet = "".join(c if c not in '\n"\\' else {"\n": "\\n", '"': '\\"', "\\": "\\\\"}[c] for c in SHEET)
    out = [
        "// How one mixed sheet is laid out at many widths, by the word rule and by the cutting rule.",
        "// Written by tools/height_answers.py, which says how; do not edit.",
        "",
        "// An answer is the width, whether the sheet is streaming, and its heights by the two rules; then for",
        "// each table its columns, their widths in four slots, the cells taken, and its rows by the two rules.",
        f"pub type Stored = [u32; {len(answers[0])}];",
        "",
        "pub const SHEET: &str =",
        f'    "{sheet}";',
        "",
        f"pub const STORED: [Stored; {len(answers)}] = [",
        *[line for answer in answers for line in packed(answer)],
        "];",
    ]
    with open("crates/layout_tests/src/answers.rt", "w") as file:
        file.write("\n".join(out) + "\n")


main()
