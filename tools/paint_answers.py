#!/usr/bin/env python3
"""What sheets look like on a page, by the rules of docs/, for the tests to compare with.

Written from the rules alone, in another language and over lists: a sheet is a list of blocks, a picture
says for each place of an endless page what stands there, and a paint looks each cell of its area up in
it. Nothing is clipped, narrowed or stopped early, and nothing is shared with the Rattle code or its
definitions. The blocks of an event list are those of load_answers.py, the rows of a line those of
wrap_answers.py.

Run it from the repository's root. `paint_answers.py` writes crates/paint_tests/src/answers.rt: the
sheets that the tests paint, and the digests of what they find on the page.
`paint_answers.py show NAME RULE WIDTH` prints the sheet of this name, where RULE is `word` or `cutting`;
`paint_answers.py names` lists the names.
"""

import sys
from collections import namedtuple

# So that a run leaves nothing beside the generators that it builds on.
sys.dont_write_bytecode = True

import load_answers
import wrap_answers
from load_answers import SOURCE, STYLES, Style, Table, cells, code, leaf, literal, paragraph, text, within

# Columns.


def budget(columns, width):
    return max(0, width - 3 * columns - 1)


def naturals(table):
    """Each column's natural width: its widest entry, at least 1."""
    rows = table.all_rows()
    return [max(1, *(sum(g[1] for g in row[i]) for row in rows)) for i in range(table.columns)]


def shared(widths, width, growing=False):
    """The final widths of columns of these natural widths."""
    widths = list(widths)
    room = budget(len(widths), width)
    if sum(widths) <= room:
        return widths[:-1] + [widths[-1] + room - sum(widths)] if growing else widths
    while sum(widths) > room and max(widths) > 1:
        widest = max(i for i, w in enumerate(widths) if w == max(widths))
        widths[widest] -= 1
    return widths


# Rows.

RULES = {"word": wrap_answers.word_rule, "cutting": wrap_answers.cutting_rule}


def rows_of(rule, line, width):
    """The rows of a line: lists of glyphs."""
    measured = [(symbol == b" ", wide) for symbol, wide, _ in line]
    return [line[start:end] for start, end in wrap_answers.rows_of(RULES[rule], measured, width)]


# Pictures: what stands at each place, counted from the sheet's corner. Two strokes never share a place.

REPLACEMENT = "\ufffd".encode()


class Picture(dict):
    def stroke(self, x, y, symbol, style):
        assert (x, y) not in self
        self[x, y] = (symbol, style)

    def row(self, glyphs, x, y, width):
        """A row of glyphs in a place of this width."""
        for symbol, wide, style in glyphs:
            if wide > width:
                symbol, wide = REPLACEMENT, width
            for behind in range(wide):
                self.stroke(x + behind, y, b"" if behind else symbol, style)
            x += wide

    def text(self, rule, lines, y, width):
        """The rows of a text from row y on, and the row behind it."""
        for line in lines:
            for row in rows_of(rule, line, width):
                self.row(row, 0, y, width)
                y += 1
        return y

    def entry(self, rule, entry, alignment, x, y, width):
        for row in rows_of(rule, entry, width):
            r = sum(min(wide, width) for _, wide, _ in row)
            self.row(row, x + {1: 0, 2: width // 2 - r // 2, 3: width - r}[alignment], y, width)
            y += 1

    def rule(self, signs, widths, y, style):
        """A rule of a table, from its three signs."""
        line = signs[0] + signs[1].join("─" * (w + 2) for w in widths) + signs[2]
        for x, sign in enumerate(line):
            self.stroke(x, y, sign.encode(), style)

    def table_row(self, rule, table, row, widths, y, style):
        """A row of a table from row y on, and the row behind it."""
        high = max(len(rows_of(rule, entry, w)) for entry, w in zip(row, widths))
        borders = [sum(w + 3 for w in widths[:i]) for i in range(len(widths) + 1)]
        for k in range(high):
            for x in borders:
                self.stroke(x, y + k, "│".encode(), style)
        for entry, alignment, x, w in zip(row, table.alignments, borders, widths):
            self.entry(rule, entry, max(1, alignment), x + 2, y, w)
        return y + high

    def table(self, rule, table, y, widths, style):
        """A table from row y on, and the row behind it."""
        self.rule("┌┬┐", widths, y, style)
        header, *rows = table.all_rows()
        y = self.table_row(rule, table, header, widths, y + 1, style)
        if rows:
            self.rule("├┼┤", widths, y, style)
            y += 1
        for row in rows:
            y = self.table_row(rule, table, row, widths, y, style)
        self.rule("└┴┘", widths, y, style)
        return y + 1


def picture_of(blocks, border, rule, width, streaming=False):
    picture, y = Picture(), 0
    for block in blocks:
        if isinstance(block, Table):
            widths = shared(naturals(block), width, streaming and block.open)
            y = picture.table(rule, block, y, widths, border) + 1
        else:
            y = picture.text(rule, block, y, width) + 1
    return picture


# Pages.

Cell = namedtuple("Cell", "symbol fg bg modifiers")
Area = namedtuple("Area", "x y width height")


class Page:
    """A page, and what a cell of it holds at first."""

    def __init__(self, width, height, first=lambda x, y: Cell(b" ", 0, 0, 0)):
        self.width, self.height = width, height
        self.cells = {(x, y): first(x, y) for y in range(height) for x in range(width)}

    def put(self, place, symbol, style):
        old = self.cells[place]
        modifiers = (old.modifiers | style.add) & ~style.remove
        self.cells[place] = Cell(symbol, style.fg or old.fg, style.bg or old.bg, modifiers)

    def paint(self, area, blocks, border, rule, streaming=False):
        """5 if the area passes the page's edge, else 0."""
        if area.x + area.width > self.width or area.y + area.height > self.height:
            return 5
        if area.width == 0 or area.height == 0:
            return 0
        picture = picture_of(blocks, border, rule, area.width, streaming)
        for x in range(area.width):
            for y in range(area.height):
                if (x, y) in picture:
                    self.put((area.x + x, area.y + y), *picture[x, y])
        return 0

    def lines(self):
        """What a reader sees of it."""
        rows = [[self.cells[x, y].symbol.decode() for x in range(self.width)] for y in range(self.height)]
        return ["".join(row).rstrip() for row in rows]


def old_cell(x, y):
    """What stands on a page before a paint: something else in each cell and in each part of it."""
    return Cell(bytes([97 + (7 * x + 3 * y) % 26]), (x + y) % 17, (x + 3 * y) % 17, (5 * x + 11 * y) % 256)


class Digest(load_answers.Digest):
    def page(self, answer, page):
        """What a paint answers, and every cell of the page after it."""
        self.bytes(answer)
        for y in range(page.height):
            for x in range(page.width):
                cell = page.cells[x, y]
                self.bytes(len(cell.symbol), *cell.symbol, *cell[1:])


# Sheets, from pieces with a text of their own. Columns stand left, centre, right, left, and so on again.

load_answers.TEXT = b""
ALIGNMENTS = 0x3939_3939_3939_3939


def table(*rows):
    """A table of these rows of strings, the first one its header."""
    head, *body = [cells(*row) for row in rows]
    steps = within("HEAD", head) + sum((within("ROW", row) for row in body), [])
    return [("TABLE", 0, len(rows[0]))] + steps + [("TABLE_END", 0, 0)]


def strong(string):
    return within("STRONG", text(string))


def item(*steps):
    return within("ITEM", *steps)


WORDS = "the quick brown fox  jumps   over a lazy dog "
WIDE = "緑茶 100 g, 烏龍茶 and 抹茶"
ODD = "e\u0301a\tb\x1bc\u200bd"

ORDER = [
    within("HEADING", text("Order 118")),
    paragraph(text("Please deliver "), strong("before noon"), text(", and quote "), code("118-A"), leaf("SOFT_BREAK"), text("always.")),
    within("LIST", item(text("one crate a pallet")), item(text("no part deliveries"))),
    table(["article", "price", "delivery"], [WIDE, "¥1,200", "2026-12-01"], ["Assam", "¥980"], ["烏", "", "soon"]),
    within("CODE_BLOCK", text("total  ¥3,630\n\n  tax    ¥363\n")),
]  # fmt: skip

SHEETS = {
    "text": paragraph(text(WORDS), leaf("HARD_BREAK"), leaf("HARD_BREAK"), text(WIDE), within("EMPHASIS", text("abcdefghijklmnopqrstuvwxyz"))),
    "table of words": table(["left", "centre", "right"], [WORDS, "10", "7"], ["", WIDE, WORDS], ["a", "bb", "ccc"]),
    "wide glyphs": table(["茶", "緑茶", "抹茶緑"], ["烏龍茶", "茶a茶", "茶"]) + paragraph(text("茶a 茶b茶 c茶")),
    "header alone": table(["a", "bc"]) + paragraph(text("x")) + table(["烏", "d", "e", "f"]),
    "thirty-two columns": table(["h"] * 32, ["12"] * 32),
    "order": sum(ORDER, []),
}  # fmt: skip

# Sheets of the drawn paints are of these pieces.
PIECES = {
    "words": paragraph(text(WORDS)),
    "odd text": within("EMPHASIS", text(ODD)),
    "spaces": text("       "),
    "line": text("a\n"),
    "bold": strong("bold 太字"),
    "code": within("CODE_BLOCK", text("if a {\n\n    b\n}")),
    "list": within("LIST", item(text("one")), item(paragraph(text("two ")), paragraph(text("three ")))),
    "heading": within("HEADING", text("A heading "), code("and code")),
    "small table": table(["1", "22"], ["333", "4"]),
    "table with a rich entry": [("TABLE", 0, 1), *within("ROW", within("CELL", text("b"), strong("c d"), code(" e"), text("茶茶"))), ("TABLE_END", 0, 0)],
    "table without columns": [("TABLE", 0, 0), *within("HEAD", cells("none")), ("TABLE_END", 0, 0)],
    "empty table": [("TABLE", 0, 3), ("TABLE_END", 0, 0)],
}  # fmt: skip


def event_of(step):
    return load_answers.event_of(step)._replace(alignments=ALIGNMENTS if step[0] == "TABLE" else 0)


def blocks_of(steps):
    sheet = load_answers.Sheet(800, 100, 20)
    answer = load_answers.load(sheet, "utf8", [event_of(step) for step in steps])
    assert answer == (0, 0), answer
    return sheet.blocks


# Which digests crates/paint_tests holds.

BORDER = STYLES["table_border"]
WIDEST, HEIGHTS = 40, [1, 6, 21]


def at_every_width(steps, rule):
    """A sheet at every width and a few heights, each on a page as it was at first. The corner moves."""
    digest, blocks = Digest(), blocks_of(steps)
    for height in HEIGHTS:
        for width in range(WIDEST + 1):
            page = Page(42, 24, old_cell)
            digest.page(page.paint(Area(width % 3, height % 4, width, height), blocks, BORDER, rule), page)
    return digest.value


def drawn():
    """400 sheets of up to 4 pieces, drawn by a linear congruential generator, each painted over what the
    ones before it left, in an area that now and then passes the page's edge."""
    state = 1

    def below(n):
        nonlocal state
        state = (state * 6364136223846793005 + 1442695040888963407) & load_answers.MASK
        return (state >> 33) % n

    digest, page, parts = Digest(), Page(31, 17, old_cell), list(PIECES.values())
    for _ in range(400):
        steps = sum((parts[below(len(parts))] for _ in range(below(5))), [])
        rule = ["word", "cutting"][below(2)]
        x, y = below(12), below(8)
        area = Area(x, y, below(33 - x), below(19 - y))
        digest.page(page.paint(area, blocks_of(steps), BORDER, rule), page)
    return digest.value


def show(name, rule, width):
    blocks = blocks_of((SHEETS | PIECES)[name])
    picture = picture_of(blocks, BORDER, rule, width)
    page = Page(1 + max(x for x, _ in picture), 1 + max(y for _, y in picture))
    for place, stroke in picture.items():
        page.put(place, *stroke)
    print("\n".join(page.lines()))


HEAD = """// Sheets, and digests of what paints of them leave on a page, by both rules. Written by
// tools/paint_answers.py, which says how; do not edit.

use super::made::Step;

// The text that the sheets name.
"""


def sheets(name, steps):
    """Sheets as lists of (kind, place, length), and of (kind, end, columns) for a table."""
    out = f"\npub const {name}: [&[Step]; {len(steps)}] = [\n"
    for title, sheet in steps.items():
        out += load_answers.piece(title, [(load_answers.NAMES[kind], place, length) for kind, place, length in sheet])
    return out + "];\n"


def answers():
    out = HEAD
    out += f"pub const SAMPLE: &[u8] =\n    {literal(load_answers.TEXT)};\n\npub const SOURCE: &[u8] = {literal(SOURCE)};\n"
    out += f"\npub const ALIGNMENTS: u64 = {ALIGNMENTS:#x};\n"
    out += sheets("SHEETS", SHEETS) + sheets("PIECES", PIECES)
    for name, rule in (("BY_WORDS", "word"), ("BY_CUTTING", "cutting")):
        rows = "".join(f"    {at_every_width(steps, rule)},\n" for steps in SHEETS.values())
        out += f"\npub const {name}: [u64; {len(SHEETS)}] = [\n{rows}];\n"
    return out + f"\npub const DRAWN: u64 = {drawn()};\n"


if __name__ == "__main__":
    if sys.argv[1:2] == ["names"]:
        print("\n".join(SHEETS | PIECES))
    elif sys.argv[1:2] == ["show"]:
        show(sys.argv[2], sys.argv[3], int(sys.argv[4]))
    else:
        with open("crates/paint_tests/src/answers.rt", "w") as out:
            out.write(answers())
