#!/usr/bin/env python3
"""What long runs of calls of a sheet answer, and every cell of their pages, for the tests to compare with.

A run is a sheet over memory of some size and thousands of calls of all kinds, admitted and refused, drawn
by a small generator of numbers; the tests draw the same ones. Of the calls that came before, all that is
kept here is the last admitted load and the last switch (and the pages, which belong to the caller): each
answer is found anew from these two. Besides, single tables at every width from 0 to 100.

Written from the rules alone. What a load answers and the blocks of an event list are those of
load_answers.py, columns, rows and pages those of paint_answers.py; nothing is shared with the Rattle code
or its definitions.

Run it from the repository's root. `past_answers.py` writes crates/past_tests/src/answers.rt in about a
minute: the pieces of the sheets, and the digests of what the tests find, one for each hundred calls and four
for each table (open and closed, by both rules).
`past_answers.py count` tells how many calls of each kind the runs make, and how many are refused;
`past_answers.py show RUN N` prints the calls of hundred N of a run, counted from 0, with their refusals.
"""

import sys
from collections import Counter, namedtuple
from functools import lru_cache

# So that a run leaves nothing beside the generators that it builds on.
sys.dont_write_bytecode = True

import load_answers

# The text of its pieces; paint_answers begins another one.
LOADED = load_answers.TEXT

import paint_answers
from load_answers import NAMES, RULERS, Style, Table, literal, text
from paint_answers import Area, Page, naturals, old_cell, rows_of, shared

# Sheets are of these pieces and of the tables below: the tables of load_answers, open and closed, and the
# pieces of paint_answers.


def behind(steps):
    """Steps whose text stands behind that of load_answers."""
    return [(kind, place + len(LOADED) if kind in ("TEXT", "CODE") else place, length) for kind, place, length in steps]


PIECES = [(name, steps) for name, steps in load_answers.PIECES.items() if "table" in name]
PIECES += [(name, behind(steps)) for name, steps in paint_answers.PIECES.items()]
PIECES += [("bytes that are no text", behind(text(b"a\xff")))]

# Tables that fit a narrow page, tables that fit only wide ones, one that fits none of 100 columns.
TABLES = {
    "one column": [["a"], ["bb"]],
    "numbers": [["a", "b"], ["10", "7"]],
    "an order": [["article", "price", "date"], ["Sencha 茶", "¥1,200", "12-01"]],
    "wide glyphs": [["茶", "緑茶"], ["烏龍茶", "茶a茶"]],
    "equal columns": [["aaaa"] * 4, ["b b", "bbbb", "b", ""]],
    "columns of all widths": [["1", "22", "333", "4444", "55555"], ["five", "and", "more", "of", "it"]],
    "spaces": [["  a  b  ", "c"], ["   ", "d  e "]],
    "one long word": [["abcdefghijkl", "ab cd ef"]],
    "empty entries": [["", "", ""], ["", "x", ""], []],
    "tabs, controls and marks": [["a\tb", "e\u0301\u0301\u0301\u0301"], ["\u200bx\x7f", "漢\u0300"]],
    "sixteen columns": [list("abcdefghijklmnop"), ["12", "3"] * 8],
    "thirty-two columns": [["h"] * 32, ["12"] * 32],
}  # fmt: skip

TABLE_STEPS = [(name, behind(paint_answers.table(*rows))) for name, rows in TABLES.items()]
TEXT = LOADED + load_answers.TEXT

# From the ends of tables on (0, 5, 6 and past the source): white space of several kinds, a character that
# an end cuts, bytes that are no text, and no source.
SOURCES = [
    b"closed  ",
    b"closed  ",
    b"closed\xe3\x80\x80",
    b"close\xc3\xa9 ",
    b"closed\xff ",
    b"        ",
    b"\t\n\r \xc2\xa0  ",
    b"",
]

# The styles of a sheet for which none were set.
DEFAULTS = {
    "base": Style(0, 0, 0, 0),
    "code_inline": Style(4, 0, 0, 0),
    "code_block": Style(3, 0, 0, 0),
    "bold": Style(0, 0, 1, 0),
    "italic": Style(0, 0, 2, 0),
    "heading": Style(7, 0, 1, 0),
    "table_border": Style(9, 0, 0, 0),
    "table_header": Style(0, 0, 1, 0),
}

ALIGNMENTS = [0x3939_3939_3939_3939, 0x1B1B_1B1B_1B1B_1B1B, 0, 2**64 - 1]

# Calls.

Load = namedtuple("Load", "ruler styles events text source")
Switch = namedtuple("Switch", "on")
Question = namedtuple("Question", "rule number width before")
Height = namedtuple("Height", "rule width")
Paint = namedtuple("Paint", "rule area")


class Generator:
    """Draws numbers, by a linear congruential generator."""

    def __init__(self, seed):
        self.state = seed

    def below(self, n):
        self.state = (self.state * 6364136223846793005 + 1442695040888963407) & load_answers.MASK
        return (self.state >> 33) % max(n, 1)


def event_of(step, alignments):
    event = load_answers.event_of(step)
    return event._replace(alignments=alignments) if step[0] == "TABLE" else event


def leaf(kind):
    return load_answers.Event(kind, 0, 0, 0, 0, 0)


def draw_colour(g):
    """Unset in every other case."""
    return max(0, g.below(32) - 15)


def draw_styles(g):
    """Eight styles; one of them now and then with a colour that there is not."""
    styles = [Style(draw_colour(g), draw_colour(g), g.below(256), g.below(256)) for _ in range(8)]
    if g.below(16) == 0:
        number, colour = g.below(8), 17 + g.below(239)
        part = {"fg": colour} if g.below(2) == 0 else {"bg": colour}
        styles[number] = styles[number]._replace(**part)
    return tuple(styles)


def draw_piece(g, alignments):
    """A piece, every third time in a mark."""
    mark, (_, steps) = 10 + g.below(21), (PIECES + TABLE_STEPS)[g.below(len(PIECES + TABLE_STEPS))]
    events = [event_of(step, alignments) for step in steps]
    return [leaf(mark), *events, leaf(mark + 20)] if mark <= 16 else events


def damaged(g, events):
    """The events with one of them changed, or with a mark that stays open, and how much of the text there is."""
    damage, place, other, number = g.below(7), g.below(len(events)), g.below(len(events)), g.below(300)
    if damage == 5:
        return events + [leaf(NAMES["STRONG"])], len(TEXT)
    if events and damage < 5:
        old = events[place]
        events[place] = [
            old._replace(kind=number % 60),
            events[other],
            old._replace(kind=NAMES["OTHER"]),
            old._replace(length=number),
            old._replace(columns=number % 64),
        ][damage]
    return events, number if damage == 6 else len(TEXT)


def draw_load(g):
    ruler = "bytes" if g.below(3) == 0 else "utf8"
    styles = draw_styles(g)
    source, alignments = SOURCES[g.below(len(SOURCES))], ALIGNMENTS[g.below(len(ALIGNMENTS))]
    events, there = sum((draw_piece(g, alignments) for _ in range(g.below(6))), []), len(TEXT)
    if g.below(3) == 0:
        events, there = damaged(g, events)
    return Load(ruler, styles, tuple(events), TEXT[:there], source)


def draw_rule(g):
    return ["word", "cutting"][g.below(2)]


def draw_width(g):
    """A narrow width, a width from 0 to 100, or any width."""
    choice = g.below(8)
    return g.below(65535 if choice == 0 else 30 if choice < 4 else 101)


def draw_question(g):
    rule = draw_rule(g)
    number = g.below(65535) if g.below(8) == 0 else g.below(3)
    return Question(rule, number, draw_width(g), 1 + g.below(99))


def draw_area(g, sides):
    """An area at the page's edge, the page, any area, or one that begins near the corner."""
    wide, high = sides
    choice = g.below(8)
    if choice == 0:
        return Area(wide - 1 + g.below(3), high - 1 + g.below(3), g.below(3), g.below(3))
    if choice == 1:
        return Area(0, 0, wide, high)
    if choice == 2:
        return Area(*(g.below(65535) for _ in range(4)))
    x, y = g.below(6), g.below(4)
    return Area(x, y, g.below(wide + 2 - x), g.below(high + 2 - y))


def draw_call(g, sides):
    choice = g.below(20)
    if choice < 6:
        return draw_load(g)
    if choice < 9:
        return Switch(g.below(2) == 1)
    if choice < 13:
        return draw_question(g)
    if choice < 15:
        return Height(draw_rule(g), draw_width(g))
    return Paint(draw_rule(g), draw_area(g, sides))


# Answers.


def loaded_by(load, room):
    """A sheet over so much memory, behind this load, and what the load answered."""
    sheet = load_answers.Sheet(*room)
    styles = dict(zip(load_answers.STYLES, load.styles))
    return sheet, sheet.load(RULERS[load.ruler], styles, load.events, load.text, load.source)


@lru_cache(4)
def held_behind(load):
    """The blocks of an admitted load, and how many glyphs, lines, rows and tables it uses."""
    if load is None:
        return [], [0, 0, 0, 0]
    sheet, answer = loaded_by(load, load_answers.LIMITS[:3])
    assert answer == (0, 0)
    return sheet.blocks, sheet.used


def rows_high(rule, rows, widths):
    return sum(max(len(rows_of(rule, entry, w)) for entry, w in zip(row, widths)) for row in rows)


# The columns of a table, each 32 slots, with the cells taken away and the table's rows.
Layout = namedtuple("Layout", "count naturals widths taken rows")


def slots(numbers):
    return numbers + [0] * (32 - len(numbers))


def layout_of(table, rule, width, streaming):
    wanted = naturals(table)
    widths = shared(wanted, width, streaming and table.open)
    rows = table.all_rows()
    high = rows_high(rule, rows, widths) + (3 if len(rows) > 1 else 2)
    return Layout(len(widths), slots(wanted), slots(widths), max(0, sum(wanted) - sum(widths)), high)


def block_rows(block, rule, width, streaming):
    if isinstance(block, Table):
        return layout_of(block, rule, width, streaming).rows
    return sum(len(rows_of(rule, line, width)) for line in block)


class Digest(paint_answers.Digest):
    """What is taken in of a call begins with a byte that tells its kind."""

    def four_bytes(self, number):
        self.bytes(*number.to_bytes(4, "little"))

    def layout(self, answer, layout):
        self.bytes(3, answer, layout.count)
        for number in layout.naturals:
            self.four_bytes(number)
        for number in layout.widths:
            self.two_bytes(number)
        self.four_bytes(layout.taken)
        self.two_bytes(layout.rows)


class Past:
    """All that is kept of the calls that came before."""

    def __init__(self):
        self.last_load, self.streaming = None, False

    def border(self):
        return (self.last_load.styles if self.last_load else tuple(DEFAULTS.values()))[6]

    def blocks(self):
        return held_behind(self.last_load)[0]

    def load(self, digest, call, room):
        _, answer = loaded_by(call, room)
        if answer == (0, 0):
            self.last_load = call
        digest.bytes(1, answer[0])
        digest.two_bytes(answer[1])
        return answer[0]

    def question(self, digest, call):
        tables = [block for block in self.blocks() if isinstance(block, Table)]
        if call.number < len(tables):
            digest.layout(0, layout_of(tables[call.number], call.rule, call.width, self.streaming))
            return 0
        old = call.before
        digest.layout(10, Layout(old, [old] * 32, [old] * 32, old, old))
        return 10

    def height(self, digest, call):
        rows = [block_rows(block, call.rule, call.width, self.streaming) for block in self.blocks()]
        digest.bytes(4)
        digest.two_bytes(sum(rows) + len(rows) - 1 if rows and call.width else 0)

    def paint(self, digest, call, page):
        answer = page.paint(call.area, self.blocks(), self.border(), call.rule, self.streaming)
        digest.bytes(5)
        digest.page(answer, page)
        return answer

    def take(self, digest, call, room, page):
        """Answers a call, and gives the number of its refusal, 0 where there is none."""
        if isinstance(call, Load):
            return self.load(digest, call, room)
        if isinstance(call, Question):
            return self.question(digest, call)
        if isinstance(call, Paint):
            return self.paint(digest, call, page)
        if isinstance(call, Height):
            self.height(digest, call)
        else:
            self.streaming = call.on
            digest.bytes(2, call.on)
        return 0

    def sheet(self, digest):
        """What the sheet tells of itself."""
        blocks, used = held_behind(self.last_load)
        digest.bytes(6, self.streaming, *self.border())
        for count in used + [len(blocks)]:
            digest.two_bytes(count)


# Pages.


def aged(sides):
    """A page with something else in each cell and in each part of it."""
    return Page(*sides, old_cell)


def below(page, sides, x, y, left=0):
    """The page of these sides below a window from x and y on, behind it; the window shows what stands on a
    page from a column on."""
    shown = Page(*sides)
    for i in range(min(page.width - left, sides[0] - x)):
        for j in range(min(page.height, sides[1] - y)):
            shown.cells[x + i, y + j] = page.cells[left + i, j]
    return shown


# Runs. `asked` tells that it is drawn for each call whether a request makes it, and that all paints are on one
# page; else `Markdown::run` makes all calls, and each paint has a page of its own.

Run = namedtuple("Run", "name seed room sides chunks asked")

CHUNK = 100

RUNS = [
    Run("ON_A_GRID", 1, (800, 100, 20), (24, 14), 13, True),
    Run("ON_A_SHELF", 2, (110, 14, 6), (26, 12), 10, True),
    Run("ON_A_WINDOW", 3, (300, 30, 10), (25, 15), 10, True),
    Run("ON_A_PAIR", 4, (800, 60, 4), (25, 14), 10, True),
    Run("RUN_ON_GRIDS", 5, (800, 100, 20), (20, 10), 7, False),
    Run("RUN_ON_PAIRS", 6, (150, 16, 6), (21, 11), 5, False),
    Run("RUN_ON_SHELVES", 7, (24, 4, 3), (14, 6), 4, False),
]


def hundreds(run):
    """A run, a hundred calls at a time: each call with the number of its refusal, the digest of what they
    answer, and the past and the page behind them."""
    g, past, page = Generator(run.seed), Past(), aged(run.sides)
    for _ in range(run.chunks):
        digest, made = Digest(), []
        for _ in range(CHUNK):
            call = draw_call(g, run.sides)
            if run.asked:
                g.below(2)
            elif isinstance(call, Paint):
                page = aged(run.sides)
            made.append((call, past.take(digest, call, run.room, page)))
        if run.asked:
            past.sheet(digest)
        yield made, digest.value, past, page


def digest_of_pages(*pages):
    digest = Digest()
    for page in pages:
        digest.page(0, page)
    return digest.value


def digest_of_sheet(past):
    digest = Digest()
    past.sheet(digest)
    return digest.value


# Tables.

TABLE_PAGE = (102, 20)


def at_every_width(steps, rule, is_open):
    """A table on a sheet of its own, off and on while the sheet is streaming: what is told of it, how high the
    sheet is, and the page after a paint over those before it."""
    events = tuple(event_of(step, ALIGNMENTS[0]) for step in steps)
    source = b"        " if is_open else b"closed  "
    past, page, digest = Past(), aged(TABLE_PAGE), Digest()
    past.last_load = Load("utf8", tuple(DEFAULTS.values()), events, TEXT, source)
    for past.streaming in (False, True):
        for width in range(101):
            past.question(digest, Question(rule, 0, width, 1))
            past.height(digest, Height(rule, width))
            past.paint(digest, Paint(rule, Area(1, 1, width, 18)), page)
    return digest.value


# What crates/past_tests holds.

HEAD = """// Pieces of sheets, and digests of what runs of calls answer and leave on their pages. Written by
// tools/past_answers.py, which says how; do not edit.

use super::made::Step;

// The text that the pieces name.
"""


def numbered(steps):
    return [(NAMES[kind], place, length) for kind, place, length in steps]


def array(name, type_of, items):
    return f"\npub const {name}: [{type_of}; {len(items)}] = [\n{load_answers.listed(items, 4)}];\n"


def sheets(name, titled):
    pieces = "".join(load_answers.piece(title, numbered(steps)) for title, steps in titled)
    return f"\npub const {name}: [&[Step]; {len(titled)}] = [\n{pieces}];\n"


def what_is_left(run, past, page):
    """What stands below the layers of a page behind a run, or what the sheet of one call tells of itself."""
    if run.name == "ON_A_WINDOW":
        return f"\npub const BELOW_THE_WINDOW: u64 = {digest_of_pages(below(page, (30, 20), 5, 3))};\n"
    if run.name == "ON_A_PAIR":
        left, right = below(page, (13, 15), 0, 0), below(page, (20, 16), 4, 2, 13)
        return f"\npub const BELOW_THE_PAIR: u64 = {digest_of_pages(left, right)};\n"
    if not run.asked:
        name = run.name.replace("RUN_ON", "BEHIND")
        return f"\npub const {name}: u64 = {digest_of_sheet(past)};\n"
    return ""


def answers():
    out = HEAD + f"pub const SAMPLE: &[u8] =\n    {literal(TEXT)};\n"
    out += array("SOURCES", "&[u8]", [literal(source) for source in SOURCES])
    out += array("ALIGNMENTS", "u64", [f"{bits:#018x}" for bits in ALIGNMENTS])
    out += sheets("PIECES", PIECES) + sheets("TABLES", TABLE_STEPS)
    for run in RUNS:
        found = list(hundreds(run))
        out += array(run.name, "u64", [digest for _, digest, _, _ in found])
        out += what_is_left(run, *found[-1][2:])
    for name, is_open in (("CLOSED", False), ("OPEN", True)):
        for by, rule in (("WORDS", "word"), ("CUTTING", "cutting")):
            out += array(f"{name}_BY_{by}", "u64", [at_every_width(steps, rule, is_open) for _, steps in TABLE_STEPS])
    return out


def listed(counts):
    return ", ".join(f"{kind} {answer or 'answered'}: {n}" for (kind, answer), n in sorted(counts.items()))


def count():
    """The calls of each run by their kinds and the numbers of their refusals."""
    total = Counter()
    for run in RUNS:
        counts = Counter((type(call).__name__, answer) for made, *_ in hundreds(run) for call, answer in made)
        print(run.name, sum(counts.values()), "calls:", listed(counts))
        total += counts
    print("together", sum(total.values()), "calls:", listed(total))


def show(name, number):
    """The calls of one hundred of a run, each with the number of its refusal."""
    run = next(run for run in RUNS if run.name == name)
    for call, answer in list(hundreds(run))[number][0]:
        print(answer, call)


if __name__ == "__main__":
    if sys.argv[1:2] == ["count"]:
        count()
    elif sys.argv[1:2] == ["show"]:
        show(sys.argv[2], int(sys.argv[3]))
    else:
        with open("crates/past_tests/src/answers.rt", "w") as out:
            out.write(answers())
