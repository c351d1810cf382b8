#!/usr/bin/env python3
"""Answers for loading a sheet, by the rules of docs/load.md, for the tests
to compare with.

Written from the rules alone, in another language and over lists: nothing is shared with the Rattle code
or its definitions. What is counted, for one, is counted in the stretches and tables of the whole sheet
afterwards, and not as the events go by.

Run it from the repository's root. `load_answers.py` writes crates/markdown_tests/src/answers.rt: the
pieces of sheets that the tests put together, and the digests of what they find.
`load_answers.py show RULER NAME..` prints what a sheet of the pieces of these names gives, where RULER is
`bytes` or `utf8`; `load_answers.py names` lists the names.
"""

import sys
from collections import namedtuple

# Events.

Event = namedtuple("Event", "kind place length end columns alignments")

NAMES = {
    "TEXT": 0, "CODE": 1, "SOFT_BREAK": 2, "HARD_BREAK": 3,
    "STRONG": 10, "EMPHASIS": 11, "CODE_BLOCK": 12, "PARAGRAPH": 13, "HEADING": 14, "ITEM": 15,
    "LIST": 16, "TABLE": 17, "HEAD": 18, "ROW": 19, "CELL": 20, "OTHER": 50,
}  # fmt: skip
STARTS = [name for name, number in NAMES.items() if 10 <= number <= 20]
NAMES |= {name + "_END": NAMES[name] + 20 for name in STARTS}
NAME_OF = {number: name for name, number in NAMES.items()}

# Every table of the pieces has these: right, centre, left, left, and so on again.
ALIGNMENTS = 0x1B1B_1B1B_1B1B_1B1B

# Styles.

Style = namedtuple("Style", "fg bg add remove")


def over(upper, lower):
    """A style laid over another."""
    return Style(
        upper.fg or lower.fg,
        upper.bg or lower.bg,
        lower.add & ~upper.remove | upper.add,
        lower.remove & ~upper.add | upper.remove,
    )


def adding(modifiers):
    return Style(0, 0, modifiers, 0)


# Styles that are all different, and that add and take away so that the order of laying shows.
STYLES = {
    "base": Style(1, 0, 4, 0),
    "code_inline": Style(4, 2, 0, 1),
    "code_block": Style(3, 16, 8, 0),
    "bold": Style(0, 5, 16, 2),
    "italic": Style(6, 0, 32, 1),
    "heading": Style(7, 0, 65, 2),
    "table_border": Style(9, 0, 0, 0),
    "table_header": Style(0, 10, 128, 32),
}

# Rulers: None where a string is not admitted, else its clusters as (bytes, width).


def bytes_ruler(string):
    return [(bytes([b]), 1 if 32 <= b <= 126 else 0) for b in string]


CONTROLS = set(range(0x00, 0x20)) | set(range(0x7F, 0xA0))
MARKS = set(range(0x300, 0x370))
NONE = CONTROLS | MARKS | set(range(0x600, 0x606)) | set(range(0x200B, 0x2010)) | {0xFEFF}
TWO = [
    (0x1100, 0x115F), (0x2E80, 0x303E), (0x3041, 0x4DBF), (0x4E00, 0x9FFF), (0xAC00, 0xD7A3),
    (0xF900, 0xFAFF), (0xFE30, 0xFE4F), (0xFF01, 0xFF60), (0xFFE0, 0xFFE6), (0x20000, 0x2FFFD),
    (0x30000, 0x3FFFD),
]  # fmt: skip


def columns_of(code):
    if code in NONE:
        return 0
    return 2 if any(low <= code <= high for low, high in TWO) else 1


def utf8_ruler(string):
    try:
        points = list(string.decode("utf-8"))
    except UnicodeDecodeError:
        return None
    clusters = []
    while points:
        first = points.pop(0)
        cluster = first.encode()
        while (
            points
            and ord(first) not in CONTROLS
            and ord(points[0]) in MARKS
            and len(cluster + points[0].encode()) <= 8
        ):
            cluster += points.pop(0).encode()
        clusters.append((cluster, columns_of(ord(first))))
    return clusters


RULERS = {"bytes": bytes_ruler, "utf8": utf8_ruler}

# A glyph is (bytes, width, style).


def sign(character, style):
    return (character.encode(), 1, style)


def glyphs_of(ruler, string, style):
    found = []
    for cluster, width in ruler(string):
        if cluster == b"\t":
            found += [sign(" ", style)] * 4
        elif width == 0:
            found.append(sign("\ufffd", style))
        else:
            found.append((cluster, width, style))
    return found


# The checks. A refusal is (number, value).

OPENS_NO_BLOCK = {"CODE_BLOCK", "PARAGRAPH", "HEADING", "ITEM", "LIST", "TABLE"}


def measured(name, string, around):
    """The strings that an event measures, by the names of the marks around it."""
    if name not in ("TEXT", "CODE"):
        return []
    if "CELL" in around:
        return [string]
    if "TABLE" in around:
        return []
    if name == "CODE":
        return [string]
    return [part for part in string.split(b"\n") if part]


def fits(name, open_marks):
    """Whether a start may stand in these open marks. Each mark is [name, columns, what has begun directly in it]."""
    around = [mark[0] for mark in open_marks]
    if len(open_marks) == 64:
        return False
    inner = open_marks[-1] if open_marks else ["", 0, []]
    if name == "HEAD":
        return inner[0] == "TABLE" and "HEAD" not in inner[2] and "ROW" not in inner[2]
    if name == "ROW":
        return inner[0] == "TABLE"
    if name == "CELL":
        return inner[0] in ("HEAD", "ROW") and inner[2].count("CELL") < max(1, open_marks[-2][1])
    return not (name in OPENS_NO_BLOCK and "TABLE" in around)


def check(ruler, styles, events, text):
    for number, style in enumerate(styles.values()):
        if style.fg > 16 or style.bg > 16:
            return (9, number)
    open_marks = []
    for at, event in enumerate(events):
        name = NAME_OF.get(event.kind)
        if name is None:
            return (1, at)
        names_bytes = name in ("TEXT", "CODE")
        if names_bytes and (event.length == 0 or event.place + event.length > len(text)):
            return (1, at)
        if name == "TABLE" and event.columns > 32:
            return (1, at)
        around = [mark[0] for mark in open_marks]
        if name.endswith("_END"):
            if not around or around[-1] + "_END" != name:
                return (2, at)
            open_marks.pop()
        elif name in STARTS:
            if not fits(name, open_marks):
                return (2, at)
            if open_marks:
                open_marks[-1][2].append(name)
            open_marks.append([name, event.columns, []])
        string = text[event.place : event.place + event.length]
        if any(ruler(part) is None for part in measured(name, string, around)):
            return (3, at)
    return (2, len(events)) if open_marks else None


# The fold. Lines and entries are lists of glyphs.

WHITE = {0x20, 0x85, 0xA0, 0x1680, 0x2028, 0x2029, 0x202F, 0x205F, 0x3000}
WHITE |= set(range(0x09, 0x0E)) | set(range(0x2000, 0x200B))


def is_white(string):
    try:
        return all(ord(c) in WHITE for c in string.decode("utf-8"))
    except UnicodeDecodeError:
        return False


class Table:
    def __init__(self, event, source):
        self.columns = max(1, event.columns)
        self.alignments = [event.alignments >> 2 * i & 3 for i in range(event.columns)] or [0]
        self.open = is_white(source[min(event.end, len(source)) :])
        self.header = []
        self.rows = []

    def padded(self, row):
        return row + [[]] * (self.columns - len(row))

    def all_rows(self):
        return [self.padded(row) for row in [self.header] + self.rows]


class Fold:
    """A sheet as a list of stretches, each a list of lines, with the tables between them."""

    def __init__(self, ruler, styles, text, source):
        self.ruler, self.styles, self.text, self.source = ruler, styles, text, source
        self.parts = [[[]]]
        self.table = None
        self.entry = None
        self.row = []
        self.laid = [styles["base"]]
        self.code_block = False
        self.item = None

    def end_line(self, times=1):
        self.parts[-1].extend([] for _ in range(times))

    def empty_line(self):
        return self.parts[-1][-1] == []

    def filled(self):
        return len(self.parts[-1]) > 1 or not self.empty_line()

    def put(self, glyphs):
        if self.table is None:
            self.parts[-1][-1].extend(glyphs)
        elif self.entry is not None:
            self.entry.extend(glyphs)

    def glyphs(self, string, style):
        return glyphs_of(self.ruler, string, style)

    def prose(self, string):
        style = self.styles["code_block"] if self.code_block else self.laid[-1]
        for i, part in enumerate(string.split(b"\n")):
            if i > 0:
                self.end_line()
            if part and self.code_block:
                self.put([sign(" ", style)] * 2)
            if part:
                self.put(self.glyphs(part, style))

    def leaf(self, name, string):
        if self.table is not None and self.entry is None:
            return
        style = self.laid[-1]
        if name == "TEXT" and self.table is None:
            self.prose(string)
        elif name == "TEXT":
            self.put(self.glyphs(string, style))
        elif name == "CODE":
            self.put(self.glyphs(string, self.styles["code_inline"]))
        elif name == "HARD_BREAK" and self.table is None:
            self.end_line()
        elif name in ("SOFT_BREAK", "HARD_BREAK"):
            self.put([sign(" ", style)])

    def start_block(self, name, event):
        if name == "CODE_BLOCK":
            if not self.empty_line():
                self.end_line(2)
            self.code_block = True
        elif name == "PARAGRAPH":
            if self.item == "before its first paragraph":
                self.item = "behind its first paragraph"
            elif self.filled():
                self.end_line(2 if self.item is None else 1)
        elif name == "HEADING" and self.filled():
            self.end_line(2)
        elif name == "LIST" and self.filled():
            self.end_line()
        elif name == "ITEM":
            if self.filled():
                self.end_line()
            gray = Style(9, 0, 0, 0)
            self.put([sign("-", gray), sign(" ", gray)])
            self.item = "before its first paragraph"
        elif name == "TABLE":
            self.table = Table(event, self.source)
        elif name == "CELL":
            self.entry = []

    def start_style(self, name):
        if name == "STRONG":
            self.laid.append(over(self.styles["bold"], over(adding(1), self.laid[-1])))
        elif name == "EMPHASIS":
            self.laid.append(over(self.styles["italic"], over(adding(2), self.laid[-1])))
        elif name == "HEADING":
            self.laid.append(self.styles["heading"])
        elif name == "HEAD":
            self.laid.append(over(self.styles["table_header"], self.laid[-1]))

    def end(self, name):
        if name in ("STRONG", "EMPHASIS", "HEADING", "HEAD"):
            self.laid.pop()
        if name == "CODE_BLOCK":
            self.code_block = False
            if not self.empty_line():
                self.end_line()
        elif name == "ITEM":
            self.item = None
        elif name == "CELL":
            self.row.append(self.entry)
            self.entry = None
        elif name == "HEAD":
            self.table.header, self.row = self.row, []
        elif name == "ROW":
            self.table.rows.append(self.row)
            self.row = []
        elif name == "TABLE":
            self.parts += [self.table, [[]]]
            self.table = None

    def take(self, event):
        name = NAME_OF[event.kind]
        if name.endswith("_END"):
            self.end(name[:-4])
        elif name in STARTS:
            self.start_block(name, event)
            self.start_style(name)
        else:
            self.leaf(name, self.text[event.place : event.place + event.length])

    def counts(self):
        """Glyphs, lines, rows and tables."""
        tables = self.parts[1::2]
        rows = [row for table in tables for row in table.all_rows()]
        lines = [line for stretch in self.parts[::2] for line in stretch]
        in_rows = sum(len(entry) for row in rows for entry in row)
        return [sum(map(len, lines)) + in_rows, len(lines), len(rows), len(tables)]

    def blocks(self):
        """What is left of the stretches without the empty lines at their ends, and the tables."""
        found = []
        for part in self.parts:
            if isinstance(part, Table):
                found.append(part)
                continue
            lines = list(part)
            while lines and lines[-1] == []:
                lines.pop()
            if lines:
                found.append(lines)
        return found


LIMITS = [50_000, 4_096, 4_096, 255]


class Sheet:
    """What a sheet holds, over memory for so many glyphs, lines and rows."""

    def __init__(self, glyphs, lines, rows):
        self.room = [glyphs, lines, rows, 255]
        self.blocks, self.used = [], [0, 0, 0, 0]

    def load(self, ruler, styles, events, text, source):
        refusal = check(ruler, styles, events, text)
        if refusal:
            return refusal
        fold = Fold(ruler, styles, text, source)
        for event in events:
            fold.take(event)
        for amount, (count, room, limit) in enumerate(zip(fold.counts(), self.room, LIMITS)):
            if count > min(room, limit):
                return (4, amount)
        self.blocks = fold.blocks() if source else []
        self.used = fold.counts() if source else [0, 0, 0, 0]
        return (0, 0)


# Digests.

MASK = 2**64 - 1


class Digest:
    """FNV-1a over 64 bits. What is taken in begins with a byte that tells what it is."""

    def __init__(self):
        self.value = 0xCBF29CE484222325

    def bytes(self, *found):
        for b in found:
            self.value = ((self.value ^ b) * 0x100000001B3) & MASK

    def two_bytes(self, number):
        self.bytes(number & 255, number >> 8 & 255)

    def glyphs(self, glyphs):
        for symbol, width, style in glyphs:
            self.bytes(1, len(symbol), *symbol.ljust(8, b"\0"), width, *style)

    def block(self, block):
        if isinstance(block, Table):
            self.bytes(3, block.columns, block.open, *(max(1, a) for a in block.alignments))
            for row in block.all_rows():
                self.bytes(4)
                for entry in row:
                    self.bytes(5)
                    self.glyphs(entry)
        else:
            self.bytes(6)
            for line in block:
                self.bytes(2)
                self.glyphs(line)

    def loaded(self, answer, sheet):
        """An answer, what is in use after it, and the blocks after it."""
        self.bytes(7, answer[0])
        self.two_bytes(answer[1])
        for count in sheet.used:
            self.two_bytes(count)
        for block in sheet.blocks:
            self.block(block)


# Pieces of sheets. A step is (kind, place, length), and of a table (kind, end, columns).

TEXT = b""
SOURCE = b"closed  "
CLOSED, OPEN, PAST = 5, 6, 99


def text(string, name="TEXT"):
    """A Text, or a Code, of these bytes in the one text of all pieces."""
    global TEXT
    string = string if isinstance(string, bytes) else string.encode()
    if string not in TEXT:
        TEXT += string
    return [(name, TEXT.index(string), len(string))]


def code(string):
    return text(string, "CODE")


def leaf(name):
    return [(name, 0, 0)]


def within(name, *steps):
    return [(name, 0, 0)] + sum(steps, []) + [(name + "_END", 0, 0)]


def table(columns, end, *steps):
    return [("TABLE", end, columns)] + sum(steps, []) + [("TABLE_END", 0, 0)]


def cells(*strings):
    return sum((within("CELL", text(s) if s else []) for s in strings), [])


def paragraph(*steps):
    return within("PARAGRAPH", *steps)


# Tabs, controls, wide characters, marks on a letter and at the start, more marks than fit, and characters
# of no width.
ODD = "\t\x1b漢é e\u0301\u0301\u0301\u0301 \u200bx\x7f\u0300"

PIECES = {
    "bare text": text("ab"),
    "paragraph": paragraph(text("cd")),
    "paragraph of lines": paragraph(text("e\nf\n\ng")),
    "text that ends with line feeds": text("h\n\n"),
    "text that begins with a line feed": text("\ni"),
    "line feeds alone": text("\n\n\n"),
    "odd text": paragraph(text(ODD)),
    "bold": within("STRONG", text("j")),
    "bold in emphasis": within("EMPHASIS", text("k"), within("STRONG", text("l")), text("m")),
    "inline code with a line feed": code("n\no"),
    "soft break": leaf("SOFT_BREAK"),
    "hard break": leaf("HARD_BREAK"),
    "paragraph of everything": paragraph(
        text("p"), within("STRONG", code("q"), leaf("SOFT_BREAK")), leaf("HARD_BREAK"), text("r")
    ),
    "code block": within("CODE_BLOCK", text("s\nt\n")),
    "empty code block": within("CODE_BLOCK"),
    "code block of everything": within(
        "CODE_BLOCK",
        text("u\n\nv"),
        within("STRONG", text("w"), leaf("SOFT_BREAK")),
        code("x"),
        leaf("HARD_BREAK"),
        text("y"),
    ),
    "heading": within("HEADING", text("z")),
    "bold in a heading": within("HEADING", text("A"), within("STRONG", text("B")), code("C")),
    "list of items": within(
        "LIST", within("ITEM", text("D")), within("ITEM"), within("ITEM", text("E\nF"))
    ),
    "list of paragraphs": within(
        "LIST",
        within("ITEM", paragraph(text("G"))),
        within("ITEM", paragraph(text("H")), paragraph(text("I")), paragraph()),
    ),
    "list in an item": within(
        "LIST",
        within("ITEM", paragraph(text("J")), within("LIST", within("ITEM", text("K"))), paragraph(text("L"))),
    ),
    "item without a list": within("ITEM", within("HEADING", text("M")), within("CODE_BLOCK", text("N"))),
    "table": table(
        2, CLOSED, within("HEAD", cells("O", "P")), within("ROW", cells("Q", "R")), within("ROW", cells("S", ""))
    ),
    "table with entries that did not come": table(
        4, OPEN, within("HEAD", cells("T")), within("ROW"), within("ROW", cells("", "U"))
    ),
    "table without columns": table(0, PAST, within("HEAD", cells("V")), within("ROW", cells("W"))),
    "table without a head": table(1, OPEN, within("ROW", cells("X"))),
    "empty table": table(3, CLOSED),
    "table of a head alone": table(2, OPEN, within("HEAD", cells("", "Y"))),
    "table with text outside its entries": table(
        1,
        CLOSED,
        text("Z"),
        leaf("HARD_BREAK"),
        within("HEAD", within("STRONG", text("0"), leaf("SOFT_BREAK")), within("CELL", text("1")), code("2")),
        within("EMPHASIS", text("3\n")),
        within("ROW", leaf("OTHER"), within("CELL", text("4")), text("5")),
    ),
    "table of everything": table(
        2,
        OPEN,
        within(
            "HEAD",
            within("CELL", text("6"), within("STRONG", text("7"), leaf("SOFT_BREAK")), leaf("HARD_BREAK")),
            within("CELL", text(ODD), code("8\n9")),
        ),
        within("ROW", within("CELL", within("EMPHASIS", code("!"), text('"\n#'), leaf("HARD_BREAK")), leaf("OTHER"))),
    ),
    "table in a bold heading": within(
        "HEADING", within("STRONG", text("$"), table(1, CLOSED, within("HEAD", cells("%")), within("ROW", cells("&")))), text("'")
    ),
    "table in code in an item": within(
        "ITEM",
        within("CODE_BLOCK", text("("), table(1, CLOSED, within("ROW", cells(")\n*"))), text("+")),
        paragraph(text(",")),
    ),
    "table of thirty-two columns": table(32, CLOSED, within("ROW", cells(*["-"] * 32))),
    "other event": leaf("OTHER"),
}  # fmt: skip

# What a piece is put into.
MARKS_AROUND = ["STRONG", "EMPHASIS", "CODE_BLOCK", "PARAGRAPH", "HEADING", "ITEM", "LIST"]


def event_of(step):
    name, place, length = step
    if name == "TABLE":
        return Event(NAMES[name], 0, 0, place, length, ALIGNMENTS)
    return Event(NAMES[name], place, length, 0, 0, 0)


def events_of(*steps):
    return [event_of(step) for step in sum(steps, [])]


ROOM, LITTLE_ROOM = (400, 60, 20), (50, 16, 4)


def load(sheet, ruler, events):
    return sheet.load(RULERS[ruler], STYLES, events, TEXT, SOURCE)


def digest_of(ruler, sheets, sheet=None):
    """What one sheet, loaded again and again, answers and holds."""
    digest, sheet = Digest(), sheet or Sheet(*ROOM)
    for events in sheets:
        digest.loaded(load(sheet, ruler, events), sheet)
    return digest.value


# Which digests crates/markdown_tests holds.

PARTS = list(PIECES.values())


def alone(ruler):
    return [digest_of(ruler, [events_of(piece)]) for piece in PARTS]


def pairs(ruler):
    """For each piece, that piece with each one behind it."""
    return [digest_of(ruler, [events_of(a, b) for b in PARTS]) for a in PARTS]


def marked(ruler):
    """For each mark: each piece in that mark, with each piece before it and that again behind it."""
    found = []
    for mark in MARKS_AROUND:
        sheets = [events_of(b, within(mark, a), b) for a in PARTS for b in PARTS]
        found.append(digest_of(ruler, sheets))
    return found


GOOD = ["heading", "paragraph of everything", "list of paragraphs", "table", "code block", "other event"]


def damaged(ruler):
    """A good sheet, whole, and without each event; then, with the same sheet loaded on, with each event
    doubled; then with each event before the one that it follows."""
    good = events_of(*(PIECES[name] for name in GOOD))
    n = len(good)
    dropped = [good[:i] + good[i + 1 :] for i in range(n)]
    doubled = [good[: i + 1] + good[i:] for i in range(n)]
    swapped = [good[: i - 1] + [good[i], good[i - 1]] + good[i + 1 :] for i in range(1, n)]
    sheet = Sheet(*ROOM)
    return [digest_of(ruler, copies, sheet) for copies in ([good] + dropped, doubled, swapped)]


def nested(depth):
    """So many marks, one in the other, with a letter behind each start and each end."""
    marks = [["STRONG", "EMPHASIS", "HEADING"][level % 3] for level in range(depth)]
    starts = [[(mark, 0, 0), ("TEXT", 0, 1)] for mark in marks]
    ends = [[(mark + "_END", 0, 0), ("TEXT", 1, 1)] for mark in reversed(marks)]
    return events_of(*starts, *ends)


def drawn():
    """20,000 sheets of up to seven pieces, drawn by a linear congruential generator, with up to three events
    changed for others of the same sheet."""
    state = 1

    def below(n):
        nonlocal state
        state = (state * 6364136223846793005 + 1442695040888963407) & MASK
        return (state >> 33) % n if n else 0

    for _ in range(20_000):
        events = []
        for _ in range(below(8)):
            events += events_of(PARTS[below(len(PARTS))])
        for _ in range(below(4)):
            place, other = below(len(events)), below(len(events))
            if events:
                events[place] = events[other]
        yield events


def describe(block):
    def line(glyphs):
        return " ".join(f"{s.decode(errors='replace')!r}/{w}/{','.join(map(str, t))}" for s, w, t in glyphs)

    if isinstance(block, Table):
        print("table, columns", block.columns, "alignments", block.alignments, "open" if block.open else "closed")
        for row in block.all_rows():
            print("  row")
            for entry in row:
                print("    entry", line(entry))
    else:
        print("text")
        for glyphs in block:
            print("  line", line(glyphs))


def show(ruler, names):
    sheet = Sheet(*ROOM)
    print("answer", load(sheet, ruler, events_of(*(PIECES[name] for name in names))), "in use", sheet.used)
    for block in sheet.blocks:
        describe(block)


HEAD = """// Pieces of sheets, and digests of what sheets of them answer and hold, with the byte ruler and with the
// UTF-8 ruler. Written by tools/load_answers.py, which says how; do not edit.

use super::made::*;

// The text that the pieces name, and the source of every sheet of them.
"""


def literal(string):
    shown = {9: "\\t", 10: "\\n", 34: '\\"', 92: "\\\\"}
    return 'b"' + "".join(shown.get(b) or (chr(b) if 32 <= b < 127 else f"\\x{b:02x}") for b in string) + '"'


def listed(items, indent):
    """Items of an array, each in a line of its own."""
    return "".join(f"{' ' * indent}{item},\n" for item in items)


def piece(name, steps):
    items = [f"({kind}, {place}, {length})" for kind, place, length in steps]
    row = ", ".join(items)
    if len(row) <= 58:
        return f"    // {name}\n    &[{row}],\n"
    return f"    // {name}\n    &[\n{listed(items, 8)}    ],\n"


def stored(name, digests):
    """For each ruler a list of digests."""
    found = [digests(ruler) for ruler in RULERS]
    rows = "".join(f"    [\n{listed(row, 8)}    ],\n" for row in found)
    return f"\npub const {name}: [[u64; {len(found[0])}]; 2] = [\n{rows}];\n"


def answers():
    out = HEAD
    out += f"pub const SAMPLE: &[u8] =\n    {literal(TEXT)};\n\npub const SOURCE: &[u8] = {literal(SOURCE)};\n"
    out += f"\npub const PIECES: [&[Step]; {len(PIECES)}] = [\n"
    out += "".join(piece(name, steps) for name, steps in PIECES.items()) + "];\n"
    for name, digests in (("ALONE", alone), ("PAIRS", pairs), ("MARKED", marked), ("DAMAGED", damaged)):
        out += stored(name, digests)
    found = ", ".join(str(digest_of(ruler, drawn(), Sheet(*LITTLE_ROOM))) for ruler in RULERS)
    out += f"\npub const DRAWN: [u64; 2] = [{found}];\n"
    out += f"\npub const NESTED: u64 = {digest_of('utf8', [nested(64), nested(65)])};\n"
    good = ", ".join(str(list(PIECES).index(name)) for name in GOOD)
    return out + f"\n// The pieces of a good sheet.\npub const GOOD: [usize; {len(GOOD)}] = [{good}];\n"


if __name__ == "__main__":
    if sys.argv[1:2] == ["names"]:
        print("\n".join(PIECES))
    elif sys.argv[1:2] == ["show"]:
        show(sys.argv[2], sys.argv[3:])
    else:
        with open("crates/markdown_tests/src/answers.rt", "w") as out:
            out.write(answers())
