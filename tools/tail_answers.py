#!/usr/bin/env python3
"""Answers for the streaming tail, by the rules of docs/tail.md, for the tests to compare with.

Written from the rules alone, in another language; nothing is shared with the Rattle code or its
definitions. `tail_answers.py` prints the two digests that crates/tail_tests holds;
`tail_answers.py cook HEX` prints the answer for one source.

A digest is FNV-1a over 64 bits: for each source in turn the byte 0 if it stays as it is, or
the byte 1 and then the bytes of the cooked text; each answer is ended by the byte 255.
"""

import sys

# White space: what Unicode calls so.
WHITE = set(
    [chr(c) for c in range(0x09, 0x0E)]
    + [chr(c) for c in (0x20, 0x85, 0xA0, 0x1680, 0x2028, 0x2029, 0x202F, 0x205F, 0x3000)]
    + [chr(c) for c in range(0x2000, 0x200B)]
)
WHITES = "".join(sorted(WHITE))


def blank(text):
    return all(c in WHITE for c in text)


def marks(line, mark):
    """How many marks the line has after leading white space, and what is behind them."""
    rest = line.lstrip(WHITES)
    behind = rest.lstrip(mark)
    return len(rest) - len(behind), behind


def opener(line):
    """The mark and the number of marks of the fence that the line opens, if it opens one."""
    for mark in "`~":
        count, behind = marks(line, mark)
        if count >= 3 and not (mark == "`" and "`" in behind):
            return mark, count
    return None


def run_at_end(lines):
    """The run of pipe lines that reaches the end."""
    run = []
    fence = None
    for line in lines:
        if fence is not None:
            mark, least = fence
            count, behind = marks(line, mark)
            if count >= least and blank(behind):
                fence = None
            run = []
            continue
        fence = opener(line)
        if fence is None and line.lstrip(WHITES).startswith("|"):
            run.append(line)
        else:
            run = []
    return run


def entries(line):
    """The entries of a line."""
    text = line.strip(WHITES)
    if text.startswith("|"):
        text = text[1:]
    if text.endswith("|"):
        before = text[:-1]
        if (len(before) - len(before.rstrip("\\"))) % 2 == 0:
            text = before
    found = [""]
    i = 0
    while i < len(text):
        if text[i] == "\\" and i + 1 < len(text):
            found[-1] += text[i : i + 2]
            i += 2
        elif text[i] == "|":
            found.append("")
            i += 1
        else:
            found[-1] += text[i]
            i += 1
    return found


def hyphens(entry):
    """Trimmed, one or more hyphens with an optional colon at either end."""
    text = entry.strip(WHITES)
    if text.startswith(":"):
        text = text[1:]
    if text.endswith(":"):
        text = text[:-1]
    return text != "" and set(text) == {"-"}


def complete(line, count):
    found = entries(line)
    return len(found) == count and all(hyphens(e) for e in found)


def unfinished(line):
    text = line.strip(WHITES)
    return text != "" and set(text) <= set("|-: \t")


def delimiter_row(count):
    return "|" + "---|" * count


def cook(source):
    """The repaired source, or None if it stays as it is."""
    ended = source.endswith("\n")
    body = source[:-1] if ended else source
    if body == "":
        return None
    run = run_at_end(body.split("\n"))
    if not run or len(run) > 2:
        return None
    header = run[0]
    if header.strip(WHITES) == "|":
        return None
    count = max(1, len(entries(header)))
    if len(run) == 1:
        return source + ("" if ended else "\n") + delimiter_row(count)
    second = run[1]
    if complete(second, count):
        return None
    if unfinished(second) and not ended:
        return source[: len(source) - len(second)] + delimiter_row(count)
    return None


class Digest:
    def __init__(self):
        self.value = 0xCBF29CE484222325

    def byte(self, b):
        self.value = ((self.value ^ b) * 0x100000001B3) % 2**64

    def answer(self, source):
        cooked = cook(source)
        if cooked is None:
            self.byte(0)
        else:
            self.byte(1)
            for b in cooked.encode():
                self.byte(b)
        self.byte(255)


LETTERS = "|-:a`~\\ \t\n"


def short_sources():
    """All sources of up to five letters, the shorter first, the last letter changing fastest."""
    for length in range(6):
        for n in range(len(LETTERS) ** length):
            text = ""
            for _ in range(length):
                text = LETTERS[n % len(LETTERS)] + text
                n //= len(LETTERS)
            yield text


PIECES = [
    "|", "-", ":", "a", "`", "~", "\\", " ", "\t", "\n",
    "```", "````", "~~~", "---", "|--", "\n|", "\n```", "\n~~~", "\n~~~~", "\\|", "\r", "\u00a0", "\u3000", "\u00e9",
]  # fmt: skip


def longer_sources():
    """100,000 sources of up to 16 pieces, drawn by a linear congruential generator."""
    state = 1
    for _ in range(100_000):
        text = ""
        state = (state * 6364136223846793005 + 1442695040888963407) % 2**64
        for _ in range((state >> 33) % 17):
            state = (state * 6364136223846793005 + 1442695040888963407) % 2**64
            text += PIECES[(state >> 33) % len(PIECES)]
        yield text


def main():
    if sys.argv[1:2] == ["cook"]:
        try:
            cooked = cook(bytes.fromhex(sys.argv[2]).decode())
            print("same" if cooked is None else cooked.encode().hex())
        except UnicodeDecodeError as error:
            print("refused 3", error.start)
        return
    for name, sources in (("short", short_sources()), ("longer", longer_sources())):
        digest = Digest()
        changed = 0
        for source in sources:
            digest.answer(source)
            changed += cook(source) is not None
        print(name, digest.value, "changed", changed)


if __name__ == "__main__":
    main()
