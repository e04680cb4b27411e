"""The two example pools of docs/FORMAT.md: the same calls on each layout, made by probe, as hex and with each governed word named; what
differs where the second is moved to the first one's layout; and what is written where such a pool is brought in.

  python3 examples/format/page.py           writes what stands between the page's markers
  python3 examples/format/page.py --check   holds the page to it; the last line is `N passed, M failed`

The words are named by a small reader that follows the page's own rules. That it names just the governed ones is asked of probe too: the
calls are made over two buffers of other bytes, and a byte is governed exactly if it comes out the same.
"""

import os
import re
import sys

HERE = os.path.dirname(os.path.abspath(__file__))
ROOT = os.path.join(HERE, "..", "..")
sys.path.insert(0, os.path.join(ROOT, "tools", "drawing"))

import main  # noqa: E402

PAGE = os.path.join(ROOT, "docs", "FORMAT.md")
LENGTH = 512
# take, give back; see the page for what each leaves behind
CALLS = [("T", 76), ("T", 61), ("T", 92), ("T", 61), ("T", 4), ("T", 4), ("G", 508), ("G", 172), ("G", 324)]
FILL, OTHER = 0xEE, 0x11
FALSE, BLOCKS, LEVELS = 96, 168, 13
HELD, BELOW_NOT_FREE = 1, 2


def made(layout, fill, *moves, calls=CALLS):
    """The pool's bytes after the calls, over a buffer of one byte, and after the moves, each from a layout to the other one."""
    calls = [("M", layout), *calls, *(("Y", old) for old in moves)]
    return after(bytes([fill]) * LENGTH, [letter.encode() + number.to_bytes(4, "little") for letter, number in calls])


def after(data, commands):
    """What probe makes of these bytes."""
    lines = main.ask_probe([main.image_command(data), *commands, b"N", b"D"])
    refused = [line for line in lines if line.split()[1] != "0"]
    if refused:
        sys.exit(f"examples/format/page.py: probe refuses a call: {refused[0]}")
    return bytes.fromhex(lines[-1].split()[-1])


class Reader:
    """Every governed word, as (offset, width, what stands there); in the order of their offsets."""

    def __init__(self, data):
        self.data, self.words = data, []
        self.levels = self.number(FALSE + 12)
        self.header()
        self.start, self.end = self.number(16, 8), self.number(24, 8)
        self.large = self.run(BLOCKS, self.start)
        self.small = self.run(self.end, len(data))
        firsts = [(block, "first block of its bin") for block in self.firsts()]
        self.index(FALSE, self.levels)
        self.name(self.start, 4, f"the remainder's head: size {self.end - self.start}, P 1, free")
        for block in self.large:
            self.block(block, dict(firsts).get(block))
        for block in self.small:
            self.block(block, None)
        self.words.sort()

    def number(self, at, width=4):
        return int.from_bytes(self.data[at:at + width], "little")

    def target(self, block, at):
        distance = int.from_bytes(self.data[block + at:block + at + 4], "little", signed=True)
        return block + distance if distance else None

    def size(self, block):
        return self.number(block) >> 2

    def held(self, block):
        return self.number(block) & HELD

    def name(self, at, width, what):
        self.words.append((at, width, what))

    def run(self, at, end):
        blocks = []
        while at < end:
            blocks.append(at)
            at += self.size(at)
        return blocks

    def firsts(self):
        block = self.target(FALSE, 64)
        while block is not None:
            yield block
            block = self.target(block, 64)

    def height(self, size):
        return min(self.levels, (size // 8 & -(size // 8)).bit_length())

    # Names

    def header(self):
        for at, what in [(0, "free word: all free sizes, less 4"), (8, "where the false block starts"), (16, "R, where the remainder starts"),
                         (24, "E, where the remainder ends")]:
            self.name(at, 8, what)
        for size in range(8, 72, 8):
            first = self.number(24 + size, 8)
            self.name(24 + size, 8, f"small bin {size}: " + (f"its first block is at {first}" if first else "empty"))
        for at in (0, 4, 8, 68):
            self.name(FALSE + at, 4, f"false block +{at}: zero")
        self.name(FALSE + 12, 4, f"false block +12: level word {self.levels}, so layout {1 if self.levels == 1 else 2}")
        for at in range(16, 64, 4) if self.levels == 1 else ():
            self.name(FALSE + at, 4, f"false block +{at}: zero")

    def index(self, block, height):
        for level in range(1, height + 1):
            at = 64 - 4 * (level - 1)
            target = self.target(block, at)
            who = "false block " if block == FALSE else ""
            word = "chain word" if self.levels == 1 else f"level {level}"
            leads = f"to {target}, the first block of bin {self.size(target)}" if target else "none follows"
            self.name(block + at, 4, f"{who}+{at}: {word}, {leads}")

    def block(self, block, first):
        size, head = self.size(block), self.number(block)
        large, state = size >= 72, "held" if self.held(block) else "free"
        self.name(block, 4, f"head: size {size}, P {head // BELOW_NOT_FREE & 1}, {state}")
        if self.held(block):
            return
        if not large:
            following = self.number(block + 4)
            self.name(block + 4, 4, f"+4: next block of small bin {size}" + (f" at {following}" if following else ": none"))
            return
        for at, what in [(4, "previous"), (8, "next")]:
            other = self.target(block, at)
            self.name(block + at, 4, f"+{at}: {what} block of bin {size}" + (f" at {other}" if other else ": none"))
        self.name(block + size - 4, 4, f"+{size - 4}: the head again")
        if first:
            height = self.height(size)
            self.name(block + 12, 4, f"+12: level word, height {height}")
            self.index(block, height)


def hex_lines(data):
    for at in range(0, len(data), 16):
        row = data[at:at + 16]
        yield f"    {at:>3}  {row[:8].hex(' ')}  {row[8:].hex(' ')}"


def rows(data, words):
    """A row for each word; words of one kind side by side that are all zero share one."""
    at = 0
    while at < len(words):
        start, width, what = words[at]
        last = at
        if is_zero(data, words[at]):
            while last + 1 < len(words) and is_zero(data, words[last + 1]) and alike(words[last], words[last + 1]):
                last += 1
        if last == at:
            value = int.from_bytes(data[start:start + width], "little")
            signed = int.from_bytes(data[start:start + width], "little", signed=True)
            shown = f"{value:,}" if signed >= 0 else f"{signed:,}, stored as {value:,}"
            yield f"| {start} | {width} | `{data[start:start + width].hex(' ')}` | {shown} | {what} |"
        else:
            end = words[last][0]
            yield f"| {start} to {end} | {last - at + 1} × {width} | `00` .. | 0 | {together(what, words[last][2])} |"
        at = last + 1


def is_zero(data, word):
    start, width, _ = word
    return not any(data[start:start + width])


def kind(word):
    return re.sub(r"\d+", "n", word[2])


def alike(word, following):
    return word[0] + word[1] == following[0] and word[1] == following[1] and kind(word) == kind(following)


def together(first, last):
    """`false block +16: level 13, none follows` and `.. +48: level 5, ..` as one text."""
    numbers, others = re.findall(r"\+?\d+", first), re.findall(r"\+?\d+", last)
    for number, other in zip(numbers, others):
        if number != other:
            first = first.replace(number, f"{number} to {other}", 1)
    return first.replace("small bin ", "small bins ").replace("level ", "levels ")


def pool_section(layout):
    data = made(layout, FILL)
    words = Reader(data).words
    out = [*hex_lines(data), "", "| Offset | Bytes | Hex | Value | What it is |", "|---:|---:|---|---|---|", *rows(data, words)]
    return "\n".join(out)


def left_words():
    """The words of the pool of layout 2 that differ from the pool of layout 1 after a move to layout 1; and whether they are all that differs."""
    data, moved = made(1, FILL), made(2, FILL, 2)
    left = [word for word in Reader(made(2, FILL)).words if data[word[0]:word[0] + word[1]] != moved[word[0]:word[0] + word[1]]]
    known = {at for start, width, _ in left for at in range(start, start + width)}
    return left, all(data[at] == moved[at] or at in known for at in range(LENGTH))


def left_section():
    data, moved = made(1, FILL), made(2, FILL, 2)
    out = ["| Offset | The first pool | The second, moved | What it was in layout 2 |", "|---:|---|---|---|"]
    out += [f"| {start} | `{data[start:start + width].hex(' ')}` | `{moved[start:start + width].hex(' ')}` | {what} |"
            for start, width, what in left_words()[0]]
    return "\n".join(out)


# The block that version 0.5 gave back and left at E: 8 bytes, and 8 free ones of the same bin behind it.
AT_EDGE = 496


def stored(layout, fill):
    """The pool as version 0.5 leaves it: the block comes to the front of its bin, and stays there."""
    data = bytearray(made(layout, fill))
    data[AT_EDGE] &= 0xFF - HELD
    data[AT_EDGE + 4:AT_EDGE + 8] = data[32:36]
    data[32:36] = AT_EDGE.to_bytes(4, "little")
    data[0] += 8  # the free word
    return bytes(data)


def brought_words():
    """The words that are written where that pool is brought in; and whether they are all that is."""
    data = stored(1, FILL)
    brought = after(data, [b"H"])
    new = [word for word in Reader(brought).words if data[word[0]:word[0] + word[1]] != brought[word[0]:word[0] + word[1]]]
    known = {at for start, width, _ in new for at in range(start, start + width)}
    return data, brought, new, all(data[at] == brought[at] or at in known for at in range(LENGTH))


def brought_section():
    data, brought, new, _ = brought_words()
    out = ["| Offset | As version 0.5 left it | Brought in | What it is then |", "|---:|---|---|---|"]
    out += [f"| {start} | `{data[start:start + width].hex(' ')}` | `{brought[start:start + width].hex(' ')}` | {what} |" for start, width, what in new]
    return "\n".join(out)


def given_back_meets(layout):
    """Whether that pool, brought in, is the one that a give-back of the same block leaves now, but for the inside of the remainder."""
    brought, now = after(stored(layout, FILL), [b"H"]), made(layout, FILL, calls=[*CALLS, ("G", AT_EDGE + 4)])
    head = int.from_bytes(now[16:24], "little") + 4
    end = int.from_bytes(now[24:32], "little")
    return brought[:head] == now[:head] and brought[end:] == now[end:]


def is_refused(data):
    return main.ask_probe([main.image_command(data), b"N"])[1] == "N 2 0"


# What the page shows, by the name in its markers.
SECTIONS = {"layout 1": lambda: pool_section(1), "layout 2": lambda: pool_section(2), "moved": left_section, "brought in": brought_section}


def governed(layout):
    """The bytes that are the same whatever stood there before, by probe; and those that the reader names."""
    data, other = made(layout, FILL), made(layout, OTHER)
    same = {at for at in range(LENGTH) if data[at] == other[at]}
    named = [at for start, width, _ in Reader(data).words for at in range(start, start + width)]
    return same, named


def markers(name):
    return f"<!-- {name}: begin -->", f"<!-- {name}: end -->"


def between(text, name):
    begin, end = markers(name)
    return text.split(begin)[1].split(end)[0].strip("\n")


def asked(text):
    """What is asked of the page and of probe, and whether it holds."""
    for name, section in SECTIONS.items():
        yield between(text, name) == section(), f"{name}: what stands there is what probe makes: else run examples/format/page.py"
    for layout in (1, 2):
        same, named = governed(layout)
        yield sorted(named) == sorted(same), f"each governed byte of layout {layout} is named once, and no other"
    yield made(1, FILL, 1) == made(2, FILL), "the first pool, moved to layout 2, is the second one"
    yield left_words()[1], "the second pool, moved to layout 1, is the first one but for the words that are shown"
    yield made(2, FILL, 2, 1) == made(2, FILL), "the second pool, there and back, is the same"
    yield made(1, FILL, 1, 2) == made(2, FILL, 2), "the first pool, there and back, is the second one moved to layout 1"
    yield brought_words()[3], "where a pool is brought in, no other words are written than those that are shown"
    for layout in (1, 2):
        old = stored(layout, FILL)
        yield is_refused(old), f"the pool of version 0.5 is refused with 2 until it is brought in, in layout {layout}"
        yield after(old, [b"H", b"H"]) == after(old, [b"H"]), f"twice is once, in layout {layout}"
        yield after(made(layout, FILL), [b"H"]) == made(layout, FILL), f"a sound pool is left as it is, in layout {layout}"
        yield given_back_meets(layout), f"brought in, it is what a give-back leaves now, in layout {layout}"


def check(text):
    good = bad = 0
    for holds, what in asked(text):
        good, bad = good + holds, bad + (not holds)
        if not holds:
            print(f"failed: docs/FORMAT.md: {what}")
    print(f"{good} passed, {bad} failed")
    return bad == 0


def write(text):
    for name, section in SECTIONS.items():
        begin, end = markers(name)
        before, after = text.split(begin)[0], text.split(end)[1]
        text = f"{before}{begin}\n\n{section()}\n\n{end}{after}"
    with open(PAGE, "w") as file:
        file.write(text)


if __name__ == "__main__":
    with open(PAGE) as file:
        page = file.read()
    if sys.argv[1:] == ["--check"]:
        sys.exit(0 if check(page) else 1)
    if sys.argv[1:]:
        sys.exit("examples/format/page.py: usage: python3 examples/format/page.py [--check]")
    write(page)
