"""The picture of a pool. Rows of addresses to scale, one below the other; blocks first, then links, then words on top of both.

Everything that is drawn is worked out from the pool's bytes, the verdict and the figures, so that the same pool gives the same
picture, byte for byte.
"""

from bisect import bisect_left
from xml.sax.saxutils import escape

from index import INDEX_STYLE, Index
from pool import BLOCKS, CHAIN, END, FALSE_BLOCK, FALSE_WORD, FREE_WORD, SMALL_BINS, SMALL_SIZES, START
from sheet import LEFT, MARGIN, ROOM, WIDTH, short, text, width_of

HEIGHT, PITCH = 38, 66  # of a row, and from one row to the next
GAP = PITCH - HEIGHT  # no text stands there, nor right of the rows: links run in these
LEAST_ROW, MOST_ROWS = 256, 32
# With more links than the first the lines are faint; with more than the second they would hide the blocks, and are left out.
MANY_LINKS, MOST_LINKS = 40, 150
MOST_FAULTS, MOST_BINS, MOST_STARTS = 10, 10, 4

FIGURES = ["held blocks", "held bytes", "free small", "free large", "remainder", "free word", "largest grant"]
WORDS = {"held": "held", "small": "free", "large": "free", "remainder": "remainder"}
TITLES = {"held": "held", "small": "free small block", "large": "free large block", "remainder": "remainder, free"}
DARK = ("held", "record")  # words on these are white
HEADER = {FREE_WORD: "free", FALSE_WORD: "false", START: "R", END: "E"}
HEADER.update({SMALL_BINS + size: str(size) for size in SMALL_SIZES})
HEADER[FALSE_BLOCK + CHAIN] = "chain"

STYLE = """
text { font-family: 'Helvetica Neue', Helvetica, Arial, 'Liberation Sans', sans-serif; font-size: 12px; fill: #2b2d33;
  font-variant-numeric: tabular-nums; pointer-events: none }
.name { font-size: 20px; font-weight: 600 }
.quiet { fill: #767b86 }
.verdict { font-size: 15px; font-weight: 600 }
.tiny { font-size: 8.5px }
.offset { font-size: 10.5px }
.value { font-size: 19px }
.strong { font-weight: 600 }
.on-held { fill: #ffffff }
.on-held-quiet { fill: #c9d5e3 }
.on-light-quiet { fill: #6a6f7a }
.good { fill: #2f7d57 }
.red { fill: #c0262d }
.follows { fill: #a8666a }
.held { fill: #46627f }
.large { fill: #f0d9a0 }
.small { fill: #bfdcc8 }
.remainder { fill: #f4f2ed; stroke: #b9b4a6; stroke-dasharray: 3 2 }
.word { fill: #e3e5ea }
.false { fill: #d3d6de }
.unread { fill: url(#hatch) }
.bad { stroke: #c0262d; stroke-width: 2; stroke-dasharray: none }
.rule { stroke: #e3e5ea; fill: none }
.link { fill: none; stroke-width: 1.4; pointer-events: none }
.link-small { stroke: #2f7d57; marker-end: url(#to-small) }
.link-chain { stroke: #9a6b0f; marker-end: url(#to-chain) }
.link-equal { stroke: #9a6b0f; stroke-dasharray: 4 3; marker-end: url(#to-chain) }
.faint .link { stroke-width: 1; stroke-opacity: 0.5 }
.faint .link-bad { stroke-width: 2; stroke-opacity: 1 }
.link-bad { stroke: #c0262d; stroke-width: 2; marker-end: url(#to-bad) }
.plate { fill: #ffffff }
.cross { stroke: #c0262d; stroke-width: 2; fill: none }
"""
MARKER = ('<marker id="to-{0}" viewBox="0 0 8 8" refX="7" refY="4" markerWidth="7" markerHeight="7" markerUnits="userSpaceOnUse" '
          'orient="auto"><path d="M0 0.5L8 4L0 7.5z" fill="{1}"/></marker>')
HATCH = ('<pattern id="hatch" width="7" height="7" patternUnits="userSpaceOnUse" patternTransform="rotate(45)">'
         '<rect width="7" height="7" fill="#fbf1f1"/><path d="M0 0V7" stroke="#e3b4b4" stroke-width="2"/></pattern>')


class Rows:
    """Where an address stands: a row is a power of two, so that rows begin at round addresses. Where the header's words would be too
    narrow to be read, they also stand in a row of their own above the others, all as wide, and their links start there."""

    def __init__(self, n, top):
        self.row = LEAST_ROW
        while self.row * MOST_ROWS < n:
            self.row *= 2
        self.count = -(-n // self.row)
        self.scale = ROOM / self.row
        self.header = top if self.row > LEAST_ROW else None
        self.top = top + PITCH if self.header is not None else top

    def place(self, at):
        return LEFT + at % self.row * self.scale, self.top + at // self.row * PITCH

    def pieces(self, start, end):
        """The part in each row as (x, width, y, whether it is cut at the left, at the right)."""
        at = start
        while at < end:
            stop = min(end, at - at % self.row + self.row)
            x, y = self.place(at)
            yield x, (stop - at) * self.scale, y, at > start, stop < end
            at = stop

    def header_piece(self, word):
        """The same for the header's word at an address, and the chain's first, in their own row."""
        width = ROOM / len(HEADER)
        return LEFT + list(HEADER).index(word) * width, width, self.header, False, False

    def source(self, word):
        """Where the link of a word starts."""
        if self.header is not None and word in HEADER:
            x, width, y, _, _ = self.header_piece(word)
            return x + width / 2, y
        x, y = self.place(word)
        return x + (8 if word < FALSE_BLOCK else 4) * self.scale / 2, y


class Picture:
    style = STYLE
    swatches = {"held": "held", "large": "free large", "small": "free small", "remainder": "remainder", "word": "header word",
                "false": "false block"}

    def __init__(self, pool):
        self.pool = pool
        self.below, self.links, self.words = [], [], []  # the three layers
        self.routed = 0  # links that went around
        self.taken = {}  # for the y of a row, from where to where words stand in it
        self.y = 0
        if pool.layout == 2:
            self.style += INDEX_STYLE

    # Above the rows

    def head(self, title, number, figures):
        if number == 0:
            verdict, style = "sound", "good"
        else:
            verdict, style = f"refused with {number}: bring it in" if self.pool.to_bring_in else f"not sound, refused with {number}", "red"
        while width_of(title, 22) > WIDTH - 2 * MARGIN - 250:
            title = title[:-2] + "…"
        self.words.append(text(MARGIN, 46, title, "name"))
        self.words.append(text(WIDTH - MARGIN, 46, f"● {verdict}", f"{style} verdict", "end"))
        self.words.append(text(MARGIN, 68, self.subtitle(), "quiet"))
        step = (WIDTH - 2 * MARGIN) / len(FIGURES)
        for i, name in enumerate(FIGURES):
            value = str(figures[i]) if number == 0 else "–"
            self.words.append(text(MARGIN + i * step, 108, name, "quiet"))
            self.words.append(text(MARGIN + i * step, 130, value, "value"))
        self.below.append(f'<path class="rule" d="M{MARGIN} 84.5H{WIDTH - MARGIN}M{MARGIN} 146.5H{WIDTH - MARGIN}"/>')
        self.y = 146

    def subtitle(self):
        return f"{self.pool.n} bytes" + (", layout 2" if self.pool.layout == 2 else "")

    def faults(self):
        """The causes first, the very first one strong; what only follows from them is set apart."""
        faults = self.pool.faults
        for i, fault in enumerate(faults[:MOST_FAULTS]):
            self.y += 19
            style = "follows" if fault.follows else "red"
            words = f"follows: {fault.text}" if fault.follows else fault.text
            self.words.append(text(MARGIN + 40, self.y + 4, str(fault.at), f"{style} strong", "end"))
            self.words.append(text(MARGIN + 50, self.y + 4, words, style + (" strong" if i == 0 else "")))
        if len(faults) > MOST_FAULTS:
            self.y += 19
            self.words.append(text(MARGIN + 50, self.y + 4, f"and {len(faults) - MOST_FAULTS} more", "red"))

    # The rows

    def rows(self):
        self.scale = Rows(self.pool.n, self.y + 40)
        for i in range(self.scale.count):
            _, y = self.scale.place(i * self.scale.row)
            self.words.append(text(LEFT - 12, y + HEIGHT / 2 + 4, str(i * self.scale.row), "quiet", "end"))
        bad = sorted(self.wrong()) + [self.pool.n]
        for start, end, style, title, labels in self.cells():
            wrong = bad[bisect_left(bad, start)] < end
            self.cell(self.scale.pieces(start, end), style + (" bad" if wrong else ""), title)
            self.label(start, list(self.scale.pieces(start, end)), style, labels)
        if self.scale.header is not None:
            self.header_row(bad)
        for start, end in self.pool.gaps:
            self.cell(self.scale.pieces(start, end), "unread", f"{start} to {end}: not read")
        self.breaks()
        self.y = self.scale.top + (self.scale.count - 1) * PITCH + HEIGHT

    def wrong(self):
        """Addresses whose cells are red."""
        return [fault.at for fault in self.pool.faults if not fault.follows]

    def header_words(self):
        """Each word as (its address, title, label); the last one is the chain's first link, in the false block."""
        for at, name in HEADER.items():
            if at < FALSE_BLOCK:
                value = self.pool.word(at, 8)
                shown = "–" if at > END and value == 0 else str(value)
            else:
                distance = self.pool.distance(at)
                value = FALSE_BLOCK + distance if distance else 0
                shown = str(value) if distance else "–"
            yield at, f"{self.header_title(at)} {'leads to' if at > FALSE_BLOCK else 'reads'} {value}", (name, shown)

    def header_row(self, bad):
        for at, title, words in self.header_words():
            piece = self.scale.header_piece(at)
            wrong = bad[bisect_left(bad, at)] < at + 8
            self.cell([piece], "word" + (" bad" if wrong else ""), title)
            self.label(at, [piece], "word", [words])
        self.words.append(text(LEFT - 12, self.scale.header + HEIGHT / 2 + 4, "header", "quiet", "end"))

    def cells(self):
        """Everything that has a place: (start, end, style, title, its label as lines, the fullest first)."""
        for at, title, (name, shown) in self.header_words():
            if at < FALSE_BLOCK:
                yield at, at + 8, "word", title, [(name, shown)]
        yield FALSE_BLOCK, BLOCKS, "false", f"{FALSE_BLOCK}: the false block", [(str(FALSE_BLOCK), "false block")]
        follows = {}
        for chain in self.pool.small_bins + self.pool.large_bins:
            follows.update(zip(chain.starts, chain.starts[1:]))
        heights = dict(self.pool.towers()) if self.pool.layout == 2 else {}
        for start, size, kind in self.pool.blocks:
            title = f"{start}: {TITLES[kind]}, {size} bytes"
            if kind == "remainder":
                yield start, start + size, kind, title, [(str(start), f"remainder {size}"), (str(start), str(size))]
                continue
            title += f", offset {start + 4}"
            if start in heights:
                title += f", first of its bin, height {heights[start]}"
            if start in follows:
                title += f", next in its bin {follows[start]}"
            elif kind != "held" and start not in self.pool.binned:
                title += ", in no bin"
            both = f"{start} · {start + 4}"
            yield start, start + size, kind, title, [(both, f"{WORDS[kind]} {size}"), (both, str(size)),
                                                     (str(start), str(start + 4), str(size))]

    @staticmethod
    def header_title(at):
        name = {FREE_WORD: "the free word", FALSE_WORD: "where the false block starts", START: "R, where the remainder starts",
                END: "E, where the remainder ends"}
        if at > FALSE_BLOCK:
            return f"{at}: the chain"
        return f"{at}: {name.get(at, f'the small bin of {at - SMALL_BINS}')}"

    def cell(self, pieces, style, title):
        shape = ""
        for x, width, y, cut_left, cut_right in pieces:
            # a hair of white between neighbours; where a block goes on in the next row its end is a point
            hair = min(0.8, width / 8)
            left, right, middle = x + (0 if cut_left else hair), x + width - (0 if cut_right else hair), HEIGHT / 2
            shape += f"M{short(left)} {short(y)}H{short(right)}"
            shape += f"l6 {short(middle)}l-6 {short(middle)}" if cut_right else f"v{HEIGHT}"
            shape += f"H{short(left)}" + (f"l6 {short(-middle)}z" if cut_left else "z")
        self.below.append(f'<path class="{style}" d="{shape}"><title>{escape(title)}</title></path>')

    def label(self, _start, pieces, style, tries, beside=0):
        """The first of some labels that fits, in the first piece that it fits; none where nothing does. Three lines are small and close,
        and so are those of the header's words among the blocks. `beside` is kept free behind it. Answers the piece and where the label
        ends, None where there is none."""
        on = "on-light" if style not in DARK else "on-held"
        for lines in tries:
            close = len(lines) == 3 or style == "word" and self.scale.header is None
            small, large, room = (8.5, 8.5, 2) if close else (10.5, 12, 7)
            for piece in pieces:
                x, width, y, cut_left, _ = piece
                first = f"from {lines[0]}" if cut_left else lines[0]
                pad = 12 if cut_left else room
                end = pad + max(width_of(first, small), *(width_of(line, large) for line in lines[1:]))
                if end + beside <= width:
                    tops = (11, 22, 33) if len(lines) == 3 else (15, 30)
                    self.words.append(text(x + pad, y + tops[0], first, f"{on}-quiet {'tiny' if close else 'offset'}"))
                    for top, line in zip(tops[1:], lines[1:]):
                        self.words.append(text(x + pad, y + top, line, f"{on} tiny" if close else on))
                    self.take(y, x + pad, x + end)
                    return piece, x + end
        return None

    def take(self, y, left, right):
        self.taken.setdefault(y, []).append((left, right))

    def breaks(self):
        """A red line where a walk ends, and in what was not read behind it what stands there; the list above has the rest."""
        broken = {fault.at for fault in self.pool.faults if fault.breaks}
        for start, end in self.pool.gaps:
            if start not in broken:
                continue
            x, y = self.scale.place(start)
            self.links.append(f'<path class="cross" d="M{short(x)} {short(y - 5)}v{HEIGHT + 10}"/>')
            words = f"{start} reads {self.pool.reads(start)}"
            for x, width, y, _, _ in self.scale.pieces(start, end):
                if width_of(words) + 24 <= width:
                    self.links.append(f'<rect class="plate" x="{short(x + 8)}" y="{short(y + 9)}" '
                                      f'width="{short(width_of(words) + 14)}" height="20" rx="3"/>')
                    self.words.append(text(x + 14, y + 23.5, words, "red strong"))
                    self.take(y, x + 8, x + 22 + width_of(words))
                    break

    # Links

    def arrows(self):
        drawn = self.pool.links
        if len(drawn) > MOST_LINKS:
            drawn = [link for link in drawn if link.fault is not None or link.source < BLOCKS]
        self.links.append('<g class="faint">' if len(drawn) > MANY_LINKS else "<g>")
        for link in drawn:
            self.arrow(link)
        self.links.append("</g>")
        if len(drawn) < len(self.pool.links):
            self.y += 24
            left = len(self.pool.links) - len(drawn)
            note = f"{left} links from block to block are not drawn; each block's title names the next."
            self.words.append(text(LEFT, self.y, note, "quiet"))

    def arrow(self, link):
        x, y = self.scale.source(link.source)
        outside = not 0 <= link.target < self.pool.n
        if outside:
            to_x, to_y = LEFT + ROOM + 18, y - 10
        else:
            to_x, to_y = self.scale.place(link.target)
            block = self.pool.at.get(link.target)
            to_x += min(10, block.size * self.scale.scale / 2) if block else 0
        style = link.kind if link.fault is None else "bad"
        if outside or abs(to_y - y) <= PITCH:
            path = self.curve(x, y, to_x, to_y, outside)
        else:
            path = self.around(x, y, to_x, to_y)
        self.links.append(f'<path class="link link-{style}" d="{path}"/>')
        if link.fault is not None:
            tip = to_y + HEIGHT if y > to_y and not outside else to_y
            self.links.append(f'<path class="cross" d="M{short(to_x - 4)} {short(tip - 4)}l8 8m0 -8l-8 8"/>')

    def around(self, x, y, to_x, to_y):
        """To a row further on: out into the gap beside the row, along it to the right of all rows, and back in the gap beside the other
        row. So it crosses no block and no words; the lanes keep neighbours apart."""
        self.routed += 1
        lane, down = self.routed, to_y > y
        edge = LEFT + ROOM + 12 + 4 * (lane % 6)
        near = y + HEIGHT + 5 + 3 * (lane % 4) if down else y - GAP + 14 + 3 * (lane % 4)
        far = to_y - GAP + 8 + 3 * (lane % 4) if down else to_y + HEIGHT + 8 + 3 * (lane % 4)
        y, to_y = (y + HEIGHT, to_y) if down else (y, to_y + HEIGHT)
        r = 4 if down else -4
        return (f"M{short(x)} {short(y)}V{short(near - r)}q0 {r} 4 {r}H{short(edge - 4)}q4 0 4 {r}V{short(far - r)}"
                f"q0 {r} -4 {r}H{short(to_x + 4)}q-4 0 -4 {r}V{short(to_y)}")

    @staticmethod
    def curve(x, y, to_x, to_y, outside):
        """Over the top within a row; to the next row from the side that looks to it, so that it leaves and arrives upright."""
        if outside:
            bend, to_bend = -16, 0
        elif y == to_y:
            # near ones are as high as far ones, or a block's link to itself could not be seen
            bend = to_bend = -26 if abs(to_x - x) < 40 else -min(26, 12 + abs(to_x - x) / 30)
        elif y < to_y:
            y, bend = y + HEIGHT, max(18, 0.4 * (to_y - y - HEIGHT))
            to_bend = -bend
        else:
            to_y, bend = to_y + HEIGHT, -max(18, 0.4 * (y - to_y - HEIGHT))
            to_bend = -bend
        return (f"M{short(x)} {short(y)}C{short(x)} {short(y + bend)} {short(to_x)} {short(to_y + to_bend)} "
                f"{short(to_x)} {short(to_y)}")

    # Below the rows

    def bins(self):
        top = self.y + 44
        self.below.append(f'<path class="rule" d="M{MARGIN} {top - 22.5}H{WIDTH - MARGIN}"/>')
        middle = WIDTH / 2 + 8
        ends = [self.bin_list(MARGIN, top, "Small bins, by starts", self.pool.small_bins),
                self.bin_list(middle, top, "Large bins, along the chain, by starts", self.pool.large_bins)]
        self.y = max(ends)

    def bin_list(self, x, y, title, bins):
        self.words.append(text(x, y, title, "strong"))
        if not bins:
            self.words.append(text(x, y + 19, "all empty", "quiet"))
            return y + 19
        for size, starts in bins[:MOST_BINS]:
            y += 19
            row = " → ".join(str(start) for start in starts[:MOST_STARTS])
            row += f" → … {len(starts)} blocks" if len(starts) > MOST_STARTS else ""
            self.words.append(text(x + 36, y, str(size), "quiet", "end"))
            self.words.append(text(x + 50, y, row))
        if len(bins) > MOST_BINS:
            y += 19
            self.words.append(text(x + 50, y, f"and {len(bins) - MOST_BINS} more bins", "quiet"))
        return y

    def legend(self):
        self.below.append(f'<path class="rule" d="M{MARGIN} {self.y + 21.5}H{WIDTH - MARGIN}"/>')
        self.y += 46
        x = MARGIN
        for style, words in self.swatches.items():
            self.below.append(f'<rect class="{style}" x="{short(x)}" y="{self.y - 10}" width="16" height="12"/>')
            x = self.key(x + 22, words)
        if self.pool.faults:
            self.below.append(f'<rect class="unread" x="{short(x)}" y="{self.y - 10}" width="16" height="12"/>')
            self.key(x + 22, "not read")
        self.y += 22
        x = self.key(MARGIN, "168 · 172: a block that starts at 168; its offset, where the payload starts, is 172, as in calls and tapes")
        self.y += 22
        x = MARGIN
        for style, words in [("small", "small bin: first, and next"), ("chain", "chain: first block of the next larger bin"),
                             ("equal", "next of equal size")] + ([("bad", "wrong")] if self.pool.faults else []):
            self.links.append(f'<path class="link link-{style}" d="M{short(x)} {self.y - 4}h26"/>')
            x = self.key(x + 34, words)
        self.y += 26

    def key(self, x, words):
        self.words.append(text(x, self.y, words, "quiet"))
        return x + width_of(words, 12) + 24

    def draw(self, title, number, figures):
        """The whole SVG as text."""
        self.head(title, number, figures)
        self.faults()
        self.rows()
        self.arrows()
        if self.pool.layout == 2:
            self.y = Index(self.pool, self.y).draw(self.below, self.links, self.words)
        self.bins()
        self.legend()
        return self.whole(title)

    def whole(self, title):
        markers = "".join(MARKER.format(*pair) for pair in [("small", "#2f7d57"), ("chain", "#9a6b0f"), ("bad", "#c0262d")])
        height = round(self.y)
        return "\n".join([
            f'<svg xmlns="http://www.w3.org/2000/svg" viewBox="0 0 {WIDTH} {height}" width="{WIDTH}" height="{height}" role="img">',
            f"<title>{escape(title)}</title>", f"<style>{self.style}</style>", f"<defs>{markers}{HATCH}</defs>",
            f'<rect width="{WIDTH}" height="{height}" fill="#ffffff"/>', *self.below, *self.links, *self.words, "</svg>", ""])
