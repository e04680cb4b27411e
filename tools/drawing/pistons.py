"""The picture of a pool with a piston bank: each block that a piston names has a colour of its own, the piston's number on a button and
the record's kind below it. A piston that names no held payload is a red button beside the address that it names.
"""

from collections import namedtuple

from bank import HEAD, REFUSED, listed
from pool import BLOCKS, FALSE_BLOCK
from svg import HEIGHT, LEFT, MARGIN, MOST_FAULTS, ROOM, STYLE, WIDTH, Picture, short, text, width_of

BUTTON, RADIUS = 18, 8  # what a button takes of a row, and half its own width
KIND, MORE = 8, 9.5  # the size of the kind's letters, and of how many more pistons there are
MOST_BUTTONS = 2  # in one place
COLUMNS = 7

PISTON_STYLE = """
.record { fill: #705391 }
.kind { font-size: 8px; fill: #ffffff }
.more { font-size: 9.5px; fill: #ffffff }
.button { fill: #f4eefa; stroke: #705391; pointer-events: none }
.button-bad { fill: #c0262d; stroke: #ffffff; stroke-width: 1.2 }
.digit { font-size: 10px; font-weight: 600; fill: #4c3168 }
.digit-bad { font-size: 10px; font-weight: 600; fill: #ffffff }
.pole { fill: #c0262d; stroke: #ffffff; stroke-width: 0.8 }
.lead { fill: none; stroke: #c0262d; stroke-width: 1.4 }
.casing { fill: none; stroke: #ffffff; stroke-width: 3 }
"""

# What stands in a block that pistons name.
Badge = namedtuple("Badge", "pistons more kind width")


class BankPicture(Picture):
    style = STYLE + PISTON_STYLE.lstrip("\n")
    swatches = {"held": "held", "record": "a piston's record"} | Picture.swatches

    def __init__(self, bank, name, numbers):
        """`numbers`: what probe answers to the recall of each piston."""
        super().__init__(bank.pool)
        self.bank, self.name, self.numbers = bank, name, numbers
        self.leads = {}  # how many lines a row has

    # Above the rows

    def subtitle(self):
        name = self.name
        while width_of(name) > 300:
            name = name[:-2] + "…"
        return f"{super().subtitle()}, with {name}"

    def head(self, title, number, figures):
        super().head(title, number, figures)
        words, style = self.verdict(), "quiet" if number != 0 else "red" if any(self.numbers) else "good"
        self.words.append(text(WIDTH - MARGIN, 68, words, style, "end"))

    def verdict(self):
        count = self.bank.count
        words = f"{count or 'no'} piston{'' if count == 1 else 's'} set"
        refused = [piston for piston, number in enumerate(self.numbers) if number == REFUSED]
        if not refused:
            return words
        whose = "every recall" if len(refused) == len(self.numbers) else f"recall of {listed(refused)}"
        return f"{words}, {whose} refused with {REFUSED}"

    def faults(self):
        """The pool's, then the bank's, with the first of the pistons that it is about at its left."""
        super().faults()
        faults = self.bank.faults
        for i, fault in enumerate(faults[:MOST_FAULTS]):
            self.y += 19
            style = "follows" if fault.follows else "red" if i or self.pool.faults else "red strong"
            words = f"follows: {fault.text}" if fault.follows else fault.text
            for k, piston in enumerate(reversed(fault.pistons[:MOST_BUTTONS])):
                self.button(MARGIN + 40 - RADIUS - BUTTON * k, self.y, piston, True)
            self.words.append(text(MARGIN + 50, self.y + 4, words, style))
        if len(faults) > MOST_FAULTS:
            self.y += 19
            self.words.append(text(MARGIN + 50, self.y + 4, f"and {len(faults) - MOST_FAULTS} more of the bank", "red"))

    # The rows

    def rows(self):
        super().rows()
        for offset, named in sorted(self.bank.named.items()):
            if named.block is None and offset < self.pool.n:
                for piston in named.pistons:
                    self.pin(offset, piston)

    def wrong(self):
        """A pin marks its address itself: the block there is as it should be."""
        return super().wrong() + [named.offset for named in self.bank.named.values() if named.wrong and named.block is not None]

    def named_at(self, start):
        named = self.bank.named.get(start + HEAD)
        return named if named is not None and named.block is not None else None

    def cells(self):
        for start, end, style, title, labels in super().cells():
            named = self.named_at(start)
            if named is not None:
                style, title = style if named.record is None else "record", f"{title}, {self.described(named)}"
            yield start, end, style, title, labels

    def described(self, named):
        who = f"piston{'' if len(named.pistons) == 1 else 's'} {listed(named.pistons)}"
        kind = self.pool.data[named.offset]
        body = f"tab bits {named.record[1:].hex()}" if named.record is not None else "which does not read"
        return f"{who}, kind {kind}, {body}"

    # Buttons

    def label(self, start, pieces, style, tries, beside=0):
        """The fullest label that leaves room for the fullest badge; the fullest badge that fits alone where there is none."""
        named = self.named_at(start)
        if named is None:
            return super().label(start, pieces, style, tries, beside)
        badges = self.badges(named)
        width = badges[0].width
        placed = super().label(start, pieces, style, tries, width + 2)
        if placed is not None:
            (x, room, y, _, _), end = placed
            self.put_badge(min(end + 12, x + room - width - 1), y, named, badges[0])
            return placed
        for badge in badges:
            for x, room, y, cut_left, _ in pieces:
                pad = 8 if cut_left else 1
                if pad + badge.width <= room:
                    self.put_badge(x + (room + pad - badge.width) / 2, y, named, badge)
                    return None
        return None

    def badges(self, named):
        """The fullest first."""
        most = min(len(named.pistons), MOST_BUTTONS)
        return [self.badge(named, count, with_kind) for with_kind in (True, False) for count in range(most, 0, -1)]

    def badge(self, named, count, with_kind):
        """So many of the pistons as buttons, how many more there are, and the kind, where it is shown."""
        more = f"+{len(named.pistons) - count}" if len(named.pistons) > count else ""
        kind = self.kind_words(named) if with_kind else ""
        return Badge(named.pistons[:count], more, kind, max(BUTTON * count + width_of(more, MORE), width_of(kind, KIND)))

    def kind_words(self, named):
        return f"kind {self.pool.data[named.offset]}"

    def put_badge(self, x, y, named, badge):
        middle = y + (12 if badge.kind else HEIGHT / 2)
        for i, piston in enumerate(badge.pistons):
            self.button(x + BUTTON * i + BUTTON / 2, middle, piston, named.wrong)
        if badge.more:
            self.words.append(text(x + BUTTON * len(badge.pistons), middle + 3, badge.more, "more"))
        if badge.kind:
            self.words.append(text(x + 1, y + 32, badge.kind, "kind"))
        self.take(y, x, x + badge.width)

    def button(self, x, y, piston, wrong):
        bad = "-bad" if wrong else ""
        self.links.append(f'<circle class="button{" button-bad" if wrong else ""}" cx="{short(x)}" cy="{short(y)}" r="{RADIUS}"/>')
        self.words.append(text(x, y + 3.5, str(piston), f"digit{bad}", "middle"))

    def pin(self, offset, piston):
        """The button stands at the address, or as near as the words of its row let it, with a line to it. Where the row has no room left,
        the list above has it alone."""
        x, y = self.scale.place(offset)
        at = self.free_place(x, y, *self.bounds(offset)) or self.free_place(x, y, LEFT, LEFT + ROOM)
        if at is not None:
            self.lead(x, y, at)
            self.button(at, y + HEIGHT / 2, piston, True)
            self.take(y, at - RADIUS - 1, at + RADIUS + 1)
        shape = f"M{short(x - 4)} {short(y)}h8l-4 5zM{short(x - 4)} {short(y + HEIGHT)}h8l-4 -5z"
        self.links.append(f'<path class="pole" d="{shape}"><title>piston {piston} names {offset}</title></path>')

    def lead(self, x, y, at):
        """Along the row's edge, below and above its words by turns, so that two of them can be told apart."""
        if at == x:
            return
        self.leads[y] = self.leads.get(y, 0) + 1
        edge, way = (y + HEIGHT - 1.5, -8) if self.leads[y] % 2 else (y + 1.5, 8)
        line = f"M{short(x)} {short(edge)}H{short(at)}v{way}"
        self.links.append(f'<path class="casing" d="{line}"/><path class="lead" d="{line}"/>')

    def bounds(self, offset):
        """From where to where the block that has an address, or what was not read there, reaches in its row; the header is taken for one."""
        blocks = [(start, start + size) for start, size, _ in self.pool.blocks]
        spans = [(0, FALSE_BLOCK), (FALSE_BLOCK, BLOCKS)] + blocks + self.pool.gaps
        start, end = next((start, end) for start, end in spans if start <= offset < end)
        row = self.scale.place(offset)[1]
        return next((x, x + width) for x, width, y, _, _ in self.scale.pieces(start, end) if y == row)

    def free_place(self, x, y, least, most):
        """The place for a button's middle that is nearest to `x` in the row at `y`, None where there is none."""
        half = RADIUS + 2
        taken = self.taken.get(y, [])
        # a hair further than they need, since sums of such numbers are not exact
        places = [x] + [left - half - 0.1 for left, _ in taken] + [right + half + 0.1 for _, right in taken]
        free = [place for place in places if least + half <= place <= most - half and
                not any(left < place + half and place - half < right for left, right in taken)]
        return min(free, key=lambda place: abs(place - x), default=None)

    # Below the rows

    def bins(self):
        super().bins()
        self.table()

    def table(self):
        """Every piston that is set, since in a large pool its block may have no room for words."""
        self.y += 32
        self.words.append(text(MARGIN, self.y, "Pistons, and the offsets that they name", "strong"))
        named = [(piston, self.bank.named[offset]) for piston, offset in enumerate(self.bank.numbers) if offset != 0]
        if not named:
            self.y += 19
            self.words.append(text(MARGIN, self.y, "all empty", "quiet"))
        step = (WIDTH - 2 * MARGIN) / COLUMNS
        for i, (piston, one) in enumerate(named):
            if i % COLUMNS == 0:
                self.y += 23
            self.entry(MARGIN + i % COLUMNS * step, piston, one)

    def entry(self, x, piston, named):
        self.button(x + RADIUS + 1, self.y - 4, piston, named.wrong)
        self.words.append(text(x + 24, self.y, str(named.offset), "red" if named.wrong else ""))
        if named.block is not None:
            style = "quiet" if named.record is not None else "red"
            self.words.append(text(x + 32 + width_of(str(named.offset)), self.y, self.kind_words(named), style))

    def legend(self):
        super().legend()
        self.y -= 4
        self.button(MARGIN + RADIUS, self.y - 4, 3, False)
        x = self.key(MARGIN + 22, "piston 3 names the record; its kind stands below")
        if self.bank.faults:
            self.button(x + RADIUS, self.y - 4, 3, True)
            self.key(x + 22, "wrong")
        self.y += 26
