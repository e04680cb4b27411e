"""The index of a pool of layout 2, drawn as levels: a column for the false block and for each bin in the order of its size, as high as
the levels that it reaches; along each level an arrow to the next column that reaches it.
"""

from pool import CHAIN, FALSE_BLOCK, LEVEL
from sheet import LEFT, MARGIN, ROOM, WIDTH, short, text

ROW, COLUMN, PITCH = 16, 18, 60  # how high a level is, how wide a column at most, and how far from the next one at most
LABEL = 40  # what the words below a column take
LEAST_ARROW = 10  # a shorter way to the next column is a line without a head
MOST_BINS = 120

INDEX_STYLE = """.level { fill: none; stroke: #c9a24e; stroke-width: 0.6 }
.way { fill: none; stroke: #9a6b0f; stroke-width: 1.2 }
"""


class Index:
    def __init__(self, pool, top):
        self.pool, self.top = pool, top + 44
        towers = pool.towers()
        self.more = len(towers) - 1 - MOST_BINS
        self.towers = towers[:1 + MOST_BINS]
        self.sizes = [None] + [size for size, _ in pool.large_bins]
        # a level that should be empty and is not is shown too
        wrong = [level for start, level in pool.wrong_words if start == FALSE_BLOCK]
        self.levels = max([height for _, height in self.towers[1:]] + wrong, default=0)
        self.pitch = min(PITCH, ROOM / len(self.towers))
        self.width = min(COLUMN, 0.6 * self.pitch)
        self.floor = self.top + 16 + ROW * self.levels

    def draw(self, below, links, words):
        """Puts it into the picture's three layers, and answers where it ends."""
        below.append(f'<path class="rule" d="M{MARGIN} {short(self.top - 22.5)}H{WIDTH - MARGIN}"/>')
        words.append(text(MARGIN, self.top, "Index: the bins' first blocks by size, and the levels that they reach", "strong"))
        if self.levels == 0:
            words.append(text(MARGIN, self.top + 19, "all levels are empty", "quiet"))
            return self.top + 19
        for level in range(1, self.levels + 1):
            words.append(text(LEFT - 12, self.middle(level) + 4, f"level {level}", "quiet tiny", "end"))
        for i in range(len(self.towers)):
            below.append(self.column(i))
            for level in range(1, self.shown(i) + 1):
                if level > 1:
                    below.append(f'<path class="level" d="M{short(self.x(i))} {short(self.middle(level) + ROW / 2)}h{short(self.width)}"/>')
                links += self.way(i, level)
        words += self.labels()
        if self.more > 0:
            words.append(text(LEFT, self.floor + 49, f"and {self.more} more bins", "quiet"))
        return self.floor + (49 if self.more > 0 else 30)

    # Where things stand

    def x(self, i):
        return LEFT + i * self.pitch

    def middle(self, level):
        return self.floor - ROW * level + ROW / 2

    def shown(self, i):
        return min(self.towers[i][1], self.levels)

    # What they look like

    def column(self, i):
        start, height = self.towers[i]
        words = range(start + LEVEL, start + CHAIN + 4)
        bad = " bad" if any(fault.at in words and not fault.follows for fault in self.pool.faults) else ""
        style, name = ("false", "the false block") if i == 0 else ("large", f"the bin of {self.sizes[i]}, first block {start}")
        tall = ROW * self.shown(i)
        return (f'<rect class="{style}{bad}" x="{short(self.x(i))}" y="{short(self.floor - tall)}" width="{short(self.width)}" height="{tall}">'
                f"<title>{name}, height {height}</title></rect>")

    def way(self, i, level):
        """To the next column that reaches the level; where the word leads elsewhere, a red cross."""
        x, y = self.x(i), self.middle(level)
        if (self.towers[i][0], level) in self.pool.wrong_words:
            return [f'<path class="cross" d="M{short(x + self.width / 2 - 4)} {short(y - 4)}l8 8m0 -8l-8 8"/>']
        after = next((k for k in range(i + 1, len(self.towers)) if self.towers[k][1] >= level), None)
        if after is None:
            return []
        length = (after - i) * self.pitch - self.width
        style = "link link-chain" if length >= LEAST_ARROW else "way"
        return [f'<path class="{style}" d="M{short(x + self.width)} {short(y)}h{short(length)}"/>']

    def labels(self):
        """A bin's size, and its first block's start below it: the highest columns first, and none where it would stand on another."""
        used = []
        for i in sorted(range(len(self.towers)), key=lambda i: -self.towers[i][1]):
            x = self.x(i) + self.width / 2
            if all(abs(x - other) >= LABEL for other in used):
                used.append(x)
                yield text(x, self.floor + 13, "false" if i == 0 else str(self.sizes[i]), "offset", "middle")
                yield text(x, self.floor + 25, str(self.towers[i][0]), "quiet tiny", "middle")
