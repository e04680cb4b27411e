"""What a drawing reads of a pool's bytes: blocks in address order, links along the bins, and what does not fit.

The verdict is probe's alone. This file follows heads and links only to place them, and names each thing it could not follow, so
that a pool that probe refuses shows where. The bytes of both layouts are drawn in docs/FORMAT.md.
"""

from collections import namedtuple

FREE_WORD, FALSE_WORD, START, END = 0, 8, 16, 24
SMALL_BINS = 24  # the small bin of size z has its word at SMALL_BINS + z
FALSE_BLOCK, BLOCKS = 96, 168
SMALL_NEXT, PREVIOUS, NEXT, LEVEL, CHAIN = 4, 4, 8, 12, 64
SMALL_SIZES = range(8, 72, 8)
LARGE = 72
LEAST_REMAINDER = 8
LEVELS = 13  # of the index in layout 2
LAYOUTS = {1: 1, LEVELS: 2}  # the false block's level word tells the layout

# kind: held, small, large (both free) or remainder
Block = namedtuple("Block", "start size kind")
# From the word at `source` to `target`; kind: small, chain or equal; fault: None, or what is wrong.
Link = namedtuple("Link", "source target kind fault")
# What does not fit at an address; breaks: no block can be followed from there; follows: it is so because something else does not fit.
Fault = namedtuple("Fault", "at text breaks follows")
# A bin and the starts of its blocks in the order of its links.
Bin = namedtuple("Bin", "size starts")


def height(size):
    """How many levels a bin reaches in layout 2: 1, and the trailing zero bits of size / 8."""
    return min(LEVELS, (size // 8 & -(size // 8)).bit_length())


def free_blocks(count):
    return "a free block" if count == 1 else f"{count} free blocks"


def index_word(level):
    """Where the index word of a level, counted from 1, stands in a block."""
    return CHAIN - 4 * (level - 1)


class Pool:
    def __init__(self, data):
        self.data, self.n = data, len(data)
        self.blocks, self.gaps, self.links, self.faults = [], [], [], []
        self.small_bins, self.large_bins = [], []
        self.layout = LAYOUTS.get(self.word(FALSE_BLOCK + LEVEL))  # None where it is neither
        self._walk()
        self.at = {block.start: block for block in self.blocks}
        self._fixed_words()
        self.binned = set()  # starts that stand in a bin
        self.cut = set()  # the small sizes whose bin has a wrong link; LARGE where a large bin or the chain has one
        for size in SMALL_SIZES:
            self._small_bin(size)
        self._chain()
        self._index()
        self._left_out()
        self._free_word()
        self._edge()
        # What breaks a walk comes first, what only follows from another fault last; the rest keeps its order.
        self.faults.sort(key=lambda fault: (fault.follows, not fault.breaks))

    # Reading

    def word(self, at, width=4):
        return int.from_bytes(self.data[at:at + width], "little")

    def distance(self, at):
        return int.from_bytes(self.data[at:at + 4], "little", signed=True)

    def reads(self, at, width=4):
        """The word as a number; where it is text, as text and in hex too, since then a payload ran over."""
        data = self.data[at:at + width]
        number = str(self.word(at, width))
        if all(0x20 < byte < 0x7F for byte in data):
            return f"{number} (hex {data.hex(' ')}, text {data.decode('ascii')})"
        return number

    def fault(self, at, text, breaks=False, follows=False):
        self.faults.append(Fault(at, text, breaks, follows))

    # Blocks

    def _walk(self):
        """The three regions. Each is followed by itself, so that a broken one does not hide the others."""
        start, end = self.word(START, 8), self.word(END, 8)
        self.start = start if self._is_edge(start, BLOCKS, self.n - LEAST_REMAINDER) else None
        least = (self.start or BLOCKS) + LEAST_REMAINDER
        self.end = end if self._is_edge(end, least, self.n) else None
        if self.start is None:
            self.fault(START, f"R, where the remainder starts, reads {self.reads(START, 8)}", True)
        if self.end is None:
            self.fault(END, f"E, where the remainder ends, reads {self.reads(END, 8)}", True)
        if self.start is not None:
            self._large_region(BLOCKS, self.start)
        self._remainder()
        if self.end is not None:
            self._small_region(self.end, self.n)

    @staticmethod
    def _is_edge(value, least, most):
        return value % 8 == 0 and least <= value <= most

    def _remainder(self):
        if self.start is None or self.end is None:
            self.gaps.append((self.start or BLOCKS, self.end or self.n))
            return
        size = self.end - self.start
        self.blocks.append(Block(self.start, size, "remainder"))
        head = self.word(self.start)
        if head != 4 * size + 2:
            self.fault(self.start, f"the remainder's head reads {self.reads(self.start)}, and {4 * size + 2} belongs there")

    def _head(self, at, end, name):
        """The size and flags of a block between `at` and `end`; None, and a break, where no block can be followed."""
        head = self.word(at)
        size = head >> 2
        if size % 8 != 0:
            why = "which is no multiple of 8"
        elif (size not in SMALL_SIZES) if name == "small" else (size < LARGE):
            why = f"which no {name} block has"
        elif size > end - at:
            why = f"which reaches past {end}"
        else:
            return size, head >> 1 & 1, head & 1
        self.fault(at, f"the walk breaks: the head reads {self.reads(at)}, so the size {size}, {why}", True)
        self.gaps.append((at, end))
        return None

    def _large_region(self, at, end):
        below = None
        while at < end:
            read = self._head(at, end, "large")
            if read is None:
                return
            size, flag, held = read
            self._flag(at, flag, 0 if below == "large" else 1)
            if not held:
                self._free_large(at, size, below, end)
            below = "held" if held else "large"
            self.blocks.append(Block(at, size, below))
            at += size

    def _flag(self, at, flag, wanted):
        if flag != wanted:
            self.fault(at, f"the head's P is {flag}, and the block below wants {wanted}")

    def _free_large(self, at, size, below, end):
        if self.word(at + size - 4) != self.word(at):
            self.fault(at + size - 4, f"the last word reads {self.reads(at + size - 4)}, and the head {self.word(at)} belongs there")
        if below == "large":
            self.fault(at, "two free large blocks touch")
        if at + size == end:
            self.fault(at, "the block just below the remainder is free")

    def _small_region(self, at, end):
        while at < end:
            read = self._head(at, end, "small")
            if read is None:
                return
            size, flag, held = read
            self._flag(at, flag, 1)
            self.blocks.append(Block(at, size, "held" if held else "small"))
            at += size

    # The fixed area

    def _fixed_words(self):
        if self.word(FALSE_WORD, 8) != FALSE_BLOCK:
            self.fault(FALSE_WORD, f"reads {self.reads(FALSE_WORD, 8)}, and {FALSE_BLOCK} belongs there")
        level = FALSE_BLOCK + LEVEL
        if self.layout is None:
            self.fault(level, f"the false block's level word reads {self.reads(level)}, and 1 (layout 1) or {LEVELS} (layout 2) belongs there")
        # all of it but the level word and the index, whose upper words are zero in layout 1
        index = FALSE_BLOCK + index_word(1 if self.layout == 1 else LEVELS)
        for at in range(FALSE_BLOCK, BLOCKS, 4):
            if at != level and not index <= at <= FALSE_BLOCK + CHAIN and self.word(at) != 0:
                self.fault(at, f"the false block reads {self.reads(at)}, and 0 belongs there")

    def _free_word(self):
        if self.gaps:
            return  # the sum is not known
        total = sum(block.size for block in self.blocks if block.kind != "held") - 4
        if self.word(FREE_WORD, 8) != total:
            # a head whose bit fell over changes the sum
            self.fault(FREE_WORD, f"the free word reads {self.reads(FREE_WORD, 8)}, and the free sizes less 4 are {total}",
                       follows=bool(self.faults))

    def _edge(self):
        """Free blocks at E, up to the first held one: version 0.5 and older ones left them there. Where nothing else is wrong, the pool can be
        brought in, and `to_bring_in` is how many of them go home."""
        count = 0
        for block in self.blocks:
            if self.end is not None and block.start >= self.end:
                if block.kind == "held":
                    break
                count += 1
        self.to_bring_in = 0 if self.faults else count
        if count:
            self.fault(self.end, f"{'the first of ' * (count > 1)}{free_blocks(count)} at E, where a held one belongs")

    # Bins

    def _follow(self, source, target, kind, size):
        """The link that the word at `source` is; True where it leads to a free block that is in no bin yet and has the right size."""
        block = self.at.get(target)
        free = "small" if kind == "small" else "large"
        if not 0 <= target < self.n:
            wrong = f"leads to {target}, outside the pool"
        elif block is None or block.kind != free:
            wrong = f"leads to {target}, where no free {free} block starts"
        elif target in self.binned:
            wrong = f"leads to {target}, which is in a bin already"
        elif kind == "chain" and block.size <= size:
            wrong = f"leads to {target} of size {block.size}, and the chain rises above {size}"
        elif kind != "chain" and block.size != size:
            wrong = f"leads to {target} of size {block.size}, in the bin of {size}"
        else:
            wrong = None
        self.links.append(Link(source, target, kind, wrong))
        if wrong is not None:
            unread = any(start <= target < end for start, end in self.gaps)
            self.fault(source, f"the link {wrong}", follows=unread)
            self.cut.add(size if kind == "small" else LARGE)
            return False
        self.binned.add(target)
        return True

    def _small_bin(self, size):
        starts, source = [], SMALL_BINS + size
        target = self.word(source, 8)
        while target != 0 and self._follow(source, target, "small", size):
            starts.append(target)
            source = target + SMALL_NEXT
            target = self.word(source)
        if starts:
            self.small_bins.append(Bin(size, starts))

    def _chain(self):
        self.whole_chain = False
        source, size = FALSE_BLOCK, 0
        while self.distance(source + CHAIN) != 0:
            target = source + self.distance(source + CHAIN)
            if not self._follow(source + CHAIN, target, "chain", size):
                return
            source, size = target, self.at[target].size
            self._large_bin(source, size)
        self.whole_chain = True

    def height(self, size):
        """How many levels the bin of a size reaches in this pool."""
        return height(size) if self.layout == 2 else 1

    def towers(self):
        """The false block and each bin's first block, along the chain: its start, and how many levels it reaches."""
        return [(FALSE_BLOCK, LEVELS)] + [(starts[0], self.height(size)) for size, starts in self.large_bins]

    def _index(self):
        """The levels above the chain, in layout 2: each word leads to the next first block that reaches its level."""
        towers = self.towers() if self.layout == 2 else []
        self.wrong_words = set()  # (start, level) of the index words that lead elsewhere
        for i, (start, reached) in enumerate(towers):
            for level in range(2, reached + 1):
                wanted = next((other for other, height_there in towers[i + 1:] if height_there >= level), None)
                # behind a chain that breaks nobody knows what comes next
                if wanted is not None or self.whole_chain:
                    self._index_word(start, level, wanted)

    def _index_word(self, start, level, wanted):
        at = start + index_word(level)
        distance = self.distance(at)
        if distance == (0 if wanted is None else wanted - start):
            return
        belongs = "nowhere" if wanted is None else f"to {wanted}"
        leads = f"leads to {start + distance}" if distance != 0 else "leads nowhere"
        wrong = f"{leads}, and {belongs} is right"
        self.fault(at, f"level {level} {wrong}")
        self.wrong_words.add((start, level))
        if distance != 0:
            self.links.append(Link(at, start + distance, "chain", wrong))

    def _large_bin(self, first, size):
        wanted = self.height(size)
        if self.layout is not None and self.word(first + LEVEL) != wanted:
            self.fault(first + LEVEL, f"the level word reads {self.word(first + LEVEL)}, and {wanted} belongs there")
        self._previous(first, None)
        starts, source = [first], first
        while self.distance(source + NEXT) != 0:
            target = source + self.distance(source + NEXT)
            if not self._follow(source + NEXT, target, "equal", size):
                break
            self._previous(target, source)
            starts.append(target)
            source = target
        self.large_bins.append(Bin(size, starts))

    def _previous(self, at, wanted):
        """The link back; it is drawn only where it is wrong, since it runs along the link that led here."""
        distance = self.distance(at + PREVIOUS)
        if distance == (0 if wanted is None else wanted - at):
            return
        belongs = "nowhere" if wanted is None else f"to {wanted}"
        leads = f"leads to {at + distance}" if distance != 0 else "leads nowhere"
        wrong = f"{leads}, and {belongs} is right"
        self.fault(at + PREVIOUS, f"the link back {wrong}")
        if distance != 0:
            self.links.append(Link(at + PREVIOUS, at + distance, "equal", wrong))

    def _left_out(self):
        """Free blocks that no bin has, one fault a size: a broken link loses all that is behind it."""
        lost = {}
        for block in self.blocks:
            if block.kind in ("small", "large") and block.start not in self.binned:
                lost.setdefault(block.size, []).append(block.start)
        for size, starts in lost.items():
            many = f"the first of {len(starts)} free blocks" if len(starts) > 1 else "a free block"
            follows = bool(self.gaps) or min(size, LARGE) in self.cut
            self.fault(starts[0], f"{many} of {size} that the bin does not have", follows=follows)
