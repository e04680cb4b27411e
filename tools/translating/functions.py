"""Every function of the C file by itself, against its MIR. None that comes of the crates has a precondition, so each may be called with any bytes
and numbers: here with pools, damaged pools and other bytes, and with numbers at the edges of their widths and of what the pool has; and as it
is called while the exported calls run. Only of a function of the kit's own library, and of one that is given a struct with an invariant, a
case is left out in which it does what is not defined. What it must answer, and what must stand in the memory that it was lent, machine.py
says, which runs the MIR itself.

Three files come of it: a C program that includes pool.c and makes the calls, what it reads, and the lines that it must print."""

import random
import struct

from machine import Block, Machine, Slot, Stuck, TooLong
from tree import Array, BOOL, Int, Named, Ref, Slice, UNIT
from writing import c_type, declared, parts_of, pointer_type

CASES = 100  # of each function with arguments by chance, five times as many where they are all numbers,
SEEN = 60  # at most as it was called,
RUNS = 1200  # while so many exported calls ran
LEVELS = {"level", "to", "top", "height", "h", "k"}  # numbers of these names are mostly small: a level, or how many words
TURNS = 1500  # that a call's loops may take; a case that takes more is left out
TRIES = 1000  # by chance, where a way of the function was never gone
EDGES = [0, 1, 2, 3, 4, 7, 8, 9, 12, 13, 14, 16, 24, 31, 32, 33, 34, 35, 52, 53, 54, 63, 64, 65, 68, 71, 72, 73, 80, 96, 128, 168, 172, 255, 256, 289,
         290, 291, 32768, 65535, 65536, 65537, 2 ** 31 - 1, 2 ** 31, 2 ** 31 + 1, 2 ** 32 - 72, 2 ** 32 - 8, 2 ** 32 - 4, 2 ** 32 - 1]
WIDE = [2 ** 32, 2 ** 32 + 4, 2 ** 33, 2 ** 63, 2 ** 64 - 4, 2 ** 64 - 1]
LEVEL_WORD = 108  # of the false block
SMALL_BINS = list(range(32, 96, 8))  # where the first block of each small bin stands
MEANT = {"first": SMALL_BINS, "due": [0, 1, 2, 3, 3], "old": [0, 1, 1, 2, 2, 3]}  # what numbers of these names mostly are
LONGEST = 65536  # bytes of a pool
PREAMBLE = """// Every function of pool.c by itself: tools/translating/functions.py writes it.
#include "pool.c"
#include <stdio.h>
#include <stdlib.h>

static uint64_t in(void)
{
    unsigned char b[8];
    uint64_t v = 0;
    if (fread(b, 1, 8, stdin) != 8)
        exit(0);
    for (int i = 7; i >= 0; i--)
        v = v << 8 | b[i];
    return v;
}

static void out(uint64_t v) { printf(" %llx", (unsigned long long)v); }

// memory of exactly that length, so that a sanitizer sees what is next to it
#define LENT(name, type, read) \\
    static type *in_##name(size_t count) \\
    { \\
        type *at = (type *)malloc(count ? count * sizeof(type) : 1); \\
        if (!at) \\
            exit(2); \\
        for (size_t i = 0; i < count; i++) \\
            at[i] = (type)read(); \\
        return at; \\
    } \\
    static void out_##name(const type *at, size_t count) \\
    { \\
        printf(" |"); \\
        for (size_t i = 0; i < count; i++) \\
            out(at[i]); \\
    }
LENT(8, unsigned char, getchar)
LENT(32, uint32_t, in)
LENT(64, uint64_t, in)
"""


def packed(bits, numbers):
    """As the C program reads them: bytes by one, other numbers by eight bytes."""
    return bytes(numbers) if bits == 8 else struct.pack(f"<{len(numbers)}Q", *numbers)


class Functions:
    def __init__(self, file, paths, files):
        """`file` has been written, so that names and types are known."""
        self.file, self.paths, self.machine = file, paths, Machine(files)
        self.random = random.Random(1)
        self.stored, self.edges = [], []
        self.pools = self.make_pools()

    # ---- pools

    def make_pools(self):
        """Laid out with either layout, then some takes and give-backs, by the calls that do not inspect; and each damaged in a few words."""
        pools = []
        lengths = [176, 184, 192, 256, 320, 320, 384, 512, 512, 512, 1024]
        for n, layout in [(n, 1) for n in lengths] + [(n, 2) for n in lengths[3:]]:
            block, lent, held = *self.laid_out(n, layout), []
            for step in range(40):
                if held and self.random.random() < 0.4:
                    self.machine.call("serving::give_back", [lent, held.pop(self.random.randrange(len(held)))])
                else:
                    tag, value = self.machine.call("grant::take", [lent, self.random.choice([4, 5, 12, 20, 60, 68, 68, 76, 76, 92, 100])])
                    held += [value] if tag == 0 else []
                    if tag == 0:
                        block.numbers[value] = self.random.randrange(5)  # perhaps the kind of a record
                if step % 8 == 7:
                    pools.append(list(block.numbers))
        # three bins on the chain; and four in the index, which reach one, two, three and five levels
        for layout, sizes in [(1, (68, 68, 76, 68, 100, 68)), (2, (68, 68, 76, 68, 92, 68, 124, 68))]:
            block, lent = self.laid_out(1024, layout)
            taken = [self.machine.call("grant::take", [lent, size])[1] for size in sizes]
            for offset in taken[::2]:
                self.machine.call("serving::give_back", [lent, offset])
            pools += [list(block.numbers)] * 8
        # and some cut off, with no more than the header and the false block, or less
        short = [pool[:length] for pool, length in zip(pools, [168, 168, 168, 168, 168, 168, 167, 164, 169, 172, 8, 4])]
        damaged = []
        for pool in pools * 2:
            pool = list(pool)
            for _ in range(self.random.choice([1, 1, 1, 2, 4])):
                at = 4 * self.random.choice([self.random.randrange(42), self.random.randrange(len(pool) // 4)])
                pool[at:at + 4] = struct.pack("<I", self.random.choice([self.number_in(pool), self.random.getrandbits(32)]))
            damaged.append(pool)
        self.stored = [self.at_edge(n, layout) for layout in (1, 2) for n in (256, 384, 384, 512, 512, 1024)]
        self.edges = self.stored * 2 + self.near_stored() + [self.crowded(n, n // 8 - less) for n in (256, 256, 512, 2048) for less in (0, 1)] * 2
        # 256 blocks to send home
        self.edges += [self.at_edge(2304, 1, [4] * 258, 256)] * 4
        return pools + damaged + short + [ring for ring in map(self.ring, pools) if ring] + self.edges

    def laid_out(self, n, layout):
        """A fresh pool of n bytes; the level word alone tells the layouts apart while there is no bin."""
        block = Block(8, [self.random.randrange(256) for _ in range(n)])
        lent, name = ((block, 0), n), "laying::lay_out"
        self.machine.call(name, [lent, n, 1][:self.machine.raw[name]["params"]])
        block.numbers[LEVEL_WORD] = {1: 1, 2: 13}[layout]
        return block, lent

    def at_edge(self, n, layout, sizes=None, lowest=None):
        """A pool as version 0.5 stored them: some of its small blocks came back, each to the front of its bin, also where the remainder ends. Those free
        there, end to end, are one or more, or all up to the pool's end; others of their bins stand higher up."""
        block, lent = self.laid_out(n, layout)
        small = []
        for size in sizes or [68] + [self.random.choice([4, 4, 4, 12, 12, 28, 60]) for _ in range(self.random.choice([4, 8, 14]))] + [76]:
            tag, value = self.machine.call("grant::take", [lent, size])
            small = [value - 4] + small if tag == 0 and size < 68 else small
        lowest = lowest or self.random.choice([1, 2, len(small) // 2, len(small)])
        back = small[:lowest] + [start for start in small[lowest + 1:] if self.random.random() < 0.5]
        self.random.shuffle(back)
        for start in back:
            size = self.word(block.numbers, start) >> 2
            self.machine.call("giveback::small::at_front", [lent, start, size])
            self.machine.call("giveback::earn", [lent, size])
        return list(block.numbers)

    def near_stored(self):
        """Each of the stored ones with one of its lowest small blocks of size 0, or held, or so large that it ends beyond the pool; cut off; with a head
        in the last word, where the remainder ends; and with a ring in a small bin, whose last block leads back to the first or to itself."""
        pools = []
        for pool, less in zip(self.stored, [1, 4, 7, 8, 9, 12, 16, 24, 40, 64, 4, 8]):
            at = self.random.choice(self.upper(pool)[:3])
            head = struct.pack("<I", self.random.choice([0, 2, self.word(pool, at) | 1, len(pool) << 2, 2 ** 32 - 30]))
            pools += [pool[:at] + list(head) + pool[at + 4:], pool[:len(pool) - less]]
            end, last = struct.pack("<I", len(pool) - 4), struct.pack("<I", 8 << 2 | self.random.choice([2, 3]))
            pools.append(pool[:24] + list(end) + pool[28:-4] + list(last))
            for first in [first for first in (self.word(pool, word) for word in SMALL_BINS) if first][:2]:
                last = first
                while self.word(pool, last + 4):
                    last = self.word(pool, last + 4)
                link = struct.pack("<I", self.random.choice([first, last]))
                pools.append(pool[:last + 4] + list(link) + pool[last + 8:])
        return pools

    def ring(self, pool):
        """The pool with the last bin of its chain linked back to the first, if it has two."""
        chain, at = [], 96
        while self.word(pool, at + 64):
            at = (at + self.word(pool, at + 64)) % 2 ** 32
            chain.append(at)
        if len(chain) < 2:
            return None
        pool = list(pool)
        pool[at + 64:at + 68] = struct.pack("<I", (chain[0] - at) % 2 ** 32)
        return pool

    def number_in(self, pool):
        """A number that means something in the pool: a start, an offset, a size, a head."""
        if len(pool) < 176:
            return self.random.choice(EDGES + [max(len(pool) - less, 0) for less in (0, 1, 3, 4, 5, 7, 8, 9)])
        if self.random.random() < 0.3:
            return self.random.choice(EDGES)
        found = [self.word(pool, 16), self.word(pool, 24), len(pool), len(pool) - 4, len(pool) - 8]
        for at, head in self.blocks(pool):
            found += [at, at, at, at, at + 4, head >> 2, (head >> 2) - 4, head]
        return self.random.choice(found)

    @staticmethod
    def word(pool, at):
        return struct.unpack("<I", bytes(pool[at:at + 4]))[0] if 0 <= at <= len(pool) - 4 else 0

    def blocks(self, pool):
        """Where each block starts, and its head, as far as they can be followed."""
        for at, end in ((168, self.word(pool, 16)), (self.word(pool, 24), len(pool))):
            while at < min(end, len(pool)) and self.word(pool, at) >> 2:
                yield at, self.word(pool, at)
                at += self.word(pool, at) >> 2

    @staticmethod
    def crowded(n, members):
        """Bytes in which every small bin has so many members: one whose link is the pool's last word, and then one in every word from 96 on. No list is
        gone along further than n / 8 of them. The remainder ends above all but the first; or, of 512 bytes, where they are, 256 bytes before the end."""
        words = [0] * (n // 4)
        for word in SMALL_BINS:
            words[word // 4] = n - 8
        for member in range(96, 96 + 4 * (members - 2), 4):
            words[member // 4 + 1] = member + 4
        words[24 // 4] = n - 256 if n == 512 else n - 16
        words[4 // 4] = n - 8  # where a walk that does not end at 0 comes to
        words[n // 4 - 4], words[n // 4 - 1] = 16 << 2 | 3, 96
        return list(struct.pack(f"<{n // 4}I", *words))

    def upper(self, pool):
        """Where the blocks from the remainder's end on start."""
        return [at for at, _ in self.blocks(pool) if at >= self.word(pool, 24)]

    def pool_for(self, path):
        """One by chance; for the functions that send blocks home mostly one that has some to send."""
        wanted = path.split("::")[0] in ("homing", "bringing") and self.random.random() < 0.7
        return self.random.choice(self.edges if wanted else self.pools)

    # ---- arguments

    def arguments(self, params, pool, names=()):
        """Each with the bytes that the C program reads for it. The first list of bytes is mostly the pool, and a later one a record's body; beside a bank a
        number is mostly a piston's; and sometimes two numbers are the starts of two blocks, the lower one first, as a walk has them."""
        made, lists, walk = [], 0, []
        if self.random.random() < 0.15:
            pool = self.few()
        elif self.random.random() < 0.3:
            starts = [at for at, _ in self.blocks(pool)]
            walk = sorted(self.random.sample(starts, 2)) if len(starts) > 1 else []
        for at, ty in enumerate(params):
            if ty == Int(32) and at < len(names) and names[at] in LEVELS:
                made.append(self.level())
            elif ty == Int(32) and at < len(names) and names[at] in MEANT and self.random.random() < 0.7:
                number = self.random.choice(MEANT[names[at]])
                made.append((number, packed(64, [number])))
            elif ty == Int(32) and at < len(names) and names[at] in ("from", "edge") and self.upper(pool) and self.random.random() < 0.5:
                number = self.random.choice(self.upper(pool))
                made.append((number, packed(64, [number])))
            elif isinstance(ty, Slice) and ty.of == Int(8):
                lists += 1
                made.append(self.lent(8, pool if lists == 1 else self.few()))
            elif ty == Int(32) and any(isinstance(other, Ref) for other in params) and self.random.random() < 0.7:
                number = self.random.choice([0, 1, 2, 3, 4, 31, 32])
                made.append((number, packed(64, [number])))
            elif ty == Int(32) and walk:
                number = walk.pop(0)
                made.append((number, packed(64, [number])))
            else:
                made.append(self.make(ty, pool))
        return made

    def level(self):
        number = self.random.choice([0, 1, 1, 2, 3, 5, 12, 13, 13, 14, 17, 18, self.random.choice(EDGES) % 2 ** 32])
        return number, packed(64, [number])

    def few(self):
        return [self.random.choice([0, 1, 2, 3, 255, self.random.randrange(256)])
                for _ in range(self.random.choice([0, 1, 3, 4, 7, 8, 8, 9, 16, 16, 17, 32, 32, 33]))]

    @staticmethod
    def lent(bits, numbers):
        return ((Block(bits, list(numbers)), 0), len(numbers)), packed(64, [len(numbers)]) + packed(bits, numbers)

    def make(self, ty, pool):
        """An argument of that type."""
        choose = self.random.choice
        if isinstance(ty, Slice):
            return self.lent(ty.of.bits, pool if ty.of == Int(8) else self.numbers(ty.of.bits, pool))
        if ty == UNIT:
            return (), b""
        if isinstance(ty, Ref) and not isinstance(ty.to, Array):
            value, given = self.make(ty.to, pool)
            return (Slot(value), ()) if isinstance(ty.to, Named) else (Block(ty.to.bits, [value]), 0), given
        if isinstance(ty, Ref):
            numbers = self.bank(pool) if ty.to.length == 32 else self.waits(pool, ty.to.length)
            return (Block(ty.to.of.bits, list(numbers)), 0), packed(ty.to.of.bits, numbers)
        if ty == BOOL:
            number = choose([0, 1])
            return number, packed(64, [number])
        if ty == Int(8):
            number = choose([0, 1, 1, 2, 2, 3, 3, 4, 5, 11, 12, 255, self.random.randrange(256)])
            return number, packed(64, [number])
        if isinstance(ty, Int):
            number = choose([self.number_in(pool), self.number_in(pool), choose(EDGES + WIDE), self.random.getrandbits(ty.bits)]) % 2 ** ty.bits
            return number, packed(64, [number])
        program, variant = self.file.program, None
        if program.fields(ty.name) is None:
            variant = self.random.randrange(len(program.variants(ty.name)))
        fields = program.all_fields(ty.name, variant)
        names = self.file.members(ty.name) if variant is None else ()
        made = [self.level() if at < len(names) and names[at] in LEVELS else self.make(field, pool) for at, field in enumerate(fields)]
        tag = [] if variant is None else [variant]
        return (*tag, *(value for value, _ in made)), packed(64, tag) + b"".join(given for _, given in made)

    def bank(self, pool):
        """Mostly a right one: empty, or with some blocks that are held; else with numbers by chance."""
        held = [at + 4 for at, word in self.blocks(pool) if word & 1]
        self.random.shuffle(held)
        numbers = [0] * 32
        for offset in held[:self.random.choice([0, 1, 3, 8])]:
            numbers[self.random.choice([0, 1, 2, 3, 4, 31, self.random.randrange(32)])] = offset
        if self.random.random() < 0.3:
            numbers[self.random.randrange(32)] = self.number_in(pool)
        return numbers

    def waits(self, pool, length):
        """What the levels of an index await: one block at each of the lowest, as it may be, and then none; else numbers by chance."""
        starts = [0, 96, *(at for at, word in self.blocks(pool) if not word & 1)]
        lowest = self.random.randrange(length + 1)
        numbers = [self.random.choice(starts)] * lowest + [self.random.choice([0, 0, 96])] * (length - lowest)
        if self.random.random() < 0.3:
            numbers[self.random.randrange(length)] = self.number_in(pool)
        return numbers

    def numbers(self, bits, pool):
        """A list of figures, counters or offsets; or marks."""
        choose = self.random.choice
        if bits == 32:
            return [self.number_in(pool) for _ in range(choose([0, 1, 6, 7, 8, 32, 52, 53, 53, 54]))]
        word = choose([lambda: 0, lambda: 2 ** 64 - 1, lambda: self.random.getrandbits(64)])
        return [word() for _ in range(choose([0, 1, 2, 16, 128, 128]))]

    # ---- what the machine says

    def flat(self, ty, value):
        """The numbers that the C program prints of a value."""
        if ty == UNIT:
            return []
        if isinstance(ty, Slice):
            (block, offset), length = value
            first = offset // (block.bits // 8)
            return [length, *block.numbers[first:first + length]]
        if isinstance(ty, Ref):
            return self.flat(ty.to, self.machine.load(value, {"Int": getattr(ty.to, "bits", None)}))
        if not isinstance(ty, Named):
            return [value]
        fields, rest, tag = None, value, []
        if self.file.program.fields(ty.name) is None:
            rest, tag = value[1:], [value[0]]
        fields = self.file.program.all_fields(ty.name, tag[0] if tag else None)
        return tag + [n for field, part in zip(fields, rest) for n in self.flat(field, part)]

    def watched(self):
        """The arguments of calls that the exported ones make, some of each function: what they were, before they were changed."""
        seen = {path: [] for path in self.paths}
        count = dict.fromkeys(self.paths, 0)

        def watch(name, args):
            if name not in count:
                return
            count[name] += 1
            place = count[name] - 1 if count[name] <= SEEN else self.random.randrange(count[name])
            if place < SEEN:
                kept = [self.keep(ty, value) for ty, value in zip(self.file.program.signature(name)[1], args)]
                seen[name][place:place + 1] = [kept]

        exported = [path for path in self.paths if self.file.source(path).exported]
        self.machine.watch = watch
        for _ in range(RUNS):
            path = self.random.choice([p for p in exported for _ in range(3 if "bank_" in p else 1)])
            pool = self.random.choice(self.pools)
            made = self.arguments(self.file.program.signature(path)[1], pool, self.file.source(path).params)
            self.machine.call(path, [value for value, _ in made])
        # those that version 0.5 stored are brought in, and their blocks come back, often the one where the remainder ends
        bring_in, = (path for path in exported if path.endswith("pool_bring_in"))
        give_back, = (path for path in exported if path.endswith("pool_give_back"))
        for pool in self.stored:
            lent, _ = self.lent(8, pool)
            block = lent[0][0]
            self.machine.call(bring_in, [lent])
            while held := [at + 4 for at, word in self.blocks(block.numbers) if word & 1]:
                edge = self.word(block.numbers, 24) + 4
                self.machine.call(give_back, [lent, edge if edge in held and self.random.random() < 0.5 else self.random.choice(held)])
        self.machine.watch = None
        return seen

    def keep(self, ty, value):
        """A copy of an argument, and the numbers that the C program reads for it."""
        if isinstance(ty, Slice):
            (block, offset), length = value
            first = offset // (block.bits // 8)
            return self.lent(block.bits, block.numbers[first:first + length])
        if isinstance(ty, Ref) and isinstance(ty.to, Array):
            return (Block(value[0].bits, list(value[0].numbers)), 0), packed(value[0].bits, value[0].numbers)
        return self.copied(ty, value), self.given_as(ty, value)

    def copied(self, ty, value):
        """A value whose memory is its own."""
        if isinstance(ty, Slice):
            return self.keep(ty, value)[0]
        if isinstance(ty, Ref):
            inner = self.copied(ty.to, self.machine.load(value, {"Int": getattr(ty.to, "bits", None)}))
            return (Slot(inner), ()) if isinstance(ty.to, Named) else (Block(ty.to.bits, [inner]), 0)
        if not isinstance(ty, Named):
            return value
        is_enum = self.file.program.fields(ty.name) is None
        fields = self.file.program.all_fields(ty.name, value[0] if is_enum else None)
        return (*value[:is_enum], *(self.copied(field, part) for field, part in zip(fields, value[is_enum:])))

    def given_as(self, ty, value):
        """What the C program reads for a value."""
        if isinstance(ty, Slice):
            return self.keep(ty, value)[1]
        if isinstance(ty, Ref):
            return self.given_as(ty.to, self.machine.load(value, {"Int": getattr(ty.to, "bits", None)}))
        if not isinstance(ty, Named):
            return packed(64, self.flat(ty, value))
        is_enum = self.file.program.fields(ty.name) is None
        fields = self.file.program.all_fields(ty.name, value[0] if is_enum else None)
        return packed(64, value[:is_enum]) + b"".join(self.given_as(field, part) for field, part in zip(fields, value[is_enum:]))

    def case(self, number, path, made):
        """What the C program reads for a call, and what it must print; nothing where the call takes too long, or is not defined."""
        result, params = self.file.program.signature(path)
        self.machine.turns = TURNS
        try:
            answer = self.machine.call(path, [value for value, _ in made])
        except TooLong:
            return []
        except Stuck:
            if not self.may_be_stuck(path):
                raise
            return []
        finally:
            self.machine.turns = None
        words = [self.file.names.functions[path], *(f"{n:x}" for n in self.flat(result, answer))]
        for ty, (value, _) in zip(params, made):
            if isinstance(ty, (Slice, Ref)) and ty.mutable:
                held = value[0][0] if isinstance(ty, Slice) else value[0]
                words += ["|", *(f"{n:x}" for n in (self.flat(ty.to, held.value) if isinstance(held, Slot) else held.numbers))]
        return [(packed(64, [number]) + b"".join(given for _, given in made), " ".join(words))]

    def may_be_stuck(self, path):
        """Whether a case may be left out: of a function of the kit's library, or where what is passed as a struct may not be one that there is."""
        source = self.file.source(path)
        named = [ty.to if isinstance(ty, Ref) else ty for ty in self.file.program.signature(path)[1]]
        return source.plain or source.asks or any(isinstance(ty, Named) and self.bound(ty) for ty in named)

    def bound(self, ty):
        declared = self.file.sources.types.get(ty.name.partition("<")[0])
        return declared is not None and declared.bound

    def given(self, path):
        """The arguments of a function's calls: as it was called, by chance, and where it takes numbers alone, each of them at each edge."""
        params, names = self.file.program.signature(path)[1], self.file.source(path).params
        lists = any(isinstance(ty, Slice) for ty in params)
        for _ in range(CASES if lists else 5 * CASES):
            yield self.arguments(params, self.pool_for(path), names)
        for at, ty in enumerate(params if not lists else []):
            for edge in EDGES + WIDE if isinstance(ty, Int) else []:
                made = self.arguments(params, self.random.choice(self.pools))
                made[at] = (edge % 2 ** ty.bits, packed(64, [edge % 2 ** ty.bits]))
                yield made

    def cases(self):
        """What the C program reads, and what it must print."""
        read, lines, seen = [], [], self.watched()
        self.machine.taken.clear()
        for number, path in enumerate(self.paths):
            for made in [*seen[path], *self.given(path)]:
                for given, line in self.case(number, path, made):
                    read.append(given)
                    lines.append(line)
            for given, line in self.search(number, path, self.file.program.signature(path)[1]):
                read.append(given)
                lines.append(line)
        return b"".join(read), "\n".join(lines) + "\n"

    def search(self, number, path, params):
        """More cases, where some ways of the function were never gone: of many by chance, and of a few with the longest pool and a longer one, those
        that go a new one."""
        ways = set(self.machine.branches(path))
        for turn in range(TRIES + 20):
            left = ways - self.machine.taken
            if not left:
                return
            pool = self.random.choice(self.pools) if turn < TRIES else [0] * (LONGEST + turn % 2)
            case = self.case(number, path, self.arguments(params, pool, self.file.source(path).params))
            if left & self.machine.taken:
                yield from case

    def ways(self):
        """How many ways on from a test or a switch the functions have, and of which functions some were never gone."""
        every = [(path, way) for path in self.paths for way in self.machine.branches(path)]
        return len(every), [path for path, way in every if way not in self.machine.taken]

    # ---- the C program

    def program(self):
        lines = [PREAMBLE]
        for path in self.file.used_types:
            lines += self.reader(path)
        for number, path in enumerate(self.paths):
            lines += self.caller(number, path)
        lines += ["int main(void)", "{", "    for (;;) {", "        switch (in()) {"]
        lines += [f"        case {number}: call{number}(); break;" for number in range(len(self.paths))]
        return "\n".join(lines + ["        default: return 2;", "        }", '        printf("\\n");', "    }", "}", ""])

    def reader(self, path):
        """How a struct or an enum is read and printed."""
        name, members = self.file.names.type(path), self.file.members(path)
        read, show = [f"static {name} in_{name}(void)", "{", f"    {name} v;"], [f"static void out_{name}({name} v)", "{"]
        fields = self.file.program.fields(path)
        if fields is not None:
            for ty, member in zip(fields, members):
                read += [f"    {line}" for line in self.read_to(ty, f"v.{member}")]
                show.append(f"    {self.show(ty, f'v.{member}')}")
            show += ["    (void)v;"] * (not fields)
        else:
            read.append("    v.tag = (uint8_t)in();")
            show.append("    out(v.tag);")
            for number, (types, member) in enumerate(zip(self.file.program.variants(path), members)):
                for at, ty in enumerate(types):
                    part = f"v.as.{member}" + ("" if parts_of(types) == 1 else f".f{at}")
                    read += [f"    if (v.tag == {number}) {line}" for line in self.read_to(ty, part)]
                    show.append(f"    if (v.tag == {number}) {self.show(ty, part)}")
        return read + ["    return v;", "}", ""] + show + ["}", ""]

    def read_to(self, ty, place):
        """Statements that read a value into a place."""
        if isinstance(ty, Slice):
            return [f"{place}_len = (size_t)in();", f"{place} = in_{ty.of.bits}({place}_len);"]
        return [f"{place} = {self.read(ty)};"]

    def read(self, ty):
        if isinstance(ty, Ref):
            return f"in_{ty.to.bits}(1)"
        return f"in_{self.file.names.type(ty.name)}()" if isinstance(ty, Named) else f"({c_type(ty, self.file.names)})in()"

    def show(self, ty, text):
        if isinstance(ty, Slice):
            return f"{{ out({text}_len); for (size_t i = 0; i < {text}_len; i++) out({text}[i]); }}"
        if isinstance(ty, Ref):
            return self.show(ty.to, f"(*{text})")
        return f"out_{self.file.names.type(ty.name)}({text});" if isinstance(ty, Named) else f"out((uint64_t){text});"

    def pointer(self, ty):
        return pointer_type(True, ty, self.file.names)

    def caller(self, number, path):
        result, params = self.file.program.signature(path)
        lines, args, after = [f"static void call{number}(void)", "{"], [], []
        for at, ty in enumerate(params):
            if isinstance(ty, Slice):
                lines += [f"    size_t n{at} = (size_t)in();", f"    {self.pointer(ty.of)}a{at} = in_{ty.of.bits}(n{at});"]
                args += [f"a{at}", f"n{at}"]
            elif isinstance(ty, Ref) and isinstance(ty.to, Array):
                lines += [f"    size_t n{at} = {ty.to.length};", f"    {self.pointer(ty.to.of)}a{at} = in_{ty.to.of.bits}(n{at});"]
                args.append(f"a{at}")
            elif ty != UNIT:
                to = ty.to if isinstance(ty, Ref) else ty
                lines.append(f"    {declared(to, f'a{at}', self.file.names)[0]} = {self.read(to)};")
                args.append(f"&a{at}" if isinstance(ty, Ref) else f"a{at}")
                if isinstance(ty, Ref) and ty.mutable:
                    after += ['    printf(" |");', f"    {self.show(to, f'a{at}')}"]
            if isinstance(ty, Slice) or isinstance(ty, Ref) and isinstance(ty.to, Array):
                bits = (ty.of if isinstance(ty, Slice) else ty.to.of).bits
                after += ([f"    out_{bits}(a{at}, n{at});"] if ty.mutable else []) + [f"    free(a{at});"]
        name = self.file.names.functions[path]
        call = f"{name}({', '.join(args)})"
        lines += [f'    printf("{name}");'] if result != UNIT else [f"    {call};", f'    printf("{name}");']
        if result != UNIT:
            lines += [f"    {declared(result, 'r', self.file.names)[0]} = {call};", f"    {self.show(result, 'r')}"]
        return lines + after + ["}", ""]
