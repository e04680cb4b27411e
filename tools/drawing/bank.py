"""What a drawing reads of a piston bank: which pistons name which blocks, and what does not fit.

The verdict is probe's alone, as it is for the pool. The bank is read here only to place the pistons, and what is wrong is named by
the rules of crates/bank, so that a bank that probe refuses shows where.
"""

from collections import namedtuple

from pool import BLOCKS, FALSE_BLOCK

PISTONS = 32
BYTES = 4 * PISTONS
HEAD = 4  # the payload of a block starts behind its head
BODIES = {1: 8, 2: 16, 3: 32}  # the bytes behind a record's kind
REFUSED = 12

# One offset that is named. block: the held one whose payload starts there, or None; record: its bytes, None where it does not read;
# wrong: whether any fault is about it.
Named = namedtuple("Named", "offset pistons block record wrong")
# What does not fit of some pistons; alone: only the recall of these is refused, and not every one; follows: it may be so only because
# the pool's blocks could not be read there.
Fault = namedtuple("Fault", "pistons text alone follows")


def listed(numbers):
    """1, 2 and 3; of many only the first ones."""
    words = [str(number) for number in numbers]
    if len(words) > 5:
        words = words[:4] + [f"{len(words) - 4} more"]
    return words[0] if len(words) == 1 else f"{', '.join(words[:-1])} and {words[-1]}"


class Bank:
    def __init__(self, pool, data):
        self.pool = pool
        self.numbers = [int.from_bytes(data[at:at + 4], "little") for at in range(0, BYTES, 4)]
        self.count = sum(offset != 0 for offset in self.numbers)  # pistons that are not empty
        self.faults = []
        by_offset = {}
        for piston, offset in enumerate(self.numbers):
            if offset != 0:
                by_offset.setdefault(offset, []).append(piston)
        self.named = {offset: self._read(offset, pistons) for offset, pistons in by_offset.items()}
        # what refuses the whole bank comes first; the rest keeps its order
        self.faults.sort(key=lambda fault: (fault.follows, fault.alone))
        self.refused = any(not fault.alone for fault in self.faults)

    def answer(self, piston):
        """What a recall should give if the pool is sound: the refusal's number, and the record's bytes."""
        offset = self.numbers[piston]
        if self.refused or offset != 0 and self.named[offset].record is None:
            return REFUSED, b""
        return 0, self.named[offset].record if offset != 0 else b""

    # One offset

    def _read(self, offset, pistons):
        block = self.pool.at.get(offset - HEAD)
        if block is None or block.kind != "held":
            self._fault(offset, pistons, self._where(offset), follows=self._is_unread(offset))
            return Named(offset, pistons, None, None, True)
        if len(pistons) > 1:
            self._fault(offset, pistons, "and only one may name it")
        record = self._record(offset, pistons, block)
        return Named(offset, pistons, block, record, len(pistons) > 1 or record is None)

    def _fault(self, offset, pistons, why, alone=False, follows=False):
        who = f"piston {pistons[0]} names" if len(pistons) == 1 else f"pistons {listed(pistons)} name"
        self.faults.append(Fault(pistons, f"{who} {offset}, {why}", alone, follows))

    def _record(self, offset, pistons, block):
        """The record's bytes, None where it does not read."""
        kind, room = self.pool.data[offset], block.size - HEAD
        if kind not in BODIES:
            as_text = f" (text {chr(kind)})" if 0x20 < kind < 0x7F else ""
            self._fault(offset, pistons, f"whose record has the kind {kind}{as_text}, and none but 1, 2 and 3 is known", alone=True)
            return None
        size = 1 + BODIES[kind]
        if size > room:
            self._fault(offset, pistons, f"whose record of kind {kind} has {size} bytes, and the payload {room}", alone=True)
            return None
        return self.pool.data[offset:offset + size]

    def _is_unread(self, offset):
        return any(start <= offset < end for start, end in self.pool.gaps)

    def _where(self, offset):
        """Where an offset lies that is no held payload's start."""
        if offset >= self.pool.n:
            return "outside the pool"
        if offset < BLOCKS:
            return "in the header" if offset < FALSE_BLOCK else "in the false block"
        if self._is_unread(offset):
            return "where no block could be read"
        block = next(block for block in self.pool.blocks if block.start <= offset < block.start + block.size)
        if block.kind == "remainder":
            return "in the remainder"
        state = "held" if block.kind == "held" else "free"
        if offset == block.start + HEAD:
            return f"and the block at {block.start} is {state}"
        return f"inside the {state} block at {block.start}, whose offset is {block.start + HEAD}"
