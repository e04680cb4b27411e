"""Holds what the drawing finds against probe: on damaged images it names a fault exactly where probe refuses the pool, and on random
banks exactly where probe refuses a recall. And looks that no link runs through a row of blocks, where the words are, and that with
pistons no words stand on others.

The images are those of the example tapes, in their layout and in the other one, each damaged many times at a place that a fixed seed
chooses; all go through one probe run. To each comes one as version 0.5 would have left it, with free blocks at E: there the drawing says how
many go home exactly where probe brings the pool in.
Sound ones are also counted: the seven figures are those of the blocks that are drawn. The banks are given to sound pools, some of whose
payloads begin as records do, and to a few damaged ones. The last line is `N passed, M failed`.
"""

import os
import random
import re
import sys
import tempfile

HERE = os.path.dirname(os.path.abspath(__file__))
sys.path.insert(0, os.path.join(HERE, "..", "..", "tools", "drawing"))

import main  # noqa: E402
from bank import PISTONS, REFUSED, Bank  # noqa: E402
from pistons import RADIUS, BankPicture  # noqa: E402
from pool import CHAIN, FREE_WORD, LEVEL, SMALL_BINS, SMALL_NEXT, Pool  # noqa: E402
from svg import HEIGHT, Picture, width_of  # noqa: E402

TAPES = ["maps/bins", "tapes/worked", "tapes/scattering", "tapes/joins", "tapes/small", "maps/levels"]
TURNS = 80
TURNS_AT_EDGE = 20
BANKS = 150
WORDS = [0, 1, 2, 3, 13, 72, 96, 168, 2**31, 2**32 - 1]


def damaged(image, chance):
    """One bit, one byte or one word is another; words are often offsets of the pool, so that links lead somewhere."""
    data = bytearray(image)
    at = chance.randrange(len(data))
    way = chance.randrange(4)
    if way == 3:
        return index_damaged(data, chance)
    if way == 0:
        data[at] ^= 1 << chance.randrange(8)
    elif way == 1:
        data[at] = chance.randrange(256)
    else:
        value = chance.choice(WORDS + [chance.randrange(0, len(data) + 8, 8), chance.randrange(2**32)])
        data[at - at % 4:at - at % 4 + 4] = value.to_bytes(4, "little")
    return bytes(data)


def index_damaged(data, chance):
    """A level word or an index word, also one above the height, of the false block or of a bin's first block is another: one more or less, 0,
    or a distance to some block that the index goes through."""
    starts = [start for start, _ in Pool(bytes(data)).towers()]
    start = chance.choice(starts)
    at = start + chance.randrange(LEVEL, CHAIN + 4, 4)
    old = int.from_bytes(data[at:at + 4], "little")
    value = chance.choice([0, 1, 13, old + 1, old - 1, old + 8, old - 8, chance.choice(starts) - start])
    data[at:at + 4] = (value % 2**32).to_bytes(4, "little")
    return bytes(data)


def stored_before(image, chance):
    """The pool after version 0.5 has given some small blocks back, that at E among them: each comes to the front of its bin, and stays there.
    The same pool where E has no held block."""
    data, pool = bytearray(image), Pool(image)
    held = [block for block in pool.blocks if block.kind == "held" and block.start >= pool.end]
    for block in held[:1] + [block for block in held[1:] if chance.randrange(2)]:
        data[block.start] &= 0xFE
        bin_word = SMALL_BINS + block.size
        data[block.start + SMALL_NEXT:block.start + SMALL_NEXT + 4] = data[bin_word:bin_word + 4]
        data[bin_word:bin_word + 4] = block.start.to_bytes(4, "little")
        free = int.from_bytes(data[FREE_WORD:FREE_WORD + 4], "little") + block.size
        data[FREE_WORD:FREE_WORD + 4] = free.to_bytes(4, "little")
    return bytes(data)


def on_the_other_layout(name):
    """The pool that a tape leaves where it lays out with the other layout."""
    swapped = {"L": "M", "M": "L"}
    with open(name) as file, tempfile.NamedTemporaryFile("w", suffix=".tape") as other:
        other.write("".join(swapped.get(line[:1], line[:1]) + line[1:] for line in file))
        other.flush()
        return main.run_tape(other.name)


def counts(pool):
    """The seven figures, by the blocks that are drawn. A free block is granted whole, and the remainder keeps 8 bytes."""
    held, small, large, (rest,) = ([block.size for block in pool.blocks if block.kind == kind] for kind in ("held", "small", "large", "remainder"))
    greatest = max(small + large + [rest - 8])
    return [len(held), sum(held), len(small), len(large), rest, sum(small + large) + rest - 4, max(greatest - 4, 0)]


def points(path):
    """Points along a path as the drawing writes it: M x y, then C, or V, H and q one after the other."""
    x = y = 0.0
    for letter, words in re.findall(r"([MCVHq])([^MCVHq]*)", path):
        numbers = [float(word) for word in words.split()]
        if letter == "C":
            (a, b, c, d, e, f), steps = numbers, [i / 40 for i in range(1, 41)]
            for t in steps:
                u = 1 - t
                yield (u**3 * x + 3 * u * u * t * a + 3 * u * t * t * c + t**3 * e, u**3 * y + 3 * u * u * t * b + 3 * u * t * t * d + t**3 * f)
        elif letter == "M":
            x, y = numbers
        else:
            to_x = numbers[0] if letter == "H" else x + numbers[2] if letter == "q" else x
            to_y = numbers[0] if letter == "V" else y + numbers[3] if letter == "q" else y
            for i in range(1, 21):
                yield x + (to_x - x) * i / 20, y + (to_y - y) * i / 20
            x, y = to_x, to_y


def crosses(drawn):
    """The links that enter a row; its left end, and how high it is, are those of its blocks."""
    rows = {float(y) for y in re.findall(r'<path class="(?:held|record|large|small|remainder|word|false|unread)[^"]*" d="M[\d.]+ ([\d.]+)H', drawn)}
    right = max(float(x) for x in re.findall(r'd="M[\d.]+ [\d.]+H([\d.]+)', drawn))
    for path in re.findall(r'<path class="link link-[a-z]+" d="(M[^"]*)"', drawn):
        if "h" in path:
            continue  # of the legend
        for x, y in points(path):
            if x <= right and any(row + 1 < y < row + HEIGHT - 1 for row in rows):
                yield path
                break


def agrees(image, inspected, figures, brought):
    pool = Pool(image)
    wanted = f"H 0 {pool.to_bring_in}" if pool.to_bring_in or not pool.faults else "H 2 0"
    if brought != wanted:
        return False
    drawn = Picture(pool).draw("image", 0 if not pool.faults else 2, [0] * 7)  # it can be drawn whatever it is
    if any(crosses(drawn)):
        return False
    if inspected.split()[1] == "0":
        return not pool.faults and counts(pool) == [int(word) for word in figures.split()[2:]]
    return bool(pool.faults)


def run():
    chance = random.Random(1)
    tapes = [os.path.join(HERE, "..", name + ".tape") for name in TAPES]
    images = [main.run_tape(tape) for tape in tapes] + [on_the_other_layout(tape) for tape in tapes]
    return all([run_pools(images, chance), run_banks(images, chance)])


def run_pools(images, chance):
    at_edge = random.Random(2)
    stored = [stored_before(image, at_edge) for image in images]
    images = images + [damaged(image, chance) for image in images for _ in range(TURNS)]
    images += stored + [damaged(image, at_edge) for image in stored for _ in range(TURNS_AT_EDGE)]
    commands = [command for image in images for command in (main.image_command(image), b"N", b"S", b"H")]
    lines = main.ask_probe(commands)
    good = sound = to_bring_in = 0
    for i, image in enumerate(images):
        _, inspected, figures, brought = lines[4 * i:4 * i + 4]
        sound += inspected.split()[1] == "0"
        to_bring_in += brought.split()[2] != "0"
        if agrees(image, inspected, figures, brought):
            good += 1
        else:
            print(f"failed: image {i}: probe says {inspected} and {brought}, the drawing {Pool(image).faults[:1]}")
    # a test that met only one kind of pool would say nothing
    others = len(images) - sound - to_bring_in
    all_met = min(sound, to_bring_in, others) > 50
    print(f"{sound} sound images, {to_bring_in} that have to be brought in and {others} others: {good + all_met} passed, "
          f"{len(images) - good + (not all_met)} failed")
    return good == len(images) and all_met


# Banks


def with_kinds(image, chance):
    """Payloads that begin with a kind, or nearly; no byte of a payload is governed."""
    data = bytearray(image)
    for block in Pool(image).blocks:
        if block.kind == "held" and chance.random() < 0.9:
            data[block.start + 4] = chance.choice([1, 1, 1, 2, 2, 3, 3, 4, 0])
    return bytes(data)


def random_bank(image, chance):
    """Half of them name held payloads, each once; in the others some numbers are anything, and some stand twice."""
    blocks = Pool(image).blocks
    held = [block.start + 4 for block in blocks if block.kind == "held"]
    payloads = [block.start + 4 for block in blocks] or [0]
    numbers = (chance.sample(held, chance.randrange(min(len(held), PISTONS) + 1)) + [0] * PISTONS)[:PISTONS]
    if chance.randrange(2):
        for _ in range(chance.choice([1, 1, 2, 6, 40])):
            ways = [chance.choice(payloads), chance.choice(numbers), chance.randrange(len(image)), 2**32 - 1]
            numbers[chance.randrange(PISTONS)] = chance.choice(ways)
    chance.shuffle(numbers)
    return b"".join(number.to_bytes(4, "little") for number in numbers)


SIZES = {"name": 20, "verdict": 15, "value": 19, "tiny": 8.5, "offset": 10.5, "kind": 8, "more": 9.5}


def boxes(drawn):
    """Where words and buttons stand, as (top, bottom, left, right); a button's own number is within it."""
    for x, y in re.findall(r'<circle [^>]*cx="([\d.]+)" cy="([\d.]+)"', drawn):
        yield float(y) - RADIUS, float(y) + RADIUS, float(x) - RADIUS, float(x) + RADIUS
    for x, y, style, anchor, words in re.findall(r'<text x="([\d.]+)" y="([\d.]+)"(?: class="([^"]*)")?(?: text-anchor="(\w+)")?>([^<]*)<', drawn):
        if anchor != "middle":
            size = next((SIZES[word] for word in style.split() if word in SIZES), 12)
            width = 0.9 * width_of(words, size)  # that is rather too wide
            left = float(x) - (width if anchor == "end" else 0)
            yield float(y) - 0.7 * size, float(y), left, left + width


def overlaps(drawn):
    """Whether any two of them share a place."""
    placed = sorted(boxes(drawn))
    for i, (_, bottom, left, right) in enumerate(placed):
        for other_top, _, other_left, other_right in placed[i + 1:]:
            if other_top >= bottom:
                break
            if left < other_right and other_left < right:
                return True
    return False


def bank_agrees(pool, bank, recalls):
    numbers = [number for number, _ in recalls]
    drawn = BankPicture(bank, "bank", numbers).draw("image", 0 if not pool.faults else 2, [0] * 7)
    if any(crosses(drawn)) or overlaps(drawn):
        return False
    if pool.faults:
        return all(recall == (2, b"") for recall in recalls)
    return recalls == [bank.answer(piston) for piston in range(PISTONS)] and bool(bank.faults) == (REFUSED in numbers)


def run_banks(images, chance):
    images = [with_kinds(chance.choice(images), chance) for _ in range(BANKS)]
    images += [damaged(image, chance) for image in images[:BANKS // 10]]
    banks = [random_bank(image, chance) for image in images]
    commands = [[main.image_command(image)] + main.recall_commands(bank) for image, bank in zip(images, banks)]
    lines = main.ask_probe([command for some in commands for command in some])
    step, good, met = len(commands[0]), 0, {"recalled": 0, "some": 0, "refused": 0, "not sound": 0}
    for i, image in enumerate(images):
        pool = Pool(image)
        bank = Bank(pool, banks[i])
        recalls = [main.recalled(line) for line in lines[i * step + 2:(i + 1) * step]]
        refused = sum(number == REFUSED for number, _ in recalls)
        met["not sound" if pool.faults else "recalled" if refused == 0 else "refused" if refused == PISTONS else "some"] += 1
        if bank_agrees(pool, bank, recalls):
            good += 1
        else:
            print(f"failed: bank {i} {bank.numbers}: probe says {recalls}, the drawing {bank.faults}")
    # as above: there are some of each
    all_met = min(met.values()) >= 4
    print(f"{met['recalled']} banks whose pistons are recalled, {met['some']} with a record that does not read, {met['refused']} that are refused "
          f"and {met['not sound']} with an unsound pool: {good + all_met} passed, {len(images) - good + (not all_met)} failed")
    return good == len(images) and all_met


if __name__ == "__main__":
    sys.exit(0 if run() else 1)
