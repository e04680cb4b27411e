"""Makes the example pool with pistons by probe, and its two banks: pistons.pool, pistons.bank and pistons-wrong.bank.

  python3 examples/maps/make_pistons.py FOLDER

Messages of another user stand beside the records. One piston is set twice and one cleared, so that blocks have come back. The wrong bank
names the same pool's offsets: one of them twice, others where nothing is held, and payloads that are no records.
"""

import os
import sys

HERE = os.path.dirname(os.path.abspath(__file__))
sys.path.insert(0, os.path.join(HERE, "..", "..", "tools", "drawing"))

import main  # noqa: E402
from bank import BODIES  # noqa: E402

LENGTH = 1024
SHORT = 876  # a payload of 12 bytes whose first byte is 3
# what piston 3 names too; a message that has come back; another message; what is too short; the remainder; no address of the pool
WRONG = {7: 948, 9: 276, 10: 172, 14: SHORT, 20: 600, 30: 70000}


def four(number):
    return number.to_bytes(4, "little")


def message(offset, words):
    """Takes a payload that lies at `offset`, and writes it."""
    return [b"T" + four(len(words)), b"W" + four(offset) + four(len(words)) + words]


def piston(number, kind):
    """Sets a piston; the tab bits count on from its number."""
    return [b"K" + four(number) + bytes([kind]) + four(BODIES[kind]) + bytes(range(number, number + BODIES[kind]))]


COMMANDS = [main.image_command(bytes(LENGTH)), b"L",
            *message(172, b"Please tune the Trumpet 8' of the Great before Sunday; the humidity has been at 70 for a week now."),
            *message(276, b"Recital on Friday at 7: the first three pieces from the west."),
            *message(348, b"Pedal: the coupler to the Swell sticks, rank 4, note 17 as well."),
            *piston(1, 1), *piston(2, 2), *piston(3, 3), *piston(4, 1), *piston(12, 3),
            *message(SHORT, b"\x03 keys"),
            *piston(2, 3), *piston(31, 2), *piston(5, 1), *piston(0, 2),
            b"Q" + four(4), b"G" + four(276), b"D", b"V"]


def bank_bytes(numbers):
    return b"".join(four(number) for number in numbers)


def made():
    *_, dump, shown = main.ask_probe(COMMANDS)
    numbers = [int(word) for word in shown.split()[3:]]
    wrong = [WRONG.get(i, number) for i, number in enumerate(numbers)]
    return {"pistons.pool": bytes.fromhex(dump.split()[-1]), "pistons.bank": bank_bytes(numbers), "pistons-wrong.bank": bank_bytes(wrong)}


if __name__ == "__main__":
    for name, data in made().items():
        with open(os.path.join(sys.argv[1], name), "wb") as file:
            file.write(data)
