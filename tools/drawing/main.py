"""tools/map: from a file to a picture. Asks probe for the verdict and the figures, and writes the picture whole or not at all."""

import os
import stat
import subprocess
import sys

from bank import BYTES, PISTONS, REFUSED, Bank
from pistons import BankPicture
from pool import Pool, free_blocks
from svg import Picture

TOOLS = os.path.dirname(os.path.dirname(os.path.abspath(__file__)))
USAGE = "usage: tools/map [--bank BANK] IMAGE [OUT.svg] | tools/map [--bank BANK] --tape TAPE [OUT.svg]"
GREATEST_POOL = 65536
GREATEST_TAPE = 32768
NO_POOL, NOT_DONE = 1, 2
STANDARD_OUTPUT = (None, "-", "/dev/stdout", "/dev/fd/1")
LAY_OUT, TAKE, GIVE_BACK, FIGURES, LAY_OUT_2 = 1, 2, 3, 4, 5
LAYING_OUT = {LAY_OUT: b"L", LAY_OUT_2: b"M\x02\x00\x00\x00"}  # probe's commands


class Stop(Exception):
    """Ends the run with a message and a status."""

    def __init__(self, status, text):
        super().__init__(text)
        self.status = status


# The image


def read_file(name, most):
    """The file's bytes; one byte more than it may have is enough to refuse it."""
    try:
        with open(name, "rb") as file:
            return file.read(most + 1)
    except OSError as error:
        raise Stop(NOT_DONE, f"{name} cannot be read: {error.strerror}")


def read_bank(name):
    data = read_file(name, BYTES)
    if len(data) != BYTES:
        has = f"{len(data)}" if len(data) < BYTES else f"more than {BYTES}"
        raise Stop(NO_POOL, f"{name} has {has} bytes, and a bank has {BYTES}")
    return data


def read_image(name):
    data = read_file(name, GREATEST_POOL)
    if not data:
        raise Stop(NO_POOL, f"{name} is empty")
    if len(data) > GREATEST_POOL:
        raise Stop(NO_POOL, f"{name} has more than {GREATEST_POOL} bytes, which no pool has")
    return data


def read_tape(name):
    """A text tape as records (kind, number). tools/tape says itself what it cannot read."""
    done = subprocess.run([os.path.join(TOOLS, "tape"), name], stdout=subprocess.PIPE)
    if done.returncode != 0:
        raise Stop(done.returncode, None)
    tape, at, records = done.stdout, 0, []
    if len(tape) > GREATEST_TAPE:
        raise Stop(NO_POOL, f"{name} has {len(tape)} bytes as a tape, and more than {GREATEST_TAPE} are refused with 7")
    while at < len(tape):
        length = 1 if tape[at] == FIGURES else 5
        records.append((tape[at], int.from_bytes(tape[at + 1:at + length], "little")))
        at += length
    return records


def run_tape(name):
    """The pool after the tape's last record. A refused L or M keeps the old pool; an accepted one leaves nothing of it that is drawn,
    so the run starts at the last accepted one."""
    records = read_tape(name)
    laid = [i for i, (kind, n) in enumerate(records) if kind in LAYING_OUT and n % 8 == 0 and 176 <= n <= GREATEST_POOL]
    if not laid:
        raise Stop(NO_POOL, f"{name} lays out no pool")
    kind, n = records[laid[-1]]
    commands = [image_command(bytes(n)), LAYING_OUT[kind]]
    for kind, number in records[laid[-1] + 1:]:
        if kind in (TAKE, GIVE_BACK):
            commands.append((b"T" if kind == TAKE else b"G") + number.to_bytes(4, "little"))
    return bytes.fromhex(ask_probe(commands + [b"D"])[-1].split()[-1])


# Probe


def image_command(data):
    return b"I" + len(data).to_bytes(4, "little") + data


def ask_probe(commands):
    """One line for each command."""
    try:
        done = subprocess.run([os.path.join(TOOLS, "run"), "probe"], input=b"".join(commands), stdout=subprocess.PIPE)
    except BrokenPipeError:
        raise Stop(NOT_DONE, "probe did not read its commands")
    lines = done.stdout.decode("ascii", "replace").splitlines()
    if done.returncode != 0 or len(lines) != len(commands):
        raise Stop(NOT_DONE, f"probe gave {len(lines)} lines for {len(commands)} commands, and the status {done.returncode}")
    return lines


def recall_commands(bank):
    """The bank, and the recall of each piston."""
    return [b"B" + bank] + [b"R" + piston.to_bytes(4, "little") for piston in range(PISTONS)]


def recalled(line):
    """A recall's number, and the record's bytes."""
    _, number, _, record = line.split()
    return int(number), b"" if record == "-" else bytes.fromhex(record)


def verdict(data, bank):
    """Inspection's answer, the seven figures where it is 0, the recall of each piston where there is a bank, and how many blocks go home where
    the pool is brought in; that comes last, since it changes probe's copy of the pool."""
    _, inspected, figures, *rest, brought = ask_probe([image_command(data), b"N", b"S"] + (recall_commands(bank) if bank else []) + [b"H"])
    return int(inspected.split()[1]), [int(word) for word in figures.split()[2:]], [recalled(line) for line in rest[1:]], int(brought.split()[2])


# The picture


def write_whole(name, text):
    """By way of a file beside it, so that a run that fails leaves no half picture and keeps the old one."""
    name = os.path.realpath(name)
    # renaming over a device such as /dev/null would replace the device
    if os.path.exists(name) and not stat.S_ISREG(os.stat(name).st_mode):
        raise Stop(NOT_DONE, f"{name} is no file that could be written")
    part = f"{name}.{os.getpid()}.part"
    try:
        with open(part, "x", encoding="utf-8") as file:
            file.write(text)
        os.replace(part, name)
    except OSError as error:
        if os.path.exists(part):
            os.remove(part)
        raise Stop(NOT_DONE, f"{name} cannot be written: {error.strerror}")


def put(out, text):
    if out not in STANDARD_OUTPUT:
        write_whole(out, text)
        return
    try:
        sys.stdout.buffer.write(text.encode("utf-8"))
        sys.stdout.buffer.flush()
    except BrokenPipeError:
        # a reader that has gone away is no fault; without this Python complains once more at its end
        os.dup2(os.open(os.devnull, os.O_WRONLY), 1)
    except OSError as error:
        raise Stop(NOT_DONE, f"standard output cannot be written: {error.strerror}")


def shown(name):
    """A file's name as text that any picture can hold."""
    text = os.fsencode(os.path.basename(name)).decode("utf-8", "replace")
    return "".join(c if c.isprintable() else "?" for c in text)


def judge(pool, number, brought):
    """What is said of a pool, and what ends the run, after its picture is made."""
    if pool.to_bring_in != brought:
        raise Stop(NOT_DONE, f"probe brings {brought} blocks of the pool in, and the drawing shows {pool.to_bring_in}: one of them is wrong")
    if number != 0 and brought:
        print(f"tools/map: probe refuses the pool with {number}: it has {free_blocks(brought)} at E, as version 0.5 and older ones left "
              f"{'it' if brought == 1 else 'them'}; tools/bring-in brings it in", file=sys.stderr)
    elif number != 0:
        where = f"the first thing that does not fit is at {pool.faults[0].at}" if pool.faults else "the drawing shows no reason"
        print(f"tools/map: probe refuses the pool with {number}: it is not sound; {where}", file=sys.stderr)
    elif pool.faults:
        raise Stop(NOT_DONE, f"probe accepts the pool, and the drawing shows a fault at {pool.faults[0].at}: one of them is wrong")


def judge_bank(bank, recalls):
    """The same for a bank on a sound pool."""
    for piston, (number, record) in enumerate(recalls):
        wanted, wanted_record = bank.answer(piston)
        if (number, record) != (wanted, wanted_record):
            raise Stop(NOT_DONE, f"probe recalls piston {piston} with {number} and {len(record)} bytes, and the drawing shows {wanted} and "
                                 f"{len(wanted_record)}: one of them is wrong")
    if bank.faults:
        what = "the bank" if bank.refused else f"the recall of piston {bank.faults[0].pistons[0]}"
        print(f"tools/map: probe refuses {what} with {REFUSED}: {bank.faults[0].text}", file=sys.stderr)


def keep(out, names):
    """No file that is read is written over."""
    for name in names:
        if out not in STANDARD_OUTPUT and os.path.exists(out) and os.path.exists(name) and os.path.samefile(out, name):
            raise Stop(NOT_DONE, f"{out} is the file that is read, and would be lost")


def draw(name, is_tape, bank_name, out):
    keep(out, [name] + ([bank_name] if bank_name else []))
    bank_data = read_bank(bank_name) if bank_name else None
    data = run_tape(name) if is_tape else read_image(name)
    number, figures, recalls, brought = verdict(data, bank_data)
    if number == 1:
        raise Stop(NO_POOL, f"{name} has {len(data)} bytes, and probe refuses it with 1: no multiple of 8 from 176 to 65536")
    pool = Pool(data)
    bank = Bank(pool, bank_data) if bank_name else None
    title = f"{shown(name)}, after its last record" if is_tape else shown(name)
    sheet = BankPicture(bank, shown(bank_name), [answer for answer, _ in recalls]) if bank else Picture(pool)
    put(out, sheet.draw(title, number, figures))
    judge(pool, number, brought)
    if bank and number == 0:
        judge_bank(bank, recalls)


def take_bank(words):
    """The word behind --bank, and the others."""
    if "--bank" not in words[:-1]:
        return None, words
    at = words.index("--bank")
    return words[at + 1], words[:at] + words[at + 2:]


def main(words):
    bank, words = take_bank(words)
    is_tape = words[:1] == ["--tape"]
    words = words[1:] if is_tape else words
    names = words + ([bank] if bank is not None else [])
    if not 1 <= len(words) <= 2 or "" in names or any(word.startswith("-") and word != "-" for word in names):
        raise Stop(NOT_DONE, USAGE)
    if bank == words[0] == "-":
        raise Stop(NOT_DONE, "standard input cannot be both the pool and the bank")
    name, bank = ("/dev/stdin" if word == "-" else word for word in (words[0], bank))
    draw(name, is_tape, bank, words[1] if len(words) == 2 else None)


if __name__ == "__main__":
    try:
        main(sys.argv[1:])
    except Stop as stop:
        if stop.args[0] is not None:
            sys.exit(print(f"tools/map: {stop}", file=sys.stderr) or stop.status)
        sys.exit(stop.status)
