"""main.py ROOT                    prints the C file of the repository there, in which `board` and every crate below it is proved
main.py ROOT --faults           prints the faults of faults.py, a line each: number, how many places, form, what is wrong
main.py ROOT --fault N [PLACE]  prints the C file with that fault, at every place or at one
main.py ROOT --operations [N]   prints the C program of operations.py, with fault N
main.py ROOT --functions FOLDER writes the C program of functions.py there, what it reads, and what it must print
"""

import os
import sys

from crates import Crates
from file import File
from forms import write
from program import Program
from tree import Unknown


def mir_of(root, crates):
    return [os.path.join(root, f"target/mir/{crate}.json") for crate in ["core", *crates.names]]


def written(root, fault=None):
    crates = Crates(root, "board")
    return File(root, crates, Program(mir_of(root, crates)), fault).write()


def list_faults(root):
    from faults import FAULTS, Fault
    lines = []
    for number in range(len(FAULTS)):
        fault = Fault(number)
        written(root, fault)
        lines.append(f"{number} {fault.places} {fault.form}: {fault.words}\n")
    return "".join(lines)


def with_fault(root, number, place=None):
    from faults import Fault
    return written(root, Fault(int(number), None if place is None else int(place)))


def operations(number=None):
    from faults import Fault
    from operations import Operations
    fault = None if number is None else Fault(int(number))
    return Operations(lambda name, *args: write(fault, name, args)).text()


def functions(root, folder):
    from functions import Functions
    crates = Crates(root, "board")
    file = File(root, crates, Program(mir_of(root, crates)))
    file.write()
    every = Functions(file, [path for path in file.names.functions], mir_of(root, crates))
    read, lines = every.cases()
    for name, what in (("functions.c", every.program().encode()), ("functions.in", read), ("functions.out", lines.encode())):
        with open(os.path.join(folder, name), "wb") as to:
            to.write(what)
    ways, left = every.ways()
    return f"{len(every.paths)} functions, {len(lines.splitlines())} calls; of {ways} ways on from a test {ways - len(left)} are gone" + \
        (f", not all of {', '.join(dict.fromkeys(left))}\n" if left else "\n")


def main():
    root, *words = sys.argv[1:]
    try:
        if words == ["--faults"]:
            text = list_faults(root)
        elif words[:1] == ["--functions"]:
            text = functions(root, *words[1:])
        elif words[:1] == ["--operations"]:
            text = operations(*words[1:])
        elif words:
            text = with_fault(root, *words[1:])
        else:
            text = written(root)
    except Unknown as why:
        sys.exit(f"tools/c99: this is not known, and no file is written: {why}")
    except OSError as why:
        sys.exit(f"tools/c99: {why.filename}: {why.strerror}")
    sys.stdout.write(text)


main()
