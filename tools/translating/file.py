"""The whole C file: what is reached from the exported calls, its types and constants, in the order of the crates."""

import os
import re

from forms import COUNTS, write
from source import Function, Sources, Type
from tree import Call, Named, Slice, Unknown, everything, inside, values
from writing import KEPT, Names, Writer, broken, declared, parts_of

HEADING = '''\
/* The pool and the piston bank for any processor: C99 for a compiler that has <stddef.h> and <stdint.h>, and no library.

   Made by tools/c99 from the checked MIR of the proved crates, with a function for each of theirs: do not edit it, edit the crates. What is
   proved is that program. That this file does the same is tested, not proved: docs/BOARD.md says how, and how to use the file.

   Names say where a function comes from: bins_enter is `enter` of the crate bins; runs_scan_Small is its `scan` for the type `Small`, and
   Option_u32 a u32 that may be absent. A slice of Rattle's is a pointer and a length, NAME and
   NAME_len; its usize is uint64_t, since the proofs are about 64 bits, whatever size_t is here. Every number is unsigned: a signed
   distance is its two's complement. A truth is 0 or 1. Bytes of the pool are read and written one by one, so neither its alignment nor
   the machine's byte order matters.

   With POOL_ALONE defined the piston bank is left out, and bank.h is not needed. */
'''


# gcc takes a value that has set one member of a union, and not the widest, for one that was not set (seen with 12.2 at -Os)
QUIET = ["// One member of a union is set, and maybe not the widest: gcc warns of that as of a value that was not set.",
         "#if defined(__GNUC__) && !defined(__clang__)", "#pragma GCC diagnostic push",
         '#pragma GCC diagnostic ignored "-Wmaybe-uninitialized"', "#endif", ""]
LOUD = ["#if defined(__GNUC__) && !defined(__clang__)", "#pragma GCC diagnostic pop", "#endif", ""]


# What is called after an inspection and has many locals of its own, by its path. Written into its caller, they would be on the stack while
# that inspects: of a take 0.3 KiB more than an inspection needs, on a Cortex-M (c/cross --sizes).
APART = {"grant::take", "walk::tallies::tally"}
APART_LINES = ["// Not to be written into its caller, whose call before it needs the most stack.", "#if defined(__GNUC__)",
               "#define APART __attribute__((noinline))", "#else", "#define APART", "#endif", ""]


LIBRARY = {"core::option::Option": Type(["A value that may be absent."], ["None", "Some"]),
           "core::result::Result": Type(["A value, or why there is none."], ["Ok", "Err"])}


def both(ty, name):
    """The C members of a field: of a slice its start and its length."""
    return [name, f"{name}_len"] if isinstance(ty, Slice) else [name]


class File:
    apart = APART

    def __init__(self, root, crates, program, fault=None):
        self.root, self.crates, self.program, self.sources = root, crates, program, Sources(root, crates.names, "board_c")
        self.fault = fault
        program.sourceless = lambda name: name not in self.sources.functions
        self.used_types, self.makers, self.used_constants, self.used_counts, self.homes, self.called = [], {}, {}, set(), {}, {}
        self.headers = self.read_headers()

    # ---- what is there

    def read_headers(self):
        """The numbers that the headers name."""
        found = {}
        for header in ("pool.h", "bank.h"):
            with open(os.path.join(self.root, "include", header)) as text:
                found.update({name: int(value) for name, value in re.findall(r"\b([A-Z_]+) = (\d+)", text.read())})
        return found

    def source(self, path):
        """The source of a function; where none has it, it is of the kit's library, or a derive made it."""
        base = path.partition("<")[0]
        if base in self.sources.functions:
            return self.sources.functions[base]
        return Function([f"`{path}` of the kit's own library." if base.startswith("core::") else "Derived."],
                        list("abcdef")[:self.program.raw[base]["params"]], "", False, True)

    def ascii(self, line):
        line = line.replace("×", "x")
        if not line.isascii():
            raise Unknown(f"a comment with a letter that is not ASCII: {line}")
        return line

    def form(self, name, *args):
        return write(self.fault, name, args)

    # ---- what is used

    def use_type(self, path):
        if path not in self.used_types:
            inner = self.program.fields(path) or [t for v in self.program.variants(path) or [] for t in v]
            for ty in inner:
                if isinstance(ty, Named):
                    self.use_type(ty.name)
            self.used_types.append(path)
        return self.names.type(path)

    def use_maker(self, path, variant):
        self.makers.setdefault(path, set()).add(variant)

    def declaration(self, path):
        """The source of a type, or what it would be for one of the kit's library."""
        base = path.partition("<")[0]
        if base.startswith("("):
            return Type(["A tuple."], [f"f{at}" for at in range(base.count(",") + 1)])
        if base.startswith("core::") and base not in LIBRARY:
            return Type([f"`{path}` of the kit's own library."], [f"f{at}" for at in range(len(self.program.all_fields(path, None)))])
        return LIBRARY.get(base) or self.sources.types[base]

    def members(self, path):
        members = self.declaration(path).members
        count = len(self.program.fields(path) or self.program.variants(path))
        if len(members) != count:
            raise Unknown(f"the source of {path} has {len(members)} members, and MIR {count}")
        return [f"{m}_" if m in KEPT else m for m in members]

    def constant(self, source, value):
        """A constant's name for a number: one that the function's source mentions, if that writes the number in no other way."""
        if value in source.numbers:
            return None
        paths = {path for path, v in self.sources.constants.items() if v == value and path.split("::")[-1] in source.words}
        if len(paths) != 1:
            return None
        path = paths.pop()
        owner = self.sources.owners.get(path.rpartition("::")[0])
        name = "_".join([path.split("::")[0], *([owner] if owner else []), path.split("::")[-1]]).upper()
        if self.headers.get(name) == value:
            return name
        if name in self.headers or self.used_constants.setdefault(name, value) != value:
            raise Unknown(f"two numbers are called {name}")
        return name

    # ---- what is reached

    def callees(self, path):
        """What a function calls as it is written: a step that is written into its loops is called no more."""
        if path not in self.called:
            body, _ = Writer(self, path).stepped()
            self.called[path] = [v.name for s in everything(body) for value in values(s) for v in inside(value) if isinstance(v, Call)]
        return self.called[path]

    def reach(self, paths):
        """All that is called from there, callees before callers. A circle of calls has no such order."""
        order, state = [], {}

        def visit(path):
            if state.get(path) == "open":
                raise Unknown(f"{path} calls itself")
            if path in state:
                return
            state[path] = "open"
            for callee in self.callees(path):
                visit(callee)
            state[path] = "done"
            order.append(path)

        for path in paths:
            visit(path)
        return order

    # ---- the text

    def write(self):
        exported = {path.split("::")[-1]: path for path in self.program.raw
                    if path.startswith("board::") and self.source(path).exported}
        if not exported:
            raise Unknown("the crate board_c exports no call")
        pool = self.reach([p for n, p in exported.items() if n.startswith("pool_")])
        every = self.reach(exported.values())
        if not APART <= set(every):
            raise Unknown("a function that is to stand apart is not there")
        self.names = Names(exported, every, self.sources.owners)
        first = self.part([p for p in every if p in pool])
        common = self.take_used()
        second = self.part([p for p in every if p not in pool])
        extra = self.take_used()
        return "\n".join([
            HEADING,
            "#ifdef POOL_ALONE", '#include "pool.h"', "#else", '#include "bank.h"', "#endif",
            "#include <stddef.h>", "#include <stdint.h>", "", *APART_LINES,
            *self.declared(common), *first,
            "#ifndef POOL_ALONE", "",
            "// ---- What only the piston bank needs", "",
            *self.declared(extra), *second,
            "#endif", ""])

    def home(self, path):
        """The crate by which a function stands: its own, or a higher one that a function is from which it calls."""
        order = ["core", *self.crates.names]
        if path not in self.homes:
            if path.split("::")[0] not in order:
                raise Unknown("a function of a crate that crates.txt has not")
            self.homes[path] = max([path.split("::")[0], *map(self.home, self.callees(path))], key=order.index)
        return self.homes[path]

    def part(self, paths):
        """The functions by crates, from the bottom up."""
        lines = []
        for crate in ["core", *self.crates.names]:
            own = [p for p in paths if self.home(p) == crate]
            if own:
                lines += [f"// ---- {crate}: {self.ascii(self.crates.about.get(crate, 'the kit that the crates are written with'))}", ""]
            for path in own:
                try:
                    lines += Writer(self, path).write() + [""]
                except Unknown as why:
                    raise Unknown(f"{path}: {why}")
        return lines

    def take_used(self):
        """What the functions written last use and those before did not."""
        done = getattr(self, "done", (set(), {}, set(), set()))
        types = [t for t in self.used_types if t not in done[0]]
        makers = {p: v - done[1].get(p, set()) for p, v in self.makers.items()}
        constants = {n: v for n, v in self.used_constants.items() if n not in done[2]}
        counts = [op for op in COUNTS if op in self.used_counts and op not in done[3]]
        self.done = (set(self.used_types), {p: set(v) for p, v in self.makers.items()}, set(self.used_constants), set(self.used_counts))
        return types, makers, constants, counts

    def declared(self, used):
        types, makers, constants, counts = used
        lines = [f"#define {name} {value}u" for name, value in sorted(constants.items(), key=self.place)] + [""] if constants else []
        for path in types:
            lines += self.type(path) + [""]
        made, unions = [], False
        for path in self.used_types:
            for variant in sorted(makers.get(path, set()), key=lambda v: -1 if v is None else v):
                made += self.maker(path, variant) + [""]
                unions = unions or variant is not None
        lines += QUIET + made + LOUD if unions else made
        for op in counts:
            lines += self.form(f"{op}, its function").split("\n") + [""]
        return lines

    def place(self, constant):
        """Constants stand in the order of the crates, and there by their numbers."""
        name, value = constant
        return self.crates.names.index(name.split("_")[0].lower()), value, name

    def type(self, path):
        name, members = self.names.type(path), self.members(path)
        lines = [f"// {self.ascii(line)}" for line in self.declaration(path).comment]
        fields = self.program.fields(path)
        if fields is not None:
            parts = [part for t, m in zip(fields, members) for part in declared(t, m, self.names)]
            return lines + ["typedef struct {"] + [f"    {part};" for part in parts] + [f"}} {name};"]
        variants = self.program.variants(path)
        lines += broken("enum { ", [self.names.tag(name, m) for m in members], " };") + ["typedef struct {", "    uint8_t tag;"]
        holding = [(m, v) for m, v in zip(members, variants) if v]
        if holding:
            lines.append("    union {")
            for member, held in holding:
                if parts_of(held) == 1:
                    lines.append(f"        {declared(held[0], member, self.names)[0]};")
                else:
                    parts = " ".join(f"{part};" for i, t in enumerate(held) for part in declared(t, f"f{i}", self.names))
                    lines.append(f"        struct {{ {parts} }} {member};")
            lines.append("    } as;")
        return lines + [f"}} {name};"]

    def maker(self, path, variant):
        """A function that makes a struct or a variant of its fields."""
        name, members = self.names.type(path), self.members(path)
        if variant is None:
            fields = self.program.fields(path)
            params = [part for t, m in zip(fields, members) for part in declared(t, m, self.names)]
            return broken(f"static inline {name} {name}_of(", params or ["void"], ")") + ["{", f"    {name} made;"] + \
                [f"    made.{m} = {m};" for t, member in zip(fields, members) for m in both(t, member)] + ["    return made;", "}"]
        held, member = self.program.variants(path)[variant], members[variant]
        params = ", ".join(part for i, t in enumerate(held) for part in declared(t, f"f{i}", self.names)) or "void"
        lines = [f"static inline {name} {name}_{member}({params})", "{", f"    {name} made;",
                 f"    made.tag = {self.names.tag(name, member)};"]
        lines += [f"    made.as.{member}{'' if parts_of(held) == 1 else f'.{part}'} = {part};"
                  for i, t in enumerate(held) for part in both(t, f"f{i}")]
        return lines + ["    return made;", "}"]
