"""Writes one function: what is declared where, and each statement and value by its form."""

import copy
import re

from forms import COUNTS, Text, UNARY, WIDTH, indented
from shape import Shaper, ends, locals_in, negated
from source import HIDDEN, INDEX
from stepping import Stepping
from tree import (Address, Array, BOOL, Break, Call, Cases, Cast, Continue, Do, Field, For, Held, If, Int, Is, Len, Load, Loop, Make, Named,
                  Num, Offset, Op1, Op2, Part, Ref, Repeat, Return, Set, SetField, Slice, Start, Store, Tag, Truth, UNIT, Unknown, Unless, Var,
                  While, bodies, everything, spelled, values)

# Names that a C or a C++ compiler keeps for itself.
KEPT = set("""alignas alignof and and_eq asm auto bitand bitor bool break case catch char class compl concept const consteval constexpr
constinit const_cast continue co_await co_return co_yield decltype default delete do double dynamic_cast else enum explicit export
extern false float for friend goto if inline int long mutable namespace new noexcept not not_eq nullptr operator or or_eq private
protected public register reinterpret_cast requires restrict return short signed sizeof static static_assert static_cast struct switch
template this thread_local throw true try typedef typeid typename typeof union unsigned using virtual void volatile wchar_t while xor
xor_eq each APART""".split())

LINE = 132  # columns


def c_type(ty, names):
    if isinstance(ty, Int):
        return WIDTH[ty.bits]
    if ty == BOOL:
        return "int"
    if ty == UNIT:
        return "void"
    if isinstance(ty, Named):
        return names.type(ty.name)
    if isinstance(ty, Ref):
        return pointer_type(ty.mutable, ty.to, names)
    raise Unknown(f"a local of type {spelled(ty)} that is kept")


def pointer_type(mutable, ty, names):
    """Bytes in memory are `unsigned char`, as in the headers."""
    name = "unsigned char" if ty == Int(8) else c_type(ty, names)
    return f"{'' if mutable else 'const '}{name} *"


def declared(ty, name, names):
    """A parameter, a member or a local of a type; of a slice there are two."""
    if isinstance(ty, Slice):
        return [f"{pointer_type(ty.mutable, ty.of, names)}{name}", f"size_t {name}_len"]
    if isinstance(ty, Ref) and isinstance(ty.to, Array):
        return [f"{pointer_type(ty.mutable, ty.to.of, names).rstrip('*')}{name}[{ty.to.length}]"]
    if isinstance(ty, Ref):
        return [f"{pointer_type(ty.mutable, ty.to, names)}{name}"]
    return [f"{c_type(ty, names)} {name}"]


def parts_of(held):
    """How many parts of its own what a variant holds has: 1 where the union's member is that itself."""
    return len(held) + any(isinstance(ty, Slice) for ty in held)


def bytes_of(ty):
    if not isinstance(ty, Int):
        raise Unknown(f"a pointer to {spelled(ty)} that is counted on from")
    return ty.bits // 8


def element_of(ty):
    return ty.of if isinstance(ty, Array) else ty


def broken(head, parts, tail):
    """A list of parts with commas, as many to a line as it has room for."""
    lines = [head]
    for number, part in enumerate(parts):
        last = number + 1 == len(parts)
        text = part + (tail if last else ",")
        if len(lines[-1]) + len(text) + 1 > LINE and lines[-1].strip():
            lines[-1] = lines[-1].rstrip()
            lines.append(" " * min(len(head), 8))
        lines[-1] += text + ("" if last else " ")
    return lines


def words_of(given):
    """What stands in the brackets of a name, as words of a C name."""
    return re.findall(r"\w+", re.sub(r"\w+::", "", given.replace("()", "void").replace("&", "ref ")))


def plain(name):
    """A number's type in the name of an impl, `U32`, as it is else written."""
    return name.lower() if re.fullmatch(r"U\d+|Usize|Bool", name) else name


class Names:
    """The C names of functions and types: the crate's, then the item's own, which of a method has its type before it, and then what it is given,
    as `lists_Small_next`, `runs_fits_8`. Where an exported call has that name already, the file stands between them, which is `lib` for
    `lib.rt`. A type of the kit's own library has no crate before it: `Option_u32`."""

    def __init__(self, exported, reached, owners):
        self.taken, self.owners = dict(exported), owners
        self.functions = {path: name for name, path in exported.items()}
        for path in reached:
            if path not in self.functions:
                self.functions[path] = self.enter(path)
        self.types = {}

    def enter(self, path):
        base, _, given = path.partition("<")
        parts = base.split("::")
        own = [*self.own(parts), *words_of(given)]
        short = "_".join([parts[0], *own])
        if short in self.taken:
            short = "_".join([parts[0], *(parts[1:-1] or ["lib"]), *own])
        return self.take(short, path)

    def own(self, parts):
        """A function's name with the type before it that it is a method of. A conversion has behind it what it is from."""
        if len(parts) < 3 or parts[0] != "core" and not parts[-2][0].isupper():
            return parts[-1:]
        if "+" in parts[-2]:
            return [parts[-2].split("+")[0], parts[-1]]
        owner = self.owners.get("::".join(parts[:-1]), re.sub("Partial(Eq|Ord)$", "", parts[-2]))
        source = [parts[-2][len(owner) + 4:]] if parts[-2].startswith(f"{owner}From") else []
        return [plain(owner), parts[-1], *map(plain, source)]

    def take(self, name, path):
        if name in self.taken:
            raise Unknown(f"{path} and {self.taken[name]} would have one name")
        self.taken[name] = path
        return name

    def type(self, path):
        if path not in self.types:
            base, _, given = path.partition("<")
            library = base.startswith("core::") or base.startswith("(")
            self.types[path] = self.take("_".join(words_of(path.replace("(,", "tuple"))), path) if library else self.enter(path)
        return self.types[path]

    @staticmethod
    def tag(type_name, variant):
        return f"{type_name}_{re.sub(r'(?<=[a-z])(?=[A-Z])', '_', variant)}".upper()


class Writer:
    """One function."""

    def __init__(self, file, path):
        self.file, self.path = file, path
        self.fn, self.source = copy.deepcopy(file.program.fn(path)), file.source(path)  # it is shaped in place
        self.locals = {}

    def form(self, name, *args):
        return self.file.form(name, *args)

    # ---- names

    def read_names(self):
        """The locals that the source names: first the parameters, then what it binds, in order. A loop has locals before its own names: over
        a list one for that, where it is lent on, and one that counts; over what an iterator gives two for the iterator, and one for what
        it gave."""
        params, types, local = self.source.params, self.fn.types, self.fn.params + 1
        if len(params) != self.fn.params:
            raise Unknown("the source has another number of parameters")
        named = dict(enumerate(params, start=1))
        for name in self.source.names:
            if name == INDEX:
                local += 2 if local + 1 in self.fn.slots else isinstance(types[local], Slice)
            elif name != HIDDEN:
                named[local] = name
            local += 1
        if local > len(types):
            raise Unknown("the source binds more names than there are locals")
        return named

    def name_locals(self):
        """A name that the source uses in two places of one function is used twice here, where neither place is inside the other."""
        taken, counting = [], {s.first.local for s in everything(self.body) if isinstance(s, For)}
        for local in [*range(1, self.fn.params + 1), *self.scopes]:
            plain, scope = self.named.get(local, "result" if local == 0 else "i" if local in counting else "value"), self.scopes.get(local, ())
            name, count = f"{plain}_" if plain in KEPT else plain, 2
            while any(name == other and (scope[:len(around)] == around or around[:len(scope)] == scope) for other, around in taken):
                name, count = f"{plain}{count}", count + 1
            taken.append((name, scope))
            self.locals[local] = name

    def name(self, local):
        return self.locals[local]

    # ---- the function

    def shaped(self):
        self.named = self.read_names()
        shaper = Shaper(self.file.program, self.fn, set(self.named), self.source.plain,
                        {local for local, name in self.named.items() if name in self.source.counters})
        return shaper.shape(), shaper.pointers

    def step(self, path):
        """A step of an iterator, to be written into a loop."""
        own = Writer(self.file, path)
        body, pointers = own.shaped()
        if pointers:
            raise Unknown("a step that keeps a pointer")
        return own.fn.types, own.named, body

    def stepped(self):
        body, pointers = self.shaped()
        Stepping(self.fn, self.named, self.step).write(body)
        return body, pointers

    def write(self):
        self.body, self.pointers = self.stepped()
        for local, (slice_, base) in self.pointers.items():
            self.named[local] = f"{self.named[slice_]}_{self.named[base]}"
        self.declare()
        self.name_locals()
        lines = self.list(self.body)
        head = self.signature()
        comment = [f"// {self.file.ascii(line)}".rstrip() for line in self.source.comment]
        return comment + head + ["{"] + indented(self.unused(lines) + lines) + ["}"]

    def unused(self, lines):
        """Compilers warn of a parameter that is not used, as a slice's start is where only its length is asked for."""
        text = "\n".join(lines)
        names = [n for local in range(1, self.fn.params + 1) for n in self.parameter(local)]
        return [f"(void){name};" for name in names if not re.search(rf"\b{name}\b", text)]

    def parameter(self, local):
        name = self.locals[local]
        return [name, f"{name}_len"] if isinstance(self.fn.types[local], Slice) else [name]

    def signature(self):
        params = [part for local in range(1, self.fn.params + 1)
                  for part in declared(self.fn.types[local], self.locals[local], self.file.names) if self.fn.types[local] != UNIT]
        own = "" if self.source.exported else "static APART " if self.path in self.file.apart else "static inline "
        head = f"{own}{c_type(self.fn.types[0], self.file.names)} {self.file.names.functions[self.path]}("
        return broken(head, params or ["void"], ")")

    # ---- where a local is declared: where it is first set, if every use is further down that list or inside

    def declare(self):
        """For each local the lists around the one that it is declared in, and for each statement, by its identity, the locals that are
        declared there."""
        self.places, self.scopes = {}, {}
        for local in range(len(self.fn.types)):
            if 1 <= local <= self.fn.params:
                continue
            found = self.innermost(self.body, local, ())
            if found:
                statement, self.scopes[local] = found
                self.places.setdefault(id(statement), []).append(local)

    def innermost(self, body, local, around):
        mentioning = [s for s in body if self.mentions(s, local)]
        if not mentioning:
            return None
        first, around = mentioning[0], (*around, id(body))
        own = isinstance(first, Set) and first.local == local or any(local in locals_in(v) for v in values(first))
        holding = [part for part in bodies(first) if any(self.mentions(s, local) for s in part)]
        if len(mentioning) == 1 and not own and len(holding) == 1:
            return self.innermost(holding[0], local, around)
        return first, around

    def mentions(self, statement, local):
        return any(local in locals_in(v) for v in values(statement)) or isinstance(statement, Set) and statement.local == local \
            and self.is_read(local) or any(self.mentions(s, local) for part in bodies(statement) for s in part)

    def is_read(self, local):
        return any(local in locals_in(v) for s in everything(self.body) for v in values(s)) or isinstance(self.fn.types[local], Array)

    # ---- statements

    def list(self, body):
        lines = []
        for at, statement in enumerate(body):
            # what follows a branch that leaves needs no else
            if isinstance(statement, If) and statement.other and ends(statement.then):
                lines += self.declarations(statement) + self.if_else(statement.test, statement.then, [])
                lines += self.list(statement.other)
                if at + 1 != len(body) and ends(statement.other):
                    raise Unknown("statements that are never reached")
            else:
                lines += self.statement(statement)
        return lines

    def declarations(self, statement):
        lines = []
        for local in self.places.get(id(statement), []):
            if not self.declares_itself(statement, local):
                lines += [f"{part};" for part in self.declared(local)]
        return lines

    def declared(self, local):
        return declared(self.fn.types[local], self.name(local), self.file.names)

    def declares_itself(self, statement, local):
        return isinstance(statement, Set) and statement.local == local or isinstance(statement, For) and statement.first.local == local

    def statement(self, statement):
        lines = self.declarations(statement)
        if isinstance(statement, Set):
            return lines + self.set(statement)
        if isinstance(statement, SetField):
            return lines + self.form("set a field", self.value(statement.to), self.value(statement.value))
        if isinstance(statement, Store):
            return lines + self.form("store", self.value(statement.to), self.value(statement.value))
        if isinstance(statement, Do):
            return lines + self.form("do", self.value(statement.call))
        if isinstance(statement, If):
            return lines + self.if_else(statement.test, statement.then, statement.other)
        if isinstance(statement, Cases):
            return lines + self.cases(statement)
        if isinstance(statement, Unless):
            return lines + self.unless(statement)
        if isinstance(statement, While):
            return lines + self.form("while", self.value(statement.test), self.list(statement.body))
        if isinstance(statement, For):
            return lines + self.for_loop(statement)
        if isinstance(statement, Loop):
            return lines + self.form("loop", self.list(statement.body))
        if isinstance(statement, Break):
            return lines + self.form("break")
        if isinstance(statement, Continue):
            return lines + self.form("continue")
        if isinstance(statement, Return):
            return lines + (self.form("return") if statement.value is None else self.return_value(statement.value))
        raise Unknown(f"a statement {type(statement).__name__}")

    def return_value(self, value):
        return self.form("return a value", self.value(value), c_type(value.ty, self.file.names))

    def if_else(self, test, then, other):
        if not then:
            test, then, other = negated(test), other, []
        if not then:
            raise Unknown("an if that has nothing to do")
        return self.form("if", self.value(test), self.list(then), self.list(other))

    def for_loop(self, statement):
        local, step = statement.first.local, statement.step.value
        if not isinstance(step, Op2) or (step.op, step.left) != ("Add", Var(self.fn.types[local], local)):
            raise Unknown("a loop that counts in another way than by a sum")
        name, start = self.name(local), self.value(statement.first.value)
        head = self.declared(local)[0] if local in self.places.get(id(statement), []) else name
        return self.form("for", f"{head} = {start}", self.value(statement.test), self.form("step", name, self.value(step.right)),
                         self.list(statement.body))

    def tags(self, of):
        """What is tested, and all that it may be: an enum's tag, or a number."""
        if isinstance(of.ty, Int):
            return self.value(of), None
        type_name, variants = self.file.use_type(of.ty.name), self.file.members(of.ty.name)
        return self.form("tag", self.value(of)), [self.file.names.tag(type_name, v) for v in variants]

    def unless(self, statement):
        tag, tags = self.tags(statement.of)
        return self.form("switch, leaving", tag, tags[statement.variant], self.list(statement.other))

    def cases(self, statement):
        tag, tags = self.tags(statement.of)
        keys = [[tags[k] if tags else self.number(Num(statement.of.ty, k)) for k in arm] for arm in statement.keys]
        return self.form("switch", tag, keys, [self.list(arm) for arm in statement.arms])

    def set(self, statement):
        local, ty = statement.local, self.fn.types[statement.local]
        if ty == UNIT:
            return []
        if isinstance(ty, Array) and isinstance(statement.value, Repeat):
            filled = self.form("fill an array", self.name(local), ty.length, self.value(statement.value.value))
            if local not in self.places.get(id(statement), []):
                raise Unknown("an array that is filled twice")
            return [f"{WIDTH[ty.of.bits]} {self.name(local)}[{ty.length}];"] + filled
        if isinstance(ty, Slice):
            return self.set_slice(statement)
        value = self.pointer(statement.value) if isinstance(ty, Ref) else self.value(statement.value)
        if not self.is_read(local):
            if not isinstance(statement.value, Call):
                raise Unknown("a value that is not used")
            return self.form("do", Text.of(f"(void){value}", UNARY))
        if local in self.places.get(id(statement), []):
            return self.form("declare a local", c_type(ty, self.file.names), self.name(local), value)
        return self.form("set a local", self.name(local), value)

    def set_slice(self, statement):
        """A slice that is a local is two: where it starts, and its length."""
        local, lines = statement.local, []
        ty, new = self.fn.types[local], local in self.places.get(id(statement), [])
        for own, name, value in zip((Ref(ty.mutable, ty.of), None), (self.name(local), f"{self.name(local)}_len"), self.slice(statement.value)):
            c = c_type(own, self.file.names) if own else "size_t"
            lines += self.form("declare a local", c, name, value) if new else self.form("set a local", name, value)
        return lines

    # ---- values

    def value(self, value):
        if isinstance(value, Var):
            return Text.of(self.name(value.local), 15)
        if isinstance(value, Num):
            return self.number(value)
        if isinstance(value, Truth):
            return self.form("true" if value.value else "false")
        if isinstance(value, Tag):
            return self.tags(value.of)[0]
        if isinstance(value, Is):
            tag, tags = self.tags(value.of)
            return self.form("is of a variant", tag, tags[value.variant])
        if isinstance(value, Field):
            self.file.use_type(value.of.ty.name)
            return self.form("field of a struct", self.value(value.of), self.file.members(value.of.ty.name), value.number)
        if isinstance(value, Held):
            path = value.of.ty.name
            self.file.use_type(path)
            held = self.file.program.variants(path)[value.variant]
            return self.form("field of a variant", self.value(value.of), self.file.members(path)[value.variant], value.number, parts_of(held))
        if isinstance(value, Len):
            return self.form("length of a slice", self.place(value.of))
        if isinstance(value, Load):
            return self.load(value)
        if isinstance(value, Op1):
            if value.op in COUNTS:
                self.file.used_counts.add(value.op)
                return self.form(value.op, self.value(value.value))
            if value.ty == BOOL:
                return self.form("Not of a truth", self.value(value.value))
            return self.form("Not", value.ty.bits, self.value(value.value))
        if isinstance(value, Op2):
            return self.op2(value)
        if isinstance(value, Cast):
            return self.form(f"Cast {value.cast[0]} {value.cast[1]}", value.cast[2], self.value(value.value))
        if isinstance(value, Call):
            return self.call(value)
        if isinstance(value, Make):
            return self.make(value)
        if isinstance(value.ty, Ref):
            return self.pointer(value)
        raise Unknown(f"a value {type(value).__name__} of type {value.ty} by itself")

    def place(self, value):
        """A slice's name, which a local has or a field."""
        if isinstance(value, Var):
            return Text.of(self.name(value.local), 15)
        if isinstance(value, (Field, Held)):
            return self.value(value)
        raise Unknown("a slice that is no local and no field")

    def number(self, value):
        constant = self.file.constant(self.source, value.value)
        return Text.of(constant, 15) if constant else self.form("number", value.ty.bits, value.value)

    def op2(self, value):
        if value.op in ("Both", "Either"):
            return self.form(value.op, self.value(value.left), self.value(value.right))
        bits = 32 if value.left.ty == BOOL else value.left.ty.bits
        shifted = self.by_power(value)
        if shifted:
            return shifted
        left, right = self.value(value.left), self.value(value.right)
        # C computes in the width of the operands, and shifts in that of the left one: it must be the form's
        if value.op in ("Add", "Sub", "Mul"):
            left, right = self.wide(value.left, left), self.wide(value.right, right)
        if isinstance(value.left, Num) and (isinstance(value.right, Num) or value.op in ("Shl", "Shr")):
            left = Text.of(f"({WIDTH[bits]}){left.at(UNARY)}", UNARY)
        return self.form(f"{value.op} {value.sign}" if value.sign else value.op, bits, left, right)

    def by_power(self, value):
        """A product or a quotient by 2^k is a shift: compilers make one word of bytes that are shifted, not of bytes that are
        multiplied."""
        number, other = value.right, value.left
        if value.op == "Mul" and isinstance(value.left, Num):
            number, other = value.left, value.right
        if value.op not in ("Mul", "Div") or not isinstance(number, Num) or isinstance(other, Num) or number.value.bit_count() != 1:
            return None
        return self.form(f"{value.op} Unsigned, by 2^k", self.wide(other, self.value(other)), number.value.bit_length() - 1)

    @staticmethod
    def wide(value, text):
        """A length is a `size_t` in C, which may have fewer than 64 bits."""
        return Text.of(f"(uint64_t){text.at(UNARY)}", UNARY) if isinstance(value, Len) else text

    def make(self, value):
        path = value.ty.name
        fields = [part for f in value.fields for part in (self.slice(f) if isinstance(f.ty, Slice) else [str(self.value(f))])]
        type_name = self.file.use_type(path)
        self.file.use_maker(path, value.variant)
        if value.variant is None:
            return self.form("struct", type_name, fields)
        return self.form("variant of an enum", type_name, self.file.members(path), value.variant, fields)

    def call(self, value):
        args, types = [], []
        for arg in value.args:
            if isinstance(arg.ty, Slice):
                args, types = args + self.slice(arg), types + [None, None]
            elif isinstance(arg.ty, Ref):
                args, types = args + [str(self.pointer(arg))], types + [None]
            else:
                args, types = args + [str(self.value(arg))], types + [c_type(arg.ty, self.file.names)]
        return self.form("call", self.file.names.functions[value.name], args, types)

    # ---- pointers

    def load(self, value):
        if isinstance(value.pointer, Var) and isinstance(value.pointer.ty, Ref) and value.pointer.local not in self.pointers:
            return self.form("what a pointer leads to", self.pointer(value.pointer))
        pointer, index = self.indexed(value.pointer)
        return self.form("element", pointer, index)

    def indexed(self, pointer):
        """A pointer as where it starts and an index from there."""
        if not isinstance(pointer, Offset):
            return self.pointer(pointer), self.form("number", 64, 0)
        return self.pointer(pointer.pointer), self.index(pointer.bytes, self.size(pointer.pointer))

    def index(self, count, size):
        """A count of bytes as one of elements: it must be visibly so many times the element's size."""
        if size == 1:
            return self.value(count)
        if isinstance(count, Num) and count.value % size == 0:
            return self.form("number", 64, count.value // size)
        if isinstance(count, Op2) and (count.op, count.sign) == ("Mul", "Unsigned") and count.right == Num(Int(64), size):
            return self.value(count.left)
        raise Unknown(f"an offset that is no index of elements of {size} bytes")

    def size(self, pointer):
        """The bytes of what a pointer leads to."""
        if isinstance(pointer, Offset):
            return self.size(pointer.pointer)
        if isinstance(pointer, Start):
            return bytes_of(pointer.of.ty.of)
        if isinstance(pointer.ty, Ref):
            return bytes_of(element_of(pointer.ty.to))
        raise Unknown("a pointer of unknown origin")

    def pointer(self, pointer):
        if isinstance(pointer, Start):
            return self.place(pointer.of)
        if isinstance(pointer, Var) and isinstance(pointer.ty, Ref) and pointer.local in self.locals:
            return Text.of(self.name(pointer.local), 15)
        if isinstance(pointer, Address):
            return self.form("address", self.value(pointer.of))
        if isinstance(pointer, Offset):
            start, index = self.indexed(pointer)
            return self.form("part of a slice", start, index)
        if isinstance(pointer, (Field, Held, Load, Call)) and isinstance(pointer.ty, Ref):
            return self.value(pointer)
        raise Unknown("a pointer that is kept in a local")

    def slice(self, value):
        """A slice is two arguments."""
        if not isinstance(value, Part):
            place = self.place(value)
            return [str(place), str(self.form("length of a slice", place))]
        length = value.length
        if isinstance(length, (Num, Len)):
            return [str(self.pointer(value.pointer)), str(self.value(length))]
        return [str(self.pointer(value.pointer)), str(self.form("length of a part", self.value(length)))]
