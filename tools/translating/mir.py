"""Reads the MIR that the kit leaves of every proved library, `toolchain/mir.json` of its rlib, into the trees of tree.py. tools/c99 has put
it into `target/mir/NAME.json`.

A form that is not named here stops the translation: nothing is guessed. What each form means is what the kit's logic says of it
(its file Mir/Syntax.antt); in short:

- A body is a list of words in Polish order: `Seq` is followed by two bodies, `If` by two, `Switch` by one for each arm.
- `Exit k` leaves blocks and loops from the inside: at 0 a block is left and a loop takes its next turn, above 0 it goes on outwards
  with one less. So in `Block Loop` 0 is C's continue, and 1 is its break.
- Integers are bits, and signs stand at the operations. A slice is a struct of a pointer and a length, and an enum a tag, then fields.
- `Offset` counts bytes, whatever is pointed to.
- `Method` is a call of a trait's method by its number, in an impl that is named or given. `NumOf` and `SizeOf` are numbers that a parameter
  says. `Unreachable` is where no run comes, which is proved.
"""

import json
from dataclasses import dataclass

from forms import COUNTS
from tree import (Address, Array, BOOL, Block, Break, Call, Cases, Cast, Continue, Do, Field, Fn, Held, If, Int, Leave, Len, Load, Loop, Make,
                  Named, Never, Num, Offset, Op1, Op2, PTR, Part, Ref, Repeat, Return, Set, SetField, Slice, Start, Store, Tag, Truth, UNIT, Unknown,
                  Var, inside, root, spelled)

OPS1 = {"Not", *COUNTS}
OPS2 = {"Eq", "Ne", "And", "Or", "Shl", "WrapAdd", "WrapSub"}
SIGNED_OPS2 = {("Add", "Unsigned"), ("Sub", "Unsigned"), ("Add", "Signed"), ("Sub", "Signed"), ("Mul", "Unsigned"), ("Div", "Unsigned"),
               ("Rem", "Unsigned"), ("Shr", "Unsigned"), ("Lt", "Unsigned"), ("Lt", "Signed"), ("Le", "Unsigned")}
CASTS = {("Unsigned", "Unsigned", 8), ("Unsigned", "Unsigned", 32), ("Unsigned", "Unsigned", 64), ("Unsigned", "Signed", 32),
         ("Signed", "Unsigned", 32)}
COMPARE = {"Eq", "Ne", "Lt", "Le"}


def only(form, *names):
    """The one key of a form and what stands under it."""
    if isinstance(form, str):
        key, under = form, None
    elif isinstance(form, dict) and len(form) == 1:
        (key, under), = form.items()
    else:
        raise Unknown(f"a form that is no word and has not one key: {json.dumps(form)[:200]}")
    if key not in names:
        raise Unknown(f"'{key}' in {json.dumps(form)[:200]}")
    return key, under


@dataclass(frozen=True)
class Given:
    """What a function, a type or an impl is given: types or numbers for its parameters, and an impl for each trait that it asks of them."""
    types: tuple = ()
    impls: tuple = ()


@dataclass(frozen=True)
class Impl:
    name: str
    given: Given


class Reader:
    """One function's body, where it is given types and impls."""

    def __init__(self, program, name, raw, given):
        self.program, self.name, self.raw, self.around, self.at = program, name, raw, given, 0
        self.types, self.slots, self.none_last, self.left = [], set(), set(), set()
        for number, local in enumerate(raw["locals"]):
            ty = self.type(local["ty"])
            home, _ = only(local["home"], "ValueLocal", "MemorySlot")
            if isinstance(ty, Array) and home != "MemorySlot" or home == "MemorySlot" and not isinstance(ty, (Array, Named, Int)) and ty != BOOL:
                raise Unknown(f"a local of another home than its type asks for: {json.dumps(local)}")
            if home == "MemorySlot":
                self.slots.add(number)
            if program.is_none_last(local["ty"]):
                self.none_last.add(number)
            self.types.append(ty)

    def type(self, form):
        return self.program.type(form, self.around)

    def fn(self):
        body = self.body([])
        if self.at != len(self.raw["body"]):
            raise Unknown("words are left after the body")
        return Fn(self.name, self.raw["params"], self.types, body, self.slots)

    # ---- statements

    def body(self, around):
        """A list of statements; `around` has the blocks and loops outside, the innermost last: a block's number, or "Loop" with "End" around it
        where a block has nothing else."""
        form = self.raw["body"][self.at]
        self.at += 1
        key, under = only(form, "Seq", "Skip", "Return", "Block", "Loop", "Assign", "Call", "If", "Switch", "Exit", "LendStatic", "Unreachable")
        if key == "Seq":
            first = self.body(around)
            return first + self.body(around)
        if key == "Skip":
            return []
        if key == "Return":
            return [Return(None)]
        if key == "Unreachable":
            return [Never()]
        if key == "Block":
            return self.block(around)
        if key == "Loop":
            raise Unknown("a loop that is not the whole of a block")
        if key == "Exit":
            return [self.exit(under, around)]
        if key == "If":
            return [If(self.operand(under), self.body(around), self.body(around))]
        if key == "Switch":
            return [self.switch(under, around)]
        if key == "Call":
            return self.call(under)
        if key == "LendStatic":
            return self.lend(under)
        return [self.assign(under)]

    def block(self, around):
        if self.raw["body"][self.at] == "Loop":
            self.at += 1
            return [Loop(self.body(around + ["End", "Loop"]))]
        number = self.at
        body = self.body(around + [number])
        return [Block(number, body)] if number in self.left else body

    def exit(self, levels, around):
        if levels >= len(around):
            raise Unknown(f"an exit of {levels} from {around}")
        target, inside = around[-1 - levels], around[len(around) - levels:]
        if target == "Loop" and "Loop" not in inside:
            return Continue()
        if target == "End" and inside.count("Loop") == 1:
            return Break()
        if isinstance(target, int) and "Loop" not in inside:
            self.left.add(target)
            return Leave(target)
        raise Unknown(f"an exit of {levels} from {around}")

    def switch(self, under, around):
        """Arms for the variants of an enum, or for numbers. The last one is for all others."""
        operand, keys, default = under
        value = self.operand(operand)
        if isinstance(value, Tag):
            value, count = value.of, len(self.program.variants(value.of.ty.name))
            keys = [[1 - k if self.is_flipped(value) else k for k in arm] for arm in keys]
            if default:
                keys = keys + [[k for k in range(count) if not any(k in arm for arm in keys)]]
            if sorted(k for arm in keys for k in arm) != list(range(count)) or not all(keys):
                raise Unknown("a switch that has not one arm for each variant")
        elif not isinstance(value.ty, Int) or not default:
            raise Unknown("a switch on something else than an enum's tag, or on a number without an arm for all others")
        else:
            keys = keys + [[]]
        return Cases(value, keys, [self.body(around) for _ in keys])

    def call(self, under):
        callee, operands, place = under
        args, to = [self.operand(o) for o in operands], self.place(place)
        key, what = only(callee, "Fn", "Method")
        if key == "Fn":
            name, given = what[0], self.program.given(what[1], self.around)
            tried = self.tried(name, given, args, to.ty)
            if tried:
                return self.put(to, tried)
            if name == "core::slice::edits::slice+T::fill":
                return self.fill(*args)
            if name == "core::assertions::unreachable":
                return [Never()]
            name = self.program.instance(name, given)
        else:
            name = self.program.method(self.program.impl(what[0], self.around), what[1], self.program.given(what[2], self.around))
        return self.put(to, self.called(name, args))

    def called(self, name, args):
        """A call, or what it gives where no source has the function; () where it does nothing."""
        result, params = self.program.signature(name)
        if [self.passed(a.ty) for a in args] != [self.passed(p) for p in params]:
            raise Unknown(f"a call of {name} with other types than its parameters'")
        value = self.program.value(name, args)
        return Call(result, name, args) if value is None else value

    def tried(self, name, given, args, result):
        """What `?` calls. A value is its own ControlFlow, and an error its own residual; on the way out the error is converted."""
        if name in ("core::result::ResultTry::branch", "core::option::OptionTry::branch"):
            return args[0]
        if name == "core::option::OptionFromResidualNoValue::from_residual":
            return Make(result, 0, [])
        if name == "core::result::ResultFromResidualErrResidual::from_residual":
            convert, = given.impls
            error = args if convert.name == "core::convert::AnyFrom" else \
                [self.called(self.program.method(convert, 0, Given()), args)]
            return Make(result, 1, error)
        return None

    def fill(self, slice_, value):
        """Each element becomes the value. The kit's function copies values of any type, which may fail; a number's copy cannot."""
        count, size, i = Int(64), self.size(value.ty), Var(Int(64), len(self.types))
        self.types.append(count)
        pointer = Start(Ref(True, value.ty), slice_)
        element = Load(value.ty, Offset(pointer.ty, pointer, i if size == 1 else Op2(count, "Mul", "Unsigned", i, Num(count, size))))
        return [Set(i.local, Num(count, 0)),
                Loop([If(Op2(BOOL, "Lt", "Unsigned", i, Len(count, slice_)), [], [Break()]), Store(element, value),
                      Set(i.local, Op2(count, "Add", "Unsigned", i, Num(count, 1)))])]

    def put(self, to, value):
        if value == ():
            return []
        if to.ty != value.ty:
            raise Unknown(f"a result goes to a place of another type: {to.ty}, and not {value.ty}")
        if isinstance(to, Var):
            return [Do(value) if value.ty == UNIT else Set(to.local, value)]
        return [self.store(to, value)]

    @staticmethod
    def passed(ty):
        """A reference's mutability is C's const, which an argument may gain."""
        return Slice(False, ty.of) if isinstance(ty, Slice) else Ref(False, ty.to) if isinstance(ty, Ref) else ty

    def lend(self, under):
        """A reference to a constant: C has it in a local."""
        place, form, constant = under
        ty, to = self.type(form), self.place(place)
        slot = Var(ty, len(self.types))
        if not isinstance(ty, Named) or not isinstance(to, Var):
            raise Unknown(f"a constant of type {spelled(ty)} that is lent")
        self.types.append(ty)
        self.slots.add(slot.local)
        return [Set(slot.local, self.constant(constant, ty)), Set(to.local, Address(to.ty, slot))]

    def constant(self, form, ty):
        if not isinstance(ty, Named):
            return self.operand(form)
        _, parts = only(form, "Parts")
        variant, parts = (None, parts) if self.program.fields(ty.name) is not None else (self.operand(parts[0]), parts[1:])
        types = self.program.all_fields(ty.name, variant and variant.value)
        return self.aggregate(([variant] if variant else []) + [self.constant(p, t) for p, t in zip(parts, types)], ty)

    def assign(self, under):
        place, rvalue = under
        if not place["steps"]:
            return Set(place["local"], self.rvalue(rvalue, self.types[place["local"]]))
        target = self.place(place)
        return self.store(target, self.rvalue(rvalue, target.ty))

    @staticmethod
    def store(to, value):
        """To a field of a local, or through a pointer."""
        if isinstance(to, Field) and isinstance(root(to), Var):
            return SetField(to, value)
        if isinstance(to, (Load, Field)) and isinstance(root(to), Load):
            return Store(to, value)
        raise Unknown("a store to something else than a local, a field of one or what a pointer leads to")

    # ---- values

    def rvalue(self, form, wanted):
        key, under = only(form, "Opd", "Op1", "Op2", "AddrOf", "Aggregate", "Repeat")
        if key == "Opd":
            value = self.operand(under)
        elif key == "Op1":
            value = self.op1(*under)
        elif key == "Op2":
            value = self.op2(*under)
        elif key == "AddrOf":
            value = self.address(under, wanted)
        elif key == "Repeat":
            length = self.program.number(under[1], self.around)
            value = Repeat(wanted, self.operand(under[0]), length)
            if wanted != Array(value.value.ty, length):
                raise Unknown("an array of another length or element than its local's")
        else:
            value = self.aggregate([self.operand(o) for o in under], wanted)
        if isinstance(wanted, Ref) or wanted == PTR:
            return value
        if any(isinstance(v, Tag) and self.is_flipped(v.of) for v in inside(value)):
            raise Unknown("the tag of a ControlFlow")
        if value.ty != wanted:
            raise Unknown(f"a value of type {value.ty} where {wanted} is wanted")
        return value

    def operand(self, form):
        key, under = only(form, "Copy", "Int", "True", "False", "Unit", "NumOf", "SizeOf")
        if key == "Copy":
            return self.place(under)
        if key == "NumOf":
            return Num(Int(under[0]), self.program.number(under[1], self.around))
        if key == "SizeOf":
            return Num(Int(64), self.size(self.type(under)))
        if key == "Int":
            if under["width"] not in (8, 32, 64) or not 0 <= under["value"] < 1 << under["width"]:
                raise Unknown(f"a number that is none of its width: {under}")
            return Num(Int(under["width"]), under["value"])
        if key == "Unit":
            return Var(UNIT, None)
        return Truth(BOOL, key == "True")

    @staticmethod
    def size(ty):
        if not isinstance(ty, Int):
            raise Unknown(f"the size of {spelled(ty)}")
        return ty.bits // 8

    def place(self, place):
        value, variant = Var(self.types[place["local"]], place["local"]), None
        for step in place["steps"]:
            key, under = only(step, "Field", "Variant", "Deref")
            if key == "Variant":
                if variant is not None or not isinstance(value.ty, Named) or self.program.variants(value.ty.name) is None:
                    raise Unknown("a variant of something that is no enum")
                variant = 1 - under if self.is_flipped(value) else under
            elif key == "Field":
                value, variant = self.field(value, variant, under), None
            else:
                to = self.type(under)
                if variant is not None or not (isinstance(value.ty, Ref) or value.ty == PTR):
                    raise Unknown("something is followed that is no pointer")
                value = Var(UNIT, None) if to == UNIT else Load(to, value)
        if variant is not None:
            raise Unknown("a variant without a field")
        return value

    def is_flipped(self, value):
        return isinstance(value, Var) and value.local in self.none_last

    def field(self, value, variant, number):
        if isinstance(value.ty, Slice):
            return Start(Ref(value.ty.mutable, value.ty.of), value) if number == 0 else Len(Int(64), value)
        if not isinstance(value.ty, Named):
            raise Unknown("a field of something that has none")
        if variant is not None and number == 0:
            return Tag(Int(8), value)
        types = self.program.all_fields(value.ty.name, variant)
        number -= variant is not None
        if self.is_flipped(value) and number == len(types):
            return Var(UNIT, None)  # what a ControlFlow breaks with, where it stands for an Option
        if number >= len(types):
            raise Unknown(f"a field that {value.ty.name} has not")
        if types[number] == UNIT:
            return Var(UNIT, None)
        at = number - types[:number].count(UNIT)
        return Field(types[number], value, at) if variant is None else Held(types[number], value, variant, at)

    def address(self, place, wanted):
        """A reference is made anew from one, or to a local in memory, or to a field of either."""
        value = self.place(place)
        if isinstance(value, Load):
            return value.pointer
        if isinstance(root(value), Var) and root(value).local in self.slots or isinstance(root(value), Load):
            return Start(Ref(True, value.ty.of), value) if isinstance(value.ty, Array) else Address(wanted, value)
        if value == Var(UNIT, None):
            return Address(wanted, value)
        raise Unknown("an address of something else than a local in memory, what a pointer leads to, or a field of it")

    def op1(self, op, operand):
        value = self.operand(operand)
        if isinstance(op, dict) and "Cast" in op:
            cast = tuple(op["Cast"])
            if cast not in CASTS or not (isinstance(value.ty, Int) or value.ty == BOOL):
                raise Unknown(f"the cast {cast} of {value.ty}")
            if cast[:2] != ("Unsigned", "Unsigned") and value.ty != Int(32):
                raise Unknown(f"the cast {cast}, which changes the width and the sign")
            return Cast(Int(cast[2]), cast, value)
        key, _ = only(op, *OPS1)
        if key in COUNTS:
            if value.ty != Int(32):
                raise Unknown(f"{key} of {value.ty}")
            return Op1(Int(32), key, value)
        if value.ty not in (BOOL, Int(32)):
            raise Unknown(f"'Not' of {value.ty}")
        return Op1(value.ty, key, value)

    def op2(self, op, left, right):
        a, b = self.operand(left), self.operand(right)
        if op == "Offset":
            if not (isinstance(a.ty, Ref) or a.ty == PTR) or b.ty != Int(64):
                raise Unknown("an offset from something that is no pointer")
            return Offset(a.ty, a, b)
        if isinstance(op, str):
            name, sign = only(op, *OPS2)[0], None
        else:
            (name, sign), = op.items()
            if (name, sign) not in SIGNED_OPS2:
                raise Unknown(f"the operation {name} {sign}")
        if a.ty != b.ty or not (isinstance(a.ty, Int) or a.ty == BOOL and name in ("Eq", "Ne")):
            raise Unknown(f"{name} of {a.ty} and {b.ty}")
        if a.ty == Int(8) and name not in ("Eq", "Ne", "Lt", "Le", "And", "Or"):
            raise Unknown(f"{name} of 8 bits")
        if sign == "Signed" and a.ty != Int(32):
            raise Unknown(f"{name} of {a.ty}, signed")
        return Op2(BOOL if name in COMPARE else a.ty, name, sign, a, b)

    def aggregate(self, values, wanted):
        if isinstance(wanted, Slice):
            pointer, length = values
            return Part(wanted, pointer, length)
        if not isinstance(wanted, Named):
            raise Unknown(f"an aggregate of type {wanted}")
        fields, variant = self.program.fields(wanted.name), None
        if fields is None:
            tag = values.pop(0)
            variants = self.program.variants(wanted.name)
            if not isinstance(tag, Num) or tag.ty != Int(8) or tag.value >= len(variants):
                raise Unknown("an enum whose tag is no number of a variant")
            variant, fields = tag.value, variants[tag.value]
        values = [v for v in values if v.ty != UNIT]
        if [v.ty for v in values] != fields:
            raise Unknown(f"{wanted.name} of other fields than its own")
        return Make(wanted, variant, values)
