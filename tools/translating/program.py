"""The functions and types of all crates by their names. MIR has one body for all that a generic function is called with; here each of these
instances is a function of its own, and its name has behind it what it is given: `lists::follow<lists::Small>`, `runs::fits<8>`. So have
the types: `core::option::Option<u32>`. Where a body calls a trait's method, the impl that it is given says which function is meant.

The kit's own library, `core`, is read as the crates are. What `?` stands for is not: it is a test of the value before it, and mir.py
reads it as that. So ControlFlow is the Option or the Result that it was made of, and what it holds where it breaks is the error."""

import copy
import functools
import json

from mir import Given, Impl, Reader, only
from shape import Shaper, locals_in, replaced_all
from tree import Array, BOOL, Const, Int, Named, PTR, Ref, Return, Slice, UNIT, Unknown, spelled

NOTHING = "::Destruct++none"  # the kit writes this impl into each crate: to let go of the value is to do nothing
OPTION, RESULT, FLOW = "core::option::Option", "core::result::Result", "core::ops::ControlFlow"
RESIDUAL, NO_VALUE = "core::result::ErrResidual", "core::option::NoValue"


@functools.cache
def functions_in(file):
    with open(file) as text:
        return json.load(text)


def is_flow(form):
    return isinstance(form, dict) and "Named" in form and form["Named"][0]["name"] == FLOW


def breaks_with_none(form):
    """Whether `?` stands behind an Option there; behind a Result else."""
    name = form["Named"][1][0]["Named"][0]["name"]
    if name not in (NO_VALUE, RESIDUAL):
        raise Unknown(f"a ControlFlow that breaks with {name}")
    return name == NO_VALUE


def without_units(types):
    return [t for t in types if t != UNIT]


def with_types(name, types):
    return name + (f"<{', '.join(spelled(t) for t in types)}>" if types else "")


class Program:
    """`sourceless` says of a function whether no source of the crates has it: then a call of it may be written as what it gives."""

    def __init__(self, files):
        self.raw, self.declared, self.methods, self.named = {}, {}, {}, {}
        self.instances, self.read, self.values, self.nothing = {}, {}, {}, None
        self.sourceless = lambda name: name.startswith("core::")
        for file in files:
            self.add(file)
        self.instances = {name: (name, Given()) for name, raw in self.raw.items() if not raw["generics"]["types"]}

    def add(self, file):
        for name, raw in functions_in(file):
            if name in self.raw:
                raise Unknown(f"two functions are called {name}")
            self.raw[name] = raw
            for declared in raw["types"]:
                shape = declared["shape"]
                if self.declared.setdefault(declared["name"], shape) != shape:
                    raise Unknown(f"{declared['name']} has two shapes")
            method = raw["generics"]["method_of"]
            if method and "Impl" in method:
                self.methods[tuple(method["Impl"])] = name
                if name.endswith(f"{NOTHING}::drop") and any("Call" in word for word in raw["body"]):
                    raise Unknown(f"{name} does something")

    # ---- instances

    def instance(self, name, given):
        """The name of a function with what it is given."""
        if name not in self.raw:
            raise Unknown(f"a call of {name}, which no crate has")
        generics = self.raw[name]["generics"]
        if (len(generics["types"]), len(generics["bounds"])) != (len(given.types), len(given.impls)):
            raise Unknown(f"a call of {name} with other parameters than its own")
        own = with_types(name, given.types)
        if self.instances.setdefault(own, (name, given)) != (name, given):
            raise Unknown(f"two functions would be called {own}")
        return own

    def method(self, impl, number, own):
        """The name of a trait's method, by its number, in an impl."""
        name = self.methods.get((impl.name, number))
        if name is None:
            raise Unknown(f"method {number} of {impl.name}, which no crate has")
        return self.instance(name, Given(impl.given.types + own.types, impl.given.impls + own.impls))

    def given(self, form, around):
        """What is given at a place, where the function around it has been given `around`."""
        return Given(tuple(self.type(t, around) for t in form["types"]), tuple(self.impl(d, around) for d in form["dicts"]))

    @staticmethod
    def parameter(given, number):
        if number >= len(given):
            raise Unknown(f"parameter {number}, which is not given")
        return given[number]

    def impl(self, form, around):
        key, under = only(form, "Impl", "Given")
        if key == "Given":
            return self.parameter(around.impls, under)
        name, types, dicts = under
        if name.endswith(NOTHING):
            name = self.nothing = self.nothing or name
        return Impl(name, self.given({"types": types, "dicts": dicts}, around))

    # ---- functions

    def fn(self, name):
        if name not in self.read:
            self.read[name] = self.read_anew(name)
        return self.read[name]

    def read_anew(self, name):
        own, given = self.instances[name]
        try:
            return Reader(self, name, self.raw[own], given).fn()
        except Unknown as why:
            raise Unknown(f"{name}: {why}")

    def signature(self, name):
        """The types of the result and of the parameters."""
        own, given = self.instances[name]
        raw = self.raw[own]
        types = [self.type(local["ty"], given) for local in raw["locals"][:raw["params"] + 1]]
        return types[0], types[1:]

    def value(self, name, args):
        """What a call of a function that no source has gives, where that is one value of its arguments; () where it does nothing."""
        if name not in self.values:
            self.values[name] = None  # where it calls itself
            if self.sourceless(self.instances[name][0]):
                self.values[name] = self.only_value(self.read_anew(name))
        value = self.values[name]
        return replaced_all(copy.deepcopy(value), dict(enumerate(args, start=1))) if value else value

    def only_value(self, fn):
        body = Shaper(self, fn, set(), True).shape()
        if body == []:
            return ()
        if len(body) == 1 and isinstance(body[0], Return) and set(locals_in(body[0].value)) <= set(range(1, fn.params + 1)):
            return body[0].value
        return None

    # ---- types

    def type(self, form, around=Given()):
        key, under = only(form, "Unit", "Bool", "Ptr", "Int", "Ref", "Struct", "Array", "Named", "Param", "Const")
        if key == "Unit":
            return UNIT
        if key == "Bool":
            return BOOL
        if key == "Ptr":
            return PTR
        if key == "Int":
            if under not in (8, 32, 64):
                raise Unknown(f"an integer of {under} bits")
            return Int(under)
        if key == "Ref":
            return Ref(under[1] == "Mut", self.type(under[2], around))
        if key == "Array":
            return Array(self.type(under[0], around), self.number(under[1], around))
        if key == "Param":
            return self.parameter(around.types, under)
        if key == "Const":
            return Const(under)
        if key == "Named":
            types = tuple(self.type(t, around) for t in under[1])
            if is_flow(form):
                return self.named_type(OPTION, types[1:]) if breaks_with_none(form) else self.named_type(RESULT, types[::-1])
            return self.named_type(under[0]["name"], types)
        if under[0] != "&[]":
            raise Unknown(f"a struct without a declaration, {under[0]}")
        pointer, length = (self.type(part, around) for part in under[1])
        if not isinstance(pointer, Ref) or length != Int(64):
            raise Unknown("a slice that is no pointer and length")
        return Slice(pointer.mutable, pointer.to)

    def number(self, form, around):
        """A number that may be a parameter."""
        key, under = only(form, "Lit", "Param")
        if key == "Lit":
            return under
        given = self.parameter(around.types, under)
        if not isinstance(given, Const):
            raise Unknown("a type where a number is asked for")
        return given.number

    def named_type(self, name, types):
        if name == NO_VALUE:
            return UNIT
        if name == RESIDUAL:
            return types[0]
        if name not in self.declared:
            raise Unknown(f"{name}, which no crate declares")
        own = with_types(name, types)
        self.named[own] = name, types
        return Named(own)

    def shape(self, own):
        name, types = self.named[own]
        key, under = only(self.declared[name], "Fields", "Variants")
        return key, under, Given(types)

    @staticmethod
    def is_none_last(form):
        """Whether it is a ControlFlow that stands for an Option: there what goes on comes first, and None last."""
        return is_flow(form) and breaks_with_none(form)

    def all_fields(self, own, variant):
        """The types of all fields, of a struct where no variant is given."""
        key, under, given = self.shape(own)
        return [self.type(t, given) for t in (under if variant is None else under[variant])]

    def fields(self, own):
        """The types of a struct's fields; None where it is an enum. C has no field that holds nothing."""
        return without_units(self.all_fields(own, None)) if self.shape(own)[0] == "Fields" else None

    def variants(self, own):
        key, under, _ = self.shape(own)
        return [without_units(self.all_fields(own, variant)) for variant in range(len(under))] if key == "Variants" else None
