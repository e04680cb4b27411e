"""The trees that a function is translated by: types, values, statements. Every value has its type, `ty`."""

from dataclasses import dataclass


class Unknown(Exception):
    """A form that the translator does not know."""


# ---- types

@dataclass(frozen=True)
class Word:
    name: str


UNIT, BOOL, PTR = Word("()"), Word("bool"), Word("a raw pointer")


@dataclass(frozen=True)
class Int:
    bits: int


@dataclass(frozen=True)
class Array:
    of: object
    length: int


@dataclass(frozen=True)
class Ref:
    mutable: bool
    to: object


@dataclass(frozen=True)
class Slice:
    mutable: bool
    of: object


@dataclass(frozen=True)
class Named:
    """A struct or an enum; the name of one that has parameters has behind it what it is given."""
    name: str


@dataclass(frozen=True)
class Const:
    """A number that stands for a parameter."""
    number: int


def spelled(ty):
    """A type as Rattle writes it."""
    if isinstance(ty, Int):
        return f"u{ty.bits}"
    if isinstance(ty, Array):
        return f"[{spelled(ty.of)}; {ty.length}]"
    if isinstance(ty, Ref):
        return f"&{'mut ' if ty.mutable else ''}{spelled(ty.to)}"
    if isinstance(ty, Slice):
        return f"&{'mut ' if ty.mutable else ''}[{spelled(ty.of)}]"
    return str(ty.number) if isinstance(ty, Const) else ty.name


# ---- values

@dataclass
class Value:
    ty: object

    def parts(self):
        """The values that this one is made of."""
        for part in vars(self).values():
            if isinstance(part, Value):
                yield part
            elif isinstance(part, list):
                yield from part


@dataclass
class Var(Value):
    local: int


@dataclass
class Num(Value):
    value: int


@dataclass
class Truth(Value):
    value: bool


@dataclass
class Field(Value):
    """A struct's field, by its number."""
    of: Value
    number: int


@dataclass
class Tag(Value):
    of: Value


@dataclass
class Held(Value):
    """A field that a variant of an enum holds, by its number."""
    of: Value
    variant: int
    number: int


@dataclass
class Len(Value):
    of: Value


@dataclass
class Start(Value):
    """The pointer to the first element of a slice or of an array."""
    of: Value


@dataclass
class Offset(Value):
    """The pointer that many bytes further."""
    pointer: Value
    bytes: Value


@dataclass
class Address(Value):
    """A reference to a local, or to a field of what one is or leads to."""
    of: Value


@dataclass
class Load(Value):
    pointer: Value


@dataclass
class Part(Value):
    """A slice."""
    pointer: Value
    length: Value


@dataclass
class Op1(Value):
    op: str
    value: Value


@dataclass
class Op2(Value):
    op: str
    sign: str
    left: Value
    right: Value


@dataclass
class Cast(Value):
    cast: tuple
    value: Value


@dataclass
class Is(Value):
    """Whether an enum is of a variant."""
    of: Value
    variant: int


@dataclass
class Call(Value):
    name: str
    args: list


@dataclass
class Make(Value):
    """A struct, or an enum's variant."""
    variant: int
    fields: list


@dataclass
class Repeat(Value):
    value: Value
    count: int


# ---- statements

@dataclass
class Set:
    local: int
    value: Value


@dataclass
class SetField:
    """A field of a local that is a struct."""
    to: Field
    value: Value


@dataclass
class Store:
    """What a pointer leads to, or a field of it."""
    to: Value
    value: Value


@dataclass
class Do:
    call: Call


@dataclass
class If:
    test: Value
    then: list
    other: list


@dataclass
class Cases:
    """Arms with the variants or the numbers that each is for; the last one is for all others."""
    of: Value
    keys: list
    arms: list


@dataclass
class Unless:
    """What is done, and leaves, where an enum is not of the variant."""
    of: Value
    variant: int
    other: list


@dataclass
class Block:
    """What can be left by its number."""
    number: int
    body: list


@dataclass
class Leave:
    number: int


@dataclass
class Loop:
    body: list


@dataclass
class While:
    test: Value
    body: list


@dataclass
class For:
    """A loop that counts: `first` before it, `step` after each turn."""
    first: Set
    test: Value
    step: Set
    body: list


@dataclass
class Break:
    pass


@dataclass
class Continue:
    pass


@dataclass
class Never:
    """What is never reached, which is proved."""


@dataclass
class Return:
    value: Value


@dataclass
class Fn:
    """Local 0 is the result, then come the parameters, then the rest. `slots` has the locals that references may lead to."""
    name: str
    params: int
    types: list
    body: list
    slots: frozenset = frozenset()


def bodies(statement):
    """The lists of statements inside a statement."""
    if isinstance(statement, If):
        return [statement.then, statement.other]
    if isinstance(statement, Cases):
        return statement.arms
    if isinstance(statement, Unless):
        return [statement.other]
    if isinstance(statement, (Loop, While, For, Block)):
        return [statement.body]
    return []


def root(place):
    """The local or the pointer that a place starts from."""
    return root(place.of) if isinstance(place, (Field, Held)) else place


def values(statement):
    """The values that a statement evaluates itself, each once, before it does anything."""
    if isinstance(statement, Set):
        return [statement.value]
    if isinstance(statement, Store):
        return [root(statement.to).pointer, statement.value]
    if isinstance(statement, SetField):
        return [statement.to, statement.value]
    if isinstance(statement, Do):
        return [statement.call]
    if isinstance(statement, (If, While)):
        return [statement.test]
    if isinstance(statement, For):
        return [statement.first.value, statement.test, statement.step.value]
    if isinstance(statement, (Cases, Unless)):
        return [statement.of]
    if isinstance(statement, Return) and statement.value is not None:
        return [statement.value]
    return []


def inside(value):
    """A value and all that it is made of."""
    yield value
    for part in value.parts():
        yield from inside(part)


def everything(body):
    """All statements of a list and of the lists inside."""
    for statement in body:
        yield statement
        for inner in bodies(statement):
            yield from everything(inner)
