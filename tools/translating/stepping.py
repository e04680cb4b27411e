"""A `for` over what an iterator gives calls its step on each turn, and looks into the `Option` that this answers. Here the step of a crate's own
iterator is written into the loop: where there is none the loop is left, and else what was given is set at once. No `Option` is made, which
compilers that look at size first would keep in memory (gcc's -Os: a walk took up to 1.44 times the instructions).

What is written is the step's own body, shaped as its function is, and nothing is moved: the iterator stands in place of what `self` leads to."""

import copy

from tree import (Address, Break, Call, Field, For, Held, If, Load, Loop, Make, Return, Set, SetField, Store, Unknown, Unless, Value, Var, While,
                  bodies, everything, inside, root, values)

NONE, SOME = 0, 1


class Stepping:
    def __init__(self, fn, named, step):
        """`named` has the locals with a name of the source's; `step` answers a function as it is shaped: its types, its names, its body."""
        self.fn, self.named, self.step = fn, named, step

    def write(self, body):
        for statement in body:
            for inner in bodies(statement):
                self.write(inner)
            if isinstance(statement, Loop):
                self.write_into(statement.body, body)

    def write_into(self, loop, around):
        if len(loop) < 3 or not self.is_step(*loop[:3]):
            return
        call, given = loop[0].value, loop[2].local
        answer, iterator = loop[0].local, call.args[0].of
        if any(answer in used(s) for s in everything(loop[3:])):
            return
        types, named, body = self.step(call.name)
        returns = [s for s in everything(body) if isinstance(s, Return)]
        if any(isinstance(s, (Loop, While, For)) for s in everything(body)) or \
                [s for s in returns if not is_none(s)] != body[-1:] or not isinstance(body[-1].value, Make):
            return
        first = len(self.fn.types) - 2  # the step's locals from 2 on come behind those that are here: 0 is its result, 1 is `self`
        self.fn.types += types[2:]
        self.named.update({local + first: name for local, name in named.items() if local >= 2})
        loop[:3] = self.list(copy.deepcopy(body), iterator, first, given)
        self.take_apart(loop, given)
        read = set().union(*(used(s) for s in everything(loop)))
        loop[:] = [s for s in loop if not (isinstance(s, Set) and s.local >= first + 2 and s.local not in read
                                           and not any(isinstance(v, Call) for v in inside(s.value)))]

    def take_apart(self, loop, given):
        """What was given is a struct that is made of locals, and nothing but its fields is read: then those locals are read, and it is not made."""
        at = next(n for n, s in enumerate(loop) if isinstance(s, Set) and s.local == given)
        made, rest = loop[at].value, loop[at + 1:]
        if not (isinstance(made, Make) and all(isinstance(f, Var) for f in made.fields)):
            return
        read = [v for s in everything(rest) for value in values(s) for v in inside(value)]
        whole = sum(v == Var(made.ty, given) for v in read)
        if whole != sum(isinstance(v, Field) and v.of == Var(made.ty, given) for v in read):
            return
        if any(isinstance(s, (Set, SetField)) and set_by(s) in {given, *(f.local for f in made.fields)} for s in everything(rest)):
            return
        del loop[at]
        for statement in everything(loop[at:]):
            for name, part in vars(statement).items():
                if isinstance(part, Value):
                    setattr(statement, name, self.apart(part, made, given))

    def is_step(self, asked, tested, given):
        return isinstance(asked, Set) and isinstance(asked.value, Call) and asked.value.name.endswith("Iterator::next") \
            and not asked.value.name.startswith("core::") and len(asked.value.args) == 1 \
            and isinstance(asked.value.args[0], Address) and isinstance(asked.value.args[0].of, Var) \
            and isinstance(tested, Unless) and tested.of == Var(tested.of.ty, asked.local) and tested.variant == SOME and tested.other == [Break()] \
            and isinstance(given, Set) and given.value == Held(given.value.ty, tested.of, SOME, 0)

    def list(self, body, iterator, first, given):
        return [self.statement(s, iterator, first, given) for s in body]

    def statement(self, s, iterator, first, given):
        def put(value):
            return self.value(value, iterator, first)

        if isinstance(s, Return):
            return Break() if is_none(s) else Set(given, put(s.value.fields[0]))
        if isinstance(s, Set):
            return Set(s.local + first, put(s.value))
        if isinstance(s, Store) and isinstance(s.to, Field):
            return SetField(put(s.to), put(s.value))
        if isinstance(s, If):
            return If(put(s.test), self.list(s.then, iterator, first, given), self.list(s.other, iterator, first, given))
        raise Unknown(f"a step with a statement {type(s).__name__}")

    def apart(self, value, made, given):
        if isinstance(value, Field) and value.of == Var(made.ty, given):
            return made.fields[value.number]
        return rebuilt(value, lambda part: self.apart(part, made, given))

    def value(self, value, iterator, first):
        if isinstance(value, Load) and value.pointer == Var(value.pointer.ty, 1):
            return iterator
        if isinstance(value, Var):
            if value.local < 2:
                raise Unknown("a step that does something else with itself than read and set its fields")
            return Var(value.ty, value.local + first)
        return rebuilt(value, lambda part: self.value(part, iterator, first))


def rebuilt(value, put):
    """A value with each of its parts put anew."""
    made = copy.copy(value)
    for name, part in vars(made).items():
        if isinstance(part, Value):
            setattr(made, name, put(part))
        elif isinstance(part, list):
            setattr(made, name, [put(p) for p in part])
    return made


def set_by(statement):
    return statement.local if isinstance(statement, Set) else root(statement.to).local


def is_none(statement):
    return isinstance(statement.value, Make) and statement.value.variant == NONE


def used(statement):
    return {v.local for value in values(statement) for v in inside(value) if isinstance(v, Var)}
