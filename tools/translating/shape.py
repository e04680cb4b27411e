"""Gives a function's statements the shape that a person would write. MIR has a local for every step of a sum; here what is used once
is written where it is used, `return` has its value, and a loop that begins with its test is a `while`.

What is moved, and when:

- A value that only reads may be written at its one use further down the same list, if nothing in between sets a local that it reads
  and, where it reads memory, nothing in between writes memory. Then it does not matter when it is computed, nor in which order C
  computes the parts of a statement. A call only reads if it is passed nothing mutable: there is no other way to write.
- A call that writes may be written at its one use in the very next statement, if that reads no memory beside it.
- Locals that the Rattle source names are kept, with their names: the C file has the source's own lines.
- Bytes that stand side by side, s[at] and s[at + 1], are read from one pointer, s + at, also where the sum has a name of its own: so
  compilers see that they do, and read or write them as one word. A name that is then used no more goes.
- Where a block is left before its end, C would need a goto: what comes behind is put into the branches that go on instead. It is never
  written twice, but for a line or two.
- A loop is a C `for` where a `for` of the source counts: its index has no name of the source's, or one that a `for` binds.
- A step that is a lent slice, its length, or a copy that nothing changes, is written as what it is.
- A branch that is never gone, as is proved, is left out, and its test with it.
"""

import copy

from tree import (Address, BOOL, Block, Break, Call, Cases, Continue, Do, For, If, Int, Is, Leave, Len, Load, Loop, Never, Num, Offset, Op1,
                  Op2, PTR, Part, Ref, Repeat, Return, Set, SetField, Slice, Start, Store, Truth, UNIT, Unknown, Unless, Value, Var, While,
                  bodies, everything, inside, root, values)


def locals_in(value):
    return [v.local for v in inside(value) if isinstance(v, Var)]


class Shaper:
    def __init__(self, program, fn, named, plain=False, counters=frozenset()):
        """`named` has the locals that are to be kept, `counters` those of them that a `for` counts with. Where `plain`, no source has the
        function, so what is one truth may be written as one."""
        self.program, self.fn, self.named, self.plain, self.counters, self.pointers = program, fn, named, plain, counters, {}

    def shape(self):
        body = self.fn.body
        for part in self.lists(body):
            drop_never(part)
        self.put_constants(body)
        self.fold_all(body)
        self.put_constants(body)
        while any(self.put_pointer(part) for part in self.lists(body)):
            self.fold_all(body)
        if any(isinstance(s, Block) for s in everything(body)):
            self.leave_blocks(body)
            self.fold_all(body)
        self.side_by_side(body)
        self.drop_unread(body)
        self.give_returns(body)
        for part in self.lists(body):
            self.drop_unreachable(part)
        while self.plain and any(self.find_truth(part) for part in self.lists(body)):
            self.fold_all(body)
            self.give_returns(body)
        while any(self.return_early(part) for part in self.lists(body)):
            pass
        for part in self.lists(body):
            self.find_whiles(part)
            self.find_unless(part)
        self.fold_all(body)
        if self.fn.types[0] == UNIT and body and body[-1] == Return(None):
            body.pop()
        if self.fn.types[0] != UNIT and not ends(body):
            raise Unknown("the end is reached without a result")
        return body

    def fold_all(self, body):
        while any(self.fold(part) for part in self.lists(body)):
            pass

    def lists(self, body):
        """The innermost first."""
        for statement in body:
            for inner in bodies(statement):
                yield from self.lists(inner)
        yield body

    # ---- what is read and written

    def writes(self, value):
        """Whether a call in the value may write memory."""
        return any(isinstance(v, Call) and self.is_writer(v.name) for v in inside(value))

    def is_writer(self, name):
        return any(isinstance(p, (Slice, Ref)) and p.mutable for p in self.program.signature(name)[1])

    def reads(self, value):
        """Whether it may read memory: what a pointer leads to, itself or in a call, or a local in memory."""
        if isinstance(value, Address):
            return isinstance(root(value.of), Load) and self.reads(root(value.of).pointer)
        return isinstance(value, Load) or isinstance(value, Var) and value.local in self.fn.slots or isinstance(value, Call) and \
            any(isinstance(p, (Slice, Ref)) for p in self.program.signature(value.name)[1]) or any(self.reads(v) for v in value.parts())

    def effects(self, statements):
        """The locals that are set, and whether memory is written; an array that is a local is memory too."""
        sets, writes = set(), False
        for statement in everything(statements):
            if isinstance(statement, (Set, SetField)):
                local = set_by(statement)
                sets.add(local)
                writes = writes or local in self.fn.slots
            writes = writes or isinstance(statement, Store) or any(self.writes(v) for v in values(statement))
        return sets, writes

    # ---- what is always the same

    def put_constants(self, body):
        """A step of a sum that is a slice which is lent, or its length, is written as that; and so is a copy of a parameter that only a
        constant reference is made to."""
        sets = [set_by(s) for s in everything(body) if isinstance(s, (Set, SetField))]
        given = set(range(1, self.fn.params + 1)) - set(sets)
        while any(self.put_constant(body, part, sets, given) for part in self.lists(body)):
            pass

    def put_constant(self, body, part, sets, given):
        for at, statement in enumerate(part):
            if not isinstance(statement, Set) or sets.count(statement.local) != 1 or statement.local == 0 or statement.local in self.named:
                continue
            value, local = statement.value, statement.local
            lent = value.of if isinstance(value, Len) and self.counted(body, local) else \
                value.pointer if isinstance(value, Part) and isinstance(value.length, Num) else value
            if isinstance(lent, Var) and lent.local in given and (isinstance(lent.ty, (Slice, Ref)) or
                                                                  local in self.fn.slots and self.only_read(body, local)):
                del part[at]
                for other in everything(body):
                    put(other, local, value)
                return True
        return False

    def put_pointer(self, body):
        """A step that is where an element stands, and is used more than once, as by `s[i] += 1`, is written at each use."""
        for at, statement in enumerate(body):
            if not isinstance(statement, Set) or self.fn.types[statement.local] != PTR or not isinstance(statement.value, Offset):
                continue
            rest = body[at + 1:]
            last = max((i for i, s in enumerate(rest) if self.mentions(s, statement.local)), default=0)
            sets, writes = self.effects(rest[:last + 1])
            if statement.local in sets or sets & set(locals_in(statement.value)) or writes and self.reads(statement.value):
                continue
            for other in everything(rest[:last + 1]):
                put(other, statement.local, statement.value)
            del body[at]
            return True
        return False

    def counted(self, body, local):
        """Whether the local is read by the test of a loop of the source's `for`."""
        firsts = [s.body[0] for s in everything(body) if isinstance(s, Loop) and s.body and isinstance(s.body[0], Set)]
        return any(local in locals_in(s.value) and any(self.counts(other) for other in locals_in(s.value)) for s in firsts)

    def counts(self, local):
        """Whether a `for` may count with the local: it binds it, or no name of the source's does."""
        return local in self.counters or local not in self.named and local > self.fn.params

    def only_read(self, body, local):
        """Whether references to the local are constant."""
        return not any(isinstance(v, Address) and root(v.of) == Var(self.fn.types[local], local) and v.ty.mutable
                       for s in everything(body) for whole in values(s) for v in inside(whole))

    # ---- folding

    def fold(self, body):
        for at, statement in enumerate(body):
            if not isinstance(statement, Set) or statement.local <= self.fn.params or statement.local in self.named | self.fn.slots:
                continue
            if isinstance(statement.value, Repeat) or not self.is_paired(statement.local):
                continue
            use = next(i for i in range(at + 1, len(body)) if self.mentions(body[i], statement.local))
            if self.may_move(statement.value, body[at + 1:use], body[use]):
                put(body[use], statement.local, statement.value)
                del body[at]
                return True
        return False

    def mentions(self, statement, local):
        return any(local in locals_in(v) for v in values(statement)) or isinstance(statement, Set) and statement.local == local \
            or any(self.mentions(inner, local) for part in bodies(statement) for inner in part)

    def is_paired(self, local):
        """Whether in every list each setting of the local is followed by one use, in a statement of that list itself."""
        for body in self.lists(self.fn.body):
            is_set = False
            for statement in body:
                if isinstance(statement, SetField) and set_by(statement) == local:
                    return False
                uses = sum(locals_in(v).count(local) for v in values(statement))
                if any(self.mentions(inner, local) for part in bodies(statement) for inner in part):
                    # it has its own pairs inside, or none: nothing may reach in or out
                    if (is_set or uses) and not (isinstance(statement, If) and is_set and uses == 1):
                        return False
                if uses > 1 or uses == 1 and not is_set:
                    return False
                if uses:
                    is_set = False
                if isinstance(statement, Set) and statement.local == local:
                    if is_set:
                        return False
                    is_set = True
            if is_set:
                return False
        return True

    def may_move(self, value, between, use):
        sets, writes = self.effects(between)
        if sets & set(locals_in(value)):
            return False
        beside = values(use)
        if self.writes(value):
            # the call happens as the next statement begins: nothing beside it may read what it wrote
            return not between and isinstance(use, (Set, Do, Return, If)) and not any(
                self.reads(v) or self.writes(v) for whole in beside for v in whole.parts())
        if self.reads(value):
            # a call that writes may stand in the statement only as its outermost one, which comes after its arguments
            return not writes and not any(self.writes(part) for whole in beside for part in whole.parts())
        return True

    # ---- bytes side by side

    def side_by_side(self, body):
        """In the function's own list, whose statements run once and in order."""
        sets = [set_by(s) for s in everything(body) if isinstance(s, (Set, SetField))]
        # what is set once in this list is that from there on, and so is a parameter that is never set
        self.once = {s.local: s.value for s in body if isinstance(s, Set) and sets.count(s.local) == 1}
        constant = set(self.once) | set(range(1, self.fn.params + 1)) - set(sets)
        groups = {}
        for at, statement in enumerate(body):
            for offset in (part for value in values(statement) for part in inside(value) if is_byte_of_slice(part)):
                base, more = self.as_sum(offset.bytes)
                if isinstance(base, Var) and base.local in constant:
                    groups.setdefault((offset.pointer.of.local, base.local), []).append((at, offset, more))
        for (slice_, base), found in sorted(groups.items(), key=lambda group: -group[1][0][0]):
            if len({more for _, _, more in found}) > 1:
                self.point(body, slice_, base, found)

    def point(self, body, slice_, base, found):
        """The pointer is made just before the first statement that reads or writes there, so it leads into the slice."""
        ty, local = Ref(self.fn.types[slice_].mutable, Int(8)), len(self.fn.types)
        self.fn.types.append(ty)
        self.pointers[local] = (slice_, base)
        for _, offset, more in found:
            offset.pointer, offset.bytes = Var(ty, local), Num(Int(64), more)
        body.insert(found[0][0], Set(local, Offset(ty, Start(ty, Var(self.fn.types[slice_], slice_)), Var(Int(64), base))))

    def as_sum(self, value):
        """A value as another one and a number more."""
        if isinstance(value, Op2) and (value.op, value.sign) == ("Add", "Unsigned") and isinstance(value.right, Num):
            base, more = self.as_sum(value.left)
            return base, more + value.right.value
        if isinstance(value, Var) and isinstance(self.once.get(value.local), Op2):
            base, more = self.as_sum(self.once[value.local])
            return (base, more) if more else (value, 0)
        return value, 0

    def drop_unread(self, body):
        for part in self.lists(body):
            for at in range(len(part) - 1, -1, -1):
                if isinstance(part[at], Set) and not any(isinstance(v, Call) for v in inside(part[at].value)) and part[at].local > 0 \
                        and not isinstance(part[at].value, Repeat) \
                        and not any(part[at].local in locals_in(v) for s in everything(body) for v in values(s)):
                    del part[at]

    # ---- blocks that are left

    def leave_blocks(self, body):
        """A block that is left has what comes behind it in a branch instead. The innermost come first."""
        for part in self.lists(body):
            for at in range(len(part) - 1, -1, -1):
                if isinstance(part[at], Block):
                    part[at:at + 1] = self.without(part[at].body, part[at].number)

    def without(self, body, number):
        """The list with no Leave of that number in it: where it ends with one, it goes on behind the block."""
        leaving = [at for at, statement in enumerate(body) if leaves([statement], number)]
        if not leaving:
            return body
        at = leaving[0]
        statement, rest = joined(body[at], number), body[at + 1:]
        if isinstance(statement, Leave):
            return body[:at]
        branches = bodies(statement)
        if not isinstance(statement, (If, Cases)):
            raise Unknown("a block that is left from inside something else than a branch")
        if len([b for b in branches if not ends(b)]) > 1 and (len(rest) > 2 or any(bodies(s) for s in rest)):
            raise Unknown("a block that goes on from more than one branch")
        for branch in branches:
            branch[:] = self.without(branch if ends(branch) else branch + copy.deepcopy(rest), number)
        return body[:at] + [statement]

    # ---- truths

    def find_truth(self, body):
        """A branch that sets, or gives back, one of two truths is one truth itself."""
        for at, statement in enumerate(body):
            if not isinstance(statement, (If, Cases)) or len(bodies(statement)) != 2:
                continue
            then, other = bodies(statement)
            rest = body[at + 1:at + 2]
            if then and isinstance(then[-1], Return) and not other:
                other, rest = rest, []
            if not (len(then) == len(other) == 1 and type(then[0]) is type(other[0])):
                continue
            if isinstance(then[0], Set) and then[0].local == other[0].local and then[0].value.ty == BOOL:
                made = Set(then[0].local, chosen(self.test(statement), then[0].value, other[0].value))
                body[at:at + 1] = [made]
                return True
            if isinstance(then[0], Return) and then[0].value is not None and then[0].value.ty == BOOL:
                body[at:] = [Return(chosen(self.test(statement), then[0].value, other[0].value))]
                return True
        return False

    @staticmethod
    def test(statement):
        return statement.test if isinstance(statement, If) else Is(BOOL, statement.of, statement.keys[0][0])

    # ---- returns

    def give_returns(self, body):
        """`_0 = e; return` is `return e`."""
        for part in self.lists(body):
            for at in range(len(part) - 1, -1, -1):
                if part[at] == Return(None) and at and isinstance(part[at - 1], Set) and part[at - 1].local == 0:
                    part[at - 1:at + 1] = [Return(None if self.fn.types[0] == UNIT else part[at - 1].value)]

    def drop_unreachable(self, body):
        for at, statement in enumerate(body):
            if ends([statement]):
                del body[at + 1:]
                return

    def return_early(self, body):
        """`if c { t = a } else { t = b } return t` returns in both branches, if t is used for that alone."""
        if len(body) < 2 or not isinstance(body[-1], Return) or not isinstance(body[-1].value, Var):
            return False
        local, before = body[-1].value.local, body[-2]
        if local <= self.fn.params or local in self.named or not isinstance(before, (If, Cases)):
            return False
        if sum(locals_in(v).count(local) for s in everything(self.fn.body) for v in values(s)) != 1:
            return False
        if not self.gives(before, local):
            return False
        self.give_back(before, local)
        body.pop()
        return True

    def gives(self, statement, local):
        """Whether every way through a branch leaves, or ends with the local being set."""
        return isinstance(statement, (If, Cases)) and all(
            b and (ends(b) or isinstance(b[-1], Set) and b[-1].local == local or self.gives(b[-1], local)) for b in bodies(statement))

    def give_back(self, statement, local):
        for branch in bodies(statement):
            if isinstance(branch[-1], Set):
                branch[-1] = Return(branch[-1].value)
            elif not ends(branch):
                self.give_back(branch[-1], local)

    # ---- loops

    def find_whiles(self, body):
        for at, statement in enumerate(body):
            if isinstance(statement, Loop) and statement.body:
                first = statement.body[0]
                if isinstance(first, If) and first.then == [] and first.other == [Break()]:
                    body[at] = While(first.test, statement.body[1:])
        for at in range(len(body) - 1, 0, -1):
            if isinstance(body[at], While) and isinstance(body[at - 1], Set) and self.counts(body[at - 1].local):
                self.count(body, at)

    def count(self, body, at):
        """A loop that a `for` makes, which steps at its end and before each `continue`."""
        first, loop = body[at - 1:at + 1]
        step = loop.body[-1] if loop.body else None
        counted = Var(self.fn.types[first.local], first.local)
        if not isinstance(step, Set) or step.local != first.local or not steps(loop.body[:-1], step):
            return
        if not isinstance(step.value, Op2) or (step.value.op, step.value.left) != ("Add", counted) or not isinstance(step.value.right, Num):
            return
        for part in self.lists(loop.body):
            for place in range(len(part) - 1, -1, -1):
                if part[place] == step:
                    del part[place]
        body[at - 1:at + 1] = [For(first, loop.test, step, loop.body)]

    # ---- let .. else

    def find_unless(self, body):
        """`let First(x) = e else { leave }` goes on in the list itself."""
        for at, statement in enumerate(body):
            if isinstance(statement, Cases) and len(statement.arms) == 2 and ends(statement.arms[1]) and not ends(statement.arms[0]) \
                    and not isinstance(statement.of.ty, Int):
                body[at:at + 1] = [Unless(statement.of, statement.keys[0][0], statement.arms[1]), *statement.arms[0]]


def is_byte_of_slice(value):
    return isinstance(value, Offset) and isinstance(value.pointer, Start) and isinstance(value.pointer.of, Var) \
        and isinstance(value.pointer.of.ty, Slice) and value.pointer.of.ty.of == Int(8)


def set_by(statement):
    """The local that is set, or of which a field is."""
    return statement.local if isinstance(statement, Set) else root(statement.to).local


def put(statement, local, value):
    """Writes a value in the place of the local's uses."""
    for name, part in vars(statement).items():
        if isinstance(part, Value):
            setattr(statement, name, replaced_all(part, {local: value}))


def replaced_all(tree, new):
    """A value in which others stand in the place of locals. What a reference to a place leads to is that place."""
    if isinstance(tree, Var):
        return copy.deepcopy(new[tree.local]) if tree.local in new else tree
    for name, part in vars(tree).items():
        if isinstance(part, Value):
            setattr(tree, name, replaced_all(part, new))
        elif isinstance(part, list):
            setattr(tree, name, [replaced_all(p, new) for p in part])
    if isinstance(tree, Load) and isinstance(tree.pointer, Address):
        return tree.pointer.of
    if isinstance(tree, (Len, Start)) and isinstance(tree.of, Part):
        return tree.of.length if isinstance(tree, Len) else tree.of.pointer
    if isinstance(tree, Part) and isinstance(tree.pointer, Start) and tree.length == Len(tree.length.ty, tree.pointer.of):
        return tree.pointer.of
    return tree


def drop_never(body):
    """A branch that is never gone has no test."""
    for at in range(len(body) - 1, -1, -1):
        statement = body[at]
        if isinstance(statement, If) and (is_never(statement.then) or is_never(statement.other)):
            body[at:at + 1] = statement.other if is_never(statement.then) else statement.then
        elif isinstance(statement, Cases):
            gone = [place for place, arm in enumerate(statement.arms) if is_never(arm)]
            for place in reversed(gone):
                del statement.keys[place], statement.arms[place]
            if gone and len(statement.arms) < 2:
                body[at:at + 1] = statement.arms[0] if statement.arms else [Never()]


def is_never(body):
    return bool(body) and isinstance(body[-1], Never)


def leaves(body, number):
    """Whether the block of that number is left from somewhere in the list."""
    return any(isinstance(s, Leave) and s.number == number for s in everything(body))


def joined(statement, number):
    """`if a { if b { .. } }` is `if a && b { .. }`, and what leaves the block at once where a test fails is done where it holds not."""
    if not isinstance(statement, If):
        return statement
    if not statement.then:
        statement = If(negated(statement.test), statement.other, [])
    if len(statement.then) == 1 and isinstance(statement.then[0], If) and not statement.other and leaves(statement.then, number):
        inner = joined(statement.then[0], number)
        if not inner.other:
            return If(Op2(BOOL, "Both", None, statement.test, inner.test), inner.then, [])
    return statement


def negated(test):
    if isinstance(test, Truth):
        return Truth(BOOL, not test.value)
    if isinstance(test, Op1) and test.op == "Not":
        return test.value
    if isinstance(test, Op2) and test.op in OTHERWISE:
        other = OTHERWISE[test.op]
        if test.op in ("Lt", "Le"):
            return Op2(BOOL, other, test.sign, test.right, test.left) if test.sign == "Unsigned" else Op1(BOOL, "Not", test)
        if test.op in ("Both", "Either"):
            return Op2(BOOL, other, None, negated(test.left), negated(test.right))
        return Op2(BOOL, other, test.sign, test.left, test.right)
    return Op1(BOOL, "Not", test)


OTHERWISE = {"Eq": "Ne", "Ne": "Eq", "Lt": "Le", "Le": "Lt", "Both": "Either", "Either": "Both"}


def chosen(test, then, other):
    """The truth `if test { then } else { other }`."""
    if isinstance(then, Truth) and isinstance(other, Truth):
        return then if then == other else test if then.value else negated(test)
    if isinstance(other, Truth):
        return Op2(BOOL, "Either", None, negated(test), then) if other.value else Op2(BOOL, "Both", None, test, then)
    if isinstance(then, Truth):
        return Op2(BOOL, "Either", None, test, other) if then.value else Op2(BOOL, "Both", None, negated(test), other)
    return Op2(BOOL, "Either", None, Op2(BOOL, "Both", None, test, then), Op2(BOOL, "Both", None, negated(copy.deepcopy(test)), other))


def steps(body, step, inner=False):
    """Whether each `continue` of the loop's own stands behind its step, and nothing else sets what is counted."""
    for at, statement in enumerate(body):
        if isinstance(statement, Continue) and not inner and (at == 0 or body[at - 1] != step):
            return False
        if isinstance(statement, (Set, SetField)) and set_by(statement) == step.local:
            if inner or statement != step or body[at + 1:at + 2] != [Continue()]:
                return False
        if not all(steps(part, step, inner or isinstance(statement, (Loop, While, For))) for part in bodies(statement)):
            return False
    return True


def ends(body):
    """Whether the end of the list is never reached."""
    if not body:
        return False
    last = body[-1]
    if isinstance(last, (Return, Break, Continue, Leave)):
        return True
    if isinstance(last, (If, Cases)):
        return all(ends(b) for b in bodies(last))
    if isinstance(last, Loop):
        return not has_break(last.body)
    return False


def has_break(body):
    """Whether a loop's own break is there; that of a loop inside is not."""
    return any(isinstance(s, Break) or not isinstance(s, (Loop, While, For)) and any(has_break(b) for b in bodies(s)) for s in body)
