"""selftest.py ROOT: the translator by itself. What it does not know stops it: MIR of the proved crates is changed in one place, and no file
may come of it. And a value is moved to its use only where that changes nothing. The last line is `N passed, M failed`."""

import copy
import os
import sys
import tempfile

from crates import Crates
from file import File
from forms import COUNTS
from program import Program
from shape import Shaper
from stepping import Stepping
from source import Sources
from tree import (Address, Block, BOOL, Break, Call, Cases, Continue, Do, Field, Fn, For, Held, If, Int, Leave, Load, Loop, Make, Named,
                  Never, Num, Offset, Op2, Ref, Return, Set, SetField, Slice, Start, Store, Truth, UNIT, Unknown, Unless, Var, While)

root, = sys.argv[1:]
passed = failed = 0


def expect(holds, what):
    global passed, failed
    passed, failed = passed + bool(holds), failed + (not holds)
    if not holds:
        print(f"failed: {what}")


# ---- what is not known

CRATES = Crates(root, "board")
FILES = [os.path.join(root, f"target/mir/{crate}.json") for crate in ["core", *CRATES.names]]
PROGRAM = Program(FILES)


def stops(what, name, change, words):
    """Whether the translator ends with a message that has the words, where this function is changed."""
    program = Program(FILES)
    raw = program.raw[name] = copy.deepcopy(program.raw[name])
    if change(raw) is False:
        return expect(False, f"{what}: {name} has no such form any more")
    try:
        File(root, CRATES, program).write()
    except Unknown as why:
        return expect(words in str(why), f"{what}: it says '{why}'")
    except Exception as why:
        return expect(False, f"{what}: it breaks with {type(why).__name__}: {why}")
    expect(False, f"{what}: it is translated")


def word(old, new):
    """The first `old` among the words of the body becomes `new`, or the words of a list."""
    def change(raw):
        if old not in raw["body"]:
            return False
        at = raw["body"].index(old)
        raw["body"][at:at + 1] = new if isinstance(new, list) else [new]
    return change


def deep(test, put):
    """The first form for which the test holds is changed by `put`."""
    def walk(form):
        if test(form):
            put(form)
            return True
        parts = form.values() if isinstance(form, dict) else form if isinstance(form, list) else []
        return any(walk(part) for part in parts)
    return lambda raw: walk(raw["body"])


def key(name):
    return lambda form: isinstance(form, dict) and name in form


def rename(old, new):
    return deep(key(old), lambda form: form.update({new: form.pop(old)}))


def local(number, **what):
    return lambda raw: raw["locals"][number].update(what)


def has_op(op):
    return lambda form: isinstance(form, list) and len(form) == 3 and form[0] == op


def calls(old, new):
    """The first call, or the first of that function, becomes one of another."""
    return deep(lambda f: isinstance(f, dict) and "Fn" in f and old in (None, f["Fn"][0]), lambda f: f["Fn"].__setitem__(0, new))


def operation(old, new):
    return deep(has_op(old), lambda form: form.__setitem__(0, new))


FIND = "bins::chain::along"
stops("a word of the body", FIND, word("Skip", "Trap"), "'Trap'")
stops("an exit of two loops", FIND, word({"Exit": 1}, {"Exit": 2}), "an exit of 2")
stops("a loop without a block", FIND, word("Block", []), "a loop that is not the whole of a block")
stops("a block that is left from inside a loop", FIND, lambda raw: word("Block", ["Block", "Block"])(raw) or word({"Exit": 1}, {"Exit": 2})(raw),
      "an exit of 2")
stops("a call by a pointer", FIND, rename("Call", "CallV"), "'CallV'")
stops("a signed sum", "header::zeros", operation({"Add": "Unsigned"}, {"Mul": "Signed"}), "Mul Signed")
stops("an operation of two", "heads::head::U32FromHead::from", operation("Or", "Xor"), "'Xor'")
stops("an operation of one", "classes::class_of", deep(lambda f: isinstance(f, list) and f[:1] == ["LeadingZeros"],
                                                     lambda f: f.__setitem__(0, "CountOnes")), "'CountOnes'")
for count in COUNTS:
    stops(f"{count} of a truth", "classes::class_of", deep(lambda f: isinstance(f, list) and f[:1] == ["LeadingZeros"],
                                                         lambda f: f.__setitem__(slice(0, 2), [count, "True"])), f"{count} of ")
stops("a cast to 16 bits", "words::word::U32Word::write", deep(key("Cast"), lambda f: f.update(Cast=["Unsigned", "Unsigned", 16])), "the cast")
stops("a cast that changes width and sign", "words::word::U32Word::read", deep(key("Cast"), lambda f: f.update(Cast=["Unsigned", "Signed", 32])), "the cast")
stops("a number of 16 bits", FIND, deep(key("Int"), lambda f: f["Int"].update(width=16)), "a number that is none of its width")
stops("operands of two widths", FIND, deep(lambda f: f == {"Int": {"width": 32, "value": 0}}, lambda f: f["Int"].update(width=64)), "is wanted")
stops("a type", FIND, local(9, ty={"Float": 32}), "'Float'")
stops("an integer of 128 bits", FIND, local(9, ty={"Int": 128}), "an integer of 128 bits")
stops("a pointer in memory", FIND, local(9, home="MemorySlot", ty="Ptr"), "a local of another home")
stops("an array that is in no memory", FIND, local(9, ty={"Array": [{"Int": 32}, {"Lit": 3}]}), "a local of another home")
stops("a struct without a declaration", FIND, local(9, ty={"Struct": ["S", []]}), "a struct without a declaration")
METHOD = {"Method": [{"Impl": ["gone", [], []]}, 0, {"types": [], "dicts": []}]}
stops("a method of no impl", FIND, deep(key("Fn"), lambda f: (f.clear(), f.update(METHOD))), "method 0 of gone")
stops("a method of an impl that is not given", FIND, deep(key("Fn"), lambda f: (f.clear(), f.update(
    {"Method": [{"Given": 0}, 0, {"types": [], "dicts": []}]}))), "parameter 0, which is not given")
stops("a method of something else than an impl", FIND, deep(key("Fn"), lambda f: (f.clear(), f.update(
    {"Method": [{"Super": 0}, 0, {"types": [], "dicts": []}]}))), "'Super'")
stops("a call of nothing", FIND, calls(None, "bins::chain::gone"), "which no crate has")
stops("a call with other types", FIND, calls(None, "words::word::put_field"), "other types")
stops("a call with a type parameter", FIND, deep(key("Fn"), lambda f: f["Fn"][1].update(types=[{"Int": 32}])), "other parameters than its own")
stops("a call with an impl too many", FIND, deep(key("Fn"), lambda f: f["Fn"][1].update(dicts=[{"Impl": ["gone", [], []]}])),
      "other parameters than its own")
stops("a function that is not given its parameter", FIND, lambda raw: raw["generics"].update(types=[{}]), "other parameters than its own")
stops("a parameter that is not given", FIND, local(9, ty={"Param": 0}), "parameter 0, which is not given")
stops("a type with a parameter", "walk::looking_up::look_up", lambda raw: raw["locals"][0]["ty"]["Named"].__setitem__(1, [{"Int": 32}]), "another type")
stops("a function that calls itself", "bins::entering::enter", calls("bins::entering::enter_bin", "bins::entering::enter"), "calls itself")
stops("a switch with an arm too many", "board::halves::of", deep(key("Switch"), lambda f: f["Switch"].__setitem__(2, True)),
      "a switch that has not one arm")
stops("a switch with two arms for one variant", "board::halves::of",
      deep(key("Switch"), lambda f: f["Switch"].__setitem__(1, [[1], [1]])), "a switch that has not one arm")
stops("a switch on a number with no arm for all others", "board::halves::of",
      deep(key("Switch"), lambda f: f["Switch"].__setitem__(0, {"Int": {"width": 32, "value": 2}})), "something else than an enum's tag")
stops("an offset that is no index", "marks::put_in",
      deep(lambda f: f == {"Int": {"width": 64, "value": 8}}, lambda f: f["Int"].update(value=4)), "no index of elements")
stops("a field that a variant has not", "walk::looking_up::found_at",
      deep(key("Assign"), lambda f: f["Assign"].__setitem__(0, {"local": 0, "steps": [{"Variant": 0}, {"Field": 9}]})), "a field that")
stops("an array whose length is not given", "bins::leaving::leave_both", deep(key("Repeat"), lambda f: f["Repeat"].__setitem__(1, {"Param": 0})),
      "parameter 0, which is not given")
stops("a tag that no variant has", "walk::looking_up::found_at",
      deep(key("Aggregate"), lambda f: f["Aggregate"].__setitem__(0, {"Int": {"width": 8, "value": 9}})), "no number of a variant")
stops("a struct with too few fields", FIND, deep(key("Aggregate"), lambda f: f["Aggregate"].pop()), "other fields than its own")
stops("words that are left over", FIND, lambda raw: raw["body"].append("Skip"), "words are left")
stops("an end without a result", "bins::chain::linked", word("Return", "Skip"), "without a result")

# ---- what C calls

def exported(head="#[unsafe(no_mangle)]", name="f", call="board::f(a, b)"):
    """The calls that C has, where the crate board has the function f of a and b, and board_c is as given."""
    texts = {"board": "pub fn f(a: u32, b: u32) -> u64\n{\n    a as u64\n}",
             "board_c": f'{head}\npub extern "C" fn {name}(a: u32, b: u32) -> u64\n{{\n    {call}\n}}'}
    with tempfile.TemporaryDirectory() as room:
        for crate, text in texts.items():
            os.makedirs(os.path.join(room, "crates", crate, "src"))
            with open(os.path.join(room, "crates", crate, "src/lib.rt"), "w") as to:
                to.write(text + "\n")
        try:
            return [path for path, function in Sources(room, ["board"], "board_c").functions.items() if function.exported]
        except Unknown:
            return "it stops"


expect(exported() == ["board::f"], "what board_c exports is board's")
expect(exported(head="// f") == "it stops", "a function of board_c that is not exported")
expect(exported(name="g", call="board::g(a, b)") == "it stops", "a call that board has not")
expect(exported(name="g") == "it stops", "a call of a function of another name")
expect(exported(call="board::f(b, a)") == "it stops", "a call with other arguments")
expect(exported(call="board::f(a, b) + 1") == "it stops", "more than a call")

# ---- what C has not

program = Program(FILES)
other = program.raw["classes::class_of"] = copy.deepcopy(program.raw["classes::class_of"])
deep(lambda f: isinstance(f, list) and f[:1] == ["LeadingZeros"], lambda f: f.__setitem__(0, "TrailingZeros"))(other)
texts = {"leading_zeros": File(root, CRATES, PROGRAM).write(), "trailing_zeros": File(root, CRATES, program).write()}
for name, text in texts.items():
    expect(text.count(f"static inline uint32_t {name}(uint32_t x)\n") == 1, f"{name} has its function once")
    expect(f"- {name}(less_one)" in text, f"{name} is called")

# ---- what is moved

POOL, BYTE, WORD, KIND = Slice(True, Int(8)), Ref(True, Int(8)), Int(32), Named("K")


class Callees:
    """A function that reads, one that writes, and one that does neither."""
    @staticmethod
    def signature(name):
        return WORD, {"reads": [Slice(False, Int(8))], "writes": [POOL], "neither": [WORD], "changes": [Ref(True, WORD)]}[name]


def shaped(*body, slots=(), counters=(), plain=False):
    """Parameters: 1, the pool, and 2, a number. 3 is named by the source; from 4 on they are steps of a sum; 7 is an enum, 8 a truth."""
    fn = Fn("f", 2, [UNIT, POOL, WORD, WORD, WORD, WORD, WORD, KIND, BOOL], copy.deepcopy([*body, Return(None)]), set(slots))
    return Shaper(Callees, fn, {1, 2, 3}, plain, set(counters)).shape()


pool, x, kept, t, u = Var(POOL, 1), Var(WORD, 2), Var(WORD, 3), Var(WORD, 4), Var(WORD, 5)


def at(index):
    return Load(Int(8), Offset(BYTE, Start(BYTE, pool), Num(Int(64), index)))


def calling(name, *args):
    return Call(WORD, name, list(args))


def add(a, b):
    return Op2(WORD, "Add", "Unsigned", a, b)


read, wrote, store = calling("reads", pool), calling("writes", pool), Store(at(0), Num(Int(8), 1))
use = Do(calling("neither", t))
expect(shaped(Set(4, add(x, x)), use) == [Do(calling("neither", add(x, x)))], "a sum is written at its use")
expect(shaped(Set(4, read), use) == [Do(calling("neither", read))], "what is read is written at its use")
expect(len(shaped(Set(4, read), store, use)) == 3, "nothing is read after a store that came before")
expect(len(shaped(Set(4, at(0)), Do(wrote), use)) == 3, "nor after a call that writes")
expect(len(shaped(Set(4, add(x, x)), store, use)) == 2, "a sum of locals may be computed after a store")
expect(len(shaped(Set(4, add(kept, x)), Set(3, x), use, Do(calling("neither", kept)))) == 4, "but not after a local of it is set")
expect(len(shaped(Set(4, wrote), Do(calling("neither", t)))) == 1, "a call that writes is written in the next statement")
expect(len(shaped(Set(4, wrote), Do(add(t, at(0))))) == 2, "but not beside something that reads")
expect(len(shaped(Set(4, wrote), Set(5, read), Do(add(t, u)))) == 2, "and nothing that reads comes beside it")
expect(len(shaped(Set(4, wrote), store, use)) == 3, "nor further down")
expect(len(shaped(Set(4, read), Do(add(t, t)))) == 2, "what is used twice is computed once")
expect(len(shaped(Set(3, read), Do(calling("neither", kept)))) == 2, "what the source names is kept")

local, changes = Var(WORD, 6), Do(calling("changes", Address(Ref(True, WORD), Var(WORD, 6))))
expect(len(shaped(Set(6, x), Set(4, local), changes, use, slots={6})) == 4, "a local in memory is not read after a call that may change it")
expect(len(shaped(Set(6, x), Set(4, local), Set(6, kept), use, slots={6})) == 4, "nor after it is set")
expect(len(shaped(Set(6, x), Set(4, at(0)), Set(6, kept), use, changes, slots={6})) == 5, "and setting it writes memory")
expect(shaped(Set(6, x), Do(calling("neither", local)), slots={6}) == [Do(calling("neither", x))], "a copy that nothing changes is what it is of")
expect(len(shaped(Set(6, x), changes, slots={6})) == 2, "a copy that something may change is not")

# ---- blocks that are left

a, b, one, two = (Op2(BOOL, "Lt", "Unsigned", x, Num(WORD, n)) for n in (1, 2, 3, 4))
done, other, third = (Do(calling("neither", Num(WORD, n))) for n in (1, 2, 3))
negative = Op2(BOOL, "Le", "Unsigned", Num(WORD, 1), x)


def op(name, left, right):
    return Op2(BOOL, name, None, left, right)


expect(shaped(Block(1, [If(a, [If(b, [done, Leave(1)], [])], []), other])) == [If(op("Both", a, b), [done], [other])], "a && b")
expect(shaped(Block(1, [Block(2, [If(a, [], [If(b, [], [Leave(2)])]), done, Leave(1)]), other])) ==
       [If(op("Either", a, b), [done], [other])], "a || b")
expect(shaped(Block(1, [If(a, [done, Leave(1)], []), other, third])) == [If(a, [done], [other, third])], "what comes behind is the other branch")
expect(shaped(Block(1, [If(a, [], [Leave(1)]), done])) == [If(negative, [], [done])], "a block that is left at once")
expect(shaped(Block(1, [If(a, [done], []), If(b, [Leave(1)], []), other])) == [If(a, [done], []), If(b, [], [other])], "what comes before stays")
try:
    shaped(Block(1, [If(a, [If(b, [Leave(1)], [done])], [third]), If(a, [other], []), other, third]))
    expect(False, "what would be written twice is not known")
except Unknown:
    expect(True, "what would be written twice is not known")

# ---- the step of an iterator

WALK, GIVEN, BLOCK = Named("Walk"), Named("Option<Block>"), Named("Block")
own = Load(WALK, Var(Ref(True, WALK), 1))
place, head = Var(WORD, 2), Var(WORD, 3)
none, some = Return(Make(GIVEN, 0, [])), Return(Make(GIVEN, 1, [Make(BLOCK, None, [place, head])]))
STEP = [If(Op2(BOOL, "Le", "Unsigned", Field(WORD, own, 1), Field(WORD, own, 0)), [none], []), Set(2, Field(WORD, own, 0)),
        Set(3, Load(WORD, Offset(BYTE, Var(BYTE, 9), Field(WORD, own, 0)))), Store(Field(WORD, own, 0), head), some]


def stepped(*rest, step=STEP, name="own::WalkIterator::next"):
    """A loop over an iterator, which is local 1; 2 is what its step answers, 3 what it gives; what comes behind is of the step."""
    answer = Var(GIVEN, 2)
    asked = Set(2, Call(GIVEN, name, [Address(Ref(True, WALK), Var(WALK, 1))]))
    fn = Fn("f", 0, [UNIT, WALK, GIVEN, BLOCK], [])
    body = [Loop([asked, Unless(answer, 1, [Break()]), Set(3, Held(BLOCK, answer, 1, 0)), *rest])]
    Stepping(fn, {}, lambda path: ([GIVEN, Ref(True, WALK), WORD, WORD], {}, step)).write(body)
    return body[0].body


walk, block = Var(WALK, 1), Var(BLOCK, 3)
size = Do(calling("neither", Field(WORD, block, 1)))
expect(stepped(size) == [If(Op2(BOOL, "Le", "Unsigned", Field(WORD, walk, 1), Field(WORD, walk, 0)), [Break()], []),
                         Set(5, Load(WORD, Offset(BYTE, Var(BYTE, 11), Field(WORD, walk, 0)))), SetField(Field(WORD, walk, 0), Var(WORD, 5)),
                         Do(calling("neither", Var(WORD, 5)))], "a step is written into its loop, and what nobody reads is not")
expect(stepped(Do(calling("neither", block)))[-2] == Set(3, Make(BLOCK, None, [Var(WORD, 4), Var(WORD, 5)])), "what is read as a whole is made")
expect(isinstance(stepped(size, Do(calling("neither", Var(GIVEN, 2))))[0].value, Call), "an answer that is read once more is asked for")
expect(isinstance(stepped(size, step=[*STEP[:-1], none])[0].value, Call), "nor is a step written in that gives nothing at its end")
expect(isinstance(stepped(size, name="core::WalkIterator::next")[0].value, Call), "nor one of the kit's own")

# ---- branches that are never gone

expect(shaped(If(a, [done], [Never()])) == [done] and shaped(If(a, [Never()], [done])) == [done], "a test whose other branch is never gone")
kind = Var(KIND, 7)
expect(shaped(Cases(kind, [[0], [1]], [[done], [other, Never()]])) == [done], "a case that never is")
expect(shaped(Cases(kind, [[0], [1], [2]], [[Never()], [done], [other]])) == [Cases(kind, [[1], [2]], [[done], [other]])], "and one of three")
expect(shaped(Cases(kind, [[1], [0]], [[done], [Return(None)]]), other) == [Unless(kind, 1, [Return(None)]), done, other], "let .. else")

# ---- loops that count

count, less = Set(3, add(kept, Num(WORD, 1))), Op2(BOOL, "Lt", "Unsigned", kept, x)
end, begin = If(less, [], [Break()]), Set(3, Num(WORD, 0))
expect(shaped(begin, Loop([end, done, count]), counters={3}) == [For(begin, less, count, [done])], "a loop that counts")
expect(shaped(begin, Loop([end, If(a, [count, Continue()], []), done, count]), counters={3}) ==
       [For(begin, less, count, [If(a, [Continue()], []), done])], "and steps before it goes on")
expect(shaped(begin, Loop([end, done, count])) == [begin, While(less, [done, count])], "what the source counts by hand stays")
for words, loop in (("that goes on without a step", [end, If(a, [Continue()], []), done, count]),
                    ("that sets its counter", [end, begin, done, count]), ("that ends without a step", [end, count, done])):
    expect(isinstance(shaped(begin, Loop(loop), counters={3})[1], While), f"a loop {words} is no counted one")

# ---- truths, where no source has the function

for words, then, rest, made in (("a", True, False, a), ("not a", False, True, negative), ("a && b", b, False, op("Both", a, b)),
                                ("a || b", True, b, op("Either", a, b)), ("!a && b", False, b, op("Both", negative, b)),
                                ("!a || b", b, True, op("Either", negative, b))):
    then, rest = (Truth(BOOL, v) if isinstance(v, bool) else v for v in (then, rest))
    expect(shaped(If(a, [Set(8, then)], [Set(8, rest)]), Set(8, Var(BOOL, 8)), plain=True)[0] == Set(8, made), f"a branch that sets {words}")

print(f"{passed} passed, {failed} failed")
sys.exit(failed != 0)
