"""How each form of MIR is written in C. Each is one small function, under the form's name, so that a fault can be put into any of
them (faults.py). What is passed and returned is `Text`: C text with its precedence.

Integers of every width are unsigned in C, and so is what is computed: nothing here can overflow. Where C would compute in `int`, or in
another width than the form has, a cast says the width. A truth is an `int`, 0 or 1.
"""

from tree import Unknown


class Text(str):
    """C text; `.at(level)` puts it into parentheses where it binds less than that."""
    level = 15

    @classmethod
    def of(cls, text, level):
        made = cls(text)
        made.level = level
        return made

    def at(self, level):
        return str(self) if self.level >= level else f"({self})"


# C's own levels; what a shift or a bit operation stands on is put into parentheses, as compilers ask for
POSTFIX, UNARY, MUL, ADD, COMPARE, BITS, AND, OR = 14, 13, 12, 11, 9, 7, 4, 3

WIDTH = {8: "uint8_t", 32: "uint32_t", 64: "uint64_t"}

FORMS = {}


def form(name):
    def enter(function):
        FORMS[name] = function
        return function
    return enter


def write(fault, name, args):
    """A form with its arguments, or what a fault writes in its place."""
    if name not in FORMS:
        raise Unknown(f"the form {name}")
    written = fault.write(args) if fault and fault.form == name else None
    return FORMS[name](*args) if written is None else written


# ---- numbers

@form("number")
def number(bits, value):
    return Text.of(f"{hex(value)}u" if value >= 1 << 31 else f"{value}u", 15)


@form("true")
def true():
    return Text.of("1", 15)


@form("false")
def false():
    return Text.of("0", 15)


@form("Add Unsigned")
def add(bits, a, b):
    return Text.of(f"{a.at(ADD)} + {b.at(MUL)}", ADD)


@form("Sub Unsigned")
def sub(bits, a, b):
    return Text.of(f"{a.at(ADD)} - {b.at(MUL)}", ADD)


@form("Add Signed")
def add_signed(bits, a, b):
    # two's complement: the sum's bits are those of the unsigned one
    return Text.of(f"({WIDTH[bits]})({a.at(ADD)} + {b.at(MUL)})", UNARY)


@form("Sub Signed")
def sub_signed(bits, a, b):
    # two's complement: the difference's bits are those of the unsigned one
    return Text.of(f"({WIDTH[bits]})({a.at(ADD)} - {b.at(MUL)})", UNARY)


@form("Mul Unsigned")
def mul(bits, a, b):
    return Text.of(f"{a.at(MUL)} * {b.at(UNARY)}", MUL)


@form("Mul Unsigned, by 2^k")
def mul_shift(a, k):
    return Text.of(f"{a.at(UNARY)} << {k}", BITS)


@form("Div Unsigned, by 2^k")
def div_shift(a, k):
    return Text.of(f"{a.at(UNARY)} >> {k}", BITS)


@form("Rem Unsigned")
def rem(bits, a, b):
    return Text.of(f"{a.at(MUL)} % {b.at(UNARY)}", MUL)


@form("And")
def bit_and(bits, a, b):
    return Text.of(f"{a.at(UNARY)} & {b.at(UNARY)}", BITS)


@form("Or")
def bit_or(bits, a, b):
    return Text.of(f"{a.at(UNARY)} | {b.at(UNARY)}", BITS)


@form("Shl")
def shl(bits, a, b):
    return Text.of(f"{a.at(UNARY)} << {b.at(UNARY)}", BITS)


@form("Shr Unsigned")
def shr(bits, a, b):
    return Text.of(f"{a.at(UNARY)} >> {b.at(UNARY)}", BITS)


@form("Eq")
def eq(bits, a, b):
    return Text.of(f"{a.at(ADD)} == {b.at(ADD)}", COMPARE)


@form("Ne")
def ne(bits, a, b):
    return Text.of(f"{a.at(ADD)} != {b.at(ADD)}", COMPARE)


@form("Lt Unsigned")
def lt(bits, a, b):
    return Text.of(f"{a.at(ADD)} < {b.at(ADD)}", COMPARE)


@form("Lt Signed")
def lt_signed(bits, a, b):
    # two's complement: with the sign bit turned over, the order is that of unsigned numbers
    sign = f"{hex(1 << (bits - 1))}u"
    return Text.of(f"({a.at(UNARY)} ^ {sign}) < ({b.at(UNARY)} ^ {sign})", COMPARE)


@form("Le Unsigned")
def le(bits, a, b):
    return Text.of(f"{a.at(ADD)} <= {b.at(ADD)}", COMPARE)


@form("Not of a truth")
def not_bool(a):
    return Text.of(f"!{a.at(UNARY)}", UNARY)


@form("Not")
def not_bits(bits, a):
    return Text.of(f"({WIDTH[bits]})~{a.at(UNARY)}", UNARY)


@form("LeadingZeros")
def leading_zeros(a):
    return Text.of(f"leading_zeros({a})", POSTFIX)


# C99 has no such operation. Each step asks whether the upper half of what is left is 0.
LEADING_ZEROS = """// How many zero bits stand above the highest bit of x that is set; 32 where none is.
static inline uint32_t leading_zeros(uint32_t x)
{
    uint32_t zeros = 32u;
    if (x >> 16 != 0u) {
        zeros -= 16u;
        x >>= 16;
    }
    if (x >> 8 != 0u) {
        zeros -= 8u;
        x >>= 8;
    }
    if (x >> 4 != 0u) {
        zeros -= 4u;
        x >>= 4;
    }
    if (x >> 2 != 0u) {
        zeros -= 2u;
        x >>= 2;
    }
    return x >> 1 != 0u ? zeros - 2u : zeros - x;
}"""


@form("LeadingZeros, its function")
def leading_zeros_function():
    return LEADING_ZEROS


@form("TrailingZeros")
def trailing_zeros(a):
    return Text.of(f"trailing_zeros({a})", POSTFIX)


# Nor this one. Each step asks whether the lower half of what is left is 0.
TRAILING_ZEROS = """// How many zero bits stand below the lowest bit of x that is set; 32 where none is.
static inline uint32_t trailing_zeros(uint32_t x)
{
    uint32_t zeros = 0u;
    if ((x & 0xffffu) == 0u) {
        zeros += 16u;
        x >>= 16;
    }
    if ((x & 0xffu) == 0u) {
        zeros += 8u;
        x >>= 8;
    }
    if ((x & 0xfu) == 0u) {
        zeros += 4u;
        x >>= 4;
    }
    if ((x & 0x3u) == 0u) {
        zeros += 2u;
        x >>= 2;
    }
    if ((x & 0x1u) != 0u) {
        return zeros;
    }
    return x != 0u ? zeros + 1u : zeros + 2u;
}"""


@form("TrailingZeros, its function")
def trailing_zeros_function():
    return TRAILING_ZEROS


# The operations that C has not, and that a function of the file stands for.
COUNTS = ("LeadingZeros", "TrailingZeros")


@form("Cast Unsigned Unsigned")
def cast(bits, a):
    return Text.of(f"({WIDTH[bits]}){a.at(UNARY)}", UNARY)


@form("Cast Unsigned Signed")
def cast_signed(bits, a):
    # the same bits: a number of 32 bits that is below 2^31, which is proved
    return a


@form("Cast Signed Unsigned")
def cast_unsigned(bits, a):
    # the same bits: a number of 32 bits that is not negative, which is proved
    return a


@form("WrapAdd")
def wrapping_add(bits, a, b):
    return Text.of(f"({WIDTH[bits]})({a.at(ADD)} + {b.at(MUL)})", UNARY)


@form("WrapSub")
def wrapping_sub(bits, a, b):
    return Text.of(f"({WIDTH[bits]})({a.at(ADD)} - {b.at(MUL)})", UNARY)


def beside(text, level):
    """An operand of && or ||: compilers ask for parentheses around the other of the two."""
    return text if text.level == level else text.at(COMPARE)


@form("Both")
def both(a, b):
    return Text.of(f"{beside(a, AND)} && {beside(b, AND)}", AND)


@form("Either")
def either(a, b):
    return Text.of(f"{beside(a, OR)} || {beside(b, OR)}", OR)


# ---- structs, enums, slices

def member(of, name):
    """A member; of `(*p)` it is `p->name`."""
    return Text.of(f"{of[1:]}->{name}" if of.startswith("*") else f"{of.at(POSTFIX)}.{name}", POSTFIX)


@form("field of a struct")
def field(of, names, number):
    return member(of, names[number])


@form("tag")
def tag_of(of):
    return member(of, "tag")


@form("field of a variant")
def held(of, variant, number, count):
    part = "" if count == 1 else f".f{number}"
    return member(of, f"as.{variant}{part}")


@form("is of a variant")
def is_of(tag, name):
    return Text.of(f"{tag} == {name}", COMPARE)


@form("address")
def address(of):
    return Text.of(f"&{of.at(POSTFIX)}", UNARY)


@form("what a pointer leads to")
def pointed(pointer):
    return Text.of(f"*{pointer.at(UNARY)}", UNARY)


@form("struct")
def make_struct(type_name, fields):
    return Text.of(f"{type_name}_of({', '.join(fields)})", POSTFIX)


@form("variant of an enum")
def make_variant(type_name, variants, variant, fields):
    return Text.of(f"{type_name}_{variants[variant]}({', '.join(fields)})", POSTFIX)


@form("length of a slice")
def length(name):
    return Text.of(f"{name}_len", 15)


@form("element")
def element(pointer, index):
    return Text.of(f"{pointer.at(POSTFIX)}[{index}]", POSTFIX)


@form("part of a slice")
def part(pointer, index):
    return Text.of(f"{pointer.at(ADD)} + {index.at(MUL)}", ADD)


@form("length of a part")
def part_length(value):
    return Text.of(f"(size_t){value.at(UNARY)}", UNARY)


@form("call")
def call(name, args, types):
    return Text.of(f"{name}({', '.join(args)})", POSTFIX)


# ---- statements, each a list of lines

def indented(lines):
    return [f"    {line}" if line else line for line in lines]


@form("declare a local")
def declare_local(c_type, name, value):
    return [f"{c_type}{'' if c_type.endswith('*') else ' '}{name} = {value};"]


@form("set a local")
def set_local(name, value):
    return [f"{name} = {value};"]


@form("set a field")
def set_field(to, value):
    return [f"{to} = {value};"]


@form("store")
def store(to, value):
    return [f"{to} = {value};"]


@form("do")
def do(value):
    return [f"{value};"]


@form("if")
def if_else(test, then, other):
    lines = [f"if ({test}) {{"] + indented(then)
    return lines + (["} else {"] + indented(other) + ["}"] if other else ["}"])


@form("switch")
def switch(tag, tags, arms):
    """The last arm has no test: it is for all others. `tags` has a list for each arm."""
    lines = []
    for number, arm in enumerate(arms):
        test = "{" if number + 1 == len(arms) else f"if ({' || '.join(f'{tag} == {one}' for one in tags[number])}) {{"
        if number + 1 < len(arms) or arm:
            lines += ([test] if number == 0 else [f"}} else {test}"]) + indented(arm)
    return lines + ["}"]


@form("switch, leaving")
def switch_leaving(tag, wanted, other):
    return [f"if ({tag} != {wanted}) {{"] + indented(other) + ["}"]


@form("while")
def while_loop(test, body):
    return [f"while ({test}) {{"] + indented(body) + ["}"]


@form("loop")
def loop(body):
    return ["for (;;) {"] + indented(body) + ["}"]


@form("for")
def for_loop(first, test, step, body):
    return [f"for ({first}; {test}; {step}) {{"] + indented(body) + ["}"]


@form("step")
def step(name, more):
    return f"{name}++" if more == "1u" else f"{name} += {more}"


@form("continue")
def continue_loop():
    return ["continue;"]


@form("break")
def break_loop():
    return ["break;"]


@form("return a value")
def return_value(value, c_type):
    return [f"return {value};"]


@form("return")
def return_nothing():
    return ["return;"]


@form("fill an array")
def fill(name, count, value):
    return [f"for (size_t each = 0u; each < {count}u; each++) {{", f"    {name}[each] = {value};", "}"]
