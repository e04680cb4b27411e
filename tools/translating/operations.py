"""A C program that asks every operation, as forms.py writes it, about numbers at the edges of its width, and compares what C answers with
what the kit's logic says (its file Mir/Val.antt), computed here. Some of it no pool can show: a test whose two branches do the same, say.
Only operands for which an operation is defined are asked about; the proofs see to it that there are no others."""

from forms import COUNTS, Text, WIDTH, indented


def edges(bits):
    near = {0, 1, 2, 3, 4, 7, 8, 9, 255, 256, 257, 65535, 65536}
    for power in (bits // 2, bits - 1, bits):
        near |= {2 ** power - 2, 2 ** power - 1, 2 ** power, 2 ** power + 1}
    return sorted(n for n in near if n < 2 ** bits)


def signed(bits, a):
    return a - 2 ** bits if a >> (bits - 1) else a


def low_zeros(bits, a):
    return bits if a % 2 ** bits == 0 else 0 if a % 2 else 1 + low_zeros(bits - 1, a // 2)


def fits(bits, value):
    return value if 0 <= value < 2 ** bits else None


def fits_signed(bits, value):
    return value % 2 ** bits if -2 ** (bits - 1) <= value < 2 ** (bits - 1) else None


# form, widths, what it is; None where it is not defined
OF_TWO = [
    ("Add Unsigned", (32, 64), lambda w, a, b: fits(w, a + b)),
    ("Sub Unsigned", (32, 64), lambda w, a, b: fits(w, a - b)),
    ("Mul Unsigned", (32, 64), lambda w, a, b: fits(w, a * b)),
    ("Add Signed", (32,), lambda w, a, b: fits_signed(w, signed(w, a) + signed(w, b))),
    ("WrapAdd", (32, 64), lambda w, a, b: (a + b) % 2 ** w),
    ("WrapSub", (32, 64), lambda w, a, b: (a - b) % 2 ** w),
    ("Sub Signed", (32,), lambda w, a, b: fits_signed(w, signed(w, a) - signed(w, b))),
    ("Rem Unsigned", (32, 64), lambda w, a, b: a % b if b else None),
    ("And", (32, 64), lambda w, a, b: a & b),
    ("Or", (32, 64), lambda w, a, b: a | b),
    ("Shl", (32, 64), lambda w, a, b: (a << b) % 2 ** w if b < w else None),
    ("Shr Unsigned", (32, 64), lambda w, a, b: a >> b if b < w else None),
    ("Eq", (8, 32, 64), lambda w, a, b: int(a == b)),
    ("Ne", (8, 32, 64), lambda w, a, b: int(a != b)),
    ("Lt Unsigned", (32, 64), lambda w, a, b: int(a < b)),
    ("Lt Signed", (32,), lambda w, a, b: int(signed(w, a) < signed(w, b))),
    ("Le Unsigned", (32, 64), lambda w, a, b: int(a <= b)),
]
BY_POWER = [
    ("Mul Unsigned, by 2^k", lambda w, a, k: fits(w, a << k)),
    ("Div Unsigned, by 2^k", lambda w, a, k: a >> k),
]
# from, to
CASTS = [
    ("Cast Unsigned Unsigned", 64, 32, lambda a: fits(32, a)),
    ("Cast Unsigned Unsigned", 32, 8, lambda a: fits(8, a)),
    ("Cast Unsigned Unsigned", 32, 64, lambda a: a),
    ("Cast Unsigned Unsigned", 8, 32, lambda a: a),
    ("Cast Unsigned Signed", 32, 32, lambda a: a if a < 2 ** 31 else None),
    ("Cast Signed Unsigned", 32, 32, lambda a: a if a < 2 ** 31 else None),
]


class Operations:
    """`form` writes a form, with a fault or without."""

    def __init__(self, form):
        self.form, self.functions, self.calls = form, [], []

    def ask(self, name, result, params, text, cases):
        """A function of the text, and a call of it for each case: its operands, then what it must answer."""
        self.ask_body(name, result, params, [f"return ({WIDTH[result]})({text});"], cases)

    def ask_body(self, name, result, params, lines, cases):
        function = f"op{len(self.functions)}"
        declared = ", ".join(f"{WIDTH[bits]} {param}" for param, bits in params)
        body = "\n".join(indented(lines))
        self.functions.append(f"// {name}\nstatic {WIDTH[result]} {function}({declared})\n{{\n{body}\n}}\n")
        types = ", ".join(WIDTH[bits] for _, bits in params)
        rows = ", ".join("{" + ", ".join(f"{hex(n)}u" for n in case) + "}" for case in cases)
        of = ", ".join(f"({WIDTH[bits]})t[i][{at}]" for at, (_, bits) in enumerate(params))
        self.calls.append(f"    {{ // {types}\n        static const volatile uint64_t t[][{len(params) + 1}] = {{{rows}}};\n"
                          f"        for (unsigned i = 0; i < {len(cases)}u; i++)\n"
                          f"            expect(\"{name}\", (uint64_t){function}({of}) == t[i][{len(params)}], i);\n    }}\n")

    def text(self):
        a, b = Text.of("a", 15), Text.of("b", 15)
        for name, widths, meaning in OF_TWO:
            for w in widths:
                cases = [(x, y, meaning(w, x, y)) for x in edges(w) for y in self.seconds(name, w) if meaning(w, x, y) is not None]
                self.ask(name, w, [("a", w), ("b", w)], self.form(name, w, a, b), cases)
        for name, meaning in BY_POWER:
            for w in (32, 64):
                for k in (1, 2, 3, 8, 16, 24, 32):
                    if k < w:
                        cases = [(x, meaning(w, x, k)) for x in edges(w) if meaning(w, x, k) is not None]
                        self.ask(name, w, [("a", w)], self.form(name, a, k), cases)
        for name, meaning in (("Both", min), ("Either", max)):
            cases = [(x, y, meaning(x, y)) for x in (0, 1) for y in (0, 1)]
            self.ask(name, 8, [("a", 8), ("b", 8)], self.form(name, a, b), cases)
        for name, width, to, meaning in CASTS:
            self.ask(name, to, [("a", width)], self.form(name, to, a), [(x, meaning(x)) for x in edges(width) if meaning(x) is not None])
        self.ask("Not", 32, [("a", 32)], self.form("Not", 32, a), [(x, 2 ** 32 - 1 - x) for x in edges(32)])
        self.ask("Not of a truth", 8, [("a", 8)], self.form("Not of a truth", a), [(0, 1), (1, 0)])
        self.ask("LeadingZeros", 32, [("a", 32)], self.form("LeadingZeros", a), [(x, 32 - x.bit_length()) for x in self.every_bit()])
        self.ask("TrailingZeros", 32, [("a", 32)], self.form("TrailingZeros", a), [(x, low_zeros(32, x)) for x in self.every_low_bit()])
        self.ask("is of a variant", 8, [("a", 8)], self.form("is of a variant", a, "2u"), [(x, int(x == 2)) for x in range(4)])
        arms = [[f"return {n}u;"] for n in range(3)]
        switch = self.form("switch", a, [["1u"], ["2u", "4u"], []], arms)
        self.ask_body("switch", 8, [("a", 8)], switch, [(x, {1: 0, 2: 1, 4: 1}.get(x, 2)) for x in range(6)])
        self.ask("true", 8, [("a", 8)], Text.of(f"a == {self.form('true')}", 9), [(1, 1), (0, 0)])
        self.ask("false", 8, [("a", 8)], Text.of(f"a == {self.form('false')}", 9), [(0, 1), (1, 0)])
        return "\n".join([
            "// Every operation of tools/c99 at the edges: tools/translating/operations.py writes it.",
            "#include <stdint.h>", "#include <stdio.h>", "#include <stddef.h>", "",
            "static unsigned passed, failed;", "",
            "static void expect(const char *what, int holds, unsigned i)\n{\n    if (holds) {\n        passed++;\n    } else {\n"
            "        failed++;\n        printf(\"  operations: %s, case %u\\n\", what, i);\n    }\n}\n",
            *(self.form(f"{op}, its function") + "\n" for op in COUNTS), *self.functions,
            "int main(void)\n{", *self.calls,
            "    printf(\"%u passed, %u failed\\n\", passed, failed);\n    return failed != 0;\n}\n"])

    @staticmethod
    def seconds(name, bits):
        return [n for n in (0, 1, 2, 3, 7, 8, 31, 32, 63) if n < bits] if name.startswith("Sh") else edges(bits)

    @staticmethod
    def every_bit():
        return sorted({0} | {n for k in range(32) for n in (2 ** k, 2 ** k + 1, 2 ** (k + 1) - 1) if n < 2 ** 32})

    @staticmethod
    def every_low_bit():
        return sorted({0} | {n for k in range(32) for n in (2 ** k, 3 * 2 ** k, 2 ** 31 + 2 ** k, 2 ** 32 - 2 ** k) if n < 2 ** 32})
