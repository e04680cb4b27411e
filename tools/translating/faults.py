"""Slips of the translator, put in on purpose: for every form one or more that write something else. c/faults tries each, and the
comparisons must find it. A fault is a form's name, a few words that say what is wrong, and a function of the form's own function and
its arguments, which returns None where the slip makes no sense."""

import re

from forms import ADD, FORMS, Text, UNARY, indented

FAULTS = []


class Fault:
    """One of them, at every place or at one, by its number from 0."""

    def __init__(self, number, place=None):
        self.form, self.words, self.function = FAULTS[number]
        self.place, self.places = place, 0

    def write(self, args):
        """What it writes in place of the form, or None where it writes nothing else."""
        written = self.function(FORMS[self.form], *args)
        if written is None:
            return None
        self.places += 1
        return written if self.place in (None, self.places - 1) else None


def fault(form, words):
    def enter(function):
        FAULTS.append((form, words, function))
        return function
    return enter


def number_type(c_type):
    return c_type in ("uint8_t", "uint32_t", "uint64_t")


def cast(c_type, text):
    return Text.of(f"({c_type}){text.at(UNARY)}", UNARY)


def plus_one(text):
    return Text.of(f"{Text.of(text, 1 if ' ' in text else 15).at(ADD)} + 1u", ADD)


# ---- numbers

fault("number", "one more")(lambda own, bits, value: own(bits, value + 1))
fault("number", "8 bits of it")(lambda own, bits, value: own(bits, value % 256))
fault("true", "false")(lambda own: Text.of("0", 15))
fault("false", "true")(lambda own: Text.of("1", 15))
fault("Add Unsigned", "the left operand twice")(lambda own, bits, a, b: own(bits, a, a))
fault("Add Unsigned", "the difference")(lambda own, bits, a, b: FORMS["Sub Unsigned"](bits, a, b))
fault("Add Unsigned", "64 bits in 32")(lambda own, bits, a, b: Text.of(f"(uint32_t)({own(bits, a, b)})", UNARY) if bits == 64 else None)
fault("Sub Unsigned", "operands exchanged")(lambda own, bits, a, b: own(bits, b, a))
fault("Sub Unsigned", "the sum")(lambda own, bits, a, b: FORMS["Add Unsigned"](bits, a, b))
fault("Add Signed", "the difference")(lambda own, bits, a, b: FORMS["Sub Signed"](bits, a, b))
fault("Sub Signed", "operands exchanged")(lambda own, bits, a, b: own(bits, b, a))
fault("Mul Unsigned", "the sum")(lambda own, bits, a, b: FORMS["Add Unsigned"](bits, a, b))
fault("Mul Unsigned, by 2^k", "one bit less")(lambda own, a, k: own(a, k - 1))
fault("Mul Unsigned, by 2^k", "64 bits in 32")(lambda own, a, k: Text.of("0u", 15) if k >= 32 else None)
fault("Div Unsigned, by 2^k", "one bit more")(lambda own, a, k: own(a, k + 1))
fault("Div Unsigned, by 2^k", "the product")(lambda own, a, k: FORMS["Mul Unsigned, by 2^k"](a, k))
fault("Rem Unsigned", "the quotient")(lambda own, bits, a, b: Text.of(f"{a.at(12)} / {b.at(UNARY)}", 12))
fault("Rem Unsigned", "the number itself")(lambda own, bits, a, b: a)
fault("And", "or")(lambda own, bits, a, b: FORMS["Or"](bits, a, b))
fault("And", "the right operand alone")(lambda own, bits, a, b: b)
fault("Or", "and")(lambda own, bits, a, b: FORMS["And"](bits, a, b))
fault("Or", "the left operand alone")(lambda own, bits, a, b: a)
fault("Shl", "to the right")(lambda own, bits, a, b: FORMS["Shr Unsigned"](bits, a, b))
fault("Shl", "64 bits in 32")(lambda own, bits, a, b: Text.of(f"(uint32_t)({own(bits, a, b)})", UNARY) if bits == 64 else None)
fault("Shr Unsigned", "one bit more")(lambda own, bits, a, b: own(bits, a, Text.of(f"({b} + 1u)", 15)))
fault("Shr Unsigned", "signed")(
    lambda own, bits, a, b: cast("uint32_t", Text.of(f"({own(bits, cast('int32_t', a), b)})", 15)) if bits == 32 else None)
fault("Eq", "another")(lambda own, bits, a, b: FORMS["Ne"](bits, a, b))
fault("Eq", "of 8 bits")(lambda own, bits, a, b: own(bits, Text.of(f"(uint8_t)({a})", UNARY), Text.of(f"(uint8_t)({b})", UNARY)))
fault("Ne", "the same")(lambda own, bits, a, b: FORMS["Eq"](bits, a, b))
fault("Ne", "of 8 bits")(lambda own, bits, a, b: own(bits, Text.of(f"(uint8_t)({a})", UNARY), Text.of(f"(uint8_t)({b})", UNARY)))
fault("Lt Unsigned", "<=")(lambda own, bits, a, b: FORMS["Le Unsigned"](bits, a, b))
fault("Lt Unsigned", "operands exchanged")(lambda own, bits, a, b: own(bits, b, a))
fault("Lt Unsigned", "signed")(lambda own, bits, a, b: FORMS["Lt Signed"](bits, a, b) if bits == 32 else None)
fault("Lt Signed", "unsigned")(lambda own, bits, a, b: FORMS["Lt Unsigned"](bits, a, b))
fault("Le Unsigned", "<")(lambda own, bits, a, b: FORMS["Lt Unsigned"](bits, a, b))
fault("Le Unsigned", "operands exchanged")(lambda own, bits, a, b: own(bits, b, a))
fault("Not of a truth", "left out")(lambda own, a: a)
fault("Not", "left out")(lambda own, bits, a: a)
fault("Not", "16 bits of it")(lambda own, bits, a: Text.of(f"(uint16_t)~{a.at(UNARY)}", UNARY))
fault("LeadingZeros", "one more")(lambda own, a: plus_one(own(a)))
fault("LeadingZeros, its function", "a step counts too little")(lambda own: own().replace("zeros -= 4u", "zeros -= 2u"))
fault("LeadingZeros, its function", "a step tests one bit too high")(lambda own: own().replace("x >> 4 != 0u", "x >> 5 != 0u"))
fault("LeadingZeros, its function", "the last bit does not count")(lambda own: own().replace("zeros - x", "zeros"))
fault("TrailingZeros", "one more")(lambda own, a: plus_one(own(a)))
fault("TrailingZeros", "of the other bits")(lambda own, a: Text.of(f"trailing_zeros(~{a.at(UNARY)})", 14))
fault("TrailingZeros, its function", "a step counts too little")(lambda own: own().replace("zeros += 4u", "zeros += 2u"))
fault("TrailingZeros, its function", "a step looks at one bit too few")(lambda own: own().replace("x & 0xfu", "x & 0x7u"))
fault("TrailingZeros, its function", "of 0 one too few")(lambda own: own().replace("zeros + 2u", "zeros + 1u"))
fault("TrailingZeros, its function", "the last bit does not count")(lambda own: own().replace("zeros + 1u", "zeros"))
fault("Cast Unsigned Unsigned", "left out where it widens")(lambda own, bits, a: a if bits == 64 else None)
fault("Cast Unsigned Unsigned", "16 bits of 32")(lambda own, bits, a: cast("uint16_t", a) if bits == 32 else None)
fault("Cast Unsigned Unsigned", "7 bits of 8")(
    lambda own, bits, a: cast("uint8_t", Text.of(f"({a.at(UNARY)} & 127u)", 15)) if bits == 8 else None)
fault("Cast Unsigned Signed", "the sign bit turned over")(lambda own, bits, a: Text.of(f"({a.at(UNARY)} ^ 0x80000000u)", 15))
fault("Cast Signed Unsigned", "the sign bit turned over")(lambda own, bits, a: Text.of(f"({a.at(UNARY)} ^ 0x80000000u)", 15))
fault("WrapAdd", "it does not wrap")(
    lambda own, bits, a, b: Text.of(f"({a} > 0xffffffffu - {b} ? 0xffffffffu : {a} + {b})", 15) if bits == 32 else None)
fault("WrapAdd", "the difference")(lambda own, bits, a, b: FORMS["WrapSub"](bits, a, b))
fault("WrapSub", "it does not wrap")(lambda own, bits, a, b: Text.of(f"({a} < {b} ? 0u : {a} - {b})", 15) if bits == 32 else None)
fault("WrapSub", "operands exchanged")(lambda own, bits, a, b: own(bits, b, a))
fault("Both", "either")(lambda own, a, b: FORMS["Either"](a, b))
fault("Both", "the left one alone")(lambda own, a, b: a)
fault("Both", "the right one alone")(lambda own, a, b: b)
fault("Either", "both")(lambda own, a, b: FORMS["Both"](a, b))
fault("Either", "the left one alone")(lambda own, a, b: a)
fault("Either", "the right one alone")(lambda own, a, b: b)

# ---- structs, enums, slices

fault("field of a struct", "the next one")(lambda own, of, names, number: own(of, names, (number + 1) % len(names)))
fault("tag", "always the first")(lambda own, of: Text.of("0", 15))
fault("field of a variant", "the other one of two numbers")(
    lambda own, of, variant, number, count: own(of, variant, 1 - number, count) if variant in ("Held", "FirstOfBin") else None)
fault("field of a variant", "8 bits of 32")(
    lambda own, of, variant, number, count: cast("uint8_t", own(of, variant, number, count)) if variant in ("Held", "Free", "Remainder") else None)
fault("is of a variant", "is not")(lambda own, tag, name: Text.of(f"{tag} != {name}", 9))
fault("address", "of a copy")(lambda own, of: Text.of(f"&(__typeof__({of})[]){{{of}}}[0]", UNARY))
fault("what a pointer leads to", "the next one")(lambda own, pointer: Text.of(f"{pointer.at(14)}[1]", 14))
fault("struct", "fields turned round")(lambda own, name, fields: own(name, fields[1:] + fields[:1]))
OTHER = {"NotAllowed": "NotSound", "NotSound": "NotAllowed", "NoSize": "NoRoom", "NoRoom": "NoSize", "NotHeld": "NoRoom", "Held": "Free",
         "HighEnd": "LowEnd", "LowEnd": "HighEnd", "ExactBin": "LargerBin", "LargerBin": "ExactBin", "Eight": "Sixteen", "Sixteen": "ThirtyTwo",
         "ThirtyTwo": "Eight"}
fault("variant of an enum", "another one with the same fields")(
    lambda own, name, variants, variant, fields: own(name, variants, variants.index(OTHER[variants[variant]]), fields)
    if variants[variant] in OTHER and not name.endswith("Tally") else None)
fault("length of a slice", "one less")(lambda own, name: Text.of(f"({own(name)} - 1u)", 15))
fault("length of a slice", "16 bits of it")(lambda own, name: Text.of(f"(size_t)(uint16_t){own(name)}", UNARY))
fault("element", "the next one")(lambda own, pointer, index: own(pointer, f"{index} + 1u"))
fault("part of a slice", "from the next one")(lambda own, pointer, index: own(pointer, plus_one(index)))
fault("part of a slice", "from its start")(lambda own, pointer, index: pointer)
fault("length of a part", "one less")(lambda own, value: Text.of(f"({own(value)} - 1u)", 15))


@fault("call", "the last two numbers exchanged")
def exchanged(own, name, args, types):
    if len(args) < 2 or types[-1] != types[-2] or not number_type(types[-1]):
        return None
    return own(name, args[:-2] + [args[-1], args[-2]], types)


@fault("call", "the last number is 0")
def zero(own, name, args, types):
    return own(name, args[:-1] + ["0u"], types) if args and number_type(types[-1]) else None


# ---- statements

fault("declare a local", "one more")(
    lambda own, c_type, name, value: own(c_type, name, plus_one(value)) if number_type(c_type) else None)
fault("set a local", "left out")(lambda own, name, value: [f"(void)({value});"])
fault("set a field", "left out")(lambda own, to, value: [f"(void)({value});"])
fault("store", "left out")(lambda own, to, value: [f"(void)({value});"])
fault("do", "left out")(lambda own, value: [";"])
fault("do", "twice")(lambda own, value: own(value) + own(value))
fault("if", "its test turned round")(lambda own, test, then, other: own(Text.of(f"!({test})", UNARY), then, other))
fault("if", "always taken")(lambda own, test, then, other: own(Text.of("1", 15), then, other))
fault("if", "never taken")(lambda own, test, then, other: own(Text.of("0", 15), then, other))
fault("switch", "the first two arms exchanged")(lambda own, tag, tags, arms: own(tag, tags, [arms[1], arms[0], *arms[2:]]))
fault("switch", "of an arm for more than one only the first")(
    lambda own, tag, tags, arms: own(tag, [arm[:1] for arm in tags], arms) if any(len(arm) > 1 for arm in tags[:-1]) else None)
fault("switch, leaving", "where it is the variant")(
    lambda own, tag, wanted, other: [own(tag, wanted, [])[0].replace("!=", "==")] + own(tag, wanted, other)[1:])
fault("while", "tested after its body")(lambda own, test, body: ["do {"] + indented(body) + [f"}} while ({test});"])
fault("while", "one turn at most")(lambda own, test, body: [re.sub(r"\bcontinue;", ";", line) for line in FORMS["if"](test, body, [])])
fault("for", "one turn at most")(lambda own, first, test, step, body: own(first, test, step, body + ["break;"]))
fault("for", "from the next one")(lambda own, first, test, step, body: own(f"{first} + 1u", test, step, body))
fault("step", "one more")(lambda own, name, more: f"{name} += {more} + 1u")
fault("break", "left out")(lambda own: [";"])
fault("loop", "one turn")(lambda own, body: ["do {"] + indented(body) + ["} while (0);"])
fault("continue", "left out")(lambda own: [";"])
fault("return a value", "one more")(lambda own, value, c_type: own(plus_one(value), c_type) if number_type(c_type) else None)
fault("return a value", "the other truth")(
    lambda own, value, c_type: own(Text.of(f"!({value})", UNARY), c_type) if c_type == "int" else None)
fault("return", "left out")(lambda own: [";"])
fault("fill an array", "all but the last")(lambda own, name, count, value: own(name, count - 1, value))
fault("fill an array", "with ones")(lambda own, name, count, value: own(name, count, "1u"))

WITHOUT = set(FORMS) - {form for form, _, _ in FAULTS}
if WITHOUT:
    raise SystemExit(f"tools/translating/faults.py: these forms have no fault: {', '.join(sorted(WITHOUT))}")
