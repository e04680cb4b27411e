"""Runs MIR as it stands, by the rules of the kit's logic (Prog/Machine.antt and Mir/Val.antt): what the translated functions are held to. It
shares nothing with the translator, and reads the MIR once more for itself. Where the logic's machine is stuck, so is this one: a
proved function never is, whatever it is called with.

A number is an int, a struct or an enum's value a tuple, the tag first, a slice a pair of pointer and length. A pointer is a block of
numbers of one width and a count of bytes into it; or, to a struct, an enum or a part of one, a slot and the way from it, as numbers of fields.

A function with parameters is called with what it is given: types, and for each trait an impl. It has its name and them, as in the C file."""

import json


class Stuck(Exception):
    """Something that is not defined."""


class Block:
    def __init__(self, bits, numbers):
        self.bits, self.numbers = bits, numbers


class Slot:
    """A local in memory."""

    def __init__(self, value):
        self.value = value


class Frame(list):
    """The locals of one call, and what its function is given."""
    given = None


NOTHING_GIVEN = {"types": [], "dicts": []}


def need(holds, what):
    if not holds:
        raise Stuck(what)


def signed(bits, n):
    return n - (1 << bits) if n >> (bits - 1) else n


def in_range(bits, sign, n):
    least, end = (-(1 << (bits - 1)), 1 << (bits - 1)) if sign == "Signed" else (0, 1 << bits)
    need(least <= n < end, "a result that does not fit")
    return n % (1 << bits)


class TooLong(Exception):
    """A call went round its loops more often than it may: one that counts down from a number by chance may do so four thousand million times."""


def spelled(ty):
    """A type as it stands in a function's name."""
    if isinstance(ty, str):
        return {"Unit": "()", "Bool": "bool"}[ty]
    (key, under), = ty.items()
    if key == "Int":
        return f"u{under}"
    if key == "Const":
        return str(under)
    if key == "Ref":
        return f"&{'mut ' if under[1] == 'Mut' else ''}{spelled(under[2])}"
    if key == "Array":
        return f"[{spelled(under[0])}; {under[1]['Lit']}]"
    if key == "Struct":
        pointer = under[1][0]["Ref"]
        return f"&{'mut ' if pointer[1] == 'Mut' else ''}[{spelled(pointer[2])}]"
    return with_types(under[0]["name"], under[1])


def with_types(name, types):
    return name + (f"<{', '.join(map(spelled, types))}>" if types else "")


def closed(form, given):
    """A form with what is given in the place of its parameters."""
    if given is NOTHING_GIVEN:
        return form
    if isinstance(form, list):
        return [closed(part, given) for part in form]
    if not isinstance(form, dict):
        return form
    if "Param" in form:
        return given["types"][form["Param"]]
    if "Given" in form:
        return given["dicts"][form["Given"]]
    if "Array" in form and "Param" in form["Array"][1]:
        return {"Array": [closed(form["Array"][0], given), {"Lit": given["types"][form["Array"][1]["Param"]]["Const"]}]}
    return {key: closed(under, given) for key, under in form.items()}


class Machine:
    def __init__(self, files):
        self.raw, self.bodies, self.callees, self.watch, self.taken, self.turns = {}, {}, {}, None, set(), None
        for file in files:
            with open(file) as text:
                self.raw.update(json.load(text))
        self.shapes = {t["name"]: t["shape"] for fn in self.raw.values() for t in fn["types"]}
        self.slots = {name: [number for number, local in enumerate(fn["locals"]) if local["home"] == "MemorySlot"] for name, fn in self.raw.items()}
        self.methods = {tuple(fn["generics"]["method_of"]["Impl"]): name for name, fn in self.raw.items()
                        if "Impl" in (fn["generics"]["method_of"] or {})}
        self.instances = {name: (name, NOTHING_GIVEN) for name in self.raw}
        for name, fn in self.raw.items():
            if not name.startswith("core::") and not fn["generics"]["types"]:
                self.find_instances(name, NOTHING_GIVEN)

    # ---- functions

    def find_instances(self, name, given):
        for word in self.raw[name]["body"]:
            if isinstance(word, dict) and "Call" in word:
                callee, own = self.callee(word["Call"][0], given)
                path = with_types(callee, own["types"])
                if own["types"] and path not in self.instances:
                    self.instances[path] = (callee, own)
                    self.find_instances(callee, own)

    def callee(self, form, given):
        """Which function a call means, and what it is given; kept, since it is asked at every call."""
        key = id(form), id(given)
        if key not in self.callees:
            name, own = self.find_callee(form, given)
            self.callees[key] = name, own if own["types"] or own["dicts"] else NOTHING_GIVEN
        return self.callees[key]

    def find_callee(self, form, given):
        (key, under), = form.items()
        if key == "Fn":
            return under[0], closed(under[1], given)
        need(key == "Method", "a call of no function")
        name, types, dicts = closed(under[0], given)["Impl"]
        own = closed(under[2], given)
        return self.methods[name, under[1]], {"types": types + own["types"], "dicts": dicts + own["dicts"]}

    def call(self, path, args):
        return self.call_given(*self.instances[path], args)

    def call_given(self, name, given, args):
        if self.watch:
            self.watch(with_types(name, given["types"]), args)
        fn = self.raw[name]
        need(len(args) == fn["params"], f"{name} has {fn['params']} parameters")
        frame = Frame([None, *args] + [None] * (len(fn["locals"]) - 1 - len(args)))
        frame.given = given
        for number in self.slots[name]:
            ty = closed(fn["locals"][number]["ty"], given)
            frame[number] = (Block(ty["Array"][0]["Int"], [None] * ty["Array"][1]["Lit"]), 0) if "Array" in ty else Slot(None)
        need(self.run(self.tree(name), frame, fn["locals"]) == "return", "the end is reached without a return")
        return frame[0]

    def tree(self, name):
        if name not in self.bodies:
            self.bodies[name] = self.body(iter(self.raw[name]["body"]))
        return self.bodies[name]

    def branches(self, path):
        """Every way on from a test or a switch of the function, as `taken` has those that were gone."""
        def walk(body):
            if body[0] == "If":
                yield from ((id(body), 0), (id(body), 1))
            elif body[0] == "Switch":
                yield from ((id(body), at) for at in range(len(body[3])))
            for part in body[1:]:
                parts = part if isinstance(part, list) else [part]
                for inner in parts:
                    if isinstance(inner, tuple):
                        yield from walk(inner)
        return list(walk(self.tree(self.instances[path][0])))

    def body(self, words):
        """The words in Polish order as a tree."""
        word = next(words)
        if word == "Seq":
            return "Seq", self.body(words), self.body(words)
        if word in ("Block", "Loop"):
            return word, self.body(words)
        if isinstance(word, str):
            return (word,)
        (key, under), = word.items()
        if key == "If":
            return key, under, self.body(words), self.body(words)
        if key == "Switch":
            keys = under[1] + [None] * under[2]
            return key, under[0], keys, [self.body(words) for _ in keys]
        return key, under

    def run(self, body, frame, types):
        """"next", "return", or how many blocks are left."""
        while True:
            key = body[0]
            if key == "Seq":
                out = self.run(body[1], frame, types)
                if out != "next":
                    return out
                body = body[2]
                continue
            if key == "Assign":
                place, rvalue = body[1]
                self.put(place, self.rvalue(rvalue, frame, place, types), frame)
            elif key == "Call":
                callee, operands, place = body[1]
                self.put(place, self.call_given(*self.callee(callee, frame.given), [self.operand(o, frame) for o in operands]), frame)
            elif key == "LendStatic":
                place, _, constant = body[1]
                self.put(place, (Slot(self.constant(constant)), ()), frame)
            elif key == "If":
                test = self.operand(body[1], frame)
                need(test in (0, 1), "a test of no truth")
                self.taken.add((id(body), test))
                body = body[2] if test else body[3]
                continue
            elif key == "Switch":
                number = self.operand(body[1], frame)
                arms = [at for at, keys in enumerate(body[2]) if keys is None or number in keys]
                need(arms, "a switch without an arm")
                self.taken.add((id(body), arms[0]))
                body = body[3][arms[0]]
                continue
            elif key == "Block":
                out = self.run(body[1], frame, types)
                return out if isinstance(out, str) else "next" if out == 0 else out - 1
            elif key == "Loop":
                while True:
                    if self.turns is not None:
                        self.turns -= 1
                        if self.turns < 0:
                            raise TooLong
                    out = self.run(body[1], frame, types)
                    if out == "return":
                        return out
                    if isinstance(out, int) and out > 0:
                        return out - 1
            elif key == "Exit":
                return body[1]
            elif key == "Return":
                return "return"
            else:
                need(key == "Skip", f"the statement {key}")
            return "next"

    # ---- places and values

    def operand(self, operand, frame):
        if isinstance(operand, str):
            return {"True": 1, "False": 0, "Unit": ()}[operand]
        (key, under), = operand.items()
        if key == "NumOf":
            return closed(under[1], frame.given)["Const"]
        if key == "SizeOf":
            return closed(under, frame.given)["Int"] // 8
        return under["value"] if key == "Int" else self.get(under, frame)

    def constant(self, form):
        if isinstance(form, dict) and "Parts" in form:
            return tuple(self.constant(part) for part in form["Parts"])
        return self.operand(form, None)

    def get(self, place, frame):
        value, variant = frame[place["local"]], None
        value = value.value if isinstance(value, Slot) else value
        for step in place["steps"]:
            (key, under), = step.items()
            if key == "Variant":
                variant = under
            elif key == "Deref":
                value = self.load(value, closed(under, frame.given))
            else:
                need(variant is None or under == 0 or value[0] == variant, "a field of another variant")
                value, variant = value[under], None
        need(value is not None, "a local that is not set")
        return value

    def at(self, pointer, ty):
        block, offset = pointer
        need(block.bits == ty["Int"] and offset % (block.bits // 8) == 0, "a pointer to another width")
        index = offset // (block.bits // 8)
        need(0 <= index < len(block.numbers), "a pointer that leads out of its block")
        return block.numbers, index

    def load(self, pointer, ty):
        if isinstance(pointer[0], Slot):
            value = pointer[0].value
            for field in pointer[1]:
                value = value[field]
            return value
        numbers, index = self.at(pointer, ty)
        return numbers[index]

    def put(self, place, value, frame):
        steps, local = place["steps"], frame[place["local"]]
        if not steps and not isinstance(local, Slot) and not isinstance(value, list):
            frame[place["local"]] = value
            return
        last = max((at for at, step in enumerate(steps) if "Deref" in step), default=None)
        way = [step["Field"] for step in steps[0 if last is None else last + 1:] if "Field" in step]
        if last is not None:
            pointer = self.get({"local": place["local"], "steps": steps[:last]}, frame)
            if isinstance(pointer[0], Slot):
                pointer[0].value = self.changed(pointer[0].value, [*pointer[1], *way], value)
            else:
                need(not way, "a part of a number")
                numbers, index = self.at(pointer, closed(steps[last]["Deref"], frame.given))
                numbers[index] = value
        elif isinstance(local, Slot):
            local.value = self.changed(local.value, way, value)
        elif isinstance(value, list):
            local[0].numbers[:] = value
        else:
            frame[place["local"]] = self.changed(local, way, value)

    def changed(self, old, way, value):
        """A value with another one in a part of it."""
        if not way:
            return value
        return (*old[:way[0]], self.changed(old[way[0]], way[1:], value), *old[way[0] + 1:])

    def address(self, place, frame):
        steps = place["steps"]
        last = max((at for at, step in enumerate(steps) if "Deref" in step), default=None)
        way = tuple(step["Field"] for step in steps[0 if last is None else last + 1:] if "Field" in step)
        if last is None:
            local = frame[place["local"]]
            pointer = (local, ()) if isinstance(local, Slot) else local
            need(isinstance(pointer[0], (Slot, Block)), "an address of a local that is not in memory")
        else:
            pointer = self.get({"local": place["local"], "steps": steps[:last]}, frame)
        if not way:
            return pointer
        need(isinstance(pointer[0], Slot), "an address of a part of a number")
        return pointer[0], pointer[1] + way

    def rvalue(self, form, frame, place, types):
        (key, under), = form.items()
        if key == "Opd":
            return self.operand(under, frame)
        if key == "Aggregate":
            return tuple(self.operand(o, frame) for o in under)
        if key == "Repeat":
            return [self.operand(under[0], frame)] * closed({"Array": under}, frame.given)["Array"][1]["Lit"]
        if key == "AddrOf":
            return self.address(under, frame)
        if key == "Op1":
            return self.op1(under[0], self.operand(under[1], frame), self.bits(under[1], types, frame.given))
        op, left, right = under
        a, b = self.operand(left, frame), self.operand(right, frame)
        if op == "Offset":
            return a[0], a[1] + b
        return self.op2(op, a, b, self.bits(left, types, frame.given) or self.bits(right, types, frame.given))

    def bits(self, operand, types, given):
        """The width of an operand, by its type; None for a truth."""
        if isinstance(operand, str):
            return None
        (key, under), = operand.items()
        if key in ("Int", "NumOf", "SizeOf"):
            return under["width"] if key == "Int" else under[0] if key == "NumOf" else 64
        ty, variant = closed(types[under["local"]]["ty"], given), None
        for step in under["steps"]:
            (name, what), = step.items()
            if name == "Deref":
                ty = closed(what, given)
            elif name == "Variant":
                variant = what
            else:
                ty, variant = self.field(ty, variant, what), None
        return ty["Int"] if isinstance(ty, dict) and "Int" in ty else None

    def field(self, ty, variant, number):
        if "Struct" in ty:
            return ty["Struct"][1][number]
        named, types = ty["Named"]
        shape, given = self.shapes[named["name"]], {"types": types, "dicts": []}
        if "Fields" in shape:
            return closed(shape["Fields"][number], given)
        return {"Int": 8} if number == 0 else closed(shape["Variants"][variant][number - 1], given)

    # ---- operations

    def op1(self, op, a, bits):
        if op == "Not":
            return 1 - a if bits is None else (1 << bits) - 1 - a
        if op == "LeadingZeros":
            return bits - a.bit_length()
        if op == "TrailingZeros":
            return bits if a == 0 else next(k for k in range(bits) if a >> k & 1)
        source, target, width = op["Cast"]
        return in_range(width, target, signed(bits, a) if source == "Signed" else a)

    def op2(self, op, a, b, bits):
        if op == "Eq":
            return int(a == b)
        if op == "Ne":
            return int(a != b)
        if op == "And":
            return a & b
        if op == "Or":
            return a | b
        if op in ("WrapAdd", "WrapSub"):
            return (a + b if op == "WrapAdd" else a - b) % (1 << bits)
        if op == "Shl":
            need(b < bits, "a shift by too many")
            return (a << b) % (1 << bits)
        (name, sign), = op.items()
        if name == "Shr":
            need(b < bits and sign == "Unsigned", "a shift by too many")
            return a >> b
        if sign == "Signed":
            a, b = signed(bits, a), signed(bits, b)
        if name in ("Lt", "Le"):
            return int(a < b or name == "Le" and a == b)
        if name in ("Div", "Rem"):
            need(b != 0 and sign == "Unsigned", "a zero divisor")
            return a // b if name == "Div" else a % b
        return in_range(bits, sign, {"Add": a + b, "Sub": a - b, "Mul": a * b}[name])
