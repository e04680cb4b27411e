"""What MIR does not keep and a reader wants: the names and comments of the Rattle sources. None of it changes what the C file does: a
wrong name would mislead a reader, and no more, and a constant's name is written only where its value is the one that MIR has.

The sources are read by their layout, which `rt fmt` fixes: an item begins in the first column, a function's body is between braces
that stand there alone, and a comment stands directly above its item.
"""

import glob
import os
import re

from tree import Unknown

WORD = re.compile(r"[A-Za-z_][A-Za-z0-9_]*|\d[\d_]*|=>|::|\S")
FUNCTION = re.compile(r'(?:pub(?:\(crate\))? )?(?:extern "C" )?fn (\w+)')
EXPORT = "#[unsafe(no_mangle)]"
IMPL = re.compile(r"(?:impl|(?:pub(?:\(crate\))? )?trait)(?:<.*?>)? (?:([\w:]+)(?:<(.*)>)? for )?([\w:]+)")
TYPE = re.compile(r"(?:pub(?:\(crate\))? )?(struct|enum) (\w+)")
CONSTANT = re.compile(r"(?:pub(?:\(crate\))? )?const (\w+): \w+ = ([\d_]+);$")


class Function:
    """`names` has what the body binds, in order, and `counters` which of those a `for` counts with."""

    def __init__(self, comment, params, body, is_export, plain=False, asks=False):
        self.asks = asks  # something of its callers
        self.comment, self.params, self.is_export, self.exported, self.plain = comment, params, is_export, False, plain
        self.words = WORD.findall(without_comments(body))
        self.names, self.counters = bindings(self.words), counters(self.words)
        self.numbers = {int(w.replace("_", "")) for w in self.words if w[0].isdigit()}


class Type:
    """`members` has a struct's fields, or an enum's variants. A `bound` one has an invariant, so not every value of its fields is one of it."""

    def __init__(self, comment, members, bound=False):
        self.comment, self.members, self.bound = comment, members, bound


class Sources:
    """Of these crates, and of `exporting`, which has a function under its C name for each that the last of them has for C. The archive is made
    of that crate, and the C file of those below it: so such a function calls the other, and does nothing else."""

    def __init__(self, root, crates, exporting):
        self.functions, self.types, self.constants, self.owners = {}, {}, {}, {}
        for crate in [*crates, exporting]:
            for file in sorted(glob.glob(os.path.join(root, "crates", crate, "src/*.rt"))):
                stem = os.path.basename(file)[:-3]
                with open(file) as text:
                    self.read(crate if stem == "lib" else f"{crate}::{stem}", text.read().split("\n"))
        of_c = {path: function for path, function in self.functions.items() if path.split("::")[0] == exporting}
        for path, function in of_c.items():
            self.export(crates[-1], path, function)

    def export(self, crate, path, function):
        name = path.split("::")[-1]
        own = [f for p, f in self.functions.items() if (p.split("::")[0], p.split("::")[-1]) == (crate, name)]
        call = WORD.findall(f"{{{crate}::{name}({', '.join(function.params)})")
        if not function.is_export or len(own) != 1 or function.words != call or function.params != own[0].params:
            raise Unknown(f"{path} is another function than `{EXPORT}` and a call of {crate}::{name}")
        own[0].exported = True

    def read(self, module, lines):
        for at, line in enumerate(lines):
            block = IMPL.match(line)
            if block and line.endswith("{"):
                self.read_impl(module, block, [inner[4:] for inner in until(lines, at, "}")[1:]])
            function, declared, constant = FUNCTION.match(line), TYPE.match(line), CONSTANT.match(line)
            if function:
                self.functions[f"{module}::{function[1]}"] = read_function(lines, at)
            elif declared:
                self.types[f"{module}::{declared[2]}"] = read_type(lines, at)
            elif constant:
                self.constants[f"{module}::{constant[1]}"] = int(constant[2].replace("_", ""))


    def read_impl(self, module, block, lines):
        """The methods of an impl stand in MIR under its type's name, and behind that its trait's; those of a trait under its own."""
        trait, args, owner = (camel(part or "") for part in block.groups())
        self.owners[f"{module}::{owner}{trait}{args}"] = owner
        self.read(f"{module}::{owner}{trait}{args}", lines)


def camel(path):
    """`u32` as MIR has it in the name of an impl: `U32`."""
    name = path.split("::")[-1]
    return name[:1].upper() + name[1:]


def comment_above(lines, at):
    """The comment above an item; the heading of a file, which stands above a free line or a `use`, is none."""
    while at and lines[at - 1].startswith("#["):
        at -= 1
    first = at
    while first and lines[first - 1].startswith("//"):
        first -= 1
    return [line[2:].strip() for line in lines[first:at]] if first else []


def until(lines, at, end):
    last = at
    while lines[last] != end:
        last += 1
    return lines[at:last]


def read_function(lines, at):
    end = at
    while not (lines[end] == "{" or lines[end].endswith(";") or (end == at or lines[end].startswith(")")) and lines[end].endswith("{")):
        end += 1
    head = "\n".join(lines[at:end + 1])
    body = ["{"] + (until(lines, end + 1, "}") if head.endswith("{") else [])
    params = re.search(r"\((.*?)\)(?:;|\n|\s*->|\s*\{)", head, re.S)
    if not params:
        raise Unknown(f"the parameters of '{lines[at]}' are not found in its source")
    names = re.findall(r"\b(self)\b(?!:)|\b(\w+):(?!:)", params[1])
    names = [own or name for own, name in names]
    return Function(comment_above(lines, at), names, "\n".join(body), at > 0 and lines[at - 1] == EXPORT, asks="requires" in head)


def read_type(lines, at):
    if lines[at].endswith(";"):
        return Type(comment_above(lines, at), [f"f{n}" for n in range(lines[at].count(",") + lines[at].count("("))])
    within = until(lines, at, "}")[1:]
    body = [line for line in within if not line.strip().startswith(("//", "ghost ", "invariant ", "#["))]
    members = [re.match(r"    (?:pub(?:\(crate\))? )?(\w+)", line) for line in body]
    return Type(comment_above(lines, at), [m[1] for m in members if m], any(line.strip().startswith(("ghost ", "invariant ")) for line in within))


def without_comments(text):
    return re.sub(r"//[^\n]*", "", text)


HIDDEN, INDEX = "", "the index of a for"  # locals without a name: a step of `?`, and with what a loop over a list counts


def bindings(words):
    """The names that a body binds, in order: by `let`, by a pattern, by an arm of a match, by a `for`; and what is between them."""
    names = []
    for at, word in enumerate(words):
        if word == "let":
            names += pattern(words[at + 1:words.index("=", at)])
        elif word == "for":
            middle = words.index("in", at)
            over = words[middle:words.index("{", middle)]
            names += ([] if is_range(over) or "enumerate" in over else [INDEX]) + pattern(words[at + 1:middle])
        elif word == "?":
            names += [HIDDEN, HIDDEN]
        elif word == "=>":
            first = at
            while words[first - 1] not in ("{", "}", ",") or inside_parentheses(words, first - 1, at):
                first -= 1
            arm = words[first:at]
            names += pattern(arm[:arm.index("if")] if "if" in arm else arm)
    return names


def counters(words):
    """The names that a `for` counts with."""
    found = set()
    for at, word in enumerate(words):
        if word == "for":
            middle = words.index("in", at)
            over = words[middle:words.index("{", middle)]
            if is_range(over) or "enumerate" in over:
                found.update(pattern(words[at + 1:middle])[:1])
    return found


def is_range(over):
    """Whether a `for` is over a range, and not over a list or a part of one."""
    depth = 0
    for at, word in enumerate(over):
        depth += (word == "[") - (word == "]")
        if depth == 0 and over[at:at + 2] == [".", "."]:
            return True
    return False


def inside_parentheses(words, at, end):
    return words[at:end].count(")") > words[at:end].count("(")


def pattern(words):
    """The lower-case names of a pattern, without a type that is written behind it."""
    if ":" in words:
        words = words[:words.index(":")]
    return [w for w in words if re.match(r"[a-z]", w) and w not in ("mut", "ref")
            and not (words.index(w) + 1 < len(words) and words[words.index(w) + 1] == "::")]
