"""Turns the measurements into the tables of docs/BENCH.md and the plot docs/bench.svg.

    table.py FOLDER DOCS   FOLDER has the files that bench/run leaves: machine, text, stack, time (empty where there are none), and
                           the counts: valgrind's dumps, or the lines of steps.
                           In DOCS/BENCH.md only what stands between the two marker lines is replaced.

Ends with status 1, after it has written both, where a call of the piston bank, layout 2, the move to the other layout or going home costs more
than it may.
"""

import glob
import html
import math
import os
import sys

GOAL = 1.25
# The C file against the proved library.
FILE_GOAL = 1.15
# What the bank's calls may cost at most on this pool with all its pistons set, in inspections of it.
CONSOLE, MOST = ("mixed console", "65536"), {"set": 5, "recall": 3}
# What layout 2 may cost at most on the pool that it is for, the proved library's and less their inspection: takes and give-backs as a part of
# layout 1's; its inspection as a multiple of layout 1's. Against plain C the inspection has the goal above.
BINS, BINS_2 = "many free large bins", "many free large bins, layout 2"
CALLS_PART, INSPECTION_PART = 0.5, 1.4
# What a move to the other layout may cost at most, in inspections of the pool that it meets.
MOVE = 3
# What a call that sends small blocks home may cost at most, in inspections of the same pool with the block at E held.
HOME = 2
FILE = ["C file", "C file over proved"]
BEGIN, END = "<!-- measured: begin -->", "<!-- measured: end -->"


def as_text(value, goal=GOAL):
    """A ratio with two digits behind the point; with as many as it takes to see on which side of the goal it is."""
    digits = 2
    while digits < 6 and (float(f"{value:.{digits}f}") <= goal) != (value <= goal):
        digits += 1
    return f"{value:.{digits}f}"


def lines_of(path):
    with open(path) as file:
        return [[part.strip() for part in line.split("|")] for line in file if line.strip()]


def dumped(folder):
    """Valgrind's dumps, in the order of the measurements, each as the line that a count by steps has: KIND | .. | CALLS | TOTAL."""
    paths = glob.glob(os.path.join(folder, "out.*"))
    for path in sorted(paths, key=lambda path: int(path.rsplit(".", 1)[1])):
        name = total = None
        with open(path) as file:
            for line in file:
                if line.startswith("desc: Trigger: Client Request:"):
                    name = line.split(":", 3)[3]
                elif line.startswith("totals:"):
                    total = int(line.split()[1])
        if name is not None and total is not None:
            yield [part.strip() for part in name.split("|")] + [total]


def counted(folder):
    """Instructions by name, a call, less what an empty measurement counts."""
    steps = os.path.join(folder, "steps")
    lines = lines_of(steps) if os.path.exists(steps) else dumped(os.path.join(folder, "dumps"))
    found = {tuple(key): (int(total), int(calls)) for *key, calls, total in lines}
    alone, _ = found.pop(("requests", "", ""))
    return {key: total / calls - alone for key, (total, calls) in found.items()}


def number(value):
    return f"{value:,.1f}" if abs(value) < 100 else f"{value:,.0f}"


def ratio(ours, theirs):
    return as_text(ours / theirs) if theirs > 0 else "-"


def table(head, rows):
    out = ["| " + " | ".join(head) + " |", "|" + "|".join(["---"] + ["---:"] * (len(head) - 1)) + "|"]
    return out + ["| " + " | ".join(row) + " |" for row in rows] + [""]


def unique(keys):
    return list(dict.fromkeys(keys))


class Report:
    def __init__(self, folder):
        self.count = counted(folder)
        self.time = {tuple(line[:-1]): float(line[-1]) for line in lines_of(os.path.join(folder, "time"))}
        self.stack = lines_of(os.path.join(folder, "stack"))
        self.text = lines_of(os.path.join(folder, "text"))
        self.machine = lines_of(os.path.join(folder, "machine"))
        # names and ratios of what inspects: the goal is about these, and they are drawn
        self.bars = []
        self.files = []
        self.shapes = unique(key[1] for key in self.count if key[0] == "inspect")

    def bar(self, name, ours, theirs):
        self.bars.append((name, ours / theirs))
        return ratio(ours, theirs)

    def file(self, key, calls=1):
        """The C file's instructions for what the key names, and how many times the proved library's they are."""
        ours, theirs = (calls * self.count[(*key, who)] for who in ("file", "proved"))
        self.files.append((ours / theirs, key))
        return [number(ours), as_text(ours / theirs, FILE_GOAL)]

    def inspection(self, n):
        rows, timed = [], self.time and n == 65536
        for shape in self.shapes:
            ours, theirs = (self.count["inspect", shape, str(n), who] for who in ("proved", "plain"))
            each = n / 1024
            row = [shape, number(ours / each), number(theirs / each)]
            row.append(self.bar("inspect, " + shape, ours, theirs) if n == 65536 else ratio(ours, theirs))
            ours, over = self.file(("inspect", shape, str(n)))
            row += [number(self.count["inspect", shape, str(n), "file"] / each), over]
            if timed:
                spent = [self.time["inspect", shape, who] for who in ("proved", "plain")]
                row += [number(spent[0] / each), number(spent[1] / each), ratio(*spent)]
            rows.append(row)
        head = ["Pool", "Proved", "Plain C", "Ratio", *FILE] + (["Proved, ns", "Plain C, ns", "Ratio"] if timed else [])
        return table(head, rows)

    def operations(self):
        rows = []
        for kind, name, shape, who in self.count_keys("operation", "proved"):
            get = lambda who: self.count[kind, name, shape, who]
            label = f"{shape}: {name}"
            row = [label, number(get("proved")), number(get("plain"))]
            row.append(self.bar(label, get("proved"), get("plain")))
            ours, theirs = (get(who) - get(who + " inspection") for who in ("proved", "plain"))
            row += [number(ours), number(theirs), ratio(ours, theirs), number(get("plain unchecked"))]
            rows.append(row + self.file((kind, name, shape)))
        head = ["Call", "Proved", "Plain C", "Ratio", "Proved, less inspection", "Plain C, less inspection", "Ratio",
                "Plain C, unchecked", *FILE]
        return table(head, rows)

    def countings(self):
        rows = []
        for kind, name, shape, who in self.count_keys("counting", "proved"):
            get = lambda who: self.count[kind, name, shape, who]
            row = [f"{shape}: {name}", number(get("proved")), number(get("plain")), ratio(get("proved"), get("plain"))]
            ours, theirs = (get(who) - self.count["inspect", shape, "65536", who] for who in ("proved", "plain"))
            rows.append(row + [number(ours), number(theirs), ratio(ours, theirs)] + self.file((kind, name, shape)))
        head = ["Call", "Proved", "Plain C", "Ratio", "Proved, less inspection", "Plain C, less inspection", "Ratio", *FILE]
        return table(head, rows)

    def consoles(self):
        """Name and size of the pools on which the bank's calls are counted; CONSOLE is the first."""
        return unique(key[2:4] for key in self.count if key[0] == "bank")

    def bank_calls(self, console):
        """For each call its name, what it costs by both libraries, and what it costs in inspections of the same pool."""
        for name in unique(key[1] for key in self.count if key[0] == "bank" and key[2:4] == console):
            get = lambda who: self.count[("bank", name) + console + (who,)]
            yield name, get("proved"), get("plain"), get("proved") / get("proved inspection")

    def bank(self):
        rows = []
        for name, ours, theirs, inspections in self.bank_calls(CONSOLE):
            rows.append([name, number(ours), as_text(inspections), number(theirs), self.bar("bank: " + name, ours, theirs),
                         *self.file(("bank", name, *CONSOLE))])
        return table(["Call", "Proved", "In inspections", "Plain C", "Ratio", *FILE], rows)

    def small_banks(self):
        rows = []
        for console in self.consoles()[1:]:
            for name, ours, theirs, inspections in self.bank_calls(console):
                label = f"{console[0]}, {int(console[1]):,} bytes: {name}"
                rows.append([label, number(ours), as_text(inspections), number(theirs), ratio(ours, theirs),
                             *self.file(("bank", name, *console))])
        return table(["Call", "Proved", "In inspections", "Plain C", "Ratio", *FILE], rows)

    def less_inspection(self, name, shape, who):
        key = ("operation", name, shape)
        return self.count[(*key, who)] - self.count[(*key, who + " inspection")]

    def on_both_layouts(self):
        """For the inspection, and for each call less its inspection: its name, and for both libraries what it costs on layout 1 and on layout 2."""
        yield "inspection", [[self.count["inspect", shape, "65536", who] for shape in (BINS, BINS_2)] for who in ("proved", "plain")]
        for name in sorted(key[1] for key in self.count if key[0] == "operation" and key[2:] == (BINS_2, "proved")):
            yield name, [[self.less_inspection(name, shape, who) for shape in (BINS, BINS_2)] for who in ("proved", "plain")]

    def layouts(self):
        rows = []
        for name, (ours, theirs) in self.on_both_layouts():
            goal = INSPECTION_PART if name == "inspection" else CALLS_PART
            rows.append([name if name == "inspection" else name + ", less inspection",
                         *map(number, ours), as_text(ours[1] / ours[0], goal), *map(number, theirs), as_text(theirs[1] / theirs[0], goal),
                         ratio(ours[1], theirs[1])])
        return table(["Call", "Proved, layout 1", "Layout 2", "2 over 1", "Plain C, layout 1", "Layout 2", "2 over 1", "Layout 2, proved over plain C"], rows)

    def limits_of_layouts(self):
        """Sentence, cost, and what it may be."""
        found = dict(self.on_both_layouts())
        ours, theirs = found.pop("inspection")
        yield "The inspection of layout 2 costs {} times layout 1's", ours[1] / ours[0], INSPECTION_PART
        yield "The inspection of layout 2 costs {} times plain C's", ours[1] / theirs[1], GOAL
        for name, (ours, _) in found.items():
            yield f"On layout 2 \"{name}\" costs {{}} times layout 1's, less inspection", ours[1] / ours[0], CALLS_PART

    def finds(self):
        rows = []
        for what in unique(key[1] for key in self.count if key[0] == "find"):
            for bins in unique(key[2] for key in self.count if key[:2] == ("find", what)):
                row = [what, bins]
                for who in ("proved", "plain"):
                    one, two = (self.count["find", what, bins, layout, who] - self.count["find", what, bins, layout, who + " inspection"]
                                for layout in ("1", "2"))
                    row += [number(one), number(two), ratio(two, one)]
                rows.append(row)
        return table(["Take", "Bins", "Proved, layout 1", "Layout 2", "2 over 1", "Plain C, layout 1", "Layout 2", "2 over 1"], rows)

    def moves(self, n):
        """For each move of a pool of n bytes the old layout, the pool, what it costs by each library, and the same in inspections."""
        for kind, shape, size, old in unique(key[:4] for key in self.count if key[0] == "conversion" and key[2] == str(n)):
            cost = {who: self.count[kind, shape, size, old, who] for who in ("proved", "plain")}
            yield old, shape, cost, {who: cost[who] / self.count[kind, shape, size, old, who + " inspection"] for who in cost}

    def conversions(self, n):
        rows = []
        for old, shape, cost, inspections in self.moves(n):
            rows.append([f"{shape}: {'1 to 2' if old == '1' else '2 to 1'}", number(cost["proved"]), as_text(inspections["proved"], MOVE),
                         number(cost["plain"]), as_text(inspections["plain"], MOVE), ratio(cost["proved"], cost["plain"]),
                         *self.file(("conversion", shape, str(n), old))])
        return table(["Move", "Proved", "In inspections", "Plain C", "In inspections", "Ratio", *FILE], rows)

    def dearest_move(self):
        return max(inspections["proved"] for n in (65536, 1024) for *_, inspections in self.moves(n))

    def going_home(self):
        """For each call that sends blocks home its name, the pool, what it costs by each library, and an inspection of that pool."""
        for kind, way, pool in unique(key[:3] for key in self.count if key[0] == "home"):
            cost, look = ({who: self.count[kind, way, pool, who + what] for who in ("proved", "plain")} for what in ("", " inspection"))
            yield way, pool, cost, look

    def homes(self):
        rows = []
        for way, pool, cost, look in self.going_home():
            label = f"{pool}: {way}"
            less = {who: cost[who] - look[who] for who in cost}
            # one that sends nothing home is an inspection, which is drawn already
            over = ratio(cost["proved"], cost["plain"]) if "none" in way else self.bar(label, cost["proved"], cost["plain"])
            rows.append([label, number(cost["proved"]), as_text(cost["proved"] / look["proved"], HOME), number(cost["plain"]),
                         as_text(cost["plain"] / look["plain"], HOME), over, number(less["proved"]), number(less["plain"]),
                         ratio(less["proved"], less["plain"]), *self.file(("home", way, pool))])
        return table(["Call", "Proved", "In inspections", "Plain C", "In inspections", "Ratio", "Proved, less inspection",
                      "Plain C, less inspection", "Ratio", *FILE], rows)

    def dearest_home(self):
        return max(cost["proved"] / look["proved"] for _, _, cost, look in self.going_home())

    def dearest(self):
        """What the dearest set and the dearest recall cost in inspections, and what they may cost."""
        for call, most in MOST.items():
            yield call, max(cost for name, *_, cost in self.bank_calls(CONSOLE) if name.startswith(call)), most

    def count_keys(self, kind, who):
        keys = [key for key in self.count if key[0] == kind and key[-1] == who]
        return sorted(keys, key=lambda key: (self.shapes.index(key[2]), key[1]))

    def pairs(self):
        rows = []
        for key in self.time:
            if key[0] == "pair" and key[-1] == "proved":
                ours, theirs = self.time[key], self.time[key[:-1] + ("plain",)]
                rows.append([f"{key[1]}: {key[2]}", number(ours), number(theirs), ratio(ours, theirs)])
        ours, theirs = self.time["tape", "proved"], self.time["tape", "plain"]
        rows.append(["the worked tape", number(ours), number(theirs), ratio(ours, theirs)])
        return table(["What", "Proved, ns", "Plain C, ns", "Ratio"], rows)

    def tape(self):
        rows = []
        for layout, name in (("layout 1", "the worked tape"), ("layout 2", "the worked tape on layout 2")):
            ours, theirs = (13 * self.count["tape", layout, who] for who in ("proved", "plain"))
            rows.append([name + ", 13 calls", number(ours), number(theirs), self.bar(name, ours, theirs), *self.file(("tape", layout), 13)])
        return table(["Run", "Proved", "Plain C", "Ratio", *FILE], rows)

    def served(self):
        rows = []
        for name in ("take", "give back"):
            get = lambda who: self.count["served", name, who]
            ours = get("proved") - get("proved inspection")
            rows.append([name, number(ours)] + [number(get(who)) for who in ("plain unchecked", "first fit", "malloc")])
        if self.time:
            spent = [number(self.time["served", who]) for who in ("plain unchecked", "first fit", "malloc")]
            rows.append(["ns a request", "-"] + spent)
        return table(["A request", "Proved, less inspection", "Plain C, unchecked", "First fit", "malloc and free"], rows)

    def sizes(self):
        out = table(["Call", "Stack, bytes"], [[f"`{name}`", f"{int(bytes_):,}"] for _, name, bytes_ in self.stack])
        return out + table(["Code", "Text, bytes"], [[name, f"{int(bytes_):,}"] for name, bytes_ in self.text])

    def markdown(self):
        out = table(["Measured on", ""], [[name, what] for name, what in self.machine])
        out += ["### Inspection: instructions per KiB of a pool of 65,536 bytes", ""] + self.inspection(65536)
        out += ["### Inspection: instructions for a pool of 1,024 bytes", ""] + self.inspection(1024)
        out += ["### Taking and giving back: instructions a call, a pool of 65,536 bytes", ""] + self.operations()
        out += ["### Layout 2 against layout 1: instructions a call, many free large bins, a pool of 65,536 bytes", ""] + self.layouts()
        for sentence, cost, most in self.limits_of_layouts():
            out.append(sentence.format(as_text(cost, most)) + f", and may cost {most}.")
        out += ["", "### Finding a bin: instructions of a take, less an inspection of its pool", ""] + self.finds()
        out += ["### Moving to the other layout: instructions a call, a pool of 65,536 bytes", ""] + self.conversions(65536)
        out += ["### Moving to the other layout: instructions a call, a pool of 1,024 bytes", ""] + self.conversions(1024)
        out += [f"A move costs {as_text(self.dearest_move(), MOVE)} inspections, the dearest of these, and may cost {MOVE}.", ""]
        out += ["### Going home: instructions a call, pools of 65,536 bytes", ""] + self.homes()
        out += [f"Going home costs {as_text(self.dearest_home(), HOME)} inspections, the dearest of these, and may cost {HOME}.", ""]
        out += ["### Figures and class count: instructions a call, a pool of 65,536 bytes", ""] + self.countings()
        out += ["### The piston bank: instructions a call, the mixed console of 65,536 bytes with 32 pistons set", ""] + self.bank()
        for call, cost, most in self.dearest():
            out.append(f"A {call} costs {as_text(cost, most)} inspections, the dearest of these, and may cost {most}.")
        out += ["", "### The piston bank on smaller pools: instructions a call, 32 pistons set", ""] + self.small_banks()
        out += ["### The worked tape: instructions", ""] + self.tape()
        if self.time:
            out += ["### Times with inspection", ""] + self.pairs()
        out += ["### Against a textbook list and the C library: instructions a call, without inspection", ""] + self.served()
        out += ["### Stack and text", ""] + self.sizes()
        within = sum(value <= GOAL for _, value in self.bars)
        out += [f"Of the {len(self.bars)} ratios drawn in bench.svg, {within} are within {GOAL}.", ""]
        close = sum(value <= FILE_GOAL for value, _ in self.files)
        middle = math.exp(sum(math.log(value) for value, _ in self.files) / len(self.files))
        out += [f"Of the {len(self.files)} counts of the C file, {close} are within {FILE_GOAL} times the proved library's; the geometric mean of "
                f"all is {as_text(middle, FILE_GOAL)}, the greatest {as_text(max(self.files)[0], FILE_GOAL)}.", ""]
        return "\n".join(out)

    def svg(self):
        """A bar for each ratio of counted instructions, with its number at the right; the lines are plain C and the goal."""
        left, width, step, top = 400, 360, 20, 44
        most = max([1.5] + [value for _, value in self.bars])
        height, scale = top + step * len(self.bars) + 12, width / most
        out = [f'<svg xmlns="http://www.w3.org/2000/svg" width="{left + width + 60}" height="{height}" '
               'font-family="sans-serif" font-size="12">',
               '<rect width="100%" height="100%" fill="white"/>']
        for index, (name, value) in enumerate(self.bars):
            y = top + step * index
            color = "#46627f" if value <= GOAL else "#c9853a"
            out += [f'<text x="{left - 8}" y="{y + 12}" text-anchor="end">{html.escape(name)}</text>',
                    f'<rect x="{left}" y="{y}" width="{value * scale:.1f}" height="15" fill="{color}"/>',
                    f'<text x="{left + width + 40}" y="{y + 12}" text-anchor="end">{as_text(value)}</text>']
        for value, name, color in ((1, "plain C", "#999999"), (GOAL, f"goal {GOAL}", "black")):
            x = left + value * scale
            anchor = "end" if value == 1 else "start"
            out += [f'<line x1="{x:.1f}" x2="{x:.1f}" y1="{top - 8}" y2="{height - 8}" stroke="{color}"/>',
                    f'<text x="{x:.1f}" y="{top - 14}" text-anchor="{anchor}" fill="{color}">{name}</text>']
        out += [f'<text x="{left - 8}" y="{top - 14}" text-anchor="end" font-weight="bold">instructions, as a multiple of plain C\'s</text>']
        return "\n".join(out + ["</svg>", ""])


def main():
    folder, docs = sys.argv[1:]
    report = Report(folder)
    page = os.path.join(docs, "BENCH.md")
    with open(page) as file:
        text = file.read()
    before, after = text.split(BEGIN)[0], text.split(END)[1]
    measured = report.markdown()
    with open(page, "w") as file:
        file.write(f"{before}{BEGIN}\n{measured}\n{END}{after}")
    with open(os.path.join(docs, "bench.svg"), "w") as file:
        file.write(report.svg())
    print(measured)
    dear = [f"a {call} costs {as_text(cost, most)} inspections, and may cost {most}"
            for call, cost, most in report.dearest() if cost > most]
    dear += [sentence.format(as_text(cost, most)) + f", and may cost {most}" for sentence, cost, most in report.limits_of_layouts() if cost > most]
    if report.dearest_move() > MOVE:
        dear.append(f"a move to the other layout costs {as_text(report.dearest_move(), MOVE)} inspections, and may cost {MOVE}")
    if report.dearest_home() > HOME:
        dear.append(f"going home costs {as_text(report.dearest_home(), HOME)} inspections, and may cost {HOME}")
    if dear:
        sys.exit("bench/table.py: " + "; ".join(dear))


main()
