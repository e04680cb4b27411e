"""depth.py FILE: how much stack each exported call needs at most, from what gcc's -fcallgraph-info=su writes: a node for each function
with its own bytes, and an edge for each call. There is no recursion, so the deepest way down is a maximum. A function that the compiler
brings itself (memcpy, a shift of 64 bits) is counted with 0, and named."""

import re
import sys

own, calls, names = {}, {}, {}
with open(sys.argv[1]) as text:
    for line in text:
        node = re.match(r'node: \{ title: "([^"]+)" label: "([^"\\]+)(.*)"', line)
        edge = re.match(r'edge: \{ sourcename: "([^"]+)" targetname: "([^"]+)"', line)
        if node:
            size = re.search(r"(\d+) bytes \((\w+)", node[3])
            own[node[1]], names[node[1]] = int(size[1]) if size else 0, node[2]
            if size and size[2] != "static":
                sys.exit(f"c/depth.py: the stack of {node[2]} is {size[2]}")
        elif edge:
            calls.setdefault(edge[1], []).append(edge[2])


def depth(function, above=()):
    if function in above:
        sys.exit(f"c/depth.py: {names[function]} calls itself")
    return own[function] + max((depth(c, (*above, function)) for c in calls.get(function, [])), default=0)


CALLS = "pool_lay_out pool_inspect pool_take pool_give_back pool_ask pool_convert pool_bring_in pool_figures pool_class_count bank_set bank_clear bank_recall"
exported = [call for call in CALLS.split() if call in own]
for function in exported:
    print(f"  {names[function]}: stack {depth(function)}")
brought = sorted(names[f] for f in own if f not in calls and not own[f] and re.match(r"mem|__", names[f]))
if brought:
    print(f"  without that of {', '.join(brought)}")
