"""The crates that one stands on, itself included, from the bottom up as crates.txt has them."""

import os
import re


class Crates:
    def __init__(self, root, top):
        below, self.about = {}, {}
        with open(os.path.join(root, "crates.txt")) as text:
            for line in text:
                comment, crate = re.match(r"# (\w+): (.*)", line), re.match(r"(\w+):(.*)", line)
                if comment:
                    self.about[comment[1]] = comment[2]
                elif crate:
                    below[crate[1]] = crate[2].split()
        reached, open_ = set(), [top]
        while open_:
            crate = open_.pop()
            if crate in below and crate not in reached:
                reached.add(crate)
                open_ += below[crate]
        self.names = [crate for crate in below if crate in reached]
