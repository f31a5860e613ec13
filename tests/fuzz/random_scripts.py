# SPDX-License-Identifier: Apache-2.0
"""Random scripts for fuzz.py: small grids, with boxes near the edges of extents, and some lines that fail."""
EDGES = [-4097, -4096, -129, -128, -9, -8, -1, 0, 1, 7, 8, 9, 127, 128, 129, 4095, 4096]
FAR = [-2147483648, -2147483647, 2147483646, 2147483647, 2147483648, -5000000]
VALUES = {
    "bool": ["true", "false"],
    "i32": ["0", "1", "5", "-1", "2147483647", "-2147483648"],
    "i64": ["0", "1", "5", "-3", "9223372036854775807", "-9223372036854775808"],
}
NAMES = ["a", "b", "c", "d"]
KEYS = ["unit", "by", "k0", "k1", "z_9"]
PAIRS = ["max", "min", "sum", "replace", "union", "difference", "intersect"]
WRONG = ["", "# a comment", "nothing a", "set a 9 0 0 0 1", "get a - 0 0 2147483648", "grid A i32 0", "fill a 1 0 0 0 0 0 1 on"]


class Script:
    """Makes one line after another. It knows the type of each grid, as far as its lines succeed. Only some scripts fill whole
    lower or upper extents. In these it dilates and erodes little, since that makes many leaves."""

    def __init__(self, chance):
        self.chance, self.types, self.last = chance, {}, [0, 0, 0]
        self.span = chance.choice([8, 8, 8, 128, 128, 4096])

    def part(self):
        return self.chance.choice(FAR if self.chance.random() < 0.02 else EDGES)

    def point(self):
        """Returns a coordinate, often one near the last."""
        if self.chance.random() < 0.5:
            self.last = [at + self.chance.randint(-3, 3) for at in self.last]
        else:
            self.last = [self.part() for _ in range(3)]
        return " ".join(str(at) for at in self.last)

    def box(self, most):
        """Returns a box, at most a few voxels wide in two directions, or a box of whole extents, at most `most` along an axis."""
        if self.chance.random() < 0.3:
            span = self.chance.choice([8, self.span])
            low = [self.chance.randint(-2, 2) * span for _ in range(3)]
            high = [at + span * self.chance.randint(1, most) - 1 for at in low]
        else:
            low = [self.part() for _ in range(3)]
            size = self.chance.choice([0, 2, 2, 10])
            high = [at + self.chance.randint(0, size) for at in low]
            if size < 10 and self.chance.random() < 0.3:
                high[self.chance.randrange(3)] += self.chance.choice([10, 150, 150, 5000])
        self.last = self.chance.choice([low, high])
        return " ".join(str(at) for at in low + high)

    def name(self):
        """Returns a name, mostly that of an existing grid."""
        return self.chance.choice(sorted(self.types) if self.types and self.chance.random() < 0.95 else NAMES)

    def value(self, name):
        value_type = self.types.get(name, "i32")
        return self.chance.choice(VALUES[value_type if self.chance.random() < 0.97 else "bool"])

    def state(self):
        return self.chance.choice(["on", "off"])

    def accessor(self):
        return self.chance.choice(["-", "-", "0", "1", "7"])

    def grid(self):
        name, value_type = self.chance.choice(NAMES), self.chance.choice(["bool", "i32", "i32", "i64"])
        self.types.setdefault(name, value_type)
        limit = self.chance.choice(["", "", "", " 1", " 2", " 4", " 8", " 65536", " 0"])
        return f"grid {name} {value_type} {self.chance.choice(VALUES[value_type])}{limit}"

    def write(self):
        name, word = self.name(), self.chance.choice(["set", "unset", "only", "state"])
        last = self.state() if word == "state" else self.value(name)
        return f"{word} {name} {self.accessor()} {self.point()} {last}"

    def fill(self):
        name = self.name()
        return f"fill {name} {self.box(2)} {self.value(name)} {self.state()}"

    def two(self):
        return f"{self.chance.choice(PAIRS)} {self.name()} {self.name()}"

    def iterate(self):
        iterations = self.chance.choice({8: [1, 1, 2, 3, 0], 128: [1, 17, 17, 17], 4096: [17]}[self.span])
        return f"{self.chance.choice(['dilate', 'erode'])} {self.name()} {iterations}"

    def whole(self):
        word = self.chance.choice(["clip", "clip", "copy", "copy", "drop", "prune", "voxelise"])
        if word in ("drop", "prune"):
            name = self.name()
            if word == "drop":
                self.types.pop(name, None)
            return f"{word} {name}"
        if word == "copy":
            source, made = self.name(), self.chance.choice(NAMES)
            if source in self.types:
                self.types.setdefault(made, self.types[source])
            return f"copy {source} {made}"
        return f"clip {self.name()} {self.box(2)}" if word == "clip" else self.voxelise()

    def voxelise(self):
        return f"voxelise {self.name()} {' '.join(str(at) for at in self.small_box())}"

    def small_box(self):
        low = [self.part() for _ in range(3)]
        return low + [at + self.chance.randint(0, 30) for at in low]

    def report(self):
        name, word = self.name(), self.chance.choice(["get", "count", "all", "bounds", "list", "slice", "census", "metas"])
        if word == "get":
            return self.get()
        if word == "all":
            return f"count {name} all"
        if word == "count":
            return f"count {name} {self.box(3)}"
        if word == "list":
            return f"list {name} {self.box(3)} {self.chance.choice([1, 3, 40])}"
        if word == "slice":
            low = [self.part() for _ in range(3)]
            return f"slice {name} {low[2]} {low[0]} {low[1]} {low[0] + self.chance.randint(0, 9)} {low[1] + 3}"
        return f"{word} {name}"

    def get(self):
        return f"get {self.name()} {self.accessor()} {self.point()}"

    def meta(self):
        name, key = self.name(), self.chance.choice(KEYS)
        if self.chance.random() < 0.3:
            return f"unmeta {name} {key}"
        return f"meta {name} {key} {self.chance.choice(['mm', '#', '~~'])}"

    def wrong(self):
        return self.chance.choice(WRONG)

    def line(self):
        makers = [self.write] * 8 + [self.fill] * 4 + [self.report] * 6 + [self.two] * 3
        makers += [self.grid, self.iterate, self.whole, self.whole, self.meta, self.get, self.wrong]
        return self.chance.choice(makers)()

    def lines(self, count):
        return [self.grid(), self.grid(), self.grid(), *(self.line() for _ in range(count))]

    def decorated(self, lines):
        """Returns the lines with other accessors and with lines added that change no cell, each with whether it was added."""
        made = []
        for line in lines:
            while self.chance.random() < 0.4:
                made.append((self.chance.choice([self.prune, self.voxelise, self.get])(), True))
            made.append((self.other_accessor(line), False))
        return made

    def prune(self):
        return f"prune {self.name()}"

    def other_accessor(self, line):
        words = line.split(" ")
        if words[0] in ("get", "set", "unset", "only", "state") and len(words) > 2 and words[2] in ("-", "0", "1", "7"):
            words[2] = self.chance.choice(["-", "0", "1", "2", "7"])
        return " ".join(words)
