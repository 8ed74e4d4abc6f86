"""Scripts at random. Each statement is tried by NumPy when it is made, and most of those that have a
fault are dropped, so that a script goes on long enough to do something."""
import random

import numpy as np

from comparing.language import COMPARISONS, Run, TYPES, is_weak, shape_of

NAMES = ["a", "b", "c", "d", "x", "n"]
EDGES = [
    127, 128, 129, 255, 256, 300, 32767, 32768, 65535, 65536, 2**31 - 1, 2**31, 2**32 - 1, 2**32,
    2**63 - 1, 2**63, 2**64 - 1,
]
# Of faults that are made often, one in so many is kept.
COMMON = {
    "a name that is not bound": 60, "the items of an index": 15, "the axes of a transpose": 15,
    "scalars and repeated arrays are read alone": 15, "operands go together": 12,
}
RARE = [
    "x = zeros(16777217)", "x = broadcast_to(ones(1), 16777217)", "x = zeros((0, 16777217))",
    "x = arange(5000)[:, None] + arange(5000)", "x = zeros((1, 1, 1, 1))[None]",
    "for i in range(100001):\n    x = i", "for i in range(18446744073709551615):\n    n = i",
    "x = zeros((2, 0)).reshape(0, 16777217)", "print(18446744073709551615 + 1)",
]


class Maker:
    """Makes a script: statement after statement, of which most that have a fault are dropped."""

    def __init__(self, seed, writes):
        self.random = random.Random(seed)
        self.writes = writes
        self.names = {}
        self.lines = []
        self.said = ""
        self.shape = tuple(self.pick([0, 1, 2, 2, 3, 3, 4, 5]) for _ in range(self.pick([1, 2, 2, 3])))

    def pick(self, choices):
        return self.random.choice(choices)

    def one_in(self, count):
        return self.random.randrange(count) == 0

    def script(self):
        for name in self.random.sample(NAMES[:4], self.random.randrange(1, 4)):
            shape = self.pick([self.shape, self.shape, self.shape[::-1], self.shape[1:]])
            self.add([f"{name} = {self.made(shape)}"])
        if self.one_in(2):
            self.add([f"n = {self.random.randrange(-2, 4)}"])
        wanted = len(self.lines) + self.random.randrange(2, 12)
        for _ in range(80):
            if self.said or len(self.lines) >= wanted:
                break
            self.add([self.pick(RARE)] if self.one_in(1500) else self.statement(0))
        ends = [] if self.said else [f"print({name})" for name in sorted(self.names)]
        return "\n".join(self.lines + ends) + "\n"

    def add(self, lines):
        """Adds a statement, but for most of those that have a fault: the more common it is, the less."""
        run = Run("\n".join(self.lines + lines))
        if run.said and not self.one_in(COMMON.get(run.rule, 6)):
            return
        self.lines += lines
        self.names = run.names
        self.said = run.said

    # ---- statements

    def statement(self, depth):
        kinds = ["bind"] * 7 + ["print"] * 4 + ["loop"] * (2 if depth < 2 else 0)
        if self.writes and self.arrays():
            kinds += ["put"] * 4 + ["update"] * 3 + ["update_at"] * 4 + ["move"] * 4
        return getattr(self, self.pick(kinds))(depth)

    def bind(self, depth):
        name = self.pick(NAMES)
        if name == "n" and not self.one_in(4):
            return [f"n = {self.pick([self.number(), str(self.random.randrange(-2, 4)), 'n + 1'])}"]
        return [f"{name} = {self.expression(3)}"]

    def print(self, depth):
        return [f"print({self.expression(3)})"]

    def loop(self, depth):
        variable = "ijk"[depth]
        bounds = self.pick(["2", "3", "1, 3", "-1, 2", "0", self.weak(), "2, 4", "5, 3"])
        before = dict(self.names)
        self.names[variable] = 0
        lines = [f"for {variable} in range({bounds}):"]
        for _ in range(self.random.randrange(1, 4)):
            lines += ["    " + line for part in self.statement(depth + 1) for line in part.split("\n")]
        self.names = before
        return lines

    def put(self, depth):
        place, shape = self.place()
        return [f"{place} = {self.assigned(place, shape)}"]

    def update(self, depth):
        name = self.pick([*self.names]) if not self.one_in(20) else self.pick(NAMES)
        shape = shape_of(self.names[name]) if name in self.names else ()
        return [f"{name} {self.sign()}= {self.assigned(name, shape)}"]

    def update_at(self, depth):
        place, shape = self.place()
        return [f"{place} {self.sign()}= {self.assigned(place, shape)}"]

    def move(self, depth):
        """A write from a view that overlaps its target: shifted along an axis, or transposed."""
        name = self.pick(self.arrays())
        shape = shape_of(self.names[name])
        other = self.pick([n for n in self.arrays() if self.share(name, n) and shape_of(self.names[n]) == shape])
        sign = "" if self.one_in(2) else self.pick(["+", "-", "*", "^"])
        if len(shape) > 1 and self.one_in(3):
            least = min(shape[:2])
            corner = self.random.randrange(least + 1)
            cut = f"{corner}:{least}, {corner}:{least}"
            axes = (1, 0, *range(2, len(shape)))
            return [f"{name}[{cut}] {sign}= {other}[{cut}].transpose{axes}"]
        axes = [axis for axis, extent in enumerate(shape) if extent > 1]
        if not axes:
            return self.put(depth)
        axis = self.pick(axes)
        by = self.random.randrange(1, shape[axis])
        front, back = [":"] * len(shape), [":"] * len(shape)
        front[axis], back[axis] = f":-{by}", f"{by}:"
        front, back = self.random.sample([", ".join(front), ", ".join(back)], 2)
        return [f"{name}[{front}] {sign}= {other}[{back}]"]

    def share(self, name, other):
        return np.shares_memory(self.names[name].numbers, self.names[other].numbers) or name == other

    def place(self):
        """A target, and its shape where that is known."""
        name = self.pick(self.arrays())
        if self.one_in(40):
            name = self.pick(NAMES)
        place = f"{name}[{self.index(shape_of(self.names.get(name, 0)))}]"
        run = Run("\n".join([*self.lines, f"t = {place}"]))
        return place, shape_of(run.names.get("t", 0))

    def assigned(self, place, shape):
        name = place.split("[")[0]
        kind = self.random.randrange(10)
        if kind < 3:
            return self.number()
        if kind < 6 and name in self.names:
            return self.sliced(name, shape)
        if kind < 8 and self.arrays():
            return self.sliced(self.pick(self.arrays()), shape)
        return self.expression(2, shape)

    # ---- expressions

    def arrays(self):
        return sorted(name for name, value in self.names.items() if not is_weak(value))

    def weak(self):
        """A name that stands for a weak number, or a small number."""
        return self.pick(sorted(name for name, value in self.names.items() if is_weak(value)) or ["1"])

    def sign(self):
        return self.pick(["+", "+", "-", "*", "//", "%", "**", "&", "|", "^", "<<", ">>"])

    def number(self, negative=True):
        kind = self.random.randrange(20)
        if kind == 0:
            return self.pick(["True", "False"])
        number = self.random.randrange(6) if kind < 14 else self.random.randrange(300)
        if kind > 17:
            number = self.pick(EDGES)
        sign = "-" if negative and self.one_in(4) else ""
        return sign + str(number)

    def expression(self, depth, wish=None):
        """An expression, of this shape or one that goes with it, if that is easy."""
        wish = self.shape if wish is None else wish
        if depth == 0 or self.one_in(6):
            return self.leaf(wish)
        kind = self.random.randrange(20)
        if kind < 7:
            return self.operation(depth, wish)
        if kind < 9:
            sign = self.pick([*COMPARISONS])
            return f"({self.expression(depth - 1, wish)} {sign} {self.expression(depth - 1, self.beside(wish))})"
        if kind < 12:
            return self.call(depth, wish)
        if kind < 13:
            return self.pick("-~") + self.base(self.expression(depth - 1, wish))
        return self.view(depth, wish) if kind < 17 else self.copied(depth, wish)

    def operation(self, depth, wish):
        a, b = self.expression(depth - 1, wish), self.expression(depth - 1, self.beside(wish))
        sign = self.sign()
        if sign in ("**", "<<") and not self.one_in(4):
            b = str(self.random.randrange(4))
        a, b = (a, b) if self.one_in(2) else (self.base(a), self.base(b))
        return f"{a} {sign} {b}" if self.one_in(3) else f"({a} {sign} {b})"

    def beside(self, shape):
        """A shape that goes with this one."""
        kind = self.random.randrange(4)
        if kind == 0:
            return ()
        if kind == 1:
            return shape[1:]
        return tuple(1 if kind == 2 and self.one_in(2) else extent for extent in shape)

    def base(self, text):
        """The text as an operand of anything."""
        return text if text.isidentifier() and text not in ("True", "False") else f"({text})"

    def call(self, depth, wish):
        a, b = self.expression(depth - 1, wish), self.expression(depth - 1, self.beside(wish))
        kind = self.random.randrange(4)
        if kind == 0:
            return f"abs({a})"
        if kind == 1:
            return f"where({self.expression(depth - 1, self.beside(wish))}, {a}, {b})"
        return f"{self.pick(['minimum', 'maximum'])}({a}, {b})"

    def leaf(self, wish):
        kind = self.random.randrange(10)
        if kind < 6 and self.arrays():
            return self.sliced(self.pick(self.arrays()), wish)
        if kind < 7 and self.names:
            return self.pick(sorted(self.names))
        if kind < 9:
            return self.number()
        return self.pick(NAMES) if self.one_in(40) else self.made(wish)

    def made(self, shape):
        t = self.type_word()
        written = written_shape(shape)
        kind = self.random.randrange(9)
        if kind == 0:
            return f"full({written}, {self.number()}{t})"
        if kind == 1:
            return f"{self.pick(['zeros', 'ones'])}({written}{t})"
        if kind == 2:
            return f"arange({self.pick(['', '-2, ', self.weak() + ', '])}{self.random.randrange(6)}{t})"
        size = int(np.prod(shape, dtype=object))
        if kind < 6 and size < 200:
            return f"arange({size}{t}).reshape({written})"
        return f"array({self.listed(shape)}{t})" if shape and size < 30 else f"full({written}, 7{t})"

    def listed(self, shape):
        if not shape:
            return self.number() if self.one_in(5) else str(self.random.randrange(128))
        return "[" + ", ".join(self.listed(shape[1:]) for _ in range(shape[0])) + "]"

    def type_word(self):
        if self.one_in(2):
            return ""
        return self.pick([", ", ", ", ", dtype="]) + self.pick([*TYPES])

    def view(self, depth, wish):
        if self.arrays() and not self.one_in(3):
            name = self.pick(self.arrays())
            if self.one_in(4):
                return self.turned(name, shape_of(self.names[name]))
            return f"{name}[{self.index(shape_of(self.names[name]))}]"
        part = self.base(self.expression(depth - 1, self.beside(wish)))
        kind = self.random.randrange(4)
        if kind == 0:
            return f"{part}[{self.index(wish)}]"
        if kind == 1:
            return f"broadcast_to({part}, {written_shape(wish)})"
        return self.turned(part, wish)

    def turned(self, part, shape):
        axes = [*range(len(shape))]
        self.random.shuffle(axes)
        axes = [axis - len(axes) if self.one_in(4) else axis for axis in axes]
        if self.one_in(20):
            axes.append(self.random.randrange(-2, 3))
        forms = [f"{part}.T", f"transpose({part})", f"{part}.transpose()"]
        if axes:
            forms += [f"transpose({part}, {written_shape(axes)})", f"{part}.transpose({', '.join(map(str, axes))})"]
        return self.pick(forms)

    def copied(self, depth, wish):
        part = self.base(self.expression(depth - 1, wish))
        kind = self.random.randrange(5)
        if kind == 0:
            return f"{part}.copy()"
        if kind == 1:
            return f"{part}.flatten()"
        if kind == 2:
            shape = self.pick([(-1,), wish, wish[::-1], (-1, *wish[1:]), (*wish[:-1], -1), (1, -1), (2, -1)])
            return f"{part}.reshape({written_shape(shape)})"
        return f"{part}.astype({self.pick([*TYPES])})"

    # ---- indices

    def index(self, shape):
        items = [self.item(extent) for extent in shape]
        if items and self.one_in(6):
            items = items[: self.random.randrange(1, len(items) + 1)]
        if self.one_in(7):
            at = self.random.randrange(len(items) + 1)
            items[at : at + self.pick([0, 1])] = ["..."]
        while self.one_in(8):
            items.insert(self.random.randrange(len(items) + 1), "None")
        if self.one_in(60):
            items.append(self.item(2))
        return ", ".join(items or ["..."]) + ("," if self.one_in(30) else "")

    def item(self, extent):
        kind = self.random.randrange(10)
        if kind < 3 and extent:
            if self.one_in(5):
                return self.pick(["{}", "{} + 1", "-{}", "1 - 1", "0 * {}"]).format(self.weak())
            return str(self.random.randrange(-extent, extent)) if not self.one_in(40) else str(extent)
        if kind < 5:
            return ":"
        step = self.pick([":1", ":", ":2"]) if self.one_in(15) else ""
        return self.bound(extent) + ":" + self.bound(extent) + step

    def bound(self, extent):
        if self.one_in(3):
            return ""
        if self.one_in(8):
            return self.pick(["{}", "-{}", "{} + 1"]).format(self.weak())
        return str(self.random.randrange(-extent - 1, extent + 2))

    def sliced(self, name, wish):
        """A view of the array of exactly this shape, where it is large enough, so that values and targets
        overlap."""
        value = self.names[name]
        shape = shape_of(value)
        if len(shape) == len(wish) == 2 and self.one_in(4):
            return f"{self.sliced_by(name, shape, wish[::-1])}.T"
        return self.sliced_by(name, shape, wish)

    def sliced_by(self, name, shape, wish):
        surplus = len(shape) - len(wish)
        if surplus < 0 or shape == wish or any(e < w for e, w in zip(shape[max(surplus, 0) :], wish)):
            return name
        if any(extent == 0 for extent in shape[:surplus]):
            return name
        items = [str(self.random.randrange(extent)) for extent in shape[:surplus]]
        for extent, length in zip(shape[surplus:], wish):
            start = self.random.randrange(extent - length + 1)
            bounds = [f"{start}:{start + length}", f"{start - extent if extent else 0}:{start + length}"]
            items.append(self.pick(bounds))
        return f"{name}[{', '.join(items)}]" if items else name


def written_shape(shape):
    if len(shape) == 1:
        return f"({shape[0]},)"
    return f"({', '.join(map(str, shape))})"
