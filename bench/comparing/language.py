"""What a script means by NumPy: elements, views, copies and writes are its own. Where the language goes
its own way, a rule stands under "the language's own rules" and says what the language answers. A script of
the language is read as the Python that it looks like."""
import ast

import numpy as np

BOOL = np.dtype(bool)
INT64 = np.dtype("int64")
TYPES = {
    name: np.dtype(name)
    for name in "bool int8 int16 int32 int64 uint8 uint16 uint32 uint64".split()
}
OPERATORS = {
    "+": np.add, "-": np.subtract, "*": np.multiply, "//": np.floor_divide, "%": np.remainder,
    "**": np.power, "&": np.bitwise_and, "|": np.bitwise_or, "^": np.bitwise_xor,
    "<<": np.left_shift, ">>": np.right_shift, "minimum": np.minimum, "maximum": np.maximum,
}
COMPARISONS = {
    "==": np.equal, "!=": np.not_equal, "<": np.less, "<=": np.less_equal, ">": np.greater,
    ">=": np.greater_equal,
}
SIGNS = {
    ast.Add: "+", ast.Sub: "-", ast.Mult: "*", ast.FloorDiv: "//", ast.Mod: "%", ast.Pow: "**",
    ast.BitAnd: "&", ast.BitOr: "|", ast.BitXor: "^", ast.LShift: "<<", ast.RShift: ">>",
    ast.Eq: "==", ast.NotEq: "!=", ast.Lt: "<", ast.LtE: "<=", ast.Gt: ">", ast.GtE: ">=",
}

# ---- the language's own rules: what it answers where NumPy answers something else, or nothing

LEAST_WEAK, GREATEST_WEAK = -(2**63), 2**64 - 1
MOST_ELEMENTS = 2**24
MOST_AXES = 4
MOST_STATEMENTS = 100_000
# NumPy makes int8 of these, or is told by an error.
NOT_OF_BOOL = {"-", "//", "%", "**", "<<", ">>"}


class Fault(Exception):
    """The fault of a statement, with the rule that answers it."""

    def __init__(self, kind, rule):
        super().__init__(kind)
        self.kind = kind
        self.rule = rule


class Array:
    """Elements as NumPy has them, and the right: "writable", "read-only", or "scalar" for what an
    operation without axes has made and for an element that was picked."""

    def __init__(self, numbers, right="writable"):
        self.numbers = numbers
        self.right = right

    def view(self, numbers, right=None):
        """What views of a scalar have in common with `broadcast_to`: they may be read alone."""
        own = "read-only" if self.right == "scalar" else self.right
        return Array(numbers, right or own)


def is_weak(value):
    return not isinstance(value, Array)


def shape_of(value):
    return () if is_weak(value) else value.numbers.shape


def type_beside(value, other):
    """A weak integer takes the type of the array beside it, and int64 beside bool or a weak number."""
    if not is_weak(value):
        return value.numbers.dtype
    if isinstance(value, bool):
        return BOOL
    if is_weak(other) or other.numbers.dtype == BOOL:
        return INT64
    return other.numbers.dtype


def common_type(s, t):
    """There are no floats: uint64 and a signed type have no common type."""
    common = np.promote_types(s, t)
    if common.kind == "f":
        raise Fault("type", "no floats")
    return common


def need_fit(value, t):
    """A weak integer fits its type. It is neither wrapped nor of a wider type, as in older NumPy."""
    if is_weak(value) and not isinstance(value, bool) and t != BOOL:
        if not np.iinfo(t).min <= value <= np.iinfo(t).max:
            raise Fault("range", "a weak number fits its type")


def ranged(number):
    """Weak integers are whole numbers within a range."""
    if not LEAST_WEAK <= number <= GREATEST_WEAK:
        raise Fault("range", "the range of weak numbers")
    return number


def weak_arithmetic(sign, x, y):
    """Whole numbers, as Python has them; truth values count as 0 or 1."""
    x, y = int(x), int(y)
    if sign in ("//", "%") and y == 0:
        raise Fault("zero divisor", "a weak divisor is 0")
    if sign in ("//", "%"):
        return ranged(x // y if sign == "//" else x % y)
    return ranged({"+": x + y, "-": x - y, "*": x * y}[sign])


def as_array(value):
    """A weak number counts as a scalar of int64 or bool where an array is asked for."""
    if not is_weak(value):
        return value
    need_fit(value, type_beside(value, value))
    return Array(np.array(value, type_beside(value, value)), "scalar")


def weak_integer(value):
    """Extents, bounds, axes and items are weak integers: no truth values and no arrays."""
    if is_weak(value) and not isinstance(value, bool):
        return value
    raise Fault("type", "extents, bounds, axes and items are weak integers")


def weak_number(value):
    if is_weak(value):
        return value
    raise Fault("type", "an array is made of weak numbers")


def within_limits(shape):
    """An extent counts beside an extent of 0 too."""
    if any(extent > MOST_ELEMENTS for extent in shape) or np.prod([*shape], dtype=object) > MOST_ELEMENTS:
        raise Fault("limit", "the greatest size of an array")
    return tuple(shape)


def checked_shape(extents):
    if any(extent < 0 for extent in extents):
        raise Fault("shape", "an extent below 0")
    return at_most_four(extents)


def at_most_four(shape):
    if len(shape) > MOST_AXES:
        raise Fault("shape", "at most four axes")
    return tuple(shape)


def joined_shape(*shapes):
    try:
        return within_limits(np.broadcast_shapes(*shapes))
    except ValueError:
        raise Fault("shape", "operands go together") from None


def inferred_shape(count, extents):
    """`reshape`: -1 stands for what is left, and NumPy takes other numbers below 0 for it too."""
    known = [extent for extent in extents if extent >= 0]
    product = int(np.prod(known, dtype=object)) if known else 1
    unknown = len(extents) - len(known)
    if min(extents, default=0) < -1 or unknown > 1 or unknown == 1 and product == 0:
        raise Fault("shape", "what -1 stands for")
    shape = at_most_four([count // product if extent < 0 else extent for extent in extents])
    if int(np.prod(shape, dtype=object)) != count:
        raise Fault("shape", "as many elements as there are")
    return within_limits(shape)


def need_index(shape, items):
    """The faults of an index in their order; the step of a slice is 1."""
    named = sum(isinstance(item, (int, slice)) for item in items)
    if sum(item is Ellipsis for item in items) > 1 or named > len(shape):
        raise Fault("index", "the items of an index")
    axis = 0
    for item in items:
        if item is Ellipsis:
            axis += len(shape) - named
        elif isinstance(item, slice):
            if item.step not in (None, 1):
                raise Fault("step", "the step of a slice is 1")
            axis += 1
        elif item is not None:
            if not -shape[axis] <= item < shape[axis]:
                raise Fault("index", "a place of the axis")
            axis += 1
    kept = len(shape) - sum(isinstance(item, int) for item in items)
    at_most_four([0] * (kept + sum(item is None for item in items)))


def need_writable(target):
    if target.right != "writable":
        raise Fault("read-only", "scalars and repeated arrays are read alone")


def need_same_kind(result, target):
    if not np.can_cast(result, target, "same_kind"):
        raise Fault("type", "an update keeps to the kind of its target")


def fitted(shape, target):
    """What is left of the shape of an assigned value without surplus axes of extent 1."""
    surplus = max(len(shape) - len(target), 0)
    left = shape[surplus:]
    if any(extent != 1 for extent in shape[:surplus]) or not broadcasts_to(left, target):
        raise Fault("shape", "a value fits its target")
    return left


def broadcasts_to(shape, to):
    try:
        return np.broadcast_shapes(shape, to) == tuple(to)
    except ValueError:
        return False


# ---- what a script means


class Run:
    """A run of a script by NumPy: what it prints, and the message that it ends with, if any."""

    def __init__(self, script):
        self.names = {}
        self.prints = []
        self.count = 0
        self.said = ""
        self.rule = "no fault"
        # The first fault of an element in the statement that is run: it counts where no other fault is.
        self.first = None
        try:
            self.block(ast.parse(script).body)
        except Fault as fault:
            self.rule = fault.rule
            self.said = f"line {self.line}: {fault.kind}\n"

    @property
    def answer(self):
        return "".join(self.prints), self.said, 4 if self.said else 0

    # ---- statements

    def block(self, statements):
        for statement in statements:
            self.line = statement.lineno
            self.count += 1
            if self.count > MOST_STATEMENTS:
                raise Fault("limit", "the number of statements")
            self.first = None
            if isinstance(statement, ast.For):
                self.loop(statement)
            else:
                self.step(statement)

    def loop(self, statement):
        bounds = [self.value(bound) for bound in statement.iter.args]
        bounds = [weak_integer(bound) for bound in bounds]
        for number in range(*bounds):
            self.names[statement.target.id] = number
            self.block(statement.body)

    def step(self, statement):
        if isinstance(statement, ast.Expr):
            value = self.value(statement.value.args[0])
            self.need_no_fault()
            self.prints.append(printed(value) + "\n")
        elif isinstance(statement, ast.AugAssign):
            self.update(statement.target, SIGNS[type(statement.op)], statement.value)
        elif isinstance(statement.targets[0], ast.Name):
            value = self.value(statement.value)
            self.need_no_fault()
            self.names[statement.targets[0].id] = value
        else:
            self.put(statement.targets[0], statement.value)

    def need_no_fault(self):
        if self.first:
            raise self.first

    def put(self, place, e):
        value = self.value(e)
        target = self.target(place)
        t = target.numbers.dtype
        need_writable(target)
        need_fit(value, t)
        left = fitted(shape_of(value), target.numbers.shape)
        self.need_no_fault()
        # An array is wrapped; of bool its elements count as not 0.
        numbers = np.array(value != 0 if t == BOOL else value, t) if is_weak(value) else value.numbers
        target.numbers[...] = numbers.reshape(left).astype(t)

    def update(self, place, sign, e):
        """A weak number and a scalar are bound anew; any other array is written in place."""
        if isinstance(place, ast.Name):
            old = self.value(place)
            if is_weak(old) or old.right == "scalar":
                value = self.arithmetic(sign, old, self.value(e))
                self.need_no_fault()
                self.names[place.id] = value
                return
            target = old
        else:
            target = self.target(place)
        result = self.arithmetic(sign, Array(target.numbers), self.value(e)).numbers
        need_writable(target)
        need_same_kind(result.dtype, target.numbers.dtype)
        if result.shape != target.numbers.shape:
            raise Fault("shape", "an update keeps the shape of its target")
        self.need_no_fault()
        target.numbers[...] = result.astype(target.numbers.dtype)

    def target(self, place):
        """The view that is written, of one element too."""
        named = self.value(place.value)
        if is_weak(named):
            raise Fault("type", "a weak number has no elements")
        items = self.items(place.slice)
        need_index(named.numbers.shape, items)
        return named.view(named.numbers[with_rest(items)])

    # ---- expressions

    def value(self, e):
        return getattr(self, type(e).__name__)(e)

    def Constant(self, e):
        return e.value

    def Name(self, e):
        if e.id not in self.names:
            raise Fault("name", "a name that is not bound")
        return self.names[e.id]

    def UnaryOp(self, e):
        value = self.value(e.operand)
        if isinstance(e.op, ast.USub):
            return ranged(-int(value)) if is_weak(value) else self.unary(np.negative, value)
        return self.unary(np.invert, value)

    def BinOp(self, e):
        return self.arithmetic(SIGNS[type(e.op)], self.value(e.left), self.value(e.right))

    def Compare(self, e):
        a, b = self.value(e.left), self.value(e.comparators[0])
        compared = COMPARISONS[SIGNS[type(e.ops[0])]]
        if is_weak(a) and is_weak(b):
            return bool(compared(np.array(a, object), np.array(b, object)))
        shape = joined_shape(shape_of(a), shape_of(b))
        # Of whole numbers, where NumPy compares int64 with uint64 as floats.
        x, y = [np.array(v if is_weak(v) else v.numbers, object) for v in (a, b)]
        return result_of(np.broadcast_to(compared(x, y), shape).astype(bool))

    def Subscript(self, e):
        value = self.value(e.value)
        items = self.checked_items(self.raw_items(e.slice))
        array = as_array(value)
        need_index(array.numbers.shape, items)
        if len(items) == array.numbers.ndim and all(isinstance(item, int) for item in items):
            return Array(np.array(array.numbers[tuple(items)]), "scalar")
        return array.view(array.numbers[with_rest(items)])

    def Attribute(self, e):
        array = as_array(self.value(e.value))
        return array.view(array.numbers.T)

    def Call(self, e):
        if isinstance(e.func, ast.Attribute):
            called = getattr(self, "call_" + e.func.attr)
            value = self.value(e.func.value)
            if e.func.attr in ("reshape", "transpose") and len(e.args) > 1:
                return called(value, ast.Tuple(e.args))
            return called(value, *e.args)
        words = [keyword.value for keyword in e.keywords]
        return getattr(self, "make_" + e.func.id)(*e.args, *words)

    def items(self, e):
        return self.checked_items(self.raw_items(e))

    def raw_items(self, e):
        """The items of an index with the values of their parts, whose faults come first."""
        raw = []
        for item in e.elts if isinstance(e, ast.Tuple) else [e]:
            if isinstance(item, ast.Slice):
                raw.append([part and self.value(part) for part in (item.lower, item.upper, item.step)])
            else:
                raw.append(self.value(item))
        return raw

    def checked_items(self, raw):
        items = []
        for item in raw:
            if isinstance(item, list):
                items.append(slice(*[part if part is None else weak_integer(part) for part in item]))
            else:
                items.append(item if item is None or item is Ellipsis else weak_integer(item))
        return items

    # ---- operations on elements

    def unary(self, function, value):
        t = type_beside(value, value)
        if function is np.negative and t == BOOL:
            raise Fault("type", "bool has no such operation")
        return result_of(function(as_array(value).numbers))

    def arithmetic(self, sign, a, b):
        if is_weak(a) and is_weak(b) and sign in ("+", "-", "*", "//", "%"):
            return weak_arithmetic(sign, a, b)
        return self.binary(sign, a, b)

    def binary(self, sign, a, b):
        s, t = type_beside(a, b), type_beside(b, a)
        common = common_type(s, t)
        if common == BOOL and sign in NOT_OF_BOOL:
            raise Fault("type", "bool has no such operation")
        need_fit(a, s)
        need_fit(b, t)
        shape = joined_shape(shape_of(a), shape_of(b))
        x, y = [np.broadcast_to(elements(v, common), shape) for v in (a, b)]
        wrong = np.zeros(shape, bool)
        if sign in ("//", "%"):
            wrong = y == 0
        elif sign == "**":
            wrong = y < 0
        if wrong.any():
            self.found("power" if sign == "**" else "zero divisor")
            y = np.where(wrong, y.dtype.type(1), y)
        numbers = np.asarray(OPERATORS[sign](x, y))
        return result_of(np.where(wrong, numbers.dtype.type(0), numbers))

    def found(self, kind):
        if self.first is None:
            self.first = Fault(kind, f"{kind} of an element")

    def make_abs(self, e):
        return self.unary(np.absolute, self.value(e))

    def make_minimum(self, a, b):
        return self.binary("minimum", self.value(a), self.value(b))

    def make_maximum(self, a, b):
        return self.binary("maximum", self.value(a), self.value(b))

    def make_where(self, *parts):
        c, a, b = [self.value(part) for part in parts]
        s, t = type_beside(a, b), type_beside(b, a)
        common = common_type(s, t)
        if is_weak(a) and is_weak(b):
            need_fit(c, type_beside(c, c))
        need_fit(a, s)
        need_fit(b, t)
        shape = joined_shape(shape_of(c), shape_of(a), shape_of(b))
        chosen = bool(c) if is_weak(c) else c.numbers != 0
        numbers = np.where(chosen, elements(a, common), elements(b, common))
        return result_of(np.broadcast_to(numbers, shape).copy())

    # ---- arrays that are made

    def extents(self, e):
        parts = e.elts if isinstance(e, ast.Tuple) else [e]
        return [self.value(part) for part in parts]

    def make_full(self, s, x, t=None):
        extents, number = self.extents(s), self.value(x)
        extents = [weak_integer(extent) for extent in extents]
        number = weak_number(number)
        dtype = TYPES[t.id] if t else type_beside(number, number)
        need_fit(number, dtype)
        return self.filled(extents, number, dtype)

    def filled(self, extents, number, dtype):
        shape = within_limits(checked_shape(extents))
        return Array(np.full(shape, number != 0 if dtype == BOOL else number, dtype))

    def make_zeros(self, s, t=None, number=0):
        extents = [weak_integer(extent) for extent in self.extents(s)]
        return self.filled(extents, number, TYPES[t.id] if t else INT64)

    def make_ones(self, s, t=None):
        return self.make_zeros(s, t, 1)

    def make_arange(self, *parts):
        parts = list(parts)
        t = parts.pop().id if isinstance(parts[-1], ast.Name) and parts[-1].id in TYPES else "int64"
        bounds = [self.value(part) for part in parts]
        bounds = [weak_integer(bound) for bound in bounds]
        low, high = bounds if len(bounds) > 1 else (0, bounds[0])
        if t == "bool":
            raise Fault("type", "arange of bool")
        if low < high:
            need_fit(low, TYPES[t])
            need_fit(high - 1, TYPES[t])
        within_limits([max(high - low, 0)])
        return Array(np.array(range(low, high), TYPES[t]))

    def make_array(self, l, t=None):
        numbers = [weak_number(number) for number in self.leaves(l)]
        default = BOOL if numbers and all(isinstance(n, bool) for n in numbers) else INT64
        dtype = TYPES[t.id] if t else default
        for number in numbers:
            need_fit(number, dtype)
        shape = at_most_four(list_shape(l))
        numbers = [number != 0 if dtype == BOOL else number for number in numbers]
        return Array(np.array(numbers, dtype).reshape(within_limits(shape)))

    def leaves(self, l):
        if isinstance(l, ast.List):
            return [number for entry in l.elts for number in self.leaves(entry)]
        return [self.value(l)]

    # ---- views and copies

    def make_transpose(self, a, s=None):
        return self.call_transpose(self.value(a), s)

    def call_transpose(self, value, s=None):
        extents = None if s is None else self.extents(s)
        axes = None if s is None else [weak_integer(axis) for axis in extents]
        array = as_array(value)
        count = array.numbers.ndim
        if axes is not None:
            if len(axes) != count:
                raise Fault("shape", "the axes of a transpose")
            if not all(-count <= axis < count for axis in axes):
                raise Fault("index", "the axes of a transpose")
            if len({axis % count for axis in axes}) < count:
                raise Fault("shape", "the axes of a transpose")
        return array.view(array.numbers.transpose(axes))

    def make_broadcast_to(self, a, s):
        value = self.value(a)
        extents = [weak_integer(extent) for extent in self.extents(s)]
        array = as_array(value)
        shape = checked_shape(extents)
        if not broadcasts_to(array.numbers.shape, shape):
            raise Fault("shape", "a shape to which an array is repeated")
        return array.view(np.broadcast_to(array.numbers, within_limits(shape)), "read-only")

    def call_copy(self, value):
        return Array(as_array(value).numbers.copy())

    def call_flatten(self, value):
        return Array(as_array(value).numbers.flatten())

    def call_astype(self, value, t):
        return Array(as_array(value).numbers.astype(TYPES[t.id]))

    def call_reshape(self, value, s):
        extents = [weak_integer(extent) for extent in self.extents(s)]
        numbers = as_array(value).numbers
        return Array(numbers.reshape(inferred_shape(numbers.size, extents)).copy())


def elements(value, t):
    """An operand as NumPy has it, of this type."""
    return np.array(value, t) if is_weak(value) else value.numbers.astype(t)


def result_of(numbers):
    """What an operation on elements makes: a scalar where it has no axes."""
    numbers = np.array(numbers)
    return Array(numbers, "writable" if numbers.ndim else "scalar")


def with_rest(items):
    """The items with a `...`, so that NumPy makes a view of one element too."""
    return tuple(items) if Ellipsis in items else (*items, Ellipsis)


def list_shape(l):
    if not isinstance(l, ast.List):
        return ()
    shapes = {list_shape(entry) for entry in l.elts}
    if len(shapes) > 1:
        raise Fault("shape", "lists that are unequal")
    return (len(l.elts), *next(iter(shapes), ()))


def printed(value):
    """Python's text of nested lists, as `tolist` makes them."""
    return str(value if is_weak(value) else value.numbers.tolist())
