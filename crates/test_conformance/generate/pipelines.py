"""Algorithms that are accepted, and their pictures, as docs/LANGUAGE.md has them."""

import itertools
import re
import sys

TOKEN = re.compile(r"[ \t]*(?:(\d+)|([A-Za-z_]\w*)|(<=|>=|==|!=|[-+*/%<>(),=]))")

# Expressions call each other as deep as they are, through up to twelve Funcs.
sys.setrecursionlimit(50_000)


def word(value):
    return (value + 0x80000000 & 0xFFFFFFFF) - 0x80000000


def tokens_of(line):
    line = line.split("#")[0].rstrip(" \t")
    tokens, at = [], 0
    while at < len(line):
        match = TOKEN.match(line, at)
        assert match, line
        number, name, sign = match.groups()
        tokens.append(int(number) if number is not None else name or sign)
        at = match.end()
    return tokens


class Reader:
    """A recursive descent over the grammar."""

    def __init__(self, tokens):
        self.tokens, self.at = tokens, 0

    def peek(self):
        return self.tokens[self.at] if self.at < len(self.tokens) else None

    def next(self):
        self.at += 1
        return self.tokens[self.at - 1]

    def take(self, token):
        if self.peek() == token:
            self.at += 1
            return True
        return False

    def expr(self):
        left = self.sum()
        if self.peek() in ("<", "<=", ">", ">=", "==", "!="):
            return (self.next(), left, self.sum())
        return left

    def sum(self):
        left = self.term()
        while self.peek() in ("+", "-"):
            left = (self.next(), left, self.term())
        return left

    def term(self):
        left = self.factor()
        while self.peek() in ("*", "/", "%"):
            left = (self.next(), left, self.factor())
        return left

    def factor(self):
        if self.take("-"):
            return ("-", 0, self.factor())
        if self.take("("):
            inner = self.expr()
            assert self.take(")")
            return inner
        token = self.next()
        if isinstance(token, int):
            return token
        if not self.take("("):
            return ("var", token)
        arguments = [self.expr()]
        while self.take(","):
            arguments.append(self.expr())
        assert self.take(")")
        return ("call", token, arguments)

    def number(self):
        sign = -1 if self.take("-") else 1
        return sign * self.next()

    def left_side(self, item):
        """A name, and what stands in the brackets before `=`."""
        name = self.next()
        self.take("(")
        items = [item()]
        while self.take(","):
            items.append(item())
        assert self.take(")") and self.take("=")
        return name, items


class Pipeline:
    def __init__(self, text):
        self.inputs, self.funcs, self.order = {}, {}, []
        for line in text.split("\n"):
            tokens = tokens_of(line)
            if tokens:
                getattr(self, "read_" + tokens[0])(Reader(tokens[1:]))

    def read_input(self, r):
        name, width = r.next(), r.next()
        self.inputs[name] = (width, r.next() if isinstance(r.peek(), int) else None)

    def read_func(self, r):
        name, arguments = r.left_side(r.next)
        self.funcs[name] = {"arguments": arguments, "pure": r.expr(), "updates": []}
        self.order.append(name)

    def read_update(self, r):
        name, left = r.left_side(r.expr)
        right = r.expr()
        assert r.take("over")
        box = []
        while True:
            variable = r.next()
            box.append((variable, r.number(), r.next()))
            if not r.take(","):
                break
        self.funcs[name]["updates"].append({"left": left, "right": right, "box": box})

    def read_output(self, r):
        name, width = r.next(), r.next()
        self.output = (name, width, r.next() if r.peek() is not None else None)


def kept(read):
    """A function of a point that finds each value once."""
    values = {}

    def look(at):
        if at not in values:
            values[at] = read(at)
        return values[at]

    return look


def input_values(width, height, pixels):
    """An input as a function of a point: 0 outside its extents."""

    def read(at):
        x, y = at if len(at) > 1 else (at[0], 0)
        return pixels[y * width + x] if 0 <= x < width and 0 <= y < height else 0

    return read


class Evaluation:
    """Each source as a function of a point, and each expression as one of the values of its variables. Each update is replayed over the points
    of its box, once for all values of its arguments in place that are asked for."""

    def __init__(self, pipeline, pictures):
        self.sources = {}
        for name, (width, height) in pipeline.inputs.items():
            self.sources[name] = input_values(width, height or 1, pictures[name])
        for name in pipeline.order:
            self.sources[name] = self.func(name, **pipeline.funcs[name])

    def func(self, name, arguments, pure, updates):
        """A Func's values once all updates are made."""
        read = kept(self.expression(pure, arguments))
        for update in updates:
            read = self.updated(name, arguments, read, **update)
        return read

    def updated(self, name, arguments, before, left, right, box):
        """The values after an update: a table of the points that it writes for all values of the arguments in place."""
        in_place = [place for place, argument in enumerate(arguments) if left[place] == ("var", argument)]
        tables = {}

        def table_of(at):
            return tuple(at[place] for place in in_place)

        def own(at):
            """The value so far."""
            table = tables[table_of(at)]
            return table[at] if at in table else before(at)

        self.sources[name] = own
        # The first variable is the innermost.
        variables = [*(arguments[place] for place in in_place), *(variable for variable, _, _ in reversed(box))]
        indexes = [self.expression(index, variables) for index in left]
        right = self.expression(right, variables)
        ranges = [[word(least + turn) for turn in range(extent)] for _, least, extent in reversed(box)]

        def read(at):
            values = table_of(at)
            if values not in tables:
                table = tables[values] = {}
                for point in itertools.product(*ranges):
                    written = tuple(index(values + point) for index in indexes)
                    table[written] = right(values + point)
            return own(at)

        return read

    def expression(self, e, variables):
        if isinstance(e, int):
            number = word(e)
            return lambda values: number
        if e[0] == "var":
            place = variables.index(e[1])
            return lambda values: values[place]
        parts = [self.expression(part, variables) for part in (e[2] if e[0] == "call" else e[1:])]
        if e[0] in OPERATORS:
            apply, (a, b) = OPERATORS[e[0]], parts
            return lambda values: word(apply(a(values), b(values)))
        if e[1] in CHOICES:
            return CHOICES[e[1]](*parts)
        source = self.sources[e[1]]
        if len(parts) == 1:
            x = parts[0]
            return lambda values: source((x(values),))
        x, y = parts
        return lambda values: source((x(values), y(values)))


CHOICES = {
    "min": lambda a, b: lambda values: min(a(values), b(values)),
    "max": lambda a, b: lambda values: max(a(values), b(values)),
    "clamp": lambda v, low, high: lambda values: min(max(v(values), low(values)), high(values)),
    "select": lambda c, a, b: lambda values: a(values) if c(values) != 0 else b(values),
}

OPERATORS = {
    "+": lambda a, b: a + b, "-": lambda a, b: a - b, "*": lambda a, b: a * b, "/": lambda a, b: a // b,
    "%": lambda a, b: a % b, "<": lambda a, b: int(a < b), "<=": lambda a, b: int(a <= b), ">": lambda a, b: int(a > b),
    ">=": lambda a, b: int(a >= b), "==": lambda a, b: int(a == b), "!=": lambda a, b: int(a != b),
}


def picture_text(width, height, pixels):
    rows = (" ".join(map(str, pixels[y * width:(y + 1) * width])) for y in range(height))
    return [f"picture {width} {height}", *rows]


def draw(text, pictures):
    """The lines of the reference picture."""
    pipeline = Pipeline(text)
    name, width, height = pipeline.output
    value = Evaluation(pipeline, pictures).sources[name]
    pixels = [value((x,) if height is None else (x, y)) for y in range(height or 1) for x in range(width)]
    return picture_text(width, height or 1, pixels)
