"""Cases of vectorized and of unrolled loops: an algorithm, a schedule, and the sizes of boxes, worked out by hand."""

from collections import namedtuple

# The points of each Func's box that is computed at root, in order of the text, those of boxes computed at a loop, whether the data have frames,
# how many tasks each phase has, how great the numbers of pictures are, and which vectorized loops are vector code.
Facts = namedtuple("Facts", "roots privates frames tasks greatest code", defaults=((), False, (1,), 1000, "all vector code"))

FRAMES = 8 * 4096


def layout(inputs, facts, width, height):
    """The lines `data` and `output`; the output's Func is the last one at root."""
    size = 8 * len(facts.tasks)
    for words in inputs:
        points = [int(word) for word in words[2:] if word.isdigit()]
        count = points[0] * (points[1] if len(points) > 1 else 1)
        size += (count + 3) // 4 * 4 if words[-1] == "u8" else 4 * count
    output = 0x00200000 + size + 4 * sum(facts.roots[:-1])
    size += 4 * sum(facts.roots) + 32 * sum(facts.privates) + FRAMES * facts.frames
    return [f"data {size}", f"output 0x{output:08x} {width} {height or 1} {4 * width}"]


def row(factor, way="guard", name="f"):
    """Vectors of so many pixels of a row."""
    return f"{name} split x xo xi {factor} {way}\n{name} vectorize xi"


def one(definition, width, factor, way="guard", inputs="input in 37"):
    """A Func of one argument by vectors."""
    return f"{inputs}\nfunc f(x) = {definition}\noutput f {width}", row(factor, way), Facts((width,))


NESTED = "in(x) - (in(x+1) * (in(x+2) + (in(x+3) - (in(x+4) * {}))))"


def turned(count, first=36, index="{}-x"):
    """So many reads that lie anywhere, each beside all that follow it."""
    text = f"in({index.format(first - count + 1)})"
    for k in range(count - 1):
        text = f"in({index.format(first - count + 2 + k)}) {'-*+'[k % 3]} ({text})"
    return text


def chosen(count, choice):
    """So many choices, one in another."""
    text = "in(x)"
    for k in range(count):
        text = choice.format(k, text)
    return text


def chosen_of_three(depth, leaf, first=0):
    """Choices in all parts of choices, so many deep."""
    if depth == 0:
        return leaf(first)
    return "select({}, {}, {})".format(*(chosen_of_three(depth - 1, leaf, 3 * first + part) for part in range(3)))


def pixel_of(k):
    """Reads of a row of 37 pixels that differ."""
    return f"in(x+{k % 5})" if k % 3 else f"in(36-x-{k % 4})"


def row_of(k):
    """Reads of the pixels of an update by rows."""
    return f"in(clamp(x-{k % 3},0,19),{'r' if k % 2 else k % 4})"


def one_of_choices(parts, names, width, factor):
    """A Func of one argument by vectors: choices of choices, as deep as there are names, of which each is a Func that isn't computed."""
    funcs = [f"func {names[0]}(x) = select({parts})"]
    funcs += [f"func {own}(x) = select({other}(x), {other}(x+1), {other}(x+2))" for other, own in zip(names, names[1:])]
    return "\n".join(["input in 37", *funcs, f"output f {width}"]), row(factor)


def nested(depth, text, operation="0+{}"):
    """An expression that needs so many registers more."""
    for level in range(depth):
        text = operation.format(f"({text})" if level else text)
    return text


# Indexes of two and of three registers, and values of as many.
ROW, COLUMN = "clamp(in(clamp(x,0,19),r),0,3)", "clamp(in(r,clamp(y,0,19)),0,3)"
CHOICE = "select({},0,select({},1,x*r))"
VALUE_BY_ROWS, VALUE_BY_COLUMNS = "in(clamp(x-1,0,19),r)", "in(r,clamp(y-1,0,19))"


def update_by_rows(row, value):
    """An update by vectors of sixteen whose rows lie anywhere."""
    return (f"input in 20 4\nfunc h(x,y) = 0\nupdate h(x,{row}) = {value} over r 0 4\noutput h 20 4",
            "h.0 split x xo xi 16 guard\nh.0 reorder xi r\nh.0 vectorize xi", Facts((80,), tasks=(1, 1), greatest=5))


def update_by_columns(column, value):
    """And one whose columns do."""
    return (f"input in 4 20\nfunc h(x,y) = 0\nupdate h({column},y) = {value} over r 0 4\noutput h 4 20",
            "h.0 split y yo yi 16 guard\nh.0 reorder yi r\nh.0 vectorize yi", Facts((80,), tasks=(1, 1), greatest=5))


def update_by_table(row, value):
    """One that reads a computed Func at a byte: its index counts from that Func's corner, which the weights don't count."""
    return (f"input in 20 4\ninput b 20 u8\nfunc lut(x) = x % 4 - 1\nfunc h(x,y) = 0\nupdate h(x,{row}) = {value} over r 0 4\noutput h 20 4",
            "lut compute_root\nh.0 split x xo xi 16 guard\nh.0 reorder xi r\nh.0 vectorize xi", Facts((256, 80), tasks=(1, 1, 1), greatest=5))


CASES = [
    (f"bytes one behind the other by {factor}", *one("in(x) * 3 - in(x+1)", 36, factor, inputs="input in 37 u8")) for factor in (4, 8, 16)
] + [
    (f"bytes that lie anywhere by {factor}", *one("in(36-x) * 1000 + in(clamp(x*3-5, 0, 36))", 37, factor, inputs="input in 37 u8")) for factor in (4, 8, 16)
] + [
    ("a byte that stays", *one("in(5) + in(x)", 37, 8, inputs="input in 37 u8")),
    ("a word that stays", *one("in(5) - in(x)", 37, 8)),
    ("vectors that overlap", *one("in(x) - x * x", 37, 16, "shift")),
    ("masks of sixteen lanes", *one("select(in(x) % 2 == 1, min(in(x), 7), max(in(x), x - 20)) + (in(x) >= 3) - (x < 9)", 37, 16)),
    ("quotients and remainders of both signs", *one("(0 - in(x)) / 7 * 100 + (x - 18) % 5 - in(x) / 3 % 4", 37, 8)),
    ("quotients and remainders by 2147483647", *one("(0 - in(x)) / 2147483647 + in(x) % 2147483647", 37, 4)[:2], Facts((37,), greatest=2**31 - 1)),
    ("a stack of six by sixteen", *one(NESTED.format("in(x)"), 32, 16)),
    ("a stack of seven by sixteen", *one(NESTED.format("in(x+5)"), 32, 16)[:2], Facts((32,), frames=True)),
    ("reads that lie anywhere, six deep by sixteen", *one("in(36-x) - (in(35-x) * (in(34-x) + (in(33-x) - (in(32-x) * in(5)))))", 32, 16)[:2], Facts((32,))),
    ("reads that lie anywhere, seven deep by sixteen", *one("in(36-x) - (in(35-x) * (in(34-x) + (in(33-x) - (in(32-x) * in(31-x)))))", 32, 16)[:2], Facts((32,), frames=True)),
    ("a stack of seven by eight", *one(NESTED.format("in(x+5)"), 32, 8)),
    ("an index that runs along both arguments", "input in 30\nfunc f(x,y) = in(x+y) * 2 + in(x-y+7)\noutput f 20 8", row(8), Facts((160,))),
    ("every third pixel, rounded up", "input in 23\nfunc f(x) = in(x) + 1\noutput f 23",
     "f split x xo xi 3 guard\nf split xo p q 4 guard\nf reorder q xi p\nf vectorize q", Facts((23,))),
    ("an outer loop of a shift split", "input in 20\nfunc f(x) = in(x) * 5\noutput f 20",
     "f split x xo xi 8 shift\nf split xo p q 4 guard\nf reorder q xi p\nf vectorize q", Facts((20,))),
    ("a shift split of a shift split's outer loop", "input in 40\nfunc f(x) = in(x) * 5 - in(39-x)\noutput f 40",
     "f split x xo xi 8 shift\nf split xo p q 4 shift\nf reorder q xi p\nf vectorize q", Facts((40,))),
    ("two guards", "input in 37\nfunc f(x) = in(x) * 5\noutput f 37",
     "f split x xo xi 10 guard\nf split xi p q 4 guard\nf vectorize q", Facts((37,))),
    ("columns", "input in 5 9\nfunc f(x,y) = in(x,y) - y * 3\noutput f 5 9", "f split y yo yi 4 guard\nf reorder yi x yo\nf vectorize yi", Facts((45,))),
    ("rows of a Func at a loop", "input in 20 9\nfunc g(x,y) = in(x,y) * 2\nfunc f(x,y) = g(x,y) + g(x+1,y+1)\noutput f 19 8",
     "f split y yo yi 2 guard\nf parallel yo\ng compute_at f yo\n" + row(16, name="g"), Facts((152,), (60,), tasks=(4,))),
    ("both stages by vectors", "input in 20 9\nfunc g(x,y) = in(x,y) * 2\nfunc f(x,y) = g(x,y) + g(x+1,y+1)\noutput f 19 8",
     "g compute_root\n" + row(8, name="g") + "\n" + row(4) + "\nf parallel y", Facts((180, 152), tasks=(1, 8))),
    ("an update's argument in place", "input in 13\nfunc f(x) = in(x)\nupdate f(x) = f(x) * 2 + in(r) - x over r 0 5\noutput f 13",
     "f.0 split x xo xi 4 guard\nf.0 reorder xi r xo\nf.0 vectorize xi", Facts((13,), tasks=(1, 1))),
    ("copies of four rounds", "input in 37\nfunc f(x) = (in(clamp(x-1,0,36)) + in(x)) / 3\noutput f 37", "f split x xo xi 4 guard\nf unroll xi", Facts((37,))),
    ("copies in copies, with guards", "input in 8\nfunc f(x,y) = in(clamp(x+y,0,7)) + x*y\noutput f 7 5",
     "f split x xo xi 4 guard\nf split y yo yi 2 guard\nf unroll xi\nf reorder xi yi xo yo\nf unroll yi\nf parallel yo", Facts((35,), tasks=(3,))),
    ("copies of rounds at once", "input in 37\nfunc f(x) = in(x) * 5 - in(36-x)\noutput f 37",
     "f split x xo xi 4 guard\nf vectorize xi\nf split xo p q 3 guard\nf unroll q", Facts((37,))),
    ("a Func at a loop around copies", "input in 8\nfunc g(x) = in(clamp(x,0,7)) * 3\nfunc f(x) = g(x) + g(x+1)\noutput f 8",
     "f split x xo xi 4 shift\nf unroll xi\ng compute_at f xo", Facts((8,), (9,))),
    ("a Func at the loop that is laid out", "input in 8\nfunc g(x) = in(clamp(x,0,7)) * 3\nfunc f(x) = g(x) + g(x+1)\noutput f 8",
     "f split x xo xi 4 guard\nf unroll xi\ng compute_at f xi", Facts((8,), (2,))),
    ("copies of an update", "input in 13\nfunc f(x) = in(x)\nupdate f(x) = f(x) * 2 + in(r) - x over r 0 5\noutput f 13",
     "f.0 split x xo xi 4 guard\nf.0 reorder xi r xo\nf.0 unroll xi", Facts((13,), tasks=(1, 1))),
    ("bytes that lie anywhere, eight deep by sixteen", *one(turned(8), 29, 16, inputs="input in 37 u8")[:2], Facts((29,), frames=True)),
    ("a choice of values that wait, by sixteen", *one(f"select(in(x) % 2 == 1, {turned(7)}, {turned(8, 35)})", 28, 16)[:2], Facts((28,), frames=True)),
    ("reads that lie anywhere, sixteen deep by eight", *one(turned(16), 21, 8)[:2], Facts((21,), frames=True)),
    ("columns of values that wait, by sixteen", "input in 5 20\nfunc f(x,y) = in(4-x,19-y) - (in(x,19-y) * (in(4-x,y) + (in(x,y) - (in(4-x,19-y) * (in(x,19-y) + in(4-x,y))))))\noutput f 5 20",
     "f split y yo yi 16 guard\nf reorder yi x yo\nf vectorize yi", Facts((100,), frames=True)),
    ("a shift split of a shift split's outer loop, of one read", "input in 40\nfunc f(x) = in(x)\noutput f 40",
     "f split x xo xi 8 shift\nf split xo p q 4 shift\nf reorder q xi p\nf vectorize q", Facts((40,))),
    ("a split of the outer loop of two shift splits", "input in 130\nfunc f(x) = in(x) * 5 - in(129-x)\noutput f 130",
     "f split x xo xi 8 shift\nf split xo p q 4 shift\nf split p r s 4 guard\nf reorder s xi q r\nf vectorize s", Facts((130,))),
    ("a split of the outer loop of three shift splits", "input in 61\nfunc f(x) = in(x) * 5 - in(60-x)\noutput f 61",
     "f split x a xi 2 shift\nf split a c ci 2 shift\nf split c e ei 2 shift\nf split e g h 4 guard\nf reorder h xi ci ei g\nf vectorize h", Facts((61,))),
    ("an update by vectors of sixteen whose rows need five registers and move", *update_by_rows(nested(3, ROW), f"h(x,{nested(3, ROW)}) + 1")),
    ("one whose rows need six registers", *update_by_rows(nested(4, ROW), "h(x,0) * 3 + in(x,r) - x")),
    ("one whose rows need six registers, and its values five", *update_by_rows(nested(4, ROW), nested(3, VALUE_BY_ROWS, "x-{}"))),
    ("one whose columns need six registers", *update_by_columns(nested(3, COLUMN), "h(0,y) * 3 + in(r,y) - y")),
    ("one whose columns need five registers, and its values six", *update_by_columns(nested(2, COLUMN), nested(3, VALUE_BY_COLUMNS, "y-{}"))),
    ("one whose rows and whose values need six registers", *update_by_rows(nested(4, ROW), nested(4, VALUE_BY_ROWS, "x-{}"))),
    ("one whose columns and whose values need six registers", *update_by_columns(nested(3, COLUMN), nested(3, VALUE_BY_COLUMNS, "y-{}"))),
    ("one whose rows and whose values are choices of six registers", *update_by_rows(f"clamp({CHOICE.format('in(clamp(x,0,19),r)<0', 'in(clamp(x,0,19),r)<2')},0,3)", CHOICE.format("x<3", "x<r"))),
    ("the outer loop of a shift split by one", "input in 18\nfunc f(x) = in(x) * 5 - in(x+2)\noutput f 16",
     "f split x xo xi 1 shift\nf split xo p q 4 guard\nf reorder q xi p\nf vectorize q", Facts((16,))),
    ("the outer loop of a shift split that cuts nothing off", "input in 36\nfunc f(x) = in(x) * 5 - in(35-x)\noutput f 36",
     "f split x xo xi 4 shift\nf split xo p q 4 guard\nf reorder q xi p\nf vectorize q", Facts((36,))),
    ("one whose rows weigh six registers and take seven groups", *update_by_table(f"clamp(in(clamp(x,0,19),r)+({nested(4, 'lut(b(r))')}),0,3)", "in(x,r)")),
    ("one whose rows need six registers, and whose values weigh six and take seven groups", *update_by_table(nested(4, ROW), nested(4, "lut(b(x))"))),
    ("a split of the outer loop of three shift splits by three", "input in 61\nfunc f(x) = in(x)\noutput f 61",
     "f split x a xi 3 shift\nf split a c ci 3 shift\nf split c e ei 3 shift\nf split e g h 4 guard\nf reorder h xi ci ei g\nf vectorize h", Facts((61,))),
    ("choices in what others leave, by sixteen", *one(chosen(7, "select(in(x+{0}) < {0}, in(36-x), {1})"), 29, 16)[:2], Facts((29,), frames=True)),
    ("choices in what others take, by sixteen", *one(chosen(7, "select(in(x+{0}) < {0}, {1}, in(36-x))"), 29, 16)[:2], Facts((29,), frames=True)),
    ("a shift split of a shift split's outer loop, in whose runs pixels come one after the other", "input in 130\nfunc f(x) = in(x) * 5 - in(129-x)\noutput f 130",
     "f split x xo xi 8 shift\nf split xo p q 4 shift", Facts((130,))),
    ("a shift split of a shift split's outer loop, by eight", "input in 130\nfunc f(x) = in(x) * 5 - in(129-x)\noutput f 130",
     "f split x xo xi 8 shift\nf split xo p q 4 shift\nf vectorize xi", Facts((130,))),
    ("a shift split of a shift split's inner loop, by eight", "input in 130\nfunc f(x) = in(x) * 5 - in(129-x)\noutput f 130",
     "f split x xo xi 12 shift\nf split xi p q 8 shift\nf vectorize q", Facts((130,))),
    ("three shift splits, each of an outer loop, by four", "input in 61\nfunc f(x) = in(x) * 5 - in(60-x)\noutput f 61",
     "f split x a xi 4 shift\nf split a b ci 3 shift\nf split b e ei 2 shift\nf vectorize xi", Facts((61,))),
    ("rows of a shift split of a shift split, by eight, in tasks", "input in 29 5\nfunc f(x,y) = in(x,y) * 3 - in(28-x,y)\noutput f 29 5",
     "f split x xo xi 8 shift\nf split xo p q 3 shift\nf vectorize xi\nf parallel y", Facts((145,), tasks=(5,))),
    ("two stages by shift splits of shift splits of both arguments", "input in 21 13\nfunc g(x,y) = in(x,y) * 2\nfunc f(x,y) = g(x,y) - g(x+1,y+1)\noutput f 20 12",
     "g compute_root\ng split y yo yi 5 shift\ng split yo s t 2 shift\n" + row(8, "shift", "g") + "\nf split x xo xi 4 shift\nf split xo p q 2 shift\nf vectorize xi",
     Facts((273, 240), tasks=(1, 1))),
    ("choices four deep in all parts, by sixteen", *one(chosen_of_three(4, pixel_of), 29, 16)[:2], Facts((29,), frames=True, greatest=1)),
    ("choices four deep in all parts, in whole runs of sixteen", *one(chosen_of_three(4, pixel_of), 32, 16)[:2], Facts((32,), frames=True, greatest=1)),
    ("choices five deep in all parts, by sixteen", *one_of_choices("in(x), in(x+1), in(x+2)", "abcdf", 23, 16), Facts((23,), frames=True, greatest=1)),
    ("an update by vectors of sixteen whose rows are choices three deep in all parts",
     *update_by_rows(f"clamp({chosen_of_three(3, row_of)},0,3)", f"h(x,0) * 3 + {chosen_of_three(2, row_of)} - x")[:2],
     Facts((80,), frames=True, tasks=(1, 1), greatest=5)),
]
