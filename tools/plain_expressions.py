"""Reads expressions, and says what they mean: their values, intervals, sizes and depths (CIF 3 language reference, "Expressions").

Values are mathematical: `div` goes towards zero, `mod` has the sign of the dividend, and both are 0 where the divisor is.
"""
from collections import namedtuple

from plain_tokens import Cursor

LEAST, GREATEST = -2**63, 2**63 - 1
ORDERS = ("=", "!=", "<", "<=", ">", ">=")
TRUTHS = ("not", "and", "or", "implies", "iff", "compare", "truth", "place")

# An expression: its form, its operands, what else it is made of, and its place. What is read has `truth` and `number` with
# their values, `name` with its use, `paren`, sums and products with their signs, `compare` with its sign, and `if` with how many
# conditions each branch has. What stands in a net has no parentheses, one condition for each branch, and for names `number`,
# `var` with its place in a state, `place` with that of an automaton and the location, `given` with an argument, and `alg` with an
# algebraic variable. `received` is `?`, whose value is the last of a state with which something is received.
Expr = namedtuple("Expr", "form parts more at")
# Sizes are told up to here, which is far more than any rule takes.
MOST_SIZE = 10**9


class Defined:
    """What is read wherever a name of it stands: expressions of a net, of which a state decides which one is meant. What was told of
    it is kept, since it may be named often."""

    def __init__(self, values):
        self.values, self.known = values, {}

    def told(self, what, tell):
        if what not in self.known:
            self.known[what] = tell()
        return self.known[what]

    def size(self):
        """Several definitions are one `if` with a test of a location before each but the last."""
        return self.told("size", lambda: min(MOST_SIZE, sum(map(size, self.values)) + (len(self.values) if len(self.values) > 1 else 0)))

    def depth(self):
        return self.told("depth", lambda: max(map(depth, self.values)) + (len(self.values) > 1))


class Argument(Defined):
    """The argument of a parameter of an instance."""

    def __init__(self, expr):
        super().__init__([expr])

    def meant(self, state):
        return self.values[0]


class Algebraic(Defined):
    """An algebraic variable: its path and kind, and its one definition, or one for each location of the automaton with that number."""

    def __init__(self, path, kind):
        super().__init__([])
        self.path, self.kind, self.automaton = path, kind, None

    def meant(self, state):
        return self.values[0 if self.automaton is None else state[self.automaton]]

    def value_in(self, state):
        return evaluated(self.meant(state), state)


# ---- the reader

class ExpressionReader(Cursor):
    """Takes expressions from the tokens. How deep they nest is not bounded here."""

    def expression(self):
        left = self.operands("or", self.conjunction)
        if not self.is_next("=>", "<=>"):
            return left
        form = {"=>": "implies", "<=>": "iff"}[self.take("=>", "<=>").kind]
        return Expr(form, (left, self.operands("or", self.conjunction)), None, left.at)

    def conjunction(self):
        return self.operands("and", self.comparison)

    def operands(self, word, part):
        parts = [part()]
        while self.skipped(word):
            parts.append(part())
        return parts[0] if len(parts) == 1 else Expr(word, tuple(parts), None, parts[0].at)

    def comparison(self):
        left = self.chain("sum", ("+", "-"), self.product)
        if not self.is_next(*ORDERS):
            return left
        sign = self.take(*ORDERS).kind
        return Expr("compare", (left, self.chain("sum", ("+", "-"), self.product)), sign, left.at)

    def product(self):
        return self.chain("product", ("*", "div", "mod"), self.unary)

    def chain(self, form, signs, part):
        parts, found = [part()], []
        while self.is_next(*signs):
            found.append(self.take(*signs).kind)
            parts.append(part())
        return Expr(form, tuple(parts), tuple(found), parts[0].at) if found else parts[0]

    def unary(self):
        if not self.is_next("-", "+", "not"):
            return self.primary()
        token = self.take("-", "+", "not")
        return Expr({"-": "minus", "+": "plus", "not": "not"}[token.kind], (self.unary(),), None, token.at)

    def primary(self):
        at = self.place()
        if self.is_next("ID", "."):
            return Expr("name", (), self.name(), at)
        if self.skipped("?"):
            return Expr("received", (), None, at)
        token = self.take("true", "false", "NUMBER", "(", "abs", "min", "max", "if")
        if token.kind in ("true", "false"):
            return Expr("truth", (), int(token.kind == "true"), at)
        if token.kind == "NUMBER":
            return Expr("number", (), int(token.text), at)
        if token.kind == "if":
            return self.choice(at)
        if token.kind != "(":
            self.take("(")
        parts = [self.expression()]
        if token.kind in ("min", "max"):
            self.take(",")
            parts.append(self.expression())
        self.take(")")
        return Expr("paren" if token.kind == "(" else token.kind, tuple(parts), None, at)

    def choice(self, at):
        parts, counts, has_more = [], [], True
        while has_more:
            conditions = self.listed(self.expression)
            self.take(":")
            parts += conditions + [self.expression()]
            counts.append(len(conditions))
            has_more = self.skipped("elif")
        self.take("else")
        parts.append(self.expression())
        self.take("end")
        return Expr("if", tuple(parts), tuple(counts), at)


def branches_of(expr):
    """The branches of an `if` as it is read, each with its conditions and its value."""
    found, at = [], 0
    for count in expr.more:
        found.append((expr.parts[at:at + count], expr.parts[at + count]))
        at += count + 1
    return found


def names_in(expr):
    """The uses of names, in the order of the text."""
    found = [expr.more] if expr.form == "name" else []
    for part in expr.parts:
        found += names_in(part)
    return found


def conjunction_of(exprs):
    """One expression for several that are to hold."""
    return exprs[0] if len(exprs) == 1 else Expr("and", tuple(exprs), None, exprs[0].at)


# ---- values

def divided(x, y):
    """Towards zero."""
    return abs(x) // abs(y) * (1 if (x < 0) == (y < 0) else -1)


def remainder(x, y):
    """With the sign of the dividend."""
    return x - y * divided(x, y)


def joined_value(sign, x, y):
    """The result of a sign of a sum or a product, 0 where the divisor is."""
    if sign in ("div", "mod") and y == 0:
        return 0
    return {"+": lambda: x + y, "-": lambda: x - y, "*": lambda: x * y, "div": lambda: divided(x, y), "mod": lambda: remainder(x, y)}[sign]()


def is_so(sign, x, y):
    return {"=": x == y, "!=": x != y, "<": x < y, "<=": x <= y, ">": x > y, ">=": x >= y}[sign]


def evaluated(expr, state=(), meets=None):
    """The value of an expression of a net in a state. `meets` is handed each result that is met, and None for a divisor 0."""
    while expr.form in ("given", "alg"):
        expr = expr.more.meant(state)
    form, more = expr.form, expr.more
    if form in ("number", "var", "place", "received"):
        value = simple_value(form, more, state)
    elif form in ("sum", "product"):
        value = chained(expr, state, meets)
    else:
        value = applied(form, more, [evaluated(part, state, meets) for part in expr.parts])
    if meets:
        meets(value)
    return value


def simple_value(form, more, state):
    if form == "place":
        return int(state[more[0]] == more[1])
    return more if form == "number" else state[-1 if form == "received" else more]


def chained(expr, state, meets):
    """A sum or a product, from left to right."""
    parts = [evaluated(part, state, meets) for part in expr.parts]
    value = parts[0]
    for sign, part in zip(expr.more, parts[1:]):
        value = joined_value(sign, value, part)
        if meets:
            meets(None if sign in ("div", "mod") and part == 0 else value)
    return value


def applied(form, more, parts):
    if form == "if":
        return next((parts[at + 1] for at in range(0, len(parts) - 1, 2) if parts[at]), parts[-1])
    if form == "compare":
        return int(is_so(more, *parts))
    if form in ("and", "or"):
        return int(all(parts) if form == "and" else any(parts))
    if form in ("min", "max"):
        return min(parts) if form == "min" else max(parts)
    if form in ("implies", "iff"):
        return int(not parts[0] or parts[1]) if form == "implies" else int(parts[0] == parts[1])
    return {"minus": -parts[0], "plus": parts[0], "not": 1 - parts[0], "abs": abs(parts[0])}[form]


# ---- intervals

def joined(sign, one, other):
    """The interval of what a sign makes of two; that of the divisor has no 0."""
    (lo, hi), (low, high) = one, other
    if sign == "+":
        return lo + low, hi + high
    if sign == "-":
        return lo - high, hi - low
    if sign == "mod":
        most = max(abs(low), abs(high)) - 1
        return (max(lo, -most) if lo < 0 else 0), (min(hi, most) if hi > 0 else 0)
    corners = [divided(x, y) if sign == "div" else x * y for x in one for y in other]
    return min(corners), max(corners)


def interval(expr, ranges, due):
    """The interval of an expression of a net, over the ranges by places of a state, that of `?` being the last. What rules on widths
    it breaks is added to `due`. What is due at an argument as a whole is due where the argument stands, or the parentheses round its
    parameter."""
    if expr.form == "alg":
        # what is due in its definitions is due there
        return in_64_bits(expr.more.told("interval", lambda: joined_interval(expr.more.values, ranges, set())), expr, due)
    if expr.form == "given":
        found, more = expr.more.told(("interval", expr.at), lambda: interval_and_due(expr.more.values[0]._replace(at=expr.at), ranges))
        due.update(more)
        return found
    parts = [interval(part, ranges, due) for part in expr.parts]
    if expr.form in ("sum", "product"):
        found = parts[0]
        for sign, part, operand in zip(expr.more, parts[1:], expr.parts[1:]):
            if sign in ("div", "mod") and part[0] <= 0 <= part[1]:
                due.add(("ZeroDivisor", ("at", operand.at)))
                return found
            found = in_64_bits(joined(sign, found, part), expr, due)
        return found
    return in_64_bits(simple_interval(expr, parts, ranges), expr, due)


def joined_interval(exprs, ranges, due):
    """The least interval round those of several expressions."""
    found = [interval(expr, ranges, due) for expr in exprs]
    return min(lo for lo, _ in found), max(hi for _, hi in found)


def interval_and_due(expr, ranges):
    due = set()
    return interval(expr, ranges, due), due


def simple_interval(expr, parts, ranges):
    form = expr.form
    if form in TRUTHS:
        return 0, 1
    if form in ("number", "var", "received"):
        return (expr.more, expr.more) if form == "number" else ranges[-1 if form == "received" else expr.more]
    if form == "if":
        values = parts[1:-1:2] + parts[-1:]
        return min(lo for lo, _ in values), max(hi for _, hi in values)
    (lo, hi), (low, high) = parts[0], parts[-1]
    return {
        "minus": (-hi, -lo), "plus": (lo, hi), "min": (min(lo, low), min(hi, high)), "max": (max(lo, low), max(hi, high)),
        "abs": (0 if lo <= 0 <= hi else min(abs(lo), abs(hi)), max(abs(lo), abs(hi))),
    }[form]


def in_64_bits(found, expr, due):
    if found[0] < LEAST or found[1] > GREATEST:
        due.add(("TooWide", ("at", expr.at)))
    return found


# ---- sizes

def size(expr):
    """How many forms an expression of a net has, with arguments for their parameters and definitions for algebraic variables."""
    if expr.form in ("given", "alg"):
        return expr.more.size()
    return 1 + sum(map(size, expr.parts))


def depth(expr):
    """How deep they nest."""
    if expr.form in ("given", "alg"):
        return expr.more.depth()
    return 1 + max(map(depth, expr.parts)) if expr.parts else 0
