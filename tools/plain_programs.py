"""Reads programs of Structured Text (IEC 61131-3) as `compare_programs.py` has them: variables, and statements as forms.

A form is a tuple headed by its kind; operands of one level stand from the left. Each statement has the numbers of its first and last line.
The checks of names and types are in `compare_programs.py`.
"""
import re

from compare_programs import LEVELS, Variable

WORDS = set("""PROGRAM END_PROGRAM VAR VAR_INPUT VAR_OUTPUT CONSTANT END_VAR BOOL LINT TRUE FALSE IF THEN ELSIF ELSE END_IF WHILE DO END_WHILE
    OR XOR AND NOT MOD ABS MIN MAX SEL""".split())
BLOCKS = ("VAR", "VAR_INPUT", "VAR_OUTPUT")
PARAMETERS = {"ABS": 1, "MIN": 2, "MAX": 2, "SEL": 3}
# An order or an equality has one operator at most; the operators of other levels go on from the left.
SINGLE = ("=", "<")
PIECE = re.compile(r"""(?P<blank>[ \t\r\n]+|\(\*.*?\*\))|(?P<word>[A-Za-z_][A-Za-z0-9_]*)|(?P<number>[0-9]+)
    |(?P<sign>:=|\.\.|<>|<=|>=|[.;:(),+*/=<>&-])""", re.S | re.X)


class Unread(Exception):
    """A text that is no program."""


def tokens_of(text):
    """Each token as its kind (a word in capitals, a sign, NAME or NUMBER), its text, its line, and its place; the last has no kind."""
    found, at, line = [], 0, 1
    while at < len(text):
        piece = PIECE.match(text, at)
        if piece is None:
            raise Unread()
        it = piece.group()
        if piece.lastgroup == "word":
            found.append((it.upper() if it.upper() in WORDS else "NAME", it, line, at))
        elif piece.lastgroup != "blank":
            found.append(("NUMBER" if piece.lastgroup == "number" else it, it, line, at))
        line += it.count("\n")
        at = piece.end()
    return found + [("", "", line, at)]


class Program:
    """The name of a program, its variables in the order of declaration, its statements, also as text, and `lines`: the first and the last
    line of each statement by its identity."""

    def __init__(self, text):
        self.tokens, self.next, self.lines = tokens_of(text), 0, {}
        self.take("PROGRAM")
        self.name, self.variables = self.take("NAME"), []
        while self.is_next(*BLOCKS):
            self.block()
        begin = self.tokens[self.next][3]
        self.body = self.statements("END_PROGRAM")
        self.body_text = text[begin:self.tokens[self.next - 1][3]]
        if self.tokens[self.next][0]:
            raise Unread()

    def is_next(self, *kinds):
        return self.tokens[self.next][0] in kinds

    def take(self, *kinds):
        """The text of the next token, which has one of these kinds."""
        if not self.is_next(*kinds):
            raise Unread()
        self.next += 1
        return self.tokens[self.next - 1][1]

    def skipped(self, *kinds):
        is_there = self.is_next(*kinds)
        self.next += is_there
        return is_there

    # declarations

    def block(self):
        block = self.take(*BLOCKS).upper()
        if block == "VAR" and self.skipped("CONSTANT"):
            block = "VAR CONSTANT"
        while not self.skipped("END_VAR"):
            self.variables.append(self.variable(block))

    def variable(self, block):
        name, low, high, first = self.take("NAME"), None, None, None
        self.take(":")
        kind = self.take("BOOL", "LINT").upper()
        if kind == "LINT" and self.skipped("("):
            low = self.integer()
            self.take("..")
            kind, high = "RANGE", self.integer()
            self.take(")")
        if self.skipped(":="):
            first = self.take("TRUE", "FALSE").upper() == "TRUE" if self.is_next("TRUE", "FALSE") else self.integer()
        self.take(";")
        return Variable(name, block, kind, low, high, first)

    def integer(self):
        sign = -1 if self.skipped("-") else 1
        return sign * int(self.take("NUMBER"))

    # statements

    def statements(self, *ends):
        """The statements up to one of these words, which is taken."""
        found = []
        while not self.is_next(*ends):
            found.append(self.statement())
        self.take(*ends)
        return found

    def statement(self):
        first = self.tokens[self.next][2]
        if self.skipped("IF"):
            form = self.choice()
        elif self.skipped("WHILE"):
            condition = self.expression()
            self.take("DO")
            form = ("while", condition, self.statements("END_WHILE"))
        else:
            name = self.take("NAME")
            self.take(":=")
            form = ("assign", name, self.expression())
        self.take(";")
        self.lines[id(form)] = first, self.tokens[self.next - 1][2]
        return form

    def choice(self):
        branches, other, end = [], [], "ELSIF"
        while end == "ELSIF":
            condition = self.expression()
            self.take("THEN")
            body = self.statements("ELSIF", "ELSE", "END_IF")
            end = self.tokens[self.next - 1][0]
            branches.append((condition, body))
        if end == "ELSE":
            other = self.statements("END_IF")
        return ("if", branches, other)

    # expressions

    def expression(self, level=0):
        if level == len(LEVELS):
            return self.unary()
        signs, _ = LEVELS[level]
        found = self.expression(level + 1)
        while self.is_next(*signs):
            sign = self.take(*signs).upper()
            found = ("AND" if sign == "&" else sign, found, self.expression(level + 1))
            if signs[0] in SINGLE:
                break
        return found

    def unary(self):
        signs = []
        while self.is_next("-", "NOT"):
            signs.append("negative" if self.take("-", "NOT") == "-" else "NOT")
        found = self.primary()
        for sign in reversed(signs):
            found = (sign, found)
        return found

    def primary(self):
        if self.is_next("TRUE", "FALSE"):
            return ("truth", self.take("TRUE", "FALSE").upper() == "TRUE")
        if self.is_next("NUMBER"):
            return ("number", int(self.take("NUMBER")))
        if self.is_next("NAME"):
            return ("named", self.take("NAME"))
        if self.skipped("("):
            found = self.expression()
            self.take(")")
            return found
        function = self.take(*PARAMETERS).upper()
        self.take("(")
        parts = [self.expression()]
        for _ in range(PARAMETERS[function] - 1):
            self.take(",")
            parts.append(self.expression())
        self.take(")")
        return (function, *parts)
