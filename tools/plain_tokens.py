"""Cuts a source into tokens, and takes them one after the other (CIF 3 language reference, "Lexical syntax")."""
import re
from collections import namedtuple

RESERVED = set("""abs alg alphabet and automaton bool const controllable def disables disc div do edge elif else end enum equation
    event false goto group if initial input int invariant location marked max min mod monitor needs not or plant requirement
    supervisor true type uncontrollable void when any cont der dict dist func import in list namespace now pow print real self set
    string sub switch tau time tuple urgent""".split())
GREATEST_NUMBER = 2147483647

PIECE = re.compile(r"""(?P<blank>[ \t\r\n]+|//[^\n]*|/\*.*?\*/)|(?P<word>\$?[A-Za-z_][A-Za-z0-9_]*)|(?P<number>0|[1-9][0-9]*)
    |(?P<sign><=>|\.\.|:=|!=|<=|>=|=>|[.,;:()\[\]{}+*=<>!?-])""", re.S | re.X)

# A token's kind is ID, NUMBER, or the reserved word or sign that it is; the text of an ID is without `$`.
Token = namedtuple("Token", "kind text at")
# A use of a name: its parts, `None` first where it begins at the specification, and its place.
Use = namedtuple("Use", "name at")


class Unread(Exception):
    """A text that isn't a source of the forms that are read here."""


def lexed(text):
    """The tokens, and the refusals of what is none."""
    tokens, due, at = [], set(), 0
    while at < len(text):
        piece = PIECE.match(text, at)
        if piece is None:
            is_open = text.startswith("/*", at)
            due.add(("OpenComment" if is_open else "BadByte", ("at", at)))
            break
        word = piece.group()
        if piece.lastgroup == "number":
            tokens.append(Token("NUMBER", word, at))
            if int(word) > GREATEST_NUMBER:
                due.add(("NumberTooBig", ("at", at)))
        elif piece.lastgroup != "blank":
            is_name = piece.lastgroup == "word" and word not in RESERVED
            tokens.append(Token("ID", word.lstrip("$"), at) if is_name else Token(word, word, at))
        at = piece.end()
    return tokens, due


class Cursor:
    """Takes the tokens of a text one after the other."""

    def __init__(self, text):
        self.tokens, self.next = lexed(text)[0], 0

    def is_next(self, *kinds):
        return self.next < len(self.tokens) and self.tokens[self.next].kind in kinds

    def place(self):
        """Where the next token stands."""
        return self.tokens[self.next].at if self.next < len(self.tokens) else None

    def take(self, *kinds):
        if not self.is_next(*kinds):
            raise Unread()
        self.next += 1
        return self.tokens[self.next - 1]

    def skipped(self, kind):
        """Whether that token comes next, which is taken then."""
        is_there = self.is_next(kind)
        self.next += is_there
        return is_there

    def listed(self, part):
        """Parts with commas between."""
        parts = [part()]
        while self.skipped(","):
            parts.append(part())
        return parts

    def name(self):
        """A use of a name."""
        at = self.place()
        parts = [None] if self.skipped(".") else []
        parts.append(self.take("ID").text)
        while self.skipped("."):
            parts.append(self.take("ID").text)
        return Use(parts, at)
