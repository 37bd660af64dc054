"""The sentence for a refusal of a CIF source: what the mistake may be, and what to write instead. For `explain.py`."""
import re

from explain_grammar import (
    CONDITIONS, EVENTS, JOINS, LEFT_OUT, LONG, RESERVED, TYPES, VALUES, Place, ends_operand, is_name, not_read, tokens_of,
)

# What a byte is written as that begins no token.
SIGNS = {
    "&": "`&` is no sign. Write `and`.",
    "|": "`|` is no sign. Write `or`.",
    "/": "`/` is no sign. Write `div` for the quotient of whole numbers.",
    "%": "`%` is no sign. Write `mod`.",
    "#": "`#` is no sign. A comment begins with `//`.",
    "@": "Annotations are left out. Remove what begins with `@`.",
    "'": "Derivatives are left out, since time is not read.",
    "^": "Names with `^` are left out. A name from the whole source begins with a dot, such as `.a.b`.",
    "~": "`~` is no sign. Write `not` for a negation; flags of parameters are left out.",
    "$": "After `$` a reserved word is required, as a name.",
    "\0": "There is a byte 0. Save the file as UTF-8.",
    "\u2264": "`\u2264` is no sign. Write `<=`.",
    "\u2265": "`\u2265` is no sign. Write `>=`.",
    "\u2260": "`\u2260` is no sign. Write `!=`.",
    "\u2227": "`\u2227` is no sign. Write `and`.",
    "\u2228": "`\u2228` is no sign. Write `or`.",
    "\u00ac": "`\u00ac` is no sign. Write `not`.",
    "\u2192": "`\u2192` is no sign. Write `goto` for a target, and `=>` for an implication.",
    "\u2212": "`\u2212` is no sign. Write `-`.",
    "\u2013": "`\u2013` is no sign. Write `-`.",
    "\u00a0": "There is a no-break space (U+00A0). Write a blank.",
    "\ufeff": "The file begins with a byte order mark. Save it as UTF-8 without one.",
}
QUOTES = '"\u201c\u201d\u201e\u201f'
QUOTED = {
    "import": LEFT_OUT["import"],
    "print": LEFT_OUT["print"],
    "printfile": LEFT_OUT["print"],
}
BEGINS_SVG = re.compile("svg(file|out|in|copy|move)$")

WORDS_OF_OTHERS = {
    "boolean": "bool", "Boolean": "bool", "Bool": "bool", "BOOL": "bool",
    "integer": "int", "Integer": "int", "Int": "int", "INT": "int", "uint": "int", "LINT": "int",
}
EVENT_USES = {"edge", "alphabet", "monitor", "needs", "disables", "{"}

# What to do about a refusal whose place says no more.
ADVICE = {
    2: "The largest number is 2147483647.",
    3: "Close it with `*/`. Comments do not nest.",
    8: "It is needed, perhaps through others, by what it contains. Break the circle.",
    10: "Bounds, first values and values of constants are made of constants and literals. Assign the value on an edge.",
    11: "Write `initial;` in exactly one location.",
    12: "Only the automaton that declares a variable assigns it. Give it an edge for the same event.",
    13: "Leave one assignment: all right sides read the values before the step.",
    14: "Add the event to `alphabet`, or leave `alphabet` out.",
    15: "Declare a second event: one for each role.",
    17: "Make fewer instances, locations or edges: an instance counts as its whole definition.",
    18: "Change the value or the range.",
    19: "Define one of them without the others.",
    20: "Give the divisor a range without 0, such as `int[1..9]`, or write `max(x, 1)`.",
    21: "Give the variables ranges, such as `int[0..999]`.",
    22: "Write `e needs p;` for each event that the input is to block, or a guard.",
    23: "Change the first values, the initial locations or the invariant.",
    24: "Shorten what is named often: a definition counts as often as its name is written. State invariants count in each choice.",
    25: "Give the event fewer edges or fewer automata: its choices are the product of the edges of each automaton for it.",
    28: "Declare the event `controllable` or `uncontrollable`.",
}


def first_character(raw):
    """The character that bytes begin with, or none where they are no UTF-8."""
    for size in range(1, 5):
        try:
            return raw[:size].decode("utf-8")
        except UnicodeDecodeError:
            continue
    return ""


def bad_byte(place):
    raw = place.text[place.at : place.at + 4]
    if place.at < 2 and place.text[:2] in (b"\xff\xfe", b"\xfe\xff"):
        return "The file is in UTF-16. Save it as UTF-8 without a byte order mark."
    sign = first_character(raw)
    if not sign:
        return "Outside comments ASCII alone is read. Save the file as UTF-8."
    if sign in QUOTES:
        first = place.statement[0] if place.statement else ""
        if BEGINS_SVG.match(first):
            return "SVG declarations are left out. Keep them in a file of their own."
        return QUOTED.get(first, "Texts in quotes are left out. Use an enumeration for named states.")
    if sign == "/" and place.last == "*" and place.is_glued:
        return "There is no open comment here. Comments do not nest."
    if sign == "^" and ends_operand(place.last):
        return LEFT_OUT["pow"]
    if sign in SIGNS:
        return SIGNS[sign]
    if sign.isalpha():
        return "Names have ASCII letters, digits and `_`. Outside comments no other letters are read."
    return None


def unknown(place):
    word = place.word
    if place.last in EVENTS and place.after and is_name(place.after[0]) and word not in WORDS_OF_OTHERS:
        return f"Is `,` missing between `{word}` and `{place.after[0]}`? The first of two names is a type."
    if word in WORDS_OF_OTHERS:
        return TYPES + f"Write `{WORDS_OF_OTHERS[word]}`."
    if word.lower() in RESERVED and word not in RESERVED:
        return f"Reserved words have small letters. Write `{word.lower()}`."
    if place.last == "goto":
        return "`goto` leads to a location of the same automaton, and there is none of this name."
    if place.last == "equation":
        return "An equation defines an algebraic variable of its own component."
    if word == ".":
        return "A name with a dot in front is looked up in the whole source alone, and not in components."
    if len(place.statement) > 2 and place.statement[1] == ":" and place.after[:1] == ["="]:
        return "Arguments are written in the order of the parameters, without their names."
    if place.statement[1:] == [":"] and place.after[:1] == ["("]:
        return "There is no definition of this name, neither here nor further out."
    if place.after[:1] == ["."]:
        return "The first part of a name is looked up here and then outward, each other part in the component before it."
    return "Declare it, here or further out. What another component declares has its name in front, such as `a.x`."


def duplicate(place):
    if place.starts("enum"):
        return "A literal is a name of the scope of its enumeration. Rename one of the two."
    return "Rename one of the two, or remove it."


def behind_name(place):
    """The tokens behind the name whose first part has the place."""
    ahead = place.after[:]
    while len(ahead) > 1 and ahead[0] == ".":
        ahead = ahead[2:]
    return ahead


def wrong_kind(place):
    ahead = behind_name(place)
    if place.after[:1] == [":"] or (place.last == ":" and ahead[:1] == ["("]):
        return "An instance has one argument for each parameter, and the name after `:` is that of a definition."
    if ahead[:1] == [":="]:
        return "Only discrete variables are assigned."
    if place.last == "goto":
        return "`goto` leads to a location of the same automaton."
    if place.last == "equation":
        return "An equation defines an algebraic variable of its own component."
    in_uses = place.last == "," and place.starts("edge") and not place.is_in("when") and not place.is_in("do")
    if place.last in EVENT_USES or in_uses or ahead[:1] == ["needs"]:
        return "Here an event is required."
    if place.last in EVENTS and place.after and is_name(place.after[0]):
        return f"Is `,` missing between `{place.word}` and `{place.after[0]}`? The first of two names is a type."
    if place.last in VALUES | EVENTS:
        return "Here a type is required."
    return "A value is required: a constant, a variable, a location or a literal."


def mismatch(place):
    ahead = behind_name(place)
    is_single = not ahead or ahead[0] in {";", ",", "do", "goto", ":", "and", "or", "=>", "<=>", "end", "elif", "else", ")"}
    if place.word == "?":
        return "`?` is the received value, in updates of an edge whose events are all received."
    if place.last in {"edge", "alphabet"} or (ahead[:1] in (["!"], ["?"]) and place.starts("edge")):
        return "A use fits its event: `e!v` sends a value of its type, `e?` receives one, and `e!` needs an event with `void`."
    if len(place.statement) > 2 and place.statement[1] == ":" and place.statement[-1] in {"(", ","} and is_name(place.statement[0]):
        return "An argument fits its parameter: the name of an event or a location, or a value of the kind of the parameter."
    if place.last in {"+", "-", "*", "div", "mod", "<", "<=", ">", ">="} and place.statement[-2:-1] != [] and ends_operand(place.statement[-2]):
        return f"`{place.last}` has integers on both sides. Write `if b: 1 else 0 end` for a boolean."
    if ahead[:1] == ["=>"] and place.last in {"when", "if", "elif", "and", "or", "=", "("}:
        return "`=>` is an implication, with booleans on both sides. Write `>=` for greater or equal."
    around = place.last if place.last in JOINS and is_single else ahead[0] if place.last in CONDITIONS and ahead[:1] and ahead[0] in JOINS else ""
    if around:
        return f"`{around}` has booleans on both sides."
    if place.last == "not" and is_single:
        return "`not` has a boolean after it. Compare the number, such as `x > 0`."
    if place.last in CONDITIONS and is_single:
        return "A condition is boolean. Compare the number, such as `x > 0`."
    if place.last in {"=", "!="} and not (place.starts(*VALUES) and place.statement.count("=") == 1):
        return f"Both sides of `{place.last}` have one kind: boolean, integer, or the same enumeration."
    if place.last in {":=", "="} and (is_single or place.last == ":="):
        return "A value has the kind of its variable: boolean, integer, or the same enumeration."
    return "Arithmetic and orders have integers, `and`, `or` and `not` booleans; branches of an `if` have one kind."


def equations(place, count):
    if count == 0:
        return "Give it a value after `=`, an `equation` in its component, or one in each location."
    return "Remove all definitions but one."


BY_PLACE = {1: bad_byte, 4: not_read, 5: unknown, 6: duplicate, 7: wrong_kind, 9: mismatch}


def sentence(number, text, at, count=None):
    """The sentence for a refusal of a text at a byte, or none."""
    if number == 16:
        return equations(None, count)
    if at is None or at > LONG or number not in BY_PLACE:
        return ADVICE.get(number)
    return BY_PLACE[number](Place(text, at))


def declared(text, keywords, path):
    """The place where the last name of a path is declared by one of the words, where there is one such place alone."""
    if len(text) > LONG:
        return []
    name, found, is_declared, depth = path.split(".")[-1], [], False, 0
    earlier = tokens_of(text, 0, len(text))
    for (word, at), (after, _) in zip(earlier, earlier[1:]):
        depth += (word == "(") - (word == ")")
        if word in keywords:
            is_declared = depth == 0
        elif word in {";", ":"}:
            is_declared = False
        elif is_declared and word.lstrip("$") == name and after in {",", ";", "="}:
            found.append(at)
    return found if len(found) == 1 else []
