"""What is before and after a place of a CIF source, and the sentence for 4 NotRead: what the mistake may be. For `explain_source.py`."""
import re

TOKEN = re.compile(
    rb"(?P<skip>[ \t\r\n]+|//[^\n]*|/\*.*?\*/)|\$?[A-Za-z_][A-Za-z0-9_]*|0|[1-9][0-9]*|<=>|\.\.|:=|!=|<=|>=|=>|[.,;:()\[\]{}+\-*=<>!?]",
    re.S,
)
# Up to here a text is cut into tokens for a sentence.
LONG = 1 << 20
RESERVED = set(
    """abs alg alphabet and any automaton bool cont const controllable def der dict disables disc dist div do edge elif else end enum
    equation event false func goto group if import in initial input int invariant list location marked max min mod monitor namespace
    needs not now or plant pow print real requirement self set string sub supervisor switch tau time true tuple type uncontrollable
    urgent void when""".split()
)
KINDS = {"automaton", "plant", "requirement", "supervisor"}
EVENTS = {"event", "controllable", "uncontrollable"}
VALUES = {"const", "alg", "input", "disc"}
DECLARATIONS = EVENTS | VALUES | {"type", "enum", "alphabet", "monitor"}
IN_LOCATIONS = {"edge", "initial", "marked", "equation"}
STARTERS = DECLARATIONS | IN_LOCATIONS | KINDS | {"group", "location", "invariant", "end"}
LOOPS = {"while", "for", "repeat", "loop"}
JOINS = {"and", "or", "=>", "<=>"}
CONDITIONS = {"when", "if", "elif"}
ORDERS = {"=", "!=", "<", "<=", ">", ">="}
TYPES = "Types are `bool`, `int`, `int[0..9]` and enumerations. "
INPUT = " An input can report that a timer has run out."
NO_INVARIANT = "Invariants in locations are left out. Outside the automaton write `invariant a.x => p;` for the location x of the automaton a."
ORDER_OF_EDGE = "The parts of an edge have an order: events, `when`, `do`, `goto`."

# What is left out on purpose, by the reserved word.
LEFT_OUT = {
    "cont": "Continuous variables are left out, since time is not read." + INPUT,
    "der": "Derivatives are left out, since time is not read.",
    "time": "`time` is left out, since time is not read." + INPUT,
    "urgent": "`urgent` is left out, since time is not read. A program makes in each scan the steps that are possible.",
    "now": "`now` is left out, since time is not read. A program makes in each scan the steps that are possible.",
    "real": TYPES + "Instead of a real number use a whole one of a smaller unit, such as tenths.",
    "string": TYPES + "Instead of texts use an enumeration.",
    "dist": TYPES + "Distributions are left out.",
    "tau": "An edge needs an event. Declare one, such as `controllable c;`, and name it after `edge`.",
    "switch": "`switch` is left out. Write `if x = 0: 1 elif x = 1: 2 else 0 end`.",
    "func": "Functions are left out. An algebraic variable has the value of an expression.",
    "import": "Imports are left out. Put the whole source into one file.",
    "namespace": "Namespaces are left out. A `group` has names of its own.",
    "print": "Print declarations are left out. `cif replay` writes the values after each scan.",
    "self": "`self` is left out. A location is named by itself, and is true where its automaton is in it.",
    "pow": "Powers are left out. Write a product, such as `x * x`.",
    "in": "A variable has one first value. Write it after `=`.",
    "any": "A variable has one first value. Write it after `=`.",
}
for several in ("list", "set", "dict", "tuple"):
    LEFT_OUT[several] = TYPES + f"Instead of a `{several}` use several variables."

def text_of(raw):
    return raw.decode("utf-8", "replace")


def tokens_of(text, start, end):
    """The tokens of a part of a text with their places, up to a byte where none begins."""
    found = []
    while start < end:
        match = TOKEN.match(text, start, end)
        if not match:
            break
        if match.lastgroup != "skip":
            found.append((text_of(match.group()), start))
        start = match.end()
    return found


def is_name(word):
    return bool(re.match(r"\$?[A-Za-z_]\w*$", word, re.A)) and word not in RESERVED


def ends_operand(word):
    return is_name(word) or word.isdigit() or word in {"true", "false", ")", "end", "?"}


def is_head(words):
    """Whether the words begin a component or a definition, up to its `:`."""
    words = words[:]
    if not words or words[0] not in KINDS | {"group"}:
        return False
    first = words.pop(0)
    if words and words[0] == "automaton" and first not in {"automaton", "group"}:
        words.pop(0)
    if words and words[0] == "def":
        return len(words) > 1 and is_name(words[1])
    return len(words) == 1 and is_name(words[0])


class Component:
    """A component that is open at a place, or an `if`."""

    def __init__(self, head):
        self.name = " ".join(head[: head.index("(")] if "(" in head else head)
        self.is_if = head == ["if"]
        self.is_group = head[0] == "group"
        self.has_location = False


class Place:
    """What is before and after a byte of a source: tokens, the statement so far, and the open components."""

    def __init__(self, text, at):
        self.text, self.at = text, at
        earlier = tokens_of(text, 0, at)
        later = tokens_of(text, at, min(len(text), at + 400))
        self.word = later[0][0] if later else ""
        self.after = [it[0] for it in later[1:]]
        self.last, last_at = earlier[-1] if earlier else ("", 0)
        self.is_glued = bool(earlier) and last_at + len(self.last.encode()) == at
        self.last_line = text.count(b"\n", 0, last_at) + 1
        self.is_first_on_line = b"\n" in text[last_at:at] or not earlier
        self.open = []
        self.statement = []
        self.ended = []
        self.depth = depth = 0
        for word, _ in earlier:
            depth += (word in "([{") - (word in ")]}")
            self.step(word, depth)

    def step(self, word, depth):
        """Goes on by a token of a text that could be continued so far."""
        self.depth = depth
        self.statement.append(word)
        if word == "if":
            self.open.append(Component(["if"]))
        elif word == "end" and self.open:
            if not self.open.pop().is_if:
                self.close_statement()
        elif word == ":" and is_head(self.statement[:-1]):
            self.open.append(Component(self.statement[:-1]))
            self.close_statement()
        elif word in ":;" and self.statement[0] == "location":
            if self.component():
                self.component().has_location = True
            self.close_statement()
        elif word == ";" and depth == 0:
            self.close_statement()

    def close_statement(self):
        self.ended, self.statement = self.statement, []

    def component(self):
        """The innermost open component, or none at the specification."""
        return next((it for it in reversed(self.open) if not it.is_if), None)

    def in_automaton(self):
        return bool(self.component()) and not self.component().is_group

    def in_location(self):
        return self.in_automaton() and self.component().has_location

    def in_if(self):
        return bool(self.open) and self.open[-1].is_if

    def is_in(self, word):
        """Whether the statement so far has a word."""
        return word in self.statement

    def starts(self, *words):
        return self.statement[:1] != [] and self.statement[0] in words

    def assigns(self):
        """Whether a name to assign is just before the place."""
        words = self.statement[:]
        while words and (is_name(words[-1]) or words[-1] == "."):
            words.pop()
        return self.is_in("do") and words != self.statement and words[-1:] != [] and words[-1] in {"do", ",", ":", "else"}


# ---- 4 NotRead: each function has the sentence for some mistakes, or none


def at_end_of_text(place):
    if place.word or place.at < len(place.text):
        return None
    inner = place.open[-1] if place.open else None
    missing = "`;`" if place.statement else "`end`"
    if not inner:
        return "The text ends here. Is `;` missing?"
    if inner.is_if:
        return "The text ends inside an `if`. Is `end` missing?"
    if place.statement:
        return f"The text ends inside `{inner.name}`. Are `;` and `end` missing?"
    return f"The text ends inside `{inner.name}`. Is {missing} missing?"


def at_repeated_word(place):
    if place.word not in {"", "end"} and place.word == place.last and not place.is_glued and re.match(r"[\w$]", place.word):
        return f"`{place.word}` is written twice."
    return None


def at_reserved_name(place):
    """A reserved word in the place of a name."""
    if place.word not in RESERVED or (place.word in EVENTS and place.starts(*EVENTS)) or (place.is_first_on_line and place.last not in {",", "."}):
        return None
    in_list = place.last == "," and place.starts(*EVENTS, *VALUES, "enum") and not place.is_in("(") and not place.is_in("[")
    is_typed = place.starts(*VALUES) and len(place.statement) > 1 and place.last not in {"[", "..", "=", ","}
    is_value = place.is_in("=") and not in_list
    is_event = place.starts(*EVENTS) and place.after[:1] in ([";"], [","])
    is_head_name = place.last in KINDS | {"group", "def"} and place.after[:1] in ([":"], ["("])
    is_location = place.last == "location" and place.after[:1] in ([":"], [";"]) and place.word not in {"initial", "marked"}
    after = place.last in {".", "goto", "type"} or (place.last in {"enum", "equation"})
    if (after or in_list or (is_typed and not is_value and place.word != "in") or is_event or is_head_name or is_location):
        return f"`{place.word}` is a reserved word. As a name it is written `${place.word}`."
    return None


def at_left_out(place):
    if place.word == "in" and not place.starts("disc"):
        return "`in` is left out. Compare the value, such as `0 <= x and x <= 5`."
    return LEFT_OUT.get(place.word)


def at_edge_without_event(place):
    if place.last == "edge" and place.word in {"when", "do", "goto", ";"}:
        return LEFT_OUT["tau"]
    return None


def at_missing_sign(place):
    """A token that is first on its line, where the line before has no end."""
    if not place.statement or not place.is_first_on_line:
        return None
    if place.starts("location") and len(place.statement) < 3:
        return f"Is `:` missing after `{' '.join(place.statement)}`?"
    if is_head(place.statement) and "(" not in place.statement and place.word in STARTERS:
        return f"Is `:` missing after `{' '.join(place.statement)}`?"
    is_whole = ends_operand(place.last) or place.last in {"]", "!", "initial", "marked", "alphabet", "monitor"}
    if place.word in STARTERS and is_whole:
        return f"Is `;` missing at the end of line {place.last_line}?"
    return None


def at_start(place):
    """A word that begins no statement there."""
    if place.statement:
        return None
    for rule in (at_start_of_sign, at_start_in_location, at_start_of_declaration, at_start_of_part):
        found = rule(place)
        if found:
            return found
    return None


def at_start_of_sign(place):
    if place.word == ";":
        return "After the `end` of a component there is no `;`." if place.last == "end" else "There is a `;` too many."
    if place.word != "end":
        return None
    if not place.component():
        return "There is no open component that this `end` could close."
    if place.in_automaton() and not place.in_location():
        return "An automaton has at least one location, such as `location: initial;`."
    return None


def at_start_in_location(place):
    if not place.in_location():
        return None
    ahead = [place.word] + place.after
    opens = is_head(ahead[: ahead.index(":")]) if ":" in ahead else "def" in ahead[:3]
    if place.word in KINDS | {"group"} and opens:
        return f"Is `end` missing before this line? `{place.component().name}` is still open."
    if place.word in KINDS | {"invariant"}:
        return NO_INVARIANT
    if is_name(place.word) and place.after[:1] in ([":="], ["."]) and "do" in place.ended:
        return "Updates have commas between them, and one `;` after the last."
    if is_name(place.word) and place.after[:1] in (["needs"], ["disables"]):
        return NO_INVARIANT
    if place.word in DECLARATIONS:
        return "The declarations of an automaton come before its first location."
    if is_name(place.word) and place.after[:1] == [":"]:
        return f"Is `location` missing before `{place.word}`?"
    if is_name(place.word) and place.word.lower() not in RESERVED:
        return "What is in a location begins with `edge`, `initial`, `marked` or `equation`."
    return None


def at_start_of_declaration(place):
    if place.word == "disc" and not place.in_automaton():
        return "A discrete variable is declared in an automaton."
    if place.word in {"bool", "int"}:
        return "A declaration begins with `const`, `alg` or `input`, or in an automaton with `disc`."
    if place.word in {"alphabet", "monitor"}:
        if place.in_automaton():
            return f"An automaton has one `{place.word}`. Name all events in it."
        return f"`{place.word}` is part of an automaton."
    if place.in_automaton() and is_name(place.word) and place.after[:1] == [":"] and place.after[1:2] and place.after[1] in IN_LOCATIONS:
        return f"Is `location` missing before `{place.word}`?"
    if place.in_automaton() and is_name(place.word) and place.after[:1] == [":"]:
        return "An instance is part of the source or of a group, beside the automata."
    if place.in_automaton() and is_name(place.word) and place.word.lower() not in RESERVED:
        return f"No declaration begins with `{place.word}`."
    if place.word == "initial":
        return "`initial;` is part of a location. First values are given where variables are declared."
    return None


def at_start_of_part(place):
    if place.word == "edge":
        return "An edge is part of a location. An automaton without named ones has `location: initial;`."
    if place.word == "location" and place.in_location():
        return "A location without a name is the only one of its automaton."
    if place.word == "location":
        return "A location is part of an automaton."
    if place.word in {"goto", "do", "when"}:
        return f"`{place.word}` is part of an edge. Remove the `;` before it."
    return None


def at_component(place):
    """A sign in the place of the `:` of a component."""
    head = " ".join(place.statement)
    if place.word == "(":
        return f"A component has no parameters. A definition is written `{' '.join(place.statement[:-1])} def {place.statement[-1]}():`."
    if place.word == "{":
        return f"`{head}` is followed by `:`, and ends with `end`."
    return f"Is `:` missing after `{head}`?"


def at_head(place):
    """The words up to the `:` of a location, a component, a definition or an instance."""
    words = place.statement
    if not words:
        return None
    if words[:1] == ["location"] and place.word in IN_LOCATIONS:
        return f"Is `:` missing after `{' '.join(words)}`?"
    if is_head(words) and place.word == ":":
        return f"A definition has parentheses, also without parameters: `def {words[-1]}():`."
    if is_head(words) and "(" not in words and place.word in STARTERS:
        return f"Is `:` missing after `{' '.join(words)}`?"
    if len(words) > 2 and is_name(words[0]) and words[1] == ":" and "(" not in words and place.word == ";":
        return f"An instance has parentheses, also without arguments: `{words[0]}: {''.join(words[2:])}();`."
    if place.word == ":" and words[0] in KINDS | {"group"} and words[-1] in {"abs", "min", "max"}:
        return f"`{words[-1]}` is a reserved word. As a name it is written `${words[-1]}`."
    if place.word == ":=" and not place.is_in("edge") and is_name(words[0]):
        return "An assignment is part of an edge, after `do`."
    if is_head(words) and words[0] in KINDS | {"group"} and "def" not in words:
        return at_component(place)
    if len(words) == 2 and is_name(words[0]) and words[1] == ":":
        return f"After `{words[0]}:` the name of a definition is required. A component begins with `plant`, `automaton` or `group`."
    if len(words) == 1 and is_name(words[0]):
        return f"No declaration begins with `{words[0]}`. An instance is written `x: D();`."
    return None


def at_parameter(place):
    words = place.statement
    if "def" not in words or not is_head(words[: words.index("(")] if "(" in words else []):
        return None
    if place.word in {"!", "?"}:
        return f"Flags of parameters are left out. Write the event without `{place.word}`."
    if place.last == "," and place.word in EVENTS | {"alg", "location"}:
        return "Parameters of different sorts have `;` between them."
    if place.statement[-2:-1] == ["alg"] and place.word in {")", ";", ","}:
        return "A type is missing before the name, such as `int`."
    if place.last not in {"(", ";"}:
        return None
    if place.word in {"bool", "int"}:
        return f"A value parameter begins with `alg`, such as `alg {place.word} x`."
    if is_name(place.word) or place.word in KINDS | {"group"}:
        return "A parameter is an event, a location, or a value (`alg int x`). Instead of a component hand over what is used of it."
    return None


def at_declaration(place):
    words = place.statement
    if place.word in EVENTS and place.starts(*EVENTS) and len(words) == 1:
        return "Leave one word out: an event is declared by `event`, `controllable` or `uncontrollable`."
    if place.word in EVENTS and place.starts(*EVENTS) and not place.is_first_on_line and "(" not in words:
        return f"The class of an event is written first, such as `{place.word} e;`."
    if place.starts(*VALUES) and len(words) == 2 and is_name(words[1]) and place.word in {"=", ";", ","}:
        return "A type is missing before the name, such as `int`."
    if place.word == ":=" and place.starts(*VALUES, "equation", "type", "enum"):
        return "A first value or a definition is written with `=`. `:=` is for assignments on edges."
    if place.starts("type") and place.last == "=" and place.word in {"{", "enum"}:
        return f"An enumeration is declared by `enum {words[1]} = a, b;`."
    if place.starts("enum") and place.word in {"{", "("}:
        return "Write an enumeration without braces, such as `enum E = a, b;`."
    if "[" in words and words[words.index("[") - 1] == "int" and "]" not in words and place.word in {",", "]", ";"} and ".." not in words:
        return "Write a range as `int[0..5]`."
    if place.last == "int" and place.word == "(" or place.last == "." and words[-2:-1] == [".."]:
        return "Write a range as `int[0..5]`."
    if place.word == "." and place.starts("equation") and len(words) == 2:
        return "An equation defines a variable of its own component, named without a path."
    if place.word == "=" and place.starts("alphabet", "monitor") and len(words) == 1:
        return f"Write the events after `{words[0]}`, without `=`."
    if place.word == "=" and place.starts("input"):
        return "An input has no first value of its own: its values come from outside."
    if place.word == ":" and place.starts(*VALUES, *EVENTS):
        return "A type is written before the name, such as `disc int x;`."
    if place.starts("enum") and len(words) == 2 and is_name(place.word):
        return f"Is `=` missing after `enum {words[1]}`?"
    if is_name(place.word) and is_name(place.last) and place.starts(*EVENTS, "enum", "alphabet", "monitor"):
        return f"Is `,` missing between `{place.last}` and `{place.word}`?"
    if place.last == "initial" and place.word != "," and place.word not in STARTERS:
        return "`initial` has no predicate but `true`. First values are given where variables are declared."
    return None


def at_edge(place):
    if not place.starts("edge"):
        return None
    if place.word in {"when", "do", "goto"} and place.last == ",":
        return f"Remove the `,` before `{place.word}`."
    if place.word == "," and place.statement[-2:-1] == ["goto"]:
        return "An edge has one target."
    if place.word == ":=" and place.is_in("do") and is_name(place.last):
        return "Updates have commas between them."
    if place.word in {"when", "do"} and (place.is_in("goto") or place.is_in("do") or place.is_in("when")):
        return ORDER_OF_EDGE
    if place.word == "." and place.statement[-2:-1] == ["goto"]:
        return "`goto` leads to a location of the same automaton, named without a path."
    if place.word == "-" and place.after[:1] == [">"] or place.word in {"=>", "<=>"} and not place.is_in("when"):
        return "Write `goto` and the location for the target of an edge."
    if place.word in {"if", "["} and not place.is_in("when") and not place.is_in("do"):
        return "Write `when` before the guard of an edge."
    if place.assigns() and place.word == "=":
        return "Write `:=` for an assignment."
    if place.assigns() and not place.is_first_on_line and (is_name(place.word) or place.word.isdigit()):
        return f"Write `:=` between `{place.last}` and its new value."
    if place.assigns() and place.word in {"+", "-", "*"}:
        return "Write an assignment as `x := x + 1`."
    uses = not (place.is_in("when") or place.is_in("do") or place.is_in("goto"))
    if uses and is_name(place.last) and place.word in ORDERS | {"not", "and", "or", "true", "false"}:
        return "Write `when` before the guard of an edge."
    if uses and is_name(place.last) and (is_name(place.word) or place.word == ":"):
        return "After the events of an edge come `when`, `do` and `goto`. Several events have commas between them."
    if place.word == ":=" and place.is_in("when") and not place.is_in("do"):
        return "Write `=` for equality. `:=` is for assignments, after `do`."
    if place.word == "(" and place.last in {"do", ","}:
        return "One variable is assigned at a time. Write `x := 1, y := 2`; all right sides read the old values."
    return None


def at_number(place):
    if place.word == "." and place.last.isdigit() and place.is_glued:
        return "Real numbers are left out. Use a whole number of a smaller unit, such as tenths."
    if place.word.isdigit() and place.last == "0" and place.is_glued:
        return "A number has no zeros in front."
    if is_name(place.word) and place.last.isdigit() and place.is_glued:
        return "A name begins with a letter or `_`. Real numbers, such as `1e3`, are left out."
    return None


def at_word(place):
    if place.word.lower() in RESERVED and place.word not in RESERVED:
        return f"Reserved words have small letters. Write `{place.word.lower()}`."
    if place.last.lower() in RESERVED and place.last not in RESERVED and len(place.statement) == 1:
        return f"Reserved words have small letters. Write `{place.last.lower()}`."
    if place.word == "then" and place.in_if():
        return "Write `:` after the condition of an `if`, in the place of `then`."
    if place.word == "{" and place.in_if():
        return "Write `:` after the condition of an `if`, and `end` at its end."
    if place.last in LOOPS and place.is_in("do"):
        return "Loops are left out. An event happens again, round by round, as long as it can."
    if place.word in {"elsif", "elseif"}:
        return "Write `elif`."
    if place.word == "endif":
        return "An `if` ends with `end`."
    if place.word == ":" and place.last == "else":
        return "`else` has no `:` after it."
    if place.word == "end" and place.in_if() and ends_operand(place.last):
        return "An `if` that is a value has an `else`."
    if place.word in {";", "goto"} and place.in_if() and ends_operand(place.last):
        return "The `if` before it is still open. Is `end` missing?"
    if place.word == "xor" and ends_operand(place.last):
        return "Write `!=` for one of two booleans."
    return None


def at_operator(place):
    if place.word == "=" and place.last == "=" and place.is_glued:
        return "Write `=` for equality."
    if place.word == ">" and place.last == "<" and place.is_glued:
        return "Write `!=` for inequality."
    if place.word in {"<", ">"} and place.last == "=" and place.is_glued:
        return f"Write `{place.word}=`."
    if place.word == "!" and not ends_operand(place.last):
        return "`!` is behind an event that is sent. Write `not`."
    if place.word == "<" and not ends_operand(place.last) and place.after[1:2] == [">"]:
        return "Casts are left out."
    if place.word == "if" and ends_operand(place.last) and not place.is_first_on_line:
        return "Write `if p: a else b end` for one of two values."
    if place.word in {"[", "{"} and (ends_operand(place.last) or place.last in ORDERS | {":=", "when", "("}):
        return "Lists and their elements are left out. Use several variables."
    if place.word == "(" and is_name(place.last):
        return f"`{place.last}` is no function here. There are `abs`, `min` and `max`."
    if place.word == "*" and place.last == "*":
        return LEFT_OUT["pow"]
    if place.word == "?" and ends_operand(place.last) and ":" in place.after:
        return "Write `if a: b else c end` for one of two values."
    if place.word in {"=>", "<=>"} and ends_operand(place.last):
        return "An expression has one `=>` or `<=>`. Write parentheses round the first."
    if place.word in ORDERS and ends_operand(place.last) and has_comparison(place):
        return f"A comparison has one operator. Write `a {first_comparison(place)} b and b {place.word} c`."
    return None


def first_comparison(place):
    """The comparison of the operand before the place, or none."""
    depth = 0
    for word in reversed(place.statement):
        depth += (word in {")", "]"}) - (word in {"(", "["})
        if depth < 0 or (depth == 0 and word in {"and", "or", "not", "=>", "<=>", ",", ":", ":=", "when", "do", "if", "else"}):
            return None
        if depth == 0 and word in ORDERS:
            return word
    return None


def has_comparison(place):
    """Whether the operand before the place is compared already; the `=` of a declaration compares nothing."""
    found = first_comparison(place)
    defines = place.starts(*VALUES, "equation", "type", "enum") and place.statement.count("=") == 1 and "," not in place.statement
    return bool(found) and not (found == "=" and defines)


def at_list(place):
    """Something else than a name in a list of names, or two operands side by side."""
    lists = place.starts(*EVENTS, *VALUES, "enum", "alphabet", "monitor")
    if lists and place.last == "," and place.depth == 0 and not is_name(place.word):
        return "After this `,` a name is required."
    if place.starts(*VALUES) and len(place.statement) > 2 and is_name(place.last) and is_name(place.word) and not place.is_in("="):
        return f"Is `,` or `=` missing between `{place.last}` and `{place.word}`?"
    begins = is_name(place.word) or place.word.isdigit() or place.word in {"true", "false", "not", "abs", "min", "max"}
    in_value = place.is_in("when") or place.is_in("=") or place.is_in(":=") or place.starts("invariant", *KINDS)
    if begins and in_value and ends_operand(place.last) and not place.is_first_on_line and not place.is_in("goto"):
        return f"Is an operator missing between `{place.last}` and `{place.word}`?"
    return None


def opened_by(place):
    """The word before the innermost open parenthesis, where no comma is in it so far."""
    depth = 0
    for at in range(len(place.statement) - 1, 0, -1):
        word = place.statement[at]
        depth += (word == ")") - (word == "(")
        if depth < 0:
            return place.statement[at - 1]
        if depth == 0 and word == ",":
            return ""
    return ""


def at_gap(place):
    """A sign before which something is missing."""
    if place.word in ORDERS and place.last in JOINS | CONDITIONS | {"not", "("}:
        return f"An operand is missing before `{place.word}`."
    if place.statement and place.depth == 0 and place.word in STARTERS and (ends_operand(place.last) or place.last in {"initial", "marked"}):
        return f"Is `;` missing before `{place.word}`?"
    if place.last in {"abs", "min", "max"}:
        return f"`{place.last}` has its operands in parentheses."
    if place.word not in {";", ",", ")", "]", ":", "goto", "when", "do"} or not place.statement:
        return None
    if place.depth > 0 and place.word == ";" and ends_operand(place.last):
        return "Is a closing parenthesis or bracket missing?"
    if place.word == ")" and opened_by(place) in {"min", "max"}:
        return f"`{opened_by(place)}` has two operands."
    if not ends_operand(place.last) and place.last not in {"]", "!"}:
        return f"Something is missing between `{place.last}` and `{place.word}`."
    if place.last == "]" and place.word == ";":
        return "A name is missing before `;`."
    return None


NOT_READ = (
    at_end_of_text, at_repeated_word, at_reserved_name, at_edge_without_event, at_left_out, at_missing_sign, at_start, at_word, at_parameter, at_head,
    at_declaration, at_edge, at_number, at_operator, at_list, at_gap,
)


def not_read(place):
    for rule in NOT_READ:
        found = rule(place)
        if found:
            return found
    if place.is_first_on_line and place.statement and ends_operand(place.last):
        return f"Is `;` missing at the end of line {place.last_line}?"
    return None
