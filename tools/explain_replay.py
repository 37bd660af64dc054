"""Places and sentences for a refusal of a Structured Text program or of a table of rows. For `explain.py`."""
import re

TOKEN = re.compile(rb"[ \t\r\n]+|\(\*.*?\*\)|(?P<token>[A-Za-z_][A-Za-z0-9_]*|[0-9]+|:=|\.\.|<>|<=|>=|[;:(),+\-*/=<>&])", re.S)
FIELD = re.compile(rb'"(?:[^"]|"")*"?[^,\r\n]*|[^,\r\n]*')
# Up to here a text is cut into tokens for a sentence.
LONG = 1 << 20
MARK = b"\xef\xbb\xbf"
BLOCKS = {"VAR", "VAR_INPUT", "VAR_OUTPUT"}
LEFT_OUT = set("CASE OF FOR TO BY REPEAT UNTIL EXIT RETURN FUNCTION FUNCTION_BLOCK ARRAY STRUCT STRING REAL LREAL TIME TYPE DINT AT".split())
OTHER_BLOCKS = {"VAR_IN_OUT", "VAR_GLOBAL", "VAR_TEMP", "VAR_EXTERNAL", "VAR_CONFIG", "VAR_ACCESS", "RETAIN"}
STATEMENT_ENDS = {";", "THEN", "DO", "ELSE", "END_VAR", "CONSTANT"}
ORDERS = {"=", "<>", "<", ">", "<=", ">="}
OPERATORS = {"OR", "XOR", "AND", "MOD", "NOT", "IF", "ELSIF", "WHILE", "PROGRAM"}
BYTES = {
    ord("{"): "Pragmas are left out.",
    ord("#"): "Numbers with a base or a type are left out. Write the decimal.",
    ord("["): "Arrays are left out.",
    ord("."): "Parts of structures and of function blocks are left out.",
    ord("'"): "Texts in quotes are left out.",
    ord('"'): "Texts in quotes are left out.",
    ord("%"): "Addresses are left out.",
}
ADVICE = {
    32: "The largest number is 9223372036854775807.",
    33: "Close it with `*)`. Comments do not nest.",
    35: "Declare the name in a block of variables.",
    36: "Rename one of the two: the case of letters makes no difference.",
    37: "BOOL and integers do not mix: `AND`, `OR`, `XOR`, `NOT` and conditions have BOOL, arithmetic and orders integers.",
    38: "Declare it in `VAR` or `VAR_OUTPUT`: inputs and constants are not assigned.",
    39: "The lower limit is at most the upper one, and the first value is between them, or `TRUE` or `FALSE` for BOOL.",
    40: "Results have 64 bits. Give the variables subranges, or limit them with `MIN` and `MAX`.",
    41: "Put the division into an `IF` that tests the divisor: all operands of `AND` are evaluated.",
    42: "Widen the subrange, or limit the value with `MIN` and `MAX`.",
    43: "Does the condition of each `WHILE` become FALSE? All loops of a scan share 1,000,000 turns.",
    47: "Split the table. Each replay begins with the first values.",
}


def tokens(text):
    """The tokens of a program with their places, up to a byte where none begins."""
    at = 0
    while at < len(text):
        match = TOKEN.match(text, at)
        if not match:
            return
        if match.lastgroup:
            yield match.group().decode(), at
        at = match.end()


def pairs(text):
    """Each token with its place, and the next token."""
    before = None
    for word, at in tokens(text):
        if before:
            yield before[0], before[1], word
        before = (word, at)
    if before:
        yield before[0], before[1], ""


def statement_place(text, number):
    """The place of a statement, by its number in the order of first words."""
    in_block, found = False, 0
    for word, at, after in pairs(text):
        upper = word.upper()
        if upper in BLOCKS:
            in_block = True
        elif upper == "END_VAR":
            in_block = False
        elif not in_block and (upper in {"IF", "WHILE"} or (after == ":=" and upper not in {"PROGRAM"})):
            if found == number:
                return at
            found += 1
    return None


def variables(text):
    """The declared variables: name, place, block, and the words of the type."""
    block, found = "", []
    words = []
    for word, at, after in pairs(text):
        upper = word.upper()
        if upper in BLOCKS:
            block, words = upper, None
        elif upper == "END_VAR":
            block = ""
        elif block and after == ":":
            words = []
            found.append((word, at, block, words))
        elif block and words is not None and word not in {":", ";"}:
            words.append(upper)
        elif not block and found and upper not in {"PROGRAM"}:
            return found
    return found


def variable_places(text, name):
    """The places where a name is declared, the last first."""
    alike = [at for word, at, _, _ in variables(text) if word.upper() == name.upper()]
    return alike[1::-1] if len(alike) > 1 else alike


def inputs(text):
    return [(name, words) for name, _, block, words in variables(text) if block == "VAR_INPUT"]


def limits(words):
    """The limits of an integer type, from the words of its declaration."""
    if "(" not in words or ")" not in words:
        return "-9223372036854775808", "9223372036854775807"
    inner = "".join(words[words.index("(") + 1 : words.index(")")])
    low, _, high = inner.partition("..")
    return low, high


def record(text, number):
    """The places of the fields of a record, which are counted from 0 without blank lines, or none."""
    at = len(MARK) if text.startswith(MARK) else 0
    while at < len(text):
        if text[at : at + 1] in (b"\r", b"\n"):
            at += 1
            continue
        fields, at = record_at(text, at)
        if number == 0:
            return fields
        number -= 1
    return None


def record_at(text, at):
    """The fields of the record at a place, and the place behind it."""
    fields = []
    while True:
        end = FIELD.match(text, at).end()
        fields.append((at, end))
        if text[end : end + 1] != b",":
            return fields, end
        at = end + 1


def content(text, field):
    """What a field has, without quotes."""
    raw = text[field[0] : field[1]]
    if raw.startswith(b'"') and raw.endswith(b'"') and len(raw) > 1:
        raw = raw[1:-1].replace(b'""', b'"')
    return raw.decode("utf-8", "replace")


def row_place(rows, row, column):
    """The place of a cell, or of a row where no column is given. The header is row 0."""
    fields = record(rows, row)
    if not fields:
        return 0 if row == 0 and not rows else None
    if column is None:
        return fields[0][0]
    return fields[column - 1][0] if column <= len(fields) else fields[-1][1]


def header_sentence(program):
    wanted = ",".join(["scan"] + [name for name, _ in inputs(program)])
    return f"The header has these fields, in any order: {wanted}"


def scan_column(rows):
    """The column of `scan`, counted from 1."""
    names = [content(rows, field) for field in record(rows, 0) or []]
    return names.index("scan") + 1 if "scan" in names else None


def cell_sentence(program, rows, row, column, of_cases=False):
    header = record(rows, 0)
    if not header or row is None or not 0 < (column or 0) <= len(header):
        return None
    name = content(rows, header[column - 1])
    if name == "scan" and of_cases:
        return "Under `scan` a whole number from 1 to 100000 is required, without blanks and zeros in front."
    if name == "scan":
        return f"Under `scan` the number of the row is required: {row}."
    for declared, words in inputs(program):
        if declared == name and words[:1] == ["BOOL"]:
            return f"Under `{name}` one of TRUE, FALSE, true, false, 1 and 0 is required."
        if declared == name:
            low, high = limits(words)
            return f"Under `{name}` a whole number from {low} to {high} is required, without blanks and zeros in front."
    return None


def length_sentence(rows, row):
    header, fields = record(rows, 0), record(rows, row or 0)
    if not header or not fields:
        return None
    return f"The header has {len(header)} fields, and this row {len(fields)}."


def boundary_sentence(rows, row):
    """What may stand under `scan` in a row of cases: 1, or the number behind that of the row before."""
    if row == 1:
        return "The first row begins the first case: under `scan` it has 1."
    column, before = scan_column(rows), record(rows, row - 1) if row else None
    number = content(rows, before[column - 1]) if before and column and column <= len(before) else ""
    if not re.fullmatch("[1-9][0-9]{0,5}", number):
        return None
    return f"Under `scan` {int(number) + 1} continues the case, and 1 begins the next one."


class Point:
    """What is before and after a byte of a program: tokens in capitals, the statement or declaration so far, and whether it is in a block."""

    def __init__(self, text, at):
        self.text, self.at = text, at
        earlier = [it for it in tokens(text[:at])]
        later = [it for it, _ in tokens(text[at : at + 400])]
        self.spelled = later[0] if later else ""
        self.word = self.spelled.upper()
        self.last_spelled, last_at = earlier[-1] if earlier else ("", 0)
        self.last = self.last_spelled.upper()
        self.is_glued = bool(earlier) and last_at + len(self.last) == at
        self.is_first_on_line = b"\n" in text[last_at:at]
        self.last_line = text.count(10, 0, last_at) + 1
        self.in_block, self.statement = False, []
        for word in (it.upper() for it, _ in earlier):
            self.in_block = (self.in_block or word in BLOCKS) and word != "END_VAR"
            ends = word in STATEMENT_ENDS or word in BLOCKS
            if ends:
                self.statement = []
            else:
                self.statement.append(word)

    def ends_operand(self):
        return bool(re.match(r"[A-Z0-9_]+$|\)$", self.last)) and self.last not in OPERATORS


def in_declaration(point):
    if point.last in OTHER_BLOCKS or point.word in OTHER_BLOCKS:
        return "Blocks are `VAR`, `VAR CONSTANT`, `VAR_INPUT` and `VAR_OUTPUT`."
    if not point.in_block:
        return None
    if point.last == ":":
        return "Types are `BOOL`, `LINT` and subranges such as `LINT (0 .. 9)`."
    if point.word == "," and len(point.statement) == 1:
        return "Each variable has a declaration of its own, such as `x: LINT; y: LINT;`."
    if ":=" in point.statement and point.word in OPERATORS | {"+", "-", "*", "/", "("}:
        return "A first value is a literal."
    return None


def in_statement(point):
    if point.word == "=" and len(point.statement) == 1:
        return "Write `:=` for an assignment."
    if point.word == "(" and len(point.statement) == 1:
        return "Calls of function blocks are left out."
    if point.word == ";" and not point.statement:
        return "Empty statements are left out. Remove the `;`."
    if point.word == "(" and point.ends_operand():
        return f"`{point.last_spelled}` is no function here. There are `ABS`, `MIN`, `MAX` and `SEL`."
    if point.word == "*" and point.last == "*":
        return "Powers are left out. Write a product."
    if point.word in ORDERS and point.ends_operand() and ORDERS & set(point.statement):
        return "A comparison has one operator. Write `a < b AND b < c`."
    for first, then in (("IF", "THEN"), ("ELSIF", "THEN"), ("WHILE", "DO")):
        if point.statement[:1] == [first] and point.ends_operand() and re.match("[A-Z]", point.word):
            return f"Is `{then}` missing before `{point.spelled}`?"
    return None


def of_token(point):
    if point.at >= len(point.text):
        return "The text ends here. Is `END_PROGRAM` missing, or an `END_IF`, `END_WHILE` or `END_VAR`?"
    if point.text[point.at : point.at + 2] == b"//" or point.word == "/" == point.last:
        return "Comments are written `(* .. *)`."
    if re.search("__|_$", point.word):
        if point.is_glued and point.last.isdigit():
            return "Numbers have no `_`."
        return "A name has no two adjoining `_`, and none at its end."
    if point.is_glued and point.last.isdigit() and point.word.startswith("_"):
        return "Numbers have no `_`."
    return None


def of_word(point):
    if point.word in LEFT_OUT:
        return f"`{point.spelled}` is left out: there are BOOL, LINT and subranges of LINT, assignments, `IF` and `WHILE`."
    if point.is_first_on_line and point.statement and (point.ends_operand() or point.last in {"END_IF", "END_WHILE"}):
        return f"Is `;` missing at the end of line {point.last_line}?"
    return None


def bad_byte(text, at):
    if text[at : at + 3] == MARK:
        return "The file begins with a byte order mark. Save it as UTF-8 without one."
    return BYTES.get(text[at], "Outside comments ASCII alone is read.")


def text_sentence(number, text, at):
    """The sentence for 31 and 34."""
    if number == 31:
        return bad_byte(text, at) if at < len(text) else None
    point = Point(text, at) if at < LONG else None
    for rule in (of_token, in_declaration, in_statement, of_word) if point else ():
        found = rule(point)
        if found:
            return found
    return None
