#!/usr/bin/env python3
"""What a terminal is shown below the line of `cif`, the place for an editor, and the page of a number.

    tools/explain.py shown LINE WORD..    the place, the line with a caret, the rule in words, and what the mistake may be
    tools/explain.py place LINE WORD..    file:line:column and the refusal, on one line
    tools/explain.py reasons FILE         the standard input, the reasons of `cif why FILE ..`, with their places below them
    tools/explain.py number N             the part of docs/REFUSALS.md on the refusal N

LINE is the line that the program wrote to standard error for the words. Whatever goes wrong here, nothing more is written.
"""
import os
import re
import sys

HERE = os.path.dirname(os.path.realpath(__file__))
PAGE = os.path.join(HERE, os.pardir, "docs", "REFUSALS.md")
LARGEST = 1 << 27

# The rules in words, as docs/REFUSALS.md has them.
RULES = {
    1: "No token, blank or comment begins at this byte.",
    2: "The number is larger than 2147483647.",
    3: "A comment begins at `/*` and has no end.",
    4: "The text is outside the language: this token cannot follow what is before it.",
    5: "A part of the name is declared nowhere that it is looked up.",
    6: "One scope declares the name twice.",
    7: "The name denotes something of another sort than this place requires, or an instance has the wrong number of arguments.",
    8: "The definition, type or constant needs itself.",
    9: "The value has another kind than this place requires, or the use does not fit its event or parameter.",
    10: "The name is no constant and no literal, and a constant is required.",
    11: "The automaton has `count` initial locations, and exactly one is required.",
    12: "The variable is assigned outside the automaton that declares it.",
    13: "Two updates of one edge assign the variable.",
    14: "The event is outside the alphabet of the automaton.",
    15: "The automaton uses one event in two roles.",
    16: "The algebraic variable has `count` definitions, and exactly one is required.",
    17: "There are more than 100,000 components, declarations, locations and edges.",
    18: "The constant expression has no value, or one outside its range, or a bound is above the other.",
    19: "The algebraic variable depends on itself.",
    20: "The divisor may be 0.",
    21: "The value may leave 64 bits.",
    22: "The state invariant depends on an input.",
    23: "The state invariant is false in the initial state.",
    24: "Written out, the expressions have more than 1,000,000 nodes or nest more than 100 deep.",
    25: "The events have more than 16,384 choices.",
    26: "The value is outside the range of the input.",
    27: "The event has no step in this state.",
    28: "The event has no class, and a program requires one.",
    29: "The line is none that a script may have, or names nothing of this sort.",
    31: "No token, blank or comment of Structured Text begins at this byte.",
    32: "The number is larger than 9223372036854775807.",
    33: "A comment begins at `(*` and has no end.",
    34: "The text is no Structured Text program of the subset that is read.",
    35: "The statement uses a name that is not declared.",
    36: "The variable has the name of an earlier one.",
    37: "The statement has BOOL where an integer is required, or an integer where BOOL is.",
    38: "The statement assigns an input or a constant.",
    39: "The subrange is empty, or the first value is none of the type.",
    40: "A result of the scan leaves 64 bits.",
    41: "The scan divides by 0.",
    42: "The scan assigns a value outside the subrange of the variable.",
    43: "The scan takes more than 1,000,000 turns of its loops.",
    44: "A field of the header is unknown or repeated, or a required one is missing.",
    45: "The cell has no value of its column.",
    46: "The row has another number of fields than the header.",
    47: "There are more than 100,000 rows.",
    48: "The number under `scan` neither begins a case nor continues one.",
    54: "No event has this path.",
}
# The line of the refusal that is told without a file.
NO_EVENT = "cif: 54 NoEvent"
FIELDS = {"at", "first", "count", "alg", "nodes", "depth", "event", "statement", "variable", "value", "row", "column"}


class Refusal:
    """The refusal in a line: its file, the row or the line of a script, its number and fields."""

    def __init__(self, file, row, line, number, name, fields):
        self.file, self.row, self.line, self.number, self.name, self.fields = file, row, line, number, name, fields

    def count(self, field):
        found = self.fields.get(field, "")
        return int(found) if re.fullmatch("[0-9]{1,18}", found) else None


def refusal_in(line, words):
    """The refusal that a line has for one of the files of a command, or none."""
    for file in words[1:3]:
        start = f"cif: {file}: "
        if not line.startswith(start):
            continue
        found = re.fullmatch(r"(?:(row|line) ([0-9]{1,9}): )?([0-9]{1,3}) ([A-Za-z]+)((?: [a-z]+ \S+)*)", line[len(start) :])
        if found:
            row, at = (int(found[2]) if found[1] == it else None for it in ("row", "line"))
            parts = found[5].split()
            fields = dict(zip(parts[::2], parts[1::2]))
            if set(fields) <= FIELDS:
                return Refusal(file, row, at, int(found[3]), found[4], fields)
    return None


def content(file):
    """The bytes of a file, or none."""
    with open(os.fsencode(file), "rb") as opened:
        if os.fstat(opened.fileno()).st_size > LARGEST:
            return None
        return opened.read(LARGEST)


# ---- a line of a file, as a terminal has it


def width_of_terminal():
    found = os.environ.get("COLUMNS", "")
    if re.fullmatch("[1-9][0-9]{0,5}", found):
        return int(found)
    for output in (1, 2):
        try:
            return os.get_terminal_size(output).columns or 80
        except OSError:
            continue
    return 80


def shown_character(character):
    """A character as it is shown, and the columns that it takes."""
    if character == "\t" or " " <= character <= "~":
        return character, 1
    import unicodedata

    category = unicodedata.category(character)
    if category in {"Cc", "Cf", "Cs", "Zl", "Zp"}:
        return "?", 1
    if category in {"Mn", "Me"}:
        return character, 0
    return character, 2 if unicodedata.east_asian_width(character) in "WF" else 1


def cells_of(line):
    """The characters of a line of bytes: the byte where each begins, how it is shown, and its columns. A tab takes those up to the next stop."""
    cells, column, at = [], 0, 0
    for character in line.decode("utf-8", "surrogateescape"):
        size = len(character.encode("utf-8", "surrogateescape"))
        if character != "\r":
            shown, width = shown_character(character)
            width = 8 - column % 8 if shown == "\t" else width
            cells.append((at, shown, width))
            column += width
        at += size
    return cells


def clean(text):
    """A text without what a terminal would obey."""
    return "".join("?" if it == "\t" else shown_character(it)[0] for it in text)


def part_of(cells, place, room):
    """The cells that fit into a room of columns, with the one at an index among them, and whether some are cut at each side."""
    if sum(it[2] for it in cells) < room:
        return cells, place, "", ""
    cells = [(at, " " if shown == "\t" else shown, 1 if shown == "\t" else width) for at, shown, width in cells]
    room = max(room - 8, 8)
    start, used = place, 0
    while start > 0 and used + cells[start - 1][2] <= room // 2:
        start -= 1
        used += cells[start][2]
    end = place
    while end < len(cells) and used + cells[end][2] <= room:
        used += cells[end][2]
        end += 1
    return cells[start:end], place - start, "..." if start else "", "..." if end < len(cells) else ""


def lines_of_place(file, text, at):
    """A byte of a file as file:line:column, its line, and a caret. Columns count bytes, from 1."""
    start = text.rfind(b"\n", 0, at) + 1
    end = text.find(b"\n", at)
    line = text[start : end if end >= 0 else len(text)]
    head = f"{clean(file)}:{text.count(10, 0, start) + 1}:{at - start + 1}"
    near = max(0, at - start - 4000)
    while near and line[near] & 0xC0 == 0x80:
        near -= 1
    cells = cells_of(line[near : at - start + 4000])
    place = sum(1 for it in cells if it[0] + near < at - start)
    if place and place < len(cells) and cells[place][0] + near > at - start:
        place -= 1
    shown, place, before, after = part_of(cells, place, width_of_terminal())
    blanks = "".join("\t" if it[1] == "\t" else " " * it[2] for it in shown[:place])
    before, after = "..." if near else before, after
    return [head, before + "".join(it[1] for it in shown) + after, " " * len(before) + blanks + "^"]


# ---- what is shown of a line


def places_of(refusal, text, words):
    """The places to show: the file, its bytes, and a byte of them."""
    at = refusal.count("at")
    if refusal.line:
        import explain_script

        at = explain_script.place(refusal, text)
        return [] if at is None else [(refusal.file, text, at)]
    if at is not None:
        first = refusal.count("first")
        return [(refusal.file, text, it) for it in (at, first) if it is not None]
    if refusal.number in {19, 28}:
        import explain_source

        keywords = {"alg"} if refusal.number == 19 else {"event"}
        return [(refusal.file, text, it) for it in explain_source.declared(text, keywords, refusal.fields.get("alg") or refusal.fields.get("event", ""))]
    if refusal.number < 31 or len(words) < 3:
        return []
    import explain_replay as replay

    places = []
    if refusal.count("statement") is not None:
        places = [replay.statement_place(text, refusal.count("statement"))]
    elif "variable" in refusal.fields:
        places = replay.variable_places(text, refusal.fields["variable"])
    elif refusal.number in {44, 45, 46}:
        places = [replay.row_place(text, refusal.count("row") or 0, refusal.count("column"))]
    elif refusal.number == 48 and refusal.count("row"):
        places = [replay.row_place(text, refusal.count("row"), replay.scan_column(text))]
    found = [(refusal.file, text, it) for it in places if it is not None]
    if refusal.row:
        rows = content(words[2])
        found.append((words[2], rows, replay.row_place(rows, refusal.row, None)))
    return [it for it in found if it[2] is not None]


def sentence_of(refusal, text, words):
    """What the mistake may be, and what to do."""
    if refusal.line:
        import explain_script

        return explain_script.sentence(refusal, text, words)
    if refusal.number < 31:
        import explain_source

        return explain_source.sentence(refusal.number, text, refusal.count("at"), refusal.count("count"))
    import explain_replay as replay

    if refusal.number in {31, 34} and refusal.count("at") is not None:
        return replay.text_sentence(refusal.number, text, refusal.count("at"))
    if refusal.number == 44:
        return replay.header_sentence(content(words[1]))
    if refusal.number == 45:
        return replay.cell_sentence(content(words[1]), text, refusal.count("row"), refusal.count("column"), words[0] == "batch")
    if refusal.number == 46:
        return replay.length_sentence(text, refusal.count("row"))
    if refusal.number == 48:
        return replay.boundary_sentence(text, refusal.count("row"))
    if refusal.number == 47 and words[0] == "batch":
        return "Split the file where a case begins."
    return replay.ADVICE.get(refusal.number)


def status_sentence(line, words):
    """The sentence for a line that names no refusal."""
    for file in words[1:3]:
        if line == f"cif: cannot read {file}":
            raw = os.fsencode(file)
            if os.path.isdir(raw):
                return "It is a folder."
            if not os.path.exists(raw):
                return "There is no such file."
            return "The file may not be read: see its permissions."
        if line.startswith(f"cif: {file} is longer than "):
            return "A source and a script have at most 4,194,304 bytes, a program 16,777,216, and a table of rows or of cases 67,108,864."
    if line == NO_EVENT:
        import explain_script

        return f"{RULES[54]} {explain_script.ADVICE[54]}"
    if line == "cif: cannot write":
        return "Is the disk full, or has the program ended that reads the output?"
    return None


def rule_of(refusal):
    count = refusal.fields.get("count", "")
    return RULES.get(refusal.number, "").replace("`count`", count if count.isdigit() else "`count`")


def attempt(call, *given):
    """What a call returns, or none where it fails in any way."""
    try:
        return call(*given)
    except Exception:
        return None


def write(lines):
    text = "".join(f"{it}\n" for it in lines)
    sys.stdout.buffer.write(text.encode("utf-8", "replace"))
    sys.stdout.buffer.flush()


def show(line, words):
    refusal = refusal_in(line, words)
    if not refusal or refusal.number not in RULES:
        found = attempt(status_sentence, line, words)
        write([found] if found else [])
        return
    text = attempt(content, refusal.file)
    if text is not None and (refusal.count("at") or 0) > len(text):
        text = None
    lines = []
    if text is not None:
        for place in attempt(places_of, refusal, text, words) or []:
            lines += attempt(lines_of_place, *place) or []
    lines.append(rule_of(refusal))
    found = attempt(sentence_of, refusal, text, words) if text is not None else None
    write(lines + ([found] if found else []))


def write_place(line, words):
    refusal = refusal_in(line, words)
    if not refusal or refusal.line is None and refusal.count("at") is None:
        return
    text = content(refusal.file)
    at = places_of(refusal, text, words)[0][2]
    if at <= len(text):
        start = text.rfind(b"\n", 0, at) + 1
        write([f"{clean(refusal.file)}:{text.count(10, 0, start) + 1}:{at - start + 1}: {refusal.number} {refusal.name}"])


def write_reasons(file):
    """Writes what `why` wrote of a source, with the lines of the places in it."""
    import explain_script

    lines, text = [], attempt(content, file)
    for line in sys.stdin.buffer.read().decode().splitlines():
        lines.append(line)
        at = explain_script.place_of_reason(line)
        if at is not None and text is not None and at <= len(text):
            lines += attempt(lines_of_place, file, text, at) or []
    write(lines)


def write_number(word):
    """Writes the part of the page on a refusal; false where there is none."""
    if not re.fullmatch("[0-9]{1,3}", word) or int(word) not in RULES:
        return False
    with open(PAGE, encoding="utf-8") as opened:
        page = opened.read()
    found = re.search(rf"^## {int(word)} .*?(?=^## |\Z)", page, re.S | re.M)
    if found:
        write([found[0].rstrip("\n")])
    return bool(found)


def main(words):
    if words[:1] == ["shown"] and len(words) > 1:
        attempt(show, words[1], words[2:])
    elif words[:1] == ["place"] and len(words) > 1:
        attempt(write_place, words[1], words[2:])
    elif words[:1] == ["reasons"] and len(words) == 2:
        write_reasons(words[1])
    elif words[:1] == ["number"] and len(words) == 2:
        if not attempt(write_number, words[1]):
            sys.stderr.write(f"cif: no refusal has the number {ascii(words[1])[1:-1]}\n")
            return 2
    else:
        sys.stderr.write(__doc__)
        return 2
    return 0


if __name__ == "__main__":
    status = main(sys.argv[1:])
    sys.stdout = None
    os._exit(status)
