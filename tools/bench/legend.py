"""`legend`: what each variable of a program is, what its numbers mean, and which edges of the source each event has."""
import json
import re

from bench.models import CLASSES, NAMELESS, ROLES, load_classed
from bench.programs import Written

OWN = [
    ("T0_fired", "whether an event happened in the round"),
    ("T1_rounds", "rounds of the class that were made in the scan"),
    (".._done", "the event has happened in this round"),
    (".._in_range", "each new value of the choice is in its range"),
    (".._new_..", "the new value of the variable behind it"),
    (".._sent", "the value that is sent along the channel"),
    (".._if", "the value of an `if`"),
]
MEANINGS = ["location", "value", "input", "algebraic"]


class Legend:
    """What is said of the program of a source; of its lines and own variables only where the program is given."""

    def __init__(self, file, program=None):
        self.model = load_classed(file)
        self.written = Written(self.model, program) if program else None
        # how many lines are put above the program
        self.shift = 0

    def lines(self, event):
        """The first and the last line of the statements of an event, or None where the program is not given."""
        return tuple(line + self.shift for line in self.written.lines[event]) if self.written else None

    def held(self):
        """What the variables hold: the word of each part, and its variables."""
        model = self.model
        return list(zip(MEANINGS, [model.location_variables(), model.variables(), model.inputs(), model.algebraic()]))

    def own(self):
        """The generator's own variables, each with what it is."""
        if not self.written:
            return OWN
        return [(name, next(what for one, what in OWN if is_own(name, one))) for name in self.written.own_variables()]

    def tried(self, word):
        """The events of a class that have a choice, and those that have none."""
        numbers = self.model.events(word)
        return [it for it in numbers if self.model.net.count(it)], [it for it in numbers if not self.model.net.count(it)]


def is_own(name, pattern):
    """Whether an own variable is one of those that are written so, such as `.._new_..`. Of a path of signs alone nothing is in its name."""
    inner = pattern.strip("._")
    tail = "(_.*)?" if pattern.endswith("..") else ""
    return pattern == name or pattern.startswith("..") and bool(re.fullmatch(rf"T[0-9]+_{inner}{tail}", name))


# ---- a table


def numbers_of(it):
    """What the numbers of a variable are."""
    if it.literals == [NAMELESS]:
        return "0, its one location"
    if it.literals:
        return ", ".join(f"{number} {name}" for number, name in enumerate(it.literals))
    if it.kind == "bool":
        return "bool"
    return "int" if it.range is None else f"int {it.range[0]} .. {it.range[1]}"


TITLES = {"location": "Locations of automata", "value": "Discrete variables", "input": "Inputs", "algebraic": "Algebraic variables"}


def variable_rows(legend):
    """The parts of the table of variables: a title, and rows of cells."""
    for word, its in legend.held():
        if its:
            yield TITLES[word], [[" ".join(it.names), it.path, numbers_of(it)] for it in its]
    yield "Own variables", [[name, "", what] for name, what in legend.own()]


def columns(rows):
    """The rows as lines with their cells below one another."""
    widths = [max(len(row[place]) for row in rows) for place in range(len(rows[0]))]
    return ["  " + "  ".join(cell.ljust(width) for cell, width in zip(row, widths) if width).rstrip() for row in rows]


def way_rows(ways):
    """An automaton, its locations, and where its edge is, for each that takes part."""
    for it in ways:
        if it.edge is None:
            yield [it.automaton, "stays", "where it has no such edge"]
        else:
            moved = "one location" if it.origin == NAMELESS else f"{it.origin} -> {it.target}"
            yield [it.automaton + ROLES[it.role], moved, "%d:%d" % it.place]


def event_lines(legend, word):
    tried, never = legend.tried(word)
    for number, event in enumerate(tried, 1):
        count = legend.model.net.count(event)
        lines = legend.lines(event)
        text = f"{number}. {legend.model.net.events[event].path}"
        yield "  " + text + (f", {count} choices" if count > 1 else "") + ("" if lines is None else ", lines %d to %d" % lines)
        yield from ("    " + line for line in columns(list(way_rows(legend.model.ways(event)))))
    if never:
        yield "  never: " + ", ".join(legend.model.net.events[event].path for event in never)


def lines_of(legend):
    for title, rows in variable_rows(legend):
        yield from [title, *columns(rows), ""]
    for word in CLASSES:
        lines = list(event_lines(legend, word))
        yield f"{word.capitalize()} events, as a round tries them" if lines else f"No {word} events"
        yield from lines + [""] * (word == CLASSES[0])


def as_table(legend):
    return "\n".join(lines_of(legend)) + "\n"


def as_comment(legend):
    """The table as a comment of Structured Text. Its lines are those of the program with the comment above it."""
    head = f"Legend of the program of {legend.model.file}\n\n"
    legend.shift = (head + as_table(legend)).count("\n") + 1
    return "(* " + plain(head + as_table(legend)) + "*)\n"


def plain(text):
    """A text that neither opens nor closes a comment, in printable ASCII."""
    text = "".join(it if " " <= it <= "~" or it == "\n" else "?" for it in text)
    return text.replace("(*", "( *").replace("*)", "* )")


# ---- JSON


def object_of(word, it):
    found = {"variables": list(it.names), "path": it.path, "what": word, "kind": it.kind}
    if it.range is not None and it.kind == "int":
        found["range"] = list(it.range)
    if it.literals:
        found["names"] = it.literals
    if it.first is not None:
        found["first"] = bool(it.first) if it.kind == "bool" else it.first
    return found


def way_object(it):
    if it.edge is None:
        return {"automaton": it.automaton, "stays": True}
    found = {"automaton": it.automaton, "from": it.origin, "to": it.target, "line": it.place[0], "column": it.place[1]}
    return {**found, "role": it.role}


def event_object(legend, event):
    found = {"path": legend.model.net.events[event].path, "choices": legend.model.net.count(event)}
    if legend.written and event in legend.written.lines:
        found["lines"] = list(legend.lines(event))
    return {**found, "edges": [way_object(it) for it in legend.model.ways(event)]}


def as_json(legend):
    found = {"source": legend.model.file}
    found["variables"] = [object_of(word, it) for word, its in legend.held() for it in its]
    found["own"] = [{"variable": name, "what": what} for name, what in legend.own()]
    found["events"] = {word: [event_object(legend, event) for event in legend.model.events(word)] for word in CLASSES}
    return json.dumps(found, indent=1) + "\n"


FORMS = {"": as_table, "--st": as_comment, "--json": as_json}


def run(file, program, form):
    """The answer to `legend FILE [ST] [--st|--json]`."""
    return FORMS[form](Legend(file, program))
