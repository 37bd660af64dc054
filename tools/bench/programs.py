"""A program that `generate` wrote, beside its source: whether it is that of the source, and the statements in which each event is tried."""
import re

from compare_programs import broken
from plain_programs import Program, Unread

from bench.faults import MOST_PROGRAM, PROGRAM, content, of_file
from bench.models import CLASSES


class Written:
    """A program of a source: what is read of it, and for each event with a statement the first and the last line of these."""

    def __init__(self, model, file):
        self.file, self.program = file, read(file, as_utf8(content(file, MOST_PROGRAM)))
        if interface(self.program) != wanted_interface(model):
            raise self.other(model)
        loops = [form for form in self.program.body if form[0] == "while"]
        if len(loops) != len(CLASSES):
            raise self.other(model)
        self.lines = {}
        for word, loop in zip(CLASSES, loops):
            self.lines.update(self.lines_of_class(model, word, loop[2]))

    def other(self, model):
        return of_file(PROGRAM, self.file, f"not the program of {model.file}")

    def lines_of_class(self, model, word, body):
        """The lines of each event of a class that has a choice."""
        found, at = {}, 1
        for event in model.events(word):
            count = model.net.count(event)
            if not count:
                continue
            end = end_of_event(body, at, count)
            if end is None:
                raise self.other(model)
            found[event] = self.program.lines[id(body[at])][0], self.program.lines[id(body[end - 1])][1]
            at = end
        if at != len(body) - 1:
            raise self.other(model)
        return found

    def own_variables(self):
        """The names of the generator's own variables."""
        return [it.name for it in self.program.variables if it.name.startswith("T")]


def as_utf8(text):
    """Bytes as the text that they are in UTF-8, if they are."""
    try:
        return text.encode("latin-1").decode("utf-8")
    except UnicodeDecodeError:
        return text


def read(file, text):
    try:
        program = Program(text)
    except (Unread, RecursionError):
        program = None
    if program is None or broken(program.variables, program.body):
        raise of_file(PROGRAM, file, f"refused; cif replay {file} ROWS says why")
    return program


def assigned(body):
    """The names that statements assign."""
    for form in body:
        if form[0] == "assign":
            yield form[1]
        elif form[0] == "while":
            yield from assigned(form[2])
        else:
            for _, inner in form[1]:
                yield from assigned(inner)
            yield from assigned(form[2])


def is_mark(form):
    """Whether a statement clears the mark of an event."""
    return form[0] == "assign" and re.fullmatch("T[0-9]+_done", form[1]) and form[2] == ("truth", False)


def end_of_event(body, at, count):
    """The end of the statements from `at` on of an event with `count` choices, or None where they are other statements.

    They are one `IF` with a branch for each choice, behind statements that set what it needs; or a mark, and an `IF` for each choice.
    """
    if is_mark(body[at]):
        end = at + 1 + count
        return end if all(form[0] == "if" and form[1][0][0][0] == "NOT" for form in body[at + 1:end]) and end < len(body) else None
    for end in range(at, len(body) - 1):
        form = body[end]
        if form[0] == "if" and "T0_fired" in assigned([form]):
            return end + 1 if len(form[1]) == count and not form[2] else None
    return None


def interface(program):
    """The inputs and outputs with their types, and the variables that hold the state."""
    def of(block, letters):
        return [(it.name, it.kind, it.low, it.high) for it in program.variables if it.block == block and it.name[0] in letters]
    return of("VAR", "LVH"), of("VAR_INPUT", "I"), of("VAR_OUTPUT", "PQR")


def declared(it, place):
    if it.range is None:
        return it.names[place], "BOOL" if it.kind == "bool" else "LINT", None, None
    return (it.names[place], "BOOL", None, None) if it.kind == "bool" else (it.names[place], "RANGE", *it.range)


def wanted_interface(model):
    held = [declared(it, 0) for it in model.location_variables() + model.variables()] + [declared(it, 1) for it in model.inputs()]
    return held, [declared(it, 0) for it in model.inputs()], [declared(it, len(it.names) - 1) for it in model.outputs()]
