"""`wrap`: a MAIN with stable names that calls the program of a source, as text for Codesys or TwinCAT, or as PLCopen XML with the program.

The names are those of paths, which stay when an automaton is added before. An input has its own name. A location is a BOOL with the
path of the automaton and the location, and so is a literal; other values have the path of their variable. Tried with no vendor.
"""
import re
from collections import namedtuple

from bench.models import NAMELESS, load_classed
from bench.plcopen import as_xml
from bench.programs import Written

# Words that are no names, as they are or behind END_.
RESERVED = set("""abs action and any array at bool by byte case char class configuration constant continue cos date date_and_time dint do dt dword else
    elsif exit exp extends false final for from function function_block if implements in int interface internal ld ldate ldt limit lint ln
    log lreal lt ltime ltod lword main max method min mod namespace not null of on or overlap override persistent pointer private program
    protected public r_edge real ref ref_to repeat resource retain return scan sel sin sint sqrt step string struct super tan task then
    this time time_of_day to tod transition true trunc type udint uint ulint until using usint var var_access var_config var_external
    var_global var_in_out var_input var_output var_temp wchar while with word wstring xor cifscan gvl""".split())
GLOBALS = "GVL"

# A variable of MAIN: its name, type, what it is, and the parameter of the program. Of an input also what is given to that, and of an output
# what it is assigned, in which `{}` is the program.
Bound = namedtuple("Bound", "name type what parameter value")


class Frame:
    """The inputs and outputs of MAIN for a source."""

    def __init__(self, model):
        self.model, self.used = model, set()
        self.inputs = [self.input(it) for it in model.inputs()]
        self.outputs = [bound for it in model.outputs() for bound in self.output(it)]

    def name(self, path):
        """A name for a path, another one for each. A number is added where two are alike but for signs and the case of letters."""
        found = re.sub("[^A-Za-z0-9]+", "_", path).strip("_") or "x"
        is_reserved = found.lower().removeprefix("end_") in RESERVED
        found = "x_" + found if is_reserved or found[0].isdigit() else found
        number, name = 1, found
        while name.lower() in self.used:
            number += 1
            name = f"{found}_{number}"
        self.used.add(name.lower())
        return name

    def input(self, it):
        name, value = self.name(it.path), "{}"
        if it.kind != "bool":
            value = "LIMIT(%d, {}, %d)" % it.range
        numbers = ", ".join(f"{number} {literal}" for number, literal in enumerate(it.literals)) if it.literals else ""
        what = f"{it.path}: {numbers}" if numbers else it.path if it.kind == "bool" else f"{it.path}: {it.range[0]} to {it.range[1]}"
        return Bound(name, "BOOL" if it.kind == "bool" else "LINT", what, it.names[0], value)

    def output(self, it):
        """A BOOL for each location or literal, or the value. Of an automaton with one location nothing is shown."""
        parameter = it.names[-1]
        if it.literals is None:
            yield Bound(self.name(it.path), "BOOL" if it.kind == "bool" else "LINT", it.path, parameter, "{}." + parameter)
            return
        for number, literal in enumerate(it.literals):
            if literal != NAMELESS:
                what = f"{it.path} is {'at ' if it.kind == 'location' else ''}{literal}"
                yield Bound(self.name(f"{it.path}.{literal}"), "BOOL", what, parameter, f"{{}}.{parameter} = {number}")

    def call(self, instance, scope):
        """The statements of MAIN."""
        given = [f"{it.parameter} := {it.value.format(scope + it.name)}" for it in self.inputs]
        yield f"{instance}({''.join(given)});" if len(given) < 2 else f"{instance}(" + ",".join("\n  " + it for it in given) + ");"
        for it in self.outputs:
            yield f"{scope}{it.name} := {it.value.format(instance)};"


def comment(text):
    return f"(* {text} *)"


def declaration(it, address):
    return f"  {it.name}{address}: {it.type}; {comment(it.what)}"


def as_text(frame, vendor):
    """Two texts in one: a list of global variables, and MAIN."""
    is_linked = vendor == "TwinCAT"
    yield comment(f"For {vendor}, and tried with no vendor. The program CifScan is that of cif generate; what is proved is of its text.")
    yield comment(f"A list of global variables with the name {GLOBALS}. The addresses, or the links, are those of the machine.")
    yield "{attribute 'qualified_only'}"
    yield "VAR_GLOBAL"
    for it in frame.inputs:
        yield declaration(it, " AT %I*" if is_linked else "")
    for it in frame.outputs:
        yield declaration(it, " AT %Q*" if is_linked and it.parameter.startswith("R") else "")
    yield "END_VAR"
    yield ""
    yield comment("A program, called in each cycle of one task.")
    yield "PROGRAM MAIN"
    yield from frame.call("CifScan", GLOBALS + ".")
    yield "END_PROGRAM"


VENDORS = {"": "Codesys", "--codesys": "Codesys", "--twincat": "TwinCAT"}


def run(file, option, program):
    """The answer to `wrap FILE [--codesys | --twincat | --plcopen ST]`."""
    model = load_classed(file)
    frame = Frame(model)
    if option == "--plcopen":
        return as_xml(frame, Written(model, program))
    return "\n".join(as_text(frame, VENDORS[option])) + "\n"
