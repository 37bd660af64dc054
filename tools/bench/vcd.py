"""A table as a VCD file (IEEE 1364, "Value change dump"), for GTKWave and other viewers.

A scan takes one unit of time and begins at its number; the file ends where the last scan does. Over several cases time goes on, and two
variables more have the number of the case and that of the scan in it. Names of locations and literals are strings, which are an extension of
GTKWave. Paths are scopes.
"""
from bench.models import Held
from bench.tables import Signal, shown

WIDTH = 64
TYPES = {"bool": "wire 1", "int": f"integer {WIDTH}"}


def identifier(number):
    """A code of printable characters, another for each number."""
    code = chr(33 + number % 94)
    while number >= 94:
        number = number // 94 - 1
        code += chr(33 + number % 94)
    return code


def tree_of(signals):
    """The signals by their paths: in a scope, the ends of its signals, and the scopes in it."""
    root = ([], {})
    for number, signal in enumerate(signals):
        *scopes, name = signal.held.path.split(".")
        at = root
        for scope in scopes:
            at = at[1].setdefault(scope, ([], {}))
        at[0].append((name, number, signal))
    return root


def declarations(tree):
    variables, scopes = tree
    for name, number, signal in variables:
        yield f"$var {TYPES.get(signal.held.kind, 'string 1')} {identifier(number)} {name} $end"
    for name, inner in scopes.items():
        yield f"$scope module {name} $end"
        yield from declarations(inner)
        yield "$upscope $end"


def change(number, signal, value):
    """The line of a value."""
    if signal.held.kind == "bool":
        return f"{value}{identifier(number)}"
    if signal.held.kind == "int":
        return f"b{value % 2**WIDTH:b} {identifier(number)}"
    return f"s{shown(signal.held, value)} {identifier(number)}"


def counter(name, values, signals):
    """A number that the source has not. Behind its name stands `_` where the source has that too."""
    taken = {it.held.path.partition(".")[0] for it in signals}
    while name in taken:
        name += "_"
    return Signal(Held("", (), name, "int", None, None, None), False, values)


def with_counters(table):
    """The signals, and before them, where there are several cases, the number of the case and that of the scan."""
    if len(table.cases) < 2:
        return table.signals
    cases = [case for case, (begin, end) in enumerate(table.cases, 1) for _ in range(begin, end)]
    return [counter("case", cases, table.signals), counter("scan", table.scans, table.signals)] + table.signals


def lines_of(table, name):
    signals = with_counters(table)
    cases = f"{len(table.cases)} cases of " if len(table.cases) > 1 else ""
    yield f"$comment scans of {cases}{name}: one takes one unit of time $end"
    yield "$timescale 1 ms $end"
    yield f"$scope module {name} $end"
    yield from declarations(tree_of(signals))
    yield "$upscope $end"
    yield "$enddefinitions $end"
    for place in range(len(table.scans)):
        yield f"#{table.scans[0] + place}"
        for number, signal in enumerate(signals):
            value = signal.values[place]
            if place == 0 or value != signal.values[place - 1]:
                yield change(number, signal, value)
    if table.scans:
        yield f"#{table.scans[0] + len(table.scans)}"


def as_vcd(table, name):
    return "\n".join(lines_of(table, name)) + "\n"
