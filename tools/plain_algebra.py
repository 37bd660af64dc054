"""The rules on the definitions of algebraic variables, and the order in which these need one another.

An algebraic variable has one definition: the value of its declaration or an equation of its component, or an equation in each location
of its automaton (CIF 3 language reference, "Algebraic variables"). That is about bodies as written; which variables need one another
is about components, where a parameter is its argument.
"""
from collections import Counter, namedtuple

from plain_names import ALG, cyclic

# A definition of the algebraic variable of that name in the same body: its expression, and the number of the location in which the
# equation stands, or None.
Definition = namedtuple("Definition", "name place value")


def of_equations(source):
    """16: each algebraic variable has one definition, in an automaton one for each location."""
    for body in source.bodies:
        counts = Counter((it.name, it.place) for it in body.definitions)
        places = range(len(body.automaton.places)) if body.automaton else [None]
        for slot in body.slots:
            if slot.sort == ALG:
                own = counts[slot.name, None]
                found = {own + (0 if place is None else counts[slot.name, place]) for place in places}
                yield from (("Equations", ("at", slot.at), ("count", count)) for count in found if count != 1)


def definitions_of(body):
    """The definitions of a body by the names of its algebraic variables, those by location in the order of the locations."""
    found = {}
    for it in sorted(body.definitions, key=lambda it: -1 if it.place is None else it.place):
        found.setdefault(it.name, []).append(it)
    return found


def named_in(expr):
    """The algebraic variables that an expression of a net names, in arguments too."""
    if expr.form == "alg":
        return {expr.more}
    if expr.form == "given":
        return expr.more.told("named", lambda: named_in(expr.more.values[0]))
    return set().union(*map(named_in, expr.parts))


def needs_of(variable):
    return variable.told("needs", lambda: set().union(*map(named_in, variable.values)))


def in_order(variables):
    """The variables that need none which needs itself, each after those that it needs."""
    waiting = {it: len(needs_of(it)) for it in variables}
    needed_by = {it: [] for it in variables}
    for one in variables:
        for other in needs_of(one):
            needed_by[other].append(one)
    found = [it for it in variables if not waiting[it]]
    for one in found:
        for other in needed_by[one]:
            waiting[other] -= 1
            if not waiting[other]:
                found.append(other)
    return found


def of_cycles(variables, ordered):
    """19: the first variable that needs itself, where some does; those that are in order do not."""
    left = set(variables) - set(ordered)
    first = next(cyclic([it for it in variables if it in left], lambda it: list(needs_of(it) & left)), None)
    return set() if first is None else {("AlgCycle", ("alg", first.path))}
