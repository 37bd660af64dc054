"""The invariants of sources, and the rules on state invariants (CIF 3 language reference, "Invariants").

`needs` and `disables` speak of each event that they name, before a step of it; a state invariant is to hold after each step. In a net
the predicate of an exclusion counts once for each event that is named.
"""
from collections import namedtuple

from plain_expressions import evaluated

# An invariant as written: its form, the uses of its events, none for a state invariant, and its predicate.
Invariant = namedtuple("Invariant", "form events predicate")
ALWAYS, NEEDS, DISABLES = "always", "needs", "disables"
# A predicate of a net with its place in the text, and for an exclusion whether the event needs it.
Predicate = namedtuple("Predicate", "expr at is_needed")


def count_of(invariant):
    """How many objects an invariant is: an exclusion is one for each event that it names."""
    return 1 if invariant.form == ALWAYS else len(invariant.events)


def permits(exclusions, state):
    """Whether what an event needs is so in a state, and nothing that disables it."""
    return all(evaluated(it.expr, state) == it.is_needed for it in exclusions)


def are_kept(invariants, state):
    return all(evaluated(it.expr, state) == 1 for it in invariants)


def reads_from(expr, first):
    """Whether an expression of a net reads a place of the states from the first one on, through arguments and definitions too."""
    if expr.form in ("given", "alg"):
        return expr.more.told(("reads", first), lambda: any(reads_from(it, first) for it in expr.more.values))
    return expr.form == "var" and expr.more >= first or any(reads_from(part, first) for part in expr.parts)


def of_state_invariants(invariants, first_input, initial):
    """22: a state invariant reads no input; 23: another one holds in the initial state."""
    for it in invariants:
        if reads_from(it.expr, first_input):
            yield ("InvariantReadsInput", ("at", it.at))
        elif evaluated(it.expr, initial) != 1:
            yield ("InvariantFalse", ("at", it.at))
