"""The rules on types, kinds, constants and assignments of a source, and what its types and constants mean.

The kinds are boolean, integer, and an enumeration by the names of its literals (CIF 3 language reference, "Types"). Rules on kinds are
about bodies as written, values and ranges about components. A refusal is due at each place where a rule is broken.
"""
from collections import namedtuple

from plain_channels import NOTHING, carried, carried_by, of_uses, received, sent_asked
from plain_expressions import GREATEST, LEAST, Argument, Expr, branches_of, conjunction_of, evaluated, names_in
from plain_names import (
    ALG, ALG_PARAMETER, CONSTANT, DISC, EVENT_PARAMETER, INPUT, LITERAL, LOCATION, LOCATION_PARAMETER, denoted, found_from, found_slot)

# A type as written: `bool`, `int`, `range` with its two bounds, or `name` with its use.
Type = namedtuple("Type", "form more")
# Updates as written: the use of a variable and its value, or branches of conditions and updates, and the updates of `else`.
Set = namedtuple("Set", "target value")
If = namedtuple("If", "branches other")

INTEGERS = -2**31, 2**31 - 1
BOOL, INT = "bool", "int"
TRUTH_FORMS = ("truth", "not", "and", "or", "implies", "iff", "compare")


# ---- updates

def updates_in(updates):
    """The `Set`s of a list of updates, at any depth."""
    for update in updates:
        if isinstance(update, Set):
            yield update
            continue
        for _, inner in update.branches:
            yield from updates_in(inner)
        yield from updates_in(update.other)


def lists_in(updates):
    """A list of updates, and those in it."""
    yield updates
    for update in updates:
        if isinstance(update, If):
            for _, inner in update.branches:
                yield from lists_in(inner)
            yield from lists_in(update.other)


def conditions_in(updates):
    """For each branch in a list of updates, at any depth, its conditions."""
    for each in lists_in(updates):
        for update in each:
            if isinstance(update, If):
                yield from (conditions for conditions, _ in update.branches)


class Data:
    """The kinds of a source, and the rules on bodies as written; its rules on names are kept."""

    def __init__(self, source):
        self.source = source

    def slot(self, body, use):
        return found_slot(self.source.root, body, use.name)

    def place_of(self, body, use):
        """The slot that a name finds, and the instances that it passes."""
        through = []
        slot = found_slot(self.source.root, body, use.name, through=through)
        return (slot, *through)

    # ---- kinds

    def kind_of_type(self, body, type_):
        if type_.form != "name":
            return BOOL if type_.form == "bool" else INT
        slot = self.slot(body, type_.more)
        return tuple(slot.literals) if slot.literals else self.kind_of_type(slot.home, slot.type)

    def kind_of_slot(self, slot):
        if slot.sort == LITERAL:
            return tuple(slot.enum.literals)
        return BOOL if slot.sort in (LOCATION, LOCATION_PARAMETER) else self.kind_of_type(slot.home, slot.type)

    def kind(self, body, expr, given=NOTHING):
        """The kind of an expression, where `?` has the given one."""
        if expr.form == "name":
            return self.kind_of_slot(self.slot(body, expr.more))
        if expr.form == "received":
            return given
        if expr.form == "paren":
            return self.kind(body, expr.parts[0], given)
        if expr.form == "if":
            return self.kind(body, branches_of(expr)[0][1], given)
        return BOOL if expr.form in TRUTH_FORMS else INT

    def mismatches(self, body, expr, asked, given=NOTHING):
        """The places where an expression, or a part of it, has another kind than asked, and those of each `?` where nothing is received.
        Nothing is asked by None, and what has no kind is asked for none that it could have."""
        is_asked = asked is not None or expr.form == "received"
        kind = self.kind(body, expr, given) if is_asked else None
        if kind == NOTHING or asked not in (None, kind):
            yield expr.at
        for part, wanted in self.asked_parts(body, expr, given):
            yield from self.mismatches(body, part, wanted, given)

    def asked_parts(self, body, expr, given):
        """The operands of an expression, each with the kind that is asked of it."""
        if expr.form == "if":
            branches = branches_of(expr)
            for conditions, _ in branches:
                yield from ((condition, BOOL) for condition in conditions)
            values = [value for _, value in branches] + [expr.parts[-1]]
            yield from ((value, self.kind(body, values[0], given)) for value in values)
        elif expr.form == "compare" and expr.more in ("=", "!="):
            yield expr.parts[0], None
            yield expr.parts[1], self.kind(body, expr.parts[0], given)
        else:
            asked = None if expr.form == "paren" else BOOL if expr.form in ("not", "and", "or", "implies", "iff") else INT
            yield from ((part, asked) for part in expr.parts)

    def of_kinds(self):
        """9: all expressions of the source, with the kinds that their positions ask for."""
        for body, expr, asked in self.asked():
            yield from (("Mismatch", ("at", at)) for at in self.mismatches(body, expr, asked))
        for body, expr, asked, given in self.asked_of_updates():
            yield from (("Mismatch", ("at", at)) for at in self.mismatches(body, expr, asked, given))

    def asked(self):
        source = self.source
        for body, type_ in source.types:
            if type_.form == "range":
                yield from ((body, bound, INT) for bound in type_.more)
        for slot in source.valued:
            yield slot.home, slot.value, self.kind_of_type(slot.home, slot.type)
        yield from ((body, expr, BOOL) for body, expr in source.predicates)
        for body in source.bodies:
            yield from ((body, it.value, self.kind_of_slot(body.slot(it.name))) for it in body.definitions)
        for body, expr, parameter in self.arguments():
            yield body, expr, self.kind_of_slot(parameter) if parameter.sort == ALG_PARAMETER else None
        for automaton in source.automata:
            for edge in automaton.edges:
                yield from ((automaton.body, expr, BOOL) for expr in edge.guards)
                yield from ((automaton.body, expr, asked) for expr, asked in sent_asked(self, automaton.body, edge.use))

    def asked_of_updates(self):
        """What stands in updates, with the kind of `?` there."""
        for automaton in self.source.automata:
            for edge in automaton.edges:
                given = received(self, automaton.body, edge.together)
                yield from ((automaton.body, expr, BOOL, given) for exprs in conditions_in(edge.updates) for expr in exprs)
                for update in updates_in(edge.updates):
                    yield automaton.body, update.value, self.kind_of_slot(self.slot(automaton.body, update.target)), given

    # ---- arguments

    def arguments(self):
        """The arguments of all instances with the bodies in which they stand, and the slots of their parameters."""
        for body in self.source.bodies:
            for instance in body.instances:
                definition = found_slot(self.source.root, body, instance.definition, True)
                yield from ((body, expr, parameter) for expr, parameter in zip(instance.exprs, definition.body.slots))

    def of_arguments(self):
        """9: an event or a location is a bare name, and an event has the class that its parameter asks, and carries the same."""
        for body, expr, parameter in self.arguments():
            if parameter.sort != ALG_PARAMETER and (expr.form != "name" or self.is_other(body, expr.more, parameter)):
                yield ("Mismatch", ("at", expr.at))

    def is_other(self, body, use, parameter):
        """Whether an event is another one than the parameter asks for."""
        if parameter.sort != EVENT_PARAMETER:
            return False
        is_classless = parameter.word != "event" and self.slot(body, use).word != parameter.word
        return is_classless or carried(self, body, use) != carried_by(self, parameter)

    # ---- what may stand in constants, and what may be assigned

    def of_constants(self):
        """10: constants, bounds and first values name constants and literals alone."""
        exprs = [(body, bound) for body, type_ in self.source.types if type_.form == "range" for bound in type_.more]
        for body, expr in exprs + [(slot.home, slot.value) for slot in self.source.valued]:
            for use in names_in(expr):
                if self.slot(body, use).sort not in (CONSTANT, LITERAL):
                    yield ("NotConstant", ("at", use.at))

    def of_targets(self):
        """12: what is assigned is declared in the automaton, and no instance is passed."""
        for automaton in self.source.automata:
            for edge in automaton.edges:
                for update in updates_in(edge.updates):
                    slot, *through = self.place_of(automaton.body, update.target)
                    if slot.home is not automaton.body or through:
                        yield ("NotOwn", ("at", update.target.at))

    def of_twice(self):
        """13: no two updates of a list assign one variable."""
        for automaton in self.source.automata:
            for edge in automaton.edges:
                for updates in lists_in(edge.updates):
                    yield from self.twice_in(automaton.body, updates)

    def twice_in(self, body, updates):
        earlier = set()
        for update in updates:
            found = [(tuple(map(id, self.place_of(body, it.target))), it.target.at) for it in updates_in([update])]
            yield from (("AssignedTwice", ("at", at)) for place, at in found if place in earlier)
            earlier.update(place for place, _ in found)


class Values:
    """What types, constants and expressions mean in components. The rules on names and kinds are kept.

    `places` has what stands for a variable, an input or a location in a state, and the algebraic variables, by the frame and slot that
    declare them. What a constant or an argument is is found once.
    """

    def __init__(self, places=None):
        self.places, self.known, self.given = places or {}, {}, {}

    # ---- constants, and ranges

    def constant(self, frame, expr, meets=None):
        return evaluated(self.resolved(frame, expr), (), meets)

    def value_of(self, frame, slot):
        """The value of a constant or a literal."""
        if slot.sort == LITERAL:
            return slot.enum.literals.index(slot.name)
        if (frame, slot) not in self.known:
            self.known[frame, slot] = self.constant(frame, slot.value)
        return self.known[frame, slot]

    def range_of(self, frame, type_):
        if type_.form == "bool":
            return 0, 1
        if type_.form == "int":
            return INTEGERS
        if type_.form == "range":
            return tuple(self.constant(frame, bound) for bound in type_.more)
        home, slot = found_from(frame, type_.more.name)
        return (0, len(slot.literals) - 1) if slot.literals else self.range_of(home, slot.type)

    def is_faulty(self, frame, expr):
        """Whether a constant expression meets a divisor 0 or what leaves 64 bits."""
        met = []
        self.constant(frame, expr, met.append)
        return any(value is None or not LEAST <= value <= GREATEST for value in met)

    def of_ranges(self, frame):
        """18: constant expressions have values, bounds are in 32 bits and in order, and values are in their ranges."""
        for type_ in frame.body.types:
            if type_.form != "range":
                continue
            lo, hi = self.range_of(frame, type_)
            for bound, value in zip(type_.more, (lo, hi)):
                if self.is_faulty(frame, bound) or not INTEGERS[0] <= value <= INTEGERS[1]:
                    yield ("ConstantRange", ("at", bound.at))
            if lo > hi:
                yield ("ConstantRange", ("at", type_.more[0].at))
        for slot in frame.body.valued:
            lo, hi = self.range_of(frame, slot.type)
            if self.is_faulty(frame, slot.value) or not lo <= self.constant(frame, slot.value) <= hi:
                yield ("ConstantRange", ("at", slot.value.at))

    def first_value(self, frame, slot):
        lo, hi = self.range_of(frame, slot.type)
        return min(max(lo, 0), hi) if slot.value is None else self.constant(frame, slot.value)

    # ---- expressions of a net

    def resolved(self, frame, expr):
        """The expression without names and parentheses."""
        if expr.form == "paren":
            return self.resolved(frame, expr.parts[0])._replace(at=expr.at)
        if expr.form == "name":
            return self.named(denoted(frame, expr.more.name), expr.at)
        if expr.form == "if":
            parts = []
            for conditions, value in branches_of(expr):
                parts += [self.conjunction(frame, conditions), self.resolved(frame, value)]
            return Expr("if", tuple(parts + [self.resolved(frame, expr.parts[-1])]), None, expr.at)
        form = "number" if expr.form == "truth" else expr.form
        return Expr(form, tuple(self.resolved(frame, part) for part in expr.parts), expr.more, expr.at)

    def named(self, found, at):
        """What a name stands for: an argument, and what is passed on as one, keeps its own place."""
        at = at if found.at is None else found.at
        if found.argument:
            argument = self.argument(found.frame, found.argument)
            return Expr("given", (), argument, argument.values[0].at)
        if found.slot.sort in (CONSTANT, LITERAL):
            return Expr("number", (), self.value_of(found.frame, found.slot), at)
        form = {DISC: "var", INPUT: "var", ALG: "alg", LOCATION: "place"}[found.slot.sort]
        return Expr(form, (), self.places[found.frame, found.slot], at)

    def argument(self, frame, expr):
        """The argument that a component gave, one for all uses of its parameters."""
        if (frame, expr.at) not in self.given:
            self.given[frame, expr.at] = Argument(self.resolved(frame, expr))
        return self.given[frame, expr.at]

    def conjunction(self, frame, exprs):
        return conjunction_of([self.resolved(frame, expr) for expr in exprs])

    def resolved_updates(self, frame, updates):
        """The updates of a net: the place of a variable and its value, or one condition for each branch."""
        found = []
        for update in updates:
            if isinstance(update, Set):
                target = denoted(frame, update.target.name)
                found.append(Set(self.places[target.frame, target.slot], self.resolved(frame, update.value)))
                continue
            branches = [(self.conjunction(frame, conditions), self.resolved_updates(frame, inner)) for conditions, inner in update.branches]
            found.append(If(branches, self.resolved_updates(frame, update.other)))
        return found


def exprs_of(updates):
    """The conditions and right sides of updates of a net, at any depth."""
    for update in updates:
        if isinstance(update, Set):
            yield update.value
            continue
        for condition, inner in update.branches:
            yield condition
            yield from exprs_of(inner)
        yield from exprs_of(update.other)


def assigned(updates, state):
    """What updates of a net assign in a state: places and values."""
    for update in updates:
        if isinstance(update, Set):
            yield update.target, evaluated(update.value, state)
        else:
            taken = next((inner for condition, inner in update.branches if evaluated(condition, state)), update.other)
            yield from assigned(taken, state)


def kinds_due(data):
    for rule in (data.of_kinds, data.of_arguments, data.of_constants, data.of_targets, data.of_twice):
        yield from rule()
    yield from of_uses(data)
