"""Looks names up in the scopes of a source, and judges the rules on names: plain, slow, and sharing nothing with the program.

A name is looked up in the scope where it stands and outward, each later part in the body of what the part before it finds (CIF 3
language reference, "Scoping"). Whoever reads or writes a source makes its bodies, with what each declares and what each use of a
name asks for. The rules are about bodies as written; what a name denotes is told from a component, which may be an instance. A
refusal is its name and then its fields, as pairs.
"""
from collections import namedtuple


# The sorts of what a scope declares, as what they are when a position asks for them.
EVENT, TYPE, CONSTANT, ALG, INPUT, DISC, LITERAL, LOCATION = "event type constant alg input disc literal location".split()
COMPONENT, DEFINITION, INSTANCE = "component definition instance".split()
EVENT_PARAMETER, ALG_PARAMETER, LOCATION_PARAMETER = "event parameter", "alg parameter", "location parameter"

PARAMETERS = {EVENT_PARAMETER, ALG_PARAMETER, LOCATION_PARAMETER}
VALUES = {CONSTANT, ALG, INPUT, DISC, LITERAL, LOCATION, ALG_PARAMETER, LOCATION_PARAMETER}
ASKED = {
    "event": {EVENT, EVENT_PARAMETER},
    "location": {LOCATION, LOCATION_PARAMETER},
    "type": {TYPE},
    "definition": {DEFINITION},
    "variable": {DISC},
    "value": VALUES,
}


class Slot:
    """What a scope declares: its name, where that stands, its sort, and the body or instance that it brings."""

    def __init__(self, name, at, sort, body=None, instance=None):
        self.name, self.at, self.sort, self.body, self.instance = name, at, sort, body, instance
        # the names in the type and value of a type or a constant
        self.names = []


class Body:
    """A body as written: its slots in the order of the text, and the uses of names in it as (name, at, what is asked)."""

    def __init__(self, outer, is_automaton=False):
        self.outer, self.is_automaton, self.slots, self.uses, self.own = outer, is_automaton, [], [], []
        self.parameters = []
        self.instances = []
        # the bodies of components in it, without those of definitions
        self.inner = []
        self.index = None

    def is_whole(self):
        """Notes where the slots of each name are, of which none is added from here on."""
        self.index = {}
        for number, slot in enumerate(self.slots):
            self.index.setdefault(slot.name, []).append(number)

    def slot(self, name, from_=0):
        """The first slot of that name, or none."""
        if self.index is not None:
            return next((self.slots[number] for number in self.index.get(name, ()) if number >= from_), None)
        return next((slot for slot in self.slots[from_:] if slot.name == name), None)


class Instance:
    """An instance as written. Each argument is a name, its place, and whether it is a bare one; the name is None where those in the
    argument are uses of its body. `exprs` has the arguments as expressions, where these are read."""

    def __init__(self, body, name, at, definition, arguments):
        self.body, self.name, self.at, self.definition, self.arguments = body, name, at, definition, arguments
        self.exprs = []


def written(name):
    return ("." if name[0] is None else "") + ".".join(part for part in name if part is not None)


# ---- looking names up

MISSING, BLOCKED = "missing", "blocked"


def in_body(body, part):
    """What a body declares as that part, its parameters left out."""
    return body.slot(part, len(body.parameters)) or MISSING


def behind(root, slot, part, through):
    """One further part behind what was found, through instances where `through` is a list of those passed."""
    if slot.sort == COMPONENT:
        return in_body(slot.body, part)
    if slot.sort == INSTANCE and through is not None:
        through.append(slot)
        found = found_slot(root, slot.instance.body, slot.instance.definition, True)
        return in_body(found.body, part) if isinstance(found, Slot) and found.sort == DEFINITION else MISSING
    return BLOCKED


def found_slot(root, body, name, as_written=False, through=None):
    """The slot that a name denotes, MISSING or BLOCKED; a definition is not reached through an instance."""
    through = None if as_written else ([] if through is None else through)
    if name[0] is None:
        body, name = root, name[1:]
        found = body.slot(name[0]) or MISSING
    else:
        while body.outer is not None and not body.slot(name[0]):
            body = body.outer
        found = body.slot(name[0]) or MISSING
    for part in name[1:]:
        if not isinstance(found, Slot):
            break
        found = behind(root, found, part, through)
    return found


# ---- the rules on names

def uses_of(root, body):
    """All uses in a body, with those of its instances' arguments, which ask for what the parameters are."""
    uses = list(body.uses)
    for instance in body.instances:
        found = found_slot(root, body, instance.definition, True)
        parameters = found.body.parameters if isinstance(found, Slot) and found.sort == DEFINITION else []
        for k, (name, at, is_bare) in enumerate(instance.arguments):
            sort = parameters[k] if k < len(parameters) else None
            asked = "any" if sort is None else {EVENT_PARAMETER: "event", LOCATION_PARAMETER: "location"}.get(sort, "value")
            if name is not None:
                uses.append((name, at, asked if is_bare else "value"))
    return uses


def judged(root, body, use):
    """The refusal of one use of a name, or none."""
    name, at, asked = use
    found = found_slot(root, body, name)
    if asked == "definition" and found != MISSING:
        found = found_slot(root, body, name, True)
    if found == MISSING:
        return ("Unknown", ("at", at))
    if found == BLOCKED or asked != "any" and found.sort not in ASKED[asked]:
        return ("WrongKind", ("at", at))
    return None


def of_scope(body):
    earlier = {}
    for slot in body.slots:
        for first in earlier.setdefault(slot.name, []):
            yield ("Duplicate", ("at", slot.at), ("first", first.at))
        earlier[slot.name].append(slot)


def of_own(body):
    for name, at, asked in body.own:
        slot = body.slot(name)
        if slot is None:
            yield ("Unknown", ("at", at))
        elif slot.sort != asked:
            yield ("WrongKind", ("at", at))


def of_counts(root, body):
    for instance in body.instances:
        found = found_slot(root, body, instance.definition, True)
        if isinstance(found, Slot) and found.sort == DEFINITION and len(found.body.parameters) != len(instance.arguments):
            yield ("WrongKind", ("at", instance.at))


def instances_within(body):
    for instance in body.instances:
        yield instance
    for inner in body.inner:
        yield from instances_within(inner)


def cyclic(starts, reached):
    """Those that reach themselves."""
    known = {}

    def next_of(one):
        if id(one) not in known:
            known[id(one)] = reached(one)
        return known[id(one)]
    for start in starts:
        seen, left = set(), list(next_of(start))
        while left:
            one = left.pop()
            if id(one) not in seen:
                seen.add(id(one))
                left += next_of(one)
        if id(start) in seen:
            yield start


def of_cycles(root, bodies):
    home = {id(slot): body for body in bodies for slot in body.slots}
    slots = [slot for body in bodies for slot in body.slots]

    def definitions(slot):
        if slot.sort != DEFINITION:
            return []
        found = [found_slot(root, one.body, one.definition, True) for one in instances_within(slot.body)]
        return [one for one in found if isinstance(one, Slot)]

    def types(slot):
        found = [found_slot(root, home[id(slot)], name) for name, _, _ in slot.names]
        return [one for one in found if isinstance(one, Slot)]

    for slot in list(cyclic(slots, definitions)) + list(cyclic(slots, types)):
        yield ("DefinitionCycle", ("at", slot.at))


def due(root, bodies):
    """The refusals of the rules on names."""
    found = set(of_cycles(root, bodies))
    for body in bodies:
        found.update(of_scope(body), of_own(body), of_counts(root, body))
        found.update(told for told in (judged(root, body, use) for use in uses_of(root, body)) if told)
    return found


# ---- components

class Frame:
    """A component: its body, the frame in which the body is written, and the frame and slot where it stands. For an instance the body
    is that of its definition, which may be written elsewhere, and the arguments are read where it stands."""

    def __init__(self, body, outer=None, giver=None, slot=None):
        self.body, self.outer, self.giver, self.slot, self.children = body, outer, giver, slot, {}
        self.root = giver.root if giver else self

    def child(self, slot):
        """The component or instance of that slot."""
        if id(slot) not in self.children:
            outer, body = (self, slot.body) if slot.sort == COMPONENT else definition_from(self, slot.instance.definition)
            self.children[id(slot)] = Frame(body, outer, self, slot)
        return self.children[id(slot)]

    def inner(self):
        """What stands in it, in the order of the text."""
        return [self.child(slot) for slot in self.body.slots if slot.sort in (COMPONENT, INSTANCE)]

    def path(self):
        parts, frame = [], self
        while frame.giver:
            parts.append(frame.slot.name)
            frame = frame.giver
        return tuple(reversed(parts))

    def argument(self, slot):
        """The argument of an instance for the parameter of that slot."""
        return self.slot.instance.exprs[self.body.slots.index(slot)]


# What a name denotes: a slot and the frame that declares it, or an argument of an `alg` parameter and the frame that gave it. The
# place is that of the last such argument that was followed, or None.
Denoted = namedtuple("Denoted", "frame slot argument at")


def found_from(frame, name):
    """The frame and slot that a name finds from a frame, where the rules on names are kept."""
    if name[0] is None:
        frame, name = frame.root, name[1:]
    else:
        while not frame.body.slot(name[0]):
            frame = frame.outer
    slot = frame.body.slot(name[0])
    for part in name[1:]:
        frame = frame.child(slot)
        slot = in_body(frame.body, part)
    return frame, slot


def definition_from(frame, name):
    """The frame in which a definition is written, and its body."""
    outer, slot = found_from(frame, name)
    return outer, slot.body


def denoted(frame, name):
    """What a name denotes from a frame: a parameter is its argument, which is read in the frame where the instance stands."""
    (found, slot), at = found_from(frame, name), None
    while slot.sort in PARAMETERS:
        argument = found.argument(slot)
        if slot.sort == ALG_PARAMETER:
            at = argument.at
        if argument.form != "name":
            return Denoted(found.giver, None, argument, at)
        found, slot = found_from(found.giver, argument.more.name)
    return Denoted(found, slot, None, at)
