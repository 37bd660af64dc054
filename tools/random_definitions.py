"""Makes the definitions of random sources, with their parameters, and the instances with their arguments.

Definitions stand in groups and in one another, instances before and after them and in others. An argument is mostly what its
parameter asks for: an event of its class, a location, or an expression over what may be named where the instance stands, the
parameters of the definition round it and what stands in instances among that. Where faults are asked for, what breaks one rule
stands here and there.
"""
from collections import namedtuple

from plain_names import (
    ALG_PARAMETER, DEFINITION, EVENT, EVENT_PARAMETER, INSTANCE, LOCATION, LOCATION_PARAMETER, Instance, Slot)

# A type: what writes it in a body, its kind, and whole numbers that it surely has, or None.
Chosen = namedtuple("Chosen", "write kind sure")
# What a name finds: a slot, the instances that are passed, and all names that find it so.
Thing = namedtuple("Thing", "slot through names")
EVENTS, LOCATIONS = (EVENT, EVENT_PARAMETER), (LOCATION, LOCATION_PARAMETER)
CLASSES = ["controllable", "uncontrollable"]
MOST_COMPONENTS = 12
TRUTH = Chosen(lambda body: "bool", "bool", None)


class Unreached(Exception):
    """What is wanted cannot be named where it is wanted."""


class DefinitionMaker:
    """Makes definitions and instances for whoever has scopes, chances, fresh names, values, and the things that names find."""

    def declare_definitions(self):
        for _ in range(self.choose.choice([1, 1, 2, 2, 3])):
            inner = [scope for scope in self.groups if scope.is_definition]
            outer = self.choose.choice(inner if inner and self.maybe(0.4) else self.groups + [self.root])
            scope = self.scope(self.maybe(0.55), outer, True)
            self.definitions.append(scope)
            if not scope.is_automaton:
                self.scope(True, scope)

    # ---- instances

    def declare_instances(self):
        """Instances of definitions that may be named where they stand; no definition is to reach itself."""
        for definition in self.definitions:
            self.declare_instance(definition, definition.outer if self.maybe(0.5) else None)
        for _ in range(self.choose.choice([0, 1, 1, 2, 3])):
            self.declare_instance(self.choose.choice(self.definitions), None)
        if self.fails("cycle"):
            definition = self.choose.choice(self.definitions)
            inner = [scope for scope in self.groups if definition in around(scope)]
            if inner:
                self.add_instance(definition, self.choose.choice(inner))

    def declare_instance(self, definition, scope):
        scopes = [it for it in self.groups if is_within(it, definition.outer.definition) and not reaches(self, definition, it.definition)]
        if not scopes:
            return
        if scope not in scopes:
            inner = [it for it in scopes if it.definition is not None]
            scope = self.choose.choice(inner if inner and self.maybe(0.6) else scopes)
        slot = self.add_instance(definition, scope)
        if self.components_in(self.root) > MOST_COMPONENTS:
            scope.body.slots.remove(slot)
            scope.items.remove(slot)
            self.instances.remove((scope, slot))

    def add_instance(self, definition, scope):
        slot = self.declared(scope, INSTANCE)
        slot.instance = Instance(scope.body, slot.name, 0, None, [])
        slot.instance.scope = definition
        scope.items.append(slot)
        self.instances.append((scope, slot))
        return slot

    def components_in(self, scope):
        inner = [item for item in scope.items if not isinstance(item, Slot) and not item.is_definition]
        inner += [item.instance.scope for item in scope.items if isinstance(item, Slot) and item.sort == INSTANCE]
        return 1 + sum(map(self.components_in, inner))

    def name_definitions(self):
        """Names for the definitions of all instances, when all is declared that may stand before them."""
        for scope, slot in self.instances:
            found = [thing for thing in self.things(scope.body) if thing.slot is slot.instance.scope.slot and not thing.through]
            if not found:
                raise Unreached
            slot.instance.definition = self.choose.choice(found[0].names)

    # ---- parameters

    def declare_parameters(self):
        """Those of each definition, and for each class that they ask an event that all may name."""
        for scope in self.definitions:
            slots = []
            for _ in range(self.choose.choice([0, 1, 2, 2, 3, 3])):
                slots.append(self.parameter(scope, self.choose.choice([EVENT_PARAMETER] * 3 + self.other_sorts())))
            scope.body.slots = slots + [slot for slot in scope.body.slots if slot not in slots]
            scope.body.parameters = [slot.sort for slot in slots]

    def other_sorts(self):
        is_found = any(slot.scope.definition is None for slot in self.locations)
        return [ALG_PARAMETER] * (4 if self.has_data else 1) + [LOCATION_PARAMETER] * (2 if is_found else 0)

    def parameter(self, scope, sort):
        slot = self.declared(scope, sort, "bool")
        slot.word, slot.chosen = "location", None
        if sort == EVENT_PARAMETER:
            slot.word, slot.channel = self.choose.choice(CLASSES + ["event"]), None
            if "channel" in self.forms and self.maybe(0.5):
                self.channel_of_parameter(scope, slot)
            word = self.choose.choice(CLASSES) if slot.word == "event" else slot.word
            if not any(fits(event, slot) and event.scope is self.root for event in self.events):
                self.event(self.root, word)
        elif sort == ALG_PARAMETER:
            slot.word, slot.chosen = "alg", TRUTH if self.maybe(0.4) else self.some_type(scope)
            slot.kind = slot.chosen.kind
        if sort != EVENT_PARAMETER:
            self.parameters.append(slot)
        return slot

    def parameters_of(self, scope):
        """The parameters as they are written, those of one sort sometimes together."""
        text, last = "", None
        for slot in scope.body.slots[:len(scope.body.parameters)]:
            chosen = slot.channel if slot.sort == EVENT_PARAMETER else slot.chosen
            if last and (slot.word, chosen) == last and self.maybe(0.5):
                text += ", "
            else:
                type_ = chosen.write(scope.body) + " " if chosen else ""
                text += ("; " if last else "") + slot.word + " " + type_
            text += self.spelled([slot.name])
            last = slot.word, chosen
        return text

    # ---- arguments

    def instance(self, scope, slot):
        definition, name = slot.instance.scope, slot.instance.definition
        arguments = [self.argument(scope.body, it) for it in definition.body.slots[:len(definition.body.parameters)]]
        if self.fails("count"):
            arguments = arguments[1:] if arguments and self.maybe(0.5) else arguments + [self.any_argument(scope.body)]
        if self.fails("name"):
            name = self.odd_name()
        return "%s: %s(%s); " % (self.spelled([slot.name]), self.spelled(name), ", ".join(arguments))

    def argument(self, body, parameter):
        if self.fails("argument"):
            return self.any_argument(body)
        if self.fails("unfit"):
            return self.unfit_argument(body, parameter)
        if self.fails("name"):
            return self.spelled(self.odd_name())
        if parameter.sort == ALG_PARAMETER:
            known = self.parameters if self.maybe(0.5) else self.everything()
            found = self.named(body, parameter.kind, known) if self.maybe(0.7) else None
            return found or self.value(body, parameter.kind, self.choose.choice([0, 1, 1, 2]), self.everything())
        sorts = EVENTS if parameter.sort == EVENT_PARAMETER else LOCATIONS
        found = [thing for thing in self.things(body) if thing.slot.sort in sorts and fits(thing.slot, parameter)]
        if not found:
            raise Unreached
        own = [thing for thing in found if thing.slot.sort in (EVENT_PARAMETER, LOCATION_PARAMETER)]
        return self.written_name(self.choose.choice(own if own and self.maybe(0.6) else found))

    def any_argument(self, body):
        """An argument of any sort."""
        things = [thing for thing in self.things(body) if thing.slot.sort != DEFINITION]
        events = [thing for thing in things if thing.slot.sort in EVENTS]
        kinds = ["bool", "int"] + self.member_kinds(body)
        forms = [lambda: self.value(body, self.choose.choice(kinds), self.choose.choice([0, 1, 2]), self.everything()),
                 lambda: self.written_name(self.choose.choice(events or things)), lambda: self.written_name(self.choose.choice(things)),
                 lambda: "(%s)" % self.written_name(self.choose.choice(things))]
        return self.choose.choice(forms)()


    def unfit_argument(self, body, parameter):
        """A value of another kind, or what is no bare name, or an event of any class."""
        events = [thing for thing in self.things(body) if thing.slot.sort in EVENTS]
        if parameter.sort == EVENT_PARAMETER and events and self.maybe(0.7):
            return self.written_name(self.choose.choice(events))
        kinds = [kind for kind in ["bool", "int"] + self.member_kinds(body) if kind != parameter.kind]
        return "(%s)" % self.value(body, self.choose.choice(kinds), 1, self.everything())


def carried_by(slot):
    """What is sent along an event: None where it is no channel or no event, and else a kind, which is VOID without a value."""
    return slot.channel.kind if slot.sort in EVENTS and slot.channel else None


def fits(slot, parameter):
    """Whether an event has the class of an event parameter, and carries the same."""
    return parameter.sort != EVENT_PARAMETER or parameter.word in ("event", slot.word) and carried_by(slot) == carried_by(parameter)


def around(scope):
    """The scope and those round it."""
    while scope is not None:
        yield scope
        scope = scope.outer


def is_within(scope, definition):
    """Whether a scope stands in the definition, or there is none."""
    return definition is None or definition in around(scope)


def reaches(maker, start, end):
    """Whether a definition reaches another one, or is it."""
    seen, left = set(), [start]
    while left:
        one = left.pop()
        if one not in seen:
            seen.add(one)
            left += [slot.instance.scope for scope, slot in maker.instances if scope.definition is one]
    return end in seen
