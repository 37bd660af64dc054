"""Makes the invariants of random sources: what events need, what disables them, and what is to hold after each step.

A state invariant holds mostly in the initial state and reads mostly no input. Where faults are asked for, others do so.
"""
from random_definitions import EVENTS

HEADS = ["invariant", "invariant", "requirement invariant", "plant invariant", "supervisor invariant"]
KINDS = ["requirement", "requirement", "plant", "supervisor"]
# Of two numbers, of which the initial ones are mostly small.
BOUNDS = ["%s <= 3", "%s < 5", "%s >= 0", "%s != 2", "%s <= %s + 1", "%s + %s <= 4", "abs(%s - %s) <= 2", "%s * %s < 6"]


class InvariantMaker:
    """Makes invariants for whoever has scopes with names of events, chances and expressions."""

    def declare_invariants(self):
        for _ in range(self.choose.choice([1, 1, 2, 3])):
            scope = self.somewhere()
            scope.items.append(lambda scope=scope: self.invariants_of(scope.body))

    def invariants_of(self, body):
        """A declaration of one or two invariants."""
        has_word = self.maybe(0.7)
        found = [self.invariant(body) for _ in range(self.choose.choice([1, 1, 1, 2]))]
        if has_word:
            found = [self.choose.choice(["", "", "", "k: "]) + one for one in found]
        return "%s %s;" % (self.choose.choice(HEADS if has_word else KINDS), ", ".join(found))

    def invariant(self, body):
        events = [thing for thing in self.things(body) if thing.slot.sort in EVENTS]
        if not events or self.maybe(0.45):
            return self.kept(body)
        found = [self.event_name(body, self.choose.choice(events))[0] for _ in range(self.choose.choice([1, 1, 1, 2, 3]))]
        named = found[0] if len(found) == 1 and self.maybe(0.8) else "{%s}" % ", ".join(found)
        asked = self.conditions(body)[0] if self.has_data else self.somewhere_of(body)
        return "%s needs %s" % (named, asked) if self.maybe(0.5) else "%s disables %s" % (asked, named)

    def kept(self, body):
        """A predicate that is mostly true at first and reads mostly no input."""
        reads = self.inputs + self.algebraics + self.parameters if self.fails("reads") else []
        known = (reads or self.variables) + self.locations
        if self.fails("kept"):
            return self.truth(body, 1, known)
        numbers = [self.written_name(thing) for thing in self.things(body) if thing.slot in known and thing.slot.kind == "int"]
        if numbers and self.maybe(0.5 if reads else 0.6):
            bound = self.choose.choice(BOUNDS)
            return bound % tuple(self.choose.choice(numbers) for _ in range(bound.count("%s")))
        if reads or self.has_data and self.maybe(0.3):
            return self.truth(body, 2, known)
        return self.choose.choice(["not (%s and %s)", "%s or not %s", "%s => %s", "not (%s and not %s)"]) % (
            self.somewhere_of(body), self.somewhere_of(body))

    def somewhere_of(self, body):
        """A location, or not, or a truth."""
        found = self.named(body, "bool", self.locations)
        return self.choose.choice(["%s", "%s", "not %s"]) % found if found else self.choose.choice(["true", "true", "false"])
