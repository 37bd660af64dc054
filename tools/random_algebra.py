"""Makes the inputs and algebraic variables of random sources, with the definitions of these.

An algebraic variable is defined where it is declared, by an equation of its component, or by one in each location of its automaton. A
definition names mostly variables that were made before, so that chains arise and few need themselves: an argument may lead back. Where
faults are asked for, one has no definition or several.
"""
from plain_names import ALG, INPUT


class AlgebraMaker:
    """Makes them for whoever has groups and automata, chances, fresh names, types, and expressions of a kind."""

    def declare_inputs(self):
        for _ in range(self.choose.choice([1, 1, 2, 3])):
            scope = self.somewhere()
            chosen = self.some_type(scope)
            slots = [self.declared(scope, INPUT, chosen.kind) for _ in range(self.choose.choice([1, 1, 1, 2, 3]))]
            self.inputs += slots
            scope.items.append(lambda scope=scope, chosen=chosen, slots=slots: "input %s %s;" % (
                chosen.write(scope.body), ", ".join(self.spelled([slot.name]) for slot in slots)))

    def declare_algebraic(self):
        for _ in range(self.choose.choice([1, 1, 2, 3, 4, 5])):
            scope = self.choose.choice(self.automata) if self.automata and self.maybe(0.4) else self.somewhere()
            chosen = self.some_type(scope)
            made = [self.algebraic(scope, chosen.kind) for _ in range(self.choose.choice([1, 1, 1, 1, 2]))]
            scope.items.append(lambda scope=scope, chosen=chosen, made=made: "alg %s %s;" % (
                chosen.write(scope.body), ", ".join(one() for one in made)))

    def algebraic(self, scope, kind):
        """One algebraic variable, with its equations; gives what writes its declaration."""
        slot = self.declared(scope, ALG, kind)
        number, own, by_location = len(self.algebraics), self.choose.choice(["value", "value", "equation"]), False
        self.algebraics.append(slot)
        if scope.is_automaton and self.maybe(0.5):
            own, by_location = None, True
        if self.fails("equations"):
            own, by_location = self.choose.choice([(None, False), ("both", False), ("value", True), ("equation", True)])

        def equation():
            name = self.choose.choice(self.names) if self.fails("name") else slot.name
            return "equation %s = %s;" % (self.spelled([name]), self.defining(scope.body, slot, number))
        scope.items += [equation] * (own in ("equation", "both"))
        if by_location:
            scope.equations.append(equation)
        has_value = own in ("value", "both")
        return lambda: self.spelled([slot.name]) + (" = " + self.defining(scope.body, slot, number) if has_value else "")

    def equations_at(self, scope):
        """The equations of a location."""
        found = []
        for equation in scope.equations:
            count = self.choose.choice([0, 1, 2]) if self.fails("equations") else 1
            found += [equation() for _ in range(count)]
        return found

    def defining(self, body, slot, number):
        """A definition of the algebraic variable of that number."""
        before = self.algebraics if self.fails("loop") else self.algebraics[:number]
        known = self.constants + self.variables + self.inputs + self.locations + self.parameters + before
        found = self.named(body, slot.kind, before) if self.maybe(0.5) else None
        if found and slot.kind == "int" and self.maybe(0.5):
            return self.choose.choice(["%s + 1", "2 - %s", "-%s", "min(%s, 4)", "%s mod 3", "(%s)"]) % found
        return found or self.value(body, slot.kind, self.choose.choice([0, 1, 1, 2, 3]), known)
