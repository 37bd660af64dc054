"""Makes the data of random sources: types, enumerations, constants and variables, expressions, guards and updates. What has inputs and
algebraic variables too names these mostly.

What is made keeps the rules mostly: divisors are rarely 0, values mostly in their ranges, and names find what they are written
for. Where faults are asked for, what breaks one rule stands here and there.
"""
from plain_expressions import ORDERS
from plain_names import ALG, CONSTANT, DISC, INPUT, LITERAL, PARAMETERS, TYPE, Slot
from random_definitions import TRUTH, Chosen, Unreached

# What is named most where it may be.
FAVOURED = PARAMETERS | {INPUT, ALG}


class DataMaker:
    """Makes data for whoever has groups and automata, chances, fresh names, and names that find a slot."""

    def data(self):
        """Declares what a source has: first types, which parameters have, too."""
        if self.has_data:
            for _ in range(self.choose.choice([0, 1, 1, 2, 2])):
                self.enumeration()
            for _ in range(self.choose.choice([0, 0, 1, 2])):
                self.type_name()
        if "channel" in self.forms:
            self.declare_channels()
        if self.has_definitions:
            self.declare_parameters()
        if self.has_data:
            self.declare_values()
        if "invariant" in self.forms:
            self.declare_invariants()

    def declare_values(self):
        for _ in range(self.choose.choice([0, 1, 2, 3, 4])):
            self.constant()
        for automaton in self.automata:
            for _ in range(self.choose.choice([0, 1, 1, 2, 3])):
                self.variable(automaton)
        if "input" in self.forms:
            self.declare_inputs()
        if "alg" in self.forms:
            self.declare_algebraic()
        for scope in self.groups + self.automata:
            if self.maybe(0.1):
                scope.items.append(lambda scope=scope: "marked %s;" % ", ".join(self.conditions(scope.body)))

    def declared(self, scope, sort, kind=None, name=None):
        slot = Slot(name or self.fresh(scope.body), 0, sort)
        slot.scope, slot.kind = scope, kind
        scope.body.slots.append(slot)
        return slot

    def somewhere(self):
        return self.choose.choice(self.groups + self.automata)

    # ---- declarations

    def enumeration(self):
        """An enumeration, at times with the literals of an earlier one in another scope."""
        scope = self.somewhere()
        slot = self.declared(scope, TYPE)
        same = [it.kind for it in self.enums if not any(scope.body.slot(name) for name in it.kind)]
        names = self.choose.choice(same) if same and self.maybe(0.6) else [None] * self.choose.randint(1, 4)
        slot.literals = [self.declared(scope, LITERAL, None, name) for name in names]
        slot.kind = tuple(literal.name for literal in slot.literals)
        for literal in slot.literals:
            literal.kind = slot.kind
        self.enums.append(slot)
        scope.items.append("enum %s = %s;" % (self.spelled([slot.name]), ", ".join(self.spelled([name]) for name in slot.kind)))

    def some_type(self, scope):
        """A type that may be named in the scope."""
        reached = {thing.slot for thing in self.things(scope.body)}
        named = [slot for slot in self.enums + self.types if slot in reached]
        forms = ["bool", "int", "range", "range", "range", "range"] + ["named"] * len(named)
        form = self.choose.choice(forms)
        if form == "bool":
            return TRUTH
        if form == "int":
            return Chosen(lambda body: "int", "int", self.choose.choice([(-9, 9), (0, 100), (2147483647, 2147483647)]))
        if form == "named":
            slot = self.choose.choice(named)
            return Chosen(lambda body: self.exact(body, slot), slot.kind, getattr(slot, "sure", None))
        lo = self.choose.choice([0, 0, 0, 0, -1, -3, 1, 2])
        hi, known = lo + self.choose.randint(0, 6), list(self.constants)
        return Chosen(lambda body: self.range_text(body, lo, hi, known), "int", (lo, hi))

    def range_text(self, body, lo, hi, known):
        low, high = str(lo), str(hi)
        if known and self.maybe(0.4):
            low, high = "min(%s, %s)" % (self.sum(body, 1, known), low), "max(%s, %s)" % (high, self.sum(body, 1, known))
        if self.fails("range"):
            low, high = self.choose.choice([(high, low), (low, "2147483647 + 1"), ("-2147483648", high), ("-2147483647 - 2", high),
                                            (low, "7 div 0"), (low, "7 mod (1 - 1)"), (low, str(hi - 1))])
        return "int[%s..%s]" % (low, high)

    def type_name(self):
        scope = self.somewhere()
        chosen = self.some_type(scope)
        slot = self.declared(scope, TYPE, chosen.kind)
        slot.sure = chosen.sure
        self.types.append(slot)
        scope.items.append(lambda: "type %s = %s;" % (self.spelled([slot.name]), chosen.write(scope.body)))

    def first(self, body, chosen, known):
        """A constant value for a type."""
        if self.fails("constant"):
            known = self.everything()
        if chosen.kind != "int" or chosen.sure[1] > 6 and self.maybe(0.7):
            return self.value(body, chosen.kind, 2, known)
        number = self.choose.randint(*chosen.sure)
        if self.fails("range"):
            return self.choose.choice([str(number + 7), "%d - 9" % number, "1 div 0", "2147483647 * 2147483647 * 9 mod 7"])
        return self.choose.choice([str(number), "%d + 1" % (number - 1), "(%d)" % number, "7 * %d div 7" % number])

    def constant(self):
        scope, known = self.somewhere(), list(self.constants)
        chosen = self.some_type(scope)
        slot = self.declared(scope, CONSTANT, chosen.kind)
        self.constants.append(slot)
        scope.items.append(lambda: "const %s %s = %s;" % (chosen.write(scope.body), self.spelled([slot.name]),
                                                            self.first(scope.body, chosen, known)))

    def variable(self, scope):
        chosen = self.some_type(scope)
        slot = self.declared(scope, DISC, chosen.kind)
        self.variables.append(slot)

        def text():
            first = " = " + self.first(scope.body, chosen, self.constants) if self.maybe(0.5) else ""
            return "disc %s %s%s;" % (chosen.write(scope.body), self.spelled([slot.name]), first)
        scope.items.append(text)

    # ---- expressions, level by level of the grammar

    def everything(self):
        return self.constants + self.variables + self.inputs + self.algebraics + self.locations + self.parameters

    def value(self, body, kind, depth, known):
        """An expression of a kind over what is known."""
        if self.fails("kind"):
            kind = self.choose.choice(["bool", "int"] + self.member_kinds(body))
        if kind == "bool":
            return self.truth(body, depth, known)
        return self.sum(body, depth, known) if kind == "int" else self.member(body, kind, depth, known)

    def named(self, body, kind, known):
        """A name of something of that kind, or None."""
        if self.fails("name"):
            return self.spelled(self.odd_name())
        if kind is not None and (kind == self.received and self.maybe(0.4) or self.fails("received")):
            return "?"
        slots = {slot for slot in known if slot.kind == kind}
        found = [thing for thing in self.things(body) if thing.slot in slots]
        own = [thing for thing in found if thing.slot.sort in FAVOURED]
        return self.written_name(self.choose.choice(own if own and self.maybe(0.6) else found)) if found else None

    def member_kinds(self, body):
        """The kinds of the literals that may be named."""
        return sorted({thing.slot.kind for thing in self.things(body) if thing.slot.sort == LITERAL})

    def if_expression(self, body, depth, known, part):
        text = "if %s: %s " % (", ".join(self.truth(body, depth, known) for _ in range(self.choose.choice([1, 1, 1, 2]))), part())
        if self.maybe(0.3):
            text += "elif %s: %s " % (self.truth(body, depth, known), part())
        return text + "else %s end" % part()

    def sum(self, body, depth, known):
        text = self.product(body, depth, known)
        while depth and self.maybe(0.35):
            text += self.choose.choice([" + ", " - "]) + self.product(body, depth - 1, known)
        return text

    def product(self, body, depth, known):
        text = self.factor(body, depth, known)
        if depth and self.maybe(0.25):
            sign = self.choose.choice(["*", "div", "mod"])
            text += " %s %s" % (sign, self.factor(body, depth - 1, known) if sign == "*" else self.divisor(body, depth - 1, known))
        return text

    def divisor(self, body, depth, known):
        if self.fails("divisor"):
            return self.factor(body, depth, known)
        return self.choose.choice([str(self.choose.randint(1, 5)), "-2", "max(%s, 1)" % self.sum(body, depth, known),
                                   "(abs(%s) + 1)" % self.sum(body, depth, known)])

    def factor(self, body, depth, known):
        form = self.choose.choice(["name", "name", "number", "minus", "plus", "paren", "abs", "min", "max", "if"])
        if self.fails("wide"):
            return "(%s * 2147483647 * 2147483647 * 3)" % self.factor(body, 0, known)
        if not depth or form in ("name", "number"):
            found = self.named(body, "int", known) if form != "number" else None
            return found or str(self.choose.choice([0, 1, 1, 2, 2, 3, 4, 7]))
        if form in ("minus", "plus"):
            return {"minus": "-", "plus": "+"}[form] + self.factor(body, depth - 1, known)

        def part():
            return self.value(body, "int", depth - 1, known)
        if form == "if":
            return self.if_expression(body, depth - 1, known, part)
        inner = part() + (", " + part() if form in ("min", "max") else "")
        return "%s(%s)" % ("" if form == "paren" else form, inner)

    def truth(self, body, depth, known):
        text = self.conjunction(body, depth, known)
        while depth and self.maybe(0.2):
            text += " or " + self.conjunction(body, depth - 1, known)
        if depth and self.maybe(0.1):
            text += self.choose.choice([" => ", " <=> "]) + self.conjunction(body, depth - 1, known)
        return text

    def conjunction(self, body, depth, known):
        text = self.comparison(body, depth, known)
        while depth and self.maybe(0.2):
            text += " and " + self.comparison(body, depth - 1, known)
        return text

    def comparison(self, body, depth, known):
        if not depth or self.maybe(0.4):
            return self.simple_truth(body, depth, known)
        kinds = ["int", "int", "int", "bool"] + self.member_kinds(body)
        kind = self.choose.choice(kinds)
        if kind == "int":
            return "%s %s %s" % (self.sum(body, depth - 1, known), self.choose.choice(ORDERS), self.sum(body, depth - 1, known))
        part = {"bool": self.simple_truth}.get(kind, lambda *more: self.member(body, kind, depth - 1, known))
        return "%s %s %s" % (part(body, depth - 1, known), self.choose.choice(ORDERS[:2]), part(body, depth - 1, known))

    def simple_truth(self, body, depth, known):
        form = self.choose.choice(["name", "name", "name", "literal", "not", "paren", "if"])
        if form == "not":
            return "not " + self.simple_truth(body, max(0, depth - 1), known)
        if depth and form == "paren":
            return "(%s)" % self.truth(body, depth - 1, known)
        if depth and form == "if":
            return self.if_expression(body, depth - 1, known, lambda: self.truth(body, depth - 1, known))
        found = self.named(body, "bool", known) if form == "name" else None
        return found or self.choose.choice(["true", "true", "false"])

    def member(self, body, kind, depth, known):
        """A value of an enumeration: a literal of any that is the same type, or a name."""
        found = self.named(body, kind, known) if self.maybe(0.6) else None
        if found:
            return found
        if depth and self.maybe(0.2):
            return self.if_expression(body, depth - 1, known, lambda: self.member(body, kind, depth - 1, known))
        literals = [thing for thing in self.things(body) if thing.slot.sort == LITERAL and thing.slot.kind == kind]
        if not literals:
            raise Unreached
        return self.written_name(self.choose.choice(literals))

    # ---- guards and updates

    def conditions(self, body):
        count = self.choose.choice([1, 1, 1, 1, 2])
        known = self.inputs + self.algebraics
        if not known or self.maybe(0.4):
            known = self.everything()
        return [self.truth(body, self.choose.choice([0, 1, 1, 2, 3]), known) for _ in range(count)]

    def end_of_edge(self, scope, received):
        """Guards and updates of an edge, of either sometimes none. In updates `?` has the kind that is received, if there is one."""
        text, own = "", [slot for slot in self.variables if slot.scope is scope]
        if self.has_data and self.maybe(0.6 if scope.definition or self.inputs or self.algebraics else 0.35):
            text += " when " + ", ".join(self.conditions(scope.body))
        if own and self.maybe(0.9 if received else 0.75):
            self.received = received
            text += " do " + self.updates(scope.body, own, 2)
            self.received = None
        return text

    def updates(self, body, own, depth):
        """Updates of some of these variables, each at most once in a list."""
        left, found = self.choose.sample(own, len(own)), []
        while left and (not found or self.maybe(0.6)):
            if depth and self.maybe(0.3):
                count = self.choose.randint(1, len(left))
                found.append(self.conditional(body, left[:count], depth - 1))
                left = left[count:]
            else:
                found.append(self.assignment(body, left.pop()))
        if self.fails("doubly"):
            found.insert(self.choose.randint(0, len(found)), self.conditional(body, own, 0))
        return ", ".join(found)

    def conditional(self, body, own, depth):
        text = "if %s: %s " % (", ".join(self.conditions(body)), self.updates(body, own, depth))
        while self.maybe(0.25):
            text += "elif %s: %s " % (", ".join(self.conditions(body)), self.updates(body, own, depth))
        return text + ("else %s " % self.updates(body, own, depth) if self.maybe(0.5) else "") + "end"

    def assignment(self, body, slot):
        if self.fails("own"):
            slot = self.choose.choice(self.variables + self.inputs + self.algebraics)
        target = self.named(body, None, []) or self.exact(body, slot, not self.fails("own"))
        if slot.kind == self.received and self.maybe(0.6):
            return "%s := %s" % (target, self.of_received(self.exact(body, slot)) if slot.kind == "int" else "?")
        if slot.kind == "int" and self.maybe(0.6):
            name = self.exact(body, slot)
            return "%s := %s" % (target, self.choose.choice(["%s + 1", "%s - 1", "(%s + 1) mod 4", "1 - %s", "min(%s + 2, 5)"]) % name)
        return "%s := %s" % (target, self.value(body, slot.kind, self.choose.choice([0, 1, 2, 3]), self.everything()))
