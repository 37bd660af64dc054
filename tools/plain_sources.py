"""Reads sources of automata with variables and definitions: what a text declares, bodies as written (CIF 3 language reference, "Syntax").

What the sources mean, and which rules they break, is told by `plain_nets.py` and what it stands on.
"""
from collections import namedtuple

from plain_algebra import Definition
from plain_channels import RECEIVES, SENDS, SYNCS, VOID, EventUse
from plain_data import If, Set, Type
from plain_expressions import ExpressionReader, names_in
from plain_invariants import ALWAYS, DISABLES, NEEDS, Invariant
from plain_names import (
    ALG, ALG_PARAMETER, COMPONENT, CONSTANT, DEFINITION, DISC, EVENT, EVENT_PARAMETER, INPUT, INSTANCE, LITERAL, LOCATION,
    LOCATION_PARAMETER, TYPE, Body, Instance, Slot)
from plain_tokens import Unread

CLASSES = ("event", "controllable", "uncontrollable")
KINDS = ("plant", "requirement", "supervisor")
AUTOMATON_WORDS = ("automaton",) + KINDS

# An edge as written, one for each of its event uses, with all of these together; the target is None where there is no `goto`.
Edge = namedtuple("Edge", "use together origin target guards updates")
# An automaton as written, which may be a definition; alphabet and monitors are lists of uses, or None.
Automaton = namedtuple("Automaton", "at body alphabet monitors places initials edges")


class Source(ExpressionReader):
    """What a text declares: bodies as written, those of definitions too, in text order.

    Also all automata, and all types with the bodies in which they stand, the slots that have a value, and the predicates of
    invariants and of markings. A body has its own types and slots with values, the number of its marking predicates, its definitions of
    algebraic variables and the number of equations among its declarations, its invariants, and its automaton, or None. A slot of a type, a constant, a
    variable or a parameter has its body as `home`, and its `type` and `value`; one of an event or an event parameter has the `word` of
    its class and its `channel`, a type, VOID or None; one of an enumeration the names of its `literals`, and one of a literal the slot
    `enum`.
    """

    def __init__(self, text):
        super().__init__(text)
        self.bodies, self.automata = [], []
        self.types, self.valued, self.predicates, self.frames = [], [], [], None
        self.root = self.body_in(None, False)
        while self.next < len(self.tokens):
            self.item(self.root)
        for body in self.bodies:
            body.is_whole()

    def body_in(self, outer, is_automaton):
        body = Body(outer, is_automaton)
        body.types, body.valued, body.mark_count, body.definitions, body.equation_count, body.automaton = [], [], 0, [], 0, None
        body.invariants = []
        self.bodies.append(body)
        return body

    # declarations

    def declare(self, body, sort):
        token = self.take("ID")
        slot = Slot(token.text, token.at, sort)
        slot.home, slot.type, slot.value, slot.literals, slot.word, slot.channel = body, None, None, [], None, None
        body.slots.append(slot)
        return slot

    def events(self, body):
        word, channel = self.take(*CLASSES).kind, self.channel(body)
        for slot in self.listed(lambda: self.declare(body, EVENT)):
            slot.word, slot.channel = word, channel
        self.take(";")

    def channel(self, body):
        """What is sent along the events whose names come next: VOID, a type, or None."""
        if self.skipped("void"):
            return VOID
        return self.type_in(body) if self.is_next("bool", "int") or self.is_type_name() else None

    def is_type_name(self):
        """Whether a name comes next behind which another one stands."""
        begin, is_type = self.next, False
        if self.is_next("ID", "."):
            self.name()
            is_type = self.is_next("ID")
        self.next = begin
        return is_type

    def expression_in(self, body):
        """An expression, whose names are used in the body."""
        expr = self.expression()
        body.uses += [(use.name, use.at, "value") for use in names_in(expr)]
        return expr

    def type_in(self, body):
        if self.is_next("bool", "int"):
            type_ = Type(self.take("bool", "int").kind, None)
            if type_.form == "int" and self.skipped("["):
                lo = self.expression_in(body)
                self.take("..")
                type_ = Type("range", (lo, self.expression_in(body)))
                self.take("]")
        else:
            type_ = Type("name", self.name())
            body.uses.append((type_.more.name, type_.more.at, "type"))
        self.types.append((body, type_))
        body.types.append(type_)
        return type_

    def type_names(self, body):
        self.take("type")

        def one():
            slot = self.declare(body, TYPE)
            self.take("=")
            slot.type = self.type_in(body)
            note_needs(slot)
        self.listed(one)
        self.take(";")

    def enumeration(self, body):
        self.take("enum")
        slot = self.declare(body, TYPE)
        self.take("=")
        for literal in self.listed(lambda: self.declare(body, LITERAL)):
            literal.enum = slot
            slot.literals.append(literal.name)
        self.take(";")

    def typed(self, body, word, sort, needs_value):
        """Constants or variables of one type."""
        self.take(word)
        type_ = self.type_in(body)

        def one():
            slot = self.declare(body, sort)
            slot.type = type_
            if self.is_next("=") or needs_value:
                self.take("=")
                slot.value = self.expression_in(body)
                self.valued.append(slot)
                body.valued.append(slot)
            note_needs(slot)
        self.listed(one)
        self.take(";")

    def inputs(self, body):
        self.take("input")
        type_ = self.type_in(body)
        for slot in self.listed(lambda: self.declare(body, INPUT)):
            slot.type = type_
        self.take(";")

    def algebraic(self, body):
        """Algebraic variables of one type, each with its definition or without."""
        self.take("alg")
        type_ = self.type_in(body)

        def one():
            slot = self.declare(body, ALG)
            slot.type = type_
            if self.skipped("="):
                body.definitions.append(Definition(slot.name, None, self.expression_in(body)))
        self.listed(one)
        self.take(";")

    def equation(self, body, place=None):
        self.take("equation")
        token = self.take("ID")
        body.own.append((token.text, token.at, ALG))
        self.take("=")
        body.definitions.append(Definition(token.text, place, self.expression_in(body)))
        body.equation_count += place is None
        self.take(";")

    def predicate(self, body):
        expr = self.expression_in(body)
        self.predicates.append((body, expr))
        return expr

    def marked(self, body):
        """Marking predicates."""
        self.take("marked")
        found = self.listed(lambda: self.predicate(body))
        self.take(";")
        return len(found)

    # invariants

    def invariants(self, body, has_word):
        """Invariants behind `invariant`, which may have names, or behind a kind alone."""
        def one():
            if has_word and self.comes("ID", ":"):
                self.take("ID")
                self.take(":")
            body.invariants.append(self.invariant(body))
        self.listed(one)
        self.take(";")

    def invariant(self, body):
        if self.needs_events():
            events = self.several_events(body)
            self.take("needs")
            return Invariant(NEEDS, events, self.predicate(body))
        predicate = self.predicate(body)
        if self.skipped("disables"):
            return Invariant(DISABLES, self.several_events(body), predicate)
        return Invariant(ALWAYS, [], predicate)

    def needs_events(self):
        """Whether events come next that need something: several, or one name before the word."""
        if self.is_next("{"):
            return True
        if not self.is_next("ID", "."):
            return False
        begin = self.next
        self.name()
        found, self.next = self.is_next("needs"), begin
        return found

    def several_events(self, body):
        if not self.skipped("{"):
            return [self.event_use(body)]
        found = self.listed(lambda: self.event_use(body))
        self.take("}")
        return found

    def comes(self, *kinds):
        """Whether tokens of these kinds come next."""
        return [token.kind for token in self.tokens[self.next:self.next + len(kinds)]] == list(kinds)

    def is_invariant(self):
        """Whether invariants come next, of a kind or of none, and not an automaton of that kind."""
        if self.is_next("invariant"):
            return True
        if not self.is_next(*KINDS) or any(self.comes(self.tokens[self.next].kind, word) for word in ("automaton", "def")):
            return False
        return not self.comes(self.tokens[self.next].kind, "ID", ":")

    def declaration(self, body):
        """Whether a declaration comes next, which is taken then."""
        if self.is_next(*CLASSES):
            self.events(body)
        elif self.is_next("type"):
            self.type_names(body)
        elif self.is_next("enum"):
            self.enumeration(body)
        elif self.is_next("const"):
            self.typed(body, "const", CONSTANT, True)
        elif self.is_next("marked"):
            body.mark_count += self.marked(body)
        elif self.is_invariant():
            if not self.is_next("invariant"):
                self.take(*KINDS)
            self.invariants(body, self.skipped("invariant"))
        elif self.is_next("input"):
            self.inputs(body)
        elif self.is_next("alg"):
            self.algebraic(body)
        elif self.is_next("equation"):
            self.equation(body)
        else:
            return False
        return True

    def item(self, body):
        if self.declaration(body):
            return
        if self.is_next("ID"):
            self.instance(body)
            return
        is_automaton = not self.is_next("group")
        if self.take("group", *AUTOMATON_WORDS).kind not in ("group", "automaton"):
            self.skipped("automaton")
        slot = self.declare(body, DEFINITION if self.skipped("def") else COMPONENT)
        slot.body = self.body_in(body, is_automaton)
        if slot.sort == DEFINITION:
            self.parameters(slot.body)
        else:
            body.inner.append(slot.body)
        self.take(":")
        if is_automaton:
            self.automaton(slot)
        else:
            while not self.is_next("end"):
                self.item(slot.body)
        self.take("end")

    # definitions and instances

    def parameters(self, body):
        self.take("(")
        has_more = not self.is_next(")")
        while has_more:
            self.parameter(body)
            has_more = self.skipped(";")
        self.take(")")

    def parameter(self, body):
        """Parameters of one sort."""
        word = self.take("alg", "location", *CLASSES).kind
        sort = {"alg": ALG_PARAMETER, "location": LOCATION_PARAMETER}.get(word, EVENT_PARAMETER)
        type_ = self.type_in(body) if word == "alg" else None
        channel = self.channel(body) if word in CLASSES else None
        for slot in self.listed(lambda: self.declare(body, sort)):
            slot.type, slot.word, slot.channel = type_, word, channel
            body.parameters.append(sort)

    def instance(self, body):
        slot = self.declare(body, INSTANCE)
        self.take(":")
        definition = self.name()
        body.uses.append((definition.name, definition.at, "definition"))
        slot.instance = Instance(body, slot.name, slot.at, definition.name, [])
        body.instances.append(slot.instance)
        self.take("(")
        if not self.is_next(")"):
            self.listed(lambda: self.argument(body, slot.instance))
        self.take(")")
        self.take(";")

    def argument(self, body, instance):
        expr = self.expression()
        instance.exprs.append(expr)
        if expr.form == "name":
            instance.arguments.append((expr.more.name, expr.at, True))
        else:
            instance.arguments.append((None, expr.at, False))
            body.uses += [(use.name, use.at, "value") for use in names_in(expr)]

    # automata

    def automaton(self, slot):
        body, clauses, found = slot.body, {}, Automaton(slot.at, slot.body, None, None, [], [], [])
        while not self.is_next("location"):
            if self.is_next("disc"):
                self.typed(body, "disc", DISC, False)
            elif not self.declaration(body):
                word = self.take("alphabet", "monitor").kind
                if word in clauses:
                    raise Unread()
                clauses[word] = [] if self.is_next(";") else self.listed(lambda: self.event_use(body))
                self.take(";")
        while self.is_next("location"):
            self.location(found)
        if None in found.places and len(found.places) > 1:
            raise Unread()
        body.automaton = found._replace(alphabet=clauses.get("alphabet"), monitors=clauses.get("monitor"))
        self.automata.append(body.automaton)

    def event_use(self, body):
        use = self.name()
        body.uses.append((use.name, use.at, "event"))
        return use

    def location(self, automaton):
        self.take("location")
        automaton.places.append(self.declare(automaton.body, LOCATION).name if self.is_next("ID") else None)
        if self.take(";", ":").kind == ";":
            return
        while self.is_next("initial", "marked", "equation", "edge"):
            if self.is_next("edge"):
                self.edge(automaton)
            elif self.is_next("equation"):
                self.equation(automaton.body, len(automaton.places) - 1)
            elif self.is_next("initial"):
                self.take("initial")
                automaton.initials.append(len(automaton.places) - 1)
                self.skipped("true")
                self.take(";")
            else:
                self.marking(automaton.body)

    def marking(self, body):
        """`marked;`, or with predicates."""
        if self.comes("marked", ";"):
            self.next += 2
        else:
            self.marked(body)

    def edge(self, automaton):
        body, number = automaton.body, len(automaton.places) - 1
        self.take("edge")
        uses, target = self.listed(lambda: self.edge_use(body)), None
        guards = self.listed(lambda: self.expression_in(body)) if self.skipped("when") else []
        updates = self.listed(lambda: self.update(body)) if self.skipped("do") else []
        if self.skipped("goto"):
            token = self.take("ID")
            target = token.text
            body.own.append((token.text, token.at, LOCATION))
        self.take(";")
        automaton.edges.extend(Edge(use, uses, number, target, guards, updates) for use in uses)

    def edge_use(self, body):
        """An event that an edge synchronises on, sends or receives."""
        use, role, sent = self.event_use(body), SYNCS, None
        if self.skipped("!"):
            role, sent = SENDS, None if self.is_next(",", "when", "do", "goto", ";") else self.expression_in(body)
        elif self.skipped("?"):
            role = RECEIVES
        return EventUse(use.name, use.at, role, sent)

    def update(self, body):
        if not self.is_next("if"):
            target = self.name()
            body.uses.append((target.name, target.at, "variable"))
            self.take(":=")
            return Set(target, self.expression_in(body))
        self.take("if")
        branches, other, has_more = [], [], True
        while has_more:
            conditions = self.listed(lambda: self.expression_in(body))
            self.take(":")
            branches.append((conditions, self.listed(lambda: self.update(body))))
            has_more = self.skipped("elif")
        if self.skipped("else"):
            other = self.listed(lambda: self.update(body))
        self.take("end")
        return If(branches, other)


def note_needs(slot):
    """Notes what a type or a constant needs: the names in its type and value."""
    if slot.sort not in (TYPE, CONSTANT):
        return
    exprs = list(slot.type.more) if slot.type.form == "range" else []
    uses = [slot.type.more] if slot.type.form == "name" else []
    for expr in exprs + ([] if slot.value is None else [slot.value]):
        uses += names_in(expr)
    slot.names = [(use.name, use.at, None) for use in uses]
