"""Makes random sources of automata that synchronise, with variables, inputs, algebraic variables, channels, invariants and definitions, and
without, sound ones and, where faults are asked for, others.

Names come from a few for each source, so that they shadow one another, and stand as dotted names, through instances too, and as names
from the root.
"""
from plain_channels import SYNCS
from plain_names import COMPONENT, DEFINITION, EVENT, INSTANCE, LOCATION, PARAMETERS, Body, Slot, found_slot
from plain_tokens import RESERVED, lexed
from random_algebra import AlgebraMaker
from random_channels import ChannelMaker
from random_data import DataMaker
from random_definitions import EVENTS, DefinitionMaker, Thing, Unreached
from random_invariants import InvariantMaker

# Names of all forms: some are the same but for case, some words of either language, some variables that programs have, some
# leave nothing when they are tidied, and some are cut.
NAMES = ["a", "b", "e", "x", "A", "E", "Lamp", "on", "_", "__", "_k1", "__a__b", "a_b", "a__b", "x1", "X1", "u2_", "end", "event",
         "time", "plant", "when", "IF", "var", "MOD", "END_VAR", "scan", "L0_a", "P0_a", "T0_fired", "T1_rounds", "CifScan",
         "n" * 39 + "_tail", "m" * 60]
HEADS = ["automaton", "plant", "requirement", "supervisor", "plant automaton", "supervisor automaton"]
BLANKS = [[""], [" "], ["\n"], [" ", " ", "\n", "\n  "], ["", " ", "\t", "\r\n", " /* edge $ @ ** */ ", " // c /* \n", "/**/"]]
# Where `?` may not stand, and channels of any sort: declarations, what stands in automata alone, in locations, and behind the uses of
# an edge.
ODD_ITEMS = ["const int k = ?;", "type t = int[0..?];", "input int[?..1] i;", "alg bool b = ?;", "equation k = ?;", "marked true, ?;",
             "invariant ?;", "requirement a needs not ?;", "plant invariant k: 1 = ? disables {a, b};",
             "group def d(event void m): end", "automaton def d(location l; controllable bool m): location; end",
             "group def d(alg int[0..?] k): end", "x: d(?);", "x: d(a, 1 + ?);", "event void m;", "event bool m;", "event a b;",
             "controllable int[0..3] m;", "event int[3..0] m;"]
ODD_PARTS = ["disc int n = ?;", "disc int[0..abs(?)] n;"]
ODD_ELEMENTS = ["marked not ?;", "equation k = 1 + ?;", "marked a, ?;"]
ODD_ENDS = ["when ?", "do n := ?", "when a, b do n := 1 + ?", "do if ?: n := 1 end"]


# The most parts of a name, but for the mark of the root.
MOST_PARTS = 5


class Scope:
    """A group, an automaton or a definition that is made: what stands in it, in order, what writes the equations of each location, the body
    by which names are looked up, and the nearest definition outward, which may be itself."""

    def __init__(self, outer, name, is_automaton, is_definition=False):
        self.name, self.is_automaton, self.is_definition, self.items, self.places = name, is_automaton, is_definition, [], []
        self.outer, self.path, self.equations = outer, [] if outer is None else outer.path + [name], []
        self.definition = self if is_definition else outer and outer.definition
        self.body = Body(None if outer is None else outer.body, is_automaton)


def spelled_name(parts):
    """The parts as they are written, those that are reserved words behind `$`."""
    words = ["" if part is None else "$" + part if part in RESERVED else part for part in parts]
    return ".".join(words)


class Maker(DefinitionMaker, DataMaker, AlgebraMaker, ChannelMaker, InvariantMaker):
    """Makes one source. Faults are chances by what is to be wrong: "name", "twice" for one declared twice, "goto", "initials" for
    the initial locations, "alphabet" for it and what is monitored, "class" for an event without one; "kind" of an expression, "constant" for one that names what is none, "own" for a variable of another automaton, "doubly"
    for one assigned twice, "range" for constants, "divisor" and "wide"; "equations" for the number of definitions of an algebraic
    variable, "loop" for one that may need itself; "cycle" of definitions, "count" of arguments, "argument" for any one, and "unfit" for
    one of another kind or class; "role" for a use that fits no channel, "mixed" for several roles, "received" for `?` where it may not
    stand; "kept" for a state invariant that may be false at first, and "reads" for one that may read inputs. `forms` may have "channel"
    and "invariant", and with variables "input" and "alg". Unreached is raised where what is wanted has no name."""

    def __init__(self, choose, faults=None, has_data=False, has_definitions=False, forms=()):
        self.choose, self.faults, self.has_data, self.has_definitions, self.forms = choose, faults or {}, has_data, has_definitions, forms
        self.enums, self.types, self.constants, self.variables, self.locations, self.parameters = [], [], [], [], [], []
        self.inputs, self.algebraics, self.roles = [], [], {}
        self.names = choose.sample(NAMES, choose.randint(5, 12))
        self.root = Scope(None, None, False)
        self.groups, self.automata, self.events, self.definitions, self.instances = [self.root], [], [], [], []
        self.is_whole, self.known_things = False, {}
        self.skeleton()
        self.is_whole = True
        self.text = self.items(self.root)

    def maybe(self, chance):
        return self.choose.random() < chance

    def fails(self, fault):
        return self.maybe(self.faults.get(fault, 0))

    # ---- what is declared

    def fresh(self, body):
        used = [slot.name for slot in body.slots]
        if used and self.fails("twice"):
            return self.choose.choice(used)
        unused = [name for name in self.names if name not in used]
        return self.choose.choice(unused) if unused else next(name for name in map("n{}".format, range(len(used), 999)) if name not in used)

    def scope(self, is_automaton, outer=None, is_definition=False):
        outer = outer or self.choose.choice(self.groups)
        scope = Scope(outer, self.fresh(outer.body), is_automaton, is_definition)
        outer.body.slots.append(Slot(scope.name, 0, DEFINITION if is_definition else COMPONENT, scope.body))
        scope.slot = outer.body.slots[-1]
        outer.items.append(scope)
        (self.automata if is_automaton else self.groups).append(scope)
        return scope

    def event(self, scope, word):
        slot = self.declared(scope, EVENT)
        slot.word, slot.channel = word, None
        scope.items.append(slot)
        self.events.append(slot)

    def skeleton(self):
        for _ in range(self.choose.choice([0, 0, 1, 1, 2, 3, 4])):
            self.scope(False)
        if self.has_definitions:
            self.declare_definitions()
        for _ in range(self.choose.choice([0, 1, 1, 1, 2] if self.has_definitions else [0, 1, 1, 2, 2, 2, 3, 3, 4, 5])):
            self.scope(True)
        for _ in range(self.choose.choice([1, 1, 2, 2, 3] if self.has_data else [0, 1, 2, 2, 3, 3, 4, 5, 7])):
            scope = self.choose.choice(self.groups + self.automata + [self.root])
            self.event(scope, "event" if self.fails("class") else self.choose.choice(["controllable", "uncontrollable"]))
        for automaton in self.automata:
            self.declare_places(automaton)
        if self.has_definitions:
            self.declare_instances()
        self.data()
        if self.has_definitions:
            self.name_definitions()
        for scope in self.groups + self.automata:
            self.choose.shuffle(scope.items)
            if self.fails("received"):
                items = ODD_ITEMS + ODD_PARTS * 4 * scope.is_automaton
                scope.items.insert(self.choose.randint(0, len(scope.items)), self.choose.choice(items))

    def declare_places(self, automaton):
        count = self.choose.choice([1, 1, 2, 2, 3, 4])
        if count == 1 and self.maybe(0.6):
            automaton.places = [None]
            return
        for _ in range(count):
            automaton.places.append(self.fresh(automaton.body))
            slot = self.declared(automaton, LOCATION, "bool", automaton.places[-1])
            self.locations.append(slot)

    # ---- names

    def odd_name(self):
        """A name that may be of anything."""
        if self.maybe(0.5):
            scope = self.choose.choice(self.groups + self.automata)
            slots = scope.body.slots
            parts = scope.path + ([self.choose.choice(slots).name] if slots else [])
            parts = parts[self.choose.randrange(len(parts)):] if parts else [self.choose.choice(self.names)]
        else:
            parts = [self.choose.choice(self.names) for _ in range(self.choose.choice([1, 1, 2, 3]))]
        return ([None] if self.maybe(0.2) else []) + parts

    def things(self, body):
        """All that names find from a body, each with its names."""
        if body in self.known_things:
            return self.known_things[body]
        found, scope, seen = {}, body, set()
        while scope is not None:
            for slot in scope.slots:
                if slot.name not in seen:
                    self.add_things(found, [slot.name], slot, ())
            seen.update(slot.name for slot in scope.slots)
            scope = scope.outer
        for slot in self.root.body.slots:
            self.add_things(found, [None, slot.name], slot, ())
        things = list(found.values())
        if self.is_whole:
            self.known_things[body] = things
        return things

    def add_things(self, found, name, slot, through):
        """Adds what a name finds, and what is behind it."""
        thing = found.setdefault((slot, through), Thing(slot, through, []))
        if name not in thing.names:
            thing.names.append(name)
        if len(name) > MOST_PARTS or slot.sort not in (COMPONENT, INSTANCE):
            return
        if slot.sort == INSTANCE:
            through += (slot,)
        inner = slot.body if slot.sort == COMPONENT else slot.instance.scope.body
        for part in inner.slots[len(inner.parameters):]:
            self.add_things(found, name + [part.name], part, through)

    def event_name(self, body, thing):
        """A name of an event or, at times, any name, and what it finds."""
        if not self.fails("name"):
            return self.written_name(thing), thing
        name, through = self.odd_name(), []
        slot = found_slot(self.root.body, body, name, through=through)
        return spelled_name(name), next((it for it in self.things(body) if (it.slot, it.through) == (slot, tuple(through))), None)

    def written_name(self, thing):
        """One of its names, mostly one that is looked up where it stands."""
        inner = [name for name in thing.names if name[0] is not None]
        return spelled_name(self.choose.choice(inner if inner and self.maybe(0.6) else thing.names))

    def written_names(self, things):
        return ", ".join(self.written_name(thing) for thing in things)

    def exact(self, body, slot, is_own=False):
        """A name that finds the slot, through no instance where it is the body's own."""
        found = [thing for thing in self.things(body) if thing.slot is slot and not (is_own and thing.through)]
        if not found:
            raise Unreached
        return self.written_name(self.choose.choice(found))

    def spelled(self, parts):
        return spelled_name(parts)

    # ---- the text

    def items(self, scope):
        """What stands in a scope, events of one class sometimes in one declaration."""
        text, last = "", None
        for item in scope.items + [None]:
            is_event = isinstance(item, Slot) and item.sort == EVENT
            if last is not None and not (is_event and (item.word, item.channel) == last and self.maybe(0.5)):
                text, last = text + "; ", None
            if is_event:
                head = "%s %s" % (item.word, item.channel.write(scope.body) + " " if item.channel else "")
                text += (head if last is None else ", ") + spelled_name([item.name])
                last = item.word, item.channel
            elif isinstance(item, Scope):
                text += self.component(item)
            elif isinstance(item, Slot):
                text += self.instance(scope, item)
            elif item is not None:
                text += (item() if callable(item) else item) + " "
        return text

    def component(self, scope):
        head = self.choose.choice(HEADS) if scope.is_automaton else "group"
        inner = self.automaton(scope) if scope.is_automaton else self.items(scope)
        if scope.is_definition:
            return "%s def %s(%s): %send " % (head, spelled_name([scope.name]), self.parameters_of(scope), inner)
        return "%s %s: %send " % (head, spelled_name([scope.name]), inner)

    def automaton(self, scope):
        used = self.used_events(scope)
        found, locations, count = [], "", len(scope.places)
        initials = self.choose.sample(range(count), self.choose.randint(0, count) if self.fails("initials") else 1)
        for number, place in enumerate(scope.places):
            elements = [self.choose.choice(["initial;", "initial;", "initial true;", "initial; initial;"])] * (number in initials)
            if self.has_data and self.maybe(0.05):
                elements.append("marked %s;" % ", ".join(self.conditions(scope.body)))
            elements += self.equations_at(scope)
            elements += ["marked;"] * self.maybe(0.2) + [self.choose.choice(ODD_ELEMENTS)] * self.fails("received")
            elements += [self.edge(scope, used, found) for _ in range(self.choose.choice([0, 1, 1, 2, 2, 3])) if used]
            if self.maybe(0.2):
                self.choose.shuffle(elements)
            head = "location" if place is None else "location " + spelled_name([place])
            locations += head + (": " + " ".join(elements) if elements or self.maybe(0.5) else ";") + " "
        clauses = self.clauses(scope, [thing for thing in found if thing and thing.slot.sort in EVENTS])
        return self.mixed(self.items(scope), clauses) + locations

    def used_events(self, scope):
        """Some events that the automaton may name, mostly with the parameters of its definition."""
        events = [thing for thing in self.things(scope.body) if thing.slot.sort in EVENTS]
        own = [thing for thing in events if thing.slot.sort in PARAMETERS and self.maybe(0.8)]
        others = [thing for thing in events if thing.slot.sort not in PARAMETERS and (not thing.through or self.maybe(0.3))]
        count = self.choose.choice([0, 1, 1] if own else [1, 2, 2, 3, 4])
        channels = [thing for thing in others if thing.slot.channel and self.maybe(0.4)]
        others = [thing for thing in others if thing not in channels]
        return own + channels + self.choose.sample(others, min(len(others), count))

    def mixed(self, declarations, clauses):
        """The declarations of an automaton and its clauses, in some order."""
        self.choose.shuffle(clauses)
        before = self.choose.randint(0, len(clauses))
        return " ".join(clauses[:before]) + " " + declarations + " " + " ".join(clauses[before:]) + " "

    def edge(self, scope, used, found):
        """An edge; what its names find is added to what is found."""
        uses, roles = [], []
        for _ in range(self.choose.choice([1, 1, 1, 1, 2, 3])):
            name, thing = self.event_name(scope.body, self.choose.choice(used))
            role = self.role(scope, thing)
            uses.append(self.use(scope, name, role, thing))
            roles.append((role, thing))
        found += [thing for role, thing in roles if role == SYNCS]
        text = "edge " + ", ".join(uses)
        if self.fails("received"):
            text += " " + self.choose.choice(ODD_ENDS)
        else:
            text += self.end_of_edge(scope, self.received_by(roles))
        targets = [place for place in scope.places if place is not None]
        if self.fails("goto"):
            targets = self.names
        if targets and self.maybe(0.7):
            text += " goto " + spelled_name([self.choose.choice(targets)])
        return text + ";"

    def clauses(self, scope, found):
        """The alphabet, which has what the edges name and at times more, and what is monitored of it."""
        clauses, alphabet = [], list({(thing.slot, thing.through): thing for thing in found}.values())
        events = [thing for thing in self.things(scope.body) if thing.slot.sort in EVENTS]
        if self.maybe(0.4):
            more = [thing for thing in events if thing not in alphabet and not self.has_role(scope, thing)]
            alphabet += [thing for thing in more if self.maybe(0.1 if thing.through else 0.2)]
            if self.fails("alphabet"):
                alphabet = [thing for thing in events if self.maybe(0.5)]
            alphabet += [thing for thing in alphabet if self.maybe(0.05)]
            self.choose.shuffle(alphabet)
            clauses.append("alphabet %s;" % self.written_names(alphabet))
        if self.maybe(0.4):
            monitored = [thing for thing in alphabet if self.maybe(0.6)] if self.maybe(0.7) else []
            if self.fails("alphabet"):
                monitored = [thing for thing in events if self.maybe(0.5)]
            clauses.append("monitor %s;" % self.written_names(monitored))
        return clauses


def made_text(choose, faults=None, has_data=False, has_definitions=False, forms=()):
    """The text of a source."""
    while True:
        try:
            return Maker(choose, faults, has_data, has_definitions, forms).text
        except Unreached:
            pass


def spelled(choose, tokens):
    """A text of tokens, with blanks and comments between them, and `$` before some names."""
    blanks, text = choose.choice(BLANKS), ""
    for token in tokens:
        word, blank = token.text, choose.choice(blanks)
        if token.kind == "ID" and (word in RESERVED or choose.random() < 0.08):
            word = "$" + word
        if not blank and is_of_word(text[-1:]) and (is_of_word(word[0]) or word[0] == "$"):
            blank = " "
        text += blank + word
    return text + choose.choice(["", "\n", " // end"])


def is_of_word(byte):
    return byte == "_" or byte.isalnum()


def tokens_of(text):
    return lexed(text)[0]
