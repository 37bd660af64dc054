"""Says what sources of automata with variables and definitions mean: which rules they break, their choices and scans.

Plain and slow on purpose, and shares nothing with the program: the CIF 3 language reference ("Syntax", "Scoping", "Component
definition and instantiation", "Synchronization", "Channels", "Monitoring", "Updates", "Algebraic variables", "Input variables",
"Invariants") and the rules that README and `docs/DEFINITIONS.md` print, written down once more. A parameter is followed to its argument wherever it is named,
and an algebraic variable to its definition, and nothing is put in its place.
"""
import itertools
import re
import sys
from collections import defaultdict, namedtuple

from plain_algebra import definitions_of, in_order, of_cycles, of_equations
from plain_channels import RECEIVES, SENDS, SYNCS, VOID
from plain_data import Data, Values, assigned, exprs_of, kinds_due
from plain_expressions import Algebraic, Expr, depth, evaluated, interval, joined_interval, size
from plain_invariants import ALWAYS, NEEDS, Predicate, are_kept, count_of as count_of_invariant, of_state_invariants, permits
from plain_names import ALG, CONSTANT, DISC, EVENT, INPUT, LOCATION, TYPE, Frame, denoted, due as names_due

# Arguments that name parameters nest as deep as instances do.
sys.setrecursionlimit(4000)

MOST_OBJECTS, MOST_NODES, MOST_DEPTH, MOST_CHOICES = 100000, 1000000, 100, 16384


# ---- the rules up to numbers

def of_initials(source):
    for automaton in source.automata:
        count = len(set(automaton.initials))
        if count != 1:
            yield ("Initials", ("at", automaton.at), ("count", count))


# ---- components

def objects_in(body):
    """The component itself, its declarations, locations and edges. A literal is none, nor is what a location has besides edges, and each
    predicate of a declaration is one."""
    declared = sum(slot.sort in (EVENT, TYPE, CONSTANT, DISC, INPUT, ALG) for slot in body.slots)
    automaton = body.automaton
    written = body.mark_count + body.equation_count + sum(map(count_of_invariant, body.invariants))
    return 1 + declared + written + (len(automaton.places) + len(automaton.edges) if automaton else 0)


def components_of(source):
    """The frames of the components in the order of their numbers, and how many objects they have. Past the limit no more are listed."""
    if source.frames is None:
        frames, left, objects = [], [Frame(source.root)], 0
        while left and objects <= MOST_OBJECTS:
            frames.append(left.pop())
            objects += objects_in(frames[-1].body)
            left += reversed(frames[-1].inner())
        source.frames = frames, objects
    return source.frames


def declared_in(frames, sort):
    """The frames and slots of what is declared, in the order of its numbers."""
    return [(frame, slot) for frame in frames for slot in frame.body.slots if slot.sort == sort]


def automata_in(frames):
    return [frame for frame in frames if frame.body.is_automaton]


def event_of(frame, use):
    """The frame and slot of the event that is used."""
    found = denoted(frame, use.name)
    return found.frame, found.slot


def alphabet_of(frame):
    """The events that are declared as its alphabet, or else found on its edges, but for those that send or receive."""
    automaton = frame.body.automaton
    uses = synchronised(automaton) if automaton.alphabet is None else automaton.alphabet
    return {event_of(frame, use) for use in uses}


def synchronised(automaton):
    """The uses of events on the edges that neither send nor receive."""
    return [edge.use for edge in automaton.edges if edge.use.role == SYNCS]


def of_alphabets(frames):
    for frame in automata_in(frames):
        automaton, alphabet = frame.body.automaton, alphabet_of(frame)
        for use in synchronised(automaton) + (automaton.monitors or []):
            if event_of(frame, use) not in alphabet:
                yield ("AlphabetLacks", ("at", use.at))


def of_roles(frames):
    """15: an automaton synchronises on an event, or sends on it, or receives on it."""
    for frame in automata_in(frames):
        automaton = frame.body.automaton
        roles = {(event, SYNCS) for event in alphabet_of(frame)}
        roles |= {(event_of(frame, edge.use), edge.use.role) for edge in automaton.edges if edge.use.role != SYNCS}
        if len({event for event, _ in roles}) < len(roles):
            yield ("RoleMixed", ("at", automaton.at))


def of_ranges(frames):
    values = Values()
    for frame in frames:
        yield from values.of_ranges(frame)


# ---- nets: automata, events and variables by their numbers

# An event of a net: its channel is the range of what is sent along it, VOID, or None.
Event = namedtuple("Event", "path word channel")
# An edge of a net: the number of its event and its role, the numbers of its places, its guard, what it sends, or None, and its updates.
Arc = namedtuple("Arc", "event role origin target guard sent updates")
Party = namedtuple("Party", "path places first alphabet monitors arcs")
Variable = namedtuple("Variable", "path kind range first")
STAYS = None


class Net:
    """What a source says that breaks no rule up to those on instances. A state has the places of all automata, then the values of all
    variables, and then those of all inputs. From `cycles` on all is asked only where no algebraic variable needs itself."""

    def __init__(self, source):
        frames, _ = components_of(source)
        self.data, automata, events = Data(source), automata_in(frames), declared_in(frames, EVENT)
        variables, inputs = declared_in(frames, DISC), declared_in(frames, INPUT)
        self.numbers = {event: number for number, event in enumerate(events)}
        algebraic = {it: Algebraic(dotted(*it), self.data.kind_of_slot(it[1])) for it in declared_in(frames, ALG)}
        self.values = Values({**self.meanings(automata, variables + inputs), **algebraic})
        self.events = [self.event(frame, slot) for frame, slot in events]
        self.variables = [self.variable(frame, slot) for frame, slot in variables]
        self.inputs = [self.variable(frame, slot) for frame, slot in inputs]
        self.define(algebraic, automata)
        self.algebraic = list(algebraic.values())
        self.ordered = in_order(self.algebraic)
        self.parties = [self.party(frame) for frame in automata]
        self.exclusions, self.invariants = defaultdict(list), []
        for frame in frames:
            for it in frame.body.invariants:
                self.invariant(frame, it)
        self.ranges = [(0, party.places - 1) for party in self.parties] + [it.range for it in self.variables + self.inputs]
        self.ways, self.listed, self.steps = defaultdict(list), {}, {}
        for number, party in enumerate(self.parties):
            for event in party.alphabet:
                self.ways[event, SYNCS].append((number, self.ways_of(party, event)))
            for event, role in {(arc.event, arc.role) for arc in party.arcs if arc.role != SYNCS}:
                self.ways[event, role].append((number, self.ways_of(party, event)))

    def event(self, frame, slot):
        channel = slot.channel if slot.channel in (None, VOID) else self.values.range_of(frame, slot.channel)
        return Event(dotted(frame, slot), slot.word, channel)

    def variable(self, frame, slot):
        first = self.values.first_value(frame, slot)
        return Variable(dotted(frame, slot), self.data.kind_of_slot(slot), self.values.range_of(frame, slot.type), first)

    def meanings(self, automata, variables):
        """What a name of a variable or a location stands for: a place in the states, or that of an automaton and the location."""
        found = {variable: len(automata) + number for number, variable in enumerate(variables)}
        for number, frame in enumerate(automata):
            places = [slot for slot in frame.body.slots if slot.sort == LOCATION]
            found.update({(frame, slot): (number, place) for place, slot in enumerate(places)})
        return found

    def define(self, algebraic, automata):
        """Gives algebraic variables their definitions, read in their components."""
        numbers, of_bodies = {frame: number for number, frame in enumerate(automata)}, {}
        for (frame, slot), found in algebraic.items():
            if frame.body not in of_bodies:
                of_bodies[frame.body] = definitions_of(frame.body)
            own = of_bodies[frame.body][slot.name]
            found.automaton = None if own[0].place is None else numbers[frame]
            found.values = [self.values.resolved(frame, it.value) for it in own]

    def number(self, frame, use):
        return self.numbers[event_of(frame, use)]

    def party(self, frame):
        automaton, alphabet = frame.body.automaton, {self.numbers[event] for event in alphabet_of(frame)}
        monitors = {self.number(frame, use) for use in automaton.monitors or []}
        if automaton.monitors == []:
            monitors = alphabet
        arcs = [self.arc(frame, edge) for edge in automaton.edges]
        return Party(".".join(frame.path()), len(automaton.places), automaton.initials[0], alphabet, monitors, arcs)

    def arc(self, frame, edge):
        target = edge.origin if edge.target is None else frame.body.automaton.places.index(edge.target)
        guard = self.values.conjunction(frame, edge.guards) if edge.guards else Expr("number", (), 1, edge.use.at)
        sent = None if edge.use.sent is None else self.values.resolved(frame, edge.use.sent)
        updates = self.values.resolved_updates(frame, edge.updates)
        return Arc(self.number(frame, edge.use), edge.use.role, edge.origin, target, guard, sent, updates)

    def invariant(self, frame, it):
        """Adds a state invariant, or an exclusion to each of its events."""
        predicate = Predicate(self.values.resolved(frame, it.predicate), it.predicate.at, it.form == NEEDS)
        if it.form == ALWAYS:
            self.invariants.append(predicate)
        for use in it.events:
            self.exclusions[self.number(frame, use)].append(predicate)

    def initial(self):
        return tuple([party.first for party in self.parties] + [it.first for it in self.variables + self.inputs])

    def exprs(self):
        """The guards, sent values, conditions and right sides of all edges, the predicates of all invariants, and the definitions of
        algebraic variables."""
        for arc in self.arcs():
            yield from exprs_of_arc(arc)
        yield from (it.expr for it in self.predicates())
        for it in self.algebraic:
            yield from it.values

    def predicates(self):
        return [it for exclusions in self.exclusions.values() for it in exclusions] + self.invariants

    def arcs(self):
        return (arc for party in self.parties for arc in party.arcs)

    # the rules on algebraic variables, widths and sizes

    def cycles(self):
        return of_cycles(self.algebraic, self.ordered)

    def widths(self):
        due = set()
        for it in self.ordered:
            it.told("interval", lambda: joined_interval(it.values, self.ranges, due))
        for arc in self.arcs():
            channel = self.events[arc.event].channel
            ranges = self.ranges if channel in (None, VOID) else self.ranges + [channel]
            for expr in exprs_of_arc(arc):
                interval(expr, ranges, due)
        for it in self.predicates():
            interval(it.expr, self.ranges, due)
        return due

    def kept(self):
        """The rules on state invariants."""
        return of_state_invariants(self.invariants, len(self.parties) + len(self.variables), self.initial())

    def nodes(self):
        """What all choices count, and once all definitions of algebraic variables."""
        return sum(it.size() for it in self.ordered) + sum(map(self.weight, range(len(self.events))))

    def depth(self):
        """How deep the deepest expression nests."""
        return max([it.depth() for it in self.ordered] + list(map(depth, self.exprs())), default=0)

    # choices

    def ways_of(self, party, event):
        """What a party of the event may do: take one of its edges for it, in text order, or at last stay."""
        return [arc for arc in party.arcs if arc.event == event] + ([STAYS] if event in party.monitors else [])

    def groups(self, event):
        """Those that make a step of the event together, each with its number and its ways, in ascending number. Of a channel there is a
        group for each sender and each other receiver, in the order of the senders and then of the receivers."""
        syncing = self.ways[event, SYNCS]
        if self.events[event].channel is None:
            return [syncing] if syncing else []
        pairs = itertools.product(self.ways[event, SENDS], self.ways[event, RECEIVES])
        return [sorted([sender, receiver] + syncing, key=lambda it: it[0]) for sender, receiver in pairs if sender[0] != receiver[0]]

    def count(self, event):
        """How many choices the event has."""
        return sum(map(count_of, self.groups(event)))

    def weight(self, event):
        """What all choices of the event count: each one, its parties, the sizes of what the edges that it takes evaluate, and those of
        the predicates of the event's exclusions and of all state invariants."""
        asked = sum(size(it.expr) for it in self.exclusions[event] + self.invariants)
        return sum(map(weight_of, self.groups(event))) + asked * self.count(event)

    def choices(self, event):
        """The choices in their order, each a list of (party, edge or STAYS)."""
        if event not in self.listed:
            self.listed[event] = [choice for group in self.groups(event) for choice in choices_of(group)]
        return self.listed[event]

    # steps

    def agrees(self, choice, event, state):
        """Whether each party moves from where it is, and none stays that could move."""
        for number, arc in choice:
            if arc is STAYS:
                if any(it.event == event and is_ready(it, number, state) for it in self.parties[number].arcs):
                    return False
            elif not is_ready(arc, number, state):
                return False
        return True

    def sent(self, choice, event, state):
        """What is sent in a choice that agrees, as a list of at most one, or None where it leaves the range of its channel."""
        found = sent_values(choice, state)
        return found if all(is_within(value, self.events[event].channel) for value in found) else None

    def after(self, choice, event, state):
        """The state after a choice that agrees, or None where a value leaves its range. All that is read is the state before, and what
        is sent."""
        sent, after = self.sent(choice, event, state), list(state)
        if sent is None:
            return None
        for number, arc in choice:
            if arc is STAYS:
                continue
            after[number] = arc.target
            for place, value in assigned(arc.updates, state + tuple(sent)):
                if not is_within(value, self.ranges[place]):
                    return None
                after[place] = value
        return tuple(after)

    def is_permitted(self, event, state):
        return permits(self.exclusions[event], state)

    def is_kept(self, state):
        return are_kept(self.invariants, state)

    def moves(self, event, state):
        """The states after a step of the event, by its choices in their order. What the event needs and what disables it is asked of the
        state before, and state invariants of the state after."""
        for choice in self.choices(event) if self.is_permitted(event, state) else []:
            after = self.after(choice, event, state) if self.agrees(choice, event, state) else None
            if after is not None and self.is_kept(after):
                yield after

    def first_step(self, event, state):
        """The state after the first choice that makes a step, or None."""
        return next(self.moves(event, state), None)

    def step(self, event, state):
        """`first_step`, which is asked once for each state."""
        if (event, state) not in self.steps:
            self.steps[event, state] = self.first_step(event, state)
        return self.steps[event, state]

    # scans

    def latched(self, state, row):
        """The state with a row of values for the inputs."""
        return state[:len(state) - len(self.inputs)] + tuple(row)

    def after_rounds(self, word, rounds, state):
        """The state after the rounds of a class, and whether the bound was what ended them."""
        events = [number for number, event in enumerate(self.events) if event.word == word]
        for _ in range(rounds):
            has_fired = False
            for event in events:
                after = self.step(event, state)
                if after is not None:
                    state, has_fired = after, True
            if not has_fired:
                return state, False
        return state, True

    def scan(self, unc, con, state):
        """The state after a scan from one in which its row is latched, and whether a bound ended its rounds."""
        state, by_unc = self.after_rounds("uncontrollable", unc, state)
        state, by_con = self.after_rounds("controllable", con, state)
        return state, by_unc or by_con

    def table(self, unc, con, rows):
        """What `replay` writes over these rows."""
        names = names_of("P", self.parties) + names_of("Q", self.variables) + names_of("R", self.algebraic)
        lines, state = [",".join(["scan"] + names)], self.initial()
        for scan, row in enumerate(rows, 1):
            state, _ = self.scan(unc, con, self.latched(state, row))
            lines.append(",".join([str(scan)] + self.cells(state)))
        return "\n".join(lines + [""])

    def cells(self, state):
        """What is written of a state, as a line of a table: truths are words, all else is numbers."""
        kinds = ["int"] * len(self.parties) + [it.kind for it in self.variables + self.algebraic]
        values = state[:len(state) - len(self.inputs)] + tuple(it.value_in(state) for it in self.algebraic)
        return [("FALSE", "TRUE")[value] if kind == "bool" else str(value) for kind, value in zip(kinds, values)]


def dotted(frame, slot):
    """The path of what a component declares."""
    return ".".join(frame.path() + (slot.name,))


def is_ready(arc, number, state):
    """Whether the edge of that automaton may be taken: it begins where the automaton is, and its guard is so."""
    return arc.origin == state[number] and evaluated(arc.guard, state) == 1


def sent_values(choice, state):
    return [evaluated(arc.sent, state) for _, arc in choice if arc is not STAYS and arc.sent is not None]


def is_within(value, bounds):
    return bounds[0] <= value <= bounds[1]


def exprs_of_arc(arc):
    return [arc.guard] + [arc.sent] * (arc.sent is not None) + list(exprs_of(arc.updates))


# ---- the choices of a group: numbers of automata with their ways

def choices_of(group):
    """The choices in their order, each a list of (party, edge or STAYS)."""
    numbers = [number for number, _ in group]
    return [list(zip(numbers, product)) for product in itertools.product(*[ways for _, ways in group])]


def count_of(group):
    product = 1
    for _, ways in group:
        product *= len(ways)
    return product


def weight_of(group):
    count = count_of(group)
    if count == 0:
        return 0
    moves = sum(count // len(ways) * sum(sum(map(size, exprs_of_arc(way))) for way in ways if way is not STAYS) for _, ways in group)
    return count * (1 + len(group)) + moves


def names_of(letter, things):
    """The names of the variables of that letter in a program."""
    return ["%s%d_%s" % (letter, number, tidied(it.path)) for number, it in enumerate(things)]


def tidied(path):
    """The path as a part of an identifier: runs of other bytes are one `_`, none first or last, at most 40 of them."""
    return re.sub("[^A-Za-z0-9]+", "_", path).strip("_")[:40].rstrip("_") or "x"


# ---- refusals

NUMBERS = {"BadByte": 1, "NumberTooBig": 2, "OpenComment": 3, "NotRead": 4, "Unknown": 5, "Duplicate": 6, "WrongKind": 7,
           "DefinitionCycle": 8, "Mismatch": 9, "NotConstant": 10, "Initials": 11, "NotOwn": 12, "AssignedTwice": 13, "AlphabetLacks": 14,
           "RoleMixed": 15, "Equations": 16, "TooManyObjects": 17, "ConstantRange": 18, "AlgCycle": 19, "ZeroDivisor": 20, "TooWide": 21,
           "InvariantReadsInput": 22, "InvariantFalse": 23, "TooLarge": 24, "TooManyChoices": 25, "Unclassed": 28}


def line_of(refusal):
    """The refusal as it is printed."""
    name, fields = refusal[0], refusal[1:]
    return " ".join(["%d %s" % (NUMBERS[name], name)] + ["%s %s" % field for field in fields])


def of_components(source):
    """The rules on components. Of those past the limit of objects nothing more is told than that they are too many."""
    frames, objects = components_of(source)
    if objects > MOST_OBJECTS:
        yield ("TooManyObjects", ("count", MOST_OBJECTS + 1))
    yield from of_alphabets(frames)
    yield from of_roles(frames)
    yield from of_ranges(frames)


def of_size(net):
    nodes, deepest = net.nodes(), net.depth()
    if nodes > MOST_NODES or deepest > MOST_DEPTH:
        yield ("TooLarge", ("nodes", min(nodes, MOST_NODES + 1)), ("depth", min(deepest, MOST_DEPTH + 1)))


def of_choices(net):
    if sum(map(net.count, range(len(net.events)))) > MOST_CHOICES:
        yield ("TooManyChoices", ("count", MOST_CHOICES + 1))


def broken(source):
    """The refusals of the first phase in which the source, which is read, breaks a rule, and its net where it breaks none."""
    data = Data(source)
    for phase in (lambda: names_due(source.root, source.bodies),
                  lambda: list(of_initials(source)) + list(kinds_due(data)) + list(of_equations(source)), lambda: of_components(source)):
        found = set(phase())
        if found:
            return found, None
    net = Net(source)
    for phase in (net.cycles, lambda: list(net.widths()) + list(net.kept()) + list(of_size(net)), lambda: of_choices(net)):
        found = set(phase())
        if found:
            return found, None
    return set(), net


def unclassed(net):
    """The refusal of `generate` alone: the first event that has no class."""
    paths = [event.path for event in net.events if event.word == "event"]
    return {("Unclassed", ("event", paths[0]))} if paths else set()
