"""A source with the names that a person reads: the paths of what its program has, locations and literals by name, and edges by place.

The reader of sources and their meaning are `plain_sources.py` and `plain_nets.py`; instances are expanded there.
"""
from collections import namedtuple

from plain_nets import automata_in, broken, components_of, names_of, unclassed
from plain_channels import RECEIVES, SENDS, SYNCS
from plain_sources import Source
from plain_tokens import Unread, lexed

from bench.faults import MOST_SOURCE, PROFILE, SOURCE, content, of_file

# The name that is shown for the location of an automaton that has one location without a name.
NAMELESS = "-"
CLASSES = ("uncontrollable", "controllable")
ROLES = {SYNCS: "", SENDS: "!", RECEIVES: "?"}

# What a variable of a program holds: the letters and names of its variables, its path, kind (location, bool, int or enum), range, the
# names of its numbers, or None, and its first value, or None.
Held = namedtuple("Held", "letters names path kind range literals first")
# An edge of an event: its automaton, role, locations by name, place (line and column, from 1), and the edge as written. Of an automaton
# that monitors the event and stays, all but the automaton is None.
Way = namedtuple("Way", "automaton role origin target place edge")


class MarkedSource(Source):
    """A source with its marked locations, each a body and the number of the location."""

    def __init__(self, text):
        self.marks, self.current = set(), None
        super().__init__(text)

    def location(self, automaton):
        self.current = automaton
        super().location(automaton)

    def marking(self, body):
        self.marks.add((body, len(self.current.places) - 1))
        super().marking(body)


class Model:
    """A source that `cif check` accepts."""

    def __init__(self, file, text):
        self.file, self.text = file, text
        self.source, self.net = read(file, text)
        self.frames = components_of(self.source)[0]
        self.automata = automata_in(self.frames)
        self.names = [[NAMELESS if name is None else name for name in frame.body.automaton.places] for frame in self.automata]
        self.edges = {id(arc): edge for frame, party in zip(self.automata, self.net.parties)
                      for arc, edge in zip(party.arcs, frame.body.automaton.edges)}
        self.lines = [0] + [at + 1 for at, character in enumerate(text) if character == "\n"]

    # ---- names

    def locations(self, number):
        """The names of the locations of an automaton."""
        return self.names[number]

    def location_variables(self):
        parties = self.net.parties
        names = zip(names_of("L", parties), names_of("P", parties))
        return [Held("LP", pair, it.path, "location", (0, it.places - 1), self.locations(number), it.first)
                for number, (pair, it) in enumerate(zip(names, parties))]

    def variables(self):
        return held("VQ", self.net.variables)

    def inputs(self):
        return held("IH", self.net.inputs)

    def algebraic(self):
        names = names_of("R", self.net.algebraic)
        return [Held("R", (name,), it.path, kind_word(it.kind), None, literals_of(it.kind), None) for name, it in zip(names, self.net.algebraic)]

    def outputs(self):
        """What the outputs of the program hold, in their order."""
        return self.location_variables() + self.variables() + self.algebraic()

    def output_names(self):
        return [it.names[-1] for it in self.outputs()]

    def input_names(self):
        return [it.names[0] for it in self.inputs()]

    # ---- events

    def place(self, at):
        """The line and the column of a byte, from 1."""
        low, high = 0, len(self.lines)
        while high - low > 1:
            middle = (low + high) // 2
            low, high = (middle, high) if self.lines[middle] <= at else (low, middle)
        return low + 1, at - self.lines[low] + 1

    def events(self, word):
        """The numbers of the events of a class, in the order in which a round tries them."""
        return [number for number, event in enumerate(self.net.events) if event.word == word]

    def ways(self, event):
        """What each automaton that takes part in an event may do."""
        found = []
        for role in (SENDS, RECEIVES, SYNCS):
            for number, ways in self.net.ways[event, role]:
                found += [(number, self.way(number, role, arc)) for arc in ways]
        return [way for _, way in sorted(found, key=lambda it: it[0])]

    def way(self, number, role, arc):
        path, names = self.net.parties[number].path, self.locations(number)
        if arc is None:
            return Way(path, None, None, None, None, None)
        edge = self.edges[id(arc)]
        return Way(path, role, names[arc.origin], names[arc.target], self.place(edge.use.at), edge)

    def unclassed(self):
        """The first event without a class, for which no program is written, or None."""
        return next((event.path for event in self.net.events if event.word == "event"), None)


def read(file, text):
    """The source and its net."""
    due, net = lexed(text)[1], None
    try:
        if not due:
            source = MarkedSource(text)
            due, net = broken(source)
    except (Unread, RecursionError):
        due = {("NotRead",)}
    if due:
        status = PROFILE if {it[0] for it in due} == {"TooManyChoices"} else SOURCE
        raise of_file(status, file, f"refused; cif check {file} says why")
    return source, net


def load(file):
    return Model(file, content(file, MOST_SOURCE))


def load_classed(file):
    """A source that has a program: each event has a class."""
    model = load(file)
    if unclassed(model.net):
        raise of_file(PROFILE, file, f"28 Unclassed event {model.unclassed()}")
    return model


def kind_word(kind):
    return kind if kind in ("bool", "int") else "enum"


def literals_of(kind):
    return None if kind in ("bool", "int") else list(kind)


def held(letters, things):
    names = zip(names_of(letters[0], things), names_of(letters[1], things))
    return [Held(letters, pair, it.path, kind_word(it.kind), it.range, literals_of(it.kind), it.first) for pair, it in zip(names, things)]
