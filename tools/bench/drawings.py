"""`draw`: the automata of a source as a Graphviz file (DOT), each in a box of its own, instances with their full paths.

A location that is initial has an arrow without a beginning, a marked one a double line. An edge with controllable events is solid, one
with uncontrollable events dashed, and one with events without a class dotted; one that leads back to its location is an arrow from its
label. Below stand the algebraic variables and the invariants.
"""
import textwrap

from plain_names import ALG, DISC
from plain_algebra import definitions_of
from plain_nets import declared_in, dotted, event_of

from bench import expressions
from bench.models import NAMELESS, load

# How many letters a line of a label has at the most, and one of those below the automata.
WIDTH, WIDE = 44, 90
STYLES = {"controllable": "solid", "uncontrollable": "dashed", "event": "dotted"}
HEAD = """digraph automata {
  graph [fontname="Helvetica", fontsize=12, rankdir=LR, nodesep=0.3, ranksep=0.4, labelloc=b, labeljust=l];
  node [fontname="Helvetica", fontsize=11, shape=box, style="rounded,filled", fillcolor="#f3f6fa", color="#24292f", margin="0.12,0.06"];
  edge [fontname="Helvetica", fontsize=10, color="#24292f", arrowsize=0.7];"""


def quoted(text):
    """A text in quotes, with its lines centred."""
    return '"' + text.replace("\\", "\\\\").replace('"', '\\"').replace("\n", "\\n") + '"'


def wrapped(text, width=WIDTH):
    return "\n".join(textwrap.wrap(text, width, break_long_words=False, break_on_hyphens=False)) or text


def left(texts, width):
    """Lines that begin at the left."""
    lines = [line for text in texts for line in wrapped(text, width).split("\n")]
    return '"' + "".join(line.replace("\\", "\\\\").replace('"', '\\"') + "\\l" for line in lines) + '"'


class Drawing:
    """The automata of a source, with what is written of them."""

    def __init__(self, model):
        self.model = model
        self.held = {it.path: it for it in model.variables()}

    def lines(self):
        yield HEAD
        yield from self.notes()
        # (from left to right Graphviz puts the first one at the bottom)
        for number, frame in reversed(list(enumerate(self.model.automata))):
            yield from self.automaton(number, frame)
        yield "}"

    # ---- an automaton

    def automaton(self, number, frame):
        automaton, net = frame.body.automaton, self.model.net
        yield f"  subgraph cluster{number} {{"
        yield f"    label={left(self.title(number, frame), WIDTH)}; labelloc=t; labeljust=l; style=rounded; color=\"#8c959f\";"
        first = net.parties[number].first
        yield f"    begin{number} [shape=point, style=invis, width=0, height=0, margin=0, label=\"\"];"
        for place, name in enumerate(self.model.locations(number)):
            is_marked = (frame.body, place) in self.model.source.marks
            label = "" if name == NAMELESS else name
            yield f"    at{number}_{place} [label={quoted(label)}{', peripheries=2' if is_marked else ''}];"
        yield f"    begin{number} -> at{number}_{first};"
        for count, edges in enumerate(together(automaton.edges)):
            yield from self.edge(number, frame, edges, f"on{number}_{count}")
        yield "  }"

    def title(self, number, frame):
        """The path of an automaton, its variables with their first values, and what it monitors."""
        party, lines = self.model.net.parties[number], []
        for one, slot in declared_in([frame], DISC):
            held = self.held[dotted(one, slot)]
            lines.append(f"{held.path}: {self.type_of(held)} = {self.first_of(held)}")
        if party.monitors:
            events = [self.model.net.events[event].path for event in sorted(party.monitors)]
            lines.append("monitor " + ", ".join(events))
        return [party.path] + lines

    def type_of(self, held):
        if held.literals:
            return "{" + ", ".join(held.literals) + "}"
        return f"{held.range[0]} .. {held.range[1]}" if held.kind == "int" else "bool"

    def first_of(self, held):
        if held.literals:
            return held.literals[held.first]
        return ("false", "true")[held.first] if held.kind == "bool" else held.first

    def edge(self, number, frame, edges, name):
        """An arrow for the events of an edge as written. One that leads back comes from its label, which keeps labels apart."""
        it, places = edges[0], frame.body.automaton.places
        target = it.origin if it.target is None else places.index(it.target)
        begin, end, label, style = f"at{number}_{it.origin}", f"at{number}_{target}", quoted(self.label(frame, edges)), self.style(frame, edges)
        if it.origin != target:
            yield f"    {begin} -> {end} [label={label}, style={style}];"
            return
        yield f"    {name} [shape=plaintext, style=\"\", fontsize=10, margin=\"0.05,0.03\", label={label}];"
        yield f"    {begin} -> {name} [dir=back, style={style}];"

    def label(self, frame, edges):
        """The events of an edge, its guards and its updates."""
        it, texts = edges[0], [", ".join(expressions.use(frame, one.use) for one in edges)]
        if it.guards:
            texts.append("when " + expressions.several(frame, it.guards))
        if it.updates:
            texts.append("do " + expressions.updates(frame, it.updates))
        return "\n".join(map(wrapped, texts))

    def style(self, frame, edges):
        words = {event_of(frame, one.use)[1].word for one in edges}
        return STYLES[words.pop()] if len(words) == 1 else "solid"

    # ---- what is in no automaton

    def notes(self):
        """The algebraic variables and the invariants of all components, below the automata."""
        algebraic, invariants = [], []
        for frame in self.model.frames:
            algebraic += self.algebraic(frame)
            invariants += ["invariant " + expressions.invariant(frame, it) for it in frame.body.invariants]
        if algebraic or invariants:
            yield f"  label={left([''] + algebraic + invariants, WIDE)};"

    def algebraic(self, frame):
        own = definitions_of(frame.body)
        for _, slot in declared_in([frame], ALG):
            for it in own[slot.name]:
                value = f"{dotted(frame, slot)} = {expressions.expression(frame, it.value)}"
                at = None if it.place is None else frame.body.automaton.places[it.place]
                yield f"alg {value}" if at is None else f"alg {value}, at {'.'.join(frame.path() + (at,))}"


def together(edges):
    """The edges of each edge as written, which has several events."""
    found = []
    for edge in edges:
        if found and found[-1][0].together is edge.together:
            found[-1].append(edge)
        else:
            found.append([edge])
    return found


def run(file):
    """The answer to `draw FILE`."""
    return "\n".join(Drawing(load(file)).lines()) + "\n"
