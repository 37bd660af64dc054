"""Runs a source by a script or by its first events, and gives the reasons for which an event has no step.

Plain and slow on purpose, and shares nothing with the program. Of `plain_nets.py` it takes what a source declares; its steps are a search
over all choices: an edge or STAYS for every automaton (CIF 3 language reference, "Synchronization", "Channels", "Monitoring", "Updates",
"Invariants"). A state has the places of all automata, then the values of all variables, and then those of all inputs.
"""
import itertools
import re
from collections import namedtuple

from plain_channels import RECEIVES, SENDS, SYNCS, VOID
from plain_data import Set, updates_in
from plain_expressions import GREATEST, LEAST, evaluated
from plain_nets import Net, automata_in, components_of
from plain_sources import Source

# The most bytes of a source and of a script.
MOST_BYTES, MOST_STEPS = 4194304, 1000000
DONE, STOPPED, NO_EVENT = 0, 13, 16
STAYS = None

# The status of a command, the bytes of its output, and its line on standard error.
Answer = namedtuple("Answer", "status out err")
# A value that an edge assigns: its number among the values of the edge, the place of its variable in a state, and the value.
Write = namedtuple("Write", "number target value")
# A choice that agrees with an event: its edges, each with the number of its automaton, what they send, or None, what they assign, each
# with automaton and edge, and the state after it.
Taken = namedtuple("Taken", "moves sent writes after")
# An exclusion of one event, in the order of the source.
Exclusion = namedtuple("Exclusion", "event predicate")

# A reason is its name and its numbers. Reasons come in this order.
NO_ROLE, BLOCKS, NO_SENDER, NO_RECEIVER, EXCLUDED, LEAVES, BREAKS = (
    "NoRole", "Blocks", "NoSender", "NoReceiver", "Excluded", "Leaves", "Breaks")


class Stop(Exception):
    """A script stops at a line; the text is the refusal."""


class Steps:
    """The steps of a source that breaks no rule."""

    def __init__(self, text):
        source = Source(text)
        self.net = Net(source)
        frames, _ = components_of(source)
        self.parties, self.events, self.ranges = self.net.parties, self.net.events, self.net.ranges
        self.automata = [frame.body.automaton for frame in automata_in(frames)]
        self.exclusions = list(self.all_exclusions(frames))
        self.invariants = self.net.invariants
        self.roles = [self.roles_of(event) for event in range(len(self.events))]

    def all_exclusions(self, frames):
        """One for each event that an exclusion of the source names."""
        left = {event: iter(found) for event, found in self.net.exclusions.items()}
        for frame in frames:
            for it in frame.body.invariants:
                for use in it.events:
                    event = self.net.number(frame, use)
                    yield Exclusion(event, next(left[event]))

    def roles_of(self, event):
        """The roles that each automaton has for the event."""
        return [({SYNCS} if event in party.alphabet else set()) | {arc.role for arc in party.arcs if arc.event == event}
                for party in self.parties]

    def is_channel(self, event):
        return self.events[event].channel is not None

    def initial(self):
        return self.net.initial()

    # choices

    def is_ready(self, number, edge, state):
        """Whether the edge of the automaton begins at its place and has a true guard."""
        arc = self.parties[number].arcs[edge]
        return arc.origin == state[number] and evaluated(arc.guard, state) == 1

    def ready(self, number, event, state, role=None):
        """The edges of the automaton for the event, in that role or in any, that are ready."""
        return [edge for edge, arc in enumerate(self.parties[number].arcs)
                if arc.event == event and role in (None, arc.role) and self.is_ready(number, edge, state)]

    def monitors(self, number, event):
        return event in self.parties[number].monitors

    def fits(self, number, edge, event, state):
        """Whether an automaton that synchronises on the event may do so by this edge, or by STAYS."""
        if edge is not STAYS:
            return True
        return self.monitors(number, event) and not self.ready(number, event, state)

    def moving(self, choice, event, role):
        """The automata that take an edge for the event in that role."""
        return [number for number, edge in enumerate(choice) if edge is not STAYS and self.parties[number].arcs[edge].role == role]

    def agrees(self, choice, event, state):
        """Whether a choice of ready edges, one or STAYS for every automaton, is one of the event."""
        if not any(self.roles[event]):
            return False
        if any(SYNCS in roles and not self.fits(number, choice[number], event, state) for number, roles in enumerate(self.roles[event])):
            return False
        counts = len(self.moving(choice, event, SENDS)), len(self.moving(choice, event, RECEIVES))
        return counts == ((1, 1) if self.is_channel(event) else (0, 0))

    def agreeing(self, event, state):
        """The choices that agree, in the order in which they are tried: by sender, by receiver, and then by the edges of all automata,
        STAYS being the last."""
        ways = [self.ready(number, event, state) + [STAYS] for number in range(len(self.parties))]
        found = [choice for choice in itertools.product(*ways) if self.agrees(choice, event, state)]
        return sorted(found, key=lambda choice: (self.moving(choice, event, SENDS), self.moving(choice, event, RECEIVES)))

    # what a choice does

    def sent(self, moves, state):
        """What the edges send, or None."""
        found = [arc.sent for arc in (self.parties[number].arcs[edge] for number, edge in moves) if arc.sent is not None]
        return evaluated(found[0], state) if found else None

    def first_number(self, number, edge):
        """The number of the first right side of the edge: a value that it sends comes first."""
        return int(self.parties[number].arcs[edge].sent is not None)

    def taken(self, choice, state):
        """What a choice does in a state, whatever it leads to. All that is read is the state before, and what is sent."""
        moves = [(number, edge) for number, edge in enumerate(choice) if edge is not STAYS]
        sent = self.sent(moves, state)
        writes = self.all_writes(moves, state, 0 if sent is None else sent)
        after = list(state)
        for number, edge in moves:
            after[number] = self.parties[number].arcs[edge].target
        for _, _, write in writes:
            after[write.target] = write.value
        return Taken(moves, sent, writes, tuple(after))

    def all_writes(self, moves, state, received):
        return [(number, edge, write) for number, edge in moves
                for write in self.written(self.parties[number].arcs[edge].updates, self.first_number(number, edge), state + (received,))[0]]

    def written(self, updates, number, state):
        """What updates assign in a state, the first right side having this number, and the number behind the last one. The right sides of
        branches that are not taken are counted too."""
        found = []
        for update in updates:
            if isinstance(update, Set):
                found.append(Write(number, update.target, evaluated(update.value, state)))
                number += 1
                continue
            is_open = True
            for condition, inner in update.branches + [(None, update.other)]:
                writes, number = self.written(inner, number, state)
                if is_open and (condition is None or evaluated(condition, state) == 1):
                    found, is_open = found + writes, False
        return found, number

    def is_in_channel(self, value, event):
        channel = self.events[event].channel
        return value is None or channel in (None, VOID) or channel[0] <= value <= channel[1]

    def is_in_range(self, write):
        lo, hi = self.ranges[write.target]
        return lo <= write.value <= hi

    def fits_all(self, taken, event):
        """Whether what is sent and what is assigned is in range."""
        return self.is_in_channel(taken.sent, event) and all(self.is_in_range(write) for _, _, write in taken.writes)

    def forbids(self, exclusion, event, state):
        it = exclusion.predicate
        return exclusion.event == event and (evaluated(it.expr, state) == 1) != it.is_needed

    def is_forbidden(self, event, state):
        return any(self.forbids(it, event, state) for it in self.exclusions)

    def broken(self, state, taken):
        """The state invariants that are false after a choice."""
        return [number for number, it in enumerate(self.invariants) if evaluated(it.expr, taken.after) != 1]

    def steps(self, event, state):
        """The states to which the choices lead that make a step, in their order."""
        for choice in [] if self.is_forbidden(event, state) else self.agreeing(event, state):
            taken = self.taken(choice, state)
            if self.fits_all(taken, event) and not self.broken(state, taken):
                yield taken.after

    def step(self, event, state):
        """The state after the first choice that makes a step, or None."""
        return next(iter(self.steps(event, state)), None)

    def first(self, state):
        """The lowest-numbered event that has a step, or None."""
        return next((event for event in range(len(self.events)) if self.step(event, state) is not None), None)


class Reasons(Steps):
    """Why an event has no step."""

    def lacks(self, event, role, state):
        """Whether the event is a channel that automata take part in, of which none can in that role."""
        return self.is_channel(event) and any(self.roles[event]) and not any(
            self.ready(number, event, state, role) for number in range(len(self.parties)))

    def blocks(self, number, event, state):
        return SYNCS in self.roles[event][number] and not self.monitors(number, event) and not self.ready(number, event, state)

    def tried(self, event, state):
        """The choices that agree."""
        return self.agreeing(event, state)

    def leaving(self, taken, event):
        """The values that leave their ranges in a choice, each as automaton, edge and number. What is assigned is in question only where
        what is sent is in range."""
        if not self.is_in_channel(taken.sent, event):
            return {(number, edge, 0) for number, edge in taken.moves if self.parties[number].arcs[edge].sent is not None}
        return {(number, edge, write.number) for number, edge, write in taken.writes if not self.is_in_range(write)}

    def breaking(self, state, taken):
        """The state invariants that a choice breaks whose values are in range."""
        return self.broken(state, taken)

    def reasons(self, event, state):
        """All that hold, in order; none where the event has a step."""
        if self.step(event, state) is not None:
            return []
        found = [] if any(self.roles[event]) else [(NO_ROLE,)]
        found += [(BLOCKS, number) for number in range(len(self.parties)) if self.blocks(number, event, state)]
        found += [(word,) for word, role in ((NO_SENDER, SENDS), (NO_RECEIVER, RECEIVES)) if self.lacks(event, role, state)]
        found += [(EXCLUDED, number) for number, it in enumerate(self.exclusions) if self.forbids(it, event, state)]
        leaves, breaks = set(), set()
        for choice in self.tried(event, state):
            taken = self.taken(choice, state)
            leaves |= self.leaving(taken, event)
            if self.fits_all(taken, event):
                breaks |= set(self.breaking(state, taken))
        return found + [(LEAVES, *it) for it in sorted(leaves)] + [(BREAKS, it) for it in sorted(breaks)]

    # lines

    def value_shown(self, number, edge, value):
        """The place and the path of a value of an edge: the sent value and the event, or the assigned name and the variable."""
        written, arc = self.automata[number].edges[edge], self.parties[number].arcs[edge]
        found = [] if arc.sent is None else [(written.use.sent.at, self.events[arc.event].path)]
        for one, other in zip(updates_in(written.updates), updates_in(arc.updates)):
            found.append((one.target.at, self.net.variables[other.target - len(self.parties)].path))
        return "%d %s" % found[value]

    def reason_shown(self, reason):
        word, numbers = reason[0], reason[1:]
        if word == BLOCKS:
            return "blocks " + self.parties[numbers[0]].path
        if word == EXCLUDED:
            return f"excluded {self.exclusions[numbers[0]].predicate.at}"
        if word == BREAKS:
            return f"breaks {self.invariants[numbers[0]].at}"
        if word == LEAVES:
            return "leaves " + self.value_shown(*numbers)
        return {NO_ROLE: "no automaton takes part", NO_SENDER: "no sender", NO_RECEIVER: "no receiver"}[word]

    def reasons_shown(self, reasons):
        return "".join(self.reason_shown(it) + "\n" for it in reasons) or "enabled\n"


class Shown(Reasons):
    """The lines of a run."""

    def location_shown(self, number, place):
        return self.automata[number].places[place] or "*"

    def value_of(self, kind, value):
        """A value as it is written: a truth, a whole number, or the name of a literal."""
        if kind == "bool":
            return "true" if value else "false"
        return str(value) if kind == "int" else kind[value]

    def objects(self, state):
        """The automata and then the variables, each with its value."""
        count = len(self.parties)
        for number, party in enumerate(self.parties):
            yield f"{party.path}={self.location_shown(number, state[number])}"
        for it, value in zip(self.net.variables, state[count:]):
            yield f"{it.path}={self.value_of(it.kind, value)}"

    def line(self, *words):
        return " ".join(words) + "\n"

    def start_line(self, state):
        return self.line("start", *self.objects(state))

    def set_line(self, number, value):
        it = self.net.inputs[number]
        return self.line("set", f"{it.path}={self.value_of(it.kind, value)}")

    def changed(self, before, after):
        """The automata and then the variables whose value is another one after, each with it."""
        return [shown for place, shown in enumerate(self.objects(after)) if before[place] != after[place]]

    def step_line(self, count, event, before, after):
        return self.line("step", str(count), self.events[event].path, *self.changed(before, after))


class Simulator(Shown):
    """The commands `simulate` and `why` on one source."""

    # scripts

    def lines_of(self, script):
        """The lines of a script. One carriage return at the end of a line is dropped."""
        return [line.removesuffix(b"\r") for line in script.split(b"\n")]

    def number_of(self, things, path):
        """The number of the event or the input with this full path, or None."""
        return next((number for number, it in enumerate(things) if it.path.encode() == path), None)

    def value_read(self, number, text):
        """The value that a script gives the input, or None."""
        kind = self.net.inputs[number].kind
        if kind == "bool":
            return {b"true": 1, b"false": 0}.get(text)
        if kind == "int":
            return decimal(text)
        return next((place for place, name in enumerate(kind) if name.encode() == text), None)

    def action(self, line):
        """What a line says: nothing, an input and its value, or an event. Stop where it says none of these."""
        parts = line.split(b" ")
        if line == b"":
            return ()
        if parts[0] == b"fire" and len(parts) == 2:
            event = self.number_of(self.events, parts[1])
            if event is not None:
                return (event,)
        if parts[0] == b"set" and len(parts) == 3:
            number = self.number_of(self.net.inputs, parts[1])
            value = None if number is None else self.value_read(number, parts[2])
            if value is not None:
                return number, value
        raise Stop("29 BadLine")

    def with_input(self, state, number, value):
        """The state with a value for an input. Stop where it is out of range."""
        lo, hi = self.net.inputs[number].range
        if not lo <= value <= hi:
            raise Stop(f"26 OutOfRange value {value}")
        place = len(state) - len(self.net.inputs) + number
        return state[:place] + (value,) + state[place + 1:]

    def obeyed(self, line, state, count):
        """The state after a line of a script, how many steps were made then, and the line of the run."""
        action = self.action(line)
        if len(action) == 2:
            return self.with_input(state, *action), count, self.set_line(*action)
        if not action:
            return state, count, ""
        after = self.step(action[0], state)
        if after is None:
            raise Stop("27 NotEnabled")
        return after, count + 1, self.step_line(count + 1, action[0], state, after)

    def run(self, script):
        """The state after a script, the lines of the run, and where it stops, or None."""
        state, count = self.initial(), 0
        out = self.start_line(state)
        for number, line in enumerate(self.lines_of(script), 1):
            try:
                state, count, written = self.obeyed(line, state, count)
            except Stop as stop:
                return state, out, f"line {number}: {stop}"
            out += written
        return state, out, None

    # commands

    def simulated(self, script, name="script"):
        """`simulate FILE SCRIPT`."""
        _, out, stop = self.run(script)
        return Answer(STOPPED, out.encode(), f"cif: {name}: {stop}\n".encode()) if stop else Answer(DONE, out.encode(), b"")

    def simulated_first(self, most):
        """`simulate FILE --first N`."""
        state = self.initial()
        out = self.start_line(state)
        for count in range(1, most + 1):
            event = self.first(state)
            if event is None:
                return Answer(DONE, (out + "deadlock\n").encode(), b"")
            before, state = state, self.step(event, state)
            out += self.step_line(count, event, before, state)
        return Answer(DONE, out.encode(), b"")

    def explained(self, script, path, name="script"):
        """`why FILE SCRIPT EVENT`."""
        event = self.number_of(self.events, path)
        if event is None:
            return Answer(NO_EVENT, b"", b"cif: 54 NoEvent\n")
        state, _, stop = self.run(script)
        if stop:
            return Answer(STOPPED, b"", f"cif: {name}: {stop}\n".encode())
        return Answer(DONE, self.reasons_shown(self.reasons(event, state)).encode(), b"")


def decimal(text):
    """The value of a canonical decimal of 64 bits, or None."""
    if not re.fullmatch(rb"0|-?[1-9][0-9]{0,18}", text):
        return None
    value = int(text)
    return value if LEAST <= value <= GREATEST else None
