"""Wrong simulators, each of which a worked example of `worked_runs.py` has to refuse."""
from plain_channels import RECEIVES, SENDS, SYNCS
from plain_data import Set
from plain_expressions import evaluated
from plain_runs import STAYS, Simulator, Stop, Write

# ---- wrong steps


class InSequence(Simulator):
    """The updates of an edge read what those before them assigned."""

    def written(self, updates, number, state):
        found, state = [], list(state)
        for update in updates:
            writes, number = super().written([update], number, tuple(state))
            for write in writes:
                state[write.target] = write.value
            found += writes
        return found, number


class EarlierParties(Simulator):
    """An edge reads what the automata before its own assigned, and where they went."""

    def all_writes(self, moves, state, received):
        found, state = [], list(state)
        for number, edge in moves:
            writes = super().all_writes([(number, edge)], tuple(state), received)
            state[number] = self.parties[number].arcs[edge].target
            for _, _, write in writes:
                state[write.target] = write.value
            found += writes
        return found


class LastChoice(Simulator):
    """The last choice that makes a step is taken."""

    def step(self, event, state):
        return next(reversed(list(self.steps(event, state))), None)


class FirstChoiceAlone(Simulator):
    """No choice is tried but the first that agrees."""

    def agreeing(self, event, state):
        return super().agreeing(event, state)[:1]


class ReceiversFirst(Simulator):
    """The choices of a channel go by the receivers, and then by the senders."""

    def agreeing(self, event, state):
        found = super().agreeing(event, state)
        return sorted(found, key=lambda choice: (self.moving(choice, event, RECEIVES), self.moving(choice, event, SENDS)))


class MonitorStays(Simulator):
    """An automaton that monitors the event stays, whatever edges it has."""

    def fits(self, number, edge, event, state):
        return (edge is STAYS) == self.monitors(number, event)


class MonitorMayStay(Simulator):
    """An automaton that monitors the event may stay although it has an edge that is ready."""

    def fits(self, number, edge, event, state):
        return edge is not STAYS or self.monitors(number, event)


class MonitorBlocks(Simulator):
    """An automaton that monitors the event takes an edge or keeps it from happening."""

    def fits(self, number, edge, event, state):
        return edge is not STAYS


class NobodyAgrees(Simulator):
    """An event in no role has a step."""

    def step(self, event, state):
        return super().step(event, state) if any(self.roles[event]) else state


class InvariantBefore(Simulator):
    """State invariants hold before the step."""

    def broken(self, state, taken):
        return super().broken(state, taken._replace(after=state))


class Unbounded(Simulator):
    """What is assigned may leave its range."""

    def is_in_range(self, write):
        return True


class BelowTheLast(Simulator):
    """The greatest value of a range is not in it."""

    def is_in_range(self, write):
        return super().is_in_range(write) and write.value != self.ranges[write.target][1]


class SentUnbounded(Simulator):
    """What is sent may leave the range of its channel."""

    def is_in_channel(self, value, event):
        return True


class NeedsDisables(Simulator):
    """What an event needs disables it."""

    def forbids(self, exclusion, event, state):
        return super().forbids(exclusion._replace(predicate=exclusion.predicate._replace(is_needed=False)), event, state)


class FirstEventAlone(Simulator):
    """An exclusion of several events is one of the first."""

    def __init__(self, text):
        super().__init__(text)
        seen = set()
        for number, it in enumerate(self.exclusions):
            if it.predicate.at in seen:
                self.exclusions[number] = it._replace(event=None)
            seen.add(it.predicate.at)


class StaysUnmoved(Simulator):
    """Edges change values, and no places."""

    def taken(self, choice, state):
        taken, count = super().taken(choice, state), len(self.parties)
        return taken._replace(after=state[:count] + taken.after[count:])


# ---- wrong runs

class DeadlockAfterLowest(Simulator):
    """There is a deadlock where the lowest event has no step."""

    def first(self, state):
        return 0 if self.events and self.step(0, state) is not None else None


class HighestFirst(Simulator):
    """The highest event that has a step is taken."""

    def first(self, state):
        return next((event for event in reversed(range(len(self.events))) if self.step(event, state) is not None), None)


class DeadlockAtOnce(Simulator):
    """A deadlock is written after step N, too."""

    def simulated_first(self, most):
        answer = super().simulated_first(most + 1)
        return answer if answer.out.endswith(b"deadlock\n") else super().simulated_first(most)


class DeadlockLeftOut(Simulator):
    """A deadlock is not written."""

    def simulated_first(self, most):
        answer = super().simulated_first(most)
        return answer._replace(out=answer.out.removesuffix(b"deadlock\n"))


class FromZero(Simulator):
    """Steps are counted from 0."""

    def step_line(self, count, event, before, after):
        return super().step_line(count - 1, event, before, after)


class SetsCounted(Simulator):
    """A set input counts as a step."""

    def obeyed(self, line, state, count):
        after, made, written = super().obeyed(line, state, count)
        return after, made + written.startswith("set "), written


class EmptyCounted(Simulator):
    """An empty line counts as a step."""

    def obeyed(self, line, state, count):
        after, made, written = super().obeyed(line, state, count)
        return after, made + (written == ""), written


class EmptyLeftOut(Simulator):
    """Empty lines are not counted as lines."""

    def lines_of(self, script):
        return [line for line in super().lines_of(script) if line]


class LinesFromZero(Simulator):
    """Lines are counted from 0."""

    def run(self, script):
        state, out, stop = super().run(script)
        return state, out, stop and stop.replace(stop.split(":")[0], "line %d" % (int(stop.split(":")[0][5:]) - 1))


class ReturnKept(Simulator):
    """A carriage return at the end of a line belongs to it."""

    def lines_of(self, script):
        return script.split(b"\n")


class ReturnsDropped(Simulator):
    """All carriage returns at the end of a line are dropped."""

    def lines_of(self, script):
        return [line.rstrip(b"\r") for line in script.split(b"\n")]


class LastReturnKept(Simulator):
    """A carriage return without a line feed behind it is kept."""

    def lines_of(self, script):
        found = super().lines_of(script)
        return found[:-1] + [script.split(b"\n")[-1]]


class BlanksDropped(Simulator):
    """Any blanks stand between the parts of a line, and round them."""

    def action(self, line):
        return super().action(b" ".join(line.split()))


class FormFirst(Simulator):
    """All lines are read before the first one is obeyed."""

    def run(self, script):
        for number, line in enumerate(self.lines_of(script), 1):
            try:
                self.action(line)
            except Stop as stop:
                return self.initial(), self.start_line(self.initial()), f"line {number}: {stop}"
        return super().run(script)


class StartLeftOut(Simulator):
    """A script that stops at its first line writes nothing."""

    def run(self, script):
        state, out, stop = super().run(script)
        return state, "" if stop and stop.startswith("line 1:") else out, stop


class TrimmedNames(Simulator):
    """A path may be written with what marks a name in a source."""

    def number_of(self, things, path):
        return super().number_of(things, path.lstrip(b".").replace(b"$", b""))


class LastPart(Simulator):
    """The last part of a path is enough."""

    def number_of(self, things, path):
        return next((number for number, it in enumerate(things) if it.path.encode().split(b".")[-1] == path), super().number_of(things, path))


class Pythonic(Simulator):
    """Whole numbers are read as Python reads them."""

    def value_read(self, number, text):
        if self.net.inputs[number].kind != "int":
            return super().value_read(number, text)
        try:
            return int(text.decode("latin-1"))
        except ValueError:
            return None


class Places(Simulator):
    """Truths and literals may be given by their numbers."""

    def value_read(self, number, text):
        found = super().value_read(number, text)
        return found if found is not None or self.net.inputs[number].kind == "int" else {b"0": 0, b"1": 1}.get(text)


class TruthsFirst(Simulator):
    """`true` and `false` are truths for every input."""

    def value_read(self, number, text):
        return {b"true": 1, b"false": 0}.get(text, super().value_read(number, text))


class OutOfRangeIsBad(Simulator):
    """A value out of range is no value of its input."""

    def with_input(self, state, number, value):
        try:
            return super().with_input(state, number, value)
        except Stop:
            raise Stop("29 BadLine") from None


class SetUnbounded(Simulator):
    """An input takes any value."""

    def with_input(self, state, number, value):
        place = len(state) - len(self.net.inputs) + number
        return state[:place] + (value,) + state[place + 1:]


class FirstInput(Simulator):
    """All inputs are the first one."""

    def with_input(self, state, number, value):
        super().with_input(state, number, value)
        place = len(state) - len(self.net.inputs)
        return state[:place] + (value,) + state[place + 1:]


class UnchangedLeftOut(Simulator):
    """An input that is set to the value that it has is left out."""

    def obeyed(self, line, state, count):
        after, made, written = super().obeyed(line, state, count)
        return after, made, written if after != state or not written.startswith("set ") else ""


class AllWritten(Simulator):
    """A step writes all objects."""

    def changed(self, before, after):
        return list(self.objects(after))


class VariablesFirst(Simulator):
    """Variables stand before automata."""

    def objects(self, state):
        found, count = list(super().objects(state)), len(self.parties)
        return found[count:] + found[:count]


class PlacesWritten(Simulator):
    """A location is written as its number."""

    def location_shown(self, number, place):
        return str(place)


class NumbersWritten(Simulator):
    """A literal is written as its number."""

    def value_of(self, kind, value):
        return super().value_of(kind if kind == "bool" else "int", value)


# ---- wrong reasons

class ExclusionsInAgreement(Simulator):
    """No choice agrees where an exclusion forbids the event."""

    def tried(self, event, state):
        return [] if self.is_forbidden(event, state) else super().tried(event, state)


class LeavesWithoutSent(Simulator):
    """What is assigned is in question also where what is sent is out of range."""

    def leaving(self, taken, event):
        found = super().leaving(taken, event)
        return found | {(number, edge, write.number) for number, edge, write in taken.writes if not self.is_in_range(write)}


class SentLeftOut(Simulator):
    """A sent value out of range is no reason."""

    def leaving(self, taken, event):
        return super().leaving(taken, event) if self.is_in_channel(taken.sent, event) else set()


class SentUncounted(Simulator):
    """The right sides of an edge that sends are numbered from 0."""

    def first_number(self, number, edge):
        return 0


class NumberedByBranch(Simulator):
    """The right sides of each branch are numbered from that of its `if` on."""

    def written(self, updates, number, state):
        found = []
        for update in updates:
            if isinstance(update, Set):
                found.append(Write(number, update.target, evaluated(update.value, state)))
                number += 1
                continue
            ends, is_open = [], True
            for condition, inner in update.branches + [(None, update.other)]:
                writes, end = self.written(inner, number, state)
                ends.append(end)
                if is_open and (condition is None or evaluated(condition, state) == 1):
                    found, is_open = found + writes, False
            number = max(ends)
        return found, number


class NumberedAsTaken(Simulator):
    """The right sides of branches that are not taken are not counted."""

    def written(self, updates, number, state):
        found, _ = super().written(updates, number, state)
        return [write._replace(number=number + k) for k, write in enumerate(found)], number + len(found)


class BreaksBefore(Simulator):
    """The invariants among the reasons are false before the step."""

    def breaking(self, state, taken):
        return super().breaking(state, taken._replace(after=state))


class BreaksFirst(Simulator):
    """Of the invariants that a choice breaks the first is a reason."""

    def breaking(self, state, taken):
        return super().breaking(state, taken)[:1]


class BreaksOutOfRange(Simulator):
    """Choices whose values leave their ranges break invariants, too."""

    def reasons(self, event, state):
        found = super().reasons(event, state)
        more = {("Breaks", number) for choice in self.tried(event, state) if found
                for number in self.broken(state, self.taken(choice, state))}
        return [it for it in found if it[0] != "Breaks"] + sorted(more)


class FirstChoiceTried(Simulator):
    """Values and invariants are those of the first choice that agrees."""

    def tried(self, event, state):
        return super().tried(event, state)[:1]


class LacksWithoutRole(Simulator):
    """A channel without any role has no sender and no receiver."""

    def lacks(self, event, role, state):
        return self.is_channel(event) and not any(self.ready(number, event, state, role) for number in range(len(self.parties)))


class LacksByEdges(Simulator):
    """Who has an edge that sends is a sender, wherever it is."""

    def lacks(self, event, role, state):
        return super().lacks(event, role, state) and not any(
            (arc.event, arc.role) == (event, role) for party in self.parties for arc in party.arcs)


class MonitorsBlock(Simulator):
    """An automaton that monitors the event may block it."""

    def blocks(self, number, event, state):
        return SYNCS in self.roles[event][number] and not self.ready(number, event, state)


class BlocksByPlace(Simulator):
    """Who has an edge from its place does not block, whatever the guard."""

    def blocks(self, number, event, state):
        party = self.parties[number]
        return super().blocks(number, event, state) and not any(
            (arc.event, arc.origin) == (event, state[number]) for arc in party.arcs)


class SendersBlock(Simulator):
    """An automaton that sends or receives and cannot blocks the event."""

    def blocks(self, number, event, state):
        return bool(self.roles[event][number]) and not self.monitors(number, event) and not self.ready(number, event, state)


class FirstReason(Simulator):
    """The first reason is the only one."""

    def reasons(self, event, state):
        return super().reasons(event, state)[:1]


class ReasonsOfSteps(Simulator):
    """An event that has a step has reasons, too."""

    def reasons(self, event, state):
        found = super().reasons(event, state)
        if found or self.step(event, state) is None:
            return found
        leaves = {("Leaves", *it) for choice in self.tried(event, state) for it in self.leaving(self.taken(choice, state), event)}
        breaks = {("Breaks", it) for choice in self.tried(event, state) for it in self.broken(state, self.taken(choice, state))}
        return sorted(leaves) + sorted(breaks)


class ShortPaths(Simulator):
    """A value that leaves its range has the last part of its path."""

    def value_shown(self, number, edge, value):
        place, path = super().value_shown(number, edge, value).split(" ")
        return place + " " + path.split(".")[-1]


class ScriptLeftOut(Simulator):
    """Reasons are those of the initial state."""

    def explained(self, script, path, name="script"):
        answer = super().explained(script, path, name)
        return answer if answer.status else super().explained(b"", path, name)


class ScriptFirst(Simulator):
    """The script is read before the event is looked up."""

    def explained(self, script, path, name="script"):
        *_, stop = self.run(script)
        return super().explained(script, self.events[0].path.encode() if stop and self.events else path, name)


class RunWritten(Simulator):
    """The lines of the run are written before the reasons."""

    def explained(self, script, path, name="script"):
        answer = super().explained(script, path, name)
        return answer._replace(out=self.run(script)[1].encode() + answer.out) if answer.status == 0 else answer


WRONG_STEPS = [
    InSequence, EarlierParties, LastChoice, FirstChoiceAlone, ReceiversFirst, MonitorStays, MonitorMayStay, MonitorBlocks, NobodyAgrees,
    InvariantBefore, Unbounded, BelowTheLast, SentUnbounded, NeedsDisables, FirstEventAlone, StaysUnmoved]
WRONG_RUNS = [
    DeadlockAfterLowest, HighestFirst, DeadlockAtOnce, DeadlockLeftOut, FromZero, SetsCounted, EmptyCounted, EmptyLeftOut, LinesFromZero,
    ReturnKept, ReturnsDropped, LastReturnKept, BlanksDropped, FormFirst, StartLeftOut, TrimmedNames, LastPart, Pythonic, Places, TruthsFirst,
    OutOfRangeIsBad, SetUnbounded, FirstInput, UnchangedLeftOut, AllWritten, VariablesFirst, PlacesWritten, NumbersWritten]
WRONG_REASONS = [
    ExclusionsInAgreement, LeavesWithoutSent, SentLeftOut, SentUncounted, NumberedByBranch, NumberedAsTaken, BreaksBefore, BreaksFirst,
    BreaksOutOfRange, FirstChoiceTried, LacksWithoutRole, LacksByEdges, MonitorsBlock, BlocksByPlace, SendersBlock, FirstReason, ReasonsOfSteps,
    ShortPaths, ScriptLeftOut, ScriptFirst, RunWritten]
WRONG = WRONG_STEPS + WRONG_RUNS + WRONG_REASONS
