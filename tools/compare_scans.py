#!/usr/bin/env python3
"""Compares the scans of generated programs with a simulation of their sources, on random automata that synchronise, with variables, inputs,
algebraic variables, channels, invariants and definitions, and without.

    tools/compare_scans.py PROGRAM [SOURCES [SEED]]
    tools/compare_scans.py --self-test

A scan takes a row of values for the inputs, which stay so throughout, makes its rounds of the uncontrollable events, and then those of
the controllable ones. A round takes the events of its class in ascending number, and for each the first choice that makes a step, if
there is one: the automata that have the event in their alphabet take an edge for it whose guard is so, or stay where they monitor it and
have no such edge, and along a channel one sends and another one receives. What the event needs and what disables it is asked of the state
before, what the edges send and assign is computed in it, and there is no step where a value leaves its range or a state invariant is
false after it. `generate` writes the program of a source, and `replay` gives the locations, the
values and those of the algebraic variables after each scan. Compared are that table, and the variables in which the program holds these.
And each scan is to be legal, by a search over all choices: a run of uncontrollable events and then one of controllable events leads from
one state to the next, where a run of fewer events than the bound of its class ends where none of the class has a step. The status is 1
where something differs. The simulation is in `plain_nets.py`; with `--self-test` it and the search are compared with worked examples, which the program is
asked for, too, and each of some wrong simulations is to differ from one of these.
"""
import itertools
import os
import random
import re
import sys
import tempfile
from collections import Counter, namedtuple

import worked_invariants
from plain_channels import VOID
from plain_nets import Net, Party, broken, line_of, names_of
from plain_sources import Source
from random_sources import (
    MAKERS, TRUTHS, agreed, channels_of, first_begin, has_data_by, is_changed, is_forbidden, is_heard, judged, made_file, reads_an_argument,
    rows_of, would_break)
from run_programs import Folder
from worked_channels import LEGAL as LEGAL_CHANNELS, SCANS as CHANNELS, WRONG

MOST_SCANS, DEFAULT_ROUNDS = 6, 100
# How many states the runs of a class in one scan may pass before the search gives up.
MOST_PASSED = 20000
# What is generated and replayed: a source, the words of its options, the most rounds of each class, and a file of rows.
Trial = namedtuple("Trial", "text options unc con file")


def rounds(choose, has_data):
    """The most rounds of a class as they are asked for, or None; fewer with variables, which pass more states."""
    return choose.choice([None, 1, 1, 2, 3, 4, 5, 6, 7, 10, 99, 101, 25 if has_data else choose.choice([1000, 9999, 10000])])


def made(choose):
    make = choose.choice(MAKERS)
    has_data = has_data_by(make)
    text, unc, con = make(choose), rounds(choose, has_data), rounds(choose, has_data)
    options = [[word, str(number)] for word, number in (("--unc", unc), ("--con", con)) if number is not None]
    choose.shuffle(options)
    file = made_file(choose, judged(text)[1], choose.randint(1, MOST_SCANS))
    return Trial(text, sum(options, []), unc or DEFAULT_ROUNDS, con or DEFAULT_ROUNDS, file)


def rows_alone(scans):
    """A file of so many rows for a program without inputs."""
    return "\n".join(["scan"] + ["%d" % scan for scan in range(1, scans + 1)] + [""])


# ---- legal scans

class TooMany(Exception):
    """The runs pass too many states to be searched."""


class Runs:
    """The runs of events of a class, by any choices."""

    def __init__(self, net, word):
        self.net, self.after = net, {}
        self.events = [number for number, event in enumerate(net.events) if event.word == word]

    def steps(self, state):
        """The states after a step."""
        if state not in self.after:
            self.after[state] = {after for event in self.events for after in self.net.moves(event, state)}
        return self.after[state]

    def all_steps(self, states):
        if len(self.after) > MOST_PASSED:
            raise TooMany
        return frozenset(after for state in states for after in self.steps(state))

    def ends(self, begins, least):
        """Where a run may end: after at least so many steps, or where none is left."""
        layers, numbers, layer = [], {}, frozenset(begins)
        while len(layers) < least and layer not in numbers:
            numbers[layer] = len(layers)
            layers.append(layer)
            layer = self.all_steps(layer)
            if sum(map(len, layers)) > MOST_PASSED:
                raise TooMany
        ended = {state for states in layers for state in states if not self.steps(state)}
        if len(layers) < least:
            # From here on the states after so many steps are those of before, again and again.
            first = numbers[layer]
            layer = layers[first + (least - first) % (len(layers) - first)]
        reached = set()
        while layer:
            reached |= layer
            layer = self.all_steps(layer) - reached
        return ended | reached


def is_legal(unc_runs, con_runs, unc, con, before, after):
    return after in con_runs.ends(unc_runs.ends({before}, unc), con)


def illegal_scans(net, trial, table, notes):
    """The numbers of the scans in a table that are not legal."""
    rows, before = rows_of(net, trial.file), net.initial()
    unc_runs, con_runs, found = Runs(net, "uncontrollable"), Runs(net, "controllable"), []
    for scan, (line, row) in enumerate(zip(table.splitlines()[1:], rows), 1):
        cells = line.split(",")[1:len(before) - len(row) + 1]
        begin, before = net.latched(before, row), tuple(int(TRUTHS.get(cell, cell)) for cell in cells) + tuple(row)
        try:
            if not is_legal(unc_runs, con_runs, trial.unc, trial.con, begin, before):
                found.append(scan)
            notes["scans searched"] += 1
        except TooMany:
            notes["scans not searched"] += 1
    return found


# ---- the comparison

BLOCK = re.compile(r"""\b(VAR|VAR_INPUT|VAR_OUTPUT)\b(.*?)\bEND_VAR\b""", re.S)
DECLARED = re.compile(r"""\b([IHLVPQR][0-9]\w*)\s*:\s*(BOOL|LINT)(?:\s*\(\s*(-?)\s*([0-9]+)\s*\.\.\s*(-?)\s*([0-9]+)\s*\))?
    (?:\s*:=\s*(?:(TRUE|FALSE)|(-?)\s*([0-9]+)))?\s*;""", re.X)


def declared(program):
    """The variables of a program that hold locations, values and inputs, by their blocks, inputs and outputs in their order: name, type,
    range, first value. What has no first value begins with FALSE, its least number, or 0."""
    found = {"VAR": [], "VAR_INPUT": [], "VAR_OUTPUT": []}
    for block, inner in BLOCK.findall(program):
        for name, type_, low_sign, low, high_sign, high, truth, sign, first in DECLARED.findall(inner):
            bounds = (int(low_sign + low), int(high_sign + high)) if low else None
            begin = int(truth == "TRUE") if truth else int(sign + first) if first else bounds[0] if bounds else 0
            found[block].append((name, type_, bounds, begin))
    found["VAR"].sort()
    return found


def wanted_variables(net):
    def of_letter(letter, things):
        return [(name,) + it for name, it in zip(names_of(letter, things), map(held_as, things))]
    outputs = of_letter("P", net.parties) + of_letter("Q", net.variables)
    outputs += [(name, "BOOL" if it.kind == "bool" else "LINT", None, 0) for name, it in zip(names_of("R", net.algebraic), net.algebraic)]
    held = of_letter("L", net.parties) + of_letter("V", net.variables) + of_letter("H", net.inputs)
    return {"VAR": sorted(held), "VAR_INPUT": of_letter("I", net.inputs), "VAR_OUTPUT": outputs}


def held_as(it):
    """The type, range and first value of what holds the place of an automaton, a variable or an input."""
    if isinstance(it, Party):
        return "LINT", (0, it.places - 1), it.first
    return ("BOOL", None, it.first) if it.kind == "bool" else ("LINT", it.range, it.first)


def answers(program, folder, trial):
    """What the program generates, and what it replays, or else what it tells."""
    folder = Folder(program, folder)

    def run(*words):
        ran = folder.run(*words)
        return "status %d %s" % (ran.status, ran.err.decode("latin-1")) if ran.status or ran.err else ran.out.decode("latin-1")

    folder.write("source", trial.text)
    generated = run("generate", "source", *trial.options)
    folder.write("program", generated)
    folder.write("rows", trial.file)
    return generated, run("replay", "program", "rows")


def noted(net, trial, notes):
    """Counts what the trial shows in its first scan."""
    net.steps = {}
    first = first_begin(net, trial.file)
    after, is_bounded = net.scan(trial.unc, trial.con, first)
    fired = {event for (event, _), end in net.steps.items() if end is not None}
    notes["move"] += after != first
    notes["run to a bound"] += is_bounded
    notes["fire an event of several automata"] += any(len(group) > 1 for event in fired for group in net.groups(event))
    notes["have an event that nobody takes part in"] += any(not net.groups(event) for event in range(len(net.events)))
    notes["have no automaton"] += not net.parties
    notes["have variables"] += bool(net.variables)
    notes["change a value"] += after[len(net.parties):] != first[len(net.parties):]
    notes["leave a range"] += leaves_a_range(net)
    notes["have instances"] += any(body.instances for body in Source(trial.text).bodies)
    notes["read an argument"] += any(map(reads_an_argument, net.exprs()))
    notes["have inputs"] += bool(net.inputs)
    notes["do otherwise by their inputs"] += bool(net.inputs) and is_heard(net, trial.file)
    notes["have algebraic variables"] += bool(net.algebraic)
    notes["have some that change"] += is_changed(net, trial.file)
    notes["have some by location"] += any(len(it.values) > 1 for it in net.algebraic)
    channels = channels_of(net)
    notes["have channels"] += bool(channels)
    notes["send along one"] += bool(channels & fired)
    notes["send a value along one"] += any(net.events[event].channel != VOID for event in channels & fired)
    notes["have a choice of who sends or receives"] += any(len(net.groups(event)) > 1 for event in channels & fired)
    notes["leave the range of a channel"] += sends_out_of_range(net)
    notes["have exclusions"] += any(net.exclusions.values())
    notes["are held back by one"] += is_forbidden(net)
    notes["have state invariants"] += bool(net.invariants)
    notes["would break one"] += would_break(net)


def leaves_a_range(net):
    """Whether a choice that agreed made no step since a value left its range, in a state that was met."""
    return any(net.after(choice, event, state) is None for choice, event, state in agreed(net))


def sends_out_of_range(net):
    """Whether what was sent in such a choice left the range of its channel."""
    return any(net.sent(choice, event, state) is None for choice, event, state in agreed(net))


def differences(program, folder, trial, notes):
    """What is wrong with the answers, a line for each."""
    _, net = judged(trial.text)
    generated, given = answers(program, folder, trial)
    noted(net, trial, notes)
    if generated.startswith("status "):
        return ["generate: %s" % generated]
    found, wanted = [], net.table(trial.unc, trial.con, rows_of(net, trial.file))
    if declared(generated) != wanted_variables(net):
        found.append("variables: wanted %s, given %s" % (wanted_variables(net), declared(generated)))
    if given != wanted:
        found.append("table: wanted %r, given %r" % (wanted, given))
    if not given.startswith("status "):
        found += ["scan %d is not legal" % scan for scan in illegal_scans(net, trial, given, notes)]
    return found


def main(program, sources=500, seed=1):
    program, choose, differ, notes = os.path.abspath(program), random.Random(seed), 0, Counter()
    with tempfile.TemporaryDirectory() as folder:
        for trial in itertools.chain(worked_trials(), (made(choose) for _ in range(sources))):
            found = differences(program, folder, trial, notes)
            if found:
                differ += 1
                print("%r %s, rows %r\n  %s" % (trial.text, " ".join(trial.options), trial.file, "\n  ".join(found)))
    searched = "%d scans searched, %d not" % (notes.pop("scans searched", 0), notes.pop("scans not searched", 0))
    shown = ", ".join("%d %s" % (count, what) for what, count in sorted(notes.items()))
    print("%d sources and the worked examples, of which in the first scan %s; %s: %d differences" % (sources, shown, searched, differ))
    return 1 if differ else 0


# ---- worked examples: a source, the most rounds of each class, and the table of so many scans

WORKED = [
    ("plant A: uncontrollable u; controllable c; location x: initial; edge u goto y; location y: edge c goto x; end", 3, 3,
     "scan,P0_A\n1,0\n"),
    # what monitors stays where it has no edge, and moves where it has one
    ("controllable e; plant A: location p: initial; edge e goto q; location q; end "
     "automaton B: monitor e; location x: initial; location y: edge e; end", 100, 100, "scan,P0_A,P1_B\n1,1,0\n2,1,0\n"),
    ("uncontrollable u; plant A: location p: initial; edge u goto q; location q; end "
     "automaton B: monitor u; location x: initial; edge u goto y; location y; end", 100, 100, "scan,P0_A,P1_B\n1,1,1\n"),
    # who monitors alone runs up to the bound
    ("uncontrollable e; automaton A: monitor e; location: initial; edge e; end", 100, 100, "scan,P0_A\n1,0\n"),
    ("uncontrollable e; automaton A: monitor; location x: initial; location y: edge e; end", 100, 100, "scan,P0_A\n1,0\n"),
    # who has an event in its alphabet and no edge for it blocks it
    ("controllable e; automaton A: alphabet e; location: initial; end "
     "automaton B: location x: initial; edge e goto y; location y; end", 100, 100, "scan,P0_A,P1_B\n1,0,0\n"),
    # an empty alphabet with no edge has no part in anything
    ("controllable e; automaton A: alphabet; location: initial; end "
     "automaton B: location x: initial; edge e goto y; location y; end", 100, 100, "scan,P0_A,P1_B\n1,0,1\n"),
    # dotted names and names from the specification
    ("group g: uncontrollable u; plant A: location x: initial; edge g.u goto y; location y: edge .g.u goto x; end end", 3, 100,
     "scan,P0_g_A\n1,1\n"),
    # the inner `u` decides for the name `u`, the outer one for the name `.u`
    ("uncontrollable u; group g: controllable u; plant A: location x: initial; edge u goto y; edge .u goto z; location y; "
     "location z: edge u goto x; end end", 1, 1, "scan,P0_g_A\n1,0\n2,0\n"),
    ("uncontrollable u; group g: controllable u; plant A: location x: initial; edge u goto y; location y: edge .u goto z; "
     "location z; end end", 1, 1, "scan,P0_g_A\n1,1\n2,2\n"),
    # events of the specification come before those of components that stand before them
    ("plant A: controllable late; location x: initial; edge first goto y; edge late goto z; location y; location z; end "
     "controllable first;", 100, 1, "scan,P0_A\n1,1\n"),
    # the first edge in text order, each use an edge of its own
    ("plant A: controllable c, d; location x: initial; edge d, c goto y; edge c goto z; location y; location z; end", 100, 1,
     "scan,P0_A\n1,1\n"),
    ("plant __a__b: controllable c; location x: initial; edge c; end", 100, 100, "scan,P0_a_b\n1,0\n"),
    ("automaton a: location: initial; end automaton a_b: location: initial; end automaton P: location: initial; end "
     "automaton p: location: initial; end automaton $end: location: initial; end automaton _: location: initial; end", 100, 100,
     "scan,P0_a,P1_a_b,P2_P,P3_p,P4_end,P5_x\n1,0,0,0,0,0,0\n"),
    ("group %s: plant b: location: initial; end end" % ("n" * 39), 1, 1, "scan,P0_%s\n1,0\n" % ("n" * 39)),
    ("", 100, 100, "scan\n"),
    ("controllable e;", 100, 100, "scan\n1\n"),
    # right sides read the values before the step
    ("plant a: controllable e; disc int x = 1, y = 2; location: initial; edge e do x := y, y := x; end", 100, 1,
     "scan,P0_a,Q0_a_x,Q1_a_y\n1,0,2,1\n2,0,1,2\n"),
    # a value of an enumeration is its place
    ("enum T = r, g; controllable e; automaton a: disc T c; location: initial; edge e do if c = r: c := g else c := r end; end", 100, 1,
     "scan,P0_a,Q0_a_c\n1,0,1\n2,0,0\n"),
    # a class runs to its bound, or until a value would leave its range
    ("plant a: uncontrollable u; disc int[0..10] n = 0; location: initial; edge u do n := n + 1; end", 3, 100,
     "scan,P0_a,Q0_a_n\n1,0,3\n2,0,6\n3,0,9\n4,0,10\n5,0,10\n"),
    ("plant a: uncontrollable e; disc int x = 2147483647; location: initial; edge e do x := x + 1; end", 100, 100,
     "scan,P0_a,Q0_a_x\n1,0,2147483647\n"),
    # who monitors stays where its edge has a guard that is not so
    ("controllable e; plant A: location p: initial; edge e goto q; location q; end automaton B: monitor e; disc int[0..5] n = 0; "
     "location: initial; edge e when false do n := n + 1; end", 100, 100, "scan,P0_A,P1_B,Q0_B_n\n1,1,0,0\n"),
    ("controllable e; plant A: location p: initial; edge e goto q; location q; end automaton B: monitor e; disc int[0..5] n = 0; "
     "location: initial; edge e when true do n := n + 1; end", 100, 100, "scan,P0_A,P1_B,Q0_B_n\n1,1,0,1\n"),
    # names that are tidied to one name differ by their numbers
    ("automaton a: disc bool b_c; location: initial; end automaton a_b: disc bool c; location: initial; end automaton P: location: "
     "initial; end automaton p: location: initial; end", 100, 100,
     "scan,P0_a,P1_a_b,P2_P,P3_p,Q0_a_b_c,Q1_a_b_c\n1,0,0,0,0,FALSE,FALSE\n"),
    # `div` goes towards zero, and `mod` has the sign of the dividend
    ("const int k = -7; automaton a: controllable e; disc int q, r, s, t; location: initial; edge e do q := k div 2, r := k mod 2, "
     "s := 7 div -2, t := 7 mod -2; end", 1, 1, "scan,P0_a,Q0_a_q,Q1_a_r,Q2_a_s,Q3_a_t\n1,0,-3,-1,-3,1\n"),
    # without a first value: the number nearest to 0, false, the first literal
    ("enum T = r, g; type up = int[2..7]; automaton a: disc up x; disc int[-9..-4] y; disc int[-1..1] z; disc bool b; disc T c = g; "
     "disc T d; location: initial; end", 1, 1, "scan,P0_a,Q0_a_x,Q1_a_y,Q2_a_z,Q3_a_b,Q4_a_c,Q5_a_d\n1,0,2,-4,0,FALSE,1,0\n"),
    # a choice whose value leaves its range makes no step, so the next one is taken
    ("controllable e; automaton a: disc int[0..4] x; location: initial; edge e do x := x + 3; edge e do x := x + 1; end", 1, 1,
     "scan,P0_a,Q0_a_x\n1,0,3\n2,0,4\n3,0,4\n"),
    # guards read other automata; two automata assign in one step, from the values before
    ("controllable e; automaton a: disc int[0..9] x = 1; location p: initial; edge e when b.q, b.y < 5 do x := b.y; end "
     "automaton b: disc int[0..9] y = 2; location q: initial; edge e do y := a.x + a.x; end", 1, 1,
     "scan,P0_a,P1_b,Q0_a_x,Q1_b_y\n1,0,0,2,2\n2,0,0,2,4\n3,0,0,4,4\n4,0,0,4,8\n5,0,0,4,8\n"),
    # enumerations with the same literals are the same type; an inner branch reads the values before, too
    ("enum T = r, g; group h: enum T = r, g; automaton a: controllable e; disc T c; disc .T d = .g; disc int[0..3] n; location: initial; "
     "edge e do if c = d: n := n + 1 elif n < 3, d = .g: c := d, if c = .r: n := 2 else n := 0 end else n := 0 end; end end", 1, 1,
     "scan,P0_h_a,Q0_h_a_c,Q1_h_a_d,Q2_h_a_n\n1,0,1,1,2\n2,0,1,1,3\n3,0,1,1,3\n"),
]

# the same with definitions
DEFINED = [
    # an argument is read where the instance stands: the `k` of the definition is another one
    ("controllable e, f; const bool k = true; p: D(e, k); q: D(f, not k); automaton def D(controllable c; alg bool g): const bool k = "
     "false; disc int[0..3] n = 0; location: initial; edge c when g do n := n + 1; end", 100, 2,
     "scan,P0_p,P1_q,Q0_p_n,Q1_q_n\n1,0,0,2,0\n"),
    ("group h: const int k = 1; p: .D(k); end const int k = 5; automaton def D(alg int v): const int k = 7; controllable c; "
     "disc int[0..9] n; location: initial; edge c do n := v; end", 1, 1, "scan,P0_h_p,Q0_h_p_n\n1,0,1\n"),
    # an instance is numbered at its place in the text, and then what stands in it
    ("x: D(); automaton a: location: initial; end group def D(): automaton b: location: initial; end end y: D();", 1, 1,
     "scan,P0_x_b,P1_a,P2_y_b\n1,0,0,0\n"),
    # names of a definition are looked up where it is written, not where it is instantiated
    ("controllable e; group g: controllable e; group def D(): plant A: location x: initial; edge e goto y; location y: edge .e goto z; "
     "location z; end end end group h: controllable e; p: .g.D(); end", 1, 1, "scan,P0_h_p_A\n1,1\n2,2\n"),
    # two definitions of one name, and each finds its own
    ("group a: automaton def D(): location x: initial; location y; end p: D(); end group b: automaton def D(): disc int[0..3] n = 2; "
     "location: initial; end p: D(); q: .a.D(); end", 1, 1, "scan,P0_a_p,P1_b_p,P2_b_q,Q0_b_p_n\n1,0,0,0,2\n"),
    # parameters are passed on, and the range of one is not enforced
    ("controllable e; group def Outer(controllable c; alg int v): group def Inner(controllable c; alg int[0..1] v): m: Cell(c, v + 1); end "
     "i: Inner(c, v * 2); end automaton def Cell(controllable c; alg int[0..1] v): disc int[0..99] n; location: initial; edge c do "
     "n := v; end o: Outer(e, 3);", 1, 1, "scan,P0_o_i_m,Q0_o_i_m_n\n1,0,7\n"),
    # what an instance declares is its own: events, places and values
    ("p: D(); q: D(); automaton def D(): controllable c; disc int[0..3] n; location a: initial; edge c do n := n + 1 goto b; location b; "
     "end automaton w: disc int[0..9] m = 5; location: initial; edge p.c when q.a do m := m + p.n + 1; edge q.c when p.b; end", 1, 1,
     "scan,P0_p,P1_q,P2_w,Q0_p_n,Q1_q_n,Q2_w_m\n1,1,1,0,1,1,6\n"),
    # one event for two parameters: an edge for each, in text order
    ("controllable e, f; p: D(e, e); q: D(e, f); automaton def D(event a, b): location x: initial; edge b goto y; edge a goto z; "
     "location y; location z; end", 1, 1, "scan,P0_p,P1_q\n1,1,2\n"),
    ("controllable e, f; p: D(e, e); q: D(e, f); automaton def D(event a, b): alphabet a, b; monitor b; location x: initial; edge a "
     "goto y; location y; end", 1, 1, "scan,P0_p,P1_q\n1,1,1\n2,1,1\n"),
    # locations as arguments, also by names of other parameters and as truths
    ("plant a: controllable go; location here: initial; edge go goto there; location there; end p: D(a.here); q: D(a.there); "
     "r: E(a.there); automaton def D(location l): controllable c; disc bool b; location: initial; edge c do b := l; end "
     "group def E(location m): x: F(m, not m); end automaton def F(location l; alg bool g): controllable c; disc bool b, d = true; location: "
     "initial; edge c do b := l, d := g; end", 1, 1,
     "scan,P0_a,P1_p,P2_q,P3_r_x,Q0_p_b,Q1_q_b,Q2_r_x_b,Q3_r_x_d\n1,1,0,0,0,FALSE,TRUE,TRUE,FALSE\n"),
    # an argument may name what its own instance declares
    ("p: D(p.n); automaton def D(alg int v): controllable c; disc int[0..9] n = 3; location: initial; edge c do n := v + 1; end", 1, 1,
     "scan,P0_p,Q0_p_n\n1,0,4\n2,0,5\n"),
    # an argument is read in the state before the step, too
    ("automaton a: controllable e; disc int[0..9] x = 1; location: initial; edge e do x := x + 1; end p: D(a.e, 2 * a.x); "
     "automaton def D(event c; alg int v): disc int[0..99] n; location: initial; edge c do n := v; end", 1, 1,
     "scan,P0_a,P1_p,Q0_a_x,Q1_p_n\n1,0,0,2,2\n2,0,0,3,4\n"),
    # types and constants of a definition: in its parameters, and through its instances
    ("controllable e; enum T = r, g; p: D(e, g); automaton def D(event c; alg T v): enum T = r, g; disc T w; location: initial; edge c "
     "when v != w do w := v; end", 1, 1, "scan,P0_p,Q0_p_w\n1,0,1\n"),
    ("p: D(); automaton def D(): const int k = 4; type t = int[0..k]; disc t n = k; location: initial; end automaton a: disc p.t m = "
     "p.k - 1; location: initial; end", 1, 1, "scan,P0_p,P1_a,Q0_p_n,Q1_a_m\n1,0,0,4,3\n"),
    # a definition in a definition finds the parameters round it, which each instance has for itself
    ("controllable e, f; p: Out(e, 1); q: Out(f, 2); group def Out(event c; alg int v): automaton def In(alg int w): disc int[0..99] n; "
     "location: initial; edge c when n < 50 do n := n + 10 * v + w; end i: In(v + 3); end", 1, 1,
     "scan,P0_p_i,P1_q_i,Q0_p_i_n,Q1_q_i_n\n1,0,0,14,25\n2,0,0,28,50\n3,0,0,42,50\n"),
]


# the same for files of examples/, in which each scan makes one round of each class
EXAMPLES = [
    ("feed.cif", """scan,P0_Feeder,P1_Conveyor,P2_Gripper,P3_Part,P4_Single,P5_Transport,P6_Tray
1,1,0,0,0,1,0,0
2,0,1,0,1,1,2,0
3,0,0,1,0,0,0,0
4,1,0,0,0,1,0,1
5,0,1,0,1,1,2,1
6,0,0,1,0,0,0,1
7,1,0,0,0,1,0,2
8,0,1,0,1,1,2,2
"""),
    ("lock.cif", """scan,P0_upper_Gate,P1_lower_Gate,P2_chamber_Water,P3_chamber_Level,P4_Turns,P5_Lamp
1,0,1,0,1,1,1
2,0,3,0,1,1,1
3,0,0,1,2,1,0
4,1,0,2,4,0,1
5,3,0,2,4,0,1
6,0,0,3,2,0,0
7,0,1,0,1,1,1
8,0,3,0,1,1,1
"""),
    ("dosing.cif", """scan,P0_Tank,P1_Doser,P2_Stirrer,P3_Control,Q0_Tank_level,Q1_Tank_batches,Q2_Doser_next,Q3_Doser_given,Q4_Control_mode
1,1,0,0,0,0,0,1,0,0
2,1,0,0,0,1,0,1,0,0
3,1,0,0,0,2,0,1,0,0
4,1,0,0,0,3,0,1,0,0
5,0,0,0,0,5,0,0,1,1
6,0,0,0,0,6,0,1,2,1
7,0,0,0,0,7,0,0,3,1
8,0,0,1,0,8,0,1,4,2
9,2,0,0,0,8,0,1,4,3
10,1,0,0,0,0,1,1,0,0
11,1,0,0,0,1,1,1,0,0
12,1,0,0,0,2,1,1,0,0
"""),
    ("pumps.cif", """\
scan,P0_Sump,P1_Turn,P2_north_valve,P3_north_pump,P4_south_valve,P5_south_pump,Q0_Sump_level,Q1_north_pump_starts,Q2_south_pump_starts
1,0,0,1,0,0,0,3,0,0
2,0,0,2,1,0,0,4,1,0
3,0,0,2,1,0,0,3,1,0
4,0,0,2,1,0,0,2,1,0
5,0,0,2,1,0,0,1,1,0
6,0,1,2,0,0,0,0,1,0
7,0,1,3,0,0,0,1,1,0
8,0,1,0,0,0,0,2,1,0
9,0,1,0,0,1,0,3,1,0
10,0,1,0,0,2,1,4,1,1
11,0,1,0,0,2,1,3,1,1
12,0,1,0,0,2,1,2,1,1
13,0,1,0,0,2,1,1,1,1
14,0,0,0,0,2,0,0,1,1
15,0,0,0,0,3,0,1,1,1
"""),
]


# the same with algebraic variables
LADDER = "".join("location p%d:%s equation v = %d;%s " % (k, " initial;" * (k == 0), k, " edge c goto p%d;" % (k + 1) if k < 499 else "")
                 for k in range(500))
ALGEBRAIC = [
    # a definition for each location: that of the location after the scan is shown
    ("automaton a: controllable c; alg int v; location p: initial; equation v = 3; edge c goto q; location q: equation v = 5; end", 100, 100,
     "scan,P0_a,R0_a_v\n1,1,5\n"),
    ("automaton a: alg int v; location: initial; equation v = 4; end", 100, 100, "scan,P0_a,R0_a_v\n1,0,4\n"),
    ("automaton a: controllable c; alg int v; %send" % LADDER, 100, 600, "scan,P0_a,R0_a_v\n1,499,499\n"),
    ("alg int q = -7 div 2; alg int r = -7 mod 2;", 100, 100, "scan,R0_q,R1_r\n1,-3,-1\n"),
    # an equation of the component; the order of the text is that of the numbers alone
    ("group g: alg bool b; equation b = not c; alg bool c = true; end", 1, 1, "scan,R0_g_b,R1_g_c\n1,FALSE,TRUE\n"),
    ("automaton a: equation w = v + 1; alg int v = 1, w; location: initial; end", 1, 1, "scan,P0_a,R0_a_v,R1_a_w\n1,0,1,2\n"),
    # those of the specification come before those of components that stand before them
    ("automaton a: alg int v = 1; location: initial; end alg int w = a.v + 1;", 1, 1, "scan,P0_a,R0_w,R1_a_v\n1,0,2,1\n"),
    # the range is not enforced, and a value of an enumeration is its place
    ("alg int[0..1] v = 7;", 1, 1, "scan,R0_v\n1,7\n"),
    ("enum T = r, g; alg T c = g; alg bool b = c = r;", 1, 1, "scan,R0_c,R1_b\n1,1,FALSE\n"),
    # what is read is the state before the step, the location too
    ("automaton a: controllable e; disc int[0..9] x = 1; alg int v = x + 1; location: initial; edge e do x := v; end", 1, 1,
     "scan,P0_a,Q0_a_x,R0_a_v\n1,0,2,3\n2,0,3,4\n"),
    ("automaton a: controllable c; alg int v; disc int[0..9] n; location p: initial; equation v = 3; edge c do n := v goto q; location q: "
     "equation v = 5; edge c do n := n + v goto p; end", 1, 1, "scan,P0_a,Q0_a_n,R0_a_v\n1,1,3,5\n2,0,8,3\n3,1,3,5\n"),
    # each instance has its own, by its own location
    ("controllable e; p: D(); q: D(); automaton def D(): alg int v; controllable c; location x: initial; equation v = 1; edge c goto y; "
     "location y: equation v = 2; end automaton w: disc int[0..9] n; location: initial; edge e when p.v > q.v or q.v = 2 do "
     "n := p.v * 3 + q.v; end", 1, 1, "scan,P0_p,P1_q,P2_w,Q0_w_n,R0_p_v,R1_q_v\n1,1,1,0,0,2,2\n2,1,1,0,8,2,2\n"),
    # a definition is read where it is written, and an argument where the instance stands
    ("controllable e, f; alg bool k = true; p: D(e, k); q: D(f, not k); automaton def D(controllable c; alg bool g): alg bool k = false; "
     "disc int[0..3] n = 0; location: initial; edge c when g do n := n + 1; end", 100, 2,
     "scan,P0_p,P1_q,Q0_p_n,Q1_q_n,R0_k,R1_p_k,R2_q_k\n1,0,0,2,0,TRUE,FALSE,FALSE\n"),
    ("p: C(q.v); q: C(5); group def C(alg int w): alg int v = w + 1; end", 1, 1, "scan,R0_p_v,R1_q_v\n1,7,6\n"),
]

# the same with inputs: the rows stand before the table
WITH_INPUTS = [
    ("input bool i; plant A: uncontrollable u; location x: initial; edge u when i goto y; location y: edge u when not i goto x; end", 100,
     100, "scan,I0_i\n1,TRUE\n2,TRUE\n3,FALSE\n", "scan,P0_A\n1,1\n2,1\n3,0\n"),
    # one row for the rounds of both classes
    ("input int[0..9] k; plant A: uncontrollable u; controllable c; disc int[0..99] n; location: initial; edge u do n := n + k; edge c do "
     "n := n + 10 * k; end", 2, 1, "scan,I0_k\n1,1\n2,3\n3,0\n", "scan,P0_A,Q0_A_n\n1,0,12\n2,0,48\n3,0,48\n"),
    # a value that leaves its range by an input makes no step
    ("input int[0..9] k; plant a: uncontrollable u; disc int[0..5] n; location: initial; edge u do n := k; edge u do n := n + 1; end", 1, 1,
     "scan,I0_k\n1,7\n2,3\n3,9\n", "scan,P0_a,Q0_a_n\n1,0,1\n2,0,3\n3,0,4\n"),
    # inputs of instances, and columns in any order
    ("enum T = off, slow, fast; p: M(); q: M(); automaton def M(): input T mode; controllable c; disc T m = fast; location: initial; edge c "
     "do m := mode; end", 1, 1, "I1_q_mode,scan,I0_p_mode\n2,1,0\n0,2,1\n", "scan,P0_p,P1_q,Q0_p_m,Q1_q_m\n1,0,0,0,2\n2,0,0,1,0\n"),
    ("automaton a: input bool x; location: initial; end input bool z; group g: input bool x; end alg bool v = a.x and not z, w = g.x;", 1, 1,
     "scan,I0_z,I1_a_x,I2_g_x\n1,0,1,0\n2,TRUE,true,1\n", "scan,P0_a,R0_v,R1_w\n1,0,TRUE,FALSE\n2,0,FALSE,TRUE\n"),
    # inputs as arguments
    ("input bool i_start, i_stop; start: Sensor(i_start); stop: Sensor(not i_stop); plant automaton def Sensor(alg bool signal): "
     "uncontrollable u_on, u_off; location Off: initial; marked; edge u_on when signal goto On; location On: edge u_off when not signal "
     "goto Off; end", 1, 1, "scan,I0_i_start,I1_i_stop\n1,1,0\n2,0,1\n3,0,1\n", "scan,P0_start,P1_stop\n1,1,1\n2,0,0\n3,0,0\n"),
    # what algebraic variables show of the row is that of its scan
    ("input int[-3..3] i; alg int v = i * i; alg bool b = i < 0;", 100, 100, "scan,I0_i\n1,-3\n2,2\n3,0\n",
     "scan,R0_v,R1_b\n1,9,TRUE\n2,4,FALSE\n3,0,FALSE\n"),
    ("input int i; alg int v = i;", 1, 1, "scan,I0_i\n1,-2147483648\n2,2147483647\n", "scan,R0_v\n1,-2147483648\n2,2147483647\n"),
]

# a file of examples/ over the rows beside it
CELL = """scan,P0_start,P1_stop,P2_part,P3_motor,P4_lamp,P5_Run,Q0_Run_count,R0_full
1,1,0,0,1,0,1,0,FALSE
2,0,0,1,0,0,1,1,FALSE
3,0,0,0,1,0,1,1,FALSE
4,0,0,1,0,0,1,2,FALSE
5,0,0,0,1,0,1,2,FALSE
6,0,0,1,0,1,1,3,TRUE
7,0,0,0,0,1,1,3,TRUE
8,0,1,0,0,1,0,3,TRUE
9,1,1,1,0,1,0,3,TRUE
10,0,0,0,0,1,0,3,TRUE
"""
HANDOVER = """scan,P0_Feeder,P1_drill,P2_press,P3_Box,Q0_Feeder_next,Q1_drill_part,Q2_press_part,Q3_Box_last,Q4_Box_even
1,0,1,0,0,2,1,0,0,0
2,0,0,1,0,2,0,1,0,0
3,0,1,1,0,3,2,1,0,0
4,0,2,0,0,3,2,0,1,0
5,0,0,1,0,3,0,2,1,0
6,0,1,0,0,4,3,0,2,1
7,0,0,1,0,4,0,3,2,1
8,0,1,0,0,5,4,0,3,1
9,0,1,0,0,5,4,0,3,1
10,0,0,1,0,5,0,4,3,1
"""


# a source, the most rounds of each class, a state, and the states to which a legal scan may lead from it
LEGAL = [
    # what can fire has fired, if the bound allows
    ("controllable e; plant A: location x: initial; edge e goto y; location y; end", 1, 1, (0,), {(1,)}),
    # by any choice, and not by the first alone
    ("controllable e; plant A: location x: initial; edge e goto y; edge e goto z; location y; location z; end", 1, 1, (0,),
     {(1,), (2,)}),
    # uncontrollable events come first
    ("uncontrollable u; controllable c; plant A: location x: initial; edge c goto y; edge u goto z; location y; location z: "
     "edge c goto w; location w; end", 2, 2, (0,), {(3,)}),
    # a run of two at least ends in x after an even number, and in y after an odd one
    ("controllable e; plant A: location x: initial; edge e goto y; location y: edge e goto x; end", 1, 2, (0,), {(0,), (1,)}),
    # a run of at least three steps leaves a line of three places at its end
    ("controllable e; plant A: location a: initial; edge e goto b; location b: edge e goto c; location c: edge e goto d; "
     "location d: edge e goto d; end", 1, 3, (0,), {(3,)}),
    # after the bound a run may end, and may go on
    ("controllable e; plant A: location a: initial; edge e goto b; location b: edge e goto c; location c; end", 1, 1, (0,),
     {(1,), (2,)}),
    # who monitors moves where it can
    ("controllable e; plant A: location p: initial; edge e goto q; location q; end "
     "automaton B: monitor e; location x: initial; edge e goto y; location y; end", 1, 1, (0, 0), {(1, 1)}),
    # the events of many rounds are as those of few, in a circle of three
    ("uncontrollable e; plant A: location a: initial; edge e goto b; location b: edge e goto c; location c: edge e goto a; end",
     9999, 1, (0,), {(0,), (1,), (2,)}),
    # a value that would leave its range makes no step, so a run may end before its bound, by either choice
    ("controllable e; plant A: disc int[0..4] n; location: initial; edge e do n := n + 3; edge e do n := n + 2; end", 1, 9, (0, 0),
     {(0, 3), (0, 4)}),
    # what is read is the state before the step
    ("controllable e; plant A: disc int[0..2] x = 1, y = 2; location: initial; edge e when x < y do x := y, y := x; end", 1, 9,
     (0, 1, 2), {(0, 2, 1)}),
    # inputs stay as they are, and decide what can fire
    ("input bool i; controllable e; plant A: location x: initial; edge e when i goto y; location y; end", 1, 1, (0, 1), {(1, 1)}),
    ("input bool i; controllable e; plant A: location x: initial; edge e when i goto y; location y; end", 1, 1, (0, 0), {(0, 0)}),
]


def example(name):
    with open(os.path.join(os.path.dirname(os.path.abspath(__file__)), "..", "examples", name)) as file:
        return file.read()


def all_worked():
    """The source, the most rounds of each class, the rows, and the table."""
    alone = WORKED + DEFINED + ALGEBRAIC + CHANNELS + worked_invariants.SCANS + [(example(name), 1, 1, table) for name, table in EXAMPLES]
    found = [(text, unc, con, rows_alone(table.count("\n") - 1), table) for text, unc, con, table in alone] + WITH_INPUTS + worked_invariants.WITH_INPUTS
    found.append((example("handover.cif"), 1, 1, example("handover-rows.csv"), HANDOVER))
    return found + [(example("cell.cif"), bound, bound, example("cell-rows.csv"), CELL) for bound in (1, 100)]


def worked_trials():
    return [Trial(text, ["--unc", str(unc), "--con", str(con)], unc, con, file) for text, unc, con, file, _ in all_worked()]


def self_test():
    worked = all_worked()
    for text, unc, con, file, table in worked:
        due, net = broken(Source(text))
        assert not due, (text, list(map(line_of, due)))
        given = net.table(unc, con, rows_of(net, file))
        assert given == table, (text, table, given)
    all_legal = LEGAL + LEGAL_CHANNELS + worked_invariants.LEGAL
    for text, unc, con, before, ends in all_legal:
        net = Net(Source(text))
        unc_runs, con_runs = Runs(net, "uncontrollable"), Runs(net, "controllable")
        states = itertools.product(*[range(lo, hi + 1) for lo, hi in net.ranges])
        given = {after for after in states if is_legal(unc_runs, con_runs, unc, con, before, after)}
        assert given == ends, (text, ends, given)
    for wrongs, scans in ((WRONG, CHANNELS), (worked_invariants.WRONG, worked_invariants.SCANS)):
        for wrong in wrongs:
            given = [wrong(Source(text)).table(unc, con, [()] * (table.count("\n") - 1)) == table for text, unc, con, table in scans]
            assert not all(given), wrong.__name__
    print("the simulation agrees with %d worked examples, and the search with %d" % (len(worked), len(all_legal)))
    return 0


if __name__ == "__main__":
    sys.exit(self_test() if sys.argv[1:] == ["--self-test"] else main(sys.argv[1], *map(int, sys.argv[2:])))
