#!/usr/bin/env python3
"""Compares how `check` and `generate` judge sources with plain rules, on random sources of which most break a rule.

    tools/compare_refusals.py PROGRAM [SOURCES [SEED]] [--short]
    tools/compare_refusals.py --self-test [--short]

Where rules are broken, what is told is to be one of the refusals of the first phase that has any: tokens, grammar, names, bodies as written, those of definitions too (kinds, uses of channels, arguments, constants, initial locations, what
is assigned, the definitions of algebraic variables), components, instances among them (alphabets, roles, the number of objects, ranges
of constants), algebraic variables that need themselves, the widths and sizes of what is evaluated and the state invariants, the number
of choices. Then `generate`
asks that each event has a class. A source that breaks none is accepted. Besides random sources, about half of them with definitions, there
are the worked examples, some at each limit, and some of which memory is said to be out. The status is 1 where the two differ. The
rules are in `plain_nets.py`, `plain_invariants.py`, `plain_algebra.py`, `plain_channels.py`, `plain_data.py` and `plain_names.py`; with `--self-test` they are compared with worked examples.
How deep a source nests is not bounded here. `--short` leaves out the sources at the limits, which take long.
"""
import itertools
import os
import random
import re
import subprocess
import sys
import tempfile
from collections import Counter, namedtuple

import worked_channels
import worked_invariants
from compare_grammar import CIF
from earley import Grammar, changed, judged
from plain_nets import MOST_CHOICES, MOST_NODES, broken, line_of, unclassed
from plain_sources import Source
from plain_tokens import Token, Unread, lexed
from random_nets import made_text, spelled, tokens_of

GRAMMAR = Grammar(CIF)
# Longer programs are checked, and not generated.
LONGEST = 50000
# What is due: the lines that may be told, those that `generate` may tell, and what all choices and algebraic variables count.
Verdict = namedtuple("Verdict", "lines generated nodes")
OUT_OF_MEMORY = "cif: out of memory\n"


# ---- what is due

def judgement(text):
    """The verdict on a source."""
    tokens, due = lexed(text)
    if due:
        return Verdict(set(map(line_of, due)), set(), 0)
    try:
        source = Source(text)
    except Unread:
        return Verdict({unread_line(text, tokens)}, set(), 0)
    due, net = broken(source)
    if due:
        return Verdict(set(map(line_of, due)), set(), 0)
    return Verdict(set(), set(map(line_of, unclassed(net))), net.nodes())


def unread_line(text, tokens):
    """What is told of a text that is no source."""
    taken, is_whole = judged(GRAMMAR, "spec", [token.kind for token in tokens])
    assert not is_whole, text
    places = [token.at for token in tokens] + [len(text)]
    return line_of(("NotRead", ("at", places[taken])))


def status_of(line):
    return 5 if line == OUT_OF_MEMORY else 8 if line.split()[0] in ("25", "28") else 7


# ---- random sources

FAULTS = {"name": 0.15, "twice": 0.1, "goto": 0.3, "initials": 0.4, "alphabet": 0.5, "class": 0.3, "kind": 0.06,
          "constant": 0.6, "own": 0.3, "doubly": 0.3, "range": 0.2, "divisor": 0.5, "wide": 0.05, "cycle": 1, "count": 0.3, "argument": 0.2,
          "unfit": 0.4, "equations": 0.3, "loop": 0.7, "role": 0.3, "mixed": 0.4, "received": 0.05,
          "kept": 0.4, "reads": 0.7}
OF_CHANNELS = ("name", "kind", "range", "divisor", "wide", "alphabet", "doubly", "role", "role", "mixed", "mixed", "received", "received")
OF_INVARIANTS = ("name", "kind", "divisor", "wide", "received", "kept", "kept", "kept", "reads", "reads", "loop")
OF_ALGEBRA = ("name", "kind", "constant", "own", "divisor", "wide", "equations", "equations", "loop", "loop")
OF_DEFINITIONS = ("name", "cycle", "count", "argument", "unfit", "unfit", "unfit", "alphabet", "alphabet", "divisor", "wide", "class")
OF_DATA = ("name", "twice", "kind", "constant", "own", "doubly", "range", "divisor", "wide")
ODD_PIECES = ["@", "$", "#", '"', "\x00", "\xe9", "$1", "~", " 2147483648 ", " 2147483647 ", " 99999999999999999999 ", "/*"]


def faulty(choose):
    """A source with a few kinds of faults, each often, or with none."""
    has_data, has_definitions = choose.random() < 0.65, choose.random() < 0.5
    faults = OF_DATA if has_data and choose.random() < 0.7 else FAULTS
    faults = OF_DEFINITIONS if has_definitions and choose.random() < 0.5 else faults
    forms = choose.choice([(), (), ("input",), ("alg",), ("alg",), ("input", "alg"), ("alg", "channel"), ("channel",), ("channel",)])
    forms = forms if has_data else tuple(set(forms) & {"channel"})
    forms += ("invariant",) * (choose.random() < 0.5)
    faults = OF_ALGEBRA if forms and choose.random() < 0.5 else faults
    faults = OF_CHANNELS if "channel" in forms and choose.random() < 0.6 else faults
    faults = OF_INVARIANTS if "invariant" in forms and choose.random() < 0.5 else faults
    kinds = choose.sample(sorted(faults), choose.choice([0, 1, 1, 1, 2, 2, 3]))
    forms += ("input",) * (has_data and "reads" in kinds)
    # a fault in one place, or in many
    rarity = choose.choice([0.3, 1]) if has_data else 1
    tokens = tokens_of(made_text(choose, {kind: FAULTS[kind] * rarity for kind in kinds}, has_data, has_definitions, forms))
    if choose.random() < 0.15:
        tokens = changed([Token(word, word, 0) for word in GRAMMAR.tokens + ["tau"]], choose, tokens)
        tokens = [token._replace(text={"ID": "a", "NUMBER": "7"}.get(token.text, token.text)) for token in tokens]
    text = spelled(choose, tokens)
    if choose.random() < 0.08:
        place = choose.randint(0, len(text))
        text = text[:place] + choose.choice(ODD_PIECES) + text[place:]
    return text


def member(name, event, ways, is_monitor):
    """An automaton that has so many ways to take part in an event."""
    edges = "edge " + ", ".join([event] * (ways - is_monitor)) + "; " if ways > is_monitor else ""
    clauses = "alphabet %s; monitor; " % event if is_monitor else ""
    return "automaton %s: %slocation: initial; %send " % (name, clauses, edges)


def crowd(factors, monitors=(), event="e"):
    """The automata of an event whose choices number the product of the factors."""
    return "".join(member("%s%d" % (event, k), event, ways, k in monitors) for k, ways in enumerate(factors))


def crowded(choose):
    """A source whose choices number, or count, about as much as the limit."""
    if choose.random() < 0.5:
        factors = choose.choice([[128, 128], [127, 129], [5, 29, 113], [2] * 14, [26] * 3, [25, 25, 26], [16384], [16383]])
        second = [choose.randint(1, 3)]
    else:
        power = choose.randint(8, 16)
        parties = MOST_NODES // 2 ** power // 2 - choose.randint(0, 2)
        factors, second = [2] * power + [1] * max(0, parties - power), [choose.choice([1, 1000])]
    choose.shuffle(factors)
    monitors = {k for k in range(len(factors)) if choose.random() < choose.choice([0, 0.3])}
    head = choose.choice(["controllable e, f; ", "event f; uncontrollable e; ", "event e; controllable f; "])
    return head + crowd(factors, monitors) + crowd(second, (), "f")


def crowded_channel(choose):
    """A source with one channel whose choices number about as much as the limit."""
    sides = [shared(choose, count) for count in choose.choice([(128, 128), (127, 129), (64, 256), (129, 127), (4096, 4), (1, 16384)])]
    side = choose.choice(sides)
    side[choose.randrange(len(side))] += choose.choice([0, 0, 1])
    end = choose.choice(["", "", " do v := ?", " when v > 1 do v := ? + v"])
    return worked_channels.exchange(*sides, choose.choice(["1", "v", "v + 1"]), end) + crowd([1] * choose.randint(0, 1))


def shared(choose, count):
    """Positive numbers with that sum."""
    cuts = sorted(choose.sample(range(1, count), min(count - 1, choose.randint(0, 4))))
    return [high - low for low, high in zip([0] + cuts, cuts + [count])]


def crowded_instances(choose):
    """A source with definitions that double so often that its components stay far below the limit, or leave it."""
    return doubled(choose.choice([4, 12, 16, 17, 40, 200])) + choose.choice(["", " event e;", " y: D1();", " automaton a: location: initial; end"])


def made(choose):
    if choose.random() < 0.025:
        return choose.choice([crowded, crowded, crowded_channel, crowded_instances])(choose)
    return faulty(choose)


# ---- sources at the limits: what they show, the text, and the line that `check` tells, or None

def numbered(form, count):
    return "".join(form % number for number in range(count))


def blocked_edges(count):
    """So many edges that make no choice, since another automaton blocks their event: six more objects."""
    threes, rest = divmod(count, 3)
    return ("event e; automaton a: location: initial; %s%send automaton b: alphabet e; location: initial; end"
            % ("edge e, e, e; " * threes, "edge e; " * rest))


def at_limits():
    objects, choices = "17 TooManyObjects count 100001", "25 TooManyChoices count 16385"
    size = "24 TooLarge nodes 1000001 depth 0"
    e, one, places = "event e, f; ", "e%d, ", "automaton a: location p: initial; %send"
    halves = crowd([2] * 13 + [1] * 47)
    return [
        ("the specification and 99999 events", "event %sz;" % numbered(one, 99998), None),
        ("one event more", "event %sz;" % numbered(one, 99999), objects),
        ("99999 groups", numbered("group g%d: end ", 99999), None),
        ("one group more", numbered("group g%d: end ", 100000), objects),
        ("99998 locations", places % numbered("location p%d; ", 99997), None),
        ("one location more", places % numbered("location p%d; ", 99998), objects),
        ("99994 edges", blocked_edges(99994), None),
        ("one edge more", blocked_edges(99995), objects),
        ("far more events", "event %sz;" % numbered(one, 250000), objects),
        ("16384 choices of one automaton", e + crowd([16384]), None),
        ("one choice more", e + crowd([16385]), choices),
        ("128 times 128 choices", e + crowd([128, 128]), None),
        ("one choice of another event more", e + crowd([128, 128]) + crowd([1], (), "f"), choices),
        ("127 times 129 choices and one", e + crowd([127, 129]) + crowd([1], (), "f"), None),
        ("128 times 128 choices, some of which stay", e + crowd([128, 128], {1}), None),
        ("5 times 29 times 113 choices, some of which stay", e + crowd([5, 29, 113], {0, 2}), choices),
        ("choices that nobody takes part in", e + crowd([16384]) + "automaton z: alphabet f; location: initial; end", None),
        ("26 times 26 times 26 choices", e + crowd([26] * 3), choices),
        # 8192 choices of 60 automata count 121 each; a choice of one automaton counts 3, one that stays 2
        ("choices that count 1000000", e + halves + crowd([2923], {0}, "f"), None),
        ("choices that count 1000001", e + halves + crowd([2923], (), "f"), size),
        ("choices that are too large and too many", e + crowd([2] * 40), size),
        ("choices of two million automata in 16384 choices", e + crowd([2] * 14 + [1] * 60), size),
    ]


def guarded(guards):
    return "event e; automaton a: location: initial; edge e when %s; end" % guards


def weighty(operands):
    """127 times 129 choices that count 61 each, and one of so many operands that counts three more."""
    left = "automaton a: location: initial; %send " % ("edge e when true%s; " % (" and true" * 27) * 127)
    right = "edge e do if true: x := x%s end; " % (" + 1" * 25)
    right = "automaton b: disc int[0..9] x; location: initial; %send " % (right * 129)
    return "event e, f; " + left + right + "automaton c: location: initial; edge f when true%s; end" % (" and true" * (operands - 1))


def with_data():
    nots, small = "not " * 98, "automaton a: disc int[0..9] x%s; location: initial; end"
    return [
        ("a guard of depth 100", guarded("not not %strue" % nots), None),
        ("several guards, one level deeper", guarded("not not %strue, true" % nots), "24 TooLarge nodes 105 depth 101"),
        ("several guards of depth 100", guarded("not %strue, true" % nots), None),
        ("parentheses have no depth", guarded("not %strue and ((true))" % nots), None),
        ("a condition of depth 99", guarded("if not %strue: true else false end" % nots), None),
        ("two conditions, one level deeper", guarded("if not %strue, true: true else false end" % nots),
         "24 TooLarge nodes 107 depth 101"),
        ("two conditions of depth 98", guarded("if %strue, true: true else false end" % nots), None),
        ("2000 operands", guarded("true" + " and true" * 1999), None),
        ("choices that count 1000000 with what they evaluate", weighty(634), None),
        ("one operand more", weighty(635), "24 TooLarge nodes 1000001 depth 1"),
        ("100 constants that need one another", "const int k0 = 1; " + "".join("const int k%d = k%d + 1; " % (k, k - 1) for k in range(1, 100)),
         None),
        ("literals are no objects", "enum c = %sz; " % numbered("r%d, ", 99999) + small % "", None),
        ("the specification, an automaton, its location and 99997 variables", small % numbered(", x%d", 99996), None),
        ("one variable more", small % numbered(", x%d", 99997), "17 TooManyObjects count 100001"),
        ("99999 predicates", "marked true%s;" % (", true" * 99998), None),
        ("one predicate more", "marked true%s;" % (", true" * 99999), "17 TooManyObjects count 100001"),
    ]


def doubled(count):
    """Definitions of which each has two instances of the one before, and an instance of the last."""
    text = "".join("group def D%d(): a: D%d(); b: D%d(); end " % (k, k - 1, k - 1) for k in range(1, count + 1))
    return "group def D0(): end " + text + "x: D%d();" % count


def passed_on(count, parameters, arguments, inner, outer):
    """Definitions of which each has an instance of the one before, with these arguments, and an instance of the last."""
    text = "automaton def D0(%s): %s end " % (parameters, inner)
    text += "".join("group def D%d(%s): x: D%d(%s); end " % (k, parameters, k - 1, arguments) for k in range(1, count + 1))
    return text + "%s x: D%d(%s);" % (outer[0], count, outer[1])


def sum_passed_on(count, guard):
    """The sum of a parameter and itself is passed on so many times."""
    outer = "automaton a: event e; disc int[0..1] n; location: initial; edge e; end", "a.e, a.n"
    return passed_on(count, "event c; alg int v", "c, v + v", "location: initial; edge c when %s;" % guard, outer)


def negation_passed_on(count):
    return passed_on(count, "event c; alg bool g", "c, not g", "location: initial; edge c when g;", ("event e;", "e, true"))


def with_definitions():
    many, size, choices = "17 TooManyObjects count 100001", "24 TooLarge nodes 1000001 depth %d", "25 TooManyChoices count 16385"
    hundreds = "group def P(): end group def T(): %send %sevent %%sz;" % (numbered("p%d: .P(); ", 99), numbered("t%d: .T(); ", 990))
    machine = "event e; p: M(e); q: M(e); automaton def M(event c): location: initial; %send"
    places = "p: D(); q: D(); automaton def D(): location p: initial; %send event e, f" % numbered("location p%d; ", 49997)
    one, parameters = "e%d, ", numbered("e%d, ", 49999)
    return [
        ("65535 instances", doubled(15), None),
        ("131071 instances", doubled(16), many),
        ("262143 instances", doubled(17), many),
        ("about two to the power of 200 instances", doubled(200), many),
        ("the specification, 99000 instances and 999 events", hundreds % numbered(one, 998), None),
        ("one event more", hundreds % numbered(one, 999), many),
        ("a definition with 150000 events, and no instance", "group def D(): event %sz; end" % numbered(one, 149999), None),
        ("the specification, two events and 99998 components and locations", places.replace(", f", ";"), None),
        ("one event more than the most", places + ";", many),
        ("50000 parameters and arguments", "event e; group def D(event %sz): end p: D(%se);" % (parameters, "e, " * 49999), None),
        ("500 instances in one another", passed_on(500, "event c", "c", "location: initial; edge c;", ("event e;", "e")), None),
        ("two instances with 128 edges each", machine % ("edge c; " * 128), None),
        ("two instances with 129 edges each", machine % ("edge c; " * 129), choices),
        # the argument counts 2 ** (n + 1) - 1 forms, and its guard two more
        ("an argument that counts 524287", sum_passed_on(18, "v >= 0"), None),
        ("an argument that counts 2097151", sum_passed_on(20, "v >= 0"), size % 21),
        ("an argument that counts two to the power of 41", sum_passed_on(40, "v >= 0"), size % 41),
        ("an argument that would count as much, and is not named", sum_passed_on(40, "true"), None),
        ("an argument that would leave 64 bits, and is not named", sum_passed_on(70, "true"), None),
        ("an argument of depth 100", negation_passed_on(100), None),
        ("an argument of depth 101", negation_passed_on(101), "24 TooLarge nodes 104 depth 101"),
    ]


def summed(count, guard="true"):
    """Algebraic variables of which each is the sum of the one before and itself; the first is an input."""
    text = "input int[0..1] i; alg int v0 = i; " + "".join("alg int v%d = v%d + v%d; " % (k, k - 1, k - 1) for k in range(1, count + 1))
    return text + "automaton a: event e; location: initial; edge e when %s; end" % guard


def chained(count, inner="v%d", kind="int"):
    """Algebraic variables of which each names the one before, from an input on."""
    last = "alg %s v%%d = %s; " % (kind, inner)
    return "input %s i; alg %s v0 = i; " % (kind, kind) + "".join(last % (k, k - 1) for k in range(1, count))


def by_location(count, value="%d"):
    """An algebraic variable with an equation in each of so many locations."""
    first = "automaton a: alg int v; location p0: initial; equation v = %s; " % (value % 0 if "%" in value else value)
    return first + "".join("location p%d: equation v = %s; " % (k, value % k if "%" in value else value) for k in range(1, count)) + "end"


def with_algebra():
    size, many, deep = "24 TooLarge nodes 1000001 depth %d", "17 TooManyObjects count 100001", "24 TooLarge nodes %d depth 101"
    wide = "alg int w = 1%s; %s" % (" + 1" * 1994, by_location(2, "w" + " + w" * 249))
    return [
        # variable k counts 2 ** (k + 1) - 1 forms, all up to it 2 ** (k + 2) - k - 3, and the choice three more
        ("eighteen variables of which each names the one before twice", summed(17), None),
        ("nineteen such variables", summed(18), size % 18),
        ("thirty such variables", summed(29), size % 29),
        ("sixty-two such variables", summed(61), size % 61),
        ("eighteen such variables and a guard with the last one", summed(17, "v17 >= 0"), None),
        ("eighteen such variables and a guard that counts as much as all", summed(17, "v17 + v17 >= 0"), size % 19),
        ("1000 variables of bare names", chained(1000), None),
        ("1000 variables that count 1000000", chained(1000, "v%d + 0"), deep % 1000000),
        ("a chain of depth 100", chained(101, "not v%d", "bool"), None),
        ("a chain of depth 101", chained(102, "not v%d", "bool"), deep % 5253),
        ("the specification, an input and 99998 variables of bare names", chained(99998), None),
        ("one variable more", chained(99999), many),
        ("an equation is an object", chained(99997).replace("v0 = i;", "v0; equation v0 = i;"), None),
        ("one equation more", chained(99998).replace("v0 = i;", "v0; equation v0 = i;"), many),
        ("equations of locations are no objects", by_location(60000), None),
        ("a definition by location of depth 100", by_location(2, "-" * 99 + "1"), None),
        ("a definition by location of depth 101", by_location(2, "-" * 100 + "1"), deep % 204),
        ("a definition of one location of depth 100", by_location(1, "-" * 100 + "1"), None),
        # 1996 forms of w, and 499001 for each of the two locations, and two for the `if`
        ("a definition by location with which 1000000 are counted", wide, None),
        ("a variable more", wide + " alg int z = 1;", size % 3),
        ("an argument that counts two to the power of 41, beside an algebraic variable", sum_passed_on(40, "v >= 0") + " alg int z = 1;", size % 41),
        ("a variable that counts two to the power of 20, and is passed on twenty times", summed(19) + " " + sum_passed_on(20, "v >= 0").replace("a.n", "v19").replace("automaton a:", "automaton b:").replace("a.e", "b.e"), size % 40),
        ("a variable that is an argument twenty-one times over", sum_passed_on(20, "true").replace("location: initial; edge c when true;", "alg int w = v; location: initial; edge c;"), size % 20),
    ]


def too_large_to_make():
    """Sources of which memory is said to be out, since their nets would have more than four million forms."""
    blocked = "edge e when v17 >= 0; " * 16 + "end automaton b: alphabet a.e; location: initial; "
    return [
        # 262145 forms on each edge, of which no choice takes one
        ("sixteen edges that nothing takes, with eighteen such variables", summed(17).replace("edge e when true; ", blocked)),
    ]


# ---- the comparison

class Tool:
    """The program that is asked, in a folder of its own."""

    def __init__(self, program, folder):
        self.program, self.folder = os.path.abspath(program), folder

    def tells(self, command, text):
        """The status, what is written, and the line that is told, without what stands before the refusal."""
        with open(os.path.join(self.folder, "a.cif"), "wb") as file:
            file.write(text.encode("latin-1"))
        ran = subprocess.run([self.program, command, "a.cif"], cwd=self.folder, stdout=subprocess.PIPE, stderr=subprocess.PIPE)
        told = re.match(r"cif: a\.cif: ([^\n]*)\n\Z", ran.stderr.decode("latin-1"))
        return ran.returncode, ran.stdout.decode("latin-1"), told.group(1) if told else ran.stderr.decode("latin-1")

    def fault(self, command, text, lines):
        """What is wrong with the answer, or None; without lines the source is to be accepted."""
        status, out, line = self.tells(command, text)
        if lines:
            is_right = line in lines and status == status_of(line) and out == ""
        else:
            is_right = (status, line) == (0, "") and (out == "ok\n" if command == "check" else is_program(out))
        if is_right:
            return None
        wanted = " or ".join(sorted(lines)) or "no refusal"
        return "%s: wanted %s, given status %d %r %r" % (command, wanted, status, line, out[:60])

    def faults(self, text, verdict):
        found = [self.fault("check", text, verdict.lines)]
        if verdict.nodes <= LONGEST:
            found.append(self.fault("generate", text, verdict.lines or verdict.generated))
        return [fault for fault in found if fault]


def all_at_limits():
    return at_limits() + with_data() + with_definitions() + with_algebra() + worked_channels.at_limits() + worked_invariants.at_limits()


def is_program(text):
    return text.startswith("PROGRAM CifScan\n") and text.rstrip().endswith("END_PROGRAM")


def main(program, sources=1000, seed=1, is_short=False):
    choose, differ, notes = random.Random(seed), 0, Counter()
    with tempfile.TemporaryDirectory() as folder:
        tool = Tool(program, folder)
        limits = [] if is_short else all_at_limits() + [(what, text, OUT_OF_MEMORY) for what, text in too_large_to_make()]
        for what, text, line in limits:
            fault = tool.fault("check", text, {line} if line else set())
            if fault:
                differ += 1
                print("%s: %s" % (what, fault))
        make = faulty if is_short else made
        for text in itertools.chain([it[0] for it in ALL_WORKED], (make(choose) for _ in range(sources))):
            verdict = judgement(text)
            notes.update({line.split()[0] for line in verdict.lines | verdict.generated} or {"none"})
            found = tool.faults(text, verdict)
            if found:
                differ += 1
                print("%r\n  %s" % (text[:4000], "\n  ".join(found)))
    shown = ", ".join("%s %d" % pair for pair in sorted(notes.items(), key=lambda pair: (len(pair[0]), pair[0])))
    print("%d sources and the worked examples (%s)%s: %d differences" % (
        sources, shown, "" if is_short else ", and those at the limits", differ))
    return 1 if differ else 0


# ---- worked examples: a source, the lines of which `check` tells one, and those of `generate` where `check` has none

WORKED = [
    ("event @e;", {"1 BadByte at 6"}, set()),
    ("event e2147483648, e; 2147483648 2147483647", {"2 NumberTooBig at 22"}, set()),
    ("automaton a: /* x", {"3 OpenComment at 13"}, set()),
    ("automaton a: /*/", {"3 OpenComment at 13"}, set()),
    ("event e", {"4 NotRead at 7"}, set()),
    ("automaton a: alphabet; alphabet; location: initial; end", {"4 NotRead at 23"}, set()),
    ("invariant true;", set(), set()),
    ("automaton a: location: marked true; end", {"11 Initials at 10 count 0"}, set()),
    ("automaton a: location: initial; marked true; end", set(), set()),
    ("event e; event e;", {"6 Duplicate at 15 first 6"}, {"28 Unclassed event e"}),
    ("event e, e, e;", {"6 Duplicate at 9 first 6", "6 Duplicate at 12 first 6", "6 Duplicate at 12 first 9"}, set()),
    ("event e; group g: event e; end", set(), {"28 Unclassed event e"}),
    ("automaton a: location p: initial; edge z; end", {"5 Unknown at 39"}, set()),
    ("automaton a: location p: initial; edge .a.z; end", {"5 Unknown at 39"}, set()),
    ("automaton a: location p: initial; edge a; end", {"7 WrongKind at 39"}, set()),
    ("automaton a: location p: initial; edge p; end", {"7 WrongKind at 39"}, set()),
    ("event e; automaton a: location p: initial; edge e goto q; end", {"5 Unknown at 55"}, set()),
    ("event e; automaton a: location p: initial; edge e goto e; end", {"5 Unknown at 55"}, set()),
    ("automaton a: event e; location p: initial; edge e goto e; end", {"7 WrongKind at 55"}, set()),
    # the first scope that declares the first part decides
    ("event e; group h: group e: end automaton a: location: initial; edge e; end end", {"7 WrongKind at 68"}, set()),
    ("group g: event e; end group h: group g: end automaton a: location: initial; edge g.e; end end", {"5 Unknown at 81"}, set()),
    ("automaton a: location p; end", {"11 Initials at 10 count 0"}, set()),
    ("automaton a: location p: initial; initial; location q: initial; location r: initial; end", {"11 Initials at 10 count 3"},
     set()),
    ("automaton a: location p: initial; initial; end", set(), set()),
    ("automaton a: event e, f; alphabet e; location: initial; edge f; end", {"14 AlphabetLacks at 61"}, set()),
    ("event e; automaton a: monitor e; location: initial; end", {"14 AlphabetLacks at 30"}, set()),
    ("event e; automaton a: alphabet; location: initial; edge e, .e; end", {"14 AlphabetLacks at 56", "14 AlphabetLacks at 59"},
     set()),
    ("event e; automaton a: alphabet e; monitor; location: initial; edge .e; end", set(), {"28 Unclassed event e"}),
    ("automaton a: event e; location: initial; edge e; end", set(), {"28 Unclassed event a.e"}),
    ("group g: event $if; end controllable c; event e;", set(), {"28 Unclassed event e"}),
    ("group g: automaton a: event $if; location: initial; end end controllable e;", set(), {"28 Unclassed event g.a.if"}),
    ("", set(), set()),
]

# The same for sources with variables; `generate` tells what the last column has.
NO_CLASS = {"28 Unclassed event a.e"}
OWN = "automaton a: event e; disc int x; location: initial; edge e do %s; end"
TWO = "automaton a: event e; disc int x; disc int[%s] y; location: initial; edge e do x := x %s; end"
DATA = [
    ("const int k = 2147483648;", {"2 NumberTooBig at 14"}, set()),
    ("const bool b = a = b = c;", {"4 NotRead at 21"}, set()),
    ("const bool b = z;", {"5 Unknown at 15"}, set()),
    ("event e; const bool b = e;", {"7 WrongKind at 24"}, set()),
    ("const e k = 1;", {"5 Unknown at 6"}, set()),
    ("const int e = 1; const e k = 1;", {"7 WrongKind at 23"}, set()),
    ("enum E = r, g, r;", {"6 Duplicate at 15 first 9"}, set()),
    ("const int a = b; const int b = a;", {"8 DefinitionCycle at 10", "8 DefinitionCycle at 27"}, set()),
    ("type a = int[0..b]; const a b = 1;", {"8 DefinitionCycle at 5", "8 DefinitionCycle at 28"}, set()),
    ("type a = b; type b = a;", {"8 DefinitionCycle at 5", "8 DefinitionCycle at 17"}, set()),
    # the name in an expression denotes what is found first outward, whatever it is
    ("const int k = 1; group h: group k: end const int j = k; end", {"7 WrongKind at 53"}, set()),
    ("const bool b = 1;", {"9 Mismatch at 15"}, set()),
    ("const int k = 1 + true;", {"9 Mismatch at 18"}, set()),
    ("const int k = true + 1;", {"9 Mismatch at 14"}, set()),
    ("const bool b = 1 = true;", {"9 Mismatch at 19"}, set()),
    ("const bool b = (1);", {"9 Mismatch at 15"}, set()),
    ("const int k = if true: 1 elif 2: 3 else false end;", {"9 Mismatch at 30", "9 Mismatch at 40"}, set()),
    ("const bool b = if true: 1 else 2 end;", {"9 Mismatch at 15"}, set()),
    ("enum E = r; enum F = s; const E k = s;", {"9 Mismatch at 36"}, set()),
    ("enum E = r; group g: enum F = r; end const E k = g.r;", set(), set()),
    ("enum E = r; const bool b = r < r;", {"9 Mismatch at 27", "9 Mismatch at 31"}, set()),
    ("type t = int[true..3];", {"9 Mismatch at 13"}, set()),
    ("marked 1;", {"9 Mismatch at 7"}, set()),
    ("automaton a: event e; location: initial; edge e when 1, true; end", {"9 Mismatch at 53"}, NO_CLASS),
    (OWN % "x := true", {"9 Mismatch at 68"}, NO_CLASS),
    (OWN % "if x: x := 1 end", {"9 Mismatch at 66"}, NO_CLASS),
    ("automaton a: location p: initial; end const bool b = a.p;", {"10 NotConstant at 53"}, set()),
    ("automaton a: disc int x; disc int y = 1 + x; location: initial; end", {"10 NotConstant at 42"}, set()),
    ("automaton a: disc int x; disc int[0..x] y; location: initial; end", {"10 NotConstant at 37"}, set()),
    ("automaton a: disc int x; location: initial; end automaton b: event e; location: initial; edge e do a.x := 1; end",
     {"12 NotOwn at 99"}, set()),
    (OWN % "a.x := .a.x", set(), NO_CLASS),
    (OWN % "x := 1, x := 2", {"13 AssignedTwice at 71"}, NO_CLASS),
    (OWN % "a.x := 1, if true: x := 2 else .a.x := 3 end", {"13 AssignedTwice at 82", "13 AssignedTwice at 94"}, NO_CLASS),
    (OWN % "if true: x := 2 elif true: x := 1 else x := 3 end", set(), NO_CLASS),
    (OWN % "if true: x := 2, x := 3 end", {"13 AssignedTwice at 80"}, NO_CLASS),
    ("const int[0..3] k = 4;", {"18 ConstantRange at 20"}, set()),
    ("const int k = 1 div 0;", {"18 ConstantRange at 14"}, set()),
    ("const int k = if true: 1 else 1 mod 0 end;", {"18 ConstantRange at 14"}, set()),
    ("const bool b = 2147483647 * 2147483647 * 2147483647 > 0;", {"18 ConstantRange at 15"}, set()),
    ("const bool b = 2147483647 * 2147483647 * 2 + 1 > 0;", set(), set()),
    # 4294967294 is 2147483647 doubled: within 64 bits, and not in 32
    ("const int k = 2147483647 + 2147483647 - 2147483647;", set(), set()),
    ("const int k = -2147483647 - 2;", {"18 ConstantRange at 14"}, set()),
    ("type t = int[3..2];", {"18 ConstantRange at 13"}, set()),
    ("type t = int[0..2147483647 + 1];", {"18 ConstantRange at 16"}, set()),
    ("type t = int[-2147483647 - 1..-7];", set(), set()),
    ("const int k = 5; type t = int[0..k - 1]; automaton a: disc t x = k; location: initial; end", {"18 ConstantRange at 65"}, set()),
    # marking is asked for its kind alone
    ("marked 1 div 0 = 1;", set(), set()),
    ("automaton a: event e; disc int[0..9] x; disc int[0..3] y; location: initial; edge e do x := x div y; end",
     {"20 ZeroDivisor at 98"}, NO_CLASS),
    ("automaton a: event e; disc int[0..9] x; disc int[1..3] y; location: initial; edge e do x := x div y; end", set(), NO_CLASS),
    (TWO % ("-1..3", "mod (y)"), {"20 ZeroDivisor at 93"}, NO_CLASS),
    (TWO % ("-3..-1", "mod (y)"), set(), NO_CLASS),
    (TWO % ("0..9", "* x * x"), {"21 TooWide at 86"}, NO_CLASS),
    (TWO % ("0..9", "* x * 2"), {"21 TooWide at 86"}, NO_CLASS),
    (TWO % ("0..9", "* x * 1"), set(), NO_CLASS),
    # a part is asked whatever the whole is
    (TWO % ("0..9", "* 1 + 0 * (1 + x * x * 2 - 7)"), {"21 TooWide at 98", "21 TooWide at 103"}, NO_CLASS),
]


# the same for sources with definitions
CELL = "automaton a: uncontrollable e; disc int[0..3] n; location: initial; edge e; end "
DOSER = "automaton def D(event c; alg int v): %sdisc int[0..9] m; location: initial; edge c do m := %s; end"
DEFINED = [
    # what is not read, and what is not built
    ("group def D(alg int v;): end", {"4 NotRead at 22"}, set()),
    ("automaton a: x: D(); location: initial; end", {"4 NotRead at 13"}, set()),
    # what is instantiated is a definition, with an argument for each parameter
    ("x: D();", {"5 Unknown at 3"}, set()),
    ("event D; x: D();", {"7 WrongKind at 12"}, set()),
    ("x: D(1); group def D(): end", {"7 WrongKind at 0"}, set()),
    ("x: D(); group def D(alg int v): end", {"7 WrongKind at 0"}, set()),
    # where the definition is not found, what is looked up in the instance is declared nowhere
    ("p: E(); automaton a: location: initial; edge p.c; end", {"5 Unknown at 3", "5 Unknown at 45"}, set()),
    ("event E; p: E(); automaton a: location: initial; edge p.c; end", {"7 WrongKind at 12", "5 Unknown at 54"}, set()),
    # a bare name without a parameter asks for no sort, and other names stand in an expression
    ("p: D(z); group def D(): end", {"7 WrongKind at 0", "5 Unknown at 5"}, set()),
    ("event e; p: D(e); group def D(): end", {"7 WrongKind at 9"}, set()),
    ("event e; p: D(1 + e); group def D(): end", {"7 WrongKind at 9", "7 WrongKind at 18"}, set()),
    ("event e; p: D(e, e, 1); group def D(event c; alg int v, w): end", {"7 WrongKind at 17"}, set()),
    # a definition is not reached through an instance; where nothing is found so, it is unknown
    ("x: D(); y: x.E(); group def D(): group def E(): end end", {"7 WrongKind at 11"}, set()),
    ("x: D(); y: x.F(); group def D(): group def E(): end end", {"5 Unknown at 11"}, set()),
    # a definition is no component, and through an instance its parameters are not found
    ("group def D(): event e; end automaton a: location: initial; edge D.e; end", {"7 WrongKind at 65"}, set()),
    ("event e; p: D(e); group def D(event c): end automaton a: location: initial; edge p.c; end", {"5 Unknown at 81"}, set()),
    ("p: D(); group def D(): event c; end automaton a: location: initial; edge p.c; end", set(), {"28 Unclassed event p.c"}),
    # names in a definition are looked up where it is written, those in an argument where the instance stands
    ("group g: controllable e; p: .D(); end group def D(): automaton a: location: initial; edge e; end end", {"5 Unknown at 90"}, set()),
    ("p: D(k); group def D(alg int v): const int k = 1; end", {"5 Unknown at 5"}, set()),
    # parameters are declared in the definition's scope
    ("group def D(alg int v): const int v = 1; end", {"6 Duplicate at 34 first 20"}, set()),
    ("group def D(event e; alg bool e): end", {"6 Duplicate at 30 first 18"}, set()),
    # an argument is of its parameter's sort, and stands in an expression where it is no bare name
    ("event e; p: D(e); group def D(location l): end", {"7 WrongKind at 14"}, set()),
    ("event e; p: D(e); group def D(alg bool v): end", {"7 WrongKind at 14"}, set()),
    ("event e; p: D((e)); group def D(event c): end", {"7 WrongKind at 15"}, set()),
    # a definition reaches those of the instances in it, and not those in the definitions in it
    ("group def D(): x: D(); end", {"8 DefinitionCycle at 10"}, set()),
    ("group def D(): group g: x: .D(); end end", {"8 DefinitionCycle at 10"}, set()),
    ("group def D(): x: E(); end group def E(): x: D(); end x: D();", {"8 DefinitionCycle at 10", "8 DefinitionCycle at 37"}, set()),
    ("group def D(): group def E(): x: .D(); end end", set(), set()),
    ("p: D(); group def D(): const int k = j; end const int j = p.k;", {"8 DefinitionCycle at 33", "8 DefinitionCycle at 54"}, set()),
    ("group def D(): group def E(): x: .D(); end x: E(); end", {"8 DefinitionCycle at 10", "8 DefinitionCycle at 25"}, set()),
    # kinds and classes of arguments
    ("p: D(1); group def D(alg bool v): end", {"9 Mismatch at 5"}, set()),
    ("p: D(1 + true); group def D(alg bool v): end", {"9 Mismatch at 5", "9 Mismatch at 9"}, set()),
    ("p: D((1)); group def D(location l): end", {"9 Mismatch at 5"}, set()),
    ("p: D(1 = 1); group def D(event e): end", {"9 Mismatch at 5"}, set()),
    ("event e; p: D(e); group def D(controllable c): end", {"9 Mismatch at 14"}, set()),
    ("uncontrollable e; p: D(e); group def D(event c): q: E(c); end group def E(uncontrollable c): end", {"9 Mismatch at 54"}, set()),
    ("group def D(alg int v): automaton a: event e; location: initial; edge e when v; end end", {"9 Mismatch at 77"}, set()),
    ("enum T = r, g; group def D(alg T v): enum T = r; const bool b = .g = .r; end p: D(.r);", {"9 Mismatch at 82"}, set()),
    ("enum T = r, g; p: D(g); group def D(alg T v): enum T = r, g; end", set(), set()),
    # a parameter is no constant
    ("group def D(alg int v): const int k = v; end", {"10 NotConstant at 38"}, set()),
    ("group def D(alg int v; alg int[0..v] w): end", {"10 NotConstant at 34"}, set()),
    ("p: D(); group def D(): automaton a: disc int n; location: initial; end end const int k = p.a.n;", {"10 NotConstant at 89"}, set()),
    ("p: D(); group def D(): const int n = 1; end const int k = p.n;", set(), set()),
    # once for a definition, however many instances it has
    ("automaton def D(): location p; end", {"11 Initials at 14 count 0"}, set()),
    ("p: D(); q: D(); automaton def D(): location a: initial; location b: initial; end", {"11 Initials at 30 count 2"}, set()),
    # a name through an instance assigns no own variable, also in the definition itself
    ("p: D(); automaton def D(): disc int n; location: initial; end automaton a: event e; location: initial; edge e "
     "do p.n := 1; end",
     {"12 NotOwn at 113"}, set()),
    ("p: D(); automaton def D(): event e; disc int n; location: initial; edge e do .p.n := 1; end", {"12 NotOwn at 77"}, set()),
    ("p: D(); q: D(); automaton def D(): event e; disc int n; location: initial; edge e do n := 1, p.n := 2, q.n := 3; end",
     {"12 NotOwn at 93", "12 NotOwn at 103"}, set()),
    ("group def D(): automaton a: event e; disc int n; location: initial; edge e do n := 1, a.n := 2; end end",
     {"13 AssignedTwice at 86"}, set()),
    # alphabets and ranges are asked for each instance, and not for a definition without any
    ("event e, f; p: D(e, e); q: D(e, f); automaton def D(event a, b): alphabet a; location: initial; edge b; end",
     {"14 AlphabetLacks at 101"}, set()),
    ("event e, f; p: D(e, e); automaton def D(event a, b): alphabet a; location: initial; edge b; end", set(), {"28 Unclassed event e"}),
    ("event e, f; automaton def D(event a, b): alphabet a; location: initial; edge b; end", set(), {"28 Unclassed event e"}),
    ("event e; p: D(e); automaton def D(event a): monitor a; location: initial; end", {"14 AlphabetLacks at 52"}, set()),
    ("group def D(): const int k = 1 div 0; end", set(), set()),
    ("p: D(); q: D(); group def D(): const int k = 1 div 0; end", {"18 ConstantRange at 45"}, set()),
    ("p: D(1); group def D(alg int[3..2] v): end", {"18 ConstantRange at 29"}, set()),
    ("p: D(7); group def D(alg int[0..3] v): end", set(), set()),
    ("p: D(1 div 0 = 1); group def D(alg bool v): end", set(), set()),
    # arguments are asked where their parameter is named in what is evaluated
    (CELL + "p: D(a.e, a.n); q: D(a.e, a.n + 1); " + DOSER % ("", "7 div v"), {"20 ZeroDivisor at 90"}, set()),
    (CELL + "p: D(a.e, a.n + 1); q: D(a.e, 2 + a.n); " + DOSER % ("", "7 div v"), set(), set()),
    (CELL + "p: D(a.e, 1); q: D(a.e, a.n); " + DOSER % ("", "7 div (v)"), {"20 ZeroDivisor at 205"}, set()),
    (CELL + "p: D(a.e, (a.n)); " + DOSER % ("", "7 div v"), {"20 ZeroDivisor at 90"}, set()),
    (CELL + "p: P(a.e, a.n); group def P(event b; alg int w): q: D(b, w); r: D(b, w + 0); end " + DOSER % ("", "7 mod v"),
     {"20 ZeroDivisor at 90", "20 ZeroDivisor at 149"}, set()),
    (CELL + "p: D(a.e, a.n * 2147483647 * 2147483647 * 2); " + DOSER % ("", "v"), {"21 TooWide at 90"}, set()),
    (CELL + "p: D(a.e, a.n * 2147483647 * 2147483647 * 2); " + DOSER % ("", "0"), set(), set()),
    (CELL + "p: D(a.e, a.n * 2147483647 * 2147483647 * 2); " + DOSER % ("marked v div 0 = v; ", "0"), set(), set()),
    (CELL + "p: D(a.e, a.n * 2147483647); " + DOSER % ("", "v * v * v"), {"21 TooWide at 198"}, set()),
]


# the same for sources with inputs and algebraic variables
GUARDED = "automaton a: event e; location: initial; edge e when %s; end"
ALGEBRA = [
    # what is not read, and what is not built
    ("input int i = 1;", {"4 NotRead at 12"}, set()),
    ("input v;", {"4 NotRead at 7"}, set()),
    ("alg v = 1;", {"4 NotRead at 6"}, set()),
    ("equation a.b = 1;", {"4 NotRead at 10"}, set()),
    ("automaton a: location: initial; alg int v = 1; end", {"4 NotRead at 32"}, set()),
    ("input bool i; alg bool b = i;", set(), set()),
    ("input bool i; event e;", set(), {"28 Unclassed event e"}),
    # names
    ("alg bool b = z;", {"5 Unknown at 13"}, set()),
    ("input bool i, i;", {"6 Duplicate at 14 first 11"}, set()),
    ("event e; alg bool b = e;", {"7 WrongKind at 22"}, set()),
    ("alg int a = b; alg int b = 1;", set(), set()),
    # the left side of an equation is an algebraic variable of the same body, looked up there alone
    ("equation z = 1;", {"5 Unknown at 9"}, set()),
    ("input int z; equation z = 1;", {"7 WrongKind at 22"}, set()),
    ("alg int v = 1; automaton a: equation v = 1; location: initial; end", {"5 Unknown at 37"}, set()),
    ("automaton a: location: initial; equation z = 1; end", {"5 Unknown at 41"}, set()),
    ("automaton a: location p: initial; equation p = true; end", {"7 WrongKind at 43"}, set()),
    ("group def D(alg int v): equation v = 1; end", {"7 WrongKind at 33"}, set()),
    # what is assigned is a discrete variable
    ("input int i; automaton a: event e; location: initial; edge e do i := 1; end", {"7 WrongKind at 64"}, set()),
    ("alg int v = 1; automaton a: event e; location: initial; edge e do v := 1; end", {"7 WrongKind at 66"}, set()),
    # arguments for events and locations
    ("input bool i; p: D(i); group def D(location l): end", {"7 WrongKind at 19"}, set()),
    ("input bool i; p: D(i); group def D(event e): end", {"7 WrongKind at 19"}, set()),
    ("input bool i; p: D(i); group def D(alg bool v): alg bool w = v; end", set(), set()),
    # kinds
    ("alg bool b = 1;", {"9 Mismatch at 13"}, set()),
    ("alg int v; equation v = true;", {"9 Mismatch at 24"}, set()),
    ("input int i; alg bool b = i;", {"9 Mismatch at 26"}, set()),
    ("enum T = r; input T c; alg bool b = c = 1;", {"9 Mismatch at 40"}, set()),
    ("automaton a: alg int v; location: initial; equation v = not true; end", {"9 Mismatch at 56"}, set()),
    ("input int i; p: D(i); group def D(alg bool v): end", {"9 Mismatch at 18"}, set()),
    ("input int i; " + GUARDED % "i", {"9 Mismatch at 66"}, set()),
    # neither is a constant
    ("input int i; const int k = i;", {"10 NotConstant at 27"}, set()),
    ("input int i; type t = int[0..i];", {"10 NotConstant at 29"}, set()),
    ("input int i; input int[0..i] j;", {"10 NotConstant at 26"}, set()),
    ("input int i; automaton a: disc int n = i; location: initial; end", {"10 NotConstant at 39"}, set()),
    ("alg int v = 1; const int k = v;", {"10 NotConstant at 29"}, set()),
    ("alg int v = 1; alg int[0..v] w = 0;", {"10 NotConstant at 26"}, set()),
    # one definition, in an automaton one for each location
    ("alg bool b;", {"16 Equations at 9 count 0"}, set()),
    ("alg int v = 1, w;", {"16 Equations at 15 count 0"}, set()),
    ("alg bool b = true; equation b = false;", {"16 Equations at 9 count 2"}, set()),
    ("alg bool b; equation b = true; equation b = false; equation b = b;", {"16 Equations at 9 count 3"}, set()),
    ("group def D(): alg int v; end", {"16 Equations at 23 count 0"}, set()),
    ("automaton a: alg int v; location: initial; end", {"16 Equations at 21 count 0"}, set()),
    ("automaton a: alg int v; equation v = 1; location p: initial; location q; end", set(), set()),
    ("automaton a: alg int v; location p: initial; equation v = 1; location q; end", {"16 Equations at 21 count 0"}, set()),
    ("automaton a: alg int v = 1; location p: initial; equation v = 1; location q; end", {"16 Equations at 21 count 2"}, set()),
    ("automaton a: alg int v = 1; equation v = 1; location p: initial; equation v = 1; location q; end",
     {"16 Equations at 21 count 3", "16 Equations at 21 count 2"}, set()),
    ("automaton a: alg int v; location p: initial; equation v = 1; equation v = 2; location q; end",
     {"16 Equations at 21 count 2", "16 Equations at 21 count 0"}, set()),
    ("automaton a: alg int v; location p: equation v = 1; location q; end", {"11 Initials at 10 count 0", "16 Equations at 21 count 0"}, set()),
    # ranges
    ("input int[3..2] i;", {"18 ConstantRange at 10"}, set()),
    ("alg int[0..2147483647 + 1] v = 1;", {"18 ConstantRange at 11"}, set()),
    ("alg int[0..3] v = 7;", set(), set()),
    # the first variable that needs itself, whatever the values
    ("alg int p = q; alg int q = p;", {"19 AlgCycle alg p"}, set()),
    ("alg int p = p;", {"19 AlgCycle alg p"}, set()),
    ("alg bool b = true or b;", {"19 AlgCycle alg b"}, set()),
    ("alg int o = p; alg int p = q; alg int q = p;", {"19 AlgCycle alg p"}, set()),
    ("alg int o = o + r; alg int p = q; alg int q = p; alg int r = p;", {"19 AlgCycle alg o"}, set()),
    ("alg int p = q; alg int q = r; alg int r = q + s; alg int s = t; alg int t = s;", {"19 AlgCycle alg q"}, set()),
    ("group g: alg int p = .q; end alg int q = g.p;", {"19 AlgCycle alg q"}, set()),
    ("alg int z = 1; group a: alg int $if; equation $if = $if; end group b: alg int y = y; end", {"19 AlgCycle alg a.if"}, set()),
    ("automaton a: alg int x = b.y; location: initial; end automaton b: alg int y; location p: initial; equation y = 1; location q: "
     "equation y = a.x; end", {"19 AlgCycle alg a.x"}, set()),
    # through arguments
    ("p: D(p.w); group def D(alg int v): alg int w = v + 1; end", {"19 AlgCycle alg p.w"}, set()),
    ("p: D(1); q: D(r.w); r: D(q.w + p.w); group def D(alg int v): alg int w = v + 1; end", {"19 AlgCycle alg q.w"}, set()),
    ("p: D(q.w); q: D(1); group def D(alg int v): alg int w = v; end", set(), set()),
    ("p: D(q); alg int q = p.x; group def D(alg int v): alg int x = 1; end", set(), set()),
    ("p: D(p.w); group def D(alg int v): alg int w = 1; end", set(), set()),
    ("group def D(): alg int v = v; end", set(), set()),
    # nothing else is asked of algebraic variables then
    ("alg int p = p; alg int q = 1 div 0;", {"19 AlgCycle alg p"}, set()),
    # intervals: of an input its range, of an algebraic variable that of its definitions, and not the declared one
    ("input int[0..3] i; alg int q = 7 div i;", {"20 ZeroDivisor at 37"}, set()),
    ("input int[1..3] i; alg int q = 7 div i;", set(), set()),
    ("alg int q = 7 div d; alg int d = 0;", {"20 ZeroDivisor at 18"}, set()),
    ("alg int[1..3] v = 0; alg int w = 1 div v;", {"20 ZeroDivisor at 39"}, set()),
    ("automaton a: alg int v; location p: initial; equation v = 1; location q: equation v = -1; end alg int w = 6 mod a.v;",
     {"20 ZeroDivisor at 112"}, set()),
    ("automaton a: alg int v; location p: initial; equation v = 1; location q: equation v = +2; end alg int w = 6 mod a.v;", set(), set()),
    ("input int[0..3] i; alg int v = i + 1; " + GUARDED % "1 div v = 1", set(), NO_CLASS),
    ("input int[0..3] i; alg int v = i - 1; " + GUARDED % "1 div (v) = 1", {"20 ZeroDivisor at 97"}, set()),
    ("p: D(i); input int[0..3] i; group def D(alg int v): alg int w = 7 div v; end", {"20 ZeroDivisor at 5"}, set()),
    ("input int i; alg int w = i * i * i;", {"21 TooWide at 25"}, set()),
    ("input int i; alg int w = i * i; alg int v = w * w;", {"21 TooWide at 44"}, set()),
    ("input int i; alg int w = i * i; alg int v = w + w - 1;", {"21 TooWide at 44"}, set()),
    ("input int i; alg int w = i * i * i; alg int v = w;", {"21 TooWide at 25", "21 TooWide at 48"}, set()),
    ("input int i; alg bool b = i * i * i > 0; " + GUARDED % "b", {"21 TooWide at 26"}, set()),
    # the values of all branches and of all locations count, and what is marked is not asked
    ("input bool b; alg int v = if b: 1 else -1 end; alg int w = 6 div v;", {"20 ZeroDivisor at 65"}, set()),
    ("alg int v = if false: 0 else 1 end; alg int w = 6 div v;", {"20 ZeroDivisor at 54"}, set()),
    ("input bool b; alg int v = if b: 1 else 2 end; alg int w = 6 div v;", set(), set()),
    ("input int i; automaton a: alg int v; location p: initial; equation v = i; location q: equation v = i * i * i; end",
     {"21 TooWide at 99"}, set()),
    ("input int[0..3] i; alg int v = i; marked 1 div v = v * v * v * v;", set(), set()),
    ("input int[0..3] i; group def D(): alg int w = 7 div i; end", set(), set()),
    # rules on bodies and instances come before, and those on sizes and choices after
    ("alg int p = p; alg int q;", {"16 Equations at 23 count 0"}, set()),
    ("alg int p = p; automaton a: event e, f; alphabet e; location: initial; edge f; end", {"14 AlphabetLacks at 76"}, set()),
    ("alg int p = p; const int[0..3] k = 4;", {"18 ConstantRange at 35"}, set()),
    ("alg bool p = p; " + GUARDED % ("not " * 100 + "true, true"), {"19 AlgCycle alg p"}, set()),
    ("event e; alg int p = p; " + crowd([26] * 3), {"19 AlgCycle alg p"}, set()),
    ("event e; alg int q = 1 div 0; " + crowd([26] * 3), {"20 ZeroDivisor at 27"}, set()),
    ("event e; alg int q = 1; " + crowd([26] * 3), {"25 TooManyChoices count 16385"}, set()),
    # names in branches that are never taken are names
    ("alg int v = if true: 1 else w end; alg int w = 0 * v;", {"19 AlgCycle alg v"}, set()),
    ("automaton a: alg int v; location p: initial; equation v = 1; location q: equation v = v; end", {"19 AlgCycle alg a.v"}, set()),
]


ALL_WORKED = WORKED + DATA + DEFINED + ALGEBRA + worked_channels.REFUSED + worked_invariants.REFUSED


def self_test(is_short=False):
    for text, lines, generated in ALL_WORKED:
        verdict = judgement(text)
        assert verdict.lines == lines and (lines or verdict.generated == generated), (text, verdict)
    print("the rules agree with %d worked examples" % len(ALL_WORKED))
    if not is_short:
        test_limits()
    return 0


def test_limits():
    short = [it for it in all_at_limits() if len(it[1]) < 200000]
    for what, text, line in short:
        assert judgement(text).lines == ({line} if line else set()), what
    assert judgement("event e, f; " + crowd([2] * 13 + [1] * 47) + crowd([2923], {0}, "f")).nodes == MOST_NODES
    assert judgement("event e; " + crowd([128, 128])).nodes == 5 * MOST_CHOICES
    print("the rules agree with %d sources at limits" % len(short))


if __name__ == "__main__":
    words = [it for it in sys.argv[1:] if it != "--short"]
    is_short = "--short" in sys.argv
    sys.exit(self_test(is_short) if words == ["--self-test"] else main(words[0], *map(int, words[1:]), is_short=is_short))
