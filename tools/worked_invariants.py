"""Worked examples of invariants: scans, legal scans, refusals and limits, by hand from the rules, and wrong simulations.

The forms of the lists are those of `compare_scans.py` and of `compare_refusals.py`.
"""
from plain_invariants import permits
from plain_nets import Net

# ---- a source, the most rounds of each class, and the table of so many scans

PAIR = ("controllable e; automaton a: disc int[0..9] x = 0; location: initial; edge e do x := x + 3; edge e do x := x + 1; end automaton b: "
        "disc int[0..9] y = 1; location: initial; edge e do y := y + 1; end ")
SWITCH = "automaton %s: controllable c_on; location Off: initial; edge c_on goto On; location On; end "

SCANS = [
    # a choice whose step would break an invariant is passed over, and the next one is tried
    (PAIR + "invariant a.x + b.y <= 3;", 100, 100, "scan,P0_a,P1_b,Q0_a_x,Q1_b_y\n1,0,0,1,2\n"),
    (PAIR + "invariant a.x + b.y <= 5;", 100, 100, "scan,P0_a,P1_b,Q0_a_x,Q1_b_y\n1,0,0,3,2\n"),
    # an exclusion is asked of the state before the step, not of the one after it
    ("controllable e; automaton a: disc int[0..9] n; location: initial; edge e do n := n + 1; end requirement e needs a.n < 3;", 100, 100,
     "scan,P0_a,Q0_a_n\n1,0,3\n"),
    ("controllable e; automaton a: disc int[0..9] n; location: initial; edge e do n := n + 1; end requirement a.n >= 3 disables e;", 1, 2,
     "scan,P0_a,Q0_a_n\n1,0,2\n2,0,3\n3,0,3\n"),
    # a state invariant is asked of the state after it
    ("controllable e; automaton a: disc int[0..9] n; location: initial; edge e do n := n + 1; end requirement invariant a.n < 3;", 100, 100,
     "scan,P0_a,Q0_a_n\n1,0,2\n"),
    # all new values at once, and the places: neither update alone would do
    ("controllable e; automaton a: disc int[0..9] x = 1, y = 2; location: initial; edge e do x := y, y := x; end invariant a.x + a.y = 3;",
     1, 1, "scan,P0_a,Q0_a_x,Q1_a_y\n1,0,2,1\n2,0,1,2\n"),
    ("controllable e; automaton a: location p: initial; edge e goto q; location q: edge e goto p; end automaton b: location p: initial; edge "
     "e goto q; location q: edge e goto p; end invariant a.p <=> b.p;", 1, 1, "scan,P0_a,P1_b\n1,1,1\n2,0,0\n"),
    # an exclusion is one of each of its events, and of no other
    ("controllable e, f, g; automaton a: disc int[0..9] n; location: initial; edge e do n := n + 1; edge f do n := n + 2; edge g do n := n + "
     "4; end requirement {e, g} needs a.n >= 2;", 1, 1, "scan,P0_a,Q0_a_n\n1,0,6\n2,0,9\n3,0,9\n"),
    ("controllable e, f, g; automaton a: disc int[0..9] n; location: initial; edge e do n := n + 1; edge f do n := n + 2; edge g do n := n + "
     "4; end requirement a.n = 0 disables {e, g};", 1, 1, "scan,P0_a,Q0_a_n\n1,0,6\n2,0,9\n3,0,9\n"),
    ("controllable e, f, g; automaton a: disc int[0..9] n; location: initial; edge e do n := n + 1; edge f do n := n + 2; edge g do n := n + "
     "4; end requirement {f, g} needs a.n = 0;", 1, 1, "scan,P0_a,Q0_a_n\n1,0,1\n2,0,2\n3,0,3\n"),
    ("controllable e, f; automaton a: disc int[0..9] n; location: initial; edge e do n := n + 1; edge f do n := n + 2; end plant true disables "
     "{e};", 1, 1, "scan,P0_a,Q0_a_n\n1,0,2\n"),
    # several predicates of one declaration are several invariants, with names or without
    ("controllable e, f; automaton a: disc int[0..9] n; location: initial; edge e do n := n + 1; edge f do n := n + 2; end requirement "
     "invariant k: e needs a.n = 0, a.n = 1 disables f, l: a.n < 4;", 1, 1, "scan,P0_a,Q0_a_n\n1,0,1\n2,0,1\n"),
    # inputs and algebraic variables: an exclusion may read inputs
    ("controllable e; automaton a: disc int[0..9] n; location: initial; edge e do n := n + 1; end alg int twice = 2 * a.n; invariant twice "
     "<= 4;", 100, 100, "scan,P0_a,Q0_a_n,R0_twice\n1,0,2,4\n"),
    ("automaton a: controllable e; disc int[0..9] n; alg int w; location p: initial; equation w = 1; edge e goto q; location q: equation w = "
     "a.n + 2; edge e do n := n + 1 goto q; end invariant a.w < 4;", 1, 1, "scan,P0_a,Q0_a_n,R0_a_w\n1,1,0,2\n2,1,1,3\n3,1,1,3\n"),
    # in a definition each instance has its own, and its parameters are what is given
    (SWITCH % "a" + SWITCH % "b" + "x: Apart(a.On, b.On); group def Apart(location l, m): invariant not (l and m); end", 1, 1,
     "scan,P0_a,P1_b\n1,1,0\n2,1,0\n"),
    ("controllable e, f; p: D(e, 2); q: D(f, 1); automaton def D(controllable c; alg int most): disc int[0..9] n; invariant n <= most; "
     "location: initial; edge c do n := n + 1; end", 9, 9, "scan,P0_p,P1_q,Q0_p_n,Q1_q_n\n1,0,0,2,1\n"),
    # a channel: what is received is stored only where the invariants allow it
    ("controllable int[0..9] m; automaton S: disc int[0..9] n = 1; location: initial; edge m!n do n := n + 1; end automaton R: disc int[0..9] "
     "v; location: initial; edge m? do v := v + ?; end invariant R.v <= 5, S.n < 9; requirement m needs S.n != 8;", 1, 9,
     "scan,P0_S,P1_R,Q0_S_n,Q1_R_v\n1,0,0,3,3\n"),
    # who monitors and stays is where it was
    ("controllable e; automaton a: location p: initial; edge e goto q; location q; end automaton b: monitor e; location x: initial; location "
     "y: edge e goto x; end invariant a.q => b.x;", 1, 1, "scan,P0_a,P1_b\n1,1,0\n"),
    # conditional updates: the new value is the old one where no branch is taken
    ("controllable e; automaton a: disc int[0..9] n, k; location: initial; edge e do k := k + 1, if k = 1: n := 5 elif k = 2: n := n + 1 end; end "
     "invariant a.n <= 5;", 1, 9, "scan,P0_a,Q0_a_n,Q1_a_k\n1,0,5,2\n"),
    # an invariant over conditional values
    ("controllable e; automaton a: disc int[0..9] n; location: initial; edge e do n := n + 1; end invariant if a.n > 3: a.n = 5 elif a.n = 2: "
     "true else a.n < 2 end;", 1, 9, "scan,P0_a,Q0_a_n\n1,0,2\n"),
    # a range that is left comes before an invariant that divides
    ("controllable e; automaton a: disc int[0..3] n; location: initial; edge e do n := n + 1; end invariant 12 div (4 - a.n) > 0;", 1, 9,
     "scan,P0_a,Q0_a_n\n1,0,3\n"),
    # an event that nothing asks for goes on
    ("uncontrollable u; controllable c; automaton a: disc int[0..9] n, k; location: initial; edge u do n := n + 1; edge c do k := k + 1; end "
     "requirement c needs a.n >= 4; requirement invariant a.n <= 4;", 2, 1, "scan,P0_a,Q0_a_n,Q1_a_k\n1,0,2,0\n2,0,4,1\n3,0,4,2\n"),
]

# the same with inputs: the rows stand before the table
WITH_INPUTS = [
    ("input bool i; controllable e; automaton a: disc int[0..9] n; location: initial; edge e do n := n + 1; end requirement e needs i;", 1, 2,
     "scan,I0_i\n1,1\n2,0\n3,1\n", "scan,P0_a,Q0_a_n\n1,0,2\n2,0,2\n3,0,4\n"),
    ("input int[0..9] k; controllable e; automaton a: disc int[0..9] n; location: initial; edge e do n := k; end requirement k > 5 disables e; "
     "invariant a.n != 3;", 1, 1, "scan,I0_k\n1,5\n2,7\n3,3\n4,2\n", "scan,P0_a,Q0_a_n\n1,0,5\n2,0,5\n3,0,5\n4,0,2\n"),
]

# ---- a source, the most rounds of each class, a state, and the states to which a legal scan may lead from it

LEGAL = [
    # any choice whose step keeps the invariant
    (PAIR + "invariant a.x + b.y <= 3;", 1, 1, (0, 0, 0, 1), {(0, 0, 1, 2)}),
    ("controllable e; automaton a: disc int[0..4] n; location: initial; edge e do n := 4; edge e do n := 3; edge e do n := 2; end invariant a.n "
     "!= 4;", 1, 1, (0, 0), {(0, 2), (0, 3)}),
    # what is disabled need not fire
    ("controllable e; automaton a: location p: initial; edge e goto q; location q: edge e goto p; end requirement e needs a.p;", 1, 9, (0,),
     {(1,)}),
]


# ---- wrong simulations

class InvariantBefore(Net):
    """State invariants are asked of the state before the step."""

    def moves(self, event, state):
        for choice in self.choices(event) if self.is_permitted(event, state) and self.is_kept(state) else []:
            after = self.after(choice, event, state) if self.agrees(choice, event, state) else None
            if after is not None:
                yield after


class ExclusionAfter(Net):
    """Exclusions are asked of the state after the step."""

    def moves(self, event, state):
        for choice in self.choices(event):
            after = self.after(choice, event, state) if self.agrees(choice, event, state) else None
            if after is not None and self.is_kept(after) and self.is_permitted(event, after):
                yield after


class FirstAlways(Net):
    """The first choice that agrees is the only one."""

    def moves(self, event, state):
        found = [choice for choice in self.choices(event) if self.agrees(choice, event, state)][:1] if self.is_permitted(event, state) else []
        after = self.after(found[0], event, state) if found else None
        if after is not None and self.is_kept(after):
            yield after


class NeedsDisables(Net):
    """What an event needs disables it."""

    def is_permitted(self, event, state):
        return permits([it._replace(is_needed=False) for it in self.exclusions[event]], state)


class FirstEventAlone(Net):
    """An exclusion of several events is one of the first."""

    def invariant(self, frame, it):
        super().invariant(frame, it._replace(events=it.events[:1]))


class EachEvent(Net):
    """An exclusion is one of every event."""

    def is_permitted(self, event, state):
        return permits([it for exclusions in self.exclusions.values() for it in exclusions], state)


class PlacesBefore(Net):
    """State invariants are asked of the new values and the old places."""

    def moves(self, event, state):
        count = len(self.parties)
        for choice in self.choices(event) if self.is_permitted(event, state) else []:
            after = self.after(choice, event, state) if self.agrees(choice, event, state) else None
            if after is not None and self.is_kept(state[:count] + after[count:]):
                yield after


class Untold(Net):
    """State invariants are not asked."""

    def is_kept(self, state):
        return True


WRONG = [InvariantBefore, ExclusionAfter, FirstAlways, NeedsDisables, FirstEventAlone, EachEvent, PlacesBefore, Untold]


# ---- sources at the limits: what they show, the text, and the line that `check` tells, or None

def crowd_of(edges, parties):
    """So many automata with so many edges each for one event, and another event."""
    one = "automaton a%d: location p: initial; " + "edge e; " * edges + "end "
    return "event e, f; " + "".join(one % number for number in range(parties))


def at_limits():
    size, objects = "24 TooLarge nodes 1000001 depth %d", "17 TooManyObjects count 100001"
    # 16384 choices of one automaton count 3 each with their guards; 58 more each, and 16960 left
    many = crowd_of(16384, 1)
    events = "event e0%s; " % "".join(", e%d" % number for number in range(1, 20000))
    return [
        ("choices and an invariant that count %d" % (16384 * 61), many + "invariant true%s;" % (" and true" * 56), None),
        ("three operands more", many + "invariant true%s;" % (" and true" * 59), size % 1),
        ("an exclusion of the event counts in each choice", many + "requirement e needs true%s;" % (" and true" * 56), None),
        ("and three operands more", many + "requirement e needs true%s;" % (" and true" * 59), size % 1),
        ("an exclusion of an event without a choice counts nothing", many + "requirement f needs true%s;" % (" and true" * 59), None),
        ("2000 operands", "invariant true%s;" % (" and true" * 1999), None),
        ("a predicate of depth 100", "invariant %strue;" % ("not " * 100), None),
        ("a predicate of depth 101", "alg bool a = not false; invariant %sa;" % ("not " * 100), "24 TooLarge nodes 2 depth 101"),
        ("an exclusion of depth 101", "alg bool a = not false; event e; requirement e needs %sa;" % ("not " * 100), "24 TooLarge nodes 2 depth 101"),
        ("99999 invariants", "invariant true%s;" % (", true" * 99998), None),
        ("one invariant more", "invariant true%s;" % (", true" * 99999), objects),
        ("20000 events, and exclusions of 79999", events + "".join(
            "requirement {%s} needs true; " % ", ".join("e%d" % number for number in range(count)) for count in (20000, 20000, 20000, 19999)), None),
        ("one event of an exclusion more", events + "requirement {%s} needs true; " % ", ".join("e%d" % number for number in range(20000)) * 4,
         objects),
    ]


# ---- a source, the lines of which `check` tells one, and those of `generate` where `check` has none

REFUSED = [
    # what is not read
    ("invariant;", {"4 NotRead at 9"}, set()),
    ("requirement true", {"4 NotRead at 16"}, set()),
    ("event e; e needs true;", {"4 NotRead at 11"}, set()),
    ("event e; invariant {e} true;", {"4 NotRead at 23"}, set()),
    ("event e; invariant true disables {};", {"4 NotRead at 34"}, set()),
    ("event e; requirement k: e needs true;", {"4 NotRead at 24"}, set()),
    ("automaton a: location: initial; invariant true; end", {"4 NotRead at 32"}, set()),
    # names
    ("invariant z;", {"5 Unknown at 10"}, set()),
    ("invariant z needs true;", {"5 Unknown at 10"}, set()),
    ("event e; requirement e needs z;", {"5 Unknown at 29"}, set()),
    ("event e; plant true disables {e, f};", {"5 Unknown at 33"}, set()),
    ("event e; invariant e;", {"7 WrongKind at 19"}, set()),
    ("input bool i; invariant i needs i;", {"7 WrongKind at 24"}, set()),
    ("automaton a: location p: initial; end invariant a needs true;", {"7 WrongKind at 48"}, set()),
    # the names of invariants mean nothing
    ("event k; invariant k: true, k: k needs false; marked true;", set(), {"28 Unclassed event k"}),
    # kinds
    ("invariant 1;", {"9 Mismatch at 10"}, set()),
    ("event e; invariant e needs 1 + true;", {"9 Mismatch at 27", "9 Mismatch at 31"}, set()),
    ("enum T = r; event e; requirement r disables e;", {"9 Mismatch at 33"}, set()),
    ("event int m; invariant m needs ? = 1;", {"9 Mismatch at 31", "9 Mismatch at 35"}, set()),
    ("group def D(alg int v): invariant v > 0; end", set(), set()),
    ("group def D(alg int v): invariant v; end", {"9 Mismatch at 34"}, set()),
    # rules of earlier phases come first
    ("const int[0..3] k = 4; invariant false;", {"18 ConstantRange at 20"}, set()),
    ("alg bool b = b; invariant b;", {"19 AlgCycle alg b"}, set()),
    ("alg int v = v; invariant false;", {"19 AlgCycle alg v"}, set()),
    # widths, of the values after algebraic variables and parameters
    ("event e; requirement e needs 1 div 0 = 1;", {"20 ZeroDivisor at 35"}, set()),
    ("input int[0..3] i; event e; requirement 7 div i = 1 disables e;", {"20 ZeroDivisor at 46"}, set()),
    ("invariant 1 div 0 = 1;", {"20 ZeroDivisor at 16", "23 InvariantFalse at 10"}, set()),
    ("automaton a: disc int n; location: initial; end invariant a.n * a.n * a.n >= 0;", {"21 TooWide at 58"}, set()),
    ("automaton a: disc int[0..3] n; location: initial; end invariant 1 div (4 - a.n) >= 0;", set(), set()),
    # state invariants read no input, named or not, through variables, parameters and equations
    ("input bool i; invariant i;", {"22 InvariantReadsInput at 24"}, set()),
    ("input bool i; invariant not (i and false);", {"22 InvariantReadsInput at 24"}, set()),
    ("input int[0..3] i; alg int v = i; alg int w = v + 1; invariant true, w > 0;", {"22 InvariantReadsInput at 69"}, set()),
    ("input bool i; x: D(not i); group def D(alg bool b): invariant b or true; end", {"22 InvariantReadsInput at 62"}, set()),
    ("x: D(true); group def D(alg bool b): input bool i; invariant b; end", set(), set()),
    ("automaton a: input bool i; alg bool b; location p: initial; equation b = true; location q: equation b = i; end invariant a.b;",
     {"22 InvariantReadsInput at 121"}, set()),
    ("input bool i; event e; requirement e needs i; requirement i disables e;", set(), {"28 Unclassed event e"}),
    # and hold at first
    ("invariant false;", {"23 InvariantFalse at 10"}, set()),
    ("invariant (((false)));", {"23 InvariantFalse at 10"}, set()),
    ("invariant true, 1 > 2, true, 2 > 3;", {"23 InvariantFalse at 16", "23 InvariantFalse at 29"}, set()),
    ("input bool i; invariant i, false;", {"22 InvariantReadsInput at 24", "23 InvariantFalse at 27"}, set()),
    ("automaton a: disc int n = 3; location p: initial; location q; end invariant a.n = 3 and a.p and not a.q;", set(), set()),
    ("automaton a: disc int[2..5] n; location: initial; end invariant a.n > 2;", {"23 InvariantFalse at 64"}, set()),
    ("automaton a: location p; location q: initial; end invariant a.p;", {"23 InvariantFalse at 60"}, set()),
    ("automaton a: alg bool b; location p: initial; equation b = false; location q: equation b = true; end invariant a.b;",
     {"23 InvariantFalse at 111"}, set()),
    ("automaton a: alg bool b; location p: equation b = false; location q: initial; equation b = true; end invariant a.b;", set(), set()),
    ("x: D(true); y: D(false); group def D(alg bool b): invariant b; end", {"23 InvariantFalse at 60"}, set()),
    ("group def D(): invariant false; end", set(), set()),
    ("event e; requirement e needs false; requirement true disables e;", set(), {"28 Unclassed event e"}),
    ("event e; requirement invariant {e} needs true; automaton a: location: initial; edge e; end", set(), {"28 Unclassed event e"}),
]
