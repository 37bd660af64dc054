"""Worked examples of channels, by hand: what sources with them do, which rules they break, and wrong simulations that the examples tell.

The forms of the lists are those of `compare_scans.py` and of `compare_refusals.py`.
"""
from plain_channels import RECEIVES, SENDS, SYNCS
from plain_nets import Net, sent_values

# ---- a source, the most rounds of each class, and the table of so many scans

HANDS = "%s m; automaton S: %slocation: initial; edge m!%s; end automaton R: %slocation: initial; edge m? do %s; end"
SCANS = [
    # 5 is out of the range of v, so the second sender's choice makes the step
    ("uncontrollable int[0..9] m; automaton S: location: initial; edge m!5; end automaton T: location: initial; edge m!4; end "
     "automaton R: disc int[0..4] v = 0; location: initial; edge m? do v := ?; end", 1, 100, "scan,P0_S,P1_T,P2_R,Q0_R_v\n1,0,0,0,4\n"),
    # the first sender goes through all receivers before the second one does, and one receives
    ("controllable int[0..9] m; automaton S: location: initial; edge m!5; end automaton T: location: initial; edge m!4; end automaton P: "
     "disc int[0..4] v; location: initial; edge m? do v := ?; end automaton Q: disc int[0..9] w; location: initial; edge m? do w := ?; end",
     1, 1, "scan,P0_S,P1_T,P2_P,P3_Q,Q0_P_v,Q1_Q_w\n1,0,0,0,0,0,5\n"),
    ("controllable int[0..9] m; automaton Q: disc int[0..9] w; location: initial; edge m? when w = 0 do w := ?; end automaton P: disc "
     "int[0..9] v; location: initial; edge m? do v := ?; end automaton T: location: initial; edge m!4; end automaton S: location: initial; "
     "edge m!5; end", 1, 1, "scan,P0_Q,P1_P,P2_T,P3_S,Q0_Q_w,Q1_P_v\n1,0,0,0,0,4,0\n2,0,0,0,0,4,4\n"),
    # of a sender and a receiver the edges of the one with the lower number go slower
    ("controllable int[0..9] m; automaton R: disc int[0..4] v; location: initial; edge m? do v := ?; edge m? do v := 1; end automaton S: "
     "location: initial; edge m!5; edge m!3; end", 1, 1, "scan,P0_R,P1_S,Q0_R_v\n1,0,0,3\n"),
    ("controllable int[0..9] m; automaton S: location: initial; edge m!5; edge m!3; end automaton R: disc int[0..4] v; location: initial; "
     "edge m? do v := ?; edge m? do v := 1; end", 1, 1, "scan,P0_S,P1_R,Q0_R_v\n1,0,0,1\n"),
    # a value out of the range of its channel makes no step, whatever is received of it
    (HANDS % ("controllable int[0..3]", "disc int[0..9] n; ", "n do n := n + 1", "disc int[0..9] v; ", "v := ?"), 1, 9,
     "scan,P0_S,P1_R,Q0_S_n,Q1_R_v\n1,0,0,4,3\n2,0,0,4,3\n"),
    (HANDS % ("controllable int[0..3]", "", "7; edge m!2", "disc int[0..9] v; ", "v := ?"), 1, 1, "scan,P0_S,P1_R,Q0_R_v\n1,0,0,2\n"),
    (HANDS % ("controllable int[2..3]", "", "1; edge m!2", "disc int[0..9] v = 9; ", "v := 1"), 1, 1, "scan,P0_S,P1_R,Q0_R_v\n1,0,0,1\n"),
    (HANDS % ("controllable int[2..3]", "", "1", "disc int[0..9] v = 9; ", "v := 1"), 1, 1, "scan,P0_S,P1_R,Q0_R_v\n1,0,0,9\n"),
    # what is sent, and what is made of it, reads the state before
    ("controllable int m; automaton S: disc int x = 1; location: initial; edge m!x do x := x + 1; end automaton R: disc int v; location: "
     "initial; edge m? do v := v + ? + S.x; end", 1, 1, "scan,P0_S,P1_R,Q0_S_x,Q1_R_v\n1,0,0,2,2\n2,0,0,3,6\n"),
    ("controllable bool m; automaton S: disc bool b; location: initial; edge m!b do b := not b; end automaton R: disc bool d = true; "
     "location: initial; edge m? do d := ?; end", 1, 1, "scan,P0_S,P1_R,Q0_S_b,Q1_R_d\n1,0,0,TRUE,FALSE\n2,0,0,FALSE,TRUE\n"),
    ("enum T = r, g, b; controllable T m; automaton S: disc T c = g; location: initial; edge m!c do c := b; end automaton R: disc T d; "
     "disc bool e; location: initial; edge m? do d := ?, e := ? = g; end", 1, 1,
     "scan,P0_S,P1_R,Q0_S_c,Q1_R_d,Q2_R_e\n1,0,0,2,1,TRUE\n2,0,0,2,2,FALSE\n"),
    # `?` in conditions and in one branch of several, and in no other
    (HANDS % ("controllable int[0..9]", "disc int[0..9] n; ", "n do n := n + 1", "disc int[0..9] v, w; ",
              "if ? > 2: v := ? elif ? = 2: v := 9 else w := ? + 5 end"), 1, 1,
     "scan,P0_S,P1_R,Q0_S_n,Q1_R_v,Q2_R_w\n1,0,0,1,0,5\n2,0,0,2,0,6\n3,0,0,3,9,6\n4,0,0,4,3,6\n"),
    # without a value
    ("uncontrollable void m; automaton S: location a: initial; edge m! goto b; location b; end automaton R: disc int[0..9] v; location a: "
     "initial; edge m? do v := v + 1 goto b; location b: edge m?; end", 9, 1, "scan,P0_S,P1_R,Q0_R_v\n1,1,1,1\n2,1,1,1\n"),
    # nobody sends, nobody receives, or one that does is elsewhere
    ("controllable void m; automaton S: location: initial; edge m!; end", 1, 1, "scan,P0_S\n1,0\n"),
    ("controllable int m; automaton R: disc int v; location: initial; edge m? do v := 1; end", 1, 1, "scan,P0_R,Q0_R_v\n1,0,0\n"),
    ("controllable void m; automaton S: location a: initial; edge m! goto b; location b; end automaton R: location a: initial; location b: "
     "edge m?; end", 1, 1, "scan,P0_S,P1_R\n1,0,0\n"),
    # who synchronises on a channel takes part, who monitors it stays where it has to, and neither can stand for a receiver
    ("controllable int[0..9] m; automaton S: location: initial; edge m!1; end automaton R: disc int[0..9] v; location: initial; edge m? do "
     "v := v + ?; end automaton W: disc int[0..9] n; location: initial; edge m when n < 2 do n := n + 1; end", 1, 3,
     "scan,P0_S,P1_R,P2_W,Q0_R_v,Q1_W_n\n1,0,0,0,2,2\n"),
    ("controllable int[0..9] m; automaton W: monitor m; disc int[0..9] n; location: initial; edge m when n < 2 do n := n + 1; end automaton "
     "S: location: initial; edge m!1; end automaton R: disc int[0..9] v; location: initial; edge m? do v := v + ?; end", 1, 3,
     "scan,P0_W,P1_S,P2_R,Q0_W_n,Q1_R_v\n1,0,0,0,2,3\n"),
    ("controllable void m; automaton S: location a: initial; edge m! goto b; location b; end automaton W: location a: initial; edge m goto "
     "b; location b; end", 1, 1, "scan,P0_S,P1_W\n1,0,0\n"),
    ("controllable void m; automaton S: location a: initial; edge m! goto b; location b; end automaton R: location a: initial; edge m? goto "
     "b; location b; end automaton B: alphabet m; location: initial; end", 1, 1, "scan,P0_S,P1_R,P2_B\n1,0,0,0\n"),
    # an edge with several uses is one edge for each: it receives along two channels, or sends and synchronises
    ("controllable int[0..9] m, n; automaton S: location: initial; edge m!3; edge n!4; end automaton R: disc int[0..99] v; location: "
     "initial; edge m?, n? do v := 10 * v + ?; end", 1, 1, "scan,P0_S,P1_R,Q0_R_v\n1,0,0,34\n"),
    ("controllable e; controllable int[0..9] m; automaton S: disc int[0..9] n; location: initial; edge e, m!n + 5 do n := n + 1; end "
     "automaton R: disc int[0..9] v; location: initial; edge m? do v := ?; end", 1, 1, "scan,P0_S,P1_R,Q0_S_n,Q1_R_v\n1,0,0,2,6\n"),
    # one that receives along one channel and sends along another one
    ("controllable int[0..9] m, n; automaton A: location: initial; edge m!2; end automaton B: disc int[0..9] b; location E: initial; edge "
     "m? do b := ? + 1 goto F; location F: edge n!b goto E; end automaton C: disc int[0..9] c; location: initial; edge n? do c := c + ?; end",
     1, 1, "scan,P0_A,P1_B,P2_C,Q0_B_b,Q1_C_c\n1,0,0,0,3,3\n2,0,0,0,3,6\n"),
    # channels as parameters: the range is that of the channel that is given
    ("controllable int[0..9] m; s: S(m); r: R(m); automaton def S(event int[0..3] c): location: initial; edge c!7; end automaton def R("
     "controllable int c): disc int[0..9] v; location: initial; edge c? do v := ?; end", 1, 1, "scan,P0_s,P1_r,Q0_r_v\n1,0,0,7\n"),
    ("controllable int[0..3] m; s: S(m); r: R(m); automaton def S(event int[0..9] c): location: initial; edge c!7; end automaton def R("
     "controllable int c): disc int[0..9] v; location: initial; edge c? do v := ?; end", 1, 1, "scan,P0_s,P1_r,Q0_r_v\n1,0,0,0\n"),
    # instances in a row, and one definition that sends and receives by what is given
    ("uncontrollable int[0..9] a, b, c; x: D(a, b); y: D(b, c); automaton Z: disc int[0..9] n; location: initial; edge a!n do n := n + 1; "
     "end automaton Y: disc int[0..9] w; location: initial; edge c? do w := ?; end automaton def D(event int[0..9] i, o): disc int[0..9] v; "
     "location E: initial; edge i? do v := ? goto F; location F: edge o!v goto E; end", 1, 1,
     "scan,P0_x,P1_y,P2_Z,P3_Y,Q0_x_v,Q1_y_v,Q2_Z_n,Q3_Y_w\n1,0,0,0,0,0,0,1,0\n2,0,0,0,0,1,1,2,1\n3,0,0,0,0,2,2,3,2\n"),
    # several senders and receivers of one definition each, in the order of the instances
    ("controllable int[0..9] m; s: S(1); t: S(2); u: S(3); p: R(); q: R(); automaton def S(alg int k): location a: initial; edge m!k goto b; "
     "location b; end automaton def R(): disc int[0..99] v; location: initial; edge m? when v < 10 do v := 10 * v + ?; end", 1, 1,
     "scan,P0_s,P1_t,P2_u,P3_p,P4_q,Q0_p_v,Q1_q_v\n1,1,0,0,0,0,1,0\n2,1,1,0,0,0,12,0\n3,1,1,1,0,0,12,3\n"),
    # a channel of an instance, and an `alg` parameter that is sent
    ("p: D(q.n); q: D(p.n + 1); automaton W: disc int[0..9] v, w; location: initial; edge p.m? do v := ?; edge q.m? do w := ?; end automaton "
     "def D(alg int k): controllable int[0..5] m; disc int[0..9] n = 3; location: initial; edge m!k do n := n + 1; end", 1, 1,
     "scan,P0_p,P1_q,P2_W,Q0_p_n,Q1_q_n,Q2_W_v,Q3_W_w\n1,0,0,0,4,4,3,5\n2,0,0,0,5,4,4,5\n"),
    # in the first class and in the second, each in its rounds
    ("uncontrollable void u; controllable int[0..9] m; automaton S: disc int[0..9] n; location: initial; edge u! do n := n + 1; edge m!n; end "
     "automaton R: disc int[0..9] v; location: initial; edge u? when v < 6; edge m? do v := v + ?; end", 2, 1,
     "scan,P0_S,P1_R,Q0_S_n,Q1_R_v\n1,0,0,2,2\n2,0,0,4,6\n3,0,0,4,6\n"),
    # a sent `if`, and one of what is received
    (HANDS % ("controllable int[0..9]", "disc int[0..9] n = 1; ", "if n = 1: 4 elif n = 2: 10 else 6 end do n := n + 1",
              "disc int[0..9] v; ", "v := if ? > 5: ? - 5 else ? end"), 1, 1, "scan,P0_S,P1_R,Q0_S_n,Q1_R_v\n1,0,0,2,4\n2,0,0,2,4\n"),
]

# ---- a source, the most rounds of each class, a state, and the states to which a legal scan may lead from it

LEGAL = [
    # any edge that sends and any receiver whose value fits, and one receiver alone
    ("controllable int[0..9] m; automaton S: location a: initial; edge m!5 goto b; edge m!4 goto b; location b; end automaton P: disc "
     "int[0..4] v; location: initial; edge m? do v := ?; end automaton Q: disc int[0..9] w; location: initial; edge m? do w := ?; end",
     1, 1, (0, 0, 0, 0, 0), {(1, 0, 0, 4, 0), (1, 0, 0, 0, 5), (1, 0, 0, 0, 4)}),
    # a value out of the range of the channel makes no step
    (HANDS % ("controllable int[0..2]", "", "3; edge m!2; edge m!1", "disc int[0..3] v; ", "v := ?"), 1, 1, (0, 0, 0),
     {(0, 0, 2), (0, 0, 1)}),
    (HANDS % ("controllable int[0..2]", "", "3", "disc int[0..3] v; ", "v := ?"), 1, 1, (0, 0, 0), {(0, 0, 0)}),
]


# ---- wrong simulations

class TwoReceivers(Net):
    """All that receive do so together."""

    def groups(self, event):
        if self.events[event].channel is None:
            return super().groups(event)
        others = self.ways[event, RECEIVES] + self.ways[event, SYNCS]
        return [sorted([sender] + others, key=lambda it: it[0]) for sender in self.ways[event, SENDS]] if self.ways[event, RECEIVES] else []


class ReceiverFirst(Net):
    """The receivers go slower than the senders."""

    def groups(self, event):
        found = super().groups(event)
        count = len(self.ways[event, RECEIVES])
        return found if self.events[event].channel is None else [it for begin in range(count) for it in found[begin::count]]


class SenderSlowest(Net):
    """Within a pair the edges of the sender go slowest, whatever its number."""

    def groups(self, event):
        return [sorted(group, key=lambda it: (it not in self.ways[event, SENDS], it[0])) for group in super().groups(event)]


class Clamped(Net):
    """What leaves the range of its channel is sent as the value nearest to it."""

    def sent(self, choice, event, state):
        return [min(max(value, self.events[event].channel[0]), self.events[event].channel[1]) for value in sent_values(choice, state)]


class Unbounded(Net):
    """The range of the channel is not asked."""

    def sent(self, choice, event, state):
        return sent_values(choice, state)


class SynchroniserReceives(Net):
    """Who synchronises on a channel stands for a receiver where there is none."""

    def groups(self, event):
        found = super().groups(event)
        if found or self.events[event].channel is None:
            return found
        return [sorted([sender] + self.ways[event, SYNCS], key=lambda it: it[0]) for sender in self.ways[event, SENDS]]


WRONG = [TwoReceivers, ReceiverFirst, SenderSlowest, Clamped, Unbounded, SynchroniserReceives]


# ---- sources at the limits: what they show, the text, and the line that `check` tells, or None

def party(name, uses, count, end=""):
    return "automaton %s: disc int[0..9] v; location: initial; %send " % (name, ("edge %s%s; " % (uses, end)) * count)


def exchange(senders, receivers, sent="1", end=""):
    """Automata that send, and such that receive, with so many edges each."""
    found = [party("s%d" % number, "m!" + sent, count) for number, count in enumerate(senders)]
    found += [party("r%d" % number, "m?", count, end) for number, count in enumerate(receivers)]
    return "event int[0..9] m; event e; " + "".join(found)


def at_limits():
    choices, size, ones = "25 TooManyChoices count 16385", "24 TooLarge nodes 1000001 depth 1", "1 + 1" + " + 1" * 114
    watch, deep = "automaton w: alphabet m; monitor m; location: initial; edge m; end ", "alg int w = %s1; " % ("-" * 99)
    return [
        ("128 edges that send and 128 that receive", exchange([128], [128]), None),
        ("one more that receives", exchange([128], [129]), choices),
        ("an edge for another event more", exchange([128], [128]) + "automaton z: location: initial; edge e; end", choices),
        ("the edges of two senders and of three receivers", exchange([100, 28], [60, 60, 8]), None),
        ("one edge of one sender more", exchange([100, 29], [60, 60, 8]), choices),
        ("128 senders and 128 receivers", exchange([1] * 128, [1] * 128), None),
        ("one sender more", exchange([1] * 129, [1] * 128), choices),
        ("64 edges and 128, and one that monitors with an edge", exchange([64], [128]) + watch, None),
        ("one edge more, and one that monitors", exchange([65], [128]) + watch, choices),
        ("20000 edges that send, and nobody receives", exchange([20000], []), None),
        ("200 times 200 choices that one blocks", exchange([200], [200]) + "automaton w: alphabet m; location: initial; end", None),
        # 8000 choices: 1, two automata, two guards, a sum of 116 numbers and one of two operands
        ("choices that count 1000000 with what is sent and received", exchange([80], [100], ones, " do v := ? + 1"), None),
        ("a number more", exchange([80], [100], ones + " + 1", " do v := ? + 1"), size),
        ("a sent value of depth 100", deep + exchange([1], [], "-w"), None),
        ("a sent value of depth 101", deep + exchange([1], [], "-(-w)"), "24 TooLarge nodes 100 depth 101"),
        ("a received value of depth 101", deep + exchange([1], [1], "1", " do v := -(-w)"), "24 TooLarge nodes 208 depth 101"),
    ]


# ---- a source, the lines of which `check` tells one, and those of `generate` where `check` has none

REFUSED = [
    # what is not read
    ("event void;", {"4 NotRead at 10"}, set()),
    ("event int[0..3];", {"4 NotRead at 15"}, set()),
    ("event void int m;", {"4 NotRead at 11"}, set()),
    ("event void m; automaton a: location: initial; edge m!!; end", {"4 NotRead at 53"}, set()),
    ("event int m; automaton a: location: initial; edge m?1; end", {"4 NotRead at 52"}, set()),
    ("event int m; automaton a: location: initial; edge m! 1 2; end", {"4 NotRead at 55"}, set()),
    # the type of a channel is looked up where the channel is declared, that of a parameter in its definition
    ("event T m;", {"5 Unknown at 6"}, set()),
    ("event e; event e m;", {"7 WrongKind at 15"}, set()),
    ("controllable .T m, n; enum T = r;", set(), set()),
    ("automaton a: event T m; location: initial; end enum T = r;", set(), {"28 Unclassed event a.m"}),
    ("group def D(event T c): end", {"5 Unknown at 18"}, set()),
    ("p: D(m); event T m; enum T = r; group def D(event T c): enum T = r; end", set(), {"28 Unclassed event m"}),
    ("p: D(m); event T m; enum T = r; group def D(event T c): enum T = g; end", {"9 Mismatch at 5"}, set()),
    ("event int m; automaton a: location: initial; edge z!1; end", {"5 Unknown at 50"}, set()),
    ("automaton a: event int m; location p: initial; edge m!p; end", {"9 Mismatch at 54"}, set()),
    # `!` and `?` fit channels, a value one that carries values, and a plain use all events
    ("event void m; automaton a: location: initial; edge m!; end automaton b: location: initial; edge m?; end",
     set(), {"28 Unclassed event m"}),
    ("controllable int[0..9] m; automaton a: location: initial; edge m!3; end automaton b: disc int v; location: initial; edge m? do v "
     ":= ?; end", set(), set()),
    ("event e; automaton a: location: initial; edge e!; end", {"9 Mismatch at 46"}, set()),
    ("event e; automaton a: location: initial; edge e!1; end", {"9 Mismatch at 46"}, set()),
    ("event e; automaton a: location: initial; edge e?; end", {"9 Mismatch at 46"}, set()),
    ("event int m; automaton a: location: initial; edge m!; end", {"9 Mismatch at 50"}, set()),
    ("event void m; automaton a: location: initial; edge m!1; end", {"9 Mismatch at 51"}, set()),
    ("event void m; automaton a: location: initial; edge m!1 + true; end", {"9 Mismatch at 51", "9 Mismatch at 57"}, set()),
    ("event int m; automaton a: location: initial; edge m; end", set(), {"28 Unclassed event m"}),
    ("event int m; automaton a: alphabet m; monitor m; location: initial; end", set(), {"28 Unclassed event m"}),
    # a sent value has the kind of its channel, and its range is asked in no source
    ("event int m; automaton a: location: initial; edge m!true; end", {"9 Mismatch at 52"}, set()),
    ("event bool m; automaton a: location: initial; edge m!1; end", {"9 Mismatch at 53"}, set()),
    ("event bool m; automaton a: location p: initial; edge m!a.p; end", set(), {"28 Unclassed event m"}),
    ("enum T = r, g; event T m; automaton a: enum T = r, g; location: initial; edge m!g; end", set(), {"28 Unclassed event m"}),
    ("enum T = r, g; event T m; automaton a: enum T = g, r; location: initial; edge m!g; end", {"9 Mismatch at 80"}, set()),
    ("event int[0..3] m; automaton a: location: initial; edge m!4; end", set(), {"28 Unclassed event m"}),
    # `?` stands in the updates of an edge all of whose uses receive values of one kind
    ("event int m; automaton a: disc int v; location: initial; edge m? when ? > 1 do v := 1; end", {"9 Mismatch at 70"}, set()),
    ("event int m; automaton a: disc int v; location: initial; edge m!?; end", {"9 Mismatch at 64"}, set()),
    ("event int m; automaton a: disc int v; location: initial; edge m do v := ?; end", {"9 Mismatch at 72"}, set()),
    ("event int m; automaton a: disc int v; location: initial; edge m!1 do v := ?; end", {"9 Mismatch at 74"}, set()),
    ("event void m; automaton a: disc int v; location: initial; edge m? do v := ?; end", {"9 Mismatch at 74"}, set()),
    ("event int m, n; automaton a: disc int v; location: initial; edge m?, n? do v := ?; end", set(), {"28 Unclassed event m"}),
    ("event int m; event bool n; automaton a: disc int v; location: initial; edge m?, n? do v := ?; end", {"9 Mismatch at 91"}, set()),
    ("event int m; event e; automaton a: disc int v; location: initial; edge m?, e do v := 1 + ?; end", {"9 Mismatch at 89"}, set()),
    ("event bool m; automaton a: disc int v; location: initial; edge m? do v := ?; end", {"9 Mismatch at 74"}, set()),
    ("event bool m; automaton a: disc int v; location: initial; edge m? do if ?: v := 1 end; end", set(), {"28 Unclassed event m"}),
    ("event int m; automaton a: disc int v; location: initial; edge m? do if ?: v := 1 end; end", {"9 Mismatch at 71"}, set()),
    ("event int m; automaton a: disc int v; location: initial; edge m do if (?) = 1: v := 1 end; end",
     {"9 Mismatch at 71", "9 Mismatch at 76"}, set()),
    ("const int k = ?;", {"9 Mismatch at 14"}, set()),
    ("type t = int[0..?];", {"9 Mismatch at 16"}, set()),
    ("event int[?..3] m;", {"9 Mismatch at 10"}, set()),
    ("alg int v = ?;", {"9 Mismatch at 12"}, set()),
    ("group g: alg int v; equation v = 1 + ?; end", {"9 Mismatch at 37"}, set()),
    ("marked ?;", {"9 Mismatch at 7"}, set()),
    ("automaton a: disc bool b = ?; location: initial; end", {"9 Mismatch at 27"}, set()),
    ("automaton a: location: initial; marked not ?; end", {"9 Mismatch at 43"}, set()),
    ("p: D(?); group def D(alg int v): end", {"9 Mismatch at 5"}, set()),
    ("p: D(?); group def D(event c): end", {"9 Mismatch at 5"}, set()),
    ("p: D((?)); group def D(location l): end", {"9 Mismatch at 5", "9 Mismatch at 6"}, set()),
    # an event fits a parameter that carries the same, of any range, and has the class that is asked
    ("event void m; p: D(m); group def D(event void c): end", set(), {"28 Unclassed event m"}),
    ("event int m; p: D(m); group def D(event void c): end", {"9 Mismatch at 18"}, set()),
    ("event m; p: D(m); group def D(event int c): end", {"9 Mismatch at 14"}, set()),
    ("event int m; p: D(m); group def D(event c): end", {"9 Mismatch at 18"}, set()),
    ("event int[5..7] m; p: D(m); group def D(event int[0..3] c): end", set(), {"28 Unclassed event m"}),
    ("event bool m; p: D(m); group def D(event int c): end", {"9 Mismatch at 19"}, set()),
    ("controllable int m; p: D(m); group def D(uncontrollable int c): end", {"9 Mismatch at 25"}, set()),
    ("controllable int m; p: D(m); group def D(controllable int c): q: E(c); end group def E(controllable bool c): end",
     {"9 Mismatch at 67"}, set()),
    ("group def D(event int c): automaton a: disc bool b; location: initial; edge c? do b := ?; end end", {"9 Mismatch at 87"}, set()),
    ("group def D(event c): automaton a: location: initial; edge c!1; end end", {"9 Mismatch at 59"}, set()),
    # the type of a channel is a type as others
    ("automaton a: disc int n; event int[0..n] m; location: initial; end", {"10 NotConstant at 38"}, set()),
    ("group def D(alg int v; event int[0..v] c): end", {"10 NotConstant at 36"}, set()),
    ("event int[3..2] m;", {"18 ConstantRange at 10"}, set()),
    ("event int[0..2147483647 + 1] m;", {"18 ConstantRange at 13"}, set()),
    ("group def D(event int[3..2] c): end", set(), set()),
    ("event int m; p: D(m); group def D(event int[3..2] c): end", {"18 ConstantRange at 44"}, set()),
    ("event int m; automaton a: disc int v; location: initial; edge m? do v := ?, v := ? + 1; end", {"13 AssignedTwice at 76"}, set()),
    # what is sent or received is in no alphabet, and an automaton has one role for an event: in an instance the definition is told
    ("event void m; automaton a: monitor m; location: initial; edge m!; end", {"14 AlphabetLacks at 35"}, set()),
    ("event void m; automaton a: monitor; location: initial; edge m!; end", set(), {"28 Unclassed event m"}),
    ("event void m; automaton a: alphabet; location: initial; edge m!; end", set(), {"28 Unclassed event m"}),
    ("event e; event void m; automaton a: alphabet e; monitor e; location: initial; edge m?; end", set(), {"28 Unclassed event e"}),
    ("event int[0..9] m; automaton Z: location: initial; edge m!1; edge m?; end", {"15 RoleMixed at 29"}, set()),
    ("event void m; automaton Z: location: initial; edge m!; edge m; end", {"15 RoleMixed at 24"}, set()),
    ("event void m; automaton Z: location: initial; edge m?, m; end", {"15 RoleMixed at 24"}, set()),
    ("event void m; automaton Z: alphabet m; location: initial; edge m!; end", {"15 RoleMixed at 24"}, set()),
    ("event void m, n; automaton Z: location: initial; edge m!; edge n?; end", set(), {"28 Unclassed event m"}),
    ("event void m; automaton Z: alphabet; location: initial; edge m!; edge m; end", {"14 AlphabetLacks at 70"}, set()),
    ("event void m; p: D(m, m); automaton def D(event void a, b): location: initial; edge a!; edge b?; end", {"15 RoleMixed at 40"}, set()),
    ("event void m, n; p: D(m, n); automaton def D(event void a, b): location: initial; edge a!; edge b?; end",
     set(), {"28 Unclassed event m"}),
    ("event void m; automaton def D(event void a): location: initial; edge a!; edge a?; end", set(), {"28 Unclassed event m"}),
    ("event void m; p: D(m); q: D(m); automaton def D(event void a): location: initial; edge a!; edge a?; end",
     {"15 RoleMixed at 46"}, set()),
    # `?` has the range of the channel that is given, and of each use its own
    ("event int[0..3] m; automaton a: disc int v; location: initial; edge m? do v := 7 div ?; end", {"20 ZeroDivisor at 85"}, set()),
    ("event int[1..3] m; automaton a: disc int v; location: initial; edge m? do v := 7 div ?; end", set(), {"28 Unclassed event m"}),
    ("event int[1..3] m; event int[-1..3] n; automaton a: disc int v; location: initial; edge m?, n? do v := 7 div ?; end",
     {"20 ZeroDivisor at 109"}, set()),
    ("event int m; automaton a: disc int v; location: initial; edge m? do v := ? * ? * ?; end", {"21 TooWide at 73"}, set()),
    ("event int m; automaton a: disc int v; location: initial; edge m? do if ? * ? * (?) > 0: v := 1 end; end",
     {"21 TooWide at 71"}, set()),
    ("event int[0..9] m; automaton a: disc int v; location: initial; edge m!7 div v; end", {"20 ZeroDivisor at 76"}, set()),
    ("event int[0..9] m; automaton a: disc int v; location: initial; edge m!v * v * v; end", {"21 TooWide at 70"}, set()),
    ("event int[0..3] m; p: D(m); automaton def D(event int[1..3] c): disc int v; location: initial; edge c? do v := 7 div ?; end",
     {"20 ZeroDivisor at 117"}, set()),
    ("event int[1..3] m; p: D(m); automaton def D(event int[0..3] c): disc int v; location: initial; edge c? do v := 7 div ?; end",
     set(), {"28 Unclassed event m"}),
]
