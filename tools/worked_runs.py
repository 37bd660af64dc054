"""Worked examples of `simulate` and `why`, by hand from the rules.

A piece of a source stands for the place where it begins; it is there once.
"""
import pathlib

from plain_runs import BLOCKS, BREAKS, EXCLUDED, LEAVES, MOST_BYTES, NO_RECEIVER, NO_ROLE, NO_SENDER

TURNS = "plant A: uncontrollable u; controllable c; location x: initial; edge u goto y; location y: edge c goto x; end"
SWAP = "plant a: controllable e; disc int x = 1, y = 2; location: initial; edge e do x := y, y := x; end"
WATCH = ("controllable e; plant A: location p: initial; edge e goto q; location q; end automaton B: monitor e; disc int[0..5] n = 0; "
         "location: initial; edge e when %s do n := n + 1; end")
COUNTER = "plant a: uncontrollable u; disc int[0..10] n = 0; location: initial; edge u do n := n + 1; end"
HANDS = ("event int[0..9] m; automaton S: location: initial; edge m!5; end automaton T: location: initial; edge m!4; end automaton R: disc "
         "int[0..4] v = 0; location: initial; edge m? do v := ?; end")
BLOCKED = "event e; automaton A: alphabet e; location: initial; end automaton B: location: initial; edge e; end"
PAIR = ("controllable e; automaton a: disc int[0..9] x = 0; location: initial; edge e do x := x + 3; edge e do x := x + 1; end automaton b: "
        "disc int[0..9] y = 1; location: initial; edge e do y := y + 1; end invariant a.x + b.y <= 3;")
FRAMES = ("controllable e, f; alg bool k = true; p: D(e, k); q: D(f, not k); automaton def D(controllable c; alg bool g): alg bool k = "
          "false; location: initial; edge c when g; end")
KNOB = "input int[0..3] k;"
KINDS = ("enum T = r, g; input T c; input bool b; automaton a: event e; disc T v = g; disc bool w; disc int[-3..3] n = -2; location: "
         "initial; edge e do v := c, w := b, n := -n; end")
CELL = (pathlib.Path(__file__).parent.parent / "examples/cell.cif").read_text()
SWITCHED = "p: M(); automaton def M(): input bool i; event e; location: initial; edge e when i; end"

# ---- a source, the most steps, and what `simulate FILE --first N` writes

FIRST = [
    (TURNS, 3, "start A=x\nstep 1 A.u A=y\nstep 2 A.c A=x\nstep 3 A.u A=y\n"),
    (TURNS, 0, "start A=x\n"),
    # a deadlock is written where fewer steps were made than N, and not after step N
    ("", 0, "start\n"),
    ("", 2, "start\ndeadlock\n"),
    (WATCH % "false", 1, "start A=p B=* B.n=0\nstep 1 e A=q\n"),
    (WATCH % "false", 2, "start A=p B=* B.n=0\nstep 1 e A=q\ndeadlock\n"),
    (WATCH % "true", 2, "start A=p B=* B.n=0\nstep 1 e A=q B.n=1\ndeadlock\n"),
    (BLOCKED, 1, "start A=* B=*\ndeadlock\n"),
    # where the lowest event has no step, another one may have
    ("automaton a: event e, f, g; location x: initial; edge g goto y; location y: edge f goto x; end", 3,
     "start a=x\nstep 1 a.g a=y\nstep 2 a.f a=x\nstep 3 a.g a=y\n"),
    ("automaton a: event e, f; location: initial; edge f; edge e; end", 1, "start a=*\nstep 1 a.e\n"),
    # all that is read is the state before, of other automata and their places too
    (SWAP, 1, "start a=* a.x=1 a.y=2\nstep 1 a.e a.x=2 a.y=1\n"),
    ("controllable e; automaton a: disc int[0..9] x = 1; location: initial; edge e do x := x + 1; end automaton b: disc int[0..9] y; "
     "location: initial; edge e do y := a.x; end", 2, "start a=* b=* a.x=1 b.y=0\nstep 1 e a.x=2 b.y=1\nstep 2 e a.x=3 b.y=2\n"),
    ("controllable e; automaton a: location p: initial; edge e goto q; location q: edge e goto p; end automaton b: disc bool y = true; "
     "location: initial; edge e do y := a.q; end", 2, "start a=p b=* b.y=true\nstep 1 e a=q b.y=false\nstep 2 e a=p b.y=true\n"),
    # the first choice that makes a step: edges in the order of the text, senders before receivers
    ("controllable e; automaton a: location x: initial; edge e goto y; edge e goto z; location y; location z; end", 1,
     "start a=x\nstep 1 e a=y\n"),
    (HANDS, 1, "start S=* T=* R=* R.v=0\nstep 1 m R.v=4\n"),
    ("event int[0..9] m; automaton P: disc int[0..9] v; location: initial; edge m? do v := ?; end automaton Q: disc int[0..9] w; location: "
     "initial; edge m? do w := ?; end automaton S: location: initial; edge m!5; end automaton T: location: initial; edge m!4; end", 1,
     "start P=* Q=* S=* T=* P.v=0 Q.w=0\nstep 1 m P.v=5\n"),
    ("event int[0..9] m; automaton P: disc int[0..4] v; location: initial; edge m? do v := ?; end automaton Q: disc int[0..9] w; location: "
     "initial; edge m? do w := ?; end automaton S: location: initial; edge m!5; end automaton T: location: initial; edge m!4; end", 1,
     "start P=* Q=* S=* T=* P.v=0 Q.w=0\nstep 1 m Q.w=5\n"),
    (PAIR, 2, "start a=* b=* a.x=0 b.y=1\nstep 1 e a.x=1 b.y=2\ndeadlock\n"),
    # who monitors takes an edge that it has, whatever becomes of it, and stays where it has none
    ("controllable e; automaton A: location: initial; edge e; end automaton B: monitor e; disc int[0..5] n = 5; location: initial; edge e do "
     "n := n + 1; end", 1, "start A=* B=* B.n=5\ndeadlock\n"),
    ("event e; automaton B: monitor e; location x: initial; location y: edge e; end", 2, "start B=x\nstep 1 e\nstep 2 e\n"),
    # a value that is assigned and stays is left out, and so is a place that an edge leads back to
    ("automaton a: event e; disc int[0..9] x = 3, y; location z: initial; edge e do x := 3, y := y + 1 goto z; end", 2,
     "start a=z a.x=3 a.y=0\nstep 1 a.e a.y=1\nstep 2 a.e a.y=2\n"),
    # a sent value has the range of its channel, and a state invariant holds after the step
    ("event int[0..3] m; automaton S: location: initial; edge m!4; edge m!3; end automaton R: disc int[0..9] v; location: initial; edge m? do "
     "v := ?; end", 1, "start S=* R=* R.v=0\nstep 1 m R.v=3\n"),
    ("automaton a: event e; disc int[0..9] n; location: initial; edge e do n := n + 1; end invariant a.n <= 2; requirement a.e needs a.n < 2;",
     9, "start a=* a.n=0\nstep 1 a.e a.n=1\nstep 2 a.e a.n=2\ndeadlock\n"),
    # instances and groups, names behind `$`, values of each kind
    (FRAMES, 2, "start p=* q=*\nstep 1 e\nstep 2 e\n"),
    ("group g: automaton a: event e; disc bool b; location: initial; edge e do b := not b; end end", 1,
     "start g.a=* g.a.b=false\nstep 1 g.a.e g.a.b=true\n"),
    ("automaton $plant: event $edge; location $end: initial; edge $edge; end", 1, "start plant=end\nstep 1 plant.edge\n"),
    (KINDS, 1, "start a=* a.v=g a.w=false a.n=-2\nstep 1 a.e a.v=r a.n=2\n"),
    (CELL, 5, "start start=Off stop=Off part=Off motor=Off lamp=Off Run=Idle Run.count=0\ndeadlock\n"),
]

# ---- a source, a script, what `simulate FILE SCRIPT` writes, and where it stops

BAD, OFF = "29 BadLine", "27 NotEnabled"
UP, DOWN = "step 1 A.u A=y\n", "step 2 A.c A=x\n"
MIXED = "start a=* a.v=g a.w=false a.n=-2\n"
SHIFT = ("set i_start true\nfire start.u_on\nfire motor.c_on\nset i_start false\nset i_part true\nfire start.u_off\nfire part.u_on\n"
         "fire motor.c_off\n")

SCRIPTS = [
    (KNOB, "", "start\n", None),
    (KNOB, "\n", "start\n", None),
    (KNOB, "\r", "start\n", None),
    (KNOB, "\n\n\r\n\n", "start\n", None),
    # a set input is written also where it keeps its value
    (KNOB, "set k 2\nset k 2\nset k 0", "start\nset k=2\nset k=2\nset k=0\n", None),
    (KNOB, "set k 2\nset k 7\n", "start\nset k=2\n", "line 2: 26 OutOfRange value 7"),
    (KNOB, "set k 3\nset k 4\nset k 0\n", "start\nset k=3\n", "line 2: 26 OutOfRange value 4"),
    # one carriage return before the end of a line is dropped, at the end of the text too, and empty lines are counted
    (KNOB, "\n\r\nset k 1\r\n\nset k 0\r", "start\nset k=1\nset k=0\n", None),
    (KNOB, "set k 2\r\r\n", "start\n", "line 1: " + BAD),
    (KNOB, "\rset k 1\n", "start\n", "line 1: " + BAD),
    (KNOB, "\n \n", "start\n", "line 2: " + BAD),
    (KNOB, "\n\n\nset k 1\nset k\n", "start\nset k=1\n", "line 5: " + BAD),
    # what stands behind a stop is not looked at
    (KNOB, "\nset k 9\nset k z\n", "start\n", "line 2: 26 OutOfRange value 9"),
    (KNOB, "set k z\nset k 9\n", "start\n", "line 1: " + BAD),
    # whole numbers of 64 bits
    (KNOB, "set k -7", "start\n", "line 1: 26 OutOfRange value -7"),
    (KNOB, "set k 9223372036854775807", "start\n", "line 1: 26 OutOfRange value 9223372036854775807"),
    (KNOB, "set k -9223372036854775808", "start\n", "line 1: 26 OutOfRange value -9223372036854775808"),
    (TURNS, "fire A.c\n", "start A=x\n", "line 1: " + OFF),
    (TURNS, "fire A.u\n\nfire A.c\nfire A.u\nfire A.u\nset A.u\n", "start A=x\n" + UP + DOWN + "step 3 A.u A=y\n", "line 5: " + OFF),
    (TURNS, "fire A.u\r\nfire A.c", "start A=x\n" + UP + DOWN, None),
    (TURNS, "fire A.u\nfire A.c\nset A.u true\n", "start A=x\n" + UP + DOWN, "line 3: " + BAD),
    (FRAMES, "fire f", "start p=* q=*\n", "line 1: " + OFF),
    (FRAMES, "fire e\n\nfire e", "start p=* q=*\nstep 1 e\nstep 2 e\n", None),
    # sets are no steps, and change what is enabled
    (KINDS, "set b true\nset c g\nfire a.e\nset c r\nfire a.e",
     MIXED + "set b=true\nset c=g\nstep 1 a.e a.w=true a.n=2\nset c=r\nstep 2 a.e a.v=r a.n=-2\n", None),
    (KINDS, "set b true\n\nfire a.e\nset b true\nfire a.e\n",
     MIXED + "set b=true\nstep 1 a.e a.v=r a.w=true a.n=2\nset b=true\nstep 2 a.e a.n=-2\n", None),
    (SWITCHED, "fire p.e", "start p=*\n", "line 1: " + OFF),
    (SWITCHED, "set p.i true\nfire p.e\nset p.i false\nfire p.e\n", "start p=*\nset p.i=true\nstep 1 p.e\nset p.i=false\n", "line 4: " + OFF),
    # the kind of a value is that of its input, whatever the text looks like
    ("enum T = $true, other; input T c;", "set c other\nset c true\nset c false", "start\nset c=other\nset c=true\n", "line 3: " + BAD),
    ("input int[-5..-2] n; input int m;", "set n -5\nset m -2147483648\nset m 2147483648", "start\nset n=-5\nset m=-2147483648\n",
     "line 3: 26 OutOfRange value 2147483648"),
    ("input int[-5..-2] n;", "set n -2\nset n -1", "start\nset n=-2\n", "line 2: 26 OutOfRange value -1"),
    # a script writes no deadlock
    (WATCH % "false", "fire e\n", "start A=p B=* B.n=0\nstep 1 e A=q\n", None),
    (CELL, SHIFT, "start start=Off stop=Off part=Off motor=Off lamp=Off Run=Idle Run.count=0\nset i_start=true\nstep 1 start.u_on start=On "
     "Run=Busy\nstep 2 motor.c_on motor=On\nset i_start=false\nset i_part=true\nstep 3 start.u_off start=Off\nstep 4 part.u_on part=On "
     "Run.count=1\nstep 5 motor.c_off motor=Off\n", None),
    ("group g: input bool k; end input bool k;", "set g.k true\nset k true\nset .k true", "start\nset g.k=true\nset k=true\n", "line 3: " + BAD),
]

# ---- a source, and lines that say nothing of the three forms

BAD_LINES = [
    (KNOB, [
        "set k=2", "set k 02", "set k  2", "set  k 2", " set k 2", "set k 2 ", "set k\t2", "\tset k 2", "set $k 2", "set .k 2", "set k +1",
        "set k -", "set k ", "set k", "set ", "set", "set k true", "set k -0", "set k 00", "set k -02", "set k 9223372036854775808",
        "set k -9223372036854775809", "set k 99999999999999999999999999999999", "set k 1_0", "set k 1.0", "set k 0x1", "set k 1 2",
        "Set k 2", "SET k 2", "set K 2", "set k.k 2", "set kk 2", "fire k", "setk 2", "k 2", "2", " ", "\t", "#", "// k", "set k 2;",
        "set k 1\x00", "\x00", "set k \xff", "set k \xb2", "set k 2\x0b"]),
    (TURNS, [
        "fire", "fire ", "fire .A.u", "fire  A.u", "fire A.u ", " fire A.u", "fire A.u A.u", "fire u", "fire A", "fire A.x", "fire A.u.",
        "fire A..u", "fire a.u", "fire $A.u", "fire A.$u", "fire A.u\r\r", "Fire A.u", "set A.u true", "set A x", "A.u", "step 1 A.u"]),
    (FRAMES, ["fire p.c", "set k true", "set p.g true", "set p.k true", "fire p", "fire D.c"]),
    (KINDS, [
        "set c 1", "set b 1", "set b TRUE", "set b True", "set c T.r", "set c b", "set c $r", "set c r,g", "set a.w true", "set a.n 1",
        "fire a.v", "set T r", "set r r", "set c ", "set b ", "fire e"]),
]

# ---- a source, a script, an event, and its reasons: each with the numbers of its things, and its line

EXCHANGE = "event int[0..3] m; automaton S: %slocation: initial; edge m!%s; end automaton R: %slocation: initial; edge m? do %s; end"
EMPTY_HANDS = "event void m; automaton S: location a: initial; %send automaton R: location a: initial; %send"
CHOOSING = ("automaton a: event e; disc int[0..3] x%s, y; location: initial; edge e do if x = 1: x := 9 else y := 7, x := 2 end; end")
NESTED = ("automaton a: event e; disc int[0..3] w%s, x, y, z; location: initial; edge e do if w = 1: if x = 1: x := 9 else y := 9 end, z := 1 "
          "elif w = 2: x := 3 else if w = 0: y := 1, z := 7 end end, w := 8; end")
ALL_PARTIES = ("event void m; automaton Y: alphabet m; location: initial; end automaton S: location a: initial; location b: edge m!; end "
               "automaton R: location a: initial; location b: edge m?; end invariant {m, m} needs false;")
TWO_SENDERS = ("event int[0..3] m; automaton S: location: initial; edge m!5; end automaton T: location: initial; edge m!3; end automaton R: disc "
               "int[0..4] v; location: initial; edge m? do v := ?; end invariant m needs false;")
ENABLED = []

WHY = [
    (PAIR, "fire e\n", "e", [((BREAKS, 0), "breaks", "a.x + b.y")]),
    (WATCH % "false", "fire e\n", "e", [((BLOCKS, 0), "blocks A")]),
    (COUNTER, "fire a.u\n" * 10, "a.u", [((LEAVES, 0, 0, 0), "leaves", "n := n + 1", "a.n")]),
    (HANDS, "", "m", ENABLED),
    (TURNS, "", "A.u", ENABLED),
    (TURNS, "", "A.c", [((BLOCKS, 0), "blocks A")]),
    (TURNS, "fire A.u", "A.c", ENABLED),
    (CELL, SHIFT, "motor.c_on", [((EXCLUDED, 0), "excluded", "Run.Busy and not part.On")]),
    (CELL, SHIFT, "lamp.c_on", [((EXCLUDED, 2), "excluded", "full;\nrequirement lamp.c_off")]),
    (CELL, SHIFT, "part.u_on", [((BLOCKS, 2), "blocks part")]),
    # an event in no role, a channel too: no other reason names parties
    ("event e;", "", "e", [((NO_ROLE,), "no automaton takes part")]),
    ("event void m;", "", "m", [((NO_ROLE,), "no automaton takes part")]),
    ("event int m; plant m needs false;", "", "m", [((NO_ROLE,), "no automaton takes part"), ((EXCLUDED, 0), "excluded", "false")]),
    # parties: who has no edge, none from its place, or none whose guard is true
    (BLOCKED, "", "e", [((BLOCKS, 0), "blocks A")]),
    ("event e; automaton a: alphabet e; location: initial; end automaton b: disc bool g; location: initial; edge e when g; end automaton c: "
     "location: initial; edge e; end", "", "e", [((BLOCKS, 0), "blocks a"), ((BLOCKS, 1), "blocks b")]),
    (SWITCHED, "", "p.e", [((BLOCKS, 0), "blocks p")]),
    (SWITCHED, "set p.i true\n", "p.e", ENABLED),
    # who monitors does not block
    ("event e; automaton a: monitor e; location x: initial; location y: edge e; end", "", "e", ENABLED),
    ("event e; automaton a: monitor e; location x: initial; location y: edge e; end automaton b: alphabet e; location: initial; end", "", "e",
     [((BLOCKS, 1), "blocks b")]),
    # channels
    (EMPTY_HANDS % ("location b: edge m!; ", "edge m?; "), "", "m", [((NO_SENDER,), "no sender")]),
    (EMPTY_HANDS % ("edge m!; ", "location b: edge m?; "), "", "m", [((NO_RECEIVER,), "no receiver")]),
    (EMPTY_HANDS % ("edge m! when false; ", "edge m? when 1 > 2; "), "", "m", [((NO_SENDER,), "no sender"), ((NO_RECEIVER,), "no receiver")]),
    ("event void m; automaton W: location: initial; edge m; end", "", "m", [((NO_SENDER,), "no sender"), ((NO_RECEIVER,), "no receiver")]),
    ("event void m; automaton S: location: initial; edge m!; end", "", "m", [((NO_RECEIVER,), "no receiver")]),
    ("event void m; automaton S: location a: initial; location b: edge m!; end automaton R: location: initial; edge m?; end invariant m needs "
     "S.b;", "", "m", [((NO_SENDER,), "no sender"), ((EXCLUDED, 0), "excluded", "S.b")]),
    # exclusions: one for each event that is named, at the place where the predicate stands
    (ALL_PARTIES, "", "m", [((BLOCKS, 0), "blocks Y"), ((NO_SENDER,), "no sender"), ((NO_RECEIVER,), "no receiver"),
                            ((EXCLUDED, 0), "excluded", "false"), ((EXCLUDED, 1), "excluded", "false")]),
    ("event e, f; automaton a: location: initial; edge e; edge f; end plant {f, e} needs ((1 > 2)), true; requirement 2 > 1 disables e, f needs "
     "true;", "", "e", [((EXCLUDED, 1), "excluded", "((1"), ((EXCLUDED, 2), "excluded", "2 > 1")]),
    ("event e; automaton a: location: initial; edge e; end x: D(e, false); group def D(event c; alg bool b): invariant c needs b; end", "", "e",
     [((EXCLUDED, 0), "excluded", "b; end")]),
    ("event e; alg bool no = false; automaton a: location: initial; edge e; end invariant k: e needs no;", "", "e",
     [((EXCLUDED, 0), "excluded", "no;")]),
    ("input bool b; automaton a: event e; location: initial; edge e; end requirement b disables a.e;", "set b true", "a.e",
     [((EXCLUDED, 0), "excluded", "b disables")]),
    ("input bool b; automaton a: event e; location: initial; edge e; end requirement b disables a.e;", "set b true\nset b false", "a.e", ENABLED),
    ("event e; automaton A: alphabet e; location: initial; end invariant e needs false;", "", "e",
     [((BLOCKS, 0), "blocks A"), ((EXCLUDED, 0), "excluded", "false")]),
    # values that leave their ranges: what is assigned counts where what is sent is in range, and exclusions change nothing of it
    (EXCHANGE % ("", "5", "disc int[0..4] v; ", "v := ?"), "", "m", [((LEAVES, 0, 0, 0), "leaves", "5;", "m")]),
    (EXCHANGE % ("disc int[0..4] x; ", "5 do x := 9", "disc int[0..4] v; ", "v := 8"), "", "m", [((LEAVES, 0, 0, 0), "leaves", "5 do", "m")]),
    (EXCHANGE % ("disc int[0..4] x; ", "1 do x := 9", "disc int[0..0] v; ", "v := ?"), "", "m",
     [((LEAVES, 0, 0, 1), "leaves", "x := 9", "S.x"), ((LEAVES, 1, 0, 0), "leaves", "v := ?", "R.v")]),
    (EXCHANGE % ("", "5; edge m!3", "disc int[0..2] v; ", "v := ?"), "", "m",
     [((LEAVES, 0, 0, 0), "leaves", "5;", "m"), ((LEAVES, 1, 0, 0), "leaves", "v := ?", "R.v")]),
    (TWO_SENDERS, "", "m", [((EXCLUDED, 0), "excluded", "false"), ((LEAVES, 0, 0, 0), "leaves", "5;", "m")]),
    # the place is that of the sent value on the edge, and the range that of the channel that is given
    ("event int[0..3] m; s: S(m, 5); automaton R: location: initial; edge m?; end automaton def S(event int[0..9] c; alg int k): location: "
     "initial; edge c!(k); end", "", "m", [((LEAVES, 0, 0, 0), "leaves", "(k)", "m")]),
    ("event int[0..3] m; s: S(m, 5); automaton R: location: initial; edge m?; end automaton def S(event int[0..9] c; alg int k): location: "
     "initial; edge c!k; end", "", "m", [((LEAVES, 0, 0, 0), "leaves", "k; end", "m")]),
    # the values of an edge are numbered in the order of the text, those of branches that are not taken too
    (CHOOSING % "", "", "a.e", [((LEAVES, 0, 0, 1), "leaves", "y := 7", "a.y")]),
    (CHOOSING % " = 1", "", "a.e", [((LEAVES, 0, 0, 0), "leaves", "x := 9", "a.x")]),
    (NESTED % "", "", "a.e", [((LEAVES, 0, 0, 5), "leaves", "z := 7", "a.z"), ((LEAVES, 0, 0, 6), "leaves", "w := 8", "a.w")]),
    (NESTED % " = 1", "", "a.e", [((LEAVES, 0, 0, 1), "leaves", "y := 9", "a.y"), ((LEAVES, 0, 0, 6), "leaves", "w := 8", "a.w")]),
    (NESTED % " = 2", "", "a.e", [((LEAVES, 0, 0, 6), "leaves", "w := 8", "a.w")]),
    (NESTED % " = 3", "", "a.e", [((LEAVES, 0, 0, 6), "leaves", "w := 8", "a.w")]),
    # the place of a name is that of its `$` or its first dot, and the path has neither
    ("automaton $a: event e; disc int[0..3] $if, x; location: initial; edge e do $if := 9, .a.x := 8; end", "", "a.e",
     [((LEAVES, 0, 0, 0), "leaves", "$if := 9", "a.if"), ((LEAVES, 0, 0, 1), "leaves", ".a.x := 8", "a.x")]),
    # an edge of several events is one for each
    ("automaton a: event e, f; disc int[0..3] x = 3; location: initial; edge f, e do x := x + 1; end", "", "a.e",
     [((LEAVES, 0, 1, 0), "leaves", "x := x", "a.x")]),
    ("automaton a: event e, f; disc int[0..3] x = 3; location: initial; edge f, e do x := x + 1; end", "", "a.f",
     [((LEAVES, 0, 0, 0), "leaves", "x := x", "a.x")]),
    ("automaton a: event e; disc int[0..3] x; location: initial; edge e, e do x := 9; end", "", "a.e",
     [((LEAVES, 0, 0, 0), "leaves", "x := 9", "a.x"), ((LEAVES, 0, 1, 0), "leaves", "x := 9", "a.x")]),
    # each value once, whatever other automata do beside it
    ("event e; automaton a: disc int[0..3] x; location: initial; edge e do x := -1; end automaton b: location: initial; edge e; edge e; end", "",
     "e", [((LEAVES, 0, 0, 0), "leaves", "x := -1", "a.x")]),
    # a blocked event has no choice that agrees, and so no value that leaves
    ("event e; automaton a: disc int[0..3] x; location: initial; edge e do x := -1; end automaton b: alphabet e; location: initial; end", "", "e",
     [((BLOCKS, 1), "blocks b")]),
    # state invariants, each by another choice, in choices whose values are in range
    ("automaton a: event e; disc int[0..9] x; location: initial; edge e do x := 1; edge e do x := 2; end invariant a.x != 2; invariant a.x != 1;",
     "", "a.e", [((BREAKS, 0), "breaks", "a.x != 2"), ((BREAKS, 1), "breaks", "a.x != 1")]),
    ("automaton a: event e; disc int[0..9] x; location: initial; edge e do x := 1; edge e do x := 2; end invariant a.x != 1;", "", "a.e", ENABLED),
    ("automaton a: event e; disc int[0..9] x; location: initial; edge e do x := 1; end invariant a.x < 2, a.x < 1, a.x != 1;", "", "a.e",
     [((BREAKS, 1), "breaks", "a.x < 1"), ((BREAKS, 2), "breaks", "a.x != 1")]),
    ("automaton a: event e; disc int[0..9] x, y; location p: initial; edge e do x := 10 goto q; location q; end invariant not a.q;", "", "a.e",
     [((LEAVES, 0, 0, 0), "leaves", "x := 10", "a.x")]),
    ("automaton a: event e; disc int[0..9] x = 5; location: initial; edge e do x := 3; edge e do x := 10; end invariant a.x > 4; requirement a.e "
     "needs a.x < 5;", "", "a.e", [((EXCLUDED, 0), "excluded", "a.x < 5"), ((LEAVES, 0, 1, 0), "leaves", "x := 10", "a.x"),
                                   ((BREAKS, 0), "breaks", "a.x > 4")]),
]

# ---- the same, in states that no script reaches: the values are those of the source, in the order of a state

IN_STATES = [
    # the first edge leaves, and the second breaks
    (PAIR, (0, 0, 7, 1), "e", [((LEAVES, 0, 0, 0), "leaves", "x := x + 3", "a.x"), ((BREAKS, 0), "breaks", "a.x + b.y")]),
    # no choice has all values in range, so the invariant is no reason
    (PAIR, (0, 0, 9, 9), "e", [((LEAVES, 0, 0, 0), "leaves", "x := x + 3", "a.x"), ((LEAVES, 0, 1, 0), "leaves", "x := x + 1", "a.x"),
                               ((LEAVES, 1, 0, 0), "leaves", "y := y + 1", "b.y")]),
    # the invariant is false already, and stays so, or is mended
    (PAIR, (0, 0, 3, 3), "e", [((BREAKS, 0), "breaks", "a.x + b.y")]),
    ("automaton a: event e; disc int[0..9] n; location: initial; edge e do n := 0; end invariant a.n < 4;", (0, 5), "a.e", ENABLED),
    (COUNTER, (0, 3), "a.u", ENABLED),
]

# ---- a source, a script, an event, and the status and the line of `why` where it gives no reasons

UNEXPLAINED = [
    (TURNS, "", "A.z", 16, "54 NoEvent"),
    (TURNS, "", "", 16, "54 NoEvent"),
    (TURNS, "", "u", 16, "54 NoEvent"),
    (TURNS, "", ".A.u", 16, "54 NoEvent"),
    (TURNS, "", "$A.u", 16, "54 NoEvent"),
    (TURNS, "", "A", 16, "54 NoEvent"),
    (TURNS, "", "A.u ", 16, "54 NoEvent"),
    (FRAMES, "", "p.c", 16, "54 NoEvent"),
    (KNOB, "", "k", 16, "54 NoEvent"),
    # before the script is read
    (TURNS, "set", "A.z", 16, "54 NoEvent"),
    # where the script stops nothing is written
    (TURNS, "fire A.u\nfire A.u\n", "A.u", 13, "script: line 2: " + OFF),
    (TURNS, "\n\nfire", "A.u", 13, "script: line 3: " + BAD),
    (KINDS, "set b true\nset b 1", "a.e", 13, "script: line 2: " + BAD),
    ("event e; " + KNOB, "set k 4", "e", 13, "script: line 1: 26 OutOfRange value 4"),
]

# ---- words over these files, the status, what is written, and the line on standard error

FILES = {
    "source": TURNS.encode(), "script": b"fire A.u\n", "stopping": b"fire A.u\nfire A.u\n", "empty": b"", "--first": b"", "blank": b" " * MOST_BYTES,
    "long": b"x" * MOST_BYTES, "longer": b" " * (MOST_BYTES + 1), "refused": b"event e; event e;",
    "crowded": b"event e; " + b"".join(b"automaton a%d: location: initial; %send " % (k, b"edge e; " * 26) for k in range(3))}
USAGE, START, STEPPED = "cif: not a command line\n", "start A=x\n", "start A=x\nstep 1 A.u A=y\n"
DUPLICATE, CROWDED = "cif: refused: 6 Duplicate at 15 first 6\n", "cif: crowded: 25 TooManyChoices count 16385\n"
LONGER, MISSING, NO_EVENT = f"cif: longer is longer than {MOST_BYTES} bytes\n", "cif: cannot read missing\n", "cif: 54 NoEvent\n"

WORDS = [
    (["simulate", "source", "script"], 0, STEPPED, ""),
    (["simulate", "source", "stopping"], 13, STEPPED, "cif: stopping: line 2: 27 NotEnabled\n"),
    (["simulate", "source", "--first", "0"], 0, START, ""),
    (["simulate", "source", "--first", "1"], 0, STEPPED, ""),
    (["simulate", "empty", "--first", "1000000"], 0, "start\ndeadlock\n", ""),
    # how many words there are, and which may be empty
    *[(["simulate", *words.split()], 2, "", USAGE) for words in ("", "source", "source script x", "source script --first", "source script 1")],
    *[(words, 2, "", USAGE) for words in (["simulate", "", "script"], ["simulate", "source", ""], ["simulate", "", "--first", "1"],
                                          ["Simulate", "source", "script"], ["simulates", "source", "script"])],
    # a number of steps is a canonical decimal up to 1000000, and the option has no other name
    *[(["simulate", "source", "--first", *more], 2, "", USAGE) for more in (
        [], [""], ["01"], ["+1"], ["-1"], ["-0"], ["1.0"], ["1_0"], ["x"], ["script"], ["1000001"], ["9" * 30], ["1 "], ["1", "2"])],
    *[(["simulate", "source", word, "1"], 2, "", USAGE) for word in ("--First", "-first", "first", "--first=1", "script")],
    # the second word is a file, whatever it is, and one file may be both
    (["simulate", "--first", "empty"], 0, "start\n", ""),
    (["simulate", "--first", "--first", "0"], 0, "start\n", ""),
    (["simulate", "source", "source"], 13, START, "cif: source: line 1: 29 BadLine\n"),
    (["simulate", "empty", "empty"], 0, "start\n", ""),
    # files that are missing or too long: the source before the script, which is not read where the source is refused
    (["simulate", "missing", "script"], 3, "", MISSING),
    (["simulate", "source", "missing"], 3, "", MISSING),
    (["simulate", "missing", "--first", "1"], 3, "", MISSING),
    (["simulate", "blank", "empty"], 0, "start\n", ""),
    (["simulate", "longer", "missing"], 6, "", LONGER),
    (["simulate", "source", "longer"], 6, "", LONGER),
    (["simulate", "source", "long"], 13, START, "cif: long: line 1: 29 BadLine\n"),
    (["simulate", "refused", "missing"], 7, "", DUPLICATE),
    (["simulate", "refused", "--first", "1"], 7, "", DUPLICATE),
    (["simulate", "crowded", "missing"], 8, "", CROWDED),
    (["simulate", "crowded", "--first", "1"], 8, "", CROWDED),
    # the same of the other command, whose event may be any word
    (["why", "source", "script", "A.c"], 0, "enabled\n", ""),
    (["why", "source", "--first", "A.c"], 0, "blocks A\n", ""),
    *[(["why", *words.split()], 2, "", USAGE) for words in ("", "source", "source script", "source script A.c x")],
    *[(words, 2, "", USAGE) for words in (["why", "", "script", "A.c"], ["why", "source", "", "A.c"], ["Why", "source", "script", "A.c"])],
    (["why", "source", "script", ""], 16, "", NO_EVENT),
    (["why", "source", "missing", "A.z"], 16, "", NO_EVENT),
    (["why", "source", "longer", ""], 16, "", NO_EVENT),
    (["why", "source", "missing", "A.c"], 3, "", MISSING),
    (["why", "source", "longer", "A.c"], 6, "", LONGER),
    (["why", "source", "long", "A.c"], 13, "", "cif: long: line 1: 29 BadLine\n"),
    (["why", "missing", "script", ""], 3, "", MISSING),
    (["why", "longer", "script", ""], 6, "", LONGER),
    (["why", "refused", "missing", "A.z"], 7, "", DUPLICATE),
    (["why", "crowded", "missing", "A.z"], 8, "", CROWDED),
]


def place_of(text, piece):
    """Where a piece of a text begins that is there once."""
    assert text.count(piece) == 1, (text, piece)
    return text.index(piece)


def reasons_written(text, reasons):
    """The lines of reasons as they are worked."""
    lines = []
    for _, word, *more in reasons:
        words = [word] + [str(place_of(text, piece)) for piece in more[:1]] + more[1:]
        lines.append(" ".join(words) + "\n")
    return "".join(lines) or "enabled\n"
