"""Makes random scripts of a source: inputs that are set, events that are fired, mostly such that have a step, empty and bad lines.

A script is made along its own run, so it mostly goes on, and stops at times: at a value out of range, at an event without a step, or at a
line that says nothing. What stands behind that is as random as what stands before.
"""
from plain_expressions import GREATEST, LEAST
from plain_runs import Stop

# How often a line of each kind is made, and which may stop a script.
KINDS = {"fire": 60, "set": 30, "empty": 8, "any event": 4, "any value": 8, "bad": 2}
STOPPING = ("any event", "any value", "bad")
# What may stand at the end of a line, and of the last one.
ENDS, LAST_ENDS = [b"\n"] * 8 + [b"\r\n"], [b"\n", b"", b"\r\n", b"\r", b"\n\n"] * 6 + [b"\r\r\n"]
ODD_NUMBERS = [b"", b"-", b"+1", b"-0", b"00", b"01", b"1_0", b"1.0", b"0x1", b"1e1", b" 1", b"1 ", b"1\r", b"\xb2", b"true", b"One",
               b"9223372036854775808", b"-9223372036854775809", b"99999999999999999999999"]
ODD_WORDS = [b"set", b"fire", b"Set", b"FIRE", b"set ", b"fire ", b"step", b"start", b"deadlock", b"#", b"//", b" ", b"\t", b"\r", b"\x00",
             b"\xff\xfe", b"set  ", b"now", b"setfire"]
MOST_FIRST, MOST_TRIES = 12, 4
LENGTHS = [0, 1, 2, 3, 5, 8, 14, 25]


def bytes_of(paths):
    return [it.path.encode() for it in paths]


class ScriptMaker:
    """Makes scripts of one source."""

    def __init__(self, choose, model):
        self.choose, self.model = choose, model
        self.events, self.inputs = bytes_of(model.events), bytes_of(model.net.inputs)
        self.others = bytes_of(model.parties) + bytes_of(model.net.variables) + bytes_of(model.net.algebraic) + [b"", b"z", b"a.b.c"]

    # ---- lines

    def fire(self, state):
        """An event that has a step, where there is one."""
        numbers = list(range(len(self.events)))
        self.choose.shuffle(numbers)
        found = next((number for number in numbers if self.model.step(number, state) is not None), None)
        return b"" if found is None else b"fire " + self.events[found]

    def any_event(self):
        return b"fire " + self.choose.choice(self.events) if self.events else b""

    def set_within(self):
        """An input and a value of its range."""
        if not self.inputs:
            return b""
        number = self.choose.randrange(len(self.inputs))
        it = self.model.net.inputs[number]
        lo, hi = it.range
        value = self.choose.choice([lo, hi, self.choose.randint(lo, hi), self.choose.randint(max(lo, -3), max(lo, min(hi, 9)))])
        return b"set %s %s" % (self.inputs[number], self.model.value_of(it.kind, value).encode())

    def any_value(self):
        """An input and a value that may be out of its range, or none."""
        if not self.inputs:
            return self.any_event()
        number = self.choose.randrange(len(self.inputs))
        lo, hi = self.model.net.inputs[number].range
        numbers = [b"%d" % it for it in (lo - 1, hi + 1, LEAST, GREATEST, self.choose.randint(-9, 9))]
        return b"set %s %s" % (self.inputs[number], self.choose.choice(numbers * 3 + ODD_NUMBERS + self.others))

    def bad(self):
        """A line that mostly says nothing: a good one that is changed, or of odd words."""
        line = self.choose.choice([self.any_event, self.set_within, self.any_value])()
        at = self.choose.randint(0, len(line))
        change = self.choose.choice(["in", "out", "double", "name", "word", "root", "case"])
        if change == "in":
            return line[:at] + self.choose.choice([b" ", b"\t", b"$", b".", b"\x00", b"\xe9", b"\r", b"=", b"x"]) + line[at:]
        if change == "out":
            return line[:at] + line[at + 1:]
        if change == "double":
            return line.replace(b" ", b"  ", 1)
        if change == "root":
            return line.replace(b" ", b" .", 1)
        if change == "case":
            return line.swapcase()
        name = self.choose.choice(self.others + self.events + self.inputs)
        return self.choose.choice([b"fire ", b"set ", b""]) + name + self.choose.choice([b"", b" 1", b" true"]) if change == "name" else (
            self.choose.choice(ODD_WORDS))

    def line(self, state, stops):
        kinds = [kind for kind in KINDS if stops or kind not in STOPPING]
        kind = self.choose.choices(kinds, [KINDS[kind] for kind in kinds])[0]
        if kind == "fire":
            return self.fire(state)
        return {"set": self.set_within, "any event": self.any_event, "any value": self.any_value, "bad": self.bad,
                "empty": lambda: b""}[kind]()

    # ---- scripts

    def script(self, stops=True):
        """A script, which may stop, and the state that it reaches where it does not."""
        state, count, text = self.model.initial(), 0, b""
        for left in reversed(range(self.choose.choice(LENGTHS))):
            line = self.line(state, stops)
            text += line + self.choose.choice(ENDS if left or not stops else LAST_ENDS)
            try:
                state, count, _ = self.model.obeyed(line, state, count)
            except Stop:
                pass
        return text, state

    def explained(self):
        """A script and the path of an event to explain in the state that it reaches: often one that has choices that agree and no step, or
        another one without a step, or any event, or at times none."""
        for _ in range(self.choose.choice([1, MOST_TRIES])):
            script, state = self.script(self.choose.random() < 0.15)
            tried = [number for number in range(len(self.events)) if self.is_tried(number, state)]
            if tried:
                return script, self.events[self.choose.choice(tried)]
        blocked = [path for number, path in enumerate(self.events) if self.model.step(number, state) is None]
        wanted = self.choose.choice([blocked] * 12 + [self.events] * 6 + [self.others + self.inputs])
        return script, self.choose.choice(wanted or self.events or self.others)

    def is_tried(self, number, state):
        """Whether the event has choices that agree and no step."""
        return self.model.step(number, state) is None and bool(self.model.agreeing(number, state))

    def steps(self):
        """A number of steps."""
        return self.choose.choice([0, 1, 2, 3, 5, MOST_FIRST])
