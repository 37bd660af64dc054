#!/usr/bin/env python3
"""Compares what the names of a source find, and which rules on scopes it breaks, with a plain look-up, on random sources.

    tools/compare_names.py CASES [SOURCES [SEED]]

CASES is the program of `crates/cif_cases`, which is asked `scopes` and `resolve` for each source, and `find` for names in each of
its bodies. A name is looked up in the scope where it stands and outward, each later part in the body of what the part before it
finds. About a third of the sources keep all rules on scopes, a third break only the one on definitions, types and constants that
reach themselves, where such sources are found, and the others break any. The status is 1 where the two differ.
"""
import random
import sys

from plain_names import (
    ALG, ALG_PARAMETER, ASKED, Body, COMPONENT, CONSTANT, DEFINITION, DISC, EVENT, EVENT_PARAMETER, INPUT, INSTANCE, Instance,
    LITERAL, LOCATION, LOCATION_PARAMETER, Slot, TYPE, due, found_slot, of_scope, written)
from run_programs import case_answers

NAMES = "abcdefghij"


class Writer:
    """Writes a random source and notes, as it goes, what each scope declares and each position asks."""

    def __init__(self, choose):
        self.choose, self.text, self.bodies = choose, "", []
        self.root = self.body(None)
        self.items(self.root, 0, self.choose.randint(2, 6))

    def body(self, outer, is_automaton=False):
        body = Body(outer, is_automaton)
        self.bodies.append(body)
        return body

    def put(self, text):
        self.text += text

    # ---- names

    def declare(self, body, sort, **more):
        used = {slot.name for slot in body.slots}
        free = [name for name in NAMES if name not in used] if self.choose.random() < 0.98 else None
        slot = Slot(self.choose.choice(free or NAMES), len(self.text), sort, **more)
        body.slots.append(slot)
        self.put(slot.name)
        return slot

    def name(self):
        """A name as its parts: `None` first where it begins at the specification."""
        parts = [self.choose.choice(NAMES) for _ in range(self.choose.choice([1, 1, 1, 2, 2, 3]))]
        return ([None] if self.choose.random() < 0.15 else []) + parts

    def use(self, body, asked, or_else=None):
        """Writes a name that, mostly, denotes what is asked for, or else, where none is found, what stands for it."""
        at, name = len(self.text), self.likely(body, asked)
        if name is None and or_else is not None and self.choose.random() < 0.97:
            self.put(or_else)
            return None
        name = self.name() if name is None or self.choose.random() < 0.02 else name
        self.put(written(name))
        body.uses.append((name, at, asked))
        return name

    def likely(self, body, asked):
        found = []
        for _ in range(25):
            name = self.name()
            slot = found_slot(self.root, body, name, asked == "definition")
            if isinstance(slot, Slot) and (asked == "any" or slot.sort in ASKED[asked]):
                found.append(name)
        return self.choose.choice(found) if found else None

    def walked(self, body):
        """A name that goes from a slot of a scope outward into the bodies behind it, or of one letter where a scope is empty."""
        while body.outer is not None and self.choose.random() < 0.5:
            body = body.outer
        name = []
        while body is not None and body.slots:
            slot = self.choose.choice(body.slots)
            name.append(slot.name)
            body = slot.body if slot.sort == COMPONENT else None
            if slot.sort == INSTANCE:
                found = found_slot(self.root, slot.instance.body, slot.instance.definition, True)
                body = found.body if isinstance(found, Slot) and found.sort == DEFINITION else None
            if self.choose.random() < 0.2:
                break
        return name or [NAMES[0]]

    # ---- items

    def items(self, body, depth, count):
        for _ in range(count):
            self.item(body, depth)

    def item(self, body, depth):
        kinds = [self.declaration] * 5 + [self.instance] * 2
        if depth < 3:
            kinds += [self.group, self.group, self.automaton, self.definition, self.definition]
        self.choose.choice(kinds)(body, depth)
        self.put(" ")

    def group(self, body, depth):
        self.put("group ")
        slot = self.declare(body, COMPONENT)
        self.put(": ")
        slot.body = self.body(body)
        body.inner.append(slot.body)
        self.items(slot.body, depth + 1, self.choose.randint(0, 4))
        self.put("end")

    def automaton(self, body, depth):
        self.put("automaton ")
        slot = self.declare(body, COMPONENT)
        self.put(": ")
        slot.body = self.body(body, True)
        body.inner.append(slot.body)
        self.locations(slot.body, depth)
        self.put("end")

    def definition(self, body, depth):
        is_automaton = self.choose.random() < 0.4
        self.put("automaton def " if is_automaton else "group def ")
        slot = self.declare(body, DEFINITION)
        slot.body = self.body(body, is_automaton)
        self.put("(")
        for k in range(self.choose.choice([0, 0, 1, 2])):
            self.put("; " if k else "")
            self.parameter(slot.body)
        self.put("): ")
        if is_automaton:
            self.locations(slot.body, depth)
        else:
            self.items(slot.body, depth + 1, self.choose.randint(0, 4))
        self.put("end")

    def parameter(self, body):
        sort = self.choose.choice([EVENT_PARAMETER, ALG_PARAMETER, LOCATION_PARAMETER])
        if sort == EVENT_PARAMETER:
            self.put("event ")
            self.channel(body)
        elif sort == LOCATION_PARAMETER:
            self.put("location ")
        else:
            self.put("alg ")
            self.type(body)
        body.parameters.append(sort)
        self.declare(body, sort)

    def channel(self, body):
        """Writes what is sent along an event, at times."""
        kind = self.choose.random()
        if kind < 0.3:
            self.type(body)
        elif kind < 0.4:
            self.put("void ")

    def type(self, body):
        """Writes a type and a blank, and gives the names in it."""
        kind, before = self.choose.randint(0, 4), len(body.uses)
        if kind < 2:
            self.put("bool ")
        elif kind == 2:
            self.put("int[")
            self.value(body)
            self.put("..")
            self.value(body)
            self.put("] ")
        else:
            self.use(body, "type", "int")
            self.put(" ")
        return [use for use in body.uses[before:]]

    def value(self, body):
        kind = self.choose.randint(0, 5)
        if kind < 2:
            self.put("?" if self.choose.random() < 0.1 else str(self.choose.randint(0, 9)))
        elif kind == 2:
            self.put("(")
            self.use(body, "value", "2")
            self.put(" + 1)")
        else:
            self.use(body, "value", "3")

    def declaration(self, body, depth):
        kind = self.choose.choice(["event", "type", "enum", "const", "alg", "input", "equation", "invariant", "marked"]
                                  + (["disc"] * 2 if body.is_automaton else []))
        self.put({"invariant": "invariant "}.get(kind, kind + " "))
        before = len(body.uses)
        if kind == "event":
            self.channel(body)
            self.declare(body, EVENT)
        elif kind == "type":
            slot = self.declare(body, TYPE)
            self.put(" = ")
            slot.names = self.type(body)
        elif kind == "enum":
            self.declare(body, TYPE)
            for k in range(self.choose.randint(1, 3)):
                self.put(", " if k else " = ")
                self.declare(body, LITERAL)
        elif kind == "const":
            self.type(body)
            slot = self.declare(body, CONSTANT)
            self.put(" = ")
            self.value(body)
            slot.names = body.uses[before:]
        elif kind in ("alg", "disc", "input"):
            self.type(body)
            self.declare(body, {"alg": ALG, "disc": DISC, "input": INPUT}[kind])
            if kind != "input" and self.choose.random() < 0.5:
                self.put(" = ")
                self.value(body)
        elif kind == "equation":
            self.left_side(body)
            self.put(" = ")
            self.value(body)
        elif kind == "invariant":
            if self.choose.random() < 0.5:
                self.use(body, "event")
                self.put(" needs ")
            self.value(body)
        else:
            self.value(body)
        self.put(";")

    def left_side(self, body):
        algs = [slot.name for slot in body.slots if slot.sort == ALG]
        self.own_name(body, algs, ALG)

    def own_name(self, body, likely, asked):
        name = self.choose.choice(likely) if likely and self.choose.random() < 0.97 else self.choose.choice(NAMES)
        body.own.append((name, len(self.text), asked))
        self.put(name)

    def instance(self, body, depth):
        slot = self.declare(body, INSTANCE)
        self.put(": ")
        instance = Instance(body, slot.name, slot.at, self.use(body, "definition"), [])
        slot.instance = instance
        self.put("(")
        found = found_slot(self.root, body, instance.definition, True)
        sorts = list(found.body.parameters) if isinstance(found, Slot) and found.sort == DEFINITION else []
        if self.choose.random() < 0.03:
            sorts = sorts[1:] if sorts else [None]
        for k, sort in enumerate(sorts):
            self.put(", " if k else "")
            self.argument(body, instance, {EVENT_PARAMETER: "event", LOCATION_PARAMETER: "location"}.get(sort, "value"))
        self.put(");")
        body.instances.append(instance)

    def argument(self, body, instance, asked):
        """What an argument asks for may yet change, so it is judged at the end."""
        is_bare = self.choose.random() < 0.9
        self.put("" if is_bare else "(")
        at = len(self.text)
        name = self.likely(body, asked if self.choose.random() < 0.97 else "any") or self.name()
        self.put(written(name))
        self.put("" if is_bare else ")")
        instance.arguments.append((name, at, is_bare))

    # ---- automata

    def locations(self, body, depth):
        for _ in range(self.choose.randint(0, 4)):
            self.declaration(body, depth)
            self.put(" ")
        if self.choose.random() < 0.3:
            self.put("alphabet ")
            self.use(body, "event")
            self.put("; ")
        if self.choose.random() < 0.3:
            self.put("monitor ")
            self.use(body, "event")
            self.put("; ")
        for _ in range(self.choose.randint(1, 3)):
            self.put("location ")
            self.declare(body, LOCATION)
            self.put(": ")
            for _ in range(self.choose.randint(0, 2)):
                self.choose.choice([self.edge, self.edge, self.equation, self.marking])(body)
                self.put("; ")

    def equation(self, body):
        self.put("equation ")
        self.left_side(body)
        self.put(" = ")
        self.value(body)

    def marking(self, body):
        self.put("marked ")
        self.value(body)

    def edge(self, body):
        self.put("edge ")
        self.use(body, "event")
        role = self.choose.random()
        self.put("!" if role < 0.3 else "?" if role < 0.45 else "")
        if role < 0.2:
            self.value(body)
        if self.choose.random() < 0.4:
            self.put(" when ")
            self.value(body)
        if self.choose.random() < 0.4:
            self.put(" do ")
            self.use(body, "variable")
            self.put(" := ")
            self.value(body)
        if self.choose.random() < 0.5:
            self.put(" goto ")
            self.own_name(body, [slot.name for slot in body.slots if slot.sort == LOCATION], LOCATION)


# ---- the comparison

def answer_of(writer, body, name):
    """What `find` is to answer."""
    through = []
    found = found_slot(writer.root, body, name, through=through)
    if not isinstance(found, Slot):
        return "nothing"
    home = {id(slot): (b, s) for b, one in enumerate(writer.bodies) for s, slot in enumerate(one.slots)}
    return " ".join(["%d:%d" % home[id(slot)] for slot in through] + ["%d:%d" % home[id(found)]])


def printed(duplicate):
    """The refusal as the program of the cases prints it."""
    return "%s { %s }" % (duplicate[0], ", ".join("%s: %d" % field for field in duplicate[1:]))


def cases_of(choose, writer):
    """The cases of a source, and what is allowed as their answers."""
    counts = {" ".join(str(len(body.slots)) for body in writer.bodies)}
    cases = [("resolve " + writer.text, {printed(told) for told in due(writer.root, writer.bodies)} or counts)]
    twice = {printed(told) for body in writer.bodies for told in of_scope(body)}
    cases.append(("scopes " + writer.text, twice or counts))
    if twice:
        return cases
    for number, body in enumerate(writer.bodies):
        for _ in range(3):
            name = choose.choice([writer.name, lambda: writer.walked(body), lambda: writer.walked(body)])()
            cases.append(("find %d %s | %s" % (number, written(name), writer.text), {answer_of(writer, body, name)}))
    return cases


def breaks_none(told):
    return not told


def breaks_cycles(told):
    return bool(told) and all(one[0] == "DefinitionCycle" for one in told)


def made(choose):
    """A source; two times in three one in which no rule is broken, or the one on what reaches itself alone, where such a one is found."""
    writer = Writer(choose)
    tries, is_meant = choose.choice([(0, breaks_none), (30, breaks_none), (100, breaks_cycles)])
    for _ in range(tries):
        if is_meant(due(writer.root, writer.bodies)):
            break
        writer = Writer(choose)
    return writer


def main(cases, sources=500, seed=1):
    choose = random.Random(seed)
    asked = [case for _ in range(sources) for case in cases_of(choose, made(choose))]
    differ, sorts = 0, {}
    for (line, wanted), found in zip(asked, case_answers(cases, [line for line, _ in asked])):
        answer = "\n".join(found)
        sort = answer.split(" ")[0] if answer[:1].isalpha() else line.split(" ")[0]
        sorts[sort] = sorts.get(sort, 0) + 1
        if answer not in wanted:
            differ += 1
            print("%s\n  told   %s\n  wanted %s" % (line, answer, " or ".join(sorted(wanted))))
    print("names: %d sources, %d questions, %d differ (%s)" % (sources, len(asked), differ, ", ".join(
        "%s %d" % pair for pair in sorted(sorts.items()))))
    return 1 if differ else 0


if __name__ == "__main__":
    sys.exit(main(sys.argv[1], *[int(word) for word in sys.argv[2:]]))
