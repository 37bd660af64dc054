#!/usr/bin/env python3
"""Compares the components of a source, instances included, the numbers of what they declare, and what names find from them, with a plain
walk over frames, on random sources.

    tools/compare_components.py CASES [SOURCES [SEED]]

CASES is the program of `crates/lib_cases`, which is asked `components` and `numbers` for each source that keeps all rules on scopes, and
`from` for names in its components. A frame is a body with the frame round it; an instance has the body of its definition and the frame in which
the definition stands, and stands where its arguments are given. The status is 1 where the two differ.
"""
import random
import sys

from compare_names import Writer
from plain_names import ALG, COMPONENT, DEFINITION, DISC, EVENT, INPUT, INSTANCE, due, written
from run_programs import case_answers

MOST = 300

# What is numbered in the flat net, with its word in an answer and in the counts of all.
NUMBERED = {EVENT: ("event", "events"), INPUT: ("input", "inputs"), DISC: ("variable", "variables"), ALG: ("alg", "algs")}


class Frame:
    """A component: its body, the frame round it, and the frame and slot where it stands."""

    def __init__(self, body, outer=None, stands=None):
        self.body, self.outer, self.stands, self.children = body, outer, stands, {}


def slot_in(frame, part):
    """The number of a slot by its name."""
    return next((k for k, slot in enumerate(frame.body.slots) if slot.name == part), None)


def first_part(frame, name):
    """The frame whose scope declares the first part of a name, and the slot there."""
    while frame is not None:
        k = slot_in(frame, name)
        if k is not None:
            return frame, k
        frame = frame.outer
    return None


def definition_frame(root, frame, name):
    """The frame in which the definition of that name stands, and its body. No instance is passed."""
    parts = list(name)
    if parts[0] is None:
        parts, frame = parts[1:], root
    at, k = first_part(frame, parts[0])
    for part in parts[1:]:
        at = at.children[k]
        k = slot_in(at, part)
    assert at.body.slots[k].sort == DEFINITION
    return at, at.body.slots[k].body


def grown(root):
    """Makes all frames: those of components first, as definitions may stand in later ones, and gives up past so many."""
    count, waiting = 1, [root]
    while waiting:
        frame = waiting.pop()
        for k, slot in enumerate(frame.body.slots):
            if slot.sort == COMPONENT:
                frame.children[k] = Frame(slot.body, frame, (frame, k))
                waiting.append(frame.children[k])
                count += 1
    waiting = [root]
    while waiting:
        frame = waiting.pop()
        for k, slot in enumerate(frame.body.slots):
            if slot.sort == INSTANCE:
                outer, body = definition_frame(root, frame, slot.instance.definition)
                child = frame.children[k] = Frame(body, outer, (frame, k))
                count += 1 + with_parts(child)
                if count > MOST:
                    return False
        waiting.extend(frame.children.values())
    return True


def with_parts(frame):
    """Makes the frames of what is written in a frame, and gives their number."""
    count = 0
    for k, slot in enumerate(frame.body.slots):
        if slot.sort == COMPONENT:
            frame.children[k] = Frame(slot.body, frame, (frame, k))
            count += 1 + with_parts(frame.children[k])
    return count


def in_order(frame):
    """A frame, and then those in it in the order of the text."""
    yield frame
    for k in sorted(frame.children):
        yield from in_order(frame.children[k])


def found(root, frame, name):
    """The frame and slot that a name finds from a frame, or None."""
    parts = list(name)
    if parts[0] is None:
        parts, frame = parts[1:], root
        k = slot_in(root, parts[0])
        place = None if k is None else (root, k)
    else:
        place = first_part(frame, parts[0])
    for part in parts[1:]:
        if place is None or place[1] not in place[0].children:
            return None
        child = place[0].children[place[1]]
        k = slot_in(child, part)
        place = None if k is None or k < len(child.body.parameters) else (child, k)
    return place


def numbers_of(frames):
    """What each component is, with the numbers of what it declares, and the counts of all."""
    counts, automata, told = dict.fromkeys(NUMBERED, 0), 0, []
    for frame in frames:
        words = ["group"]
        if frame.body.is_automaton:
            words = ["automaton %d" % automata]
            automata += 1
        for slot in frame.body.slots:
            if slot.sort in NUMBERED:
                words.append("%s %s %d" % (slot.name, NUMBERED[slot.sort][0], counts[slot.sort]))
                counts[slot.sort] += 1
        told.append(", ".join(words))
    sums = ["%d %s" % (counts[sort], NUMBERED[sort][1]) for sort in NUMBERED] + ["%d automata" % automata]
    return told + ["of all " + ", ".join(sums)]


def cases_of(choose, writer):
    """The cases of a source, each with its answer; none where the source has too many components."""
    root = Frame(writer.root)
    if not grown(root):
        return []
    frames = list(in_order(root))
    numbers = {id(frame): number for number, frame in enumerate(frames)}
    bodies = {id(body): number for number, body in enumerate(writer.bodies)}
    told = []
    for frame in frames:
        line = "body %d" % bodies[id(frame.body)]
        if frame.stands:
            line += " at %d:%d in %d" % (numbers[id(frame.stands[0])], frame.stands[1], numbers[id(frame.outer)])
        told.append(line)
    cases = [("components " + writer.text, told), ("numbers " + writer.text, numbers_of(frames))]
    for _ in range(10):
        frame = choose.choice(frames)
        name = choose.choice([writer.name, lambda: writer.walked(frame.body)])()
        place = found(root, frame, name)
        answer = "nothing" if place is None else "%d:%d" % (numbers[id(place[0])], place[1])
        cases.append(("from %d %s | %s" % (numbers[id(frame)], written(name), writer.text), [answer]))
    return cases


def made(choose):
    """A source in which no rule on scopes is broken, nine times in ten with instances."""
    is_plain = choose.random() < 0.1
    while True:
        writer = Writer(choose)
        if (is_plain or any(body.instances for body in writer.bodies)) and not due(writer.root, writer.bodies):
            return writer


def main(cases, sources=150, seed=1):
    choose = random.Random(seed)
    asked = [case for _ in range(sources) for case in cases_of(choose, made(choose))]
    differ, components, names = 0, 0, 0
    for (case, wanted), answer in zip(asked, case_answers(cases, [case for case, _ in asked])):
        if case.startswith("components"):
            components += len(wanted)
        elif case.startswith("from"):
            names += wanted != ["nothing"]
        if answer != wanted:
            differ += 1
            print("%s\n  told   %s\n  wanted %s" % (case, answer, wanted))
    print("components: %d, %d questions, of which %d names find something: %d differ" % (components, len(asked), names, differ))
    return 1 if differ else 0


if __name__ == "__main__":
    sys.exit(main(sys.argv[1], *[int(word) for word in sys.argv[2:]]))
