"""The rules on channels: what is sent along an event, how its uses fit that, and what `?` is (CIF 3 language reference, "Channels").

An event with a type, or with `void`, is a channel. That its uses fit is asked of bodies as written, where a parameter is a channel as it
is declared to be; that an automaton has one role for an event is asked of components, and so stands in `plain_nets.py`.
"""
from collections import namedtuple

# A use of an event on an edge: its name and place, its role, and the expression that is sent, or None.
EventUse = namedtuple("EventUse", "name at role sent")
SYNCS, SENDS, RECEIVES = "synchronises", "sends", "receives"
# What is sent along an event beside a kind of values: that of no channel is None.
VOID = "void"
# The kind of a `?` where nothing is received, which is no kind that a position asks for.
NOTHING = "nothing"


def carried(data, body, use):
    """What is sent along the event that is used: None, VOID, or the kind of the values."""
    return carried_by(data, data.slot(body, use))


def carried_by(data, slot):
    return slot.channel if slot.channel in (None, VOID) else data.kind_of_type(slot.home, slot.channel)


def received(data, body, uses):
    """The kind of `?` in the updates of an edge with these uses: that which all of them receive, or NOTHING."""
    kinds = {carried(data, body, use) if use.role == RECEIVES else None for use in uses}
    return NOTHING if len(kinds) > 1 or kinds & {None, VOID} else kinds.pop()


def is_unfit(use, sort):
    """Whether a use does not fit what is sent along its event. A plain one fits every event, a value asks for a channel with values, `!`
    alone for a void one, and `?` for a channel."""
    if use.role == SENDS:
        return sort != VOID if use.sent is None else sort in (None, VOID)
    return use.role == RECEIVES and sort is None


def of_uses(data):
    """9: the uses of events fit."""
    for automaton in data.source.automata:
        for edge in automaton.edges:
            if is_unfit(edge.use, carried(data, automaton.body, edge.use)):
                yield ("Mismatch", ("at", edge.use.at))


def sent_asked(data, body, use):
    """A sent value with the kind that is asked of it, where there is one: of one along what carries none only its operands are asked."""
    if use.sent is not None:
        sort = carried(data, body, use)
        yield use.sent, None if sort in (None, VOID) else sort
