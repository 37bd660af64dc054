"""Makes the channels of random sources: what is sent along events and event parameters, the roles that automata have for them, and the
values that are sent.

A channel has mostly one that sends and one that receives, an automaton has one role for it, and what is sent lies mostly in its range.
Where faults are asked for, `!` and `?` stand where they do not fit, and automata have several roles.
"""
from plain_channels import RECEIVES, SENDS, SYNCS, VOID
from plain_names import EVENT_PARAMETER
from random_definitions import TRUTH, Chosen, carried_by

WITHOUT_VALUE = Chosen(lambda body: "void", VOID, None)
ODD_USES = ["", "!", "! 1", "! true", "?", "! ?"]


class ChannelMaker:
    """Makes channels for whoever has scopes with events, chances, types and values. `received` is the kind of `?` where it may stand."""

    received = None

    # ---- what is sent

    def declare_channels(self):
        """Makes channels of some events."""
        for slot in self.events:
            if self.maybe(0.6):
                slot.channel = self.some_channel(slot.scope)

    def some_channel(self, scope):
        """What may be sent along an event of the scope."""
        earlier = [event.channel for event in self.events if event.scope is scope and event.channel]
        if earlier and self.maybe(0.3):
            return self.choose.choice(earlier)
        return self.some_type(scope) if self.has_data and self.maybe(0.8) else WITHOUT_VALUE

    def channel_of_parameter(self, scope, slot):
        """Makes a channel of an event parameter, mostly with an event of the specification that fits it."""
        outer = self.some_channel(self.root)
        slot.channel = self.like(scope, outer)
        if slot.channel:
            self.event(self.root, slot.word if slot.word != "event" else self.choose.choice(["controllable", "uncontrollable"]))
            self.events[-1].channel = outer

    def like(self, scope, channel):
        """What is of the same kind, and may be named in the scope."""
        if channel.kind == VOID or channel.kind == "bool":
            return WITHOUT_VALUE if channel.kind == VOID else TRUTH
        reached = {thing.slot for thing in self.things(scope.body)}
        named = [it for it in self.enums + self.types if it in reached and it.kind == channel.kind]
        if channel.kind == "int" and (not named or self.maybe(0.7)):
            lo, hi = self.choose.choice([(0, 3), (0, 9), (-1, 4), (2, 5)])
            return Chosen(lambda body: self.range_text(body, lo, hi, self.constants), "int", (lo, hi))
        if not named:
            return None
        found = self.choose.choice(named)
        return Chosen(lambda body: self.exact(body, found), found.kind, getattr(found, "sure", None))

    # ---- roles

    def role(self, scope, thing):
        """The role of the automaton for an event, the same on all of its edges."""
        if thing is None or not carried_by(thing.slot):
            return SYNCS
        key = (scope, thing.slot, thing.through)
        if key not in self.roles or self.fails("mixed"):
            taken = [role for (_, slot, _), role in self.roles.items() if slot is thing.slot]
            missing = [role for role in (SENDS, RECEIVES) if role not in taken and thing.slot.sort != EVENT_PARAMETER]
            self.roles[key] = self.choose.choice(missing * 6 + [SENDS, SENDS, RECEIVES, RECEIVES, SYNCS])
        return self.roles[key]

    def has_role(self, scope, thing):
        """Whether the automaton sends or receives along the event."""
        return self.roles.get((scope, thing.slot, thing.through), SYNCS) != SYNCS and not self.fails("mixed")

    def use(self, scope, name, role, thing):
        """A use of an event on an edge."""
        if self.fails("role"):
            return name + self.choose.choice(ODD_USES)
        if role != SENDS:
            return name + ("?" if role == RECEIVES else "")
        return name + "!" + ("" if carried_by(thing.slot) == VOID else self.sent(scope.body, thing.slot.channel))

    def sent(self, body, channel):
        """A value that is sent."""
        if channel.kind != "int" or channel.sure is None or self.maybe(0.3):
            return self.value(body, channel.kind, self.choose.choice([0, 0, 1, 2, 3]), self.everything())
        found = self.named(body, "int", self.variables) if self.maybe(0.5) else None
        number = self.choose.randint(*channel.sure)
        return self.choose.choice([found, "%s + 1" % found, "max(%s, %d)" % (found, number)]) if found else str(
            self.choose.choice([number, number, number, min(channel.sure[1] + 1, 2147483647)]))

    def received_by(self, uses):
        """The kind of `?` in the updates of an edge with these roles and events, or None."""
        kinds = {carried_by(thing.slot) if role == RECEIVES else None for role, thing in uses}
        return None if len(kinds) > 1 or kinds & {None, VOID} else kinds.pop()

    def of_received(self, target):
        """A number that is made of the one that is received, and of a variable."""
        return self.choose.choice(["?", "?", "? + 1", "%s + ?", "? - %s", "? mod 4", "min(?, 5)", "max(?, %s)"]).replace("%s", target)
