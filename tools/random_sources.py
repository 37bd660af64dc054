"""Makes random sources that break no rule and whose runs show something, and files of rows for their inputs.

A source is drawn until it keeps all rules and its choices are few. How much a first scan shows is drawn too: inputs that decide what
happens, algebraic variables that change, channels that are used, invariants that hold a choice back.
"""
import functools

from plain_channels import VOID
from plain_expressions import Argument
from plain_nets import broken, names_of
from plain_sources import Source
from random_nets import made_text, spelled, tokens_of

MOST_TRIED, MOST_NODES = 400, 30000
# How often a source is made anew until its inputs and algebraic variables matter.
TRIES = [0, 3, 6, 10]


# ---- random sources

def letters(kind, number):
    """A name of letters alone, another for each kind and number."""
    name = ""
    number += 1
    while number:
        name = chr(ord("a") + number % 26) + name
        number //= 26
    return kind + name


def plant_alone(choose):
    """A source of one plant whose events are its own and whose names have letters alone."""
    events, locations = choose.randint(1, 8), choose.randint(1, 8)
    targets = [""] + [" goto " + letters("L", location) for location in range(locations)]
    initial, lines = choose.randrange(locations), ["plant P:"]
    for event in range(events):
        lines.append("%s %s;" % (choose.choice(["uncontrollable", "controllable"]), letters("E", event)))
    for location in range(locations):
        lines.append("location %s:%s" % (letters("L", location), " initial;" if location == initial else ""))
        for _ in range(choose.randint(0, 5)):
            lines.append("  edge %s%s;" % (letters("E", choose.randrange(events)), choose.choice(targets)))
    return "\n".join(lines + ["end", ""])


@functools.lru_cache(maxsize=8)
def judged(text):
    """The refusals that are due of a source, and its net."""
    return broken(Source(text))


def automata_together(choose, has_data=False, has_definitions=False, forms=()):
    """A source that breaks no rule and whose program isn't too long to try."""
    while True:
        text = spelled(choose, tokens_of(made_text(choose, None, has_data, has_definitions, forms)))
        due, net = judged(text)
        if not due and sum(map(net.count, range(len(net.events)))) <= MOST_TRIED and net.nodes() <= MOST_NODES:
            return text


def some_forms(choose):
    """Whether a source has inputs, algebraic variables and channels."""
    forms = choose.choice([(), (), ("input",), ("input",), ("alg",), ("input", "alg"), ("channel",), ("channel",), ("channel", "input"),
                           ("channel", "input", "alg")])
    return forms + ("invariant",) * (choose.random() < 0.5)


def automata_alone(choose):
    """A source without variables, at times with channels, which are without values."""
    return lively(choose, False, choose.choice([(), ("channel",), ("invariant",), ("channel", "invariant")]))


def data_together(choose):
    """A source with variables, mostly such that inputs, algebraic variables and channels matter."""
    return lively(choose, True, some_forms(choose))


def lively(choose, has_data, forms):
    tries = choose.choice(TRIES)
    while True:
        text, tries = automata_together(choose, has_data, False, forms), tries - 1
        if tries < 0 or is_lively(choose, judged(text)[1]):
            return text


def is_lively(choose, net):
    """Whether inputs decide what a first scan does, if there are any, algebraic variables change in it, and channels are used."""
    files = [made_file(choose, net, 1) for _ in range(3)]
    if not any(is_heard(net, file) for file in files) or net.algebraic and not any(is_changed(net, file) for file in files):
        return False
    channels = channels_of(net)
    if (any(net.exclusions.values()) or net.invariants) and not any(is_restrained(net, file) for file in files):
        return False
    wanted = {event for event in channels if net.events[event].channel != VOID} or channels
    return not wanted or any(wanted & fired_channels(net, file) for file in files)


def is_restrained(net, file):
    """Whether an invariant holds a choice back in a scan with the first row."""
    net.steps = {}
    net.scan(2, 2, first_begin(net, file))
    return is_forbidden(net) or would_break(net)


def channels_of(net):
    return {number for number, event in enumerate(net.events) if event.channel is not None}


def fired_channels(net, file):
    """The channels that are used in a scan with the first row."""
    net.steps = {}
    net.scan(2, 2, first_begin(net, file))
    return {event for (event, _), end in net.steps.items() if end is not None} & channels_of(net)


def is_heard(net, file):
    """Whether there are no inputs, or a scan with the first row does otherwise than one with the first values."""
    if not net.inputs:
        return True
    one, other = [net.scan(2, 2, state)[0] for state in (net.initial(), first_begin(net, file))]
    return one[:-len(net.inputs)] != other[:-len(net.inputs)]


def is_changed(net, file):
    """Whether an algebraic variable changes in a scan with the first row."""
    first = first_begin(net, file)
    after, _ = net.scan(2, 2, first)
    return any(it.value_in(first) != it.value_in(after) for it in net.algebraic)


def instances_together(choose):
    """Definitions and instances, mostly with variables, and mostly such that the first rounds lead on and arguments are read."""
    is_moved, is_read, has_data = choose.random() < 0.9, choose.random() < 0.5, choose.random() < 0.85
    forms, tries = some_forms(choose) if has_data else choose.choice([(), ("channel",), ("invariant",)]), choose.choice(TRIES)
    while True:
        text, tries = automata_together(choose, has_data, True, forms), tries - 1
        _, net = judged(text)
        begin = first_begin(net, made_file(choose, net, 1))
        if is_moved and net.scan(2, 2, begin)[0] == begin:
            continue
        if is_read and has_data and not any(map(reads_an_argument, net.exprs())):
            continue
        if tries < 0 or is_lively(choose, net):
            return text


# A maker is drawn from these; one that stands several times is drawn more often.
MAKERS = [plant_alone] + [automata_alone] * 2 + [data_together] * 4 + [instances_together] * 5


def has_data_by(make):
    """Whether the sources of a maker mostly have data."""
    return make in (data_together, instances_together)


# ---- rows

TRUTHS = {"FALSE": 0, "false": 0, "0": 0, "TRUE": 1, "true": 1, "1": 1}


def made_file(choose, net, scans):
    """A file of random rows, with a column for each input, in any order."""
    columns = list(zip(names_of("I", net.inputs), net.inputs))
    columns.insert(0, ("scan", None))
    if choose.random() < 0.3:
        choose.shuffle(columns)
    lines, row = [",".join(name for name, _ in columns)], {}
    for scan in range(1, scans + 1):
        for name, it in columns:
            # what is there stays at times, as it does in a plant
            if it and (name not in row or choose.random() < 0.7):
                row[name] = made_cell(choose, it)
        lines.append(",".join(row[name] if it else str(scan) for name, it in columns))
    return "\n".join(lines + [""])


def made_cell(choose, it):
    if it.kind == "bool":
        return choose.choice(sorted(TRUTHS))
    lo, hi = it.range
    return str(choose.choice([lo, hi, choose.randint(lo, hi), choose.randint(max(lo, -3), max(lo, min(hi, 9)))]))


def rows_of(net, file):
    """The rows of values for the inputs."""
    header, *records = [line.split(",") for line in file.splitlines()]
    places = [header.index(name) for name in names_of("I", net.inputs)]
    return [[TRUTHS[record[place]] if it.kind == "bool" else int(record[place]) for place, it in zip(places, net.inputs)]
            for record in records]


def first_begin(net, file):
    """The state in which the first scan begins."""
    rows = rows_of(net, file)
    return net.latched(net.initial(), rows[0]) if rows else net.initial()


# ---- what a net shows in the states that were met

def reads_an_argument(expr):
    return isinstance(expr.more, Argument) or any(map(reads_an_argument, expr.parts))


def is_forbidden(net):
    """Whether a choice agreed that an exclusion forbids."""
    return any(not net.is_permitted(event, state) for _, event, state in agreed(net))


def would_break(net):
    """Whether a choice made no step since a state invariant would be false after it."""
    afters = (net.after(choice, event, state) for choice, event, state in agreed(net) if net.is_permitted(event, state))
    return any(after is not None and not net.is_kept(after) for after in afters)


def agreed(net):
    """Some choices that agreed, in states that were met."""
    return ((choice, event, state) for event, state in list(net.steps)[:50] for choice in net.choices(event)[:50]
            if net.agrees(choice, event, state))
