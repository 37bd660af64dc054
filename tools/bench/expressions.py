"""Expressions, guards and updates of a source as text, with each name as the full path of what it denotes.

A parameter of an instance is the argument that the instance gives, in parentheses where it is more than a name or a number.
"""
from plain_data import Set
from plain_expressions import branches_of
from plain_invariants import ALWAYS, NEEDS
from plain_names import denoted
from plain_nets import dotted, event_of

WHOLE = ("name", "number", "truth", "paren", "abs", "min", "max", "if", "received")


def path_of(frame, use):
    """The path of the event that a name denotes."""
    return dotted(*event_of(frame, use))


def named(frame, use):
    """What a name denotes: a path, or an argument."""
    found = denoted(frame, use.name)
    if found.argument:
        text = expression(found.frame, found.argument)
        return text if found.argument.form in WHOLE else f"({text})"
    return dotted(found.frame, found.slot)


def expression(frame, expr):
    form, more = expr.form, expr.more
    if form in ("name", "number", "truth", "received"):
        return {"name": lambda: named(frame, more), "number": lambda: str(more), "truth": lambda: ("false", "true")[more],
                "received": lambda: "?"}[form]()
    if form == "if":
        return conditional(frame, expr)
    parts = [expression(frame, part) for part in expr.parts]
    if form in ("sum", "product"):
        return parts[0] + "".join(f" {sign} {part}" for sign, part in zip(more, parts[1:]))
    if form in ("abs", "min", "max", "paren"):
        return f"{'' if form == 'paren' else form}({', '.join(parts)})"
    if form in ("minus", "plus", "not"):
        return {"minus": "-", "plus": "+", "not": "not "}[form] + parts[0]
    return f" {more if form == 'compare' else {'implies': '=>', 'iff': '<=>'}.get(form, form)} ".join(parts)


def conditional(frame, expr):
    branches, word, texts = branches_of(expr), "if", []
    for conditions, value in branches:
        texts.append(f"{word} {several(frame, conditions)}: {expression(frame, value)}")
        word = "elif"
    return " ".join(texts + [f"else {expression(frame, expr.parts[-1])} end"])


def alone(frame, expr):
    """An expression that stands by itself, where an argument needs no parentheses."""
    found = denoted(frame, expr.more.name) if expr.form == "name" else None
    return expression(found.frame, found.argument) if found and found.argument else expression(frame, expr)


def several(frame, exprs):
    return ", ".join(alone(frame, expr) for expr in exprs)


def update(frame, it):
    if isinstance(it, Set):
        return f"{named(frame, it.target)} := {alone(frame, it.value)}"
    texts, word = [], "if"
    for conditions, inner in it.branches:
        texts.append(f"{word} {several(frame, conditions)}: {updates(frame, inner)}")
        word = "elif"
    return " ".join(texts + ([f"else {updates(frame, it.other)}"] if it.other else []) + ["end"])


def updates(frame, its):
    return ", ".join(update(frame, it) for it in its)


def use(frame, it):
    """The use of an event on an edge."""
    sent = "" if it.sent is None else expression(frame, it.sent)
    return path_of(frame, it) + {"sends": "!" + sent, "receives": "?"}.get(it.role, "")


def invariant(frame, it):
    predicate = alone(frame, it.predicate)
    if it.form == ALWAYS:
        return predicate
    events = [path_of(frame, one) for one in it.events]
    joined = events[0] if len(events) == 1 else "{" + ", ".join(events) + "}"
    return f"{joined} needs {predicate}" if it.form == NEEDS else f"{predicate} disables {joined}"
