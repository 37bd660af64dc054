"""Places and sentences for a line of a script that stops a run, and the places of the reasons of `why`. For `explain.py`."""
import re

ADVICE = {
    26: "Set the input to a value of its range.",
    54: "EVENT is the full path of an event, such as `a.e`: without a dot or `$` in front, and with the name of the event itself where a "
        "parameter stands for it.",
}
# The first words of the lines.
FORMS = {b"set": "`set` has an input and a value, such as `set a.i 3`.", b"fire": "`fire` has an event, such as `fire a.e`."}
# A line of `why` that has a place of the source.
REASON = re.compile(r"(?:excluded|breaks|leaves) ([0-9]{1,9})(?: \S+)?")


def line_of(text, number):
    """The byte where a line begins, counted from 1, and the line without its end; none where there are fewer."""
    at = 0
    for _ in range(number - 1):
        at = text.find(b"\n", at) + 1
        if at == 0:
            return None
    return at, text[at:].split(b"\n", 1)[0].removesuffix(b"\r")


def place(refusal, text):
    """The byte of the script that a refusal is about: the value, the name, or the line."""
    found = line_of(text, refusal.line)
    if found is None:
        return None
    at, line = found
    return at + (line.rfind(b" ") + 1 if refusal.number in {26, 27} else 0)


def bad_value(value):
    """Why a value is none, whatever the input."""
    if re.fullmatch(rb"[+-]?[0-9_]+|-?[0-9]+\.[0-9]+", value) and not re.fullmatch(rb"0|-?[1-9][0-9]*", value):
        return "A whole number is written without `+`, without `_` and without zeros in front."
    if value.lower() in (b"true", b"false") and value not in (b"true", b"false"):
        return f"Write `{value.decode().lower()}`."
    return None


def bad_name(name):
    """Why a name is no path, whatever the source."""
    if name[:1] == b"." or b"$" in name:
        return "A name is the full path, without a dot in front and without `$`."
    return None


def bad_line(line):
    """Why a line is none that a script may have."""
    word, *parts = re.split(rb"[ \t=(]", line.strip(), maxsplit=1)
    if word not in FORMS:
        near = word.lower() if word.lower() in FORMS else b""
        return f"Write `{near.decode()}`." if near else "A line is `set INPUT VALUE`, `fire EVENT`, or empty. Comments are left out."
    if b"\t" in line or b"  " in line or line != line.strip():
        return "One blank stands between the parts of a line, and none elsewhere."
    parts = line.split(b" ")
    if word + b" " != line[: len(word) + 1] or len(parts) != (3 if word == b"set" else 2):
        return FORMS[word]
    if word == b"set":
        return bad_name(parts[1]) or bad_value(parts[2]) or "The name is the full path of an input, and the value one of its kind: " \
            "`true` or `false`, a whole number, or the name of a literal."
    return bad_name(parts[1]) or "The name is the full path of an event. That of a parameter is none: the event has its own."


def sentence(refusal, text, words):
    """What the mistake may be, and what to do."""
    found = line_of(text, refusal.line)
    if found is None:
        return None
    line = found[1]
    if refusal.number == 27:
        event = line.removeprefix(b"fire ").decode("utf-8", "replace")
        return f"With the lines before this one alone, cif why {words[1]} {words[2]} {event} gives the reasons."
    return bad_line(line) if refusal.number == 29 else ADVICE.get(refusal.number)


def place_of_reason(line):
    """The byte of the source that a line of `why` has, or none."""
    found = REASON.fullmatch(line)
    return int(found[1]) if found else None
