#!/usr/bin/env python3
"""Compares `simulate` and `why` with a plain simulator, on random sources and scripts.

    tools/compare_runs.py PROGRAM [SOURCES [SEED]]
    tools/compare_runs.py --self-test [SOURCES [SEED]]

The sources are those of `compare_scans.py`, and some of `compare_refusals.py`, of which most are refused. Each is run by random scripts
and by its first events, and events are explained in the states that scripts reach. Compared are the status, what is written, byte by byte,
and the line on standard error; a refused source is refused as by `check`. The simulator is in `plain_runs.py`: it tries all choices of an
event, and of a disabled one it gives all reasons.

With `--self-test` the simulator is compared with worked examples, each of some wrong simulators has to differ from it in one of these, and
runs that fire what a scan fires, in its order, have to end as the scan does. The status is 1 where something differs.
"""
import contextlib
import functools
import io
import random
import sys
import tempfile
from collections import Counter, namedtuple

import worked_runs
from compare_refusals import faulty, judgement, status_of
from plain_runs import MOST_BYTES, MOST_STEPS, Answer, Simulator, decimal
from random_scripts import ScriptMaker
from random_sources import MAKERS, judged, made_file, rows_of
from run_programs import Folder
from wrong_runs import WRONG, FromZero

USAGE = Answer(2, b"", b"cif: not a command line\n")
# The words of a command line, and its files by their names.
Trial = namedtuple("Trial", "words files")
# How many scripts, numbers of first steps and explained events a source has.
SCRIPTS, FIRSTS, EVENTS = 2, 1, 3
# How often a source is one that may break a rule.
REFUSED = 0.15


# ---- what is to be answered

def is_command(words):
    """Whether the words are a command line of `simulate` or `why`."""
    if "" in words[1:3]:
        return False
    if words[:1] == ["why"]:
        return len(words) == 4
    if words[:1] != ["simulate"] or len(words) not in (3, 4):
        return False
    if len(words) == 3:
        return words[2] != "--first"
    return words[2] == "--first" and is_number_of_steps(words[3])


def is_number_of_steps(word):
    value = decimal(word.encode())
    return value is not None and 0 <= value <= MOST_STEPS


@functools.lru_cache(maxsize=1000)
def lines_due(text):
    """The refusals of which a source has one, as lines; none of a source that breaks no rule."""
    return judgement(text).lines


def unread(number, words, files):
    """The answer where the file of that word is missing or too long, or None."""
    name = words[number]
    if name not in files:
        return Answer(3, b"", b"cif: cannot read %s\n" % name.encode())
    return Answer(6, b"", b"cif: %s is longer than %d bytes\n" % (name.encode(), MOST_BYTES)) if len(files[name]) > MOST_BYTES else None


def wanted(trial, make=Simulator):
    """The answers of which one is to be given: of a refused source there are several, one for each rule of a phase that it breaks."""
    words, files = trial
    if not is_command(words):
        return [USAGE]
    found = unread(1, words, files)
    if found:
        return [found]
    text = files[words[1]].decode("latin-1")
    lines = lines_due(text)
    if lines:
        return [Answer(status_of(line), b"", f"cif: {words[1]}: {line}\n".encode()) for line in sorted(lines)]
    return [answer(make(text), words, files)]


def answer(model, words, files):
    """What is answered on a source that is not refused."""
    if words[0] == "simulate" and words[2] == "--first":
        return model.simulated_first(int(words[3]))
    is_why = words[0] == "why"
    event = words[3].encode() if is_why else None
    if is_why and model.number_of(model.events, event) is None:
        return model.explained(files.get(words[2], b""), event)
    found = unread(2, words, files)
    if found:
        return found
    return model.explained(files[words[2]], event, words[2]) if is_why else model.simulated(files[words[2]], words[2])


# ---- random trials

def of_model(choose, text, notes):
    """Trials on a source that is not refused."""
    model = Simulator(text)
    maker, source = ScriptMaker(choose, model), text.encode("latin-1")
    noted_source(model, notes)
    for _ in range(SCRIPTS):
        script, _ = maker.script()
        yield Trial(["simulate", "source", "script"], {"source": source, "script": script})
    for _ in range(FIRSTS):
        yield Trial(["simulate", "source", "--first", str(maker.steps())], {"source": source})
    for _ in range(EVENTS):
        script, event = maker.explained()
        noted_reasons(model, script, event, notes)
        yield Trial(["why", "source", "script", event.decode()], {"source": source, "script": script})


def of_refused(choose, text):
    """Trials on a source that is refused: its script is not read, and may be missing."""
    files = {"source": text.encode("latin-1")}
    if choose.random() < 0.5:
        files["script"] = b"set\n"
    for words in (["simulate", "source", "script"], ["simulate", "source", "--first", "1"], ["why", "source", "script", "e"]):
        yield Trial(words, files)


def trials(choose, notes):
    """The trials on a random source."""
    if choose.random() >= REFUSED:
        return of_model(choose, choose.choice(MAKERS)(choose), notes)
    text = faulty(choose)
    if not lines_due(text):
        return of_model(choose, text, notes)
    notes["refused sources"] += 1
    return of_refused(choose, text)


def noted_source(model, notes):
    notes["sources with channels"] += any(it.channel is not None for it in model.events)
    notes["sources with inputs"] += bool(model.net.inputs)
    notes["sources with variables"] += bool(model.net.variables)


def noted_reasons(model, script, event, notes):
    number = model.number_of(model.events, event)
    state, _, stop = model.run(script)
    if number is not None and not stop:
        found = model.reasons(number, state)
        notes["explained events"] += 1
        notes["several reasons"] += len(found) > 1
        notes.update({it[0] for it in found} or {"enabled"})


def noted_answer(one, notes):
    notes["status %d" % one.status] += 1
    notes["steps"] += one.out.count(b"\nstep ")
    notes["deadlocks"] += one.out.endswith(b"\ndeadlock\n")
    if one.status == 13:
        notes["stops by " + one.err.decode().split(": ")[-1].split(" ")[0]] += 1


# ---- worked trials

def worked_trials():
    """The worked examples as trials, each with the answer that was worked out."""
    for text, count, out in worked_runs.FIRST:
        yield first_trial(text, count), Answer(0, out.encode(), b"")
    for text, script, out, stop in worked_runs.SCRIPTS:
        line = f"cif: script: {stop}\n" if stop else ""
        yield script_trial(text, script), Answer(13 if stop else 0, out.encode(), line.encode())
    for text, lines in worked_runs.BAD_LINES:
        out = Simulator(text).start_line(Simulator(text).initial()).encode()
        for line in lines:
            yield script_trial(text, line), Answer(13, out, b"cif: script: line 1: 29 BadLine\n")
    for words, status, out, line in worked_runs.WORDS:
        files = {name: content for name, content in worked_runs.FILES.items() if name in words}
        yield Trial(words, files), Answer(status, out.encode(), line.encode())
    for text, script, event, reasons in worked_runs.WHY:
        yield why_trial(text, script, event), Answer(0, worked_runs.reasons_written(text, reasons).encode(), b"")
    for text, script, event, status, line in worked_runs.UNEXPLAINED:
        yield why_trial(text, script, event), Answer(status, b"", f"cif: {line}\n".encode())


def first_trial(text, count):
    return Trial(["simulate", "source", "--first", str(count)], {"source": text.encode()})


def script_trial(text, script):
    return Trial(["simulate", "source", "script"], {"source": text.encode(), "script": script.encode("latin-1")})


def why_trial(text, script, event):
    return Trial(["why", "source", "script", event], {"source": text.encode(), "script": script.encode("latin-1")})


# ---- the comparison

def given(folder, trial):
    """What the program answers, and what `check` says of the source."""
    folder.clear()
    for name, content in trial.files.items():
        folder.write(name, content)
    return Answer(*folder.run(*trial.words))


def fault(folder, trial, answers):
    """What is wrong with the answer of the program, or None."""
    found = given(folder, trial)
    if found not in answers:
        return f"wanted {' or '.join(map(str, answers))}\n  given  {found}"
    if found.status in (7, 8):
        checked = Answer(*folder.run("check", trial.words[1]))
        if checked != found:
            return f"check gives {checked}\n  given {found}"
    return None


def compared(folder, choose, sources, notes):
    """Compares the worked and the random trials, and returns how many differ."""
    differ = 0
    for trial, one in worked_trials():
        differ += is_fault(trial, fault(folder, trial, [one]))
    for _ in range(sources):
        for trial in trials(choose, notes):
            answers = wanted(trial)
            noted_answer(answers[0], notes)
            differ += is_fault(trial, fault(folder, trial, answers))
    return differ


def is_fault(trial, fault):
    """Whether there is a fault, which is written."""
    if fault:
        print("%s %s\n  %s" % (trial.words, {name: content[:4000] for name, content in trial.files.items()}, fault))
    return bool(fault)


def main(program, sources=500, seed=1):
    notes = Counter()
    with tempfile.TemporaryDirectory() as room:
        differ = compared(Folder(program, room), random.Random(seed), sources, notes)
    shown = ", ".join("%d %s" % (count, what) for what, count in sorted(notes.items()))
    print("%d sources (%s) and the worked examples: %d differences" % (sources, shown, differ))
    return 1 if differ else 0


# ---- the test of the simulator itself

# How many random sources are run as their scans run, how many scans each makes, and the most rounds of each class.
SCANNED, SCANS, ROUNDS = 40, 3, 4


def differs(make):
    """Whether a simulator answers a worked example in another way."""
    return any(wanted(trial, make) != [one] for trial, one in worked_trials()) or any(
        reasons_in(make, *it) != [reason for reason, *_ in reasons] for *it, reasons in REASONS)


REASONS = worked_runs.IN_STATES + [(text, script, event, reasons) for text, script, event, reasons in worked_runs.WHY]


def reasons_in(make, text, state, event):
    """The reasons of an event in a state, or in the one that a script reaches."""
    model = make(text)
    state = model.run(state.encode("latin-1"))[0] if isinstance(state, str) else state
    return model.reasons(model.number_of(model.events, event.encode()), state)


def fired(net, bounds, state):
    """The events that a scan fires, in their order."""
    found = []
    for word, bound in zip(("uncontrollable", "controllable"), bounds):
        for _ in range(bound):
            before = len(found)
            for event in (number for number, it in enumerate(net.events) if it.word == word):
                after = net.step(event, state)
                if after is not None:
                    state = after
                    found.append(event)
            if len(found) == before:
                break
    return found


def lines_of_scan(model, row, events):
    """The lines that set the inputs as a row has them, and fire these events."""
    values = [model.value_of(it.kind, value) for it, value in zip(model.net.inputs, row)]
    lines = [f"set {it.path} {value}" for it, value in zip(model.net.inputs, values)]
    return [line.encode() for line in lines + [f"fire {model.events[event].path}" for event in events]]


def run_like_scans(model, rows, bounds):
    """Runs what scans over these rows fire, and returns how many steps were made: each line is obeyed, each state has the steps of the
    source as `plain_nets.py` has them, and each scan ends where the run does."""
    net, state, count = model.net, model.initial(), 0
    for row in rows:
        begin = net.latched(state, row)
        end, _ = net.scan(*bounds, begin)
        for line in lines_of_scan(model, row, fired(net, bounds, begin)):
            state, count, _ = model.obeyed(line, state, count)
            for event in range(len(net.events)):
                assert model.step(event, state) == net.first_step(event, state), (model.events[event].path, state)
        assert state == end, (state, end)
    return count


def test_scans(sources, seed):
    """Runs what scans of random sources fire."""
    choose, count = random.Random(seed), 0
    for _ in range(sources):
        text = choose.choice(MAKERS)(choose)
        rows = rows_of(judged(text)[1], made_file(choose, judged(text)[1], SCANS))
        count += run_like_scans(Simulator(text), rows, (choose.randint(1, ROUNDS), choose.randint(1, ROUNDS)))
    print("%d steps of %d random sources are those of their scans" % (count, sources))


class Played:
    """A simulator in the place of a program and its folder. Where the source is refused, `check` says `checked`, if that is given."""

    def __init__(self, make, checked=None):
        self.make, self.checked, self.files = make, checked, {}

    def clear(self):
        self.files = {}

    def write(self, name, content):
        self.files[name] = content

    def run(self, *words):
        if words[0] == "check":
            return self.checked or self.run("simulate", words[1], "--first", "0")
        return wanted(Trial(list(words), self.files), self.make)[0]


def test_comparison(sources, seed):
    """The comparison finds nothing between a simulator and itself, a wrong simulator, and a refusal that is another one for `check`."""
    assert compared(Played(Simulator), random.Random(seed), sources, Counter()) == 0
    with contextlib.redirect_stdout(io.StringIO()) as out:
        for player in (Played(FromZero), Played(Simulator, Answer(7, b"", b"cif: source: 4 NotRead at 0\n"))):
            assert compared(player, random.Random(seed), sources, Counter()) > 0
    assert "wanted Answer(status=0, out=b'start A=x\\nstep 1 A.u A=y\\n" in out.getvalue() and "check gives" in out.getvalue()


def self_test(sources=SCANNED, seed=3):
    for trial, one in worked_trials():
        assert wanted(trial) == [one], (trial.words, trial.files.get("source"), trial.files.get("script"), wanted(trial), one)
    for *it, reasons in REASONS:
        assert reasons_in(Simulator, *it) == [reason for reason, *_ in reasons], it
    for text, state, event, reasons in worked_runs.IN_STATES:
        shown = Simulator(text).reasons_shown(reasons_in(Simulator, text, state, event))
        assert shown == worked_runs.reasons_written(text, reasons), (text, state)
    for make in WRONG:
        assert differs(make), make.__name__
    print("the simulator agrees with %d worked examples, and %d wrong ones do not" % (
        sum(1 for _ in worked_trials()) + len(worked_runs.IN_STATES), len(WRONG)))
    test_comparison(sources // 5, seed)
    test_scans(sources, seed)
    return 0


if __name__ == "__main__":
    first, *rest = sys.argv[1:]
    sys.exit((self_test if first == "--self-test" else functools.partial(main, first))(*map(int, rest)))
