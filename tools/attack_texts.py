"""Makes hostile texts for `attack.py`: sources, programs, rows, cases and scripts, whole, mutated and of forms that grow.

All is bytes, and each text depends on nothing but the choices of one random.Random and the corpus.
"""
import functools
import random
import re

import compare_programs
import compare_refusals
import random_sources
import stack_need
from building import TOP
from plain_tokens import RESERVED

TOKEN = re.compile(rb"\$?[A-Za-z_]\w*|\d+|:=|<=>|<=|>=|<>|!=|=>|\.\.|\(\*|\*\)|/\*|\*/|//|\s+|.", re.S)
ST_WORDS = """ABS AND BOOL DO ELSE ELSIF END_IF END_PROGRAM END_VAR END_WHILE FALSE IF LINT MAX MIN MOD NOT OR PROGRAM SEL THEN TRUE VAR VAR_INPUT
    VAR_OUTPUT WHILE XOR CONSTANT""".split()
KEYWORDS = {word.encode() for word in [*RESERVED, *ST_WORDS]}
NUMBERS = [b"0", b"1", b"2", b"100", b"2147483647", b"2147483648", b"4294967295", b"4294967296", b"9223372036854775807", b"9223372036854775808",
           b"18446744073709551615", b"18446744073709551616", b"9" * 40, b"9" * 5000, b"00", b"01", b"1.5", b"1e9", b"16#FF", b"1_000", b"-1", b"- 1",
           b"-2147483648", b"-9223372036854775808", b"1..2"]
# Bytes that are no text, and signs that open what has an end.
ODD = [b"\0", b"\0" * 9, b"\xff", b"\xfe\xff", b"\xc0\x80", b"\xed\xa0\x80", b"\xf4\x90\x80\x80", b"\xc3", b"\xc3\xa4", b"\xef\xbb\xbf", b"\xf0\x9f\x92\xa1",
       b"\r", b"\r\n", b"\n\r", b"\t", b"\v", b"\f", b"\x1b[2J", b"\x7f", b"\x85", b"\xa0", b'"', b"'", b"\\", b"`", b"$", b"$$", b"@", b"#", b"%", b"?",
       b"/*", b"*/", b"/*/", b"(*", b"*)", b"(*)", b"//", b"{", b"}", b";", b",", b".", b"..", b"=", b":=", b"->", b"[", b"]"]
COUNTS = [0, 1, 2, 3, 10, 62, 63, 64, 65, 99, 100, 101, 102, 199, 255, 256, 257, 399, 400, 401, 402, 1000, 4000]
NAME_SIZES = [39, 40, 41, 255, 256, 1000, 20000]
MOST = 1 << 16


def extreme(choose, is_great=False):
    """A count at a limit; a great one now and then."""
    return choose.choice([10000, 30000, 100000]) if is_great and choose.random() < 0.04 else choose.choice(COUNTS)


# ---- mutations: of the choices, a text and another text

def span(choose, text, most=None):
    """Two places in a text, mostly near each other."""
    size = min(len(text), most or choose.choice([1, 4, 20, 100, 1000]))
    begin = choose.randint(0, len(text))
    return begin, min(len(text), begin + choose.randint(0, size))


def flip(choose, text, other):
    changed = bytearray(text)
    for _ in range(choose.choice([1, 1, 1, 2, 8]) if text else 0):
        changed[choose.randrange(len(text))] ^= 1 << choose.randrange(8)
    return bytes(changed)


def overwrite(choose, text, other):
    changed = bytearray(text)
    for _ in range(choose.choice([1, 1, 2, 5]) if text else 0):
        changed[choose.randrange(len(text))] = choose.randrange(256)
    return bytes(changed)


def cut(choose, text, other):
    begin, end = span(choose, text)
    return text[:begin] + text[end:]


def cut_end(choose, text, other):
    return text[:choose.randint(0, len(text))]


def repeat(choose, text, other):
    begin, end = span(choose, text)
    return text[:begin] + text[begin:end] * choose.choice([2, 2, 3, 10, 100]) + text[end:]


def insert_odd(choose, text, other):
    at = choose.randint(0, len(text))
    return text[:at] + choose.choice(ODD) * choose.choice([1, 1, 1, 2, 101, 1000]) + text[at:]


def splice(choose, text, other):
    """The beginning of one text and the end of another one."""
    return text[:choose.randint(0, len(text))] + other[choose.randint(0, len(other)):]


def insert_piece(choose, text, other):
    at, (begin, end) = choose.randint(0, len(text)), span(choose, other)
    return text[:at] + other[begin:end] + text[at:]


def line_ends(choose, text, other):
    return text.replace(b"\n", choose.choice([b"\r\n", b"\r", b"\n\n", b"", b" ", b"\0"]))


@functools.lru_cache(maxsize=200)
def kept_tokens(text):
    return tuple(TOKEN.findall(text))


def tokens_of(text):
    return list(kept_tokens(text))


def sort_of(token):
    if token.isspace():
        return "blank"
    if token[:1].isdigit():
        return "number"
    if token[:1].isalpha() or token[:1] in (b"_", b"$"):
        return "word" if token in KEYWORDS or token.upper() in KEYWORDS else "name"
    return "sign"


@functools.lru_cache(maxsize=200)
def kept_places(text):
    found, known = {sort: [] for sort in ("blank", "number", "word", "name", "sign")}, {}
    for at, token in enumerate(kept_tokens(text)):
        if token not in known:
            known[token] = found[sort_of(token)].append
        known[token](at)
    return found


def places_of(text, sort):
    """The places of the tokens of a sort in a text."""
    return kept_places(text)[sort]


def exchange(choose, text, other):
    """A token in the place of another one of its sort, of the same text or of another one."""
    tokens = tokens_of(text)
    sort = choose.choice(["name", "name", "name", "name", "name", "name", "number", "number", "number", "word", "sign"])
    places = places_of(text, sort)
    if not places:
        return text
    giver = text if choose.random() < 0.8 else other
    others, found = kept_tokens(giver), places_of(giver, sort)
    for _ in range(choose.choice([1, 1, 1, 2, 4])):
        tokens[choose.choice(places)] = others[choose.choice(found)] if found else b"x"
    return b"".join(tokens)


def move_tokens(choose, text, other):
    """Tokens swapped, left out, doubled or put elsewhere."""
    tokens = tokens_of(text)
    for _ in range(choose.choice([1, 1, 2, 6]) if len(tokens) > 1 else 0):
        one, two, way = choose.randrange(len(tokens)), choose.randrange(len(tokens)), choose.randrange(4)
        if way == 0:
            tokens[one], tokens[two] = tokens[two], tokens[one]
        elif way == 1:
            tokens[one] = b" "
        elif way == 2:
            tokens.insert(two, b" " + tokens[one] + b" ")
        else:
            tokens[one] = choose.choice([*sorted(KEYWORDS), *ODD])
    return b"".join(tokens)


def extreme_numbers(choose, text, other):
    tokens = tokens_of(text)
    places = places_of(text, "number")
    for at in choose.sample(places, min(len(places), choose.choice([1, 1, 2, 3]))):
        tokens[at] = choose.choice(NUMBERS if choose.random() < 0.5 else NUMBERS[:5])
    return b"".join(tokens)


def long_names(choose, text, other):
    """A name in place of one, at one place or at all."""
    tokens = tokens_of(text)
    places = places_of(text, "name")
    if not places:
        return text
    at = choose.choice(places)
    name = choose.choice([b"n", b"_", b"Zz_", b"a.b.", b"$end."]) * choose.choice(NAME_SIZES)
    name = name[:MOST].rstrip(b".")
    if choose.random() < 0.3:
        tokens[at] = name
    else:
        old = tokens[at]
        tokens = [name if token == old else token for token in tokens]
    return b"".join(tokens)


def move_pieces(choose, text, other):
    """Pieces up to a semicolon or a colon swapped, left out, doubled, or taken from another text."""
    pieces = re.findall(rb"[^;:]*[;:]|[^;:]+$", text)
    others = re.findall(rb"[^;:]*[;:]", other)
    for _ in range(choose.choice([1, 1, 2, 5]) if len(pieces) > 1 else 0):
        one, two, way = choose.randrange(len(pieces)), choose.randrange(len(pieces)), choose.randrange(4)
        if way == 0:
            pieces[one], pieces[two] = pieces[two], pieces[one]
        elif way == 1:
            pieces[one] = b""
        elif way == 2:
            pieces.insert(two, pieces[one])
        elif others:
            pieces.insert(two, choose.choice(others))
    return b"".join(pieces)


NESTS = [(b"(", b")"), (b"not (", b")"), (b"NOT ", b""), (b"not ", b""), (b"- ", b""), (b"-(", b")"), (b"if true: ", b" else x end"), (b"SEL(TRUE, x, ", b")"),
         (b"min(1, ", b")"), (b"MIN(1, ", b")"), (b"abs(", b")"), (b"ABS(", b")"), (b"IF TRUE THEN ", b" END_IF;"), (b"WHILE TRUE DO ", b" END_WHILE;"),
         (b"group g: ", b" end "), (b"/*", b"*/"), (b"(*", b"*)"), (b"[", b"]"), (b"{", b"}"), (b"x + ", b""), (b"true and ", b""), (b"a.", b"")]


def nest(choose, text, other):
    """A token or a piece in many signs that open and close, not always as many of both."""
    tokens = tokens_of(text)
    if not tokens:
        return text
    at, (opens, closes), depth = choose.randrange(len(tokens)), choose.choice(NESTS), extreme(choose, True)
    ends = depth if choose.random() < 0.8 else extreme(choose)
    tokens[at] = opens * depth + tokens[at] + closes * ends
    return b"".join(tokens)


GENTLE = [exchange, exchange, exchange, exchange, extreme_numbers, move_pieces]
ROUGH = [flip, overwrite, cut, cut_end, repeat, insert_odd, splice, insert_piece, line_ends, move_tokens, long_names, nest]


def gently_mutated(choose, text, pick):
    """A text with a change after which it is often still one that breaks no rule."""
    return choose.choice([extreme_numbers, exchange, exchange, move_pieces])(choose, text, pick(choose))


def mutated(choose, text, pick):
    """A text with some changes; `pick` gives another text."""
    for _ in range(choose.choice([0, 0, 1, 1, 1, 1, 2, 3])):
        text = choose.choice(GENTLE if choose.random() < 0.8 else ROUGH)(choose, text, pick(choose))
    return text[:16 * MOST]


def blank(choose):
    """A text without tokens, or of random bytes."""
    return choose.choice([b"", b" ", b"\n", b"\0", b"\xff", b"\xef\xbb\xbf", b"\r\n" * 100, b"\0" * 4096, b" " * MOST, choose.randbytes(choose.randint(1, 2000))])


# ---- sources

def doubling(choose, count):
    """Each thing is twice the one before."""
    way = choose.randrange(6)
    if way == 0:
        return "alg int v0 = 1; " + "".join(f"alg int v{k} = v{k - 1} + v{k - 1}; " for k in range(1, count)) + "plant A: controllable c; location: initial; edge c when v0 = 1; end"
    if way == 1:
        return "".join(f"const int c{k} = {f'c{k - 1} + c{k - 1}' if k else 1}; " for k in range(count))
    if way == 2:
        return compare_refusals.doubled(count)
    if way == 3:
        return compare_refusals.summed(count, choose.choice(["true", f"v{count} > 0"]))
    if way == 4:
        return compare_refusals.sum_passed_on(count, choose.choice(["true", "v >= 0"]))
    return compare_refusals.negation_passed_on(count)


def many(choose, count):
    """Many of one thing."""
    forms = [
        ("input bool i%d; ", ""), ("event e%d; ", ""), ("controllable c%d; ", ""), ("const int k%d = 1; ", ""), ("type t%d = int[0..1]; ", ""),
        ("group g%d: end ", ""), ("plant p%d: location: initial; end ", ""), ("enum e%d = l%d; ", ""), ("plant x: location l%d: initial; end ", ""),
        ("location l%d; edge e; ", "event e; plant a: location: initial; %send"), ("disc int[0..1] d%d; ", "plant a: %slocation: initial; end"),
        ("edge e; ", "controllable e; plant a: location: initial; %send"), ("edge e when d do d := d; ", "controllable e; plant a: disc bool d; location: initial; %send"),
        ("plant p%d: location: initial; edge e; end ", "controllable e; %s"), ("a%d: D(); ", "plant def D(): controllable c; location: initial; edge c; end %s"),
        ("requirement invariant a.d < 9; ", "plant a: disc int[0..3] d; location: initial; end %s"), ("requirement a.c needs a.d; ", "plant a: controllable c; disc bool d; location: initial; edge c; end %s"),
    ]
    form, frame = choose.choice(forms)
    text = "".join(form.replace("%d", str(k)) for k in range(count))
    return frame % text if frame else text


def listed(choose, count):
    """Long lists, sums and names."""
    way, join = choose.randrange(7), choose.choice([" + ", " * ", " - ", " and ", " or ", " = ", " => ", ", ", ".", " mod ", " div "])
    terms = join.join([choose.choice(["1", "2147483647", "true", "a", "a.d", "-1", "x"])] * max(count, 1))
    return [f"alg int v = {terms};", f"invariant {terms};", f"enum t = {terms};", f"event {', '.join(f'e{k}' for k in range(count + 1))};",
            f"const int[0..{terms}] k = 1;", f"plant a: disc int[0..{terms}] d; location: initial; end",
            f"controllable c; plant a: disc int[-2147483648..2147483647] d; location: initial; edge c when {terms} do d := {terms}; end"][way]


def crowd(choose, count):
    """Events with many choices."""
    factors = [choose.choice([1, 2, 3, 16, 128]) for _ in range(choose.choice([1, 2, 3, 7, 14, 40]))]
    return choose.choice(["controllable e; ", "event e; ", "uncontrollable e; "]) + compare_refusals.crowd(factors)


def nested_source(choose, count):
    return choose.choice(list(stack_need.sources(min(count, 5000)).values()))


GROWING = [doubling, doubling, many, many, listed, listed, crowd, nested_source]


def block_of(number, first, behind):
    """The block of attacks with a base text of its own in which an attack stands: smaller ones for the first thousand than behind."""
    return number // first if number < 1000 else f"{number // behind} behind"


class Texts:
    """The texts from which others are made: those of examples and documents, random ones, and programs, which `generate` writes."""

    def __init__(self, seed, generate):
        self.seed, self.made = seed, {}
        self.examples = [it.read_bytes() for it in sorted((TOP / "examples").glob("*.cif"))]
        shown = [block.encode() for page in sorted((TOP / "docs").glob("*.md")) for block in re.findall(r"^```cif\n(.*?)^```$", page.read_text(), re.S | re.M)]
        wrong = re.findall(r"^### .*?\n(.*?)^>>> ", (TOP / "tools/wrong_sources.txt").read_text(), re.S | re.M)
        self.sources = self.examples * 4 + shown + [it.encode() for it in wrong]
        self.generate, self.programs = generate, {}

    def random_source(self, number):
        """A random source, which may break rules; one for each number."""
        return self.kept("source", number, lambda choose: (compare_refusals.made(choose) if choose.random() < 0.6 else random_sources.automata_together(
            choose, True, choose.random() < 0.6, ("input", "alg", "channel", "invariant"))).encode("utf-8", "replace"))

    def kept(self, kind, number, make):
        """What is made of its kind and number alone; some are kept."""
        if (kind, number) not in self.made:
            if len(self.made) > 100:
                self.made.clear()
            self.made[kind, number] = make(random.Random(f"{self.seed} {kind} {number}"))
        return self.made[kind, number]

    def source(self, choose, number):
        """A hostile source."""
        way = choose.random()
        if way < 0.03:
            return blank(choose)
        if way < 0.15:
            text = choose.choice(GROWING)(choose, extreme(choose, True)).encode()
            return text if way < 0.11 else mutated(choose, text, self.other_source)
        text = self.random_source(block_of(number, 25, 100)) if way < 0.55 else choose.choice(self.sources)
        return mutated(choose, text, self.other_source)

    def other_source(self, choose):
        return choose.choice(self.sources)

    def source_to_run(self, choose, number):
        """A source that mostly breaks no rule, and the paths that its events and inputs have, or may have."""
        way = choose.random()
        if way < 0.25:
            text = self.source(choose, number)
            return text, [name for names in DECLARED.findall(text) for name in re.findall(rb"[A-Za-z_]\w*", names[:2000])] or [b"e"]
        text, paths = self.example_to_run(choose.randrange(len(self.examples))) if way < 0.5 else self.random_to_run(block_of(number, 10, 250))
        return text if choose.random() < 0.6 else gently_mutated(choose, text, self.other_source), paths

    def example_to_run(self, number):
        return self.kept("example", number, lambda _: with_paths(self.examples[number].decode()))

    def random_to_run(self, block):
        return self.kept("source to run", block, lambda choose: with_paths(choose.choice(random_sources.MAKERS)(choose)))

    def other_program(self, choose):
        """A program that is in examples/, or that is generated for a source there or a random one."""
        number = choose.randrange(24)
        if number not in self.programs:
            made = choose_source(number, self.sources, self.random_source)
            self.programs[number] = made and self.generate(made) or (TOP / "examples/tank.st").read_bytes()
        return self.programs[number]

    def random_program(self, block):
        return self.kept("program", block, lambda choose: compare_programs.Maker(choose).program()[0].encode())

    def program(self, choose, number):
        """A hostile program."""
        way = choose.random()
        if way < 0.03:
            return blank(choose)
        if way < 0.15:
            text = grown_program(choose, extreme(choose, True)).encode()
            return text if way < 0.11 else mutated(choose, text, self.other_program)
        text = self.random_program(block_of(number, 2, 20)) if way < 0.6 else self.other_program(choose)
        return mutated(choose, text, self.other_program)


def with_paths(text):
    """A source that breaks no rule, and the paths of its events and inputs."""
    net = random_sources.judged(text)[1]
    return text.encode(), [it.path.encode() for it in (*net.events, *net.inputs)] or [b"e"]


# ---- programs

def choose_source(number, sources, random_source):
    """A source for a program, another one for each number; none for some."""
    return None if number < 3 else sources[number - 3] if number < 12 else random_source(number)


def grown_program(choose, count):
    """Programs of many parts, nested ones, and ones that compute at the ends of 64 bits."""
    great, way = "9223372036854775807", choose.randrange(7)
    if way == 0:
        return choose.choice(list(stack_need.programs(min(count, 5000)).values()))
    if way == 1:
        return f"PROGRAM p {''.join(f'VAR x{k}: LINT := {k}; END_VAR ' for k in range(count))}END_PROGRAM"
    if way == 2:
        sign = choose.choice(["+", "-", "*", "/", "MOD", "AND", "OR", "XOR", "=", "<", "&", "<>"])
        term = choose.choice(["x", "1", great, "b", "0", "-1"])
        return f"PROGRAM p VAR x: LINT; b: BOOL; END_VAR x := {f' {sign} '.join([term] * max(count, 1))}; END_PROGRAM"
    if way == 3:
        step = choose.choice(["x := x + 1;", "x := x * 2 + 1;", "x := -x - 1;", f"x := {great} - x;", "x := 1 / x;", "x := x MOD 0;", "b := NOT b;", "x := ABS(x);"])
        return f"PROGRAM p VAR x: LINT := {choose.choice(['0', '1', great, '-' + great])}; b: BOOL; END_VAR {step * count} END_PROGRAM"
    if way == 4:
        is_endless = choose.random() < 0.1
        loop = choose.choice(["WHILE TRUE DO %s END_WHILE;"] if is_endless else ["WHILE x < 1000 DO x := x + 1; %s END_WHILE;", "WHILE b DO %s END_WHILE;"])
        return f"PROGRAM p VAR x: LINT; b: BOOL; END_VAR {loop % choose.choice(['', loop % '', 'x := x + 1;'])} END_PROGRAM"
    if way == 5:
        low, high = choose.choice(["0", "-" + great, great, "-1"]), choose.choice(["0", great, "-1", "3"])
        return f"PROGRAM p VAR_INPUT i: LINT ({low} .. {high}); END_VAR VAR_OUTPUT o: LINT ({low} .. {high}) := {high}; END_VAR o := i{choose.choice(['', ' + 1', ' * i', ' / i'])}; END_PROGRAM"
    return f"PROGRAM p VAR_INPUT {' '.join(f'i{k}: BOOL;' for k in range(count))} END_VAR END_PROGRAM"


# (a name from its first letter on alone, so that a long one is looked at once)
DECLARES = re.compile(rb"(?<!\w)(\w+)\s*:\s*(BOOL|LINT)\s*(?:\(\s*(-?\s*\d+))?", re.I)


def inputs_of(text):
    """The names of the inputs of a program, and the least value of each, or FALSE."""
    found = []
    for part in re.split(rb"\bVAR_INPUT\b", text, flags=re.I)[1:]:
        block, *more = re.split(rb"\bEND_VAR\b", part, maxsplit=1, flags=re.I)
        for name, kind, low in DECLARES.findall(block) if more else ():
            found.append((name, b"FALSE" if kind.upper() == b"BOOL" else low.replace(b" ", b"") or b"0"))
    return found


def plain_rows(text, scans):
    """Rows that a program takes: its inputs stay at their least values."""
    return numbered_rows(text, range(1, scans + 1))


def numbered_rows(text, numbers):
    inputs = inputs_of(text)
    lines = [b",".join([b"scan"] + [name for name, _ in inputs])]
    lines += [b",".join([b"%d" % scan] + [value for _, value in inputs]) for scan in numbers]
    return b"\n".join(lines) + b"\n"


CELLS = [b"TRUE", b"true", b"True", b"1", b"0", b"01", b"-0", b"-1", b"2", b" 1", b"", b'"1"', b'"TRUE', b'""', b"9223372036854775807", b"9223372036854775808",
         b"-9223372036854775808", b"-9223372036854775809", b"9" * 1000, b"x" * 20000, b"\0", b"\xff", b"1\r", b'1"1', b"'1'", b"scan"]


def some_rows(choose, text, numbers):
    """Rows with these numbers and cells of all sorts."""
    inputs = inputs_of(text)
    names = [b"scan"] + [name for name, _ in inputs]
    if choose.random() < 0.3:
        choose.shuffle(names)
    rows = [names]
    for scan in numbers:
        rows.append([b"%d" % scan if name == b"scan" else choose.choice([dict(inputs)[name], b"1", b"TRUE", b"3"]) for name in names])
    for _ in range(choose.choice([0, 0, 0, 1, 1, 2])):
        row = choose.choice(rows)
        if row and choose.random() < 0.7:
            row[choose.randrange(len(row))] = choose.choice(CELLS)
        elif row:
            row.insert(choose.randrange(len(row)), choose.choice(CELLS + names))
    return choose.choice([b"\n", b"\n", b"\n", b"\r\n", b"\r", b"\n\n"]).join(map(b",".join, rows)) + choose.choice([b"\n", b"", b"\n\n"])


def rows(choose, text):
    """A hostile table of rows for a program."""
    way = choose.random()
    if way < 0.03:
        return blank(choose)
    if way < 0.04:
        count = choose.choice([1, 1000, 100000, 100001]) if choose.random() < 0.3 else 1000
        return b"scan\n" + b"".join(b"%d\n" % scan for scan in range(1, count + 1))
    found = plain_rows(text, choose.choice([0, 1, 2, 5])) if way < 0.4 else some_rows(choose, text, range(1, choose.choice([0, 1, 1, 2, 3, 10]) + 1))
    if way > 0.75:
        found = mutated(choose, found, lambda _: found)
    return found


# ---- cases

def numbers_of_cases(choose):
    """The numbers under `scan` of some cases; now and then one of them is another."""
    sizes = [choose.choice([1, 1, 2, 3, 10]) for _ in range(choose.choice([0, 1, 1, 2, 3, 5, 9, 40]))]
    numbers = [scan for size in sizes for scan in range(1, size + 1)]
    if numbers and choose.random() < 0.2:
        numbers[choose.randrange(len(numbers))] = choose.choice([0, 1, 2, 3, 11, 100000, 100001, 2 ** 64 + 1])
    return numbers


def cases(choose, text):
    """Hostile cases for a program."""
    way = choose.random()
    if way < 0.03:
        return blank(choose)
    if way < 0.05:
        count = choose.choice([1000, 100000, 100001]) if choose.random() < 0.3 else 1000
        size = choose.choice([1, 2, 333, 99999, 100001])
        return b"scan\n" + b"".join(b"%d\n" % (row % size + 1) for row in range(count))
    numbers = numbers_of_cases(choose)
    found = numbered_rows(text, numbers) if way < 0.4 else some_rows(choose, text, numbers)
    return mutated(choose, found, lambda _: found) if way > 0.75 else found


# ---- scripts

DECLARED = re.compile(rb"\b(?:event|controllable|uncontrollable|input)\b([^;:(]*)")
VALUES = [b"true", b"false", b"0", b"1", b"2", b"3", b"-1", b"TRUE", b"-0", b"+1", b"", b"x", *NUMBERS]
LINES = [b"", b"\r", b"\r\r", b" ", b"set", b"fire", b"set ", b"fire ", b"set a 1 2", b"Fire a", b"set a=1", b"# a", b"\0", b"\xff", b"fire  a", b"x" * 20000, b"fire " * 2000]


def script(choose, paths):
    """A hostile script over paths of events and inputs."""
    if choose.random() < 0.03:
        return blank(choose)
    lines = []
    for _ in range(choose.choice([0, 1, 1, 2, 3, 10, 40])):
        is_set, path = choose.random() < 0.4, choose.choice(paths)
        lines.append(b"set %s %s" % (path, choose.choice(VALUES[:6] if choose.random() < 0.9 else VALUES)) if is_set else b"fire " + path)
        if choose.random() < 0.1:
            lines.append(choose.choice(LINES))
    found = choose.choice([b"\n", b"\n", b"\n", b"\r\n", b"\n\n"]).join(lines) + choose.choice([b"\n", b"", b"\r"])
    return mutated(choose, found, lambda _: found) if choose.random() < 0.2 else found
