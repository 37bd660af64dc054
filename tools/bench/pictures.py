"""A table as an SVG picture: a line for each input and output, with the names of locations and literals in it.

Several cases have a gap with a mark between them, and a line above with their numbers.
"""
from xml.sax.saxutils import escape

from bench.faults import ROWS, of_file
from bench.tables import runs, shown

MOST_SCANS = 1000
# Pixels: the width of a letter, the height of a line and of its wave, the least and the most width of a scan, the edge of all, the slant of
# a box, and the gap between two cases.
LETTER, LINE, WAVE, LEAST, MOST, EDGE, SLANT, GAP = 7.25, 30, 18, 24, 96, 12, 4, 16
STYLE = """  text { font: 12px "DejaVu Sans Mono", Consolas, Menlo, monospace; fill: #1f2328; }
  .scan { fill: #656d76; font-size: 11px; text-anchor: middle; }
  .in { fill: #0a5a9c; }
  .grid { stroke: #d8dee4; }
  .rule { stroke: #8c959f; }
  .wave, .box { stroke: #24292f; stroke-width: 1.4; fill: none; }
  .on { fill: #cfe8d5; stroke: none; }
  .box { fill: #f3f6fa; }
  .name { text-anchor: middle; }"""
STYLE_OF_CASES = """
  .case { font-weight: bold; }
  .mark { stroke: #24292f; stroke-dasharray: 4 3; }"""


class Picture:
    """The sizes of a picture of a table."""

    def __init__(self, table):
        self.table, self.has_cases = table, len(table.cases) > 1
        longest = max([len(label(it)) for it in table.signals] + [4])
        self.left = EDGE + longest * LETTER + EDGE
        self.step = min(MOST, max([LEAST] + [needed(it, table.cases) for it in table.signals]))
        # (the lines above the signals: of the cases, where there are several, and of the scans)
        self.above = 2 if self.has_cases else 1
        self.right = self.x(len(table.scans), max(len(table.cases), 1) - 1)
        self.width = self.right + EDGE
        self.height = EDGE + LINE * (len(table.signals) + self.above) + EDGE

    def x(self, place, case):
        """Where a scan of a case begins; cases are counted from 0."""
        return self.left + self.step * place + GAP * case

    def top(self, line):
        """The top of the wave of a line."""
        return EDGE + LINE * line + (LINE - WAVE) / 2

    def lines(self):
        yield (f'<svg xmlns="http://www.w3.org/2000/svg" width="{number(self.width)}" height="{number(self.height)}" '
               f'viewBox="0 0 {number(self.width)} {number(self.height)}">')
        yield "<style>\n" + STYLE + (STYLE_OF_CASES if self.has_cases else "") + "\n</style>"
        yield f'<rect width="{number(self.width)}" height="{number(self.height)}" fill="#ffffff"/>'
        yield from self.head()
        for line, signal in enumerate(self.table.signals, self.above):
            yield from self.signal(line, signal)
        yield "</svg>"

    def head(self):
        """The numbers of the scans, and a grid. Of narrow columns only some have a number."""
        scans, top = self.table.scans, self.top(self.above - 1) + 13
        if self.has_cases:
            yield text(EDGE, self.top(0) + 13, "case")
        yield text(EDGE, top, "scan")
        widest = len(str(max(scans))) * LETTER + 6 if scans else 1
        every = max(1, -int(-widest // self.step))
        for case, (begin, end) in enumerate(self.table.cases or [(0, 0)]):
            if self.has_cases:
                yield from self.mark(case, begin)
            for place in range(begin, end):
                yield self.grid(self.x(place, case))
                if (place - begin) % every == 0:
                    yield text(self.x(place + 0.5, case), top, str(scans[place]), "scan")
            yield self.grid(self.x(end, case))
        inputs = sum(it.is_input for it in self.table.signals)
        if 0 < inputs < len(self.table.signals):
            y = self.top(self.above + inputs) - (LINE - WAVE) / 2
            yield line_of("rule", EDGE, y, self.right, y)

    def grid(self, x):
        return line_of("grid", x, self.top(self.above) - 4, x, self.height - EDGE)

    def mark(self, case, begin):
        """The number of a case, and a line before it where another case stands there."""
        yield text(self.x(begin, case), self.top(0) + 13, str(case + 1), "case")
        if case:
            x = self.x(begin, case) - GAP / 2
            yield line_of("mark", x, self.top(0), x, self.height - EDGE)

    def signal(self, line, signal):
        top = self.top(line)
        yield text(EDGE, top + 13, label(signal), "in" if signal.is_input else "")
        for case, places in enumerate(self.table.cases):
            found = runs(signal.values, *places)
            if signal.held.kind == "bool":
                yield from self.truths(top, case, found)
                continue
            for begin, end, value in found:
                yield from self.box(top, self.x(begin, case), self.x(end, case), shown(signal.held, value))

    def truths(self, top, case, found):
        """A wave that is high where the value is TRUE."""
        points = []
        for begin, end, value in found:
            x, y, width = self.x(begin, case), top if value else top + WAVE, self.step * (end - begin)
            points += [f"{number(x)},{number(y)}", f"{number(self.x(end, case))},{number(y)}"]
            if value:
                yield f'<rect class="on" x="{number(x)}" y="{number(top)}" width="{number(width)}" height="{WAVE}"/>'
        if points:
            yield f'<polyline class="wave" points="{" ".join(points)}"/>'

    def box(self, top, begin, end, name):
        """A value from one scan to another one, with its name where there is room, and the whole in a title."""
        middle, low = top + WAVE / 2, top + WAVE
        corners = [(begin, middle), (begin + SLANT, top), (end - SLANT, top), (end, middle), (end - SLANT, low), (begin + SLANT, low)]
        points = " ".join(f"{number(x)},{number(y)}" for x, y in corners)
        room = int((end - begin - 2 * SLANT) / LETTER)
        inner = name if len(name) <= room else name[:max(room - 1, 0)] + "…" * (room > 1)
        yield f'<g><title>{escape(name)}</title><polygon class="box" points="{points}"/>'
        yield text((begin + end) / 2, top + 13, inner, "name") + "</g>"


def label(signal):
    return signal.held.path


def needed(signal, cases):
    """The width of a scan in which each name of a signal fits."""
    if signal.held.kind == "bool":
        return LEAST
    found = [it for places in cases for it in runs(signal.values, *places)]
    return max([(len(shown(signal.held, value)) * LETTER + 2 * SLANT + 4) / (end - begin) for begin, end, value in found], default=LEAST)


def number(value):
    """A number with one digit behind the point at the most."""
    return f"{value:.1f}".rstrip("0").rstrip(".")


def text(x, y, inner, word=""):
    kind = f' class="{word}"' if word else ""
    return f'<text{kind} x="{number(x)}" y="{number(y)}">{escape(inner)}</text>'


def line_of(word, x, y, to_x, to_y):
    return f'<line class="{word}" x1="{number(x)}" y1="{number(y)}" x2="{number(to_x)}" y2="{number(to_y)}"/>'


def as_svg(table, file):
    if len(table.scans) > MOST_SCANS:
        raise of_file(ROWS, file, f"a picture has at most {MOST_SCANS} scans: cut the table, and keep its first line")
    return "\n".join(Picture(table).lines()) + "\n"
