"""Reads the table of `replay` and its rows, or the tables of `batch` and its cases, as values by the paths of a source.

The tables of `batch` stand one after the other, each with its header and numbered from 1. In its cases file each row with the scan 1
begins a case. A fault has the number that `cif` has for it in rows and cases.
"""
import csv
import io
import math
import re
from collections import namedtuple
from itertools import zip_longest

from bench.faults import MOST_ROWS, ROWS, content, of_file

TRUTHS = {"TRUE": 1, "true": 1, "1": 1, "FALSE": 0, "false": 0, "0": 0}
MOST_SCANS = 100000

# A signal: what it is (a `Held`), whether it is an input, and its values, one for each scan of each case.
Signal = namedtuple("Signal", "held is_input values")


class Table:
    """The numbers of the scans, where each case begins and ends among them, and the signals: inputs, where the rows are given, and outputs."""

    def __init__(self, model, table, rows=None):
        outputs = Columns(table, model.outputs(), model.output_names(), is_table=True)
        if rows is None and not outputs.begins:
            raise of_file(ROWS, table, "44 Header column 1")
        self.scans, self.cases = outputs.scans, outputs.cases()
        self.signals = [Signal(held, False, values) for held, values in zip(model.outputs(), outputs.values)]
        if rows is not None:
            inputs = Columns(rows, model.inputs(), model.input_names(), is_table=False, has_cases=len(self.cases) != 1)
            self.signals = [Signal(held, True, values) for held, values in zip(model.inputs(), rows_of(inputs, outputs))] + self.signals


def rows_of(inputs, outputs):
    """The values of the inputs in the scans of a table, which are among the rows. Several cases are those of the rows, scan by scan."""
    if len(outputs.begins) != 1 or len(inputs.begins) > 1:
        same_scans(outputs, inputs)
        return inputs.values
    places = {scan: place for place, scan in enumerate(inputs.scans)}
    missing = next((scan for scan in outputs.scans if scan not in places), None)
    if missing is not None:
        raise of_file(ROWS, inputs.file, f"no row has the scan {missing} of the table")
    return [[values[places[scan]] for scan in outputs.scans] for values in inputs.values]


def same_scans(one, other):
    """Refuses two files that have other cases, at the first scan that one of them has alone."""
    for row, pair in enumerate(zip_longest(one.numbered(), other.numbered(), fillvalue=(math.inf, 0)), 1):
        if pair[0] != pair[1]:
            has, lacks = (one, other) if pair[0] < pair[1] else (other, one)
            case, scan = min(pair)
            raise of_file(ROWS, has.file, f"row {row}: scan {scan} of case {case} is not in {lacks.file}")


class Columns:
    """The columns of a file: the numbers of the scans, the places where cases begin, and the values under each name, in the order of the names.

    The numbers ascend by 1 in a case, and the first case alone may begin at another one than 1. A table has its header before each case.
    """

    def __init__(self, file, held, names, is_table, has_cases=False):
        self.file, self.is_table, self.has_cases = file, is_table, has_cases
        records = list(self.records())
        self.scans, self.begins, self.values = [], [], [[] for _ in names]
        if not records and is_table:
            return
        header = records[0] if records else []
        places = self.places(header, ["scan"] + names)
        self.begins.append(0)
        if len(records) - (records.count(header) if is_table else 1) > MOST_SCANS:
            raise of_file(ROWS, file, "47 TooManyRows")
        for record in records[1:]:
            if is_table and record == header:
                self.begins.append(len(self.scans))
            else:
                self.add(record, len(header), places, held)
        empty = next((case for case, (begin, end) in enumerate(self.cases(), 1) if begin == end), None)
        if empty and len(self.begins) > 1:
            raise of_file(ROWS, file, f"case {empty} has no scan")

    def add(self, record, length, places, held):
        """Adds a row."""
        row = len(self.scans) + 1
        if len(record) != length:
            raise of_file(ROWS, self.file, f"46 RowLength row {row}")
        scan = self.scan(row, places[0], record[places[0]])
        for values, it, place in zip(self.values, held, places[1:]):
            values.append(self.value(row, place, it, record[place]))
        if not self.is_table and scan == 1 and row > 1:
            self.begins.append(row - 1)
        elif self.has_cases and scan != self.next_scan():
            raise of_file(ROWS, self.file, f"48 CaseBoundary row {row}")
        self.scans.append(scan)

    def cases(self):
        """The places of the scans of each case: where it begins, and where it ends."""
        return list(zip(self.begins, self.begins[1:] + [len(self.scans)]))

    def numbered(self):
        """The numbers of each case and of its scans."""
        for case, (begin, end) in enumerate(self.cases(), 1):
            yield from ((case, scan) for scan in self.scans[begin:end])

    def records(self):
        text = content(self.file, MOST_ROWS)
        text = text[3:] if text.startswith("\xef\xbb\xbf") else text
        try:
            yield from (it for it in csv.reader(io.StringIO(text, newline="")) if it)
        except csv.Error:
            raise of_file(ROWS, self.file, "no table") from None

    def places(self, header, names):
        """Where the column of each name is."""
        for place, field in enumerate(header):
            is_right = field == names[place] if self.is_table and place < len(names) else field in names and field not in header[:place]
            if not is_right:
                raise of_file(ROWS, self.file, f"44 Header column {place + 1}")
        if len(header) < len(names):
            raise of_file(ROWS, self.file, f"44 Header column {len(header) + 1}")
        return [header.index(name) for name in names]

    def cell_fault(self, row, place):
        return of_file(ROWS, self.file, f"45 Cell row {row} column {place + 1}")

    def next_scan(self):
        """The number behind that of the last row; 1 where a case begins."""
        return 1 if self.begins[-1] == len(self.scans) else self.scans[-1] + 1

    def scan(self, row, place, cell):
        if not re.fullmatch("[1-9][0-9]{0,17}", cell) or not self.is_scan(int(cell)):
            raise self.cell_fault(row, place)
        return int(cell)

    def is_scan(self, scan):
        """Whether a number may be that of the next row; in a cases file, whether it may be one at all."""
        if self.has_cases:
            return scan <= MOST_SCANS
        return not self.scans or scan == self.next_scan() or not self.is_table and scan == 1

    def value(self, row, place, held, cell):
        if held.kind == "bool":
            if cell not in TRUTHS:
                raise self.cell_fault(row, place)
            return TRUTHS[cell]
        if not re.fullmatch("0|-?[1-9][0-9]{0,18}", cell):
            raise self.cell_fault(row, place)
        low, high = held.range or (-2**63, 2**63 - 1)
        if held.literals:
            low, high = 0, len(held.literals) - 1
        if not low <= int(cell) <= high:
            raise self.cell_fault(row, place)
        return int(cell)


def shown(held, value):
    """A value as a person reads it: a name, or a number."""
    if held.literals:
        return held.literals[value]
    return ("FALSE", "TRUE")[value] if held.kind == "bool" else str(value)


def runs(values, begin, end):
    """The runs of one value between two places: where each begins, where it ends, and the value."""
    found = []
    for place in range(begin + 1, end + 1):
        if place == end or values[place] != values[begin]:
            found.append((begin, place, values[begin]))
            begin = place
    return found
