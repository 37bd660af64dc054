"""`wave`: a table of `replay`, or the tables of `batch`, as a VCD file, or as a picture."""
import os
import re

from bench.models import load_classed
from bench.pictures import as_svg
from bench.tables import Table
from bench.vcd import as_vcd


def scope_of(file):
    """The name of a source as that of a scope."""
    name = os.path.splitext(os.path.basename(file))[0]
    return re.sub("[^A-Za-z0-9_]+", "_", name) or "source"


def run(file, table, rows, form):
    """The answer to `wave FILE TABLE [ROWS] [--svg]`."""
    found = Table(load_classed(file), table, rows)
    return as_svg(found, table) if form == "--svg" else as_vcd(found, scope_of(file))
