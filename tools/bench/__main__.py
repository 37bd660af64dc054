"""Answers `legend`, `wave`, `draw` and `wrap`; the words are those of `cif`.

    legend FILE [ST] [--st | --json]            what the variables and the IFs of a program are
    wave FILE TABLE [ROWS] [--svg]              a table of replay, or those of batch, as a VCD file, or as an SVG picture
    draw FILE                                   the automata as a Graphviz file
    wrap FILE [--codesys | --twincat]           a MAIN with stable names that calls the program
    wrap FILE --plcopen ST                      MAIN and the program ST as PLCopen XML

FILE is a source, ST the program that `generate` wrote for it, TABLE what `replay` wrote over ROWS, or `batch` over the cases ROWS.
"""
import os
import sys

TOOLS = os.path.dirname(os.path.dirname(os.path.abspath(__file__)))
sys.path[0] = TOOLS

from bench.faults import UNWRITTEN, Fault, wrong_words  # noqa: E402

# The words that each command takes beside its files, at most one of them.
OPTIONS = {"legend": {"--st", "--json"}, "wave": {"--svg"}, "draw": set(), "wrap": {"--codesys", "--twincat", "--plcopen"}}
# How many files a command takes.
FILES = {"legend": (1, 2), "wave": (2, 3), "draw": (1, 1), "wrap": (1, 1)}


def parted(words):
    """The command, its files, its option, which may be none, and the file behind `--plcopen`."""
    command, rest = words[0] if words else "", words[1:]
    options = [it for it in rest if it in OPTIONS.get(command, ())]
    if command not in OPTIONS or len(options) > 1 or any(it.startswith("--") for it in rest if it not in options):
        raise wrong_words()
    option, program = options[0] if options else "", None
    if option == "--plcopen":
        at = rest.index(option) + 1
        program = rest.pop(at) if at < len(rest) else ""
    files = [it for it in rest if it != option]
    least, most = FILES[command]
    if not least <= len(files) <= most or "" in files or program == "":
        raise wrong_words()
    return command, files, option, program


def answer(words):
    """What is written for the words of a command line."""
    command, files, option, program = parted(words)
    if command == "legend":
        from bench import legend
        return legend.run(files[0], files[1] if len(files) > 1 else None, option)
    if command == "wave":
        from bench import waves
        return waves.run(files[0], files[1], files[2] if len(files) > 2 else None, option)
    if command == "draw":
        from bench import drawings
        return drawings.run(files[0])
    from bench import frames
    return frames.run(files[0], option, program)


def main(words):
    try:
        text = answer(words)
    except Fault as fault:
        sys.stderr.buffer.write(fault.line.encode("utf-8", "surrogateescape") + b"\n")
        return fault.status
    try:
        sys.stdout.buffer.write(text.encode("utf-8", "replace"))
        sys.stdout.buffer.flush()
    except OSError:
        sys.stderr.write("cif: cannot write\n")
        sys.stderr.flush()
        # (what is left cannot be written either)
        os._exit(UNWRITTEN)
    return 0


if __name__ == "__main__":
    sys.exit(main(sys.argv[1:]))
