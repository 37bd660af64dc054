#!/usr/bin/env python3
"""The words of a command line, as the program reads them: what is wrong with them, for people.

    tools/words.py reason LINE WORD..

prints the reason of the program's line LINE for these words, where it is that they are no command line, or that a file was not read.
"""
import os
import re
import stat
import sys

NO_WORDS = "cif: not a command line"
# How many words each command takes behind it, without options, and these in words. The first two are names of files.
TAKES = {
    "check": (1, "FILE"), "generate": (1, "FILE"), "replay": (2, "ST and ROWS"), "batch": (2, "ST and CASES"),
    "simulate": (2, "FILE and SCRIPT, or FILE and --first N"), "why": (3, "FILE, SCRIPT and EVENT"),
}
ROUNDS, FIRST = ("--unc", "--con"), "--first"
OPTIONS = (*ROUNDS, FIRST)
MOST_ROUNDS, MOST_STEPS = 10_000, 1_000_000
SEE = "cif --help lists the commands"


def distance(one, other):
    """How many letters are to be added, removed or changed to make one word the other."""
    row = list(range(len(other) + 1))
    for at, letter in enumerate(one, 1):
        before, row[0] = row[0], at
        for to, wanted in enumerate(other, 1):
            before, row[to] = row[to], min(row[to] + 1, row[to - 1] + 1, before + (letter != wanted))
    return row[-1]


def command_fault(word):
    """Why a word is no command."""
    if word in ("--places", "--proved", "-o"):
        return f"{word} stands once before the command"
    if word.split("=")[0] in OPTIONS:
        return "options stand after FILE"
    names, given = [*TAKES, "explain"], word.lower()
    near = [it for it in names if len(given) > 2 and it.startswith(given) or abs(len(given) - len(it)) <= 2 and distance(given, it) <= 2]
    return f"did you mean {near[0]}?" if near else f"{word} is no command: {SEE}"


def options_fault(words):
    """Why words are no options of `generate`."""
    seen = set()
    while words:
        option, *words = words
        if option.split("=")[0] in ROUNDS and "=" in option:
            return f"write {option.replace('=', ' ', 1)}"
        if option not in ROUNDS:
            return script_word(option) or f"{option} is no option of generate: it has --unc N and --con N"
        if option in seen:
            return f"{option} stands twice"
        seen.add(option)
        number, *words = words or [""]
        if not re.fullmatch("[1-9][0-9]{0,4}", number) or int(number) > MOST_ROUNDS:
            return f"{option} takes a number from 1 to {MOST_ROUNDS}"
    return None


def script_word(word):
    """Why a word of the script stands in the wrong place."""
    return f"{word} stands before the command" if word in ("--places", "--proved", "-o") else None


def steps_fault(words):
    """Why the words behind `simulate FILE --first` are no number of steps."""
    if not words or not re.fullmatch("0|[1-9][0-9]{0,6}", words[0]) or int(words[0]) > MOST_STEPS:
        return f"{FIRST} takes a number from 0 to {MOST_STEPS}"
    return more_fault("simulate", words[1:])


def more_fault(command, words):
    """Why these words do not stand behind a command and what it takes."""
    if not words:
        return None
    if command == "generate":
        return options_fault(words)
    if command == "simulate" and words[0].split("=")[0] == FIRST:
        return f"{FIRST} N stands in the place of SCRIPT"
    if words[0].startswith("--"):
        options = f"no option but {FIRST} N" if command == "simulate" else "no options"
        return script_word(words[0]) or f"{command} has {options}"
    return script_word(words[0]) or f"{command} takes {TAKES[command][1]}, and nothing more"


def is_text(word):
    """Whether a word is UTF-8: Python has a surrogate for each byte that is not."""
    try:
        word.encode()
    except UnicodeEncodeError:
        return False
    return True


def wrong_words(words):
    """Why the words are no command line; `None` where they are one. Without words the reason is empty."""
    if not all(map(is_text, words)):
        return "a word is not UTF-8"
    if not words:
        return ""
    command, *words = words
    if command not in TAKES:
        return command_fault(command)
    count, takes = TAKES[command]
    if command == "simulate" and words[1:2] == [FIRST] and words[0]:
        return steps_fault(words[2:])
    taken, more = words[:count], words[count:]
    if len(taken) < count or "" in taken[:2]:
        return f"{command} takes {takes}"
    why = more_fault(command, more)
    if why and any(it.split("=")[0] in OPTIONS for it in taken):
        return "options stand after FILE" if command in ("generate", "simulate") else f"{command} has no options"
    return why


def unread(file):
    """Why a file cannot be read; `None` where it seems that it can."""
    try:
        kind = os.stat(file).st_mode
        if stat.S_ISDIR(kind):
            return "it is a folder"
        if stat.S_ISREG(kind):
            os.close(os.open(file, os.O_RDONLY))
    except (OSError, ValueError) as error:
        return (getattr(error, "strerror", None) or "no such name").lower()
    return None


def fault(words):
    """The status and the line of the program for these words, and the reason, where no program is needed to see them. Whether a second
    file is read depends on what the first one has, so it is not looked at."""
    why = wrong_words(words)
    if why is not None:
        return 2, NO_WORDS, why
    why = unread(words[1])
    if why:
        return 3, f"cif: cannot read {words[1]}", why
    return None


def reason(line, words):
    """The reason of a line of the program."""
    if line == NO_WORDS:
        return wrong_words(words)
    for file in words[1:]:
        if line == f"cif: cannot read {file}":
            return f"write {file.replace('=', ' ', 1)}" if file.startswith(f"{FIRST}=") else unread(file)
    return None


def main(line, *words):
    why = reason(line, words)
    if why:
        print("".join(letter if letter.isprintable() else "?" for letter in why))


if __name__ == "__main__":
    sys.stdout.reconfigure(errors="replace")
    main(*sys.argv[2:])
