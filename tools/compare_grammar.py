#!/usr/bin/env python3
"""Compares what the program reads with an independent reader of the two grammars, on random texts.

    tools/compare_grammar.py PROGRAM [TEXTS [SEED]]

`check` reads a CIF source (CIF 3 language reference, "Syntax"), and `replay` a Structured Text program (IEC 61131-3). The other
reader cuts the text by rules of its own. It knows where no token begins, which numbers are too big and which comment is open, of
which one is told; which tokens are a text of the grammar; and else the first token with which those before it can't be gone on: the
place that a refusal tells. Compared are the refusal's number and place, with the status and the whole line. A text counts as read
where the program answers it, or tells one of the refusals that come after reading; every other end, a crash too, is a difference.
Nesting is not bounded here, since the texts are too short for that. The status is 1 where the two differ.
"""
import os
import random
import re
import subprocess
import sys
import tempfile
from collections import namedtuple

from earley import Grammar, changed, derived, judged
from plain_tokens import lexed

# An automaton has at most one `alphabet` and one `monitor`, and a location without a name is its only one: `body` and
# `locations` say so by their forms.
CIF = """
spec = {item}
item = decl | comp | def | inst
comp = "group" ID ":" {item} "end" | auto ID ":" body "end"
def = "group" "def" ID params ":" {item} "end" | auto "def" ID params ":" body "end"
auto = "automaton" | kind ["automaton"]
kind = "plant" | "requirement" | "supervisor"
inst = ID ":" name "(" [exprs] ")" ";"
params = "(" [param {";" param}] ")"
param = evword [chan] ids | "alg" type ids | "location" ids
evword = "event" | "controllable" | "uncontrollable"
ids = ID {"," ID}
names = name {"," name}
exprs = expr {"," expr}
name = ["."] ID {"." ID}
type = "bool" | "int" | "int" "[" expr ".." expr "]" | name
chan = type | "void"
decl = "type" ID "=" type {"," ID "=" type} ";" | "enum" ID "=" ids ";" | evword [chan] ids ";"
     | "const" type ID "=" expr {"," ID "=" expr} ";" | "alg" type ID ["=" expr] {"," ID ["=" expr]} ";"
     | "input" type ids ";" | "equation" ID "=" expr ";" | "invariant" ninv {"," ninv} ";"
     | kind "invariant" ninv {"," ninv} ";" | kind inv {"," inv} ";" | "marked" exprs ";"
disc = "disc" type ID ["=" expr] {"," ID ["=" expr]} ";"
ninv = [ID ":"] inv
inv = expr | events "needs" expr | expr "disables" events
events = name | "{" names "}"
alphabet = "alphabet" [names] ";"
monitor = "monitor" [names] ";"
piece = decl | disc
body = {piece} locations | {piece} alphabet {piece} locations | {piece} monitor {piece} locations
     | {piece} alphabet {piece} monitor {piece} locations | {piece} monitor {piece} alphabet {piece} locations
locations = "location" elements | "location" ID elements {"location" ID elements}
elements = ";" | ":" {elem}
elem = "initial" ["true"] ";" | "marked" [exprs] ";" | "equation" ID "=" expr ";" | edge
edge = "edge" evuse {"," evuse} ["when" exprs] ["do" upds] ["goto" ID] ";"
evuse = name | name "!" [expr] | name "?"
upds = upd {"," upd}
upd = name ":=" expr | "if" exprs ":" upds {"elif" exprs ":" upds} ["else" upds] "end"
expr = or [("=>" | "<=>") or]
or = and {"or" and}
and = cmp {"and" cmp}
cmp = sum [("=" | "!=" | "<" | "<=" | ">" | ">=") sum]
sum = prod {("+" | "-") prod}
prod = un {("*" | "div" | "mod") un}
un = ("-" | "+" | "not") un | prim
prim = "true" | "false" | NUMBER | name | "?" | "(" expr ")" | "abs" "(" expr ")"
     | ("min" | "max") "(" expr "," expr ")" | "if" exprs ":" expr {"elif" exprs ":" expr} "else" expr "end"
"""

# What random sources are made of. By the second form an automaton may have too much.
CIF_PARTS = """
part = item | "plant" ID ":" {piece | alphabet | monitor} {"location" [ID] elements} "end"
     | comp | def | decl | inst | "invariant" ninv ";" | "plant" ID ":" body "end"
     | "plant" ID ":" "location" ":" elem "end" | "plant" ID ":" "location" ":" "edge" ID "do" upds ";" "end"
     | "plant" ID ":" "location" ":" "edge" ID "do" "if" exprs ":" upds "elif" exprs ":" upds "else" upds "end" ";" "end"
     | "const" "int" ID "=" expr ";" | "const" "bool" ID "=" sum "=" sum "and" "not" un "or" cmp "=>" cmp ";"
     | "const" "int" ID "=" "if" exprs ":" expr "elif" exprs ":" expr "else" expr "end" ";"
     | "const" "int" ID "=" "min" "(" expr "," expr ")" "+" "abs" "(" expr ")" "mod" un ";"
"""

ST = """
program = "PROGRAM" ID {block} {stmt} "END_PROGRAM"
block = ("VAR" ["CONSTANT"] | "VAR_INPUT" | "VAR_OUTPUT") {vardecl} "END_VAR"
vardecl = ID ":" sttype [":=" literal] ";"
sttype = "BOOL" | "LINT" ["(" signed ".." signed ")"]
signed = ["-"] NUMBER
literal = "TRUE" | "FALSE" | signed
stmt = ID ":=" e ";" | "IF" e "THEN" {stmt} {"ELSIF" e "THEN" {stmt}} ["ELSE" {stmt}] "END_IF" ";"
     | "WHILE" e "DO" {stmt} "END_WHILE" ";"
e = x {"OR" x}
x = a {"XOR" a}
a = q {("AND" | "&") q}
q = o [("=" | "<>") o]
o = s [("<" | ">" | "<=" | ">=") s]
s = p {("+" | "-") p}
p = u {("*" | "/" | "MOD") u}
u = ("-" | "NOT") u | prim
prim = "TRUE" | "FALSE" | NUMBER | ID | "(" e ")" | "ABS" "(" e ")" | ("MIN" | "MAX") "(" e "," e ")"
     | "SEL" "(" e "," e "," e ")"
"""

# What random programs are made of: besides whole ones, those that have blocks alone, one statement, or one expression of
# operands of some level.
ST_PARTS = """
text = program | "PROGRAM" ID {block} "END_PROGRAM" | "PROGRAM" ID stmt "END_PROGRAM"
     | "PROGRAM" ID ID ":=" operands ";" "END_PROGRAM"
operands = e | x "OR" x | a "XOR" a | q ("AND" | "&") q | o ("=" | "<>") o | s ("<" | ">" | "<=" | ">=") s
     | p ("+" | "-") p | u ("*" | "/" | "MOD") u | ("-" | "NOT") u | "(" e ")" | "ABS" "(" e ")"
     | ("MIN" | "MAX") "(" e "," e ")" | "SEL" "(" e "," e "," e ")"
"""

# Words of Structured Text that are reserved without use.
ST_OTHERS = ["DINT", "AT", "CASE", "OF", "END_CASE", "FOR", "TO", "BY", "END_FOR", "REPEAT", "UNTIL", "END_REPEAT", "EXIT", "RETURN",
             "FUNCTION", "FUNCTION_BLOCK", "ARRAY", "STRUCT", "STRING", "REAL", "LREAL", "TIME", "TYPE"]
# Words that are neither reserved nor identifiers.
ST_ODD_WORDS = ["a__b", "x_"]

ST_GRAMMAR = Grammar(ST + ST_PARTS.lstrip())
ST_WORDS = {word for word in ST_GRAMMAR.tokens if word[0].isalpha()} | set(ST_OTHERS)
ST_PIECE = re.compile(r"""(?P<blank>[ \t\r\n]+|\(\*.*?\*\))|(?P<word>[A-Za-z_][A-Za-z0-9_]*)|(?P<number>[0-9]+)
    |(?P<sign>\.\.|:=|<>|<=|>=|\((?!\*)|[;:),+*/=<>&-])""", re.S | re.X)
ST_GREATEST = 9223372036854775807

# What stands in texts besides tokens and blanks: bytes with which nothing begins, numbers at and above the limit, comments that
# stay open, and what only looks like these.
CIF_ODD = ["#", "&", "/", "$", "$1", "\\", "~", "\x00", "\x0b", "\x80", "\xff", "2147483647", "2147483648", "99999999999999999999",
           "01", "/*", "/*/", "/* /* ", "// \xff#\n", "/* \xff// */", "/**/", "/*/ */", "\t\r"]
ST_ODD = ["#", "%", ".", "$", "{", "!", "\\", "\x00", "\x0b", "\x80", "\xff", "9223372036854775807", "9223372036854775808",
          "00009223372036854775808", "18446744073709551616", "(*", "(*)", "(* (* ", "(* \xff# *)", "(**)", "(*) *)", "(* (* *)", "\t\r"]


def cut_source(text):
    """The tokens of a source, each with its place, and the refusals of what is none."""
    numbers = {"BadByte": 1, "NumberTooBig": 2, "OpenComment": 3}
    tokens, due = lexed(text)
    return [(token.kind, token.at) for token in tokens], {(numbers[rule], place) for rule, (_, place) in due}


def st_kind(word):
    """What a word stands for: a reserved one for itself in capitals, and another for an identifier where it is one."""
    if word.upper() in ST_WORDS:
        return word.upper()
    return "no identifier" if "__" in word or word.endswith("_") else "ID"


def cut_program(text):
    """The tokens of a program, each with its place, and the refusals of what is none."""
    tokens, due, at = [], set(), 0
    while at < len(text):
        piece = ST_PIECE.match(text, at)
        if piece is None:
            due.add((33 if text.startswith("(*", at) else 31, at))
            break
        word = piece.group()
        kinds = {"word": st_kind(word), "number": "NUMBER", "sign": word}
        if piece.lastgroup in kinds:
            tokens.append((kinds[piece.lastgroup], at))
        if piece.lastgroup == "number" and int(word) > ST_GREATEST:
            due.add((32, at))
        at = piece.end()
    return tokens, due


# A language: its grammar, the name of its texts, the name of what random texts are made of and how many of these there are,
# tokens that have no place in it, the cases that words may have, how identifiers, numbers and blanks are spelled, and what else
# stands in its texts; how a text is cut; the command that reads it; the status and the line with which it refuses to, the number
# where the tokens are no text, and how else it ends: statuses with what is written and told then.
Language = namedtuple("Language", "grammar start part most others cases identifiers numbers blanks odd cut command status refusal "
                      "not_read ends")

LANGUAGES = [
    Language(
        Grammar(CIF + CIF_PARTS.lstrip()), "spec", "part", 3, ["cont", "tau"], [str],
        ["a", "b", "e", "x", "T", "$plant", "_k1"], ["0", "1", "27", "2147483647"], [" ", "\n", " /* c */ ", " // c\n"], CIF_ODD,
        cut_source, ["check", "text"], 7, r"cif: text: (1 BadByte|2 NumberTooBig|3 OpenComment|4 NotRead) at (\d+)\n", 4,
        [(0, r"ok\n", ""), (7, "", r"cif: text: ([5-9]|1\d|2[0-4]|30) [A-Z]\w+( .+)?\n")]),
    Language(
        ST_GRAMMAR, "program", "text", 1, ST_OTHERS + ST_ODD_WORDS, [str, str, str.lower, str.title],
        ["a", "B", "x1", "_y", "MODE", "vars"], ["0", "1", "007", "9223372036854775807"], [" ", "\n", " (* c *) "], ST_ODD,
        cut_program, ["replay", "text", "rows"], 9,
        r"cif: text: (31 StBadByte|32 StNumberTooBig|33 StOpenComment|34 StNotRead) at (\d+)\n", 34,
        [(0, r"scan(,\w+)*\n", ""), (9, "", r"cif: text: 3[5-9] [A-Z]\w+ .+\n"), (10, "", r"cif: rows: 44 Header column \d+\n")]),
]


def made(language, choose):
    """Tokens of some parts, often with a change or two."""
    tokens = []
    for _ in range(choose.randint(1, language.most)):
        derived(language.grammar, language.part, choose.randint(4, 70), choose, tokens)
    for _ in range(choose.choice([0, 0, 1, 1, 1, 2])):
        tokens = changed(language.grammar.tokens + language.others, choose, tokens)
    return tokens


def joined(blank, is_dense, words):
    """The words with blanks between, in a dense text only where both are words or numbers."""
    text = ""
    for word in words:
        needs_none = is_dense and not (text[-1:].isalnum() and (word[0].isalnum() or word[0] == "_"))
        text += word if needs_none or not text else blank + word
    return text + ("" if is_dense else blank)


def spelled(language, choose, tokens):
    """A text of the tokens, sometimes with up to three odd pieces between."""
    kinds = {"ID": language.identifiers, "NUMBER": language.numbers}
    words = [choose.choice(kinds.get(token) or [case(token) for case in language.cases]) for token in tokens]
    for _ in range(choose.choice([0, 0, 0, 0, 0, 0, 0, 1, 2, 3])):
        words.insert(choose.randint(0, len(words)), choose.choice(language.odd))
    return joined(choose.choice(language.blanks), choose.randint(0, 3) == 0, words)


def wanted(language, text):
    """The ends that a text may have: it is read, or one of these numbers and places is told."""
    tokens, due = language.cut(text)
    if due:
        return due
    taken, is_whole = judged(language.grammar, language.start, [kind for kind, _ in tokens])
    places = [at for _, at in tokens] + [len(text)]
    return {"read"} if is_whole else {(language.not_read, places[taken])}


def told(program, language, folder, text):
    """What the program does with the text: it is read, or a number and a place is told. Any other end stands for itself."""
    with open(os.path.join(folder, "text"), "wb") as file:
        file.write(text.encode("latin-1"))
    run = subprocess.run([program] + language.command, cwd=folder, capture_output=True, encoding="latin-1")
    refusal = re.fullmatch(language.refusal, run.stderr)
    if refusal and run.returncode == language.status and not run.stdout:
        return int(refusal.group(1).split()[0]), int(refusal.group(2))
    is_read = any(run.returncode == status and re.fullmatch(written, run.stdout) and re.fullmatch(line, run.stderr)
                  for status, written, line in language.ends)
    return "read" if is_read else (run.returncode, run.stdout, run.stderr)


def differences(program, language, texts, choose, folder):
    """How many texts the two judge differently, after a line of its own for each; and how many are read, and how many not cut."""
    differ = read = uncut = 0
    for _ in range(texts):
        text = spelled(language, choose, made(language, choose))
        ends = wanted(language, text)
        given = told(program, language, folder, text)
        read += "read" in ends
        uncut += any(end[0] < language.not_read for end in ends - {"read"})
        if given not in ends:
            differ += 1
            print("%r: wanted one of %s, given %s" % (text, sorted(ends, key=str), given))
    return differ, read, uncut


def main(program, texts=2000, seed=1):
    status = 0
    with tempfile.TemporaryDirectory() as folder:
        with open(os.path.join(folder, "rows"), "w") as file:
            file.write("scan\n")
        for language in LANGUAGES:
            differ, read, uncut = differences(os.path.abspath(program), language, texts, random.Random(seed), folder)
            print("%s: %d texts, %d of them read and %d not cut into tokens: %d differences"
                  % (language.command[0], texts, read, uncut, differ))
            status |= differ > 0
    return status


if __name__ == "__main__":
    sys.exit(main(sys.argv[1], *map(int, sys.argv[2:])))
