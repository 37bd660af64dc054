"""Grammars as they are printed, and Earley's reader of them, which takes any grammar as it stands.

A production is `name = form | form`, where a form is a row of names, quoted words, ID and NUMBER, and of brackets: `[..]` for
what may be left out, `{..}` for any number of times, `(..)` for a choice. A line that begins with a blank goes on with the
production before it.
"""
import re


class Grammar:
    """Productions by the name of what they derive: each a list of forms, each form a tuple of (is_name, word)."""

    def __init__(self, text):
        self.forms = {}
        for production in re.split(r"\n(?=\S)", text.strip()):
            head, body = production.split(" = ", 1)
            self.words = re.findall(r'"[^"]*"|[A-Za-z]+|[\[\]{}()|]', body)
            self.head = head
            self.forms[head] = self.choice()
        self.empty = self.names_of_nothing()
        self.least = self.least_sizes()
        self.tokens = sorted({word for forms in self.forms.values() for form in forms
                              for is_name, word in form if not is_name})

    def choice(self):
        forms = [self.row()]
        while self.words and self.words[0] == "|":
            self.words.pop(0)
            forms.append(self.row())
        return forms

    def row(self):
        form = []
        while self.words and self.words[0] not in ("|", "]", ")", "}"):
            word = self.words.pop(0)
            if word in ("[", "(", "{"):
                form.append((True, self.inner(word)))
            elif word[0] == '"':
                form.append((False, word[1:-1]))
            else:
                form.append((word not in ("ID", "NUMBER"), word))
        return tuple(form)

    def inner(self, bracket):
        """The name of what stands in brackets, which gets one of its own."""
        forms = self.choice()
        self.words.pop(0)
        name = "%s#%d" % (self.head, len(self.forms))
        self.forms[name] = None
        if bracket == "[":
            forms = [()] + forms
        elif bracket == "{":
            forms = [()] + [((True, name),) + form for form in forms]
        self.forms[name] = forms
        return name

    def names_of_nothing(self):
        empty, grows = set(), True
        while grows:
            grows = False
            for name, forms in self.forms.items():
                derives_nothing = any(all(is_name and word in empty for is_name, word in form) for form in forms)
                if derives_nothing and name not in empty:
                    empty.add(name)
                    grows = True
        return empty

    def size(self, form):
        return sum(self.least[word] if is_name else 1 for is_name, word in form)

    def least_sizes(self):
        """The fewest tokens of each name."""
        self.least, shrinks = {name: 1000 for name in self.forms}, True
        while shrinks:
            shrinks = False
            for name, forms in self.forms.items():
                size = min(self.size(form) for form in forms)
                if size < self.least[name]:
                    self.least[name] = size
                    shrinks = True
        return self.least


def judged(grammar, start, tokens):
    """How many tokens can be gone on with, and whether all of them are what the name stands for."""
    rows = [{(start, form, 0, 0) for form in range(len(grammar.forms[start]))}]
    close(grammar, rows)
    for token in tokens:
        row = {(name, form, dot + 1, begun) for name, form, dot, begun in rows[-1]
               if grammar.forms[name][form][dot:dot + 1] == ((False, token),)}
        if not row:
            return len(rows) - 1, False
        rows.append(row)
        close(grammar, rows)
    is_whole = any(name == start and begun == 0 and dot == len(grammar.forms[name][form])
                   for name, form, dot, begun in rows[-1])
    return len(tokens), is_whole


def close(grammar, rows):
    """Adds to the last row what its items lead to before the next token."""
    last, row = len(rows) - 1, rows[-1]
    work = list(row)

    def add(item):
        if item not in row:
            row.add(item)
            work.append(item)

    while work:
        name, form, dot, begun = work.pop()
        symbols = grammar.forms[name][form]
        if dot == len(symbols):
            for other, other_form, other_dot, other_begun in list(rows[begun]):
                if grammar.forms[other][other_form][other_dot:other_dot + 1] == ((True, name),):
                    add((other, other_form, other_dot + 1, other_begun))
        elif symbols[dot][0]:
            inner = symbols[dot][1]
            for inner_form in range(len(grammar.forms[inner])):
                add((inner, inner_form, 0, last))
            if inner in grammar.empty:
                add((name, form, dot + 1, begun))


def derived(grammar, name, budget, choose, tokens):
    """Adds tokens that the name derives, about as many as the budget; what may be left out is mostly there."""
    forms = grammar.forms[name]
    least = min(grammar.size(form) for form in forms)
    within = [form for form in forms if grammar.size(form) <= max(budget, least)]
    form = max(choose.choices(within, k=2), key=grammar.size) if () in forms else choose.choice(within)
    left = max(0, budget - grammar.size(form))
    cuts = sorted(choose.randint(0, left) for is_name, _ in form if is_name)
    spent = 0
    for is_name, word in form:
        if is_name:
            share = left - spent if len(cuts) == 1 else cuts[0] - spent
            spent += share
            cuts.pop(0)
            derived(grammar, word, grammar.least[word] + share, choose, tokens)
        else:
            tokens.append(word)


def changed(others, choose, tokens):
    """The tokens with one dropped, one of the others put in or in another's place, cut off from there on, two swapped, or a
    few doubled."""
    place, way = choose.randint(0, len(tokens)), choose.randint(0, 5)
    other = choose.choice(others)
    if way == 0:
        return tokens[:place] + tokens[place + 1:]
    if way == 1:
        return tokens[:place] + [other] + tokens[place:]
    if way == 2:
        return tokens[:place] + [other] + tokens[place + 1:]
    if way == 3:
        return tokens[:place]
    if way == 4:
        return tokens[:place] + tokens[place + 1:place + 2] + tokens[place:place + 1] + tokens[place + 2:]
    return tokens[:place + choose.randint(1, 3)] + tokens[place:]
