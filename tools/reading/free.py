"""The names that a definition does not bind itself: its fields, its arguments, and what `let`, `λ` and `←` name
are its own."""
import re

# A part of a value, as `.name` or `.0`, is one token and no citation.
TOKEN = re.compile(r"(?<=[\w')])\.[A-Za-z_0-9][\w']*|[A-Za-z_][\w']*(?:-\w+)*|\d+|\n *|\.|[(){};=:←λ]|[^\s\w.(){};=:]+")
NAME = re.compile(r"[a-z_][\w']*(?:-\w+)*\Z")
OPEN, CLOSED = '({', ')}'


def is_name(token):
    return NAME.match(token) is not None and token not in ('let', 'in', 'if', 'then', 'else', 'do', 'record', 'elim')


def clauses(code):
    """A block by its parts: signatures and clauses begin at the indentation of the first line or before it."""
    lines = [line for line in code.split('\n') if line.strip()]
    if not lines:
        return
    first = len(lines[0]) - len(lines[0].lstrip())
    part = []
    for line in lines:
        if part and len(line) - len(line.lstrip()) <= first:
            yield '\n'.join(part)
            part = []
        part.append(line)
    yield '\n'.join(part)


class Scopes:
    """The names that are bound at a place of a clause, each by the depth of its group."""

    def __init__(self, names):
        self.depth = 0
        self.bound = [(name, -1) for name in names]

    def bind(self, names):
        self.bound += [(name, self.depth) for name in names]

    def open(self):
        self.depth += 1

    def close(self):
        self.depth -= 1
        self.bound = [(name, depth) for name, depth in self.bound if depth <= self.depth]

    def has(self, name):
        return any(name == own for own, _ in self.bound)


def head(tokens):
    """How many tokens stand before the first = of a clause that is in no group, and before its first :, if any does."""
    depth = 0
    for number, token in enumerate(tokens):
        depth += (token in OPEN) - (token in CLOSED)
        if depth == 0 and token in '=:':
            return number, token
    return len(tokens), ''


def binders(tokens):
    """The names of a signature or a record's head: those before a : in a group."""
    names, run = set(), []
    for token in tokens:
        if is_name(token):
            run.append(token)
        else:
            if token == ':':
                names.update(run)
            run = []
    return names


def until(tokens, start, ends):
    """The names from a token on up to one that ends them, and the number of that token."""
    number = start
    while number < len(tokens) and tokens[number] not in ends:
        number += 1
    return [token for token in tokens[start:number] if is_name(token)], number


def free_in_body(tokens, own):
    """The names of the right side of a clause that are not bound where they stand."""
    scopes, lets, later = Scopes(own), [], []
    number = 0
    while number < len(tokens):
        token = tokens[number]
        before, after = tokens[number - 1] if number else '', tokens[number + 1] if number + 1 < len(tokens) else ''
        if token in OPEN:
            scopes.open()
        elif token in CLOSED:
            scopes.close()
        elif token == 'λ':
            names, number = until(tokens, number + 1, ('.',))
            scopes.bind(names)
        elif token == 'let':
            lets.append(until(tokens, number + 1, ('=', ':'))[0])
            number = until(tokens, number + 1, ('=', ':'))[1]
        elif token == 'in' and lets:
            scopes.bind(lets.pop())
        elif token.startswith('\n'):
            names, arrow = until(tokens, number + 1, ('←', '='))
            for indent, kept in [step for step in later if step[0] >= len(token)]:
                scopes.bind(kept)
                later.remove((indent, kept))
            if arrow < len(tokens) and tokens[arrow] == '←' and not any(t.startswith('\n') for t in tokens[number + 1:arrow]):
                later.append((len(token), names))
                number = arrow
        elif NAME.match(token) or token[0].isalpha():
            label = before in ('{', ';') or before.startswith('\n')
            if not (label and after == '=') and not scopes.has(token):
                yield token
        number += 1


def free(code):
    """The names that a block does not bind."""
    parts = list(clauses(code))
    fields = set()
    for part in parts:
        tokens = TOKEN.findall(part)
        number, sign = head(tokens)
        if sign == ':' or part.lstrip().startswith(('pub record', 'pub data', 'module')):
            own = binders(tokens) - {tokens[number - 1]} if number else set()
            if part.lstrip().startswith(('pub record', 'module')):
                yield from record_names(part, fields)
                continue
            yield from (token for token in tokens if token[0].isalpha() and token not in own)
        elif sign == '=':
            own = {token for token in tokens[1:number] if is_name(token)}
            yield from (token for token in tokens[:number] if token[0].isalpha() and token not in own)
            yield from free_in_body(tokens[number + 1:], own)
        else:
            yield from (token for token in tokens if token[0].isalpha())


def record_names(part, fields):
    """The names in the types of a record's fields, each without the fields before it."""
    lines = part.split('\n')
    own = binders(TOKEN.findall(lines[0]))
    for line in lines:
        found = re.match(r' +pub (\S+) : ', line)
        tokens = TOKEN.findall(line[found.end():] if found else line)
        bound = own | fields | binders(tokens)
        yield from (token for token in tokens if token[0].isalpha() and token not in bound)
        if found:
            fields.add(found.group(1))
