"""Reads the functions of Rattle files, with the names that stand in their bodies."""
import re
from dataclasses import dataclass, field
from pathlib import Path

COMMENTS = r'//[^\n]*|/\*.*?\*/'
STRINGS = r'b?r#".*?"#|b?"(?:\\.|[^"\\])*"|b?\'(?:\\.[^\']*|[^\'\\])\''
SKIPPED = re.compile(f'{COMMENTS}|{STRINGS}', re.S)
TOKEN = re.compile(r'[A-Za-z_]\w*|::|->|=>|\'[a-z_]+|\S')
OPENING, CLOSING = tuple('{(['), tuple('})]')
ITEMS = ('impl', 'trait', 'mod', 'fn', 'use', 'macro_rules')


@dataclass(eq=False)
class Function:
    """A function or a macro."""
    crate: str
    file: Path
    name: str
    owner: str  # the type of its impl, or its trait; '' where it is free
    trait: str  # its trait, or that of its impl; '' where there is none
    public: bool
    exported: bool  # to C
    body: list = field(repr=False)

    def label(self):
        """Return the name with the type's."""
        return f'{self.owner}::{self.name}' if self.owner else self.name


@dataclass
class Source:
    """What a file has: functions, names that it imports, and names that it makes public."""
    functions: list = field(default_factory=list)
    imports: dict = field(default_factory=dict)  # name here: (first part of the path, name there)
    handed_on: set = field(default_factory=set)
    modules: set = field(default_factory=set)  # public ones


def end_of(tokens, at):
    """Return the place of the bracket that closes the one at `at`."""
    deep = 0
    for k in range(at, len(tokens)):
        deep += (tokens[k] in OPENING) - (tokens[k] in CLOSING)
        if deep == 0:
            return k
    return len(tokens) - 1


def next_of(tokens, at, wanted):
    """Return the first place from `at` on of a wanted token that isn't in brackets."""
    while at < len(tokens) and tokens[at] not in wanted:
        at = end_of(tokens, at) + 1 if tokens[at] in OPENING else at + 1
    return at


def code_of(text):
    """Return the tokens of a file: no comment, string, attribute, clause or ghost item."""
    tokens = TOKEN.findall(SKIPPED.sub(' ', text))
    kept, k = [], 0
    while k < len(tokens):
        token = tokens[k]
        if token == 'ghost':
            k = next_of(tokens, k, (';', ',', '}'))
            k -= tokens[k] == '}'
        elif token in ('requires', 'ensures'):
            k = end_of(tokens, next_of(tokens, k, '{'))
        elif token == '#' and tokens[k + 1] in '![':
            k = end_of(tokens, next_of(tokens, k, '['))
        else:
            kept.append(token)
        k += 1
    return kept


def leaves_of(tokens, first=''):
    """Return the names that a path of a `use` brings: (name here, first part, name there)."""
    path = []
    for k, token in enumerate(tokens):
        if token == '{':
            groups = split_at_commas(tokens[k + 1:end_of(tokens, k)])
            return [leaf for group in groups for leaf in leaves_of(group, first or path[0])]
        if token not in ('::', 'as'):
            path.append(token)
    there = path[-2] if 'as' in tokens else path[-1]
    return [(path[-1], first or path[0], there)]


def split_at_commas(tokens):
    """Return the groups between commas that aren't in brackets."""
    groups, deep = [[]], 0
    for token in tokens:
        deep += (token in OPENING) - (token in CLOSING)
        if token == ',' and deep == 0:
            groups.append([])
        else:
            groups[-1].append(token)
    return [group for group in groups if group]


def plain_name(tokens):
    """Return the last name of a type's path, without its arguments."""
    name, deep = '', 0
    for token in tokens:
        deep += (token == '<') - (token == '>')
        if deep == 0 and re.match(r'[A-Za-z_]', token) and token not in ('dyn', 'mut', 'where'):
            name = token
        if token == 'where':
            return name
    return name


def without_parameters(tokens):
    """Return the tokens behind the parameters in `<` and `>` that they begin with."""
    deep = 0
    for k, token in enumerate(tokens):
        deep += (token == '<') - (token == '>')
        if deep == 0:
            return tokens[k + 1:] if token == '>' else tokens
    return tokens


def owner_of(head):
    """Return the type and the trait of an `impl` or a `trait`, by the tokens before its brace."""
    rest = without_parameters(head[1:])
    if head[0] == 'trait':
        return rest[0], rest[0]
    if 'for' in rest:
        at = rest.index('for')
        return plain_name(rest[at + 1:]), plain_name(rest[:at])
    return plain_name(rest), ''


class Reader:
    """Goes through the items of one file."""

    def __init__(self, crate, file):
        self.crate, self.file, self.source = crate, file, Source()
        self.tokens = code_of(file.read_text())

    def read(self, at, end, owner=('', '')):
        """Read the items between two places."""
        public = exported = False
        while at < end:
            token = self.tokens[at]
            if token in ITEMS:
                at = self.item(at, owner, public, exported)
                public = exported = False
            elif token in OPENING:
                at = end_of(self.tokens, at)
            elif token == 'pub':
                public = self.tokens[at + 1] != '('
            elif token == 'extern':
                exported = True
            elif token in (';', '='):
                public = exported = False
            at += 1
        return self.source

    def item(self, at, owner, public, exported):
        """Read one item; return the place of its last token."""
        token, tokens = self.tokens[at], self.tokens
        if token == 'use':
            return self.use(at, public)
        brace = next_of(tokens, at, ('{', ';'))
        if tokens[brace] == ';':
            if token == 'mod' and public:
                self.source.modules.add(tokens[at + 1])
            if token == 'fn':
                self.add(tokens[at + 1], owner, public, exported, [])
            return brace
        last = end_of(tokens, brace)
        if token == 'mod':
            self.read(brace + 1, last)
        elif token in ('impl', 'trait'):
            self.read(brace + 1, last, owner_of(tokens[at:brace]))
        else:
            name = tokens[at + 1] if token == 'fn' else tokens[at + 2]
            self.add(name, owner, public, exported, tokens[at + 2:last])
        return last

    def add(self, name, owner, public, exported, body):
        """Add a function."""
        function = Function(self.crate, self.file, name, *owner, public, exported, body)
        self.source.functions.append(function)

    def use(self, at, public):
        """Read a `use`; return the place of its semicolon."""
        last = next_of(self.tokens, at, ';')
        for name, first, there in leaves_of(self.tokens[at + 1:last]):
            self.source.imports[name] = (first, there)
            if public:
                self.source.handed_on.add(name)
        return last


def read_file(crate, file):
    """Return what a file has."""
    reader = Reader(crate, file)
    return reader.read(0, len(reader.tokens))
