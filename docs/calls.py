"""Finds, by name, which functions of the crates each program runs.

The type before a dot isn't worked out: a method's name stands for each method of that name in the
caller's crate and its dependencies. So a call that is found may be another's of its name, and one
that isn't found is in no program.
"""
import re
from collections import defaultdict
from pathlib import Path

from rattle import read_file

TOP = Path(__file__).resolve().parent.parent
NAME = re.compile(r'[A-Za-z_]\w*$')


def listed_crates():
    """Return for each crate, in order, whether it is a static library, and its dependencies."""
    listed = {}
    for line in (TOP / 'crates.txt').read_text().splitlines():
        if line and not line.startswith('#'):
            head, deps = line.split(':')
            listed[head.split()[0]] = ('staticlib' in head.split(), deps.split())
    return {crate: (static, [dep for dep in deps if dep in listed])
            for crate, (static, deps) in listed.items()}


class Crates:
    """All functions of all crates, by name, and what is public."""

    def __init__(self):
        self.listed = listed_crates()
        self.sources = {}  # by file
        self.free, self.owned = defaultdict(list), defaultdict(list)  # functions by name
        self.known = {}  # by crate: itself and all that it depends on
        for crate in self.listed:
            self.read_crate(crate)

    def read_crate(self, crate):
        """Read the files of a crate."""
        for file in sorted((TOP / 'crates' / crate / 'src').glob('**/*.rt')):
            source = self.sources[file] = read_file(crate, file)
            for function in source.functions:
                (self.owned if function.owner else self.free)[function.name].append(function)

    def crates_of(self, crate):
        """Return a crate and all that it depends on."""
        if crate not in self.known:
            deps = self.listed[crate][1]
            self.known[crate] = {crate}.union(*(self.crates_of(dep) for dep in deps))
        return self.known[crate]

    def is_program(self, crate):
        """Return whether a crate is a program."""
        return (TOP / 'crates' / crate / 'src/main.rt').exists()

    def of_crate(self, crate):
        """Return the functions of a crate."""
        folder = TOP / 'crates' / crate / 'src'
        return [function for file, source in self.sources.items() if folder in file.parents
                for function in source.functions]

    def public(self, crate):
        """Return the public functions of a library, and the methods of its public types."""
        folder = TOP / 'crates' / crate / 'src'
        root = folder / 'lib.rt'
        files = [root, *(folder / f'{name}.rt' for name in self.sources[root].modules)]
        known = [self.sources[file] for file in files if file in self.sources]
        names = set().union(*(source.handed_on for source in known))
        return [function for function in self.of_crate(crate)
                if self.is_public(function, names, files)]

    @staticmethod
    def is_public(function, names, files):
        """Return whether a function is public where these names and files are."""
        if function.trait and function.trait == function.owner:
            return function.owner in names
        name = function.owner or function.name
        return function.public and (function.file in files or name in names)


class Names:
    """The functions that the names in a function's body stand for."""

    def __init__(self, crates, function, linked):
        self.crates, self.function, self.linked = crates, function, linked
        self.imports = crates.sources[function.file].imports
        self.known = crates.crates_of(function.crate)

    def called(self, methods=True):
        """Return the functions that the body names; `methods` says whether behind a dot too."""
        found, body = set(), self.function.body
        for k, token in enumerate(body):
            if NAME.match(token) and (methods or not k or body[k - 1] != '.'):
                found.update(self.at(body, k))
        return found

    def at(self, body, k):
        """Return the functions that the name at a place stands for."""
        before = body[k - 1] if k else ''
        if before == '.':
            return self.methods(body[k])
        if before == '::':
            return self.at_path(body[k], self.qualifier(body, k - 2))
        return self.free_one(body[k])

    @staticmethod
    def qualifier(body, k):
        """Return the name before a `::`, also before arguments in `<` and `>`."""
        deep = 0
        while k >= 0:
            deep += (body[k] == '>') - (body[k] == '<')
            if deep == 0 and NAME.match(body[k]):
                return body[k]
            k -= 1
        return ''

    def at_path(self, name, before):
        """Return the functions of a name behind a type, a trait, a parameter or a module."""
        if before == 'Self':
            before = self.function.owner
        if before[:1].isupper():
            there = self.imports.get(before, ('', before))[1]
            owned = self.methods(name)
            exact = [one for one in owned if there in (one.owner, one.trait)]
            return exact or ([] if self.is_type(there) else owned)
        free = self.within(self.crates.free[name], self.known)
        return [one for one in free if before in (one.crate, one.file.stem)] or free

    def methods(self, name):
        """Return the methods of a name that the caller knows, and those of other impls."""
        return [one for one in self.crates.owned[name]
                if one.crate in (self.linked if one.trait else self.known)]

    def is_type(self, name):
        """Return whether a name is longer than those of type parameters."""
        return len(name) > 1

    def free_one(self, name):
        """Return the free functions of a name that the file has or imports."""
        first, there = self.imports.get(name, ('', name))
        free = self.crates.free[there]
        if first in self.crates.listed:
            exact = [one for one in free if one.crate == first]
            return exact or self.within(free, self.crates.crates_of(first))
        if not first:
            return [one for one in free if one.file == self.function.file]
        own = [one for one in free if one.crate == self.function.crate]
        return own or self.within(free, self.known)

    @staticmethod
    def within(functions, crates):
        """Return the functions of these crates."""
        return [function for function in functions if function.crate in crates]


def implied(crates, linked):
    """Return methods that run without their name: those of traits of the standard library."""
    traits = {one.owner for functions in crates.owned.values() for one in functions
              if one.trait == one.owner}
    return [one for functions in crates.owned.values() for one in functions
            if one.crate in linked and one.trait and one.trait not in traits]


def reached_from(crates, roots, linked):
    """Return all functions that the roots run, in these crates."""
    left, found = [*roots, *implied(crates, linked)], set()
    while left:
        function = left.pop()
        if function not in found:
            found.add(function)
            left.extend(Names(crates, function, linked).called())
    return found


def run_by(crates, program):
    """Return all functions that a program runs."""
    roots = [one for one in crates.of_crate(program) if one.name == 'main' and not one.owner]
    return reached_from(crates, roots, crates.crates_of(program))


def named_by(crates, crate):
    """Return the functions that a crate names by a path, so none behind a dot."""
    linked = crates.crates_of(crate)
    return set().union(*(Names(crates, one, linked).called(methods=False)
                         for one in crates.of_crate(crate)))


def callers_of(crates):
    """Return for each library how many public calls it has, and how many each crate names."""
    named = {crate: named_by(crates, crate) for crate in crates.listed}
    found = {}
    for crate in crates.listed:
        public = set() if crates.is_program(crate) else set(crates.public(crate))
        if public:
            counts = {other: len(public & names) for other, names in named.items()}
            found[crate] = (len(public), {other: n for other, n in counts.items()
                                          if n and other != crate})
    return found
