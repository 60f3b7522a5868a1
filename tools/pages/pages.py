"""The pages of the repository, and what their names stand for. What is not asked for is not read."""
import os

import deciding
from computing import Scope, definition_call
from library import CONSTRUCTORS, LIBRARY
from reading import read_page
from syntax import Apply, Name, Unread, arrows
from values import Function, Later, Made, Stretch, as_bytes, force, numbers, stretch

CRATES = os.path.join(os.path.dirname(os.path.abspath(__file__)), '..', '..', 'crates')
# Of shorter lists nothing is kept
LEAST_KEPT = 16
MOST_KEPT = 40


def path_of(crate, name):
    return os.path.join(CRATES, crate, 'specs', *name.split('.')) + '.antt'


class Page:
    """A page, with the values of its definitions as far as they were asked for."""
    all = {}

    def __init__(self, crate, name):
        self.crate, self.name = crate, name
        self.title = f'{crate}/specs/{name.replace(".", "/")}.antt'
        with open(path_of(crate, name), encoding='utf8') as file:
            self.read = read_page(self.title, file.read())
        self.values = {}

    def fail(self, line, why):
        raise Unread(self.title, line, why)

    # What names stand for

    def imported(self, name):
        """The page of the repository that a name comes from, or None where it is not from one."""
        of = self.read.imports[name]
        return page(of.crate, of.page) if os.path.exists(path_of(of.crate, of.page)) else None

    def constructor(self, name, line):
        """The constructor that a name stands for, or None."""
        if any(name in data.constructors for data in self.read.data_types.values()):
            return name
        if name not in self.read.imports:
            return name if name in CONSTRUCTORS and name not in self.read.signatures else None
        of, there = self.read.imports[name], self.imported(name)
        if there is not None:
            return there.constructor(of.name, line)
        return of.name if of.name in CONSTRUCTORS or of.name[0].isupper() else None

    def aliased(self, alias, name, line):
        """What a name behind an alias stands for: that of a page, or a variant of a type that the code declares."""
        of = self.read.aliases[alias]
        if os.path.exists(path_of(of.crate, of.page)):
            return page(of.crate, of.page).value(name, line)
        if 'declared' not in of.page:
            self.fail(line, f'{alias} names no page and no variants')
        return Made(name)

    def value(self, name, line):
        if name not in self.values:
            self.values[name] = self.made_value(name, line)
        return self.values[name]

    def made_value(self, name, line):
        read = self.read
        if name in read.equations:
            return self.definition(name)
        if name in read.record_types:
            return deciding.claims(self, read.record_types[name])
        if name in read.imports:
            of, there = read.imports[name], self.imported(name)
            if there is not None:
                return there.value(of.name, line)
            if of.name in LIBRARY:
                return LIBRARY[of.name]
        tag = self.constructor(name, line)
        if tag is not None:
            return LIBRARY.get(tag, Made(tag))
        return self.fail(line, f'{name} is not known')

    def definition(self, name):
        equations = self.read.equations[name]
        scope, arity = Scope(self, name), len(equations[0].patterns)
        if any(len(equation.patterns) != arity for equation in equations):
            self.fail(equations[0].line, f'the equations of {name} have different counts of arguments')
        if arity == 0:
            return Later(lambda env: definition_call(equations, scope)(), ())
        function = Function(arity, None)

        def first(*arguments):
            call = definition_call(equations, scope)
            members = arrows(self.read.signatures[name].type)
            is_of_bytes = len(members) == 2 and is_numbers(members[0])
            function.call = kept(call, is_numbers(members[1])) if is_of_bytes else call
            return function.call(*arguments)
        function.call = first
        return function

    def is_byte(self, name):
        """A name stands for `byte` of the page cdf_format/Bytes."""
        if name in self.read.equations:
            return (self.crate, self.name) == ('cdf_format', 'Bytes')
        of = self.read.imports.get(name)
        return of is not None and (of.crate, of.page, of.name) == ('cdf_format', 'Bytes', 'byte')

    # What records of claims need to know of types

    def is_relation(self, name, line):
        """A name is of what holds or not: a record of claims, or a definition of a `Type 0` by its arguments."""
        read = self.read
        if name in read.record_types:
            return bool(read.record_types[name].parameters)
        if name in read.signatures:
            members = arrows(read.signatures[name].type)
            last = members[-1]
            return isinstance(last, Apply) and last.function == Name('Type', last.line) and len(members) > 1
        if name in read.imports:
            there = self.imported(name)
            if there is not None:
                return there.is_relation(read.imports[name].name, line)
            return name == 'All'
        if name in read.data_types:
            return False
        return self.fail(line, f'{name} is not known')


def is_numbers(of_type):
    """The type of lists of numbers."""
    return isinstance(of_type, Apply) and of_type.function == Name('List', of_type.line) and of_type.arguments == (
        Name('ℕ', of_type.arguments[0].line) if isinstance(of_type.arguments[0], Name) else None,)


def kept(call, gives_numbers):
    """What is computed of an image alone is kept by its bytes, for speed: its shape, its content, whether it is good.

    So it is of other lists of bytes, as those of a packed block. A list of numbers is kept as bytes where it can be.
    """
    found = {}

    def call_once(image):
        image = force(image)
        if type(image) is not Stretch or type(image.members) is not bytes:
            return call(image)
        key = image.members[image.start:] if image.start else image.members
        if len(key) < LEAST_KEPT:
            return call(image)
        if key not in found:
            if len(found) >= MOST_KEPT:
                found.clear()
            made = force(call(image))
            found[key] = stretch(as_bytes(numbers(made))) if gives_numbers else made
        return found[key]
    return call_once


def page(crate, name):
    if (crate, name) not in Page.all:
        Page.all[crate, name] = Page(crate, name)
    return Page.all[crate, name]


def value(crate, name, definition):
    return page(crate, name).value(definition, 0)
