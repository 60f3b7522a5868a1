"""The values that definitions give, and how they are forced, taken apart, compared and shown.

A number of ℕ is an int, a Bool a bool, a text a str, a pair a tuple, a record a dict by its fields. The empty list is
None; another is a Cell, or a Stretch, whose members stand in a sequence of Python. What is not asked for yet is Later.
"""


class Later:
    """A value that is computed once it is asked for."""
    __slots__ = ('code', 'scope', 'value')

    def __init__(self, code, scope):
        self.code, self.scope = code, scope


class Cell:
    __slots__ = ('first', 'rest')

    def __init__(self, first, rest):
        self.first, self.rest = first, rest


class Stretch:
    """The members of a sequence from a place on, of which there is one at least. The bytes of an image are `bytes`."""
    __slots__ = ('members', 'start')

    def __init__(self, members, start=0):
        self.members, self.start = members, start

    @property
    def first(self):
        return self.members[self.start]

    @property
    def rest(self):
        start = self.start + 1
        return Stretch(self.members, start) if start < len(self.members) else None


class Made:
    """What a constructor makes of its members."""
    __slots__ = ('tag', 'members')

    def __init__(self, tag, members=()):
        self.tag, self.members = tag, members


class Signed:
    """A number of ℤ."""
    __slots__ = ('value',)

    def __init__(self, value):
        self.value = value


class Function:
    """A function of so many arguments, of which it has some."""
    __slots__ = ('arity', 'call', 'held')

    def __init__(self, arity, call, held=()):
        self.arity, self.call, self.held = arity, call, held


def force(value):
    while type(value) is Later:
        if value.code is None:
            value = value.value
            continue
        made = force(value.code(value.scope))
        value.value, value.code, value.scope = made, None, None
        return made
    return value


def apply(function, arguments):
    """A function, or a constructor, with arguments; with too few of them it waits for more."""
    function = force(function)
    while True:
        if type(function) is Made:
            return Made(function.tag, function.members + tuple(arguments))
        held = function.held + tuple(arguments)
        if len(held) < function.arity:
            return Function(function.arity, function.call, held)
        made = function.call(*held[:function.arity])
        arguments = held[function.arity:]
        if not arguments:
            return made
        function = force(made)


# Lists

def stretch(members, start=0):
    return Stretch(members, start) if start < len(members) else None


def sequence(value):
    """The members of a list, as a sequence of Python."""
    value = force(value)
    if value is None:
        return ()
    if type(value) is Stretch:
        return value.members[value.start:] if value.start else value.members
    found = []
    while type(value) is Cell:
        found.append(value.first)
        value = force(value.rest)
    if value is not None:
        found.extend(sequence(value))
    return found


def numbers(value):
    """The members of a list of numbers."""
    members = sequence(value)
    return members if type(members) is bytes else [force(member) for member in members]


def as_bytes(members):
    """A sequence as bytes, where all of its members are; else as it is."""
    if type(members) is not bytes and all(type(member) is int and member < 256 for member in members):
        return bytes(members)
    return members


def joined(first, second):
    """A list and then another, which may still be computed."""
    first = as_bytes(sequence(first))
    if not first:
        return second
    if type(first) is bytes:
        rest = force(second)
        if rest is None:
            return stretch(first)
        if type(rest) is Stretch and type(rest.members) is bytes:
            return stretch(first + rest.members[rest.start:])
        second = rest
    for member in reversed(first):
        second = Cell(member, second)
    return second


# Comparing

def equal(left, right):
    left, right = force(left), force(right)
    if left is right:
        return True
    if isinstance(left, (Cell, Stretch)) and isinstance(right, (Cell, Stretch)):
        return equal_lists(left, right)
    if type(left) is not type(right):
        return False
    if type(left) is dict:
        return all(equal(left[name], right[name]) for name in left)
    if type(left) is tuple:
        return len(left) == len(right) and all(map(equal, left, right))
    if type(left) is Made:
        return left.tag == right.tag and len(left.members) == len(right.members) and all(
            map(equal, left.members, right.members))
    if type(left) is Signed:
        return left.value == right.value
    if type(left) is Function:
        raise TypeError('functions are not compared')
    return left == right


def equal_lists(left, right):
    left, right = sequence(left), sequence(right)
    if type(left) is type(right) is bytes:
        return left == right
    return len(left) == len(right) and all(map(equal, left, right))


# Showing

def shown(value):
    """All of a value in Python's numbers, lists, tuples and dicts; what a constructor makes begins with its name."""
    value = force(value)
    if value is None:
        return []
    if isinstance(value, (Cell, Stretch)):
        members = sequence(value)
        return members if type(members) is bytes else [shown(member) for member in members]
    if type(value) is Made:
        return (value.tag,) + tuple(map(shown, value.members)) if value.members else value.tag
    if type(value) is Function:
        return f'a function of {value.arity - len(value.held)}'
    if type(value) is dict:
        return {name: shown(member) for name, member in value.items()}
    if type(value) is tuple:
        return tuple(map(shown, value))
    return ('ℤ', value.value) if type(value) is Signed else value
