"""What the pages use of the kit's library, by the names that they give it. A function gets its arguments unforced."""
import hashlib

from values import Cell, Function, Made, Signed, Stretch, apply, equal, force, joined, numbers, sequence, stretch

LIBRARY = {'zero': 0, 'true': True, 'false': False, 'w32': 32, 'w64': 64}
NONE = Made('None')
CONSTRUCTORS = ('suc', 'zero', 'pos', 'negsuc', 'true', 'false')


def named(arity, name=None):
    def note(function):
        LIBRARY[name or function.__name__.rstrip('_')] = Function(arity, function)
        return function
    return note


def some(value):
    return Made('Some', (value,))


def holds(condition):
    return lambda member: force(apply(condition, (member,)))


# Numbers and truth

@named(1)
def suc(number):
    return force(number) + 1


@named(1)
def pos(number):
    return Signed(force(number))


@named(1)
def negsuc(number):
    return Signed(-force(number) - 1)


@named(2)
def nat_lt(left, right):
    return force(left) < force(right)


@named(2)
def nat_le(left, right):
    return force(left) <= force(right)


@named(2)
def nat_eq(left, right):
    return force(left) == force(right)


@named(2)
def int_lt(left, right):
    return force(left).value < force(right).value


@named(2)
def int_le(left, right):
    return force(left).value <= force(right).value


@named(2, 'max')
def greater(left, right):
    return max(force(left), force(right))


@named(2, 'min')
def lesser(left, right):
    return min(force(left), force(right))


@named(1)
def not_(truth):
    return not force(truth)


@named(2)
def cast_signed(width, number):
    width = force(width)
    number = force(number) % (1 << width)
    return Signed(number - (1 << width) if number >> (width - 1) else number)


@named(2)
def cast_unsigned(width, number):
    return force(number).value % (1 << force(width))


# Lists

@named(1)
def length(members):
    members = force(members)
    return len(members.members) - members.start if type(members) is Stretch else len(sequence(members))


@named(2)
def take(count, members):
    count, members = force(count), force(members)
    if type(members) is Stretch:
        return stretch(members.members[members.start:members.start + count])
    return stretch(sequence(members)[:count])


@named(2)
def drop(count, members):
    count, members = force(count), force(members)
    if type(members) is Stretch:
        return stretch(members.members, members.start + count)
    while count and type(members) is Cell:
        members, count = force(members.rest), count - 1
    return drop(count, members) if count and members is not None else members


@named(2, 'map')
def each_made(function, members):
    return stretch([apply(function, (member,)) for member in sequence(members)])


@named(2)
def flat_map(function, members):
    found = []
    for member in sequence(members):
        found.extend(sequence(apply(function, (member,))))
    return stretch(found)


@named(1)
def concat(lists):
    return stretch([member for members in sequence(lists) for member in sequence(members)])


@named(2, 'filter')
def those(condition, members):
    return stretch(list(filter(holds(condition), sequence(members))))


@named(3)
def fold(function, start, members):
    for member in sequence(members):
        start = force(apply(function, (start, member)))
    return start


@named(1, 'sum')
def total(members):
    return sum(numbers(members))


@named(1)
def reverse(members):
    return stretch(sequence(members)[::-1])


@named(2)
def replicate(count, member):
    member = force(member)
    small = type(member) is int and member < 256
    return stretch(bytes((member,)) * force(count) if small else [member] * force(count))


@named(2)
def repeat(count, members):
    return stretch(sequence(members) * force(count))


@named(2)
def find(condition, members):
    return next((some(member) for member in sequence(members) if holds(condition)(member)), NONE)


@named(2)
def position(condition, members):
    return next((some(at) for at, member in enumerate(sequence(members)) if holds(condition)(member)), NONE)


@named(2)
def position_or_len(condition, members):
    members = sequence(members)
    return next((at for at, member in enumerate(members) if holds(condition)(member)), len(members))


@named(2)
def before_first(condition, members):
    members = sequence(members)
    return stretch(members[:position_or_len(condition, stretch(members))])


@named(2)
def list_any(condition, members):
    return any(map(holds(condition), sequence(members)))


@named(2)
def list_all(condition, members):
    return all(map(holds(condition), sequence(members)))


LIBRARY['All'] = LIBRARY['list_all']


@named(2)
def bytes_eq(left, right):
    return equal(left, right)


@named(2)
def slice_get(members, at):
    members, at = sequence(members), force(at)
    return some(members[at]) if at < len(members) else NONE


@named(2)
def slice_index(members, at):
    members, at = force(members), force(at)
    if type(members) is Stretch:
        at += members.start
        return members.members[at] if at < len(members.members) else 0
    members = sequence(members)
    return members[at] if at < len(members) else 0


@named(3)
def slice_set(members, at, member):
    members, at = list(sequence(members)), force(at)
    if at < len(members):
        members[at] = member
    return stretch(members)


@named(2)
def remove(members, at):
    members, at = sequence(members), force(at)
    return stretch(members[:at] + members[at + 1:])


@named(2)
def last_or(otherwise, members):
    members = sequence(members)
    return some(members[-1]) if members else otherwise


@named(2)
def enumerate_from(start, members):
    return stretch(list(enumerate(sequence(members), force(start))))


@named(2)
def slice_split(condition, members):
    pieces = [[]]
    for member in sequence(members):
        if holds(condition)(member):
            pieces.append([])
        else:
            pieces[-1].append(member)
    return stretch([stretch(piece) for piece in pieces])


@named(2)
def join_with_byte(byte, lists):
    found = []
    for at, members in enumerate(sequence(lists)):
        found += ([byte] if at else []) + list(sequence(members))
    return stretch(found)


# Options

@named(2)
def option_map(function, option):
    option = force(option)
    return some(apply(function, option.members)) if option.members else NONE


@named(2)
def option_and_then(function, option):
    option = force(option)
    return apply(function, option.members) if option.members else NONE


@named(2)
def option_or(option, otherwise):
    option = force(option)
    return option if option.members else otherwise


@named(2)
def unwrap_or(option, otherwise):
    option = force(option)
    return option.members[0] if option.members else otherwise


@named(1)
def is_some(option):
    return force(option).tag == 'Some'


@named(1)
def is_none(option):
    return force(option).tag == 'None'


@named(1)
def option_to_list(option):
    return stretch(list(force(option).members))


# Bytes and texts

@named(1)
def codes(text):
    return stretch(force(text).encode('latin-1'))


@named(1)
def decimal(number):
    return stretch(str(force(number)).encode())


@named(1)
def signed_decimal(number):
    return stretch(str(force(number).value).encode())


@named(1)
def is_ascii_digit(code):
    return 48 <= force(code) <= 57


@named(1)
def is_ascii_hexdigit(code):
    code = force(code)
    return 48 <= code <= 57 or 65 <= code <= 70 or 97 <= code <= 102


@named(3)
def big_from(start, count, members):
    """So many bytes from a place on as a number, the highest first; a byte outside counts as 0."""
    members, start, count = force(members), force(start), force(count)
    if type(members) is Stretch and type(members.members) is bytes:
        start += members.start
        piece = members.members[start:start + count]
    else:
        piece = bytes(numbers(members)[start:start + count])
    return int.from_bytes(piece, 'big') << 8 * (count - len(piece))


@named(2)
def big_bytes(count, number):
    count = force(count)
    return stretch((force(number) % (1 << 8 * count)).to_bytes(count, 'big'))


LIBRARY['bytes_high_first'] = LIBRARY['big_bytes']


@named(1)
def md5(members):
    return stretch(hashlib.md5(bytes(numbers(members))).digest())


def arithmetic():
    """What the operators do with two values."""
    return {
        '+': lambda left, right: left + right, '-': lambda left, right: max(0, left - right),
        '*': lambda left, right: left * right, '^': lambda left, right: left ** right,
        '/': lambda left, right: left // right if right else 0,
        '%': lambda left, right: left % right if right else left,
        '==': lambda left, right: left == right, '≤': lambda left, right: left <= right,
        '<': lambda left, right: left < right, '-ℤ': lambda left, right: Signed(left.value - right.value)}


def appended(left, right):
    return joined(left, right)
