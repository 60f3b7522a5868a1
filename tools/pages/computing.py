"""Makes of an expression a function that computes it from the values of the names in scope, which are a tuple."""
from library import CONSTRUCTORS, appended, arithmetic
from syntax import (Apply, Binary, ConsPattern, Elim, Field, If, Lambda, Let, Name, NamePattern, Nil, NilPattern,
                    Number, NumberPattern, Pair, Record, Text, Truth, Unread, Variant, VariantPattern)
from values import Cell, Function, Later, Made, apply, force

ARITHMETIC = arithmetic()


class Scope:
    """Where an expression stands: its page, the definition that it is of, and the names that it may use."""

    def __init__(self, page, owner, names=()):
        self.page, self.owner, self.names = page, owner, tuple(names)

    def with_names(self, names):
        return Scope(self.page, self.owner, self.names + tuple(names))

    def place(self, name):
        """Where the value of a name stands, or None; a later name hides an earlier one."""
        for at in range(len(self.names) - 1, -1, -1):
            if self.names[at] == name:
                return at
        return None

    def fail(self, line, why):
        raise Unread(self.page.title, line, f'{why}, in {self.owner}')


def code_of(node, scope):
    maker = MAKERS.get(type(node))
    if maker is None:
        scope.fail(0, f'{type(node).__name__} is not computed')
    return maker(node, scope)


def later_of(node, scope):
    """Like code_of, but what is not there yet is computed once it is asked for."""
    if isinstance(node, (Name, Variant, Number, Nil, Truth, Text, Lambda)):
        return code_of(node, scope)
    code = code_of(node, scope)
    return lambda env: Later(code, env)


# Names and what stands for itself

def constant(value):
    return lambda env: value


def name_code(node, scope):
    at = scope.place(node.name)
    if at is not None:
        return lambda env: env[at]
    return constant(scope.page.value(node.name, node.line))


def variant_code(node, scope):
    return constant(scope.page.aliased(node.of, node.name, node.line))


def apply_code(node, scope):
    arguments = [later_of(argument, scope) for argument in node.arguments]
    if isinstance(node.function, Name) and scope.place(node.function.name) is None:
        function = scope.page.value(node.function.name, node.line)
        if type(function) is Function and function.arity == len(arguments) and not function.held:
            return direct_code(function, arguments)
    made = code_of(node.function, scope)
    return lambda env: apply(made(env), [argument(env) for argument in arguments])


def direct_code(function, arguments):
    """A known function with all of its arguments."""
    if len(arguments) == 1:
        only, = arguments
        return lambda env: function.call(only(env))
    if len(arguments) == 2:
        first, second = arguments
        return lambda env: function.call(first(env), second(env))
    return lambda env: function.call(*[argument(env) for argument in arguments])


# What is made

def lambda_code(node, scope):
    body, arity = code_of(node.body, scope.with_names(node.names)), len(node.names)
    return lambda env: Function(arity, lambda *arguments: body(env + arguments))


def pair_code(node, scope):
    members = [later_of(member, scope) for member in node.members]
    return lambda env: tuple([member(env) for member in members])


def record_code(node, scope):
    base = code_of(node.base, scope) if node.base is not None else constant({})
    fields = [(name, later_of(value, scope)) for name, value in node.fields]
    return lambda env: {**force(base(env)), **{name: value(env) for name, value in fields}}


def field_code(node, scope):
    of, name = code_of(node.of, scope), node.name
    if name.isdigit():
        at = int(name)
        return lambda env: force(of(env))[at]
    return lambda env: force(of(env))[name]


# What chooses

def if_code(node, scope):
    condition, then, otherwise = (code_of(part, scope) for part in node)
    return lambda env: then(env) if force(condition(env)) else otherwise(env)


def let_code(node, scope):
    value, body = later_of(node.value, scope), code_of(node.body, scope.with_names((node.name,)))
    return lambda env: body(env + (value(env),))


def elim_code(node, scope):
    subject, rows = later_of(node.subject, scope), []
    for pattern, body in node.rows:
        matches, names = matcher(pattern, scope)
        rows.append((matches, code_of(body, scope.with_names(names))))

    def code(env):
        value = subject(env)
        for matches, body in rows:
            bound = []
            if matches(value, bound):
                return body(env + tuple(bound))
        return scope.fail(node.line, 'no row of elim fits')
    return code


def binary_code(node, scope):
    maker = OPERATORS.get(node.operator)
    if maker is not None:
        return maker(node, scope)
    if node.operator not in ARITHMETIC:
        return apply_code(Apply(Name(f'◌{node.operator}◌', node.line), (node.left, node.right), node.line), scope)
    left, right, made = code_of(node.left, scope), code_of(node.right, scope), ARITHMETIC[node.operator]
    return lambda env: made(force(left(env)), force(right(env)))


def cons_code(node, scope):
    first, rest = later_of(node.left, scope), later_of(node.right, scope)
    return lambda env: Cell(first(env), rest(env))


def append_code(node, scope):
    left, right = code_of(node.left, scope), later_of(node.right, scope)
    return lambda env: appended(left(env), right(env))


def and_code(node, scope):
    left, right = code_of(node.left, scope), code_of(node.right, scope)
    return lambda env: force(left(env)) and force(right(env))


def or_code(node, scope):
    left, right = code_of(node.left, scope), code_of(node.right, scope)
    return lambda env: force(left(env)) or force(right(env))


OPERATORS = {'∷': cons_code, '++': append_code, '&&': and_code, '||': or_code}
MAKERS = {Name: name_code, Variant: variant_code, Number: lambda node, scope: constant(node.value),
          Text: lambda node, scope: constant(node.value), Nil: lambda node, scope: constant(None),
          Truth: lambda node, scope: constant(node.value), Apply: apply_code, Lambda: lambda_code, Pair: pair_code,
          Record: record_code, Field: field_code, If: if_code, Let: let_code, Elim: elim_code, Binary: binary_code}


# Patterns: a matcher says whether a value fits, and adds what its names stand for to a list

def matcher(pattern, scope):
    """The matcher of a pattern, and the names that it binds."""
    if isinstance(pattern, NamePattern):
        tag = scope.page.constructor(pattern.name, pattern.line)
        return variable_matcher(pattern, scope) if tag is None else made_matcher(tag, pattern, scope)
    if isinstance(pattern, VariantPattern):
        made = scope.page.aliased(pattern.of, pattern.name, pattern.line)
        if type(made) is not Made:
            scope.fail(pattern.line, f'{pattern.name} is no constructor')
        return made_matcher(made.tag, pattern, scope)
    if isinstance(pattern, NilPattern):
        return lambda value, bound: force(value) is None, ()
    if isinstance(pattern, NumberPattern):
        return lambda value, bound: force(value) == pattern.value, ()
    if isinstance(pattern, ConsPattern):
        return cons_matcher(pattern, scope)
    members, names = matchers(pattern.members, scope)
    return lambda value, bound: all_fit(members, force(value), bound), names


def matchers(patterns, scope):
    found = [matcher(pattern, scope) for pattern in patterns]
    return [fits for fits, _ in found], tuple(name for _, names in found for name in names)


def is_variable(pattern, scope):
    return isinstance(pattern, NamePattern) and scope.page.constructor(pattern.name, pattern.line) is None


def variable_matcher(pattern, scope):
    if pattern.members:
        scope.fail(pattern.line, f'{pattern.name} is no constructor')

    def fits(value, bound):
        bound.append(value)
        return True
    return fits, (pattern.name,)


def cons_matcher(pattern, scope):
    (first, rest), names = matchers((pattern.first, pattern.rest), scope)
    if is_variable(pattern.first, scope) and is_variable(pattern.rest, scope):
        return cons_apart, names

    def fits(value, bound):
        value = force(value)
        return value is not None and first(value.first, bound) and rest(value.rest, bound)
    return fits, names


def cons_apart(value, bound):
    value = force(value)
    if value is None:
        return False
    bound.append(value.first)
    bound.append(value.rest)
    return True


# How a number or a truth is taken apart: whether it fits, and what stands below
BUILT_IN = {
    'zero': lambda value: () if value == 0 else None, 'suc': lambda value: (value - 1,) if value > 0 else None,
    'pos': lambda value: (value.value,) if value.value >= 0 else None,
    'negsuc': lambda value: (-value.value - 1,) if value.value < 0 else None,
    'true': lambda value: () if value is True else None, 'false': lambda value: () if value is False else None}


def made_matcher(tag, pattern, scope):
    members, names = matchers(pattern.members, scope)
    if tag in CONSTRUCTORS:
        apart = BUILT_IN[tag]
    else:
        def apart(value):
            return value.members if value.tag == tag else None
    if not members:
        return lambda value, bound: apart(force(value)) is not None, names
    count, are_variables = len(members), all(is_variable(member, scope) for member in pattern.members)

    def fits(value, bound):
        found = apart(force(value))
        if found is None:
            return False
        if len(found) != count:
            scope.fail(pattern.line, f'{tag} has {len(found)} members, and {count} are named')
        if are_variables:
            bound.extend(found)
            return True
        return all_fit(members, found, bound)
    return fits, names


def all_fit(fits, values, bound):
    for fit, value in zip(fits, values):
        if not fit(value, bound):
            return False
    return True


# Definitions

def definition_call(equations, scope):
    """The function that the equations of a definition make of its arguments."""
    if len(equations) == 1 and all(is_variable(pattern, scope) for pattern in equations[0].patterns):
        only = equations[0]
        body = code_of(only.body, scope.with_names(pattern.name for pattern in only.patterns))
        return lambda *arguments: body(arguments)
    rows = []
    for equation in equations:
        fits, names = matchers(equation.patterns, scope)
        rows.append((fits, code_of(equation.body, scope.with_names(names))))

    def call(*arguments):
        for fits, body in rows:
            bound = []
            if all_fit(fits, arguments, bound):
                return body(tuple(bound))
        return scope.fail(equations[0].line, 'no equation fits')
    return call
