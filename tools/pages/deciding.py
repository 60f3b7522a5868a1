"""Decides relations: what is of `Type 0` is a truth here. A record of claims is the conjunction of its fields.

What a record says is there without giving it is given from outside (`GIVEN.witnesses`), and so are the values over
which something is said of all or of some, where no premise bounds them (`GIVEN.domains`). NOTES has what fails.
"""
from computing import MAKERS, OPERATORS, Scope, code_of
from syntax import Apply, Binary, Every, Exists, Field, Name, Number, Truth, mentions
from values import Function, Stretch, equal, force, numbers, sequence, stretch


class Given:
    """What is given from outside: functions of the values in scope by their names.

    `witnesses[RECORD]` gives dicts, each with a value for each field that is no claim: one after the other is tried.
    `domains[OWNER, NAME]`, or else `domains[TYPE]`, gives the values over which a name goes in a definition, or which a
    type has. All values that may matter have to be among them.
    """

    def __init__(self):
        self.witnesses, self.domains = {}, {}

    def domain(self, scope, node):
        of_type = type_text(node.type)
        found = self.domains.get((scope.owner, node.name)) or self.domains.get(of_type)
        if found is None:
            scope.fail(node.line, f'nothing says over which {of_type} {node.name} goes')
        return found


class Notes:
    """The claims that fail, by their paths."""

    def __init__(self):
        self.path, self.failed = [], []

    def note(self):
        self.failed.append('/'.join(self.path))

    def quietly(self, code, env):
        """Whether something holds, of which no failure is noted."""
        mark = len(self.failed)
        truth = force(code(env))
        del self.failed[mark:]
        return truth

    def unless_true(self, truths):
        """Whether one of these holds; if so, no failure of the others is noted."""
        mark = len(self.failed)
        truth = any(truths)
        if truth:
            del self.failed[mark:]
        return truth


# Types of values that stand on no page
VALUES = ('ℕ', 'ℤ', 'List', 'Bool', 'Option')
GIVEN = Given()
NOTES = Notes()


def type_text(node):
    if isinstance(node, Apply):
        parts = [f'({type_text(part)})' if isinstance(part, (Apply, Binary)) else type_text(part)
                 for part in node.arguments]
        return ' '.join([type_text(node.function)] + parts)
    if isinstance(node, Binary):
        return f'{type_text(node.left)} {node.operator} {type_text(node.right)}'
    return str(node.value) if isinstance(node, Number) else node.name


# Operators

def same_code(node, scope):
    left, right = code_of(node.left, scope), code_of(node.right, scope)
    return lambda env: equal(left(env), right(env))


def differ_code(node, scope):
    left, right = code_of(node.left, scope), code_of(node.right, scope)
    return lambda env: not equal(left(env), right(env))


def both_code(node, scope):
    left, right = code_of(node.left, scope), code_of(node.right, scope)
    return lambda env: force(left(env)) and force(right(env))


def either_code(node, scope):
    sides = code_of(node.left, scope), code_of(node.right, scope)
    return lambda env: NOTES.unless_true(force(side(env)) for side in sides)


def implies_code(node, scope):
    premise, conclusion = code_of(node.left, scope), code_of(node.right, scope)
    return lambda env: not NOTES.quietly(premise, env) or force(conclusion(env))


def alike_code(node, scope):
    left, right = code_of(node.left, scope), code_of(node.right, scope)
    return lambda env: NOTES.quietly(left, env) == NOTES.quietly(right, env)


OPERATORS.update({'≡': same_code, '≢': differ_code, '×': both_code, '⊎': either_code, '→': implies_code,
                  '↔': alike_code})


# For all, and for some

def every_code(node, scope):
    body, values = code_of(node.body, scope.with_names((node.name,))), domain_of(node, scope)
    return lambda env: all(force(body(env + (value,))) for value in values(env))


def exists_code(node, scope):
    body, values = code_of(node.body, scope.with_names((node.name,))), domain_of(node, scope)
    return lambda env: NOTES.unless_true(force(body(env + (value,))) for value in values(env))


MAKERS.update({Every: every_code, Exists: exists_code})


def domain_of(node, scope):
    """The values over which a name goes, from the values of the names in scope."""
    if type_text(node.type) == 'ℕ' and isinstance(node, Every):
        bounded = bounded_domain(node, scope)
        if bounded is not None:
            return bounded
    if isinstance(node, Exists):
        fixed = fixed_domain(node, scope)
        if fixed is not None:
            return fixed
    found, names = GIVEN.domain(scope, node), scope.names
    return lambda env: found(dict(zip(names, env)))


# Numbers that premises bound

def addends(node):
    if isinstance(node, Binary) and node.operator == '+':
        return addends(node.left) + addends(node.right)
    return [node]


def beside(node, name):
    """The others of a sum in which a name stands once, or None where it is no such sum."""
    parts = addends(node)
    own = [part for part in parts if isinstance(part, Name) and part.name == name]
    others = [part for part in parts if part not in own]
    if len(own) != 1 or any(mentions(part, name) for part in others):
        return None
    return others


def sum_code(parts, scope):
    codes = [code_of(part, scope) for part in parts]
    return lambda env: sum(force(code(env)) for code in codes)


def premises_of(node):
    """The premises that stand directly behind a name and its type, and what is left behind them."""
    found, body = [], node.body
    while isinstance(body, Binary) and body.operator == '→':
        found.append(body.left)
        body = body.right
    return found, body


def bounds(node, scope):
    """What the premises say of the least value and of the one behind the greatest."""
    lows, highs = [], []
    for premise in premises_of(node)[0]:
        if not isinstance(premise, Binary) or premise.operator not in ('≤', '<'):
            continue
        more = premise.operator == '<'
        for own, other, found, extra in ((premise.left, premise.right, highs, not more),
                                         (premise.right, premise.left, lows, more)):
            others = beside(own, node.name)
            if others is not None and not mentions(other, node.name):
                found.append((code_of(other, scope), sum_code(others, scope), extra))
    return lows, highs


def bounded_domain(node, scope):
    lows, highs = bounds(node, scope)
    if not highs:
        return None

    def span(env):
        first, end = ([force(code(env)) - others(env) + extra for code, others, extra in found]
                      for found in (lows, highs))
        return range(max([0] + first), max(0, min(end)))
    unlike = unlike_bytes(node, scope)
    return span if unlike is None else lambda env: unlike(env, span(env))


# Bytes: of a long range only the places are asked at which two images differ, since at the others the conclusion holds

def byte_at(node, name, scope):
    """The list and the others of the sum, of `byte LIST SUM` with a name in the sum."""
    if not (isinstance(node, Apply) and node.function == Name('byte', node.function.line) and len(node.arguments) == 2):
        return None
    of, place = node.arguments
    others = beside(place, name)
    if others is None or mentions(of, name) or not scope.page.is_byte('byte'):
        return None
    return code_of(of, scope), sum_code(others, scope)


def unlike_bytes(node, scope):
    """The numbers of a range for which a conclusion `byte .. ≡ byte ..`, or `byte .. ≡ 0`, does not hold."""
    conclusion = premises_of(node)[1]
    if not isinstance(conclusion, Binary) or conclusion.operator != '≡':
        return None
    left = byte_at(conclusion.left, node.name, scope)
    right = None if conclusion.right == Number(0) else byte_at(conclusion.right, node.name, scope)
    if left is None or (right is None and conclusion.right != Number(0)):
        return None

    def unlike(env, span):
        first = piece(left, env, span)
        second = bytes(len(span)) if right is None else piece(right, env, span)
        if first == second:
            return ()
        return [number for number, one, other in zip(span, first, second) if one != other]
    return unlike


def piece(of, env, span):
    """The bytes of a list at these places; a byte outside counts as 0."""
    members, start = force(of[0](env)), span.start + of[1](env)
    if type(members) is Stretch and type(members.members) is bytes:
        found = members.members[members.start + start:members.start + start + len(span)]
    else:
        found = bytes(numbers(members)[start:start + len(span)])
    return found + bytes(len(span) - len(found))


# Lists that an equation fixes

def fixed_domain(node, scope):
    """Of `E ≡ a ∷ NAME`, or `E ≡ first ++ NAME`, among what is said of some list: what is left of E."""
    body = node.body
    while isinstance(body, Binary) and body.operator == '×':
        if isinstance(body.left, Binary) and body.left.operator == '≡' and not mentions(body.left.left, node.name):
            before = before_name(body.left.right, node.name, scope)
            if before is not None:
                whole = code_of(body.left.left, scope)
                return lambda env: [stretch(sequence(whole(env))[before(env):])]
        body = body.right
    return None


def before_name(node, name, scope):
    """How many members stand before a name in `a ∷ NAME` or `first ++ NAME`."""
    if not isinstance(node, Binary) or node.right != Name(name, getattr(node.right, 'line', 0)):
        return None
    if node.operator == '∷':
        return lambda env: 1
    first = code_of(node.left, scope)
    return lambda env: len(sequence(first(env)))


# Records of claims

def is_claim(page, of_type, record, line):
    """The type of a field is a claim, and not that of a value. What a parameter of the record says is a claim."""
    if isinstance(of_type, (Every, Exists)):
        return is_claim(page, of_type.body, record, line)
    if isinstance(of_type, Binary):
        if of_type.operator == '→':
            return is_claim(page, of_type.right, record, line)
        return of_type.operator != '×' or is_claim(page, of_type.left, record, line)
    head = of_type.function if isinstance(of_type, Apply) else of_type
    if isinstance(head, (Field, Truth)) or head.name in record.parameters:
        return True
    return head.name not in VALUES and page.is_relation(head.name, line)


def claims(page, record):
    """A record of claims as a function of its parameters: whether all hold, for some values of the other fields."""
    if not record.parameters:
        page.fail(record.line, f'{record.name} is no record of claims')
    made = []

    def call(*arguments):
        if not made:
            made.append(ready(page, record))
        parts, there = made[0]
        if not there:
            return holds(parts, arguments)
        tries = GIVEN.witnesses[record.name](dict(zip(record.parameters, arguments)))
        return one_holds(record.name, parts, (arguments + tuple(found[name] for name in there) for found in tries))
    return Function(len(record.parameters), call)


def ready(page, record):
    """The claims of a record, each with its title and its code, and the names of what it says is there."""
    asked, there = [], []
    for name, of_type, line in record.fields:
        if is_claim(page, of_type, record, line):
            asked.append((name, of_type))
        else:
            there.append(name)
    if there and record.name not in GIVEN.witnesses:
        page.fail(record.line, f'nothing gives what {record.name} says is there')
    scope = Scope(page, record.name, record.parameters + tuple(there))
    return [(f'{record.name}.{name}', code_of(of_type, scope)) for name, of_type in asked], there


def holds(parts, env):
    """All claims hold; the first that fails is noted, with what fails below it."""
    for title, code in parts:
        NOTES.path.append(title)
        mark = len(NOTES.failed)
        truth = force(code(env))
        if not truth and len(NOTES.failed) == mark:
            NOTES.note()
        NOTES.path.pop()
        if not truth:
            return False
    return True


def one_holds(name, parts, envs):
    """The claims hold for one of these; else what fails is noted of the one that came farthest."""
    mark, farthest, best = len(NOTES.failed), [], -1
    for env in envs:
        passed = 0
        for part in parts:
            if not holds([part], env):
                break
            passed += 1
        failed = NOTES.failed[mark:]
        del NOTES.failed[mark:]
        if passed == len(parts):
            return True
        if passed > best:
            farthest, best = failed, passed
    NOTES.failed += farthest or ['/'.join(NOTES.path + [f'{name}: nothing is given'])]
    return False
