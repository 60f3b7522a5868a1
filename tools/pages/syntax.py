"""What a page says, as a tree: its items, its expressions and its patterns. A name keeps the line that it is on."""
from collections import namedtuple


class Unread(Exception):
    """A page that cannot be read or run: it says which page, which line, and why."""

    def __init__(self, page, line, why):
        super().__init__(f'{page}:{line}: {why}')


# Expressions
Name = namedtuple('Name', 'name line')
Variant = namedtuple('Variant', 'of name line')
Number = namedtuple('Number', 'value')
Text = namedtuple('Text', 'value')
Nil = namedtuple('Nil', '')
Truth = namedtuple('Truth', 'value')
Apply = namedtuple('Apply', 'function arguments line')
Binary = namedtuple('Binary', 'operator left right line')
Lambda = namedtuple('Lambda', 'names body')
If = namedtuple('If', 'condition then otherwise')
Let = namedtuple('Let', 'name value body')
Elim = namedtuple('Elim', 'subject rows line')
Record = namedtuple('Record', 'base fields')
Pair = namedtuple('Pair', 'members')
Field = namedtuple('Field', 'of name line')
# For all, or for some, values of a type
Every = namedtuple('Every', 'name type body line')
Exists = namedtuple('Exists', 'name type body line')

# Patterns; a name may be that of a variable or of a constructor
NamePattern = namedtuple('NamePattern', 'name members line')
VariantPattern = namedtuple('VariantPattern', 'of name members line')
NumberPattern = namedtuple('NumberPattern', 'value')
NilPattern = namedtuple('NilPattern', '')
ConsPattern = namedtuple('ConsPattern', 'first rest')
PairPattern = namedtuple('PairPattern', 'members')

# Items of a page
Import = namedtuple('Import', 'crate page name')
Signature = namedtuple('Signature', 'name type line')
Equation = namedtuple('Equation', 'name patterns body line')
DataType = namedtuple('DataType', 'name constructors line')
RecordType = namedtuple('RecordType', 'name parameters fields line')


def parts(node):
    """The nodes below a node, through tuples."""
    for part in node:
        if isinstance(part, tuple):
            if hasattr(part, '_fields'):
                yield part
            else:
                yield from parts(part)


def mentions(node, name):
    """A name stands in an expression."""
    return (isinstance(node, Name) and node.name == name) or any(mentions(part, name) for part in parts(node))


def arrows(node):
    """The members of A → B → C, through what it says for all values."""
    members = []
    while isinstance(node, (Binary, Every)):
        if isinstance(node, Every):
            node = node.body
        elif node.operator == '→':
            members.append(node.left)
            node = node.right
        else:
            break
    return members + [node]
