"""Reads a page: the text of a file of specs/ becomes its items. What is not known stops with the page and the line."""
from syntax import (Apply, Binary, ConsPattern, DataType, Elim, Equation, Every, Exists, Field, If, Import, Lambda, Let,
                    Name, NamePattern, Nil, NilPattern, Number, NumberPattern, Pair, PairPattern, Record, RecordType,
                    Signature, Text, Truth, Unread, Variant, VariantPattern)
from tokens import items_of

# How tightly each operator binds, and to which side it groups
BINDS = {'^': (75, 'right'), '*': (70, 'left'), '/': (70, 'left'), '%': (70, 'left'), '∷': (67, 'right'),
         '+': (65, 'left'), '-': (65, 'left'), '++': (65, 'left'), '==': (40, 'none'), '&&': (35, 'left'),
         '||': (30, 'left'), '⧺': (10, 'right'), '-ℤ': (6, 'left'), '≡': (5, 'none'), '≢': (5, 'none'),
         '≤': (5, 'none'), '<': (5, 'none'), '↔': (4, 'none'), '×': (3, 'right'), '⊎': (2, 'right'), '→': (1, 'right')}
WORDS = ('in', 'if', 'let', 'elim', 'where')
CLOSING = {'(': ')', '{': '}'}


class Reader:
    """Reads the tokens of one item."""

    def __init__(self, page, tokens, aliases):
        self.page, self.tokens, self.aliases, self.at = page, tokens, aliases, 0
        self.waits = []  # for `then` and `else`, which are names elsewhere

    def fail(self, why):
        token = self.tokens[min(self.at, len(self.tokens) - 1)]
        raise Unread(self.page, token.line, f'{why}, at {token.text}')

    def peek(self, ahead=0):
        at = self.at + ahead
        return self.tokens[at] if at < len(self.tokens) else None

    def next_is(self, *texts, ahead=0):
        token = self.peek(ahead)
        return token is not None and token.kind not in ('text',) and token.text in texts

    def take(self, text=None):
        token = self.peek()
        if token is None or (text is not None and token.text != text):
            self.fail(f'{text or "more"} is expected')
        self.at += 1
        return token

    def take_if(self, text):
        found = self.next_is(text)
        self.at += found
        return found

    def name(self):
        if self.peek() is None or self.peek().kind != 'name':
            self.fail('a name is expected')
        return self.take().text

    def end(self):
        if self.peek() is not None:
            self.fail('this is not read')

    # Expressions

    def expression(self, least=0):
        if self.next_is('λ', 'if', 'let'):
            return self.opened()
        group = self.group_ahead()
        left = self.quantified(group) if group else self.application()
        while self.peek() is not None and self.peek().kind == 'sign' and self.peek().text in BINDS:
            operator = self.peek()
            binds, side = BINDS[operator.text]
            if binds < least:
                break
            self.at += 1
            right = self.expression(binds if side == 'right' else binds + 1)
            left = Binary(operator.text, left, right, operator.line)
        return left

    def opened(self):
        """An expression that goes on as far as it can."""
        first = self.take().text
        if first == 'λ':
            names = []
            while not self.take_if('.'):
                names += self.group()[0] if self.next_is('(') else [self.name()]
            return Lambda(tuple(names), self.expression())
        if first == 'if':
            condition, then = self.upto('then'), self.upto('else')
            return If(condition, then, self.expression())
        name = self.name()
        self.take('=')
        value = self.expression()
        self.take('in')
        return Let(name, value, self.expression())

    def upto(self, word):
        """An expression that ends before a word."""
        self.waits.append(word)
        made = self.expression()
        self.waits.pop()
        self.take(word)
        return made

    def group_ahead(self):
        """How many names stand in a group of names with a type that begins here, or 0."""
        if not self.next_is('(', '{'):
            return 0
        count = 0
        while self.peek(count + 1) is not None and self.peek(count + 1).kind == 'name':
            count += 1
        return count if count and self.next_is(':', ahead=count + 1) else 0

    def group(self):
        """Names and their type."""
        opening = self.take().text
        names = []
        while not self.take_if(':'):
            names.append(self.name())
        of_type = self.expression()
        self.take(CLOSING[opening])
        return names, of_type

    def quantified(self, count):
        line = self.peek().line
        names, of_type = self.group()
        kind = Every
        if self.group_ahead():
            body = self.expression(BINDS['→'][0])
            kind = type(body)
        else:
            kind = Every if self.take().text == '→' else Exists
            if self.tokens[self.at - 1].text not in '→×':
                self.fail('→ or × is expected behind a group')
            body = self.expression(BINDS['→'][0])
        for name in reversed(names):
            body = kind(name, of_type, body, line)
        return body

    def application(self):
        line = self.peek().line if self.peek() else 0
        function = self.elim() if self.next_is('elim') else self.atom()
        arguments = []
        while self.begins_atom():
            arguments.append(self.atom())
        return Apply(function, tuple(arguments), line) if arguments else function

    def elim(self):
        line = self.take('elim').line
        subject, rows = self.atom(), []
        self.take('[')
        while not self.take_if(']'):
            self.take_if('|')
            pattern = self.pattern()
            self.take('↦')
            rows.append((pattern, self.expression()))
        return Elim(subject, tuple(rows), line)

    def begins_atom(self):
        token = self.peek()
        if token is None:
            return False
        if token.kind == 'name':
            return token.text not in WORDS and token.text not in self.waits
        return token.kind in ('number', 'text', 'nil') or token.text in '(⊤⊥'

    def atom(self):
        made = self.plain_atom()
        while self.next_is('.') and self.peek().glued and not self.peek().ends:
            line = self.take().line
            made = Field(made, self.take().text, line)
        return made

    def plain_atom(self):
        token = self.take()
        if token.kind == 'number':
            return Number(int(token.text.replace('_', ''), 0))
        if token.kind == 'text':
            return Text(token.text[1:-1].replace('\\"', '"').replace('\\\\', '\\'))
        if token.kind == 'nil':
            return Nil()
        if token.kind == 'name':
            return self.named(token)
        if token.text in '⊤⊥':
            return Truth(token.text == '⊤')
        if token.text == '(':
            return self.within_parentheses()
        self.at -= 1
        return self.fail('no expression begins here')

    def within_parentheses(self):
        members = [self.expression()]
        while self.take_if(','):
            members.append(self.expression())
        self.take(')')
        return members[0] if len(members) == 1 else Pair(tuple(members))

    def named(self, token):
        if token.text == 'record':
            return self.record()
        if token.text == 'Unit' and self.next_is('{'):
            self.take()
            self.take('0')
            self.take('}')
            return Truth(True)
        if token.text in self.aliases and self.next_is('.') and self.peek().glued:
            self.take()
            return Variant(token.text, self.name(), token.line)
        return Name(token.text, token.line)

    def record(self):
        base = None if self.next_is('{') else self.atom()
        self.take('{')
        fields = []
        while not self.take_if('}'):
            name = self.name()
            self.take('=')
            fields.append((name, self.expression()))
            self.take_if(';')
        return Record(base, tuple(fields))

    # Patterns

    def pattern(self):
        left = self.made_pattern()
        return ConsPattern(left, self.pattern()) if self.take_if('∷') else left

    def made_pattern(self):
        pattern = self.atom_pattern()
        if isinstance(pattern, (NamePattern, VariantPattern)):
            members = []
            while self.begins_pattern():
                members.append(self.atom_pattern())
            return pattern._replace(members=tuple(members))
        return pattern

    def begins_pattern(self):
        token = self.peek()
        return token is not None and (token.kind in ('number', 'name', 'nil') or token.text == '(')

    def atom_pattern(self):
        token = self.take()
        if token.kind == 'nil':
            return NilPattern()
        if token.kind == 'number':
            return NumberPattern(int(token.text, 0))
        if token.kind == 'name':
            if token.text in self.aliases and self.next_is('.') and self.peek().glued:
                self.take()
                return VariantPattern(token.text, self.name(), (), token.line)
            return NamePattern(token.text, (), token.line)
        if token.text != '(':
            self.at -= 1
            self.fail('no pattern begins here')
        members = [self.pattern()]
        while self.take_if(','):
            members.append(self.pattern())
        self.take(')')
        return members[0] if len(members) == 1 else PairPattern(tuple(members))


class PageReader:
    """The items of one page, by what they are."""

    def __init__(self, page, text):
        self.page = page
        self.aliases, self.imports, self.signatures, self.equations = {}, {}, {}, {}
        self.data_types, self.record_types = {}, {}
        for item in items_of(page, text):
            self.item(item)

    def item(self, item):
        tokens = item.tokens()
        words = [token.text for token in tokens]
        start = 0
        while words[start] in ('pub', 'abbrev', 'unfoldable'):
            start += 1
        first = words[start]
        if first == 'use':
            self.use(words[start + 1:], item.line)
        elif first == 'mod' or first in ('infix', 'infixl', 'infixr'):
            return
        elif first == 'data':
            self.data(item, start)
        elif first == 'record':
            self.record(item, start)
        elif start or '=' not in words:
            self.signature(tokens[start:], item.line)
        else:
            self.equation(tokens, item.line)

    def reader(self, tokens):
        return Reader(self.page, tokens, self.aliases)

    def use(self, words, line):
        """use Rattle.crate.specs.Page.{names}, or .. as alias. What comes from a page of proofs is found nowhere."""
        if words[:1] != ['Rattle'] or words[4] not in ('specs', 'proofs'):
            raise Unread(self.page, line, 'this use is not read')
        crate = words[2] if words[4] == 'specs' else f'{words[2]} (proofs)'
        path = words[5:]
        if 'as' in path and '{' not in path:
            at = path.index('as')
            self.aliases[path[at + 1]] = Import(crate, ''.join(path[1:at] if path[0] == '.' else path[:at]), None)
            return
        if '{' not in path:
            return
        at = path.index('{')
        page = ''.join(path[:at]).strip('.')
        for name in ''.join(' ' if word == ',' else f'{word}\0' for word in path[at + 1:-1]).split(' '):
            parts = [part for part in name.split('\0') if part]
            own = parts[-1] if 'as' in parts else ''.join(parts)
            self.imports[own] = Import(crate, page, parts[0] if 'as' in parts else own)

    def signature(self, tokens, line):
        reader = self.reader(tokens)
        name = self.defined_name(reader)
        reader.take(':')
        of_type = reader.expression()
        reader.end()
        self.signatures[name] = Signature(name, of_type, line)

    def defined_name(self, reader):
        if not reader.next_is('◌'):
            return reader.name()
        reader.take()
        name = f'◌{reader.take().text}◌'
        reader.take('◌')
        return name

    def equation(self, tokens, line):
        reader = self.reader(tokens)
        if len(tokens) > 1 and tokens[1].text in BINDS:
            left = reader.atom_pattern()
            name = f'◌{reader.take().text}◌'
            patterns = [left, reader.atom_pattern()]
        else:
            name, patterns = reader.name(), []
        while not reader.take_if('='):
            patterns.append(reader.atom_pattern())
        body = reader.expression()
        reader.end()
        if name not in self.signatures:
            raise Unread(self.page, line, f'{name} has no type')
        self.equations.setdefault(name, []).append(Equation(name, tuple(patterns), body, line))

    def data(self, item, start):
        name = item.lines[0][start + 1].text
        constructors = {}
        for tokens in item.lines[1:]:
            reader = self.reader(tokens)
            reader.take_if('pub')
            constructor = reader.name()
            reader.take(':')
            constructors[constructor] = reader.expression()
            reader.end()
        self.data_types[name] = DataType(name, constructors, item.line)

    def record(self, item, start):
        head = self.reader(item.lines[0][start + 1:])
        name, parameters = head.name(), []
        while not head.next_is(':'):
            parameters += head.group()[0]
        fields = []
        for tokens in self.field_lines(item):
            reader = self.reader(tokens)
            reader.take_if('pub')
            field = reader.name()
            reader.take(':')
            fields.append((field, reader.expression(), tokens[0].line))
            reader.end()
        self.record_types[name] = RecordType(name, tuple(parameters), tuple(fields), item.line)

    def field_lines(self, item):
        """The tokens of each field; a line that begins no field goes on with the one before it."""
        found = []
        for tokens in item.lines[1:]:
            is_field = tokens[0].text == 'pub' or (len(tokens) > 1 and tokens[1].text == ':')
            if is_field:
                found.append(list(tokens))
            else:
                found[-1] += tokens
        return found


def read_page(page, text):
    return PageReader(page, text)
