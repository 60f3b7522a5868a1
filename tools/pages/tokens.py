"""The tokens of a page, and its items: the pieces that begin at the margin, with what is indented below them."""
import re
from collections import namedtuple

from syntax import Unread

# `glued`: nothing stands between this token and the one before it; `ends`: a space or nothing stands behind it
Token = namedtuple('Token', 'kind text line glued ends')

TOKEN = re.compile(r'''
    (?P<text>"(?:[^"\\]|\\.)*")
  | (?P<number>0x[0-9a-fA-F_]+|[0-9][0-9_]*)
  | (?P<name>[A-Za-z_][A-Za-z0-9_']*(?:-[A-Za-z0-9_']+)*|ℕ|ℤ)
  | (?P<nil>\[\])
  | (?P<sign>-ℤ|\+\+|==|&&|\|\||[⧺∷↦λ×⊎≡≢≤→↔⊤⊥◌*+/%^=|{}()\[\];,.:<-])''', re.VERBOSE)


def without_comment(line):
    """A line up to its comment; two signs `--` within a text are none."""
    quoted = False
    for at, sign in enumerate(line):
        if sign == '"' and line[at - 1:at] != '\\':
            quoted = not quoted
        if not quoted and line.startswith('--', at):
            return line[:at].rstrip()
    return line.rstrip()


def tokens_of(page, line, number):
    """The tokens of one line."""
    found, at = [], 0
    while at < len(line):
        if line[at] == ' ':
            at += 1
            continue
        match = TOKEN.match(line, at)
        if match is None:
            raise Unread(page, number, f'no token: {line[at:at + 20]}')
        end = match.end()
        found.append(Token(match.lastgroup, match.group(), number, at > 0 and line[at - 1] != ' ',
                           end == len(line) or line[end] == ' '))
        at = end
    return found


class Item:
    """A piece of a page: the tokens of its first line, and those of each line below it."""

    def __init__(self, tokens):
        self.lines = [tokens]

    @property
    def line(self):
        return self.lines[0][0].line

    def tokens(self):
        return [token for line in self.lines for token in line]


def margin_of(line):
    return len(line) - len(line.lstrip(' '))


def items_of(page, text):
    """The items of a page; those below `mutual` stand one step in from it."""
    items, is_mutual = [], False
    for number, raw in enumerate(text.split('\n'), 1):
        line = without_comment(raw)
        if not line.strip():
            continue
        tokens, margin = tokens_of(page, line, number), margin_of(line)
        if margin == 0 and tokens[-1].text == 'mutual':
            is_mutual = True
            continue
        if margin == 0:
            is_mutual = is_mutual and tokens[0].text in ')]}'
        if margin > (2 if is_mutual else 0) or tokens[0].text in (')', ']', '}'):
            items[-1].lines.append(tokens)
        else:
            items.append(Item(tokens))
    return items
