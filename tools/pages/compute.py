"""Prints what a definition of a page gives: python3 tools/pages/compute.py CRATE PAGE NAME ARGUMENT..

An argument is an expression that may stand on that page, `@FILE` for the bytes of a file, or `:LINE` for the command
that a line of a script is. So `compute.py cdf_edits Index.Blocks next_first 3 "(1 ∷ 7 ∷ [])"` gives 7, and
`compute.py cdf_edits Commands.Room room @FILE.cdf ":put-rec T 4 9"` gives by how many bytes this may raise eof.
"""
import sys
from pprint import pprint

from computing import Scope, code_of
from pages import page, value
from reading import Reader
from running import with_room
from tokens import tokens_of
from values import Made, apply, force, shown, stretch


def command(line):
    """The command that a line of a script asks for."""
    asked = force(apply(value('cdf_model', 'Grammar', 'parse'), (Made('Some', (stretch(line.encode()),)),)))
    if asked.tag != 'Asks':
        sys.exit(f'{line} is no command: {shown(asked)}')
    return asked.members[0]


def argument(own, text):
    """An argument as it is written, in the scope of a page."""
    if text.startswith('@'):
        with open(text[1:], 'rb') as file:
            return stretch(file.read())
    if text.startswith(':'):
        return command(text[1:])
    reader = Reader('argument', tokens_of('argument', text, 1), own.read.aliases)
    made = reader.expression()
    reader.end()
    return force(code_of(made, Scope(own, 'argument'))(()))


def main():
    if len(sys.argv) < 4:
        sys.exit(__doc__)
    crate, name, definition, *texts = sys.argv[1:]
    own = page(crate, name)
    made = own.value(definition, 0)
    pprint(shown(apply(made, [argument(own, text) for text in texts]) if texts else made), width=120)


if __name__ == '__main__':
    with_room(main)
