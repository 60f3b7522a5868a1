"""Reads all pages and makes each of their definitions ready to run: python3 tools/pages/survey.py [CRATE..].

It tells of each page that cannot be read and of each definition that cannot be run, with the line and the reason. What
has to be given from outside is such a reason too: here nothing is.
"""
import os
import sys

from computing import Scope, definition_call
from deciding import ready
from pages import CRATES, page
from syntax import Apply, Name, Unread


def pages_of(crate):
    """The names of the pages of a crate."""
    top = os.path.join(CRATES, crate, 'specs')
    for folder, _, files in sorted(os.walk(top)):
        for file in sorted(files):
            if file.endswith('.antt'):
                yield os.path.relpath(os.path.join(folder, file), top)[:-len('.antt')].replace(os.sep, '.')


def is_type(own, name):
    """A definition is another name of a type."""
    of_type = own.read.signatures[name].type
    return isinstance(of_type, Apply) and of_type.function == Name('Type', of_type.line)


def definitions_of(own):
    """What makes each definition of a page ready."""
    for name, equations in own.read.equations.items():
        if not is_type(own, name):
            yield lambda name=name, equations=equations: definition_call(equations, Scope(own, name))
    for record in own.read.record_types.values():
        if record.parameters:
            yield lambda record=record: ready(own, record)


def fails(make):
    """Whether something cannot be made, which is told."""
    try:
        make()
    except Unread as error:
        print(error)
        return True
    return False


def main():
    crates = sys.argv[1:] or sorted(os.listdir(CRATES))
    read, unread, ran, failed = 0, 0, 0, 0
    for crate in crates:
        for name in pages_of(crate):
            read += 1
            if fails(lambda: page(crate, name)):
                unread += 1
                continue
            for make in definitions_of(page(crate, name)):
                ran += 1
                failed += fails(make)
    print(f'{read} pages, of which {unread} cannot be read; {ran} definitions, of which {failed} cannot be run')


if __name__ == '__main__':
    main()
