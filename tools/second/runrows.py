"""Runs rows of whole runs (crates/cdf_rows/data) by the editor: python3 runrows.py FILE.. [--after TITLE].

The files are read one after the other, as cdf_rows reads them: what one tells of files stays for the next. Of each row
it says whether the editor writes the same text, ends with the same status and leaves the same file. A line to which the
row answers BadLine counts as no command. A verdict is right where the rule is broken at the place, whichever of several
is named; a packed variable breaks rule 9.99. Of the words it knows --new, --check, --no-save and --space. A row with
a limit runs its script over a new image that may grow to so many bytes, and leaves this image. What is told of a run on
standard error it does not look at, nor at how often the store is called; a row whose store fails it leaves out. With
--after it prints what the run of a row leaves, as lines of a file of rows.
"""
import sys
from dataclasses import dataclass, field
from types import SimpleNamespace

from content import content
from editor import apply
from events import NeedsVarType, Tally, dump, report
from image import Image
from layout import (ADR, AGREDR, AZEDR, CDR, CPR, CVVR, GDR, IMAGE_LIMIT, RVDR, UIR, VVR, VXR, ZVDR, Adr, Aedr, Cdr,
                    Cpr, Cvvr, Gdr, Uir, Vdr, Vxr, fresh_image)
from model import READERS, Refused
from rowscript import command_of, quoted, words_of
from texts import refusal_text, reply_text
from validator import broken, sealed, unsealed
from worked import space

LONGEST = 16_777_216
# What cdfedit does where no rule fixes it
CHOSEN = ('later_last',)


@dataclass
class Row:
    title: str
    words: list = field(default_factory=lambda: ['a.cdf'])
    before: str = 'new'
    changes: list = field(default_factory=list)
    script: bytes = b''
    text: bytes = b''
    status: int = 0
    told: str = None
    fails: list = field(default_factory=list)
    calls: int = None
    under: str = 'a.cdf'
    is_saved: bool = False
    after: str = None
    limit: int = None


def change_of(text):
    """A place and bytes."""
    place, _, digits = text.partition(' ')
    return int(place), bytes.fromhex(digits)


def write(file, change):
    """Writes bytes over a file, as far as it goes."""
    place, data = change
    data = data[:max(0, len(file) - place)]
    file[place:place + len(data)] = data


class Table:
    """The files and the rows that files of rows tell."""

    def __init__(self):
        self.files, self.rows, self.last = {}, [], None

    def read(self, name):
        with open(name, encoding='utf-8') as file:
            for line in file.read().split('\n'):
                key, _, rest = line.lstrip().partition(' ')
                if key and key != '#':
                    getattr(self, 'take_' + key.replace('-', '_'))(rest)

    def take_file(self, text):
        name, size, *base = text.split()
        assert name not in self.files, f'the file {name} is told twice'
        data = self.files[base[0]] if base else b''
        self.files[name] = bytearray(data[:int(size)].ljust(int(size), b'\0'))
        self.last = self.files[name]

    def take_at(self, text):
        write(self.last, change_of(text))

    def take_row(self, text):
        self.rows.append(Row(text))

    def take_words(self, text):
        self.rows[-1].words = ['' if word == '""' else word for word in text.split()]

    def take_before(self, text):
        self.rows[-1].before = text

    def take_with(self, text):
        self.rows[-1].changes.append(change_of(text))

    def take_after(self, text):
        self.rows[-1].after = text

    def take_script(self, text):
        self.rows[-1].script += text.encode() + b'\n'

    def take_last(self, text):
        self.rows[-1].script += text.encode()

    def take_bytes(self, text):
        self.rows[-1].script += bytes.fromhex(text)

    def take_repeat(self, text):
        count, _, digits = text.partition(' ')
        self.rows[-1].script += bytes.fromhex(digits) * int(count)

    def take_text(self, text):
        self.rows[-1].text += text.encode() + b'\n'

    def take_text_bytes(self, text):
        self.rows[-1].text += bytes.fromhex(text)

    def take_text_repeat(self, text):
        count, _, digits = text.partition(' ')
        self.rows[-1].text += bytes.fromhex(digits) * int(count)

    def take_status(self, text):
        self.rows[-1].status = int(text)

    def take_told(self, text):
        told = self.rows[-1].told
        self.rows[-1].told = text if told is None else f'{told}\n{text}'

    def take_fails(self, text):
        self.rows[-1].fails = [int(word) for word in text.split()]

    def take_calls(self, text):
        self.rows[-1].calls = int(text)

    def take_under(self, text):
        self.rows[-1].under = text

    def take_saved(self, _):
        self.rows[-1].is_saved = True

    def take_limit(self, text):
        self.rows[-1].limit = int(text)


# A run

def rules_broken(file):
    """What a file breaks, and with the rules on owners that a packed variable is not read so far."""
    wrong = broken(file)
    if wrong and wrong[0][0] < 9:
        return wrong
    image = Image(unsealed(file))
    packed = [vdr for kind in (RVDR, ZVDR) for vdr in image.variables(kind) if image.compressed(vdr)]
    return [rule for rule in wrong if rule[0] == 9] + [(9, 99, vdr) for vdr in packed] or wrong


class Run:
    def __init__(self, row, before):
        self.row, self.before = row, before
        self.text, self.status = b'', 0
        self.after = before
        self.taps = [Tally(), NeedsVarType()]

    def bad_line_of(self, number):
        """The reply to a line that the row takes as no command."""
        start = f'{number} refused 1 BadLine '.encode()
        return next((line + b'\n' for line in self.row.text.split(b'\n') if line.startswith(start)), None)

    def carry_out(self, image):
        lines = self.row.script.split(b'\n')
        for number, line in enumerate(lines[:-1] if not lines[-1] else lines, 1):
            if len(line) <= LONGEST and line.strip(b' \t')[:1] in (b'', b'#'):
                continue
            bad = self.bad_line_of(number)
            if bad:
                self.text += bad
                self.status = 1
                continue
            image = self.one_line(image, number, line)
        return image

    def one_line(self, image, number, line):
        c = command_of(words_of(line))
        try:
            image, text = self.answer(image, number, c)
        except Refused as refusal:
            text = refusal_text(number, refusal)
            self.status = 1
        self.text += text.encode()
        return image

    def answer(self, image, number, c):
        """The image behind a command, and what is written for it."""
        if c.kind == 'dump':
            return image, dump(number, content(Image(image)))
        if c.kind == 'report':
            return image, report(number, self.taps, c.tap, content(Image(image)))
        edited, d, reply = apply(bytes(image), c, self.row.limit or IMAGE_LIMIT, choices=CHOSEN)
        return image if c.kind in READERS else bytes(edited.data), reply_text(number, c, d, reply)

    def go(self):
        if self.row.limit is not None:
            self.after = self.carry_out(bytes(fresh_image()))
            return
        flags = [word for word in self.row.words if word.startswith('--')]
        if self.before is None and '--new' not in flags:
            self.text, self.status = b'no file\n', 3
            return
        wrong = [] if '--new' in flags else rules_broken(bytes(self.before))
        if wrong:
            self.status = 4
            lines = [f'rejected {phase} {rule} {at}\n'.encode() for phase, rule, at in wrong]
            self.text = self.row.text if self.row.text in lines else lines[0]
            return
        image = bytes(fresh_image()) if '--new' in flags else unsealed(bytes(self.before))
        if '--check' in flags:
            self.text = b'yes\n'
        else:
            image = self.carry_out(image)
        if '--space' in flags:
            eof, used, listed, listed_bytes, loose, loose_bytes = space(Image(image))
            self.text += (f'space eof {eof} used {used} listed {listed} {listed_bytes} unlisted {loose} {loose_bytes}\n'
                          ).encode()
        if '--no-save' not in flags and '--check' not in flags:
            self.after = sealed(image)


def wrong_parts(row, table):
    """What of a row the editor has otherwise, and the run."""
    before = None if row.before == 'none' else bytearray(table.files[row.before])
    for change in row.changes:
        write(before, change)
    run = Run(row, before)
    run.go()
    after = before if row.after is None else table.files.get(row.after)
    wrong = []
    if run.text != row.text:
        wrong.append(f'the text {run.text[:400]!r}')
    if run.status != row.status:
        wrong.append(f'the status {run.status}')
    if run.after != after:
        wrong.append('the file')
    return wrong, run


# A file as lines

RECORDS = {CDR: ('CDR', Cdr), GDR: ('GDR', Gdr), ADR: ('ADR', Adr), AGREDR: ('gr entry', Aedr),
           AZEDR: ('z entry', Aedr), RVDR: ('r variable', Vdr), ZVDR: ('z variable', Vdr), VXR: ('node', Vxr),
           VVR: ('block', SimpleNamespace()), CPR: ('CPR', Cpr), CVVR: ('packed block', Cvvr),
           UIR: ('unused record', Uir)}


def pieces_of(tile):
    """The fields of a record, each with its name, and what follows them."""
    fields = vars(RECORDS[tile.type][1])
    yield 'size', tile.at, 8
    yield 'type', tile.at + 8, 4
    upto = 12
    if tile.type != UIR or tile.size >= 28:
        for name, piece in fields.items():
            if name != 'Copyright' and (name != 'zNumDims' or tile.type == ZVDR):
                yield name, tile.at + piece.offset, piece.width
                upto = piece.offset + piece.width
    yield 'value' if tile.type in (AGREDR, AZEDR) else 'the rest', tile.at + upto, tile.size - upto


def piece_text(name, new):
    if name in ('Name', 'value', 'the rest'):
        is_plain = len(new) <= 40 and all(32 <= byte < 127 for byte in new)
        return f'{name} {quoted(new)}' if is_plain else name
    return f'{name} {int.from_bytes(new, "big", signed=True)}'


# What each new variable has as -1, which is not told
USUAL = ('MaxRec', 'rfuC', 'rfuF', 'CPRorSPRoffset')


def is_usual(tile, name, new):
    return tile.type in (RVDR, ZVDR) and name in USUAL and not new.strip(b'\xff')


def without_same_end(new, was):
    """The bytes of a long piece, but for those at its end that stood there before."""
    upto = len(new)
    while upto > 0 and new[upto - 1] == was[upto - 1]:
        upto -= 1
    return new[:upto]


def lines_of_record(tile, data, old):
    """The fields of a record that differ, and their bytes: those that follow each other in one line."""
    told, runs = [], []
    for name, at, width in pieces_of(tile):
        new, was = bytes(data[at:at + width]), old[at:at + width]
        if new == was:
            continue
        if not is_usual(tile, name, new):
            told.append(piece_text(name, new.rstrip(b'\0') if name == 'Name' else new))
        if name in ('Name', 'the rest') or width > 40:
            new = without_same_end(new, was)
        if runs and runs[-1][1] == at:
            runs[-1] = runs[-1][0], at + len(new), f'{runs[-1][2]} {new.hex()}'
        else:
            runs.append((at, at + len(new), new.hex()))
    if told:
        yield f'  # Of the {RECORDS[tile.type][0]} at {tile.at}: ' + ', '.join(told) + '.'
        yield from (f'  at {at} {digits}' for at, _, digits in runs)


def lines_of_file(name, base_name, base, data):
    """A file by what differs from another: the lines of a file of rows."""
    yield f'file {name} {len(data)} {base_name}'.rstrip()
    old = bytes(base[:len(data)]).ljust(len(data), b'\0')
    image = Image(data)
    for tile in image.tiles():
        yield from lines_of_record(tile, data, old)
    if len(data) > image.eof:
        yield '  # And the trailer.'
        yield f'  at {image.eof} {bytes(data[image.eof:]).hex()}'


def main():
    names, title = sys.argv[1:], None
    if '--after' in names:
        at = names.index('--after')
        names, title = names[:at], names[at + 1]
    table, wrong = Table(), 0
    for name in names:
        table.rows = []
        table.read(name)
        for row in table.rows:
            if title is not None:
                if row.title == title:
                    base = 'new' if row.before == 'none' else row.before
                    after = wrong_parts(row, table)[1].after
                    print(*lines_of_file(row.after or 'after', base, table.files[base], after), sep='\n')
                continue
            if row.fails:
                print(f'  left out: {row.title}')
                continue
            parts, _ = wrong_parts(row, table)
            wrong += bool(parts)
            print(f'  wrong: {row.title}: ' + '; '.join(parts) if parts else f'  right: {row.title}')
    if title is None:
        print(wrong, 'wrong')
    return 1 if wrong else 0


if __name__ == '__main__':
    sys.exit(main())
