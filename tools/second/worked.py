"""Small scripts, and what the file has after them, worked out by hand: python3 worked.py."""
from editor import apply
from handmade import Hand
from image import Image
from layout import AGREDR, AZEDR, TYPE_NAMED, UIR, Adr, Aedr, Cdr, Gdr, Vdr, fresh_image
from model import Command, Refused
from validator import broken, sealed


def command(line):
    """A command of the script language, of those that stand below."""
    words = line.split()
    kind, rest = words[0], words[1:]
    data = [word.encode() for word in rest]
    if kind == 'attr':
        return Command(kind, name=data[0], scope=1 if rest[1] == 'global' else 2)
    if kind == 'put-entry':
        return Command(kind, name=data[0], entry=rest[1], num=int(rest[2]), type=TYPE_NAMED[rest[3]].code,
                       words=data[4:])
    if kind in ('get-entry', 'del-entry'):
        return Command(kind, name=data[0], entry=rest[1], num=int(rest[2]))
    if kind == 'zvar':
        dims = [int(n) for n in rest[4].split(',')] if rest[4] != '-' else []
        varys = [letter == 'T' for letter in rest[5]] if rest[5] != '-' else []
        return Command(kind, name=data[0], type=TYPE_NAMED[rest[1]].code, elems=int(rest[2]), vary=rest[3] == 'vary',
                       dims=dims, varys=varys)
    if kind == 'rvar':
        return Command(kind, name=data[0], type=TYPE_NAMED[rest[1]].code, elems=int(rest[2]), vary=rest[3] == 'vary',
                       varys=[letter == 'T' for letter in rest[4]])
    if kind == 'setup':
        return Command(kind, encoding=int(rest[0]), row=rest[1] == 'row', dims=[int(n) for n in rest[2].split(',')])
    if kind in ('put-rec', 'get-rec'):
        return Command(kind, name=data[0], rec=int(rest[1]), words=data[2:])
    if kind == 'del-recs':
        return Command(kind, name=data[0], first=int(rest[1]), last=int(rest[2]))
    if kind == 'set-sparse':
        return Command(kind, name=data[0], rule=('none', 'pad', 'previous').index(rest[1]))
    if kind == 'set-compress':
        return Command(kind, name=data[0], rle=rest[1] == 'rle')
    if kind == 'set-blocking':
        return Command(kind, name=data[0], n=int(rest[1]))
    if kind == 'set-pad':
        return Command(kind, name=data[0], words=data[1:])
    return Command(kind, name=data[0])


def run(script, image=None):
    """The image after a script, and the reply or the reason of each line."""
    image, replies = bytes(image or fresh_image()), []
    for line in script.split('; '):
        try:
            edited, _, reply = apply(image, command(line))
            image = bytes(edited.data)
        except Refused as refusal:
            reply = refusal.number
        replies.append(reply)
        assert broken(sealed(image)) == [], line
    return Image(image), replies


def space(image):
    """eof, bytes in use, listed records and bytes, unlisted records and bytes."""
    listed = image.unused()
    tiles = image.tiles()
    loose = [tile.size for tile in tiles if tile.type == UIR and tile.at not in listed]
    return (image.eof, sum(tile.size for tile in tiles if tile.type != UIR), len(listed),
            sum(image.size(at) for at in listed), len(loose), sum(loose))


def leaves(image):
    vdr = (image.variables(8) + image.variables(3))[0]
    return [tuple(leaf) for leaf in image.leaves(image[vdr, Vdr.VXRhead])]


ENTRY = 'attr Project global; put-entry Project g 0 CHAR ISTP'
LONG = ('attr Project global; put-entry Project g 0 CHAR ' + 'x' * 44
        + '; del-entry Project g 0; put-entry Project g 0 CHAR ')
FOUR = 'zvar T INT4 1 vary - -; set-blocking T 4; put-rec T 0 7; put-rec T 3 9'
SPARSE = 'zvar S INT2 1 vary - -; set-sparse S previous; put-rec S 2 20; put-rec S 5 50'
PADS = ('zvar T INT4 1 vary - -; set-sparse T pad; set-blocking T 4; put-rec T 0 1; put-rec T 1 2; put-rec T 2 3; '
        'put-rec T 3 4; del-recs T 1 2')
PACKED = 'zvar R UINT1 1 vary 40 T; set-compress R rle; set-blocking R 1; put-rec R 0 ' + ' '.join(['0'] * 40)
NAMES = 'attr UNITS variable; ' + '; '.join(f'zvar {v} INT4 1 vary - -' for v in 'ABC')


def number(reply):
    return int.from_bytes(reply[2], 'big', signed=True)


def checks():
    image, _ = run('attr Project global; attr Project global')
    yield 'an attribute', image.attributes() == [404] and len(image.data) == 728
    image, _ = run(ENTRY + '; put-entry Project g 0 CHAR ABCD')
    yield 'an entry in place', image.eof == 788
    image, _ = run(ENTRY + '; put-entry Project g 0 CHAR ABCDE')
    yield 'an entry that moves', space(image) == (849, 781, 1, 60, 0, 0)
    image, _ = run(ENTRY + '; del-entry Project g 0; put-entry Project g 0 CHAR DATA')
    yield 'an entry put again', space(image) == (788, 780, 0, 0, 0, 0)
    yield 'a rest too small', space(run(LONG + 'y' * 24)[0]) == (908, 800, 1, 100, 0, 0)
    yield 'a split', space(run(LONG + 'y' * 16)[0]) == (828, 792, 1, 28, 0, 0)
    image, _ = run('zvar T INT4 1 vary - -; zvar U INT4 1 vary 3 T; zvar V INT4 1 vary - -; set-pad U 5')
    yield 'a VDR that moves', image.variables(8) == [404, 1444, 1100] and space(image) == (1800, 1440, 1, 352, 0, 0)
    image, replies = run(FOUR + '; get-rec T 1; get-rec T 3; get-rec T 4')
    yield 'records', ([number(reply) for reply in replies[4:]] == [-2147483647, 9, -2147483647] and image.eof == 916
                      and image.piece(760, 16).hex() == '07000000010000800100008009000000')


def foreign_entries():
    """An attribute whose entries stand out of order of number and place, another one, and unused records."""
    h = Hand()
    loose, last, small = h.free(20), h.entry(AGREDR, 2, b'two'), h.free(60)
    first, large = h.entry(AGREDR, 9, b'nine', size=70), h.free(90)
    z = h.entry(AZEDR, 4, b'four')
    attributes = [h.attribute(b'A', 3, [first, last]), h.attribute(b'B', 2, z=[z])]
    file = h.finished(attributes=attributes, listed=[small, large])
    return file, loose.at, last.at, small.at, first.at, large.at, z.at


def checks_of_entries():
    yield 'an attribute that goes', space(run(ENTRY + '; del-attr Project')[0]) == (788, 396, 2, 384, 0, 0)
    file, loose, last, small, first, large, z = foreign_entries()
    a, b = Image(file).attributes()
    image, _ = run('put-entry A g 2 CHAR twice', file)
    moved = image.entries(a, AGREDR)[1]
    yield 'an entry that moves to a split record', (
        moved == large and image.size(large) == 61 and image.unused() == [last, small, large + 61]
        and image[large, Aedr.rfuD] == 7 and image[large, Aedr.NumStrings] == 0 and image[a, Adr.MAXgrEntry] == 9)
    image, _ = run('put-entry A g 0 CHAR zero', file)
    yield 'an entry in an unused record of its size', (
        image.entries(a, AGREDR) == [first, last, small] and image.unused() == [large] and image[a, Adr.MAXzEntry] == 7)
    image, _ = run('put-entry A g 9 CHAR fourteen_bytes', file)
    yield 'an entry that fills its record', image.entries(a, AGREDR) == [first, last] and image.eof == len(file)
    image, _ = run('del-attr A; put-entry B z 4 CHAR x; del-entry B z 4', file)
    yield 'entries go in the order of their chain', image.unused() == [z, a, last, first, small, large]
    yield 'the other attribute is the first one now', image[b, Adr.Num] == 0 and image[b, Adr.MAXzEntry] == -1
    yield 'an unused record on no list stays', image.size(loose) == 20 and loose not in image.unused()


def checks_of_cuts():
    image, replies = run(SPARSE + '; get-rec S 0; get-rec S 4; get-rec S 5; get-rec S 2147483646; get-rec S 2147483647')
    yield 'sparse records', [number(reply) for reply in replies[4:8]] == [-32767, 20, 50, -32767] and replies[8] == 14
    yield 'sparse leaves', leaves(image) == [(2, 2, 748), (5, 68, 1028)] and image.eof == 1168
    h = Hand()
    foreign = h.finished([h.variable(b'T', 3, h.node(7, [(0, 9, h.block(bytes(20)))]), sparse=1, type_code=2)])
    image, replies = run('put-rec T 8 5; get-rec T 4; get-rec T 8', foreign)
    yield 'coverage past MaxRec is cut', ([leaf[:2] for leaf in leaves(image)] == [(0, 3), (8, 71)]
                                          and [number(reply) for reply in replies[1:]] == [-32767, 5])
    image, _ = run(PACKED)
    yield 'a packed block', leaves(image) == [(0, 0, 784)] and image.eof == 952 and image.piece(808, 2).hex() == '0027'
    image, _ = run(PACKED + '; put-rec R 0 ' + ' '.join(['1'] * 40))
    yield 'a block that is not worth packing', leaves(image) == [(0, 0, 952)] and image.eof == 1004
    lines = ''.join(f'; put-entry UNITS z {i} CHAR {c}' for i, c in enumerate('abc'))
    image, replies = run(NAMES + lines + '; del-var A; get-entry UNITS z 0; get-entry UNITS z 1; get-entry UNITS z 2')
    yield 'a variable that goes', [reply[2] for reply in replies[8:10]] == [b'b', b'c'] and replies[10] == 8
    yield 'its greatest entry number', image[image.attributes()[0], Adr.MAXzEntry] == 1
    image, replies = run(FOUR + '; put-rec T 1 2; put-rec T 2 3; put-rec T 3 4; del-recs T 1 2; get-rec T 1; '
                         'get-rec T 2')
    yield 'a cut that closes', [number(reply) for reply in replies[8:]] == [4, -2147483647] and image.eof == 916
    image, replies = run(PADS + '; get-rec T 2; get-rec T 3')
    yield 'a cut that splits', ([number(reply) for reply in replies[8:]] == [-2147483647, 4]
                                and leaves(image) == [(0, 0, 748), (3, 3, 916)] and image.eof == 944)
    image, _ = run('setup 1 column 2,3; rvar X INT4 1 vary TT')
    yield 'the GDR moves', (image.gdr, image.size(404), image.variables(3), image.unused(), image.eof) == (
        404, 92, [496], [320], 844)
    yield 'reindex', space(run(FOUR + '; reindex T')[0]) == (1968, 1820, 1, 140, 0, 0)
    yield 'too large', run('zvar T INT4 1 vary - -; put-rec T 2147483646 5')[1][1] == 16


def changed(image, at, data):
    image = bytearray(image)
    image[at:at + len(data)] = data
    return bytes(image)


def first_broken(file):
    return (broken(file) or [None])[0]


def checks_of_rules():
    new = bytes(fresh_image())
    two, _ = run('attr A global; attr B global')
    circle = changed(two.data, 728 + Adr.ADRnext.offset, (404).to_bytes(8, 'big'))
    longer = changed(new, 320 + Gdr.eof.offset, (416).to_bytes(8, 'big')) + bytes.fromhex('000000000000000c00000007')
    digest = sealed(apply(new, Command('checksum', md5=True))[0].data)
    for text, file, verdict in (
            ('an empty file', b'', (0, 1, 0)),
            ('a file compressed as a whole', changed(new, 4, bytes.fromhex('cccc0001')), (1, 2, 4)),
            ('a file of several', changed(new, 8 + Cdr.Flags.offset, (1).to_bytes(4, 'big')), (2, 5, 8)),
            ('a wrong eof', changed(new, 320 + Gdr.eof.offset, (403).to_bytes(8, 'big')), (3, 4, 320)),
            ('a circle', circle, (5, 2, 728)),
            ('a record of nobody', longer, (9, 1, 404)),
            ('a wrong checksum', changed(digest, 100, b'!'), (10, 1, 404))):
        yield text, first_broken(file) == verdict
    yield 'a checksum', len(digest) == 420 and broken(digest) == []


def main():
    for text, holds in [*checks(), *checks_of_entries(), *checks_of_cuts(), *checks_of_rules()]:
        print('holds' if holds else 'FAILS', text)


if __name__ == '__main__':
    main()
