"""Wrong images by hand, one for each way in which a command may go wrong: python3 handwrong.py.

Each is made by a wrong editor on a small file; the right image beside it has to be admitted.
"""
from asking import why_refused
from content import content
from editor import apply
from handmade import Hand
from image import Image
from layout import Vxr, fresh_image
from logged import again
from model import Command as C
from pagevalues import with_room
from runwrong import made_by
from search import refused_whatever
from wrong import WRONG

EDITORS = {cls.__name__: cls for cls in WRONG}


def variable(name=b'T', t=4):
    return C('zvar', name=name, type=t, elems=1, vary=True, dims=[], varys=[])


def put(rec, value, name=b'T'):
    return C('put-rec', name=name, rec=rec, words=[str(value).encode()])


def delete(first, last):
    return C('del-recs', name=b'T', first=first, last=last)


def blocking(n):
    return C('set-blocking', name=b'T', n=n)


def sparse(rule):
    return C('set-sparse', name=b'T', rule=rule)


def compress(rle):
    return C('set-compress', name=b'T', rle=rle)


def entry(num, text, name=b'A'):
    return C('put-entry', name=name, entry='g', num=num, type=51, words=[text])


def drop_entry(num):
    return C('del-entry', name=b'A', entry='g', num=num)


ATTRIBUTE = C('attr', name=b'A', scope=1)


def image_of(commands, start=None):
    image = bytes(fresh_image() if start is None else start)
    for c in commands:
        image = bytes(apply(image, c)[0].data)
    return image


def lower_index():
    """Two nodes below a top one, the second without room for more than one entry."""
    h = Hand()
    blocks = [h.block(bytes([i])) for i in range(1, 4)]
    left = h.node(2, [(0, 0, blocks[0]), (1, 1, blocks[1])])
    right = h.node(2, [(2, 2, blocks[2])])
    top = h.node(3, [(0, 1, left), (2, 2, right)])
    return h.finished([h.variable(b'T', 2, top, blocking=1)])


def chain_of_nodes():
    """Three nodes in a chain; the second has one entry."""
    h = Hand()
    blocks = [h.block(bytes([i])) for i in range(1, 5)]
    nodes = [h.node(2, [(0, 0, blocks[0]), (1, 1, blocks[1])]), h.node(3, [(2, 2, blocks[2])]),
             h.node(3, [(3, 3, blocks[3])])]
    h.link(nodes, Vxr.VXRnext)
    return h.finished([h.variable(b'T', 3, nodes[0], blocking=1, tail=nodes[2])])


def allocated(rle=False):
    """A leaf past MaxRec -1, which set-sparse and set-compress cut."""
    h = Hand()
    block = h.block(bytes(40))
    return h.finished([h.variable(b'T', -1, h.node(7, [(0, 39, block)]), blocking=40)])


def packed():
    """A packed block of 16 records of 4 bytes, of which ten are stored."""
    return [variable(), compress(True), blocking(16)] + [put(k, 0) for k in range(10)]


def small_block():
    h = Hand()
    block = h.block(bytes(12))
    return h.finished([h.variable(b'T', 11, h.node(7, [(0, 11, block)]), blocking=12)])


def free_record(size, then):
    """A record of so many bytes on the unused list, and then these commands."""
    return [ATTRIBUTE, entry(0, b'x' * (size - 56)), drop_entry(0)] + then


def spare_node():
    """A leaf past MaxRec -1, and a node with bytes behind its entries."""
    h = Hand()
    node = h.node(7, [(0, 39, h.block(bytes(40)))], spare=40)
    return h.finished([h.variable(b'T', -1, node, blocking=40)])


def unused_filled():
    """A node of seven entries, of which one is used and the others hold numbers."""
    h = Hand()
    return h.finished([h.variable(b'T', 0, h.node(7, [(0, 0, h.block(bytes([1])))], (9, 9, 9)), blocking=1)])


def past_max_rec(count, last=5, rle=False):
    """Under a sparse rule a block of so many records, of which those up to a last one are stored."""
    return [variable(), sparse(1), compress(rle), blocking(count)] + [put(k, k if not rle else 0) for k in range(last + 1)]


FOUR = [variable(), blocking(4)]
ENTRIES = [ATTRIBUTE, entry(0, b'a'), entry(1, b'b'), entry(2, b'c')]
CASES = [
    ('a new block of 92 bytes instead of 28', 'BlockLonger', FOUR, put(0, 7)),
    ('a new node of 156 bytes instead of 140', 'NodeLonger', FOUR, put(0, 7)),
    ('dead bytes at the end', 'FewDeadBytes', FOUR + [put(0, 7)], put(4, 9)),
    ('the rest of 172 bytes leaves the list', 'RestLost', FOUR + [put(0, 7)] + free_record(200, []), put(4, 9)),
    ('a block is moved and the old one leaked', 'BlockMovedLeaked', FOUR + [put(0, 7)], put(1, 7)),
    ('a cut appends 140 dead bytes', 'DeadBytes', FOUR + [put(3, 7)], delete(1, 1)),
    ('a freed block is not listed', 'GivenUnlisted', FOUR + [put(8, 7)], delete(0, 3)),
    ('set-sparse leaves its block unlisted', 'GivenUnlisted', allocated(), sparse(1)),
    ('set-compress leaves its block unlisted', 'GivenUnlisted', allocated(), compress(True)),
    ('a put shrinks a node by 16 bytes', 'NodeShrunk', FOUR + [put(0, 7)], put(4, 9)),
    ('a block of 24 bytes is freed as two', 'GivenInPieces', small_block(), C('del-var', name=b'T')),
    ('reindex of 65 leaves with 1 + 64', 'ReindexFromRight', [variable(), blocking(1), put(64, 1)],
     C('reindex', name=b'T')),
    ('the root of a new index at the first place', 'ReindexRootFirst', [variable(), blocking(1), put(64, 1)],
     C('reindex', name=b'T')),
    ('a record past MaxRec changes in a packed block that is written', 'PackedPastMaxRecChanged', packed()[:4],
     put(0, 8)),
    ('a record past MaxRec changes in a packed block that is cut', 'PackedPastMaxRecChanged', packed(), delete(8, 8)),
    ('a record past MaxRec changes in a block that is written', 'PastMaxRecChanged', FOUR + [put(0, 7)], put(1, 8)),
    ('a record past MaxRec changes in a block that is cut', 'PastMaxRecChanged', FOUR + [put(2, 7)], delete(1, 1)),
    ('a new node though there is room', 'NodeThoughRoom', FOUR + [put(0, 7)], put(4, 9)),
    ('a lower entry is widened to 2147483646', 'WidenedTooFar', lower_index(), put(3, 4)),
    ('del-entry reverses the chain', 'EntriesReversed', ENTRIES, drop_entry(1)),
    ('put-entry puts a new entry first', 'EntryFirst', ENTRIES, entry(3, b'd')),
    ('a replaced entry goes to the end', 'EntryMovedToEnd', ENTRIES, entry(1, b'longer')),
    ('the CPR at eof past a free record of 82', 'AlwaysAtEof', free_record(82, [variable()]), compress(True)),
    ('a listed record is overwritten by del-recs', 'RestChanged', free_record(100, FOUR + [put(8, 7)]), delete(1, 1)),
    ('a node without entries stays', 'EmptyNodeLeft', chain_of_nodes(), delete(2, 2)),
    ('a node that stays gets another Nentries', 'NodeNarrowed', FOUR + [put(0, 7)], put(4, 9)),
    ('a block that is cut is moved', 'BlockMovedOnCut', FOUR + [put(3, 7)], delete(1, 1)),
    ('a block that a put writes is moved', 'BlockMoved', FOUR + [put(3, 7)], put(1, 8)),
    ('a split block is longer than it must be', 'BlockLonger', [variable(), sparse(1), blocking(8)]
     + [put(k, k) for k in range(8)], delete(3, 4)),
    ('bytes behind the links of the rest of a split change', 'RestChanged', free_record(200, FOUR), put(0, 7)),
    ('a freed record keeps not its bytes', 'FreedChanged', ENTRIES, drop_entry(1)),
    ('VXRtail is not written', 'TailNotWritten', FOUR, put(0, 7)),
    ('a cut frees a block that it keeps', 'BlockFreedAndTaken', [variable(), blocking(16), put(15, 7)], delete(4, 15)),
    ('a packed leaf stands in the record of another', 'BlockMovedOnCut',
     [variable(), compress(True), blocking(40), put(79, 0)], delete(0, 44)),
    ('a packed leaf that both cuts make shorter is moved', 'BlockMovedOnCut', past_max_rec(64, 40, True), delete(0, 3)),
    ('a rest changes where what was split off is freed again', 'RestChanged', free_record(200, past_max_rec(16)),
     delete(3, 5)),
    ('a block that the second cut frees changes', 'FreedChanged', past_max_rec(16), delete(0, 5)),
    ('a split block that the second cut frees changes', 'FreedChanged', past_max_rec(16), delete(3, 5)),
    ('a packed block that the second cut frees was longer', 'BlockLonger', past_max_rec(64, 20, True), delete(15, 20)),
    ('what the first of two cuts frees is freed last', 'FirstCutFreesLate',
     [variable(), sparse(1), blocking(4)] + [put(k, k) for k in range(10)], delete(4, 9)),
    ('what is past the new MaxRec is cut before the others', 'PastMaxRecCutFirst', past_max_rec(16), delete(3, 5)),
    ('a block that the second cut frees is not written by the first one', 'LostNotWritten', past_max_rec(16),
     delete(0, 5)),
    ('a node that a cut frees changes behind its entries', 'FreedNodeChanged', spare_node(), sparse(1)),
    ('an entry of a node that set-sparse frees changes', 'FreedEntryChanged', allocated(), sparse(1)),
    ('entries become -1 that no index used', 'UnusedCleared', unused_filled(), put(4, 1)),
    ('a field of a freed ADR holds another number', 'FreedFieldChanged', ENTRIES, C('del-attr', name=b'A')),
    ('a field of a freed VDR holds another number', 'FreedFieldChanged', FOUR + [put(0, 7)], C('del-var', name=b'T')),
    ('a freed VDR leads to its node', 'IndexNotEmptied', FOUR + [put(0, 7)], C('del-var', name=b'T')),
    ('a field of the old GDR holds another number', 'FreedFieldChanged', [], C('setup', encoding=1, row=True, dims=[2])),
    ('a new index has a root too many', 'ReindexTooHigh', FOUR + [put(0, 7)], C('reindex', name=b'T')),
]


def main():
    for text, name, start, c in CASES:
        image = image_of(start) if isinstance(start, list) else start
        right, after, _ = apply(image, c, before=content(Image(image)))
        right = again(image, c, right, after)
        admitted = why_refused(image, c, right.data, right.acts, right.cuts)
        wrong = made_by(EDITORS[name], image, c, after)
        if wrong is None or wrong.data == right.data:
            print('NOT MADE', text)
            continue
        why = refused_whatever(image, c, wrong.data, wrong.acts, wrong.cuts)
        print('refused' if why else 'ADMITTED', '|', text, '|', ', '.join(why[:2]),
              f'| RIGHT ONE REFUSED {admitted}' if admitted else '', flush=True)


if __name__ == '__main__':
    with_room(main)
