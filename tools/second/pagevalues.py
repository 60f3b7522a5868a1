"""Commands, images and acts of the second editor as values of the pages, and what other modules need of tools/pages."""
import os
import sys

sys.path.append(os.path.join(os.path.dirname(os.path.abspath(__file__)), '..', 'pages'))

from deciding import GIVEN, NOTES  # noqa: E402, F401
from pages import value  # noqa: E402
from running import with_room  # noqa: E402, F401
from values import Made, Signed, apply, force, numbers, sequence, stretch  # noqa: E402, F401

KINDS = {'g': Made('G'), 'r': Made('R'), 'z': Made('Z')}
RULES = (Made('NoRule'), Made('Pad'), Made('Previous'))
SCOPES = {1: Made('Global'), 2: Made('Variable')}


def data_type(code):
    return force(apply(value('cdf_model', 'Types', 'type_of'), (Signed(code),))).members[0]


def texts(words):
    return stretch([stretch(bytes(word)) for word in words])


def list_of(members):
    return stretch(list(members))


# By the kind of a command, the name of its variant and the values of its parts
VARIANTS = {
    'info': lambda c: ('Info',), 'list': lambda c: ('List',),
    'attr': lambda c: ('Attr', stretch(c.name), SCOPES[c.scope]),
    'rename-attr': lambda c: ('RenameAttr', stretch(c.name), stretch(c.to)),
    'del-attr': lambda c: ('DelAttr', stretch(c.name)),
    'put-entry': lambda c: ('PutEntry', stretch(c.name), KINDS[c.entry], c.num, data_type(c.type), texts(c.words)),
    'get-entry': lambda c: ('GetEntry', stretch(c.name), KINDS[c.entry], c.num),
    'del-entry': lambda c: ('DelEntry', stretch(c.name), KINDS[c.entry], c.num),
    'setup': lambda c: ('Setup', c.encoding, Made('Row' if c.row else 'Column'), list_of(c.dims)),
    'rvar': lambda c: ('RVar', stretch(c.name), data_type(c.type), c.elems, c.vary, list_of(c.varys)),
    'zvar': lambda c: ('ZVar', stretch(c.name), data_type(c.type), c.elems, c.vary, list_of(c.dims), list_of(c.varys)),
    'rename-var': lambda c: ('RenameVar', stretch(c.name), stretch(c.to)),
    'del-var': lambda c: ('DelVar', stretch(c.name)),
    'set-pad': lambda c: ('SetPad', stretch(c.name), texts(c.words)),
    'set-sparse': lambda c: ('SetSparse', stretch(c.name), RULES[c.rule]),
    'set-compress': lambda c: ('SetCompress', stretch(c.name), c.rle),
    'set-blocking': lambda c: ('SetBlocking', stretch(c.name), c.n),
    'put-rec': lambda c: ('PutRec', stretch(c.name), c.rec, texts(c.words)),
    'get-rec': lambda c: ('GetRec', stretch(c.name), c.rec),
    'del-recs': lambda c: ('DelRecs', stretch(c.name), c.first, c.last),
    'put-val': lambda c: ('PutVal', stretch(c.name), c.rec, list_of(c.index), texts(c.words)),
    'get-val': lambda c: ('GetVal', stretch(c.name), c.rec, list_of(c.index)),
    'reindex': lambda c: ('Reindex', stretch(c.name)), 'checksum': lambda c: ('Checksum', c.md5)}


def command_value(c):
    tag, *members = VARIANTS[c.kind](c)
    return Made(tag, tuple(members))


def image_value(image):
    return stretch(bytes(image))


def acts_value(acts):
    return stretch([Made('Took' if kind == 'take' else 'Gave', (place, size)) for kind, place, size in acts])
