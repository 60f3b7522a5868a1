"""Random commands, most of them about attributes and variables that are there."""
from layout import ENCODINGS, TEXT_TYPES, TYPES
from model import Command

KINDS = ('attr', 'rename-attr', 'del-attr', 'put-entry', 'get-entry', 'del-entry', 'setup', 'rvar', 'zvar',
         'rename-var', 'del-var', 'set-pad', 'set-sparse', 'set-compress', 'set-blocking', 'put-rec', 'get-rec',
         'del-recs', 'put-val', 'get-val', 'reindex', 'checksum', 'info', 'list')
CUTS = ('del-recs', 'set-sparse', 'set-compress')
WEIGHTS = {'put-rec': 10, 'put-val': 4, 'del-recs': 8, 'put-entry': 6, 'del-entry': 3, 'set-sparse': 3,
           'set-compress': 3, 'zvar': 3, 'rvar': 2, 'attr': 2, 'reindex': 2, 'set-pad': 2, 'info': .2, 'list': .2,
           'get-entry': .3, 'get-rec': .3, 'get-val': .3, 'del-attr': .6, 'del-var': .7, 'setup': .5}


class Script:
    def __init__(self, random):
        self.random = random

    def pick(self, *choices):
        return self.random.choice(choices)

    def name(self, members, stem):
        if members and self.random.random() < 0.97:
            return self.random.choice(members).name
        return stem + str(self.random.randrange(4)).encode()

    def new_name(self, stem):
        if self.random.random() < 0.03:
            return self.pick(b'', b'a\0b', b'n' * 257, b'n' * 256)
        return stem + str(self.random.randrange(500)).encode()

    def word(self, data_type, elems=1):
        if data_type.code in TEXT_TYPES:
            return self.random.randbytes(elems if self.random.random() < 0.97 else elems + 1)
        if self.random.random() < 0.02:
            return b'x'
        zero = self.random.random() < 0.4
        if data_type.signed is None:
            return (bytes(data_type.size) if zero else self.random.randbytes(data_type.size)).hex().encode()
        bits = 8 * data_type.size - (1 if data_type.signed else 0)
        return str(0 if zero else self.random.randrange(2 ** bits)).encode()

    def rec(self, v):
        if not v.vary and self.random.random() < 0.9:
            return 0
        near = v.max_rec + self.pick(0, 1, 1, 1, 2, 5)
        return max(0, self.pick(near, near, self.random.randrange(v.max_rec + 2), self.random.randrange(30)))

    def command(self, d, kinds=KINDS, even=False):
        kind = self.random.choices(kinds, [1 if even else WEIGHTS.get(k, 1) for k in kinds])[0]
        make = getattr(self, 'make_' + kind.replace('-', '_'))
        return make(d)

    def make_info(self, d):
        return Command('info')

    def make_list(self, d):
        return Command('list')

    def make_attr(self, d):
        return Command('attr', name=self.new_name(b'a'), scope=self.pick(1, 2, 2))

    def make_rename_attr(self, d):
        return Command('rename-attr', name=self.name(d.attributes, b'a'), to=self.new_name(b'a'))

    def make_del_attr(self, d):
        return Command('del-attr', name=self.name(d.attributes, b'a'))

    def entry_place(self, d):
        name = self.name(d.attributes, b'a')
        a = d.attribute(name)
        kind = self.pick('g') if a is not None and a.is_global() else self.pick('r', 'z')
        if self.random.random() < 0.03:
            kind = self.pick('g', 'r', 'z')
        return name, a, kind

    def make_put_entry(self, d):
        name, _, kind = self.entry_place(d)
        t = self.random.choice(list(TYPES.values()))
        if t.code in TEXT_TYPES:
            words = [self.random.randbytes(self.pick(1, 4, 24, 44, 100))]
        else:
            words = [self.word(t) for _ in range(self.pick(1, 1, 2, 5, 12))]
        if self.random.random() < 0.02:
            words = words * 2
        return Command('put-entry', name=name, entry=kind, num=self.random.randrange(5), type=t.code, words=words)

    def make_get_entry(self, d):
        return self.entry_there(d, 'get-entry')

    def make_del_entry(self, d):
        return self.entry_there(d, 'del-entry')

    def entry_there(self, d, kind_of_command):
        name, a, kind = self.entry_place(d)
        there = list((a.z if kind == 'z' else a.g)) if a is not None else []
        num = self.random.choice(there) if there and self.random.random() < 0.95 else self.random.randrange(5)
        return Command(kind_of_command, name=name, entry=kind, num=num)

    def make_setup(self, d):
        return Command('setup', encoding=self.random.choice(ENCODINGS + (3,)), row=self.pick(True, False),
                       dims=[self.pick(1, 2, 3) for _ in range(self.pick(0, 1, 2, 3, 8))])

    def shape(self):
        t = self.random.choice(list(TYPES.values()))
        elems = self.pick(1, 2, 4) if t.code in TEXT_TYPES else self.pick(1, 1, 1, 1, 1, 1, 1, 1, 1, 0)
        return t.code, elems, self.random.random() < 0.85

    def make_rvar(self, d):
        t, elems, vary = self.shape()
        return Command('rvar', name=self.new_name(b'v'), type=t, elems=elems, vary=vary,
                       varys=[self.pick(True, False) for _ in d.rdims])

    def make_zvar(self, d):
        t, elems, vary = self.shape()
        dims = [self.pick(1, 2, 3, 4) for _ in range(self.pick(0, 0, 1, 2))]
        return Command('zvar', name=self.new_name(b'v'), type=t, elems=elems, vary=vary, dims=dims,
                       varys=[self.pick(True, True, False) for _ in dims])

    def variable(self, d):
        name = self.name(d.r + d.z, b'v')
        return name, d.variable(name)

    def make_rename_var(self, d):
        return Command('rename-var', name=self.variable(d)[0], to=self.new_name(b'v'))

    def make_del_var(self, d):
        return Command('del-var', name=self.variable(d)[0])

    def make_set_pad(self, d):
        name, v = self.variable(d)
        return Command('set-pad', name=name, words=[self.word(TYPES[v.type], v.elems) if v else b'0'])

    def empty_variable(self, d):
        """The name of a variable without records, where there is one."""
        return self.name([v for v in d.r + d.z if v.max_rec == -1] or d.r + d.z, b'v')

    def make_set_sparse(self, d):
        return Command('set-sparse', name=self.empty_variable(d), rule=self.pick(0, 1, 2))

    def make_set_compress(self, d):
        return Command('set-compress', name=self.empty_variable(d), rle=self.pick(True, True, False))

    def make_set_blocking(self, d):
        return Command('set-blocking', name=self.variable(d)[0], n=self.pick(0, 1, 2, 3, 4, 7, 16, 2147483648))

    def make_put_rec(self, d):
        name, v = self.variable(d)
        if v is None:
            return Command('put-rec', name=name, rec=0, words=[b'1'])
        count = v.values() + (1 if self.random.random() < 0.02 else 0)
        words = [self.word(TYPES[v.type], v.elems) for _ in range(count)]
        if self.random.random() < 0.3:
            words = [words[0]] * count
        return Command('put-rec', name=name, rec=self.rec(v), words=words)

    def make_get_rec(self, d):
        name, v = self.variable(d)
        return Command('get-rec', name=name, rec=self.rec(v) if v else 0)

    def make_del_recs(self, d):
        stored = [v for v in d.r + d.z if v.max_rec >= 0]
        name = self.name(stored or d.r + d.z, b'v')
        v = d.variable(name)
        top = v.max_rec if v else 0
        first = self.random.randrange(top + 1) if top >= 0 else 0
        last = min(first + self.pick(0, 0, 1, 3, 8), top) if self.random.random() < 0.97 else top + 1
        if self.random.random() < 0.2:
            last = top
        return Command('del-recs', name=name, first=first, last=max(last, 0))

    def index_of(self, v):
        return [self.random.randrange(n) if self.random.random() < 0.98 else n for n in v.dims]

    def make_put_val(self, d):
        name, v = self.variable(d)
        if v is None:
            return Command('put-val', name=name, rec=0, index=[], words=[b'1'])
        return Command('put-val', name=name, rec=self.rec(v), index=self.index_of(v),
                       words=[self.word(TYPES[v.type], v.elems)])

    def make_get_val(self, d):
        name, v = self.variable(d)
        return Command('get-val', name=name, rec=self.rec(v) if v else 0, index=self.index_of(v) if v else [])

    def make_reindex(self, d):
        return Command('reindex', name=self.variable(d)[0])

    def make_checksum(self, d):
        return Command('checksum', md5=self.pick(True, False))
