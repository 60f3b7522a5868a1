"""The abstract data set, and what each command makes of it. It knows no offset."""
import copy
from dataclasses import dataclass, field

from layout import BYTES_LIMIT, ENCODINGS, LAST_NUMBER, MOST_DIMS, TEXT_TYPES, TYPES, default_pad

GLOBAL, VARIABLE, GLOBAL_ASSUMED, VARIABLE_ASSUMED = 1, 2, 3, 4
NO_RULE, PAD, PREVIOUS = 0, 1, 2

REASONS = {2: 'NoSuchAttr', 3: 'NoSuchVar', 5: 'BadName', 6: 'NameTaken', 7: 'WrongScope', 8: 'NoSuchEntry',
           9: 'NumberOutOfRange', 10: 'BadShape', 11: 'WrongCount', 12: 'BadValue', 13: 'IndexOutOfRange',
           14: 'RecordOutOfRange', 15: 'InUse', 16: 'TooLarge'}


@dataclass
class Attribute:
    name: bytes
    scope: int
    g: dict = field(default_factory=dict)
    z: dict = field(default_factory=dict)

    def is_global(self):
        return self.scope in (GLOBAL, GLOBAL_ASSUMED)


@dataclass
class Variable:
    name: bytes
    type: int
    elems: int
    dims: list
    varys: list
    vary: bool
    sparse: int = NO_RULE
    rle: bool = False
    blocking: int = 0
    max_rec: int = -1
    pad: bytes = None
    recs: dict = field(default_factory=dict)

    def values(self):
        """The number of values of a record."""
        count = 1
        for size, vary in zip(self.dims, self.varys):
            if vary:
                count *= size
        return count

    def value_bytes(self):
        return TYPES[self.type].size * self.elems

    def pad_record(self):
        value = self.pad if self.pad is not None else default_pad(TYPES[self.type], self.elems)
        return value * self.values()

    def read(self, rec):
        rec = rec if self.vary else 0
        if rec > self.max_rec:
            return self.pad_record()
        if rec in self.recs:
            return self.recs[rec]
        if self.sparse == PREVIOUS:
            lower = [k for k in self.recs if k < rec]
            if lower:
                return self.recs[max(lower)]
        return self.pad_record()


@dataclass
class DataSet:
    release: int
    increment: int
    encoding: int
    row: bool
    md5: bool
    rdims: list
    attributes: list
    r: list
    z: list

    def attribute(self, name):
        return next((a for a in self.attributes if a.name == name), None)

    def variable(self, name):
        return next((v for v in self.r + self.z if v.name == name), None)

    def kind_of(self, variable):
        return 'r' if any(v is variable for v in self.r) else 'z'


class Command:
    """A command and its words, by the names of the command's parts."""

    def __init__(self, kind, **words):
        self.kind = kind
        self.__dict__.update(words)

    def __repr__(self):
        words = ' '.join(f'{k}={v!r}' for k, v in self.__dict__.items() if k != 'kind')
        return f'{self.kind} {words}'


class Refused(Exception):
    def __init__(self, number, *more):
        super().__init__(number, *more)
        self.number, self.more = number, more


def refuse_if(condition, number, *more):
    if condition:
        raise Refused(number, *more)


# Values

def value_of(data_type, elems, word):
    """The network bytes of a word, or None."""
    if data_type.code in TEXT_TYPES:
        return word if len(word) == elems else None
    if data_type.signed is None:
        try:
            text = word.decode('ascii')
        except UnicodeDecodeError:
            return None
        if len(text) != 2 * data_type.size or any(c not in '0123456789abcdefABCDEF' for c in text):
            return None
        return bytes.fromhex(text)
    digits = word[1:] if word[:1] == b'-' else word
    if not digits or any(c not in b'0123456789' for c in digits) or (digits[:1] == b'0' and len(word) > 1):
        return None
    try:
        return int(word).to_bytes(data_type.size, 'big', signed=data_type.signed)
    except OverflowError:
        return None


def values_of(data_type, elems, words):
    """The network bytes of words; Refused 12 at the first that breaks the grammar."""
    parts = [value_of(data_type, elems, word) for word in words]
    for at, part in enumerate(parts):
        refuse_if(part is None, 12, at)
    return b''.join(parts)


def bad_name(name):
    return not 1 <= len(name) <= 256 or 0 in name


def place_of(variable, row, index):
    """The number of a value in a record, or None."""
    if len(index) != len(variable.dims) or any(i >= n for i, n in zip(index, variable.dims)):
        return None
    pairs = list(zip(index, variable.dims, variable.varys))
    place, weight = 0, 1
    for i, size, vary in reversed(pairs) if row else pairs:
        if vary:
            place += i * weight
            weight *= size
    return place


# Steps: each changes the data set in place, or refuses before it does

def need_attribute(d, name):
    found = d.attribute(name)
    refuse_if(found is None, 2)
    return found


def need_variable(d, name):
    found = d.variable(name)
    refuse_if(found is None, 3)
    return found


def wrong_scope(attribute, kind):
    return (kind == 'g') != attribute.is_global()


def map_of(attribute, kind):
    return attribute.z if kind == 'z' else attribute.g


def entry_value(t, words):
    """Elements and network bytes of the words of a put-entry."""
    data_type = TYPES[t]
    if t in TEXT_TYPES:
        refuse_if(len(words) != 1, 11, len(words), 1)
        refuse_if(len(words[0]) == 0, 12, 0)
        return len(words[0]), words[0]
    return len(words), values_of(data_type, 1, words)


def bad_dims(dims):
    return len(dims) > MOST_DIMS or any(not 1 <= n <= 2147483647 for n in dims)


def bad_shape(t, elems, dims, varys):
    if elems == 0 or (elems != 1 and t not in TEXT_TYPES) or bad_dims(dims) or len(varys) != len(dims):
        return True
    total = TYPES[t].size * elems
    for size, vary in zip(dims, varys):
        if vary:
            total *= size
    return total > BYTES_LIMIT


def do_attr(d, c):
    refuse_if(bad_name(c.name), 5)
    refuse_if(d.attribute(c.name) is not None, 6)
    d.attributes.append(Attribute(c.name, c.scope))


def do_rename_attr(d, c):
    a = need_attribute(d, c.name)
    refuse_if(bad_name(c.to), 5)
    refuse_if(d.attribute(c.to) is not None, 6)
    a.name = c.to


def do_del_attr(d, c):
    d.attributes.remove(need_attribute(d, c.name))


def do_put_entry(d, c):
    a = need_attribute(d, c.name)
    refuse_if(wrong_scope(a, c.entry), 7)
    most = LAST_NUMBER if c.entry == 'g' else len(d.r if c.entry == 'r' else d.z) - 1
    refuse_if(c.num > most, 9)
    elems, data = entry_value(c.type, c.words)
    map_of(a, c.entry)[c.num] = (c.type, elems, data)


def need_entry(d, c):
    a = need_attribute(d, c.name)
    refuse_if(wrong_scope(a, c.entry), 7)
    refuse_if(c.num not in map_of(a, c.entry), 8)
    return a


def do_get_entry(d, c):
    return map_of(need_entry(d, c), c.entry)[c.num]


def do_del_entry(d, c):
    del map_of(need_entry(d, c), c.entry)[c.num]


def do_setup(d, c):
    refuse_if(c.encoding not in ENCODINGS, 9)
    refuse_if(bad_dims(c.dims), 10)
    refuse_if(d.attributes or d.r or d.z, 15)
    d.encoding, d.row, d.rdims = c.encoding, c.row, list(c.dims)


def do_new_variable(d, c):
    dims = d.rdims if c.kind == 'rvar' else c.dims
    refuse_if(bad_name(c.name), 5)
    refuse_if(d.variable(c.name) is not None, 6)
    refuse_if(bad_shape(c.type, c.elems, dims, c.varys), 10)
    (d.r if c.kind == 'rvar' else d.z).append(
        Variable(c.name, c.type, c.elems, list(dims), list(c.varys), c.vary))


def do_rename_var(d, c):
    v = need_variable(d, c.name)
    refuse_if(bad_name(c.to), 5)
    refuse_if(d.variable(c.to) is not None, 6)
    v.name = c.to


def do_del_var(d, c):
    v = need_variable(d, c.name)
    kind = d.kind_of(v)
    members = d.r if kind == 'r' else d.z
    i = next(k for k, other in enumerate(members) if other is v)
    del members[i]
    for a in d.attributes:
        if not a.is_global():
            old = map_of(a, kind)
            new = {k - (k > i): e for k, e in old.items() if k != i}
            old.clear()
            old.update(new)


def do_set_pad(d, c):
    v = need_variable(d, c.name)
    v.pad = values_of(TYPES[v.type], v.elems, c.words)


def do_set_sparse(d, c):
    v = need_variable(d, c.name)
    refuse_if(v.max_rec != -1, 15)
    v.sparse = c.rule


def do_set_compress(d, c):
    v = need_variable(d, c.name)
    refuse_if(v.max_rec != -1, 15)
    v.rle = c.rle


def do_set_blocking(d, c):
    v = need_variable(d, c.name)
    refuse_if(c.n > 2147483647, 9)
    v.blocking = c.n


def put_record(v, rec, data):
    if v.sparse == NO_RULE:
        for k in range(v.max_rec + 1, rec):
            v.recs[k] = v.pad_record()
    v.recs[rec] = data
    v.max_rec = max(v.max_rec, rec)


def past_records(v, rec, put):
    return rec > LAST_NUMBER or (put and rec != 0 and not v.vary)


# A put this far past the end is never within the room; the records between are not made.
FAR = 1 << 20


def do_put_rec(d, c):
    v = need_variable(d, c.name)
    refuse_if(len(c.words) != v.values(), 11, len(c.words), v.values())
    data = values_of(TYPES[v.type], v.elems, c.words)
    refuse_if(past_records(v, c.rec, True), 14)
    if v.sparse == NO_RULE and c.rec > v.max_rec + FAR:
        raise Refused(16)
    put_record(v, c.rec, data)


def do_get_rec(d, c):
    v = need_variable(d, c.name)
    refuse_if(past_records(v, c.rec, False), 14)
    return v.type, v.elems, v.read(c.rec)


def do_del_recs(d, c):
    v = need_variable(d, c.name)
    refuse_if(c.first > c.last or c.last > v.max_rec, 14)
    kept = {k: data for k, data in v.recs.items() if not c.first <= k <= c.last}
    if v.sparse == NO_RULE:
        count = c.last - c.first + 1
        v.recs = {k - count if k > c.last else k: data for k, data in kept.items()}
        v.max_rec -= count
    else:
        v.recs = kept
        v.max_rec = max(kept, default=-1)


def do_put_val(d, c):
    v = need_variable(d, c.name)
    data = values_of(TYPES[v.type], v.elems, c.words)
    place = place_of(v, d.row, c.index)
    refuse_if(place is None, 13)
    refuse_if(past_records(v, c.rec, True), 14)
    if v.sparse == NO_RULE and c.rec > v.max_rec + FAR:
        raise Refused(16)
    size = v.value_bytes()
    old = v.read(c.rec)
    put_record(v, c.rec, old[:place * size] + data + old[(place + 1) * size:])


def do_get_val(d, c):
    v = need_variable(d, c.name)
    place = place_of(v, d.row, c.index)
    refuse_if(place is None, 13)
    refuse_if(past_records(v, c.rec, False), 14)
    size = v.value_bytes()
    return v.type, v.elems, v.read(c.rec)[place * size:(place + 1) * size]


def do_reindex(d, c):
    need_variable(d, c.name)


def do_checksum(d, c):
    d.md5 = c.md5


def do_info(d, c):
    return (d.release, d.increment, d.encoding, d.row, d.md5, tuple(d.rdims), len(d.attributes), len(d.r), len(d.z))


def do_list(d, c):
    return ([('attribute', i, a.name, a.scope) for i, a in enumerate(d.attributes)]
            + [('rvar', i, v.name) for i, v in enumerate(d.r)] + [('zvar', i, v.name) for i, v in enumerate(d.z)])


STEPS = {
    'attr': do_attr, 'rename-attr': do_rename_attr, 'del-attr': do_del_attr, 'put-entry': do_put_entry,
    'get-entry': do_get_entry, 'del-entry': do_del_entry, 'setup': do_setup, 'rvar': do_new_variable,
    'zvar': do_new_variable, 'rename-var': do_rename_var, 'del-var': do_del_var, 'set-pad': do_set_pad,
    'set-sparse': do_set_sparse, 'set-compress': do_set_compress, 'set-blocking': do_set_blocking,
    'put-rec': do_put_rec, 'get-rec': do_get_rec, 'del-recs': do_del_recs, 'put-val': do_put_val,
    'get-val': do_get_val, 'reindex': do_reindex, 'checksum': do_checksum, 'info': do_info, 'list': do_list,
}
READERS = ('info', 'list', 'get-entry', 'get-rec', 'get-val')


def step(d, c):
    """The data set after a command and its reply; Refused where it is refused. Reason 16 is the editor's."""
    after = copy.deepcopy(d)
    reply = STEPS[c.kind](after, c)
    return after, reply
