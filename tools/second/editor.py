"""The editor: carries out a command on an image, editing records in place by offset."""
from content import content
from layout import (ADR, AGREDR, AZEDR, CHECKSUM, COMPRESSED, CPR, ENTRY_VALUE, GDR_DIMS, HAS_PAD, IMAGE_LIMIT,
                    LAST_NUMBER, MD5, NAME_BYTES, ROW_MAJOR, RVDR, RVDR_DIMS, TYPES, VARY, ZVDR, ZVDR_DIMS, Adr, Aedr,
                    Cdr, Cpr, Gdr, RecordType, Vdr, Vxr, node_size, turned)
from model import READERS, Refused, entry_value, step, values_of
from records import Records

ENTRY_KIND = {'g': AGREDR, 'r': AGREDR, 'z': AZEDR}
# What an entry chain's counts are called in its ADR
COUNTS = {AGREDR: (Adr.NgrEntries, Adr.MAXgrEntry), AZEDR: (Adr.NzEntries, Adr.MAXzEntry)}


class Editor(Records):
    def by_name(self, places, field, name):
        return next(at for at in places if self.name(at, field) == name)

    def attribute_named(self, name):
        return self.by_name(self.attributes(), Adr.Name, name)

    def variable_named(self, name):
        return self.by_name(self.variables(RVDR) + self.variables(ZVDR), Vdr.Name, name)

    def write_name(self, at, field, name):
        self.write(at + field.offset, name + bytes(NAME_BYTES - len(name)))

    def add(self, at, field, by):
        self[at, field] = self[at, field] + by

    def new_record(self, need, kind, fields):
        at = self.take(need)
        self[at, RecordType] = kind
        for field, value in fields.items():
            self[at, field] = value
        return at

    def moved(self, at, need):
        """A copy of a record in a new one of `need` bytes."""
        kind, size = self.type(at), self.size(at)
        by = self.take(need)
        self[by, RecordType] = kind
        self.write(by + 12, self.piece(at + 12, min(size, need) - 12))
        return by

    # Attributes

    def do_attr(self, c):
        at = self.new_record(324, ADR, {Adr.Scope: c.scope, Adr.Num: self[self.gdr, Gdr.NumAttr], Adr.MAXgrEntry: -1,
                                        Adr.MAXzEntry: -1, Adr.rfuE: -1})
        self.write_name(at, Adr.Name, c.name)
        self.append(self.attribute_chain(), at)
        self.add(self.gdr, Gdr.NumAttr, 1)

    def do_rename_attr(self, c):
        self.write_name(self.attribute_named(c.name), Adr.Name, c.to)

    def do_del_attr(self, c):
        adr = self.attribute_named(c.name)
        later = [at for at in self.attributes() if self[at, Adr.Num] > self[adr, Adr.Num]]
        entries = self.entries(adr, AGREDR) + self.entries(adr, AZEDR)
        self.remove(self.attribute_chain(), adr)
        self.add(self.gdr, Gdr.NumAttr, -1)
        for at in later:
            self.add(at, Adr.Num, -1)
            for entry in self.entries(at, AGREDR) + self.entries(at, AZEDR):
                self.add(entry, Aedr.AttrNum, -1)
        for at in entries:
            self.give(at)
        self.give(adr)

    # Entries

    def entry_numbered(self, adr, kind, num):
        return next((at for at in self.entries(adr, kind) if self[at, Aedr.Num] == num), None)

    def write_greatest(self, adr, kind):
        self[adr, COUNTS[kind][1]] = max((self[at, Aedr.Num] for at in self.entries(adr, kind)), default=-1)

    def do_put_entry(self, c):
        adr, kind = self.attribute_named(c.name), ENTRY_KIND[c.entry]
        data_type, elems, network = content_of_entry(c)
        value = turned(data_type, self.little, network)
        need = ENTRY_VALUE + len(value)
        old = self.entry_numbered(adr, kind, c.num)
        chain = self.entry_chain(adr, kind)
        if old is None:
            at = self.new_record(need, kind, {Aedr.AttrNum: self[adr, Adr.Num], Aedr.Num: c.num, Aedr.rfuD: -1,
                                              Aedr.rfuE: -1})
            self.append(chain, at)
            self.add(adr, COUNTS[kind][0], 1)
        elif self.size(old) >= need:
            at = old
        else:
            at = self.moved(old, need)
            self.replace(chain, old, at)
        self[at, Aedr.DataType] = data_type.code
        self[at, Aedr.NumElems] = elems
        self[at, Aedr.NumStrings] = 0
        self.write(at + ENTRY_VALUE, value)
        self.write_greatest(adr, kind)
        if old not in (None, at):
            self.give(old)

    def drop_entry(self, adr, kind, at):
        self.remove(self.entry_chain(adr, kind), at)
        self.add(adr, COUNTS[kind][0], -1)
        self.write_greatest(adr, kind)
        self.give(at)

    def do_del_entry(self, c):
        adr, kind = self.attribute_named(c.name), ENTRY_KIND[c.entry]
        self.drop_entry(adr, kind, self.entry_numbered(adr, kind, c.num))

    # The file

    def do_setup(self, c):
        flags = self[8, Cdr.Flags]
        self[8, Cdr.Encoding] = c.encoding
        self[8, Cdr.Flags] = flags | ROW_MAJOR if c.row else flags & ~ROW_MAJOR
        old, need = self.gdr, GDR_DIMS + 4 * len(c.dims)
        if self.size(old) < need:
            at = self.moved(old, need)
            self[8, Cdr.GDRoffset] = at
        self[self.gdr, Gdr.rNumDims] = len(c.dims)
        for i, size in enumerate(c.dims):
            self.write(self.gdr + GDR_DIMS + 4 * i, size.to_bytes(4, 'big'))
        if self.gdr != old:
            self.give(old)

    def do_checksum(self, c):
        flags = self[8, Cdr.Flags]
        self[8, Cdr.Flags] = flags | CHECKSUM | MD5 if c.md5 else flags & ~(CHECKSUM | MD5)

    # Variables

    def do_rvar(self, c):
        self.new_variable(c, RVDR, RVDR_DIMS, Gdr.NrVars, [])

    def do_zvar(self, c):
        self.new_variable(c, ZVDR, ZVDR_DIMS, Gdr.NzVars, [len(c.dims)] + list(c.dims))

    def new_variable(self, c, kind, dims_at, count, sizes):
        numbers = sizes[1:] + [-1 if vary else 0 for vary in c.varys]
        at = self.new_record(dims_at + 4 * len(numbers), kind, {
            Vdr.DataType: c.type, Vdr.MaxRec: -1, Vdr.Flags: VARY if c.vary else 0, Vdr.rfuC: -1, Vdr.rfuF: -1,
            Vdr.NumElems: c.elems, Vdr.Num: self[self.gdr, count], Vdr.CPRorSPRoffset: -1})
        self.write_name(at, Vdr.Name, c.name)
        if kind == ZVDR:
            self[at, Vdr.zNumDims] = sizes[0]
        for i, number in enumerate(numbers):
            self.write(at + dims_at + 4 * i, number.to_bytes(4, 'big', signed=True))
        self.append(self.variable_chain(kind), at)
        self.add(self.gdr, count, 1)

    def do_rename_var(self, c):
        self.write_name(self.variable_named(c.name), Vdr.Name, c.to)

    def do_del_var(self, c):
        vdr = self.variable_named(c.name)
        kind, num = self.type(vdr), self[vdr, Vdr.Num]
        self.drop_variable_entries(AGREDR if kind == RVDR else AZEDR, num)
        later = [at for at in self.variables(kind) if self[at, Vdr.Num] > num]
        cpr = self.cpr(vdr)
        self.remove(self.variable_chain(kind), vdr)
        for at in later:
            self.add(at, Vdr.Num, -1)
        self.add(self.gdr, Gdr.NrVars if kind == RVDR else Gdr.NzVars, -1)
        if kind == RVDR:
            self.write_r_max()
        self.free_index(vdr)
        if cpr is not None:
            self.give(cpr)
        self.give(vdr)

    def drop_variable_entries(self, kind, num):
        for adr in self.attributes():
            if self[adr, Adr.Scope] not in (2, 4):
                continue
            found = self.entry_numbered(adr, kind, num)
            if found is not None:
                self.drop_entry(adr, kind, found)
            later = [at for at in self.entries(adr, kind) if self[at, Aedr.Num] > num]
            for at in later:
                self.add(at, Aedr.Num, -1)
            if later:
                self.write_greatest(adr, kind)

    def do_set_pad(self, c):
        vdr = self.variable_named(c.name)
        data_type = TYPES[self[vdr, Vdr.DataType]]
        value = turned(data_type, self.little, values_of(data_type, self[vdr, Vdr.NumElems], c.words))
        place = self.pad_at(vdr) - vdr
        at = vdr
        if self.size(vdr) < place + len(value):
            at = self.moved(vdr, place + len(value))
            self.replace(self.variable_chain(self.type(vdr)), vdr, at)
        self[at, Vdr.Flags] = self[at, Vdr.Flags] | HAS_PAD
        self.write(at + place, value)
        if at != vdr:
            self.give(vdr)

    def do_set_sparse(self, c):
        vdr = self.variable_named(c.name)
        self.cut_all(vdr)
        self[vdr, Vdr.SRecords] = c.rule

    def do_set_compress(self, c):
        vdr = self.variable_named(c.name)
        self.cut_all(vdr)
        cpr = self.cpr(vdr)
        if c.rle and cpr is None:
            at = self.new_record(28, CPR, {Cpr.cType: 1, Cpr.pCount: 1})
            self[vdr, Vdr.CPRorSPRoffset] = at
            self[vdr, Vdr.Flags] = self[vdr, Vdr.Flags] | COMPRESSED
        if not c.rle:
            self[vdr, Vdr.CPRorSPRoffset] = -1
            self[vdr, Vdr.Flags] = self[vdr, Vdr.Flags] & ~COMPRESSED
            if cpr is not None:
                self.give(cpr)

    def do_set_blocking(self, c):
        self[self.variable_named(c.name), Vdr.BlockingFactor] = c.n

    # Records

    def put_bounds(self, vdr, rec):
        """The first record that a put writes."""
        max_rec = self[vdr, Vdr.MaxRec]
        return rec if self[vdr, Vdr.SRecords] or rec <= max_rec else max_rec + 1

    def do_put_rec(self, c, after):
        vdr = self.variable_named(c.name)
        first = self.put_bounds(vdr, c.rec)
        data_type = TYPES[self[vdr, Vdr.DataType]]
        record = turned(data_type, self.little, after.variable(c.name).recs[c.rec])
        self.put(vdr, first, self.pad_record(vdr) * (c.rec - first) + record)

    do_put_val = do_put_rec

    def do_del_recs(self, c):
        self.delete(self.variable_named(c.name), c.first, c.last)

    def do_reindex(self, c):
        self.reindex(self.variable_named(c.name))

    # Room

    def room(self, c):
        find = {'attr': lambda: 324, 'put-entry': lambda: ENTRY_VALUE + len(content_of_entry(c)[2]),
                'setup': lambda: GDR_DIMS + 4 * len(c.dims), 'rvar': lambda: RVDR_DIMS + 4 * len(c.varys),
                'zvar': lambda: ZVDR_DIMS + 8 * len(c.dims), 'set-pad': lambda: self.room_of_pad(c),
                'set-compress': lambda: 28 if c.rle else 0, 'put-rec': lambda: self.room_of_put(c),
                'put-val': lambda: self.room_of_put(c), 'del-recs': lambda: self.room_of_delete(c),
                'reindex': lambda: self.room_of_reindex(c)}
        return find.get(c.kind, lambda: 0)()

    def room_of_pad(self, c):
        vdr = self.variable_named(c.name)
        return self.pad_at(vdr) - vdr + self.value_bytes(vdr)

    def widest(self, vdr):
        return max([7] + [self[node, Vxr.Nentries] for node in self.nodes(self[vdr, Vdr.VXRhead])])

    def room_of_put(self, c):
        vdr = self.variable_named(c.name)
        size, old_max = self.record_bytes(vdr), self[vdr, Vdr.MaxRec]
        first, leaves = self.put_bounds(vdr, c.rec), self.index(vdr)
        cut_from = old_max + 1 if self[vdr, Vdr.SRecords] and c.rec > old_max + 1 else LAST_NUMBER + 1
        covered = [leaf for leaf in leaves if leaf.last >= first and leaf.first <= c.rec]
        stays = sum(max(0, min(leaf.last, c.rec, cut_from - 1) - max(leaf.first, first) + 1) for leaf in covered)
        unwritten = c.rec - first + 1 - stays
        total = 0
        if unwritten:
            m = self.block_count(vdr)
            used = sum(self.used(node) for node in self.nodes(self[vdr, Vdr.VXRhead]))
            total = (unwritten + m - 1) * size + (-(-unwritten // m) + used + 1) * (28 + node_size(self.widest(vdr)))
        if self.compressed(vdr):
            touched = {leaf for leaf in covered} | {leaf for leaf in leaves if leaf.last >= cut_from}
            total += sum(28 + (leaf.last - leaf.first + 1) * size for leaf in touched)
        return total

    def room_of_delete(self, c):
        vdr = self.variable_named(c.name)
        size, leaves = self.record_bytes(vdr), self.index(vdr)
        cuts = [(c.first, c.last)]
        old_max = self[vdr, Vdr.MaxRec]
        if self[vdr, Vdr.SRecords]:
            left = [k for leaf in leaves for k in
                    (min(leaf.last, old_max), min(leaf.last, c.first - 1)) if leaf.first <= k <= old_max
                    and not c.first <= k <= c.last]
            cuts.append((max(left, default=-1) + 1, LAST_NUMBER))
        partly = [leaf for leaf in leaves if any(
            leaf.first <= last and first <= leaf.last and not (first <= leaf.first and leaf.last <= last)
            for first, last in cuts)]
        return node_size(self.widest(vdr)) + sum(84 + 2 * (leaf.last - leaf.first + 1) * size for leaf in partly)

    def room_of_reindex(self, c):
        vdr = self.variable_named(c.name)
        count, total = len(self.index(vdr)), 0
        while count:
            count = -(-count // 64)
            total += count
            if count == 1:
                break
        return total * node_size(64)


def content_of_entry(c):
    elems, network = entry_value(c.type, c.words)
    return TYPES[c.type], elems, network


CHOICES = ('free_last', 'later_first', 'nodes_first', 'later_last', 'keeps_reserved')


def apply(data, c, limit=IMAGE_LIMIT, before=None, choices=()):
    """The image after a command, its data set, its reply and its acts; Refused leaves all bytes."""
    image = Editor(data)
    for choice in choices:
        setattr(image, choice, True)
    after, reply = step(before if before is not None else content(image), c)
    if image.eof + image.room(c) > limit:
        raise Refused(16)
    if c.kind not in READERS:
        do = getattr(image, 'do_' + c.kind.replace('-', '_'))
        do(c, after) if c.kind in ('put-rec', 'put-val') else do(c)
    return image, after, reply
