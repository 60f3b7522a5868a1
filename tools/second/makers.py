"""Files as other makers might write them: valid, but with everything that no rule forbids.

Records stand in any order; entries are out of order of number; unused records are listed or not; PrevUIR, greatest
numbers, VXRtail and reserved fields hold anything; index nodes are narrow, wide or without entries, up to some levels
deep; blocks are packed or not, longer than they need be, and cover records past MaxRec or leave gaps.
"""
from image import Image, encoded
from layout import (ADR, AGREDR, AZEDR, CDR, CHECKSUM, COMPRESSED, CPR, CVVR, ENCODINGS, GDR, HAS_PAD, LAST_NUMBER, MD5,
                    NAME_BYTES, ROW_MAJOR, RVDR, SINGLE_FILE, TEXT_TYPES, TYPES, UIR, VARY, VVR, VXR, ZVDR, Adr, Aedr,
                    Cdr, Cpr, Cvvr, Field, Gdr, RecordSize, RecordType, Uir, Vdr, Vxr, node_size)
from model import NO_RULE


class Part:
    """A record to be placed: its fields may name other parts, which become their places."""

    def __init__(self, kind, size, fields, tail_at=0, tail=b''):
        self.kind, self.size, self.fields, self.tail_at, self.tail = kind, size, fields, tail_at, tail
        self.filler = b''
        self.at = None


class Maker:
    # Sparse rules, MaxRec, and how many records a leaf has beside its first
    rules, greatest, widths = (NO_RULE, NO_RULE, 1, 2), (-1, 0, 3, 9, 20), (0, 0, 1, 2, 7)

    # What type, how many leaves and what blocking factor a variable has, and how often one is packed
    types, leaf_counts, blockings, packed = list(TYPES.values()), (0, 1, 2, 5, 12, 30), (-3, 0, 1, 2, 4, 10), 0.4

    # How many dimensions there are, and how large each is
    dim_counts, dim_sizes = (0, 0, 1, 2), (1, 2, 3)

    # How many r variables, z variables and attributes there are
    r_counts, z_counts, a_counts = (0, 0, 1, 2), (0, 1, 2, 3), (0, 1, 2, 4)

    # How many entries a chain has, if any, of how many elements, and below what their numbers are where there are few variables
    entry_counts, entry_elems, entry_numbers = (1, 2, 4), (1, 1, 2, 5, 17), 4

    def __init__(self, random):
        self.random = random
        self.parts = []
        self.names = 0

    def chance(self, share):
        return self.random.random() < share

    def any32(self):
        return self.random.choice((0, -1, 7, self.random.randrange(-2**31, 2**31)))

    def any64(self):
        return self.random.choice((0, -1, 8, 404, self.random.randrange(-2**63, 2**63)))

    def part(self, kind, need, fields, tail_at=0, tail=b''):
        spare = self.random.choice((0, 0, 0, 1, 16, 60))
        part = Part(kind, need + spare, fields, tail_at, tail)
        part.filler = self.random.randbytes(part.size)
        self.parts.append(part)
        return part

    def name(self, stem):
        self.names += 1
        text = stem + str(self.names).encode()
        return text + b'\0' + self.random.randbytes(NAME_BYTES - len(text) - 1)

    # The parts of a file

    def attributes(self, count, variables):
        made = []
        for num in range(count):
            scope = self.random.choice((1, 2, 2, 3, 4))
            chains = {}
            for kind, share in ((AGREDR, 0.8), (AZEDR, 0.8 if scope in (2, 4) else 0.1)):
                most = self.random.choice(self.entry_counts) if self.chance(share) else 0
                below = max(variables + 2, self.entry_numbers)
                numbers = self.random.sample(range(below), min(most, below))
                chains[kind] = [self.entry(kind, num, k) for k in numbers]
                self.link(chains[kind], Aedr.AEDRnext)
            part = self.part(ADR, 324, {
                Adr.AgrEDRhead: self.first(chains[AGREDR]), Adr.Scope: scope, Adr.Num: num,
                Adr.NgrEntries: len(chains[AGREDR]), Adr.MAXgrEntry: self.any32(), Adr.rfuA: self.any32(),
                Adr.AzEDRhead: self.first(chains[AZEDR]), Adr.NzEntries: len(chains[AZEDR]),
                Adr.MAXzEntry: self.any32(), Adr.rfuE: self.any32()}, Adr.Name.offset, self.name(b'a'))
            made.append(part)
        self.link(made, Adr.ADRnext)
        return made

    def entry(self, kind, attribute, num):
        data_type = self.random.choice(list(TYPES.values()))
        elems = self.random.choice(self.entry_elems)
        value = self.random.randbytes(data_type.size * elems)
        return self.part(kind, 56 + len(value), {
            Aedr.AttrNum: attribute, Aedr.DataType: data_type.code, Aedr.Num: num, Aedr.NumElems: elems,
            Aedr.NumStrings: self.any32(), Aedr.rfuB: self.any32(), Aedr.rfuC: self.any32(), Aedr.rfuD: self.any32(),
            Aedr.rfuE: self.any32()}, 56, value)

    @staticmethod
    def first(parts):
        return parts[0] if parts else 0

    @staticmethod
    def link(parts, field):
        for part, after in zip(parts, parts[1:] + [0]):
            part.fields[field] = after

    def dims(self):
        return [self.random.choice(self.dim_sizes) for _ in range(self.random.choice(self.dim_counts))]

    def variable(self, kind, num, rdims):
        data_type = self.random.choice(self.types)
        elems = self.random.choice((1, 3)) if data_type.code in TEXT_TYPES else 1
        dims = rdims if kind == RVDR else self.dims()
        varys = [self.chance(0.7) for _ in dims]
        size = data_type.size * elems
        for d, v in zip(dims, varys):
            size *= d if v else 1
        vary, rle, has_pad = self.chance(0.85), self.chance(self.packed), self.chance(0.3)
        sparse = self.random.choice(self.rules)
        max_rec = self.random.choice(self.greatest if vary else (-1, 0, 0, 2))
        leaves = self.leaves(max_rec, size, rle)
        top = self.index(leaves)
        cpr = 0
        if rle:
            cpr = self.part(CPR, 28, {Cpr.cType: 1, Cpr.rfuA: self.any32(), Cpr.pCount: 1, Cpr.parameter: 0})
        numbers = [self.random.choice((-1, 1)) if v else 0 for v in varys]
        if kind == ZVDR:
            numbers = [len(dims)] + dims + numbers
        tail = b''.join(n.to_bytes(4, 'big', signed=True) for n in numbers)
        if has_pad:
            tail += self.random.randbytes(data_type.size * elems)
        flags = (VARY if vary else 0) | (HAS_PAD if has_pad else 0) | (COMPRESSED if rle else 0)
        part = self.part(kind, 340 + len(tail), {
            Vdr.DataType: data_type.code, Vdr.MaxRec: max_rec, Vdr.VXRhead: top, Vdr.VXRtail: self.any64(),
            Vdr.Flags: flags | self.random.choice((0, 0, 8, 256)), Vdr.SRecords: sparse, Vdr.rfuB: self.any32(),
            Vdr.rfuC: self.any32(), Vdr.rfuF: self.any32(), Vdr.NumElems: elems, Vdr.Num: num,
            Vdr.CPRorSPRoffset: cpr if rle else self.random.choice((-1, 0)),
            Vdr.BlockingFactor: self.random.choice(self.blockings)}, 84, self.name(b'v') + tail)
        return part

    def leaves(self, max_rec, size, rle):
        """Ranges with their blocks, with gaps, some past MaxRec."""
        made, at = [], 0
        most = self.random.choice(self.leaf_counts)
        while len(made) < most and at <= max_rec + 12:
            at += self.random.choice((0, 0, 0, 1, 4))
            last = at + self.random.choice(self.widths)
            made.append((at, last, self.block((last - at + 1) * size, rle)))
            at = last + 1
        return made

    def block(self, count, rle):
        dense = self.chance(0.4)
        plain = bytes(self.random.choice((0, 0, 0, self.random.randrange(256))) if not dense
                      else self.random.randrange(1, 256) for _ in range(count))
        return self.plain_or_packed(plain, rle)

    def plain_or_packed(self, plain, rle):
        if rle and self.chance(0.7):
            packed = encoded(plain) if self.chance(0.8) else b''.join(
                bytes((0, 0)) if b == 0 else bytes((b,)) for b in plain)
            return self.part(CVVR, 24 + len(packed), {Cvvr.rfuA: self.any32(), Cvvr.cSize: len(packed)}, 24, packed)
        return self.part(VVR, 12 + len(plain), {}, 12, plain)

    # Indexes: a chain of nodes over items (first, last, part), some of them gathered under lower chains

    def index(self, leaves, depth=1, low=0, high=LAST_NUMBER):
        """The first node of a chain over these leaves; what it covers lies from low to high."""
        if not leaves:
            return self.nodes([]) if self.chance(0.15) else 0
        items = list(leaves)
        if depth < 4 and self.chance(0.35 if depth == 1 else 0.5):
            items = self.gathered(items, depth, low, high)
        return self.nodes(items)

    def groups(self, items):
        groups, i = [], 0
        while i < len(items):
            n = self.random.choice((1, 1, 2, 3, 5))
            groups.append(items[i:i + n])
            i += n
        return groups

    def gathered(self, items, depth, low, high):
        groups, made = self.groups(items), []
        for j, group in enumerate(groups):
            if self.chance(0.3):
                made += group
                continue
            first, last = group[0][0], group[-1][1]
            if self.chance(0.3):
                first = self.random.randint(made[-1][1] + 1 if made else low, first)
                last = self.random.choice((last, groups[j + 1][0][0] - 1 if j + 1 < len(groups) else high))
            made.append((first, last, self.index(group, depth + 1, first, last)))
        if self.chance(0.1) and made[-1][1] + 5 <= high:
            made.append((made[-1][1] + 1, made[-1][1] + 5, self.nodes([])))
        return made

    def nodes(self, items):
        made, rest = [], list(items)
        while True:
            if self.chance(0.12):
                made.append(self.node([]))
            if not rest and (made or not self.chance(0.5)):
                break
            n = self.random.choice((1, 2, 3, 3, 7, 20))
            made.append(self.node(rest[:n]))
            rest = rest[n:]
        self.link(made, Vxr.VXRnext)
        return self.first(made) or self.node_alone()

    def node_alone(self):
        part = self.node([])
        part.fields[Vxr.VXRnext] = 0
        return part

    def node(self, items):
        count = len(items) + self.random.choice((0, 0, 0, 1, 3, 7 if self.chance(0.95) else 493))
        fields = {Vxr.Nentries: count, Vxr.NusedEntries: len(items)}
        clean = self.chance(0.5)
        for i in range(count):
            first, last, part = items[i] if i < len(items) else (
                (-1, -1, -1) if clean else (self.any32(), self.any32(), self.any64()))
            fields[Field(28 + 4 * i, 4)] = first
            fields[Field(28 + 4 * (count + i), 4)] = last
            fields[Field(28 + 8 * count + 8 * i, 8)] = part
        return self.part(VXR, node_size(count), fields)

    # The whole

    def unused(self):
        listed = []
        for _ in range(self.random.choice((0, 0, 1, 3, 6))):
            size = self.random.choice((12, 20, 27, 28, 40, 60, 70, 100, 140, 170, 344, 400, 900))
            part = Part(UIR, size, {})
            part.filler = self.random.randbytes(size)
            self.parts.append(part)
            if size >= 28 and self.chance(0.8):
                part.fields[Uir.PrevUIR] = self.any64()
                listed.append(part)
        self.random.shuffle(listed)
        self.link(listed, Uir.NextUIR)
        return listed

    def file(self):
        rdims = self.dims()
        r = [self.variable(RVDR, i, rdims) for i in range(self.random.choice(self.r_counts))]
        z = [self.variable(ZVDR, i, rdims) for i in range(self.random.choice(self.z_counts))]
        self.link(r, Vdr.VDRnext)
        self.link(z, Vdr.VDRnext)
        attributes = self.attributes(self.random.choice(self.a_counts), max(len(r), len(z)))
        listed = self.unused()
        flags = SINGLE_FILE | self.random.choice((0, ROW_MAJOR)) | self.random.choice((0, 0, MD5, MD5 | CHECKSUM, 64))
        gdr = self.part(GDR, 84 + 4 * len(rdims), {
            Gdr.rVDRhead: self.first(r), Gdr.zVDRhead: self.first(z), Gdr.ADRhead: self.first(attributes),
            Gdr.NrVars: len(r), Gdr.NumAttr: len(attributes), Gdr.rMaxRec: self.any32(), Gdr.rNumDims: len(rdims),
            Gdr.NzVars: len(z), Gdr.UIRhead: self.first(listed), Gdr.rfuC: self.any32(),
            Gdr.LeapSecondLastUpdated: self.any32(), Gdr.rfuE: self.any32()},
            84, b''.join(n.to_bytes(4, 'big') for n in rdims))
        others = list(self.parts)
        self.random.shuffle(others)
        cdr = self.part(CDR, 312, {
            Cdr.GDRoffset: gdr, Cdr.Version: 3, Cdr.Release: self.random.randrange(10),
            Cdr.Encoding: self.random.choice(ENCODINGS), Cdr.Flags: flags, Cdr.rfuA: self.any32(),
            Cdr.rfuB: self.any32(), Cdr.Increment: self.random.randrange(3), Cdr.Identifier: self.any32(),
            Cdr.rfuE: self.any32()})
        return self.placed([cdr] + others, gdr)

    @staticmethod
    def placed(parts, gdr):
        at = 8
        for part in parts:
            part.at = at
            at += part.size
        gdr.fields[Gdr.eof] = at
        image = Image(bytes.fromhex('cdf300010000ffff') + bytes(at - 8))
        for part in parts:
            image.write(part.at, part.filler)
            image.write(part.at + part.tail_at, part.tail)
            image[part.at, RecordSize] = part.size
            image[part.at, RecordType] = part.kind
            for field, value in part.fields.items():
                image[part.at, field] = value.at if isinstance(value, Part) else value
        return image.data


class SparseMaker(Maker):
    """Leaves of many records under a sparse rule, which a cut splits."""
    rules, greatest, widths = (1, 2), (9, 14, 25), (2, 5, 7, 11)


class EmptyMaker(Maker):
    """No variables and no attributes, so that `setup` goes."""
    r_counts, z_counts, a_counts = (0,), (0,), (0,)


def foreign_file(random):
    return Maker(random).file()


def sparse_file(random):
    return SparseMaker(random).file()


def empty_file(random):
    return EmptyMaker(random).file()
