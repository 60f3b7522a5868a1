"""The compact image of a data set: each record behind the one before, with nothing unused.

Records are appended with links 0, and a link is written once the record that it leads to stands."""
from image import encoded
from layout import (ADR, AGREDR, AZEDR, BYTES_LIMIT, CDR, CHECKSUM, COMPRESSED, CPR, CVVR, GDR, HAS_PAD,
                    LITTLE_ENDIAN, MD5, NAME_BYTES, ROW_MAJOR, RVDR, SINGLE_FILE, TYPES, VARY, VVR, VXR, ZVDR, Adr, Aedr,
                    Cdr, Gdr, RecordSize, Vdr, turned)

LEAST_RECORD = 28
NODE_ROOM = 64
BLOCK_BYTES = 1_048_576


def signed(value, width=4):
    return value.to_bytes(width, 'big', signed=True)


def words(values):
    return b''.join(value.to_bytes(4, 'big') for value in values)


class Writer:
    def __init__(self, d):
        self.d, self.little = d, d.encoding in LITTLE_ENDIAN
        self.bytes = bytearray.fromhex('cdf300010000ffff')

    def record(self, kind, *parts):
        """Appends a record, and answers where it stands."""
        at, body = len(self.bytes), signed(kind) + b''.join(parts)
        size = max(LEAST_RECORD, 8 + len(body))
        self.bytes += size.to_bytes(8, 'big') + body + bytes(size - 8 - len(body))
        return at

    def set(self, at, field, value):
        self.bytes[at + field.offset:at + field.offset + field.width] = signed(value, field.width)

    def compact(self):
        d = self.d
        flags = SINGLE_FILE | (ROW_MAJOR if d.row else 0) | (CHECKSUM | MD5 if d.md5 else 0)
        cdr = self.record(CDR, bytes(Cdr.Copyright.offset - 12), b'\nCommon Data Format (CDF)\n'.ljust(256, b'\0'))
        gdr = self.record(GDR, bytes(Gdr.rfuE.offset + 4 - 12), words(d.rdims))
        for field, value in ((Cdr.GDRoffset, gdr), (Cdr.Version, 3), (Cdr.Release, d.release), (Cdr.Flags, flags),
                             (Cdr.Encoding, d.encoding), (Cdr.Increment, d.increment), (Cdr.Identifier, 2), (Cdr.rfuE, -1)):
            self.set(cdr, field, value)
        heads = [self.chain(Adr.ADRnext, [lambda n=n, a=a: self.attribute(n, a) for n, a in enumerate(d.attributes)])]
        for kind, variables in ((RVDR, d.r), (ZVDR, d.z)):
            heads.append(self.chain(Vdr.VDRnext, [lambda n=n, v=v, k=kind: self.variable(k, n, v) for n, v in enumerate(variables)]))
        for field, value in ((Gdr.ADRhead, heads[0]), (Gdr.rVDRhead, heads[1]), (Gdr.zVDRhead, heads[2]),
                             (Gdr.eof, len(self.bytes)), (Gdr.NrVars, len(d.r)), (Gdr.NumAttr, len(d.attributes)),
                             (Gdr.rMaxRec, max([-1] + [v.max_rec for v in d.r])), (Gdr.rNumDims, len(d.rdims)),
                             (Gdr.NzVars, len(d.z)), (Gdr.LeapSecondLastUpdated, -1), (Gdr.rfuE, -1)):
            self.set(gdr, field, value)
        return bytes(self.bytes)

    def chain(self, next_field, makers):
        """Makes records with what belongs to each, links them, and answers where the first one stands, or 0."""
        head = before = 0
        for make in makers:
            at = make()
            if before:
                self.set(before, next_field, at)
            head, before = head or at, at
        return head

    def attribute(self, n, a):
        adr = self.record(ADR, bytes(Adr.Name.offset - 12), a.name.ljust(NAME_BYTES, b'\0'))
        for field, value in ((Adr.Scope, a.scope), (Adr.Num, n), (Adr.rfuE, -1)):
            self.set(adr, field, value)
        for kind, entries, head, count, greatest in ((AGREDR, a.g, Adr.AgrEDRhead, Adr.NgrEntries, Adr.MAXgrEntry),
                                                     (AZEDR, a.z, Adr.AzEDRhead, Adr.NzEntries, Adr.MAXzEntry)):
            self.set(adr, head, self.chain(Aedr.AEDRnext, [
                lambda num=num, k=kind: self.entry(k, n, num, entries[num]) for num in sorted(entries)]))
            self.set(adr, count, len(entries))
            self.set(adr, greatest, max(entries, default=-1))
        return adr

    def entry(self, kind, n, num, entry):
        code, elems, data = entry
        at = self.record(kind, bytes(Aedr.rfuE.offset + 4 - 12), turned(TYPES[code], self.little, data))
        for field, value in ((Aedr.AttrNum, n), (Aedr.DataType, code), (Aedr.Num, num), (Aedr.NumElems, elems),
                             (Aedr.rfuD, -1), (Aedr.rfuE, -1)):
            self.set(at, field, value)
        return at

    def variable(self, kind, n, v):
        data_type = TYPES[v.type]
        dims = words([len(v.dims)] + v.dims) if kind == ZVDR else b''
        varys = b''.join(signed(-1 if vary else 0) for vary in v.varys)
        pad = b'' if v.pad is None else turned(data_type, self.little, v.pad)
        vdr = self.record(kind, bytes(Vdr.Name.offset - 12), v.name.ljust(NAME_BYTES, b'\0'), dims, varys, pad)
        cpr = self.record(CPR, words([1, 0, 1, 0])) if v.rle else -1
        leaves = [(block[0], block[-1], self.block(v, data_type, block)) for block in blocks(v)]
        root = self.index(leaves)
        flags = (VARY if v.vary else 0) | (HAS_PAD if v.pad is not None else 0) | (COMPRESSED if v.rle else 0)
        for field, value in ((Vdr.DataType, v.type), (Vdr.MaxRec, v.max_rec), (Vdr.VXRhead, root), (Vdr.VXRtail, root),
                             (Vdr.Flags, flags), (Vdr.SRecords, v.sparse), (Vdr.rfuC, -1), (Vdr.rfuF, -1),
                             (Vdr.NumElems, v.elems), (Vdr.Num, n), (Vdr.CPRorSPRoffset, cpr), (Vdr.BlockingFactor, v.blocking)):
            self.set(vdr, field, value)
        return vdr

    def block(self, v, data_type, numbers):
        plain = b''.join(turned(data_type, self.little, v.recs[k]) for k in numbers)
        packed = encoded(plain) if v.rle and len(plain) <= BYTES_LIMIT else None
        if packed is not None and 24 + len(packed) < 12 + len(plain):
            return self.record(CVVR, bytes(4), len(packed).to_bytes(8, 'big'), packed)
        return self.record(VVR, plain)

    def index(self, entries):
        """Appends the nodes over entries, level by level, and answers where the last one stands, or 0."""
        at = 0
        while entries:
            upper = []
            for i in range(0, len(entries), NODE_ROOM):
                node = entries[i:i + NODE_ROOM]
                at = self.record(VXR, bytes(8), words([len(node)] * 2), words([e[0] for e in node]), words([e[1] for e in node]),
                                 b''.join(e[2].to_bytes(8, 'big') for e in node))
                upper.append((node[0][0], node[-1][1], at))
            if len(upper) == 1:
                return at
            entries = upper
        return at


def blocks(v):
    """The numbers of the stored records, in runs of numbers that follow each other, cut from the left."""
    most = max(1, min(v.blocking if v.blocking > 0 else 64, BLOCK_BYTES // (v.value_bytes() * v.values()))) if v.vary else 1
    made = []
    for k in sorted(v.recs):
        if made and made[-1][-1] + 1 == k and len(made[-1]) < most:
            made[-1].append(k)
        else:
            made.append([k])
    return made


def compact(d):
    return Writer(d).compact()
