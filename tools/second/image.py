"""An image (the bytes of a file before its trailer) as a bytearray, its fields, chains and indexes."""
from collections import namedtuple

from layout import (ADR, AGREDR, AZEDR, BLOCK_RECORDS, COMPRESSED, CVVR, GDR_DIMS, HAS_PAD,
                    LITTLE_ENDIAN, NAME_BYTES, NODE_ENTRIES, PACKED_BYTES, RVDR, RVDR_DIMS, TYPES, UIR, VXR, ZVDR,
                    ZVDR_DIMS, Adr, Aedr, Cdr, Cvvr, Gdr, RecordSize, RecordType, Uir, Vdr, Vxr, default_pad, turned)

Tile = namedtuple('Tile', 'at size type')
Leaf = namedtuple('Leaf', 'first last at')
Entry = namedtuple('Entry', 'first last at')

NEXT = {ADR: Adr.ADRnext, RVDR: Vdr.VDRnext, ZVDR: Vdr.VDRnext, AGREDR: Aedr.AEDRnext, AZEDR: Aedr.AEDRnext,
        VXR: Vxr.VXRnext, UIR: Uir.NextUIR}


class Image:
    """Fields are read by `image[at, field]` and written the same way; a byte past the end counts as 0."""

    def __init__(self, data):
        self.data = bytearray(data)

    def number(self, at, width):
        if at < 0:
            return int.from_bytes(bytes(self.byte(at + i) for i in range(width)), 'big', signed=True)
        piece = self.data[at:at + width]
        return int.from_bytes(piece + bytes(width - len(piece)), 'big', signed=True)

    def byte(self, at):
        return self.data[at] if 0 <= at < len(self.data) else 0

    def __getitem__(self, place):
        at, (offset, width) = place
        at += offset
        piece = self.data[at:at + width] if at >= 0 else b''
        if len(piece) == width:
            return int.from_bytes(piece, 'big', signed=True)
        return self.number(at, width)

    def __setitem__(self, place, value):
        at, field = place
        self.write(at + field.offset, value.to_bytes(field.width, 'big', signed=True))

    def write(self, at, data):
        assert 0 <= at and at + len(data) <= len(self.data), 'a write past the end'
        self.data[at:at + len(data)] = data

    def piece(self, at, count):
        return bytes(self.data[at:at + count])

    # The file

    @property
    def gdr(self):
        return self[8, Cdr.GDRoffset]

    @property
    def eof(self):
        return self[self.gdr, Gdr.eof]

    def size(self, at):
        return self[at, RecordSize]

    def type(self, at):
        return self[at, RecordType]

    @property
    def little(self):
        return self[8, Cdr.Encoding] in LITTLE_ENDIAN

    def tiles(self):
        """The records from 8 to eof, or None."""
        found, at, eof = [], 8, self.eof
        if eof > len(self.data):
            return None
        while at < eof:
            size = self.size(at)
            if size < 12 or at + size > eof:
                return None
            found.append(Tile(at, size, self.type(at)))
            at += size
        return found if at == eof else None

    def name(self, at, field):
        return self.piece(at + field.offset, NAME_BYTES).split(b'\0')[0]

    # Chains

    def chain(self, head, kind):
        found, at = [], head
        while at != 0:
            found.append(at)
            at = self[at, NEXT[kind]]
        return found

    def attributes(self):
        return self.chain(self[self.gdr, Gdr.ADRhead], ADR)

    def variables(self, kind):
        head = Gdr.rVDRhead if kind == RVDR else Gdr.zVDRhead
        return self.chain(self[self.gdr, head], kind)

    def entries(self, adr, kind):
        return self.chain(self[adr, Adr.AgrEDRhead if kind == AGREDR else Adr.AzEDRhead], kind)

    def unused(self):
        return self.chain(self[self.gdr, Gdr.UIRhead], UIR)

    # Variables

    def dims(self, vdr):
        """The sizes of a variable's dimensions and whether each varies."""
        if self.type(vdr) == RVDR:
            n = self[self.gdr, Gdr.rNumDims]
            sizes = [self.number(self.gdr + GDR_DIMS + 4 * i, 4) for i in range(n)]
            at = vdr + RVDR_DIMS
        else:
            n = self[vdr, Vdr.zNumDims]
            sizes = [self.number(vdr + ZVDR_DIMS + 4 * i, 4) for i in range(n)]
            at = vdr + ZVDR_DIMS + 4 * n
        return sizes, [self.number(at + 4 * i, 4) != 0 for i in range(n)]

    def pad_at(self, vdr):
        sizes, _ = self.dims(vdr)
        return vdr + (RVDR_DIMS + 4 * len(sizes) if self.type(vdr) == RVDR else ZVDR_DIMS + 8 * len(sizes))

    def value_bytes(self, vdr):
        return TYPES[self[vdr, Vdr.DataType]].size * self[vdr, Vdr.NumElems]

    def record_bytes(self, vdr):
        sizes, varys = self.dims(vdr)
        total = self.value_bytes(vdr)
        for size, vary in zip(sizes, varys):
            if vary:
                total *= size
        return total

    def pad_record(self, vdr):
        """One record of pad values, as it is stored."""
        data_type = TYPES[self[vdr, Vdr.DataType]]
        if self[vdr, Vdr.Flags] & HAS_PAD:
            value = self.piece(self.pad_at(vdr), self.value_bytes(vdr))
        else:
            value = turned(data_type, self.little, default_pad(data_type, self[vdr, Vdr.NumElems]))
        return value * (self.record_bytes(vdr) // len(value))

    def compressed(self, vdr):
        return bool(self[vdr, Vdr.Flags] & COMPRESSED)

    def cpr(self, vdr):
        """The CPR of a compressed variable, or None."""
        return self[vdr, Vdr.CPRorSPRoffset] if self.compressed(vdr) else None

    # Indexes

    def used(self, node):
        return max(0, min(self[node, Vxr.NusedEntries], self[node, Vxr.Nentries], (self.size(node) - 28) // 16))

    def entry(self, node, i):
        n = self[node, Vxr.Nentries]
        return Entry(self.number(node + NODE_ENTRIES + 4 * i, 4), self.number(node + NODE_ENTRIES + 4 * (n + i), 4),
                     self.number(node + NODE_ENTRIES + 8 * n + 8 * i, 8))

    def set_entry(self, node, i, entry):
        n = self[node, Vxr.Nentries]
        self.write(node + NODE_ENTRIES + 4 * i, entry.first.to_bytes(4, 'big', signed=True))
        self.write(node + NODE_ENTRIES + 4 * (n + i), entry.last.to_bytes(4, 'big', signed=True))
        self.write(node + NODE_ENTRIES + 8 * n + 8 * i, entry.at.to_bytes(8, 'big', signed=True))

    def used_entries(self, node):
        return [self.entry(node, i) for i in range(self.used(node))]

    def level(self, head):
        """The entries of one chain of nodes, each with its node and its number."""
        return [(node, i, self.entry(node, i)) for node in self.chain(head, VXR) for i in range(self.used(node))]

    def nodes(self, head):
        """All nodes, each before its lower ones and these before the next of its chain."""
        found = []
        for node in self.chain(head, VXR):
            found.append(node)
            for entry in self.used_entries(node):
                if self.type(entry.at) == VXR:
                    found.extend(self.nodes(entry.at))
        return found

    def leaves(self, head):
        found = []
        for _, _, entry in self.level(head):
            if self.type(entry.at) == VXR:
                found.extend(self.leaves(entry.at))
            else:
                found.append(Leaf(*entry))
        return found

    def plain(self, vdr, leaf):
        """The plain bytes of a leaf's block."""
        count = (leaf.last - leaf.first + 1) * self.record_bytes(vdr)
        if self.type(leaf.at) == CVVR:
            return decoded(self.piece(leaf.at + PACKED_BYTES, self[leaf.at, Cvvr.cSize]), count)
        return self.piece(leaf.at + BLOCK_RECORDS, count)


def encoded(data):
    """Run lengths of zeros, the longest runs from the left."""
    out, i = bytearray(), 0
    while i < len(data):
        if data[i]:
            out.append(data[i])
            i += 1
            continue
        run = 1
        while run < 256 and i + run < len(data) and data[i + run] == 0:
            run += 1
        out += bytes((0, run - 1))
        i += run
    return bytes(out)


def decoded(packed, count):
    """The bytes that run lengths stand for, or None where they are not `count` whole bytes."""
    out, i = bytearray(), 0
    while i < len(packed):
        if packed[i]:
            out.append(packed[i])
            i += 1
        else:
            if i + 1 == len(packed):
                return None
            out += bytes(packed[i + 1] + 1)
            i += 2
        if len(out) > count:
            return None
    return bytes(out) if len(out) == count else None
