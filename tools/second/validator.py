"""The rules of a well-formed file, by phase. A phase is asked only where all earlier ones hold."""
import hashlib
from collections import Counter

from image import Image, decoded
from layout import (ADR, AGREDR, AZEDR, BYTES_LIMIT, CHECKSUM, COMPRESSED, CPR, CVVR, ENCODINGS, ENTRY_VALUE,
                    FIXED_PART, GDR, GDR_DIMS, HAS_PAD, IMAGE_LIMIT, INDEX_DEPTH, LAST_NUMBER, MD5, MOST_DIMS,
                    PACKED_BYTES, RVDR, RVDR_DIMS, SINGLE_FILE, TEXT_TYPES, TYPES, UIR, VVR, VXR, ZVDR, ZVDR_DIMS, Adr,
                    Aedr, Cdr, Cpr, Cvvr, Gdr, Vdr, Vxr, node_size)
from image import NEXT


class Validator(Image):
    """`broken` is a list of (phase, rule, at); the image of phases 4 to 9 is the bytes before eof."""

    def __init__(self, file):
        super().__init__(file)
        self.file = bytes(file)
        self.broken = []

    def rule(self, holds, phase, rule, at):
        if not holds:
            self.broken.append((phase, rule, at))

    def check(self):
        for phase in range(11):
            if phase == 4:
                self.data = self.data[:self.eof]
            getattr(self, f'phase_{phase}')()
            if self.broken:
                return self.broken
        return []

    def phase_0(self):
        self.rule(len(self.file) >= 8, 0, 1, 0)
        self.rule(len(self.file) <= IMAGE_LIMIT + 16, 0, 2, 0)

    def phase_1(self):
        self.rule(self.file[:4] == bytes.fromhex('cdf30001'), 1, 1, 0)
        self.rule(self.file[4:8] == bytes.fromhex('0000ffff'), 1, 2, 4)

    def phase_2(self):
        self.rule(len(self.file) >= 320, 2, 1, 8)
        if self.broken:
            return
        size, flags = self.size(8), self[8, Cdr.Flags]
        self.rule(self.type(8) == 1 and size >= 312 and 8 + size <= len(self.file), 2, 2, 8)
        self.rule(self[8, Cdr.Version] == 3, 2, 3, 8)
        self.rule(self[8, Cdr.Encoding] in ENCODINGS, 2, 4, 8)
        self.rule(flags & SINGLE_FILE, 2, 5, 8)
        self.rule(not flags & CHECKSUM or flags & MD5, 2, 6, 8)

    def phase_3(self):
        gdr, length = self.gdr, len(self.file)
        self.rule(8 <= gdr and gdr + 84 <= length, 3, 1, 8)
        if self.broken:
            return
        n, size = self[gdr, Gdr.rNumDims], self.size(gdr)
        shape = self.type(gdr) == GDR and 0 <= n <= MOST_DIMS and size >= GDR_DIMS + 4 * n and gdr + size <= length
        self.rule(shape, 3, 2, gdr)
        if shape:
            self.rule(all(self.number(gdr + GDR_DIMS + 4 * i, 4) >= 1 for i in range(n)), 3, 3, gdr)
        trailer = 16 if self[8, Cdr.Flags] & CHECKSUM else 0
        self.rule(self.eof == length - trailer, 3, 4, gdr)
        self.rule(self.eof <= IMAGE_LIMIT, 3, 5, gdr)

    def phase_4(self):
        at, eof = 8, self.eof
        self.records = {}
        while at < eof:
            size, kind = self.size(at), self.type(at)
            if size < 12 or at + size > eof:
                self.rule(False, 4, 1, at)
                return
            self.rule(kind == UIR or 1 <= kind <= 13, 4, 2, at)
            self.rule(size >= FIXED_PART.get(kind, 12), 4, 3, at)
            self.records[at] = kind
            at += size

    def walked(self, start, head, kind, phase, rule, more=lambda at: True):
        """A chain's members, or None where a link is broken."""
        found, holder, at = [], start, head
        while at != 0:
            if self.records.get(at) != kind or at in found or not more(at):
                self.rule(False, phase, rule, holder)
                return None
            found.append(at)
            holder, at = at, self[at, NEXT[kind]]
        return found

    def phase_5(self):
        gdr = self.gdr
        self.rule(self.records.get(gdr) == GDR, 5, 1, 8)
        if self.broken:
            return
        self.chains = {}
        for rule, head, kind, count, num in ((2, Gdr.ADRhead, ADR, Gdr.NumAttr, Adr.Num),
                                             (5, Gdr.rVDRhead, RVDR, Gdr.NrVars, Vdr.Num),
                                             (8, Gdr.zVDRhead, ZVDR, Gdr.NzVars, Vdr.Num)):
            members = self.walked(gdr, self[gdr, head], kind, 5, rule)
            self.chains[kind] = members
            if members is not None:
                self.rule(len(members) == self[gdr, count], 5, rule + 1, gdr)
                for i, at in enumerate(members):
                    self.rule(self[at, num] == i, 5, rule + 2, at)
        self.walked(gdr, self[gdr, Gdr.UIRhead], UIR, 5, 11, lambda at: self.size(at) >= 28)

    def phase_6(self):
        names = set()
        self.entry_chains = {}
        for adr in self.chains[ADR]:
            name = self.name(adr, Adr.Name)
            self.rule(name, 6, 1, adr)
            self.rule(name not in names, 6, 2, adr)
            names.add(name)
            self.rule(1 <= self[adr, Adr.Scope] <= 4, 6, 3, adr)
            for kind, head, count in ((AGREDR, Adr.AgrEDRhead, Adr.NgrEntries), (AZEDR, Adr.AzEDRhead, Adr.NzEntries)):
                members = self.walked(adr, self[adr, head], kind, 6, 4)
                self.entry_chains[adr, kind] = members or []
                if members is not None:
                    self.rule(len(members) == self[adr, count], 6, 5, adr)
                    self.entry_rules(adr, members)

    def entry_rules(self, adr, members):
        numbers = set()
        for at in members:
            num, data_type, elems = self[at, Aedr.Num], TYPES.get(self[at, Aedr.DataType]), self[at, Aedr.NumElems]
            self.rule(self[at, Aedr.AttrNum] == self[adr, Adr.Num], 6, 6, at)
            self.rule(0 <= num <= LAST_NUMBER and num not in numbers, 6, 7, at)
            numbers.add(num)
            value = data_type.size * elems if data_type else 0
            self.rule(data_type and elems >= 1 and value <= BYTES_LIMIT and self.size(at) >= ENTRY_VALUE + value,
                      6, 8, at)

    def phase_7(self):
        names = set()
        for vdr in self.chains[RVDR] + self.chains[ZVDR]:
            name = self.name(vdr, Vdr.Name)
            self.rule(name, 7, 1, vdr)
            self.rule(name not in names, 7, 2, vdr)
            names.add(name)
            self.shape_rules(vdr)
            self.rule(-1 <= self[vdr, Vdr.MaxRec] <= LAST_NUMBER, 7, 8, vdr)
            self.rule(0 <= self[vdr, Vdr.SRecords] <= 2, 7, 9, vdr)
            self.compression_rules(vdr)

    def shape_rules(self, vdr):
        data_type, elems, size = TYPES.get(self[vdr, Vdr.DataType]), self[vdr, Vdr.NumElems], self.size(vdr)
        self.rule(data_type, 7, 3, vdr)
        self.rule(elems >= 1 and (elems == 1 or (data_type and data_type.code in TEXT_TYPES)), 7, 4, vdr)
        need = RVDR_DIMS + 4 * self[self.gdr, Gdr.rNumDims]
        if self.type(vdr) == ZVDR:
            n = self[vdr, Vdr.zNumDims]
            sound = 0 <= n <= MOST_DIMS and size >= ZVDR_DIMS + 4 * n and all(s >= 1 for s in self.dims(vdr)[0])
            self.rule(sound, 7, 5, vdr)
            if not sound:
                return
            need = ZVDR_DIMS + 8 * n
        if data_type is None:
            return
        pad = data_type.size * elems if self[vdr, Vdr.Flags] & HAS_PAD else 0
        self.rule(size >= need + pad, 7, 6, vdr)
        self.rule(self.record_bytes(vdr) <= BYTES_LIMIT, 7, 7, vdr)

    def compression_rules(self, vdr):
        cpr = self[vdr, Vdr.CPRorSPRoffset]
        if not self[vdr, Vdr.Flags] & COMPRESSED:
            self.rule(cpr in (-1, 0), 7, 10, vdr)
            return
        sound = self.records.get(cpr) == CPR and self[cpr, Cpr.pCount] >= 1 \
            and self.size(cpr) >= 24 + 4 * self[cpr, Cpr.pCount]
        self.rule(sound, 7, 11, vdr)
        if sound:
            self.rule(self[cpr, Cpr.cType] == 1 and self[cpr, Cpr.parameter] == 0, 7, 12, cpr)

    def phase_8(self):
        for vdr in self.chains[RVDR] + self.chains[ZVDR]:
            if self.index_walk(vdr, vdr, self[vdr, Vdr.VXRhead], 1, set()):
                self.index_rules(vdr)

    def index_walk(self, vdr, holder, head, depth, met):
        at = head
        while at != 0:
            if self.records.get(at) != VXR or at in met or depth > INDEX_DEPTH:
                self.rule(False, 8, 1, holder)
                return False
            met.add(at)
            for entry in self.used_entries(at):
                if self.records.get(entry.at) == VXR and not self.index_walk(vdr, at, entry.at, depth + 1, met):
                    return False
            holder, at = at, self[at, Vxr.VXRnext]
        return True

    def index_rules(self, vdr):
        head = self[vdr, Vdr.VXRhead]
        for node in self.nodes(head):
            count = self[node, Vxr.Nentries]
            self.rule(0 <= self[node, Vxr.NusedEntries] <= count and self.size(node) >= node_size(count), 8, 2, node)
            for entry in self.used_entries(node):
                self.rule(self.records.get(entry.at) in (VVR, CVVR, VXR), 8, 3, node)
        if not self.broken:
            self.level_rules(vdr, head)

    def level_rules(self, vdr, head):
        """The ranges of a chain; what it covers, as (first, last) or None."""
        before, bounds = -1, None
        for node, _, entry in self.level(head):
            self.rule(0 <= entry.first <= entry.last <= LAST_NUMBER and entry.first > before, 8, 4, node)
            before = entry.last
            bounds = (bounds[0] if bounds else entry.first, entry.last)
            if self.broken:
                continue
            if self.type(entry.at) == VXR:
                below = self.level_rules(vdr, entry.at)
                self.rule(below is None or (entry.first <= below[0] and below[1] <= entry.last), 8, 4, entry.at)
            else:
                self.block_rules(vdr, entry)
        return bounds

    def block_rules(self, vdr, entry):
        count = (entry.last - entry.first + 1) * self.record_bytes(vdr)
        at = entry.at
        if self.type(at) == VVR:
            self.rule(self.size(at) >= 12 + count, 8, 5, at)
            return
        packed = self[at, Cvvr.cSize]
        self.rule(self.compressed(vdr) and packed >= 0 and self.size(at) >= PACKED_BYTES + packed, 8, 6, at)
        self.rule(count <= BYTES_LIMIT, 8, 7, at)
        if not self.broken:
            self.rule(decoded(self.piece(at + PACKED_BYTES, packed), count) is not None, 8, 8, at)

    def owned(self):
        found = [8, self.gdr] + self.chains[ADR] + [at for chain in self.entry_chains.values() for at in chain]
        for vdr in self.chains[RVDR] + self.chains[ZVDR]:
            head = self[vdr, Vdr.VXRhead]
            found += [vdr] + self.nodes(head) + [leaf.at for leaf in self.leaves(head)]
            if self.compressed(vdr):
                found.append(self[vdr, Vdr.CPRorSPRoffset])
        return found + [at for at, kind in self.records.items() if kind == UIR]

    def phase_9(self):
        times = Counter(self.owned())
        for at in self.records:
            self.rule(times[at] == 1, 9, 1, at)

    def phase_10(self):
        if self[8, Cdr.Flags] & CHECKSUM:
            self.rule(self.file[self.eof:] == hashlib.md5(self.data).digest(), 10, 1, self.eof)


def sealed(image):
    """A file: the image, and the MD5 of it where its flags say so."""
    data = bytes(image)
    return data + hashlib.md5(data).digest() if Image(data)[8, Cdr.Flags] & CHECKSUM else data


def unsealed(file):
    """A well-formed file without the MD5 behind its image."""
    return file[:-16] if Image(file)[8, Cdr.Flags] & CHECKSUM else file


def broken(file):
    return Validator(file).check()
