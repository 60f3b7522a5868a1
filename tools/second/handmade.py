"""Files made by hand, each with what random ones seldom have."""
import random

from layout import (ADR, CDR, CPR, CVVR, ENTRY_VALUE, GDR, SINGLE_FILE, UIR, VVR, VXR, ZVDR, Adr, Aedr,
                    Cdr, Cpr, Cvvr, Field, Gdr, Uir, Vdr, Vxr, node_size)
from makers import Maker, Part


class Hand(Maker):
    """Parts are placed in the order in which they are made, without spare bytes."""

    def __init__(self):
        super().__init__(random.Random(0))

    def part(self, kind, need, fields, tail_at=0, tail=b''):
        part = Part(kind, need, fields, tail_at, tail)
        part.filler = bytes(need)
        self.parts.append(part)
        return part

    def node(self, room, items, garbage=None, spare=0):
        """Entries (first, last, part); those beyond them are -1, or `garbage`; and spare bytes."""
        fields = {Vxr.Nentries: room, Vxr.NusedEntries: len(items)}
        for i in range(room):
            first, last, part = items[i] if i < len(items) else garbage or (-1, -1, -1)
            fields[Field(28 + 4 * i, 4)] = first
            fields[Field(28 + 4 * (room + i), 4)] = last
            fields[Field(28 + 8 * room + 8 * i, 8)] = part
        return self.part(VXR, node_size(room) + spare, fields)

    def block(self, plain, size=None):
        return self.part(VVR, max(12 + len(plain), size or 0), {}, 12, plain)

    def packed(self, data, size=None, reserved=0):
        return self.part(CVVR, max(24 + len(data), size or 0), {Cvvr.rfuA: reserved, Cvvr.cSize: len(data)}, 24, data)

    def variable(self, name, max_rec, top, rle=False, sparse=0, blocking=0, type_code=1, tail=0):
        cpr = self.part(CPR, 28, {Cpr.cType: 1, Cpr.pCount: 1}) if rle else -1
        return self.part(ZVDR, 344, {
            Vdr.DataType: type_code, Vdr.MaxRec: max_rec, Vdr.VXRhead: top, Vdr.VXRtail: tail or top,
            Vdr.Flags: 5 if rle else 1, Vdr.SRecords: sparse, Vdr.NumElems: 1, Vdr.CPRorSPRoffset: cpr,
            Vdr.BlockingFactor: blocking}, Vdr.Name.offset, name)

    def entry(self, kind, num, text, size=0):
        """An entry of letters, with 7 in each field that no rule reads."""
        return self.part(kind, max(ENTRY_VALUE + len(text), size), {
            Aedr.DataType: 51, Aedr.Num: num, Aedr.NumElems: len(text), Aedr.NumStrings: 7, Aedr.rfuB: 7, Aedr.rfuC: 7,
            Aedr.rfuD: 7, Aedr.rfuE: 7}, ENTRY_VALUE, text)

    def attribute(self, name, scope, gr=(), z=()):
        """An attribute with 7 as both greatest numbers."""
        for chain in (list(gr), list(z)):
            self.link(chain, Aedr.AEDRnext)
        part = self.part(ADR, 324, {
            Adr.AgrEDRhead: self.first(list(gr)), Adr.Scope: scope, Adr.NgrEntries: len(gr), Adr.MAXgrEntry: 7,
            Adr.AzEDRhead: self.first(list(z)), Adr.NzEntries: len(z), Adr.MAXzEntry: 7}, Adr.Name.offset, name)
        part.entries = [*gr, *z]
        return part

    def free(self, size):
        return self.part(UIR, size, {})

    def finished(self, z=(), attributes=(), listed=()):
        self.link(list(attributes), Adr.ADRnext)
        self.link(list(z), Vdr.VDRnext)
        self.link(list(listed), Uir.NextUIR)
        for i, part in enumerate(z):
            part.fields[Vdr.Num] = i
        for i, part in enumerate(attributes):
            part.fields[Adr.Num] = i
            for entry in part.entries:
                entry.fields[Aedr.AttrNum] = i
        before = 0
        for part in listed:
            part.fields[Uir.PrevUIR] = before
            before = part
        gdr = Part(GDR, 84, {Gdr.ADRhead: self.first(list(attributes)), Gdr.NumAttr: len(attributes),
                             Gdr.zVDRhead: self.first(list(z)), Gdr.NzVars: len(z), Gdr.rMaxRec: -1,
                             Gdr.UIRhead: self.first(list(listed)), Gdr.LeapSecondLastUpdated: -1, Gdr.rfuE: -1})
        cdr = Part(CDR, 312, {Cdr.GDRoffset: gdr, Cdr.Version: 3, Cdr.Release: 9, Cdr.Encoding: 6,
                              Cdr.Flags: SINGLE_FILE | 1, Cdr.Identifier: 2, Cdr.rfuE: -1})
        return bytes(self.placed([cdr, gdr] + self.parts, gdr))

