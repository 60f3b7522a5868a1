"""Editors that put records into packed variables in one wrong way. Unlike in wrong.py, the content may be wrong too."""
from editor import Editor
from image import encoded
from layout import BLOCK_RECORDS, CVVR, PACKED_BYTES, VVR, Cvvr


def end_of(plain, packed):
    return BLOCK_RECORDS + len(plain) if packed is None else PACKED_BYTES + len(packed)


class PutsBeside(Editor):
    """The record is written some bytes beside its place."""
    beside = 0

    def put_covered(self, vdr, leaf, rec, data):
        plain = self.plain(vdr, leaf)
        start = (rec - leaf.first) * self.record_bytes(vdr) + self.beside
        start = min(max(0, start), len(plain) - len(data))
        self.move_leaf(vdr, leaf, self.rewrite(vdr, leaf.at, plain[:start] + data + plain[start + len(data):]))


class Early(PutsBeside):
    beside = -1


class Late(PutsBeside):
    beside = 1


class NotLongest(Editor):
    """A block is packed with its runs cut in two."""

    def packs(self, vdr, plain):
        packed = super().packs(vdr, plain)
        if packed is None:
            return None
        out, at = bytearray(), 0
        while at < len(packed):
            if packed[at]:
                out.append(packed[at])
                at += 1
                continue
            out += bytes((0, packed[at + 1])) if packed[at + 1] == 0 else bytes((0, packed[at + 1] - 1, 0, 0))
            at += 2
        return bytes(out) if end_of(plain, out) < end_of(plain, None) else None


class Rewrites(Editor):
    """A block is written over in another way."""

    def stays(self, at, plain, packed):
        return self.type(at) == (VVR if packed is None else CVVR) and end_of(plain, packed) <= self.size(at)

    def rewrite(self, vdr, at, plain):
        packed = self.packs(vdr, plain)
        if self.stays(at, plain, packed):
            self.fill_block(at, plain, packed)
            return at
        return self.anew(vdr, at, plain)


class Anew(Rewrites):
    """A block is placed anew though it has room."""

    def stays(self, at, plain, packed):
        return False

    def anew(self, vdr, at, plain):
        by = self.new_block(vdr, plain)
        self.give(at)
        return by


class FreedFirst(Rewrites):
    """The old record is freed before the new one is taken."""

    def anew(self, vdr, at, plain):
        self.give(at)
        return self.new_block(vdr, plain)


class Leaks(Rewrites):
    """The old record is not freed."""

    def anew(self, vdr, at, plain):
        return self.new_block(vdr, plain)


class NeverPacks(Editor):
    def packs(self, vdr, plain):
        return None


class AlwaysPacks(Editor):
    def packs(self, vdr, plain):
        return encoded(plain) if self.compressed(vdr) else None


class PacksEqual(Editor):
    """A block is packed also where this makes its record no shorter."""

    def packs(self, vdr, plain):
        packed = encoded(plain)
        return packed if self.compressed(vdr) and end_of(plain, packed) <= end_of(plain, None) else None


class SpareOnes(Editor):
    """A byte behind a new block is not 0."""

    def new_block(self, vdr, plain):
        at, end = super().new_block(vdr, plain), end_of(plain, self.packs(vdr, plain))
        if end < self.size(at):
            self.data[at + end] = 7
        return at


class SpareCleared(Editor):
    """What stands behind a block is cleared."""

    def fill_block(self, at, plain, packed):
        super().fill_block(at, plain, packed)
        end = end_of(plain, packed)
        self.write(at + end, bytes(self.size(at) - end))


class Reserved(Editor):
    """A block that is placed anew keeps rfuA."""
    keeps_reserved = True


class ReservedOne(Editor):
    """rfuA of a new block is not 0."""

    def new_block(self, vdr, plain):
        at = super().new_block(vdr, plain)
        if self.type(at) == CVVR:
            self[at, Cvvr.rfuA] = 5
        return at


class OneByOne(Editor):
    """Records of one leaf are written one after the other, and the block is placed each time."""

    def put_covered(self, vdr, leaf, rec, data):
        size = self.record_bytes(vdr)
        for at in range(len(data) // size):
            leaf = self.leaf_of(vdr, rec + at)
            super().put_covered(vdr, leaf, rec + at, data[at * size:(at + 1) * size])


class Longer(Editor):
    """A new leaf has a record more."""

    def new_last(self, vdr, k, old_max):
        last, bound = super().new_last(vdr, k, old_max), self.next_first(vdr, k)
        return last + 1 if bound is None or last + 1 < bound else last


class Shorter(Editor):
    """A new leaf has a record less."""

    def new_last(self, vdr, k, old_max):
        return max(k, super().new_last(vdr, k, old_max) - 1)


class PadZero(Editor):
    """The other records of a new block hold bytes 0."""

    def pad_record(self, vdr):
        return bytes(self.record_bytes(vdr))


class MaxMore(Editor):
    """MaxRec is greater by one."""

    def set_max_rec(self, vdr, value):
        super().set_max_rec(vdr, value + 1)


class NodeFirst(Editor):
    """Bytes for a node are taken before the block."""

    def add_leaf(self, vdr, first, last, plain):
        self.take(28)
        super().add_leaf(vdr, first, last, plain)


class Uncut(Editor):
    """What is past MaxRec is not cut before."""

    def cut(self, vdr, first, last, close):
        pass


class CutAnew(Editor):
    """A block that the cut makes shorter is placed anew always."""

    def shortened(self, vdr, leaf, plain):
        by = self.new_block(vdr, plain)
        self.give(leaf.at)
        return by


class CutFreesFirst(FreedFirst):
    """A block that the cut makes shorter is freed before its new record is taken."""

    def put_covered(self, vdr, leaf, rec, data):
        self.is_cutting = False
        super().put_covered(vdr, leaf, rec, data)

    is_cutting = True

    def anew(self, vdr, at, plain):
        return super().anew(vdr, at, plain) if self.is_cutting else Editor.rewrite(self, vdr, at, plain)


class SizeMore(Editor):
    """A record that is taken for a block or a node has four bytes more."""

    def take(self, need):
        return super().take(need + (4 if 28 < need < 200 else 0))


WRONG_STEPS = [Early, Late, NotLongest, Anew, FreedFirst, Leaks, NeverPacks, AlwaysPacks, PacksEqual, SpareOnes,
               SpareCleared, Reserved, ReservedOne, OneByOne, Longer, Shorter, PadZero, MaxMore, NodeFirst, Uncut,
               CutAnew, CutFreesFirst, SizeMore]
