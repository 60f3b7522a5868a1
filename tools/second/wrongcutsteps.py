"""Editors that take records out of packed variables in one wrong way."""
from cutsteps import CutsByStep
from layout import CVVR, Cvvr, Vdr
from wrongsteps import (AlwaysPacks, Anew, FreedFirst, Leaks, NeverPacks, NotLongest, PacksEqual, Reserved, ReservedOne,
                        SpareCleared, SpareOnes)


class KeepsOneMore(CutsByStep):
    """A leaf keeps a record more of those that go."""

    def kept(self, vdr, leaf, first, last):
        return super().kept(vdr, leaf, first + 1, last)


class KeepsOneLess(CutsByStep):
    """A leaf loses a record more than those that go."""

    def kept(self, vdr, leaf, first, last):
        return super().kept(vdr, leaf, first - 1, last)


class KeepsOthers(CutsByStep):
    """A leaf keeps as many records, of which the later ones are taken one too early."""

    def kept(self, vdr, leaf, first, last):
        start, kept = super().kept(vdr, leaf, first, last)
        size, plain = self.record_bytes(vdr), self.plain(vdr, leaf)
        return start, plain[:len(kept)]


class LaterFirst(CutsByStep):
    """Of two leaves the later one is written first."""

    def in_part(self, leaves, first, last):
        return super().in_part(leaves, first, last)[::-1]


class CutsOneLess(CutsByStep):
    """Later records fall by one less."""

    def cut_whole(self, vdr, first, last):
        super().cut_whole(vdr, first, last - 1)


class CutsOneMore(CutsByStep):
    """Later records fall by one more."""

    def cut_whole(self, vdr, first, last):
        super().cut_whole(vdr, first, last + 1)


class LaterOneLess(CutsByStep):
    """What is split off lacks its last record."""

    def later(self, vdr, leaf, last):
        part = super().later(vdr, leaf, last)
        return part._replace(plain=part.plain[:-self.record_bytes(vdr)] or part.plain)


class LaterShifted(CutsByStep):
    """What is split off has a number less."""

    def later(self, vdr, leaf, last):
        part = super().later(vdr, leaf, last)
        return part._replace(first=part.first - 1, last=part.last - 1)


class LowersNot(CutsByStep):
    """MaxRec stays."""

    def set_max_rec(self, vdr, last):
        pass


class KeepsBlock(CutsByStep):
    """A block that goes is not freed."""

    def cut_whole(self, vdr, first, last):
        count = len(self.acts)
        super().cut_whole(vdr, first, last)
        self.acts[count:] = [act for act in self.acts[count:]][1:]


class StepsApart(CutsByStep):
    """The old range is left in the entry of a leaf whose first record stays."""

    def keep_some(self, vdr, leaf, first, last):
        start, kept = self.kept(vdr, leaf, first, last)
        at = self.shortened(vdr, leaf, kept)
        self.move_leaf(vdr, leaf, at)


def step_by_step(editor):
    return type(editor.__name__, (editor, CutsByStep), {})


class ReservedStays(CutsByStep):
    """rfuA of a block that stays in its record is written."""

    def keep_some(self, vdr, leaf, first, last):
        super().keep_some(vdr, leaf, first, last)
        for kept in self.index(vdr):
            if kept.at == leaf.at and self.type(leaf.at) == CVVR:
                self[leaf.at, Cvvr.rfuA] = self[leaf.at, Cvvr.rfuA] ^ 1


class TailLost(CutsByStep):
    """VXRtail is written 0."""

    def cut_whole(self, vdr, first, last):
        super().cut_whole(vdr, first, last)
        self[vdr, Vdr.VXRtail] = 0


WRONG_CUTS = [KeepsOneMore, KeepsOneLess, KeepsOthers, LaterFirst, CutsOneLess, CutsOneMore, LaterOneLess, LaterShifted, LowersNot, KeepsBlock,
                 StepsApart, ReservedStays, TailLost] + [
    step_by_step(each) for each in (AlwaysPacks, Anew, FreedFirst, Leaks, NeverPacks, NotLongest, PacksEqual, Reserved,
                                    ReservedOne, SpareCleared, SpareOnes)]
