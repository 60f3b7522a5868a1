"""Decides `ClosesBySteps` and `OpensTwice`, as their page says them, by the stages of an editor's log.

The editor here gives each leaf that keeps some of its records these alone first, and then cuts the leaves that go; what
is split off gets its block last.
"""
import asking
from asking import ask, stage, variable_in, why_not
from editor import Editor
from layout import LAST_NUMBER, Vdr
from logged import Step
from pagevalues import GIVEN, acts_value, force, image_value, sequence, stretch, value
from image import Entry
from records import Part
from steps import found_variable


class CutsByStep(Editor):
    """Records go from a packed variable step by step. `ends` has how many steps there were after each cut."""

    def __init__(self, data):
        super().__init__(data)
        self.steps, self.counted, self.ends = [], 0, []

    def step(self):
        self.steps.append(Step(bytes(self.data), list(self.acts[self.counted:]), 0))
        self.counted = len(self.acts)

    def cut(self, vdr, first, last, close):
        if not self.compressed(vdr):
            super().cut(vdr, first, last, close)
            return
        self.close = close
        leaves = self.index(vdr)
        both = [leaf for leaf in leaves if leaf.first < first and last < leaf.last]
        start = both[0].last - (last - first) if both and close else first
        later = [self.later(vdr, leaf, last) for leaf in both if not close]
        for leaf in self.in_part(leaves, first, last):
            self.keep_some(vdr, leaf, first, last)
            self.step()
        self.cut_whole(vdr, start, start + last - first)
        self.step()
        for part in later:
            self.add_part(vdr, part)
            self.step()
        self.ends.append(len(self.steps))

    def delete(self, vdr, first, last):
        if not self[vdr, Vdr.SRecords]:
            super().delete(vdr, first, last)
            return
        old_max = self[vdr, Vdr.MaxRec]
        self.cut(vdr, first, last, False)
        new_max = max((min(leaf.last, old_max) for leaf in self.index(vdr) if leaf.first <= old_max), default=-1)
        self.cut(vdr, new_max + 1, LAST_NUMBER, False)
        self.set_max_rec(vdr, new_max)

    def later(self, vdr, leaf, last):
        return Part(last + 1, leaf.last, self.plain(vdr, leaf)[(last + 1 - leaf.first) * self.record_bytes(vdr):], None)

    def in_part(self, leaves, first, last):
        return [leaf for leaf in leaves if leaf.first <= last and first <= leaf.last
                and (leaf.first < first or last < leaf.last)]

    def kept(self, vdr, leaf, first, last):
        """The number of the first record that a leaf keeps, and the bytes of all that it keeps."""
        size, plain = self.record_bytes(vdr), self.plain(vdr, leaf)
        before = plain[:max(0, first - leaf.first) * size]
        after = plain[(min(last, leaf.last) - leaf.first + 1) * size:]
        if not self.close and before:
            after = b''
        return (leaf.first if before else last + 1), before + after

    def keep_some(self, vdr, leaf, first, last):
        start, kept = self.kept(vdr, leaf, first, last)
        at = self.shortened(vdr, leaf, kept)
        node, i = self.entry_of(self[vdr, Vdr.VXRhead], leaf.at)
        self.set_entry(node, i, Entry(start, start + len(kept) // self.record_bytes(vdr) - 1, at))

    def cut_whole(self, vdr, first, last):
        super().cut(vdr, first, last, self.close)


STAGES, CUTS = None, None


def joined(stages):
    """The last of these stages, with the acts of all."""
    last = dict(stages[-1])
    last['acts'] = stretch([act for each in stages for act in sequence(each['acts'])])
    return last


def each_cut(env):
    """The stage after each of the two cuts, with all acts of this cut."""
    return [{'cut': joined(CUTS[0]), 'left': joined(CUTS[1])}] if all(CUTS) else []


def steps_of_cut(env):
    """The stages of one of the cuts: it ends with what is split off where the leaf has records on both sides."""
    own = force(env['from'])['own']
    leaves = ask('cdf_format', 'Index', 'leaves_of', force(own)['index'])
    splits = ask('cdf_packed_deletes', 'Steps', 'with_both', env['first'], env['last'], leaves).tag == 'Some'
    found = []
    for stages in CUTS:
        kept, end = stages[:-2] if splits else stages[:-1], stages[-1]
        if splits and len(stages) < 2:
            continue
        first = {'image': force(env['from'])['image'], 'own': own, 'acts': stretch([]), 'next': 0}
        found.append({'stages': stretch(kept), 'kept': kept[-1] if kept else first,
                      'left': stages[-2] if splits else end, 'end': end})
    return found


def leaf_added(env):
    to = force(env['to'])
    acts = [force(act) for act in sequence(to['acts'])]
    takes = [force(act.members[0]) for act in acts if act.tag == 'Took']
    leaves = sequence(ask('cdf_format', 'Index', 'leaves_of', force(to['own'])['index']))
    return [{'new': leaf, 'at': at} for leaf in leaves for at in takes[1:2] or [0]]


def stages_and_last(env):
    """The stages of the leaves that keep some, with the last of them, and the stage after the cut."""
    if not STAGES:
        return []
    kept, left = STAGES[:-1], STAGES[-1]
    from_first = {'image': env['b'], 'own': env['before'], 'acts': stretch([]), 'next': 0}
    return [{'stages': stretch(kept), 'kept': kept[-1] if kept else from_first, 'left': left}]


def leaf_kept(env):
    leaves = sequence(ask('cdf_format', 'Index', 'leaves_of', force(force(env['to'])['own'])['index']))
    return [{'new': leaf} for leaf in leaves]


GIVEN.witnesses.update({'ClosesBySteps': stages_and_last, 'KeepsSome': leaf_kept, 'OpensTwice': each_cut,
                        'OpensBySteps': steps_of_cut, 'SplitsOff': leaf_added})


def why_not_cut_so(before, c, edited):
    """The claims of the page that fail, by the log of the editor that took the records out."""
    global STAGES, CUTS
    found = found_variable(before, c.name)
    STAGES = [made for step in edited.steps for made in stage(image_value(step.image), found, acts_value(step.acts), 0)]
    own = variable_in(image_value(before), found)[0]
    after = variable_in(image_value(edited.data), found)[0]
    ends = edited.ends
    CUTS = [STAGES[:ends[0]], STAGES[ends[0]:ends[1]]] if len(ends) > 1 and len(STAGES) == len(edited.steps) else [[], []]
    relation = value('cdf_packed_deletes', 'Steps', 'OpensTwice' if len(ends) > 1 else 'ClosesBySteps')
    return why_not(relation, image_value(before), image_value(edited.data), found, c.first, c.last, own, after,
                   acts_value(edited.acts), log=asking.Log(edited.acts))
