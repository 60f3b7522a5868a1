"""The second editor, and wrong ones, with a log: the images that a command goes through on its way.

`cuts` has the image after each cut, and how many acts there were up to it. A put has its steps: the image from which
its records are put, and that after each leaf; each with the acts since the one before, and the next record to be put.
"""
from collections import namedtuple
from itertools import product

from editor import CHOICES, Editor

Cut = namedtuple('Cut', 'image acts')
Step = namedtuple('Step', 'image acts next')


class Log:
    def __init__(self, data):
        super().__init__(data)
        self.cuts, self.steps, self.vdr, self.stored, self.counted = [], [], None, None, 0

    def cut(self, vdr, first, last, close):
        super().cut(vdr, first, last, close)
        self.cuts.append(Cut(bytes(self.data), len(self.acts)))
        if self.steps:
            self.steps, self.counted = [], 0
            self.step(self.first)

    def put(self, vdr, first, data):
        self.vdr, self.first, self.stored = vdr, first, bytes(data[-self.record_bytes(vdr):])
        self.step(first)
        super().put(vdr, first, data)

    def put_covered(self, vdr, leaf, rec, data):
        super().put_covered(vdr, leaf, rec, data)
        self.step(leaf.last + 1)

    def add_leaf(self, vdr, first, last, plain):
        super().add_leaf(vdr, first, last, plain)
        self.step(last + 1)

    def step(self, following):
        self.steps.append(Step(bytes(self.data), list(self.acts[self.counted:]), following))
        self.counted = len(self.acts)


LOGGED = {}


def logged(editor):
    """The class of an editor with a log."""
    if editor not in LOGGED:
        LOGGED[editor] = type(editor.__name__, (Log, editor), {})
    return LOGGED[editor]


def carried_out(editor, before, c, after, choices=()):
    """A command carried out on an image by an editor of this class, with its log."""
    image = logged(editor)(before)
    image.c = c
    for choice in choices:
        setattr(image, choice, True)
    do = getattr(image, 'do_' + c.kind.replace('-', '_'), None)
    if do is not None:
        do(c, after) if c.kind in ('put-rec', 'put-val') else do(c)
    return image


def again(before, c, edited, after):
    """What an editor did once more, with a log."""
    found = carried_out(Editor, before, c, after, [choice for choice in CHOICES if getattr(edited, choice)])
    assert (found.data, found.acts) == (edited.data, edited.acts), c
    return found


# What an editor may come to on an image that is not good
FAILS = (AssertionError, KeyError, IndexError, ValueError, OverflowError, RecursionError)


def cut_somehow(image, vdr, first, last):
    """What a cut that leaves later numbers may make of an image: by each choice, the bytes and the acts.

    Of an image that is not good it makes nothing where the editor fails.
    """
    found = []
    for truths in product((False, True), repeat=len(CHOICES)):
        work = Editor(image)
        for choice, truth in zip(CHOICES, truths):
            setattr(work, choice, truth)
        try:
            work.cut(vdr, first, last, False)
        except FAILS:
            continue
        made = bytes(work.data), work.acts
        if made not in found:
            found.append(made)
            yield made
