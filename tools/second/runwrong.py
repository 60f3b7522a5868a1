"""Tries the wrong editors beside the right one: python3 runwrong.py FILES COMMANDS [SEED] [NAME] [SORT].

NAME is - for all of them, SORT as in runfollows.py.

An image that a wrong editor makes counts where it is good, has the right content and is not the right image. Of each
that is admitted it says by which acts it was made, and in which records it differs from the right one.
"""
import sys
from collections import Counter

from content import content
from editor import apply
from image import Image
from layout import VXR, Vxr, node_size
from logged import FAILS, logged
from model import READERS
from pagevalues import with_room
from runfollows import SORTS
from search import refused_whatever
from selfcheck import run
from validator import broken, sealed
from wrong import WRONG

# How often a wrong editor is tried on one command
MOST = 12


def made_by(cls, before, c, after):
    """The image and acts of a wrong editor, with its log, or None where it fails or makes no good image."""
    image = logged(cls)(before)
    image.c = c
    do = getattr(image, 'do_' + c.kind.replace('-', '_'))
    try:
        do(c, after) if c.kind in ('put-rec', 'put-val') else do(c)
        image.finish(c)
        if broken(sealed(image.data)) or content(image) != after:
            return None
    except FAILS:
        return None
    return image


def part(before, acts, at):
    """The record in which a byte is, one that was there or that is taken; whether it is freed; of a node, which part."""
    image = Image(before)
    tile = next((t for t in image.tiles() if t.at <= at < t.at + t.size), None)
    place = tile.at if tile else next((p for act, p, n in acts if act == 'take' and p <= at < p + n), None)
    words = 'freed' if any(act == 'give' and given == place for act, given, _ in acts) else 'kept'
    if tile is None or tile.type != VXR:
        return place, words
    inside = 28 <= at - place < node_size(image[place, Vxr.Nentries])
    return place, words + (' node, entries' if inside else ' node, not its entries')


def differences(before, right, image):
    """How many bytes are not those of the right image, by where they are."""
    longer = len(image.data) - len(right.data)
    found = Counter(part(before, image.acts, at) for at, (a, b) in enumerate(zip(image.data, right.data)) if a != b)
    return dict(found), f'{longer} bytes longer' if longer else 'as long'


def main():
    files, commands = int(sys.argv[1]), int(sys.argv[2])
    start = int(sys.argv[3]) if len(sys.argv) > 3 else 0
    editors = [cls for cls in WRONG if len(sys.argv) < 5 or sys.argv[4] in ('-', cls.__name__)]
    sort = sys.argv[5] if len(sys.argv) > 5 else ''
    tried, admitted, reasons = Counter(), Counter(), {}

    def each(before, data_set, c, edited, after, reply):
        if c.kind in READERS:
            return
        right = apply(before, c, before=data_set)[0].data
        for cls in editors:
            if (cls.commands is not None and c.kind not in cls.commands) or tried[cls.__name__, c.kind] >= MOST:
                continue
            image = made_by(cls, before, c, after)
            if image is None or image.data in (right, edited.data):
                continue
            tried[cls.__name__, c.kind] += 1
            why = refused_whatever(before, c, image.data, image.acts, image.cuts)
            if why:
                reasons.setdefault(cls.__name__, Counter())[why[0]] += 1
                continue
            admitted[cls.__name__, c.kind] += 1
            print('ADMITTED', cls.__name__, 'seed', seed, c, '\n  right', edited.acts, '\n  acts ', image.acts,
                  '\n  differs', *differences(before, edited, image), flush=True)

    for seed in range(start, start + files):
        run(seed, commands, each, SORTS[sort], sort)
    for cls in editors:
        name = cls.__name__
        of_tried, of_admitted = ({kind: n for (other, kind), n in tally.items() if other == name}
                                 for tally in (tried, admitted))
        print(name, of_tried, 'admitted', of_admitted, dict(reasons.get(name, Counter()).most_common(3)), flush=True)


if __name__ == '__main__':
    with_room(main)
