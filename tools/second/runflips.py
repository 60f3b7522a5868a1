"""Changes single bytes of right images: python3 runflips.py FILES COMMANDS [SEED] [FLIPS] [SORT].

What is still good, has the right content and is admitted is told by the command and the record in which the byte is.
"""
import random
import sys
from collections import Counter

from asking import why_refused
from image import Image
from logged import again
from model import READERS
from pagevalues import with_room
from runfollows import SORTS
from selfcheck import run

NAMES = {1: 'CDR', 2: 'GDR', 3: 'rVDR', 4: 'ADR', 5: 'AgrEDR', 6: 'VXR', 7: 'VVR', 8: 'zVDR', 9: 'AzEDR', 11: 'CPR',
         13: 'CVVR', -1: 'UIR'}


def where(before, edited, at):
    """The record in which a byte is: its type now, its type before and the place in it."""
    tile = next((tile for tile in edited.tiles() if tile.at <= at < tile.at + tile.size), None)
    if tile is None:
        return 'magic'
    was = {t.at: NAMES.get(t.type) for t in Image(before).tiles()}.get(tile.at, 'new')
    offset = at - tile.at
    return f'{NAMES.get(tile.type)} was {was} at {offset if offset < 100 else "100+"}'


def main():
    files, commands = int(sys.argv[1]), int(sys.argv[2])
    start = int(sys.argv[3]) if len(sys.argv) > 3 else 0
    flips = int(sys.argv[4]) if len(sys.argv) > 4 else 10
    sort = sys.argv[5] if len(sys.argv) > 5 else ''
    tried, admitted, examples = Counter(), Counter(), {}
    source = random.Random(start)

    def each(before, data_set, c, edited, after, reply):
        if c.kind in READERS:
            return
        touched = {at for act, at, size in edited.acts}
        cuts = again(before, c, edited, after).cuts
        for _ in range(flips):
            at = source.randrange(8, len(edited.data))
            if touched and source.random() < 0.6:
                act, place, size = source.choice(edited.acts)
                at = min(place + source.randrange(size), len(edited.data) - 1)
            image = bytearray(edited.data)
            image[at] ^= 1 << source.randrange(8)
            tried[c.kind] += 1
            if not why_refused(before, c, image, edited.acts, cuts):
                key = c.kind, where(before, edited, at)
                admitted[key] += 1
                examples.setdefault(key, (len(tried), at, c, edited.acts))
    for seed in range(start, start + files):
        run(seed, commands, each, SORTS[sort], sort)
    print('tried', dict(tried))
    for key, count in sorted(admitted.items(), key=str):
        print(*key, count, examples[key])


if __name__ == '__main__':
    with_room(main)
