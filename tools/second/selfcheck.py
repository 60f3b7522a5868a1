"""Runs random scripts and checks the editor against the model: python3 selfcheck.py FILES COMMANDS [SEED]."""
import random
import sys
from collections import Counter

from content import content
from editor import CHOICES, apply
from image import Image
from layout import fresh_image
from makers import empty_file, foreign_file, sparse_file
from model import Command, Refused
from scripts import KINDS, Script
from validator import broken, sealed


def many_leaves(source):
    """A variable with so many leaves that an index of 64 entries a node has two levels."""
    image = bytes(fresh_image())
    more = Command('put-rec', name=b'w', rec=source.randrange(64, 140), words=[b'1'])
    first = [Command('zvar', name=b'w', type=source.choice((1, 4)), elems=1, vary=True, dims=[], varys=[]),
             Command('set-blocking', name=b'w', n=1), more, Command('reindex', name=b'w')]
    if source.random() < 0.5:
        first.append(Command('del-recs', name=b'w', first=source.randrange(20), last=source.randrange(20, 64)))
    for c in first:
        image = bytes(apply(image, c)[0].data)
    return image


def half_filled(source):
    """Variables under a sparse rule whose last block covers many records past MaxRec."""
    image = bytes(fresh_image())
    for name in (b'u', b'w'):
        first = [Command('zvar', name=name, type=source.choice((1, 4)), elems=1, vary=True, dims=[], varys=[]),
                 Command('set-sparse', name=name, rule=source.choice((1, 2))),
                 Command('set-compress', name=name, rle=source.random() < 0.6),
                 Command('set-pad', name=name, words=[source.choice((b'0', b'0', b'7'))]),
                 Command('set-blocking', name=name, n=source.randrange(8, 60))]
        zeros = source.choice((.3, .9, 1))
        puts = [Command('put-rec', name=name, rec=rec,
                        words=[b'0' if source.random() < zeros else b'%d' % source.randrange(99)])
                for rec in range(source.randrange(2, 30)) if source.random() < 0.9]
        for c in first + puts:
            image = bytes(apply(image, c)[0].data)
    return image


FIRST = {'wide': many_leaves, 'sparse': sparse_file, 'setup': empty_file, 'twice': half_filled}


def run(seed, commands, each, kinds=KINDS, sort=''):
    """A script on one file; `each` sees what is accepted: before, data set, command, image, data set after, reply."""
    source = random.Random(seed)
    first = FIRST.get(sort, foreign_file if seed % 2 == 0 else lambda _: fresh_image())
    image = bytes(first(source))
    assert broken(sealed(image)) == [], (seed, broken(sealed(image)))
    script, data_set, tally = Script(source), content_of(image), Counter()
    for _ in range(commands):
        c = script.command(data_set, kinds, sort in ('even', 'frees'))
        work = bytearray(image)
        try:
            choices = [choice for choice in CHOICES if source.random() < 0.25]
            edited, after, reply = apply(work, c, before=data_set, choices=choices)
        except Refused as refusal:
            assert work == image
            tally[c.kind, 'refused', refusal.number] += 1
            continue
        assert broken(sealed(edited.data)) == [], (seed, c, broken(sealed(edited.data)))
        assert content(edited) == after, (seed, c)
        each(image, data_set, c, edited, after, reply)
        tally[c.kind, 'accepted'] += 1
        image, data_set = bytes(edited.data), after
    return tally


def content_of(image):
    return content(Image(image))


def main():
    files, commands = int(sys.argv[1]), int(sys.argv[2])
    start = int(sys.argv[3]) if len(sys.argv) > 3 else 0
    total = Counter()
    for seed in range(start, start + files):
        total += run(seed, commands, lambda *_: None)
    for key in sorted(total, key=str):
        print(*key, total[key])


if __name__ == '__main__':
    main()
