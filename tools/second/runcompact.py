"""Writes random data sets as compact images, and checks what holds of these: python3 runcompact.py FILES [SEED]."""
import random
import sys

from content import content
from image import Image
from makers import empty_file, foreign_file, sparse_file
from validator import broken, sealed
from writer import compact


def check(seed):
    source = random.Random(seed)
    data_set = content(Image(source.choice((foreign_file, sparse_file, empty_file))(source)))
    made = compact(data_set)
    image = Image(made)
    assert content(image) == data_set, 'it means another data set'
    assert not broken(sealed(made)), 'it breaks a rule'
    at = 8
    while at < len(made):
        at += int.from_bytes(made[at:at + 8], 'big')
    assert at == len(made), 'it has other bytes than those of records'
    assert compact(content(image)) == made, 'it is not compact'


def main(files, seed=0):
    for n in range(seed, seed + files):
        try:
            check(n)
        except AssertionError as reason:
            sys.exit(f'seed {n}: {reason}')
    print(f'{files} compact images')


if __name__ == '__main__':
    main(*map(int, sys.argv[1:]))
