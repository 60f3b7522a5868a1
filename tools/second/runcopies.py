"""Has a program copy random files, and compares each copy with the compact image by this editor.

    python3 runcopies.py FILES [SEED] [--packed] [--program PROGRAM]

PROGRAM, which is cdf_bench where `rt run` puts it if no other is given, is run as `PROGRAM copy FILE COPY`. Kinds of files
come in turn; with --packed some have variables that are packed or have a sparse rule. It prints how many files there were
of each kind, and how many had what. A file whose copy is another one is kept, and its name printed.
"""
import argparse
import random
import subprocess
import sys
import tempfile
from collections import Counter
from pathlib import Path

from content import content
from copymakers import KINDS, file_of
from image import Image
from layout import CVVR, RVDR, TYPES, UIR, VVR, VXR, ZVDR, Cdr, Vdr
from validator import broken, sealed
from writer import compact

PROGRAM = Path(__file__).resolve().parents[2] / 'crates/cdf_bench/out/cdf_bench'


def made_file(seed, has_packed):
    """A kind and the image of a file of it, with any release and increment in some."""
    source, kind = random.Random(seed), KINDS[seed % len(KINDS)]
    image = Image(file_of(kind, source, has_packed))
    if source.random() < 0.3:
        for field in (Cdr.Release, Cdr.Increment):
            image[8, field] = source.randrange(-2**31, 2**31)
    return kind, image


def of_data_set(d):
    """What of the data set counts."""
    yield 'row majority' if d.row else 'column majority'
    yield f'encoding {d.encoding}'
    if d.md5:
        yield 'a checksum'
    if not d.attributes:
        yield 'no attributes'
    if any(not a.g and not a.z for a in d.attributes):
        yield 'an attribute without entries'
    if any(a.z for a in d.attributes):
        yield 'entries of z variables'
    if not d.r and not d.z:
        yield 'no variables'
    for name, variables in (('r', d.r), ('z', d.z)):
        if variables:
            yield f'{name} variables'
        for code in {v.type for v in variables}:
            yield f'{TYPES[code].name}, {name}'


def of_variable(v):
    numbers = sorted(v.recs)
    size = v.value_bytes() * v.values()
    yield 'records' if numbers else 'a variable without records'
    if any(after > before + 1 for before, after in zip(numbers, numbers[1:])):
        yield 'gaps between records'
    if v.sparse:
        yield 'a sparse rule'
    if v.rle:
        yield 'a packed variable'
    if v.pad is not None:
        yield 'a pad value'
    if not v.vary:
        yield 'records that do not vary'
    if len(v.dims) > 8:
        yield '9 or 10 dimensions'
    if size > 2**20:
        yield 'records of more than 1,048,576 bytes'
    if v.blocking > 64:
        yield 'a blocking factor past 64'


def of_image(image):
    """What of the file as it was counts, of which the data set tells nothing."""
    unused = [tile for tile in image.tiles() if tile.type == UIR]
    listed = image.unused()
    if listed:
        yield 'listed unused records'
    if len(unused) > len(listed):
        yield 'unlisted unused records'
    for kind in (RVDR, ZVDR):
        for vdr in image.variables(kind):
            if any(leaf.last > image[vdr, Vdr.MaxRec] for leaf in image.leaves(image[vdr, Vdr.VXRhead])):
                yield 'records past MaxRec in blocks'


def levels(image, vdr):
    """How many levels of nodes an index has."""
    count, at = 0, image[vdr, Vdr.VXRhead]
    while at and image.type(at) == VXR:
        count, at = count + 1, image.entry(at, 0).at
    return count


def of_copy(image):
    """What of the compact image counts."""
    kinds = {tile.type for tile in image.tiles()}
    if CVVR in kinds:
        yield 'packed blocks in the copy'
    for kind in (RVDR, ZVDR):
        for vdr in image.variables(kind):
            if image.compressed(vdr) and any(image.type(leaf.at) == VVR for leaf in image.leaves(image[vdr, Vdr.VXRhead])):
                yield 'plain blocks of a packed variable in the copy'
            yield f'an index of {levels(image, vdr)} levels in the copy'


def parts_of(kind, d, image, copy):
    """What a file of a kind has, each once."""
    found = {f'kind: {kind}', *of_data_set(d), *of_image(image), *of_copy(copy)}
    for v in d.r + d.z:
        found.update(of_variable(v))
    return found


def difference(copy, wanted):
    """Where the program's copy is another one, or None."""
    if copy is None:
        return 'there is no copy'
    if copy == wanted:
        return None
    at = next((k for k, pair in enumerate(zip(copy, wanted)) if pair[0] != pair[1]), min(len(copy), len(wanted)))
    return f'the copy has {len(copy)} bytes, and not {len(wanted)}, and another one at {at}'


def copied(program, folder, file):
    """The copy that the program makes, or None."""
    old, new = folder / 'old.cdf', folder / 'new.cdf'
    old.write_bytes(file)
    new.unlink(missing_ok=True)
    run = subprocess.run([program, 'copy', old, new], stdout=subprocess.DEVNULL, stderr=subprocess.DEVNULL)
    return new.read_bytes() if run.returncode == 0 and new.exists() else None


def compare(seed, asked, folder, tally):
    """Whether the program's copy of a file is that of this editor."""
    kind, image = made_file(seed, asked.packed)
    file = sealed(image.data)
    assert not broken(file), f'seed {seed} makes a file that breaks a rule'
    d = content(image)
    made = compact(d)
    tally.update(parts_of(kind, d, image, Image(made)))
    wrong = difference(copied(asked.program, folder, file), sealed(made))
    if wrong:
        kept = Path(tempfile.gettempdir()) / f'copied-{seed}.cdf'
        kept.write_bytes(file)
        print(f'  wrong: seed {seed}, {kind}: {wrong}; the file is {kept}', flush=True)
    return not wrong


def main():
    parser = argparse.ArgumentParser(description='Compares the copies of a program with those of this editor.')
    parser.add_argument('files', type=int)
    parser.add_argument('seed', type=int, nargs='?', default=0)
    parser.add_argument('--packed', action='store_true')
    parser.add_argument('--program', type=Path, default=PROGRAM)
    asked = parser.parse_args()
    tally, wrong = Counter(), 0
    with tempfile.TemporaryDirectory() as folder:
        for n in range(asked.seed, asked.seed + asked.files):
            wrong += not compare(n, asked, Path(folder), tally)
    for part, count in sorted(tally.items(), key=lambda item: (not item[0].startswith('kind'), item[0])):
        print(f'{count:7} {part}')
    print(f'{asked.files} files, of which {wrong} have another copy')
    return 1 if wrong else 0


if __name__ == '__main__':
    sys.exit(main())
