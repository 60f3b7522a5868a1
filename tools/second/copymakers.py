"""Files with what the compact image of a file depends on, each kind with much of its own part."""
from layout import LAST_NUMBER, NAME_BYTES, TYPE_NAMED
from makers import EmptyMaker, Maker, SparseMaker
from model import NO_RULE
from scripts import KINDS as COMMANDS
from selfcheck import run


class BareMaker(Maker):
    """Attributes without entries, and no variables."""
    r_counts, z_counts, a_counts, entry_counts = (0,), (0,), (1, 2, 9), (0,)


class EntriesMaker(Maker):
    """Attributes with many entries, with large ones, and with numbers far apart."""
    a_counts, entry_counts, entry_elems, entry_numbers = (1, 3), (1, 40), (1, 1, 3, 3, 300, 5_000), LAST_NUMBER + 1


class TypesMaker(Maker):
    """Many variables of both kinds, and no attributes."""
    r_counts, z_counts, a_counts, leaf_counts = (12, 20), (12, 20), (0,), (0, 1, 3)


class DimsMaker(Maker):
    """Up to ten dimensions."""
    r_counts, z_counts, dim_counts, dim_sizes = (0, 2), (1, 3), (0, 3, 9, 10), (1, 1, 2)


class NamesMaker(Maker):
    """Names of any bytes but 0, up to the longest ones."""

    def name(self, stem):
        self.names += 1
        length = self.random.choice((3, 20, NAME_BYTES - 1, NAME_BYTES))
        text = bytes(self.random.randrange(1, 256) for _ in range(length - 1)) + bytes((self.names,))
        return text if length == NAME_BYTES else text + b'\0' + self.random.randbytes(NAME_BYTES - length - 1)


class BlocksMaker(Maker):
    """Many records behind each other, and blocks of about 64 of them, and of more."""
    rules, greatest, widths = (0, 0, 1, 2), (63, 64, 127, 128, 129, 500), (0, 30, 62, 63, 64, 200)
    leaf_counts, blockings, dim_counts = (3, 6), (-1, 0, 7, 63, 64, 65, 128, 1000), (0, 0, 1)
    r_counts, z_counts, a_counts = (0, 1), (1, 2), (0,)


class ZerosMaker(BlocksMaker):
    """The same with long runs of zeros, some of just as many as one pair stands for."""

    def block(self, count, rle):
        plain = bytearray()
        while len(plain) < count:
            zeros = self.random.choice((1, 2, 3, 255, 256, 257, 511, 512, 513, 767, 768, 5000))
            plain += bytes(zeros) + bytes(self.random.randrange(1, 256) for _ in range(self.random.choice((0, 1, 2, 40))))
        return self.plain_or_packed(bytes(plain[:count]), rle)


class LongMaker(Maker):
    """Records of so many bytes that a block of 1,048,576 holds a few of them, one, or not even one."""
    types = [TYPE_NAMED[name] for name in ('INT1', 'UINT1', 'BYTE', 'UCHAR', 'INT2')]
    greatest, widths, leaf_counts, blockings = (5, 7), (2, 3), (2,), (0, 0, 2, 100)
    r_counts, z_counts, a_counts, dim_counts = (0,), (1,), (0,), (1,)
    dim_sizes = (262_144, 262_145, 349_525, 349_526, 524_288, 524_289, 1_048_576, 1_048_577)

    def block(self, count, rle):
        piece = self.random.randbytes(self.random.randrange(1, 200)) + bytes(self.random.choice((0, 1, 300)))
        return self.plain_or_packed((piece * (count // len(piece) + 1))[:count], rle)


class FarMaker(SparseMaker):
    """Records far from each other, up to the last number that there can be."""
    rules = (0, 1, 2)

    def leaves(self, max_rec, size, rle):
        firsts = sorted(self.random.sample(range(0, LAST_NUMBER, 16), self.random.choice((1, 3, 20))))
        if self.chance(0.5):
            firsts.append(LAST_NUMBER - self.random.choice((0, 1, 5)))
        made = []
        for first in firsts:
            last = min(LAST_NUMBER, first + self.random.choice((0, 0, 3, 12)))
            made.append((first, last, self.block((last - first + 1) * size, rle)))
        return made

    def variable(self, kind, num, rdims):
        self.greatest = (LAST_NUMBER, LAST_NUMBER, LAST_NUMBER - 3, self.random.randrange(LAST_NUMBER), 5)
        return super().variable(kind, num, rdims)


class DeepMaker(Maker):
    """One variable with so many leaves that its nodes of 64 entries stand on one, two or three levels."""
    dim_counts, z_counts, r_counts, a_counts = (0,), (1,), (0,), (0,)
    greatest, blockings = (6000, 12_000), (1,)

    def leaves(self, max_rec, size, rle):
        count, gap = self.random.choice((63, 64, 65, 128, 129, 4095, 4096, 4097, 4200)), self.random.choice((0, 1))
        return [(k, k, self.block(size, rle)) for k in range(0, count * (1 + gap), 1 + gap)]


class DeepRMaker(DeepMaker):
    """The same as an r variable."""
    z_counts, r_counts = (0,), (1,)


# Each kind of file, and its maker
MAKERS = {
    'another maker': Maker, 'long leaves': SparseMaker, 'no variables, no attributes': EmptyMaker,
    'attributes without entries': BareMaker, 'many entries': EntriesMaker, 'many variables': TypesMaker,
    'many dimensions': DimsMaker, 'names of any bytes': NamesMaker, 'long blocks': BlocksMaker,
    'runs of zeros': ZerosMaker, 'long records': LongMaker, 'far records': FarMaker, 'deep index': DeepMaker,
    'deep index of an r variable': DeepRMaker,
}
KINDS = ['edited', *MAKERS]


def edited_file(source, has_packed):
    """What random commands make of a new file, which a variable that is packed or has a sparse rule may be in."""
    images, commands = [], [c for c in COMMANDS if has_packed or c not in ('set-sparse', 'set-compress')]
    run(2 * source.randrange(10**9) + 1, 60, lambda *step: images.append(bytes(step[3].data)), commands)
    return images[-1]


def file_of(kind, source, has_packed):
    """An image of a kind."""
    if kind == 'edited':
        return edited_file(source, has_packed)
    maker = MAKERS[kind](source)
    if not has_packed:
        maker.rules, maker.packed = (NO_RULE,), 0
    return bytes(maker.file())
