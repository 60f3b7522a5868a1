"""The shapes that cost most, each at a size and at twice that size, and what is wanted of them."""

from dataclasses import dataclass
from typing import Callable, Optional

import shapes
from places import MB

Maker = Callable[[int], bytes]

TWICE_AS_LARGE = 2.5  # a shape of twice the size takes at most so many times as long
COUNTS_FROM = 0.3  # where it takes so many seconds at the size


@dataclass
class ShapeCase:
    """The limits are on the time that the processor worked for the program; the answer and the file that is left are those of the plain program."""

    name: str
    count: int
    does: str  # what the plain program does: check, edit, or edit-new
    file: Optional[Maker] = None  # of a count; opened
    script: Optional[Maker] = None  # of a count; given on standard input
    most_user: Optional[float] = None  # what is wanted: at most so many seconds
    times_plain: Optional[float] = None  # at most so many times the plain program
    most_memory: Optional[int] = None  # bytes
    half: Optional[str] = None  # the case of half the size, which stands before it

    @property
    def flags(self) -> list[str]:
        return {"check": ["--check"], "edit": [], "edit-new": ["--new"]}[self.does]


def shape(kind: str, count: int, does: str, **wanted) -> list[ShapeCase]:
    """A shape at a size, for which the limits are, and at twice the size; what is wanted of it in times of the plain program counts at both."""
    at_size = ShapeCase(f"shape, {kind % count}", count, does, **wanted)
    inputs = {part: wanted.get(part) for part in ("file", "script", "times_plain")}
    return [at_size, ShapeCase(f"shape, {kind % (2 * count)}", 2 * count, does, half=at_size.name, **inputs)]


def new_file(kind: str, count: int, script: Maker, most_user: float) -> list[ShapeCase]:
    return shape(kind, count, "edit-new", script=script, most_user=most_user)


def over_file(kind: str, count: int, file: Maker, script: Maker, **wanted) -> list[ShapeCase]:
    return shape(kind, count, "edit", file=file, script=script, **wanted)


SHAPES = [
    *new_file("one far record, %d", 4 * MB, shapes.far_record, 1),
    *new_file("one far record, %d blocks of one", 100_000, shapes.far_record_in_blocks_of_one, 0.5),
    *new_file("%d records in blocks of one", 100_000, shapes.records_in_blocks_of_one, 1),
    *new_file("%d records", MB, shapes.records, 1.5),
    *new_file("%d entries and records by turns", 40_000, shapes.entries_and_records, 1),
    *new_file("%d entries of two attributes by turns", 50_000, shapes.entries_of_two_attributes, 1),
    *over_file("%d pads that move", 20_000, shapes.variables_alone, shapes.pad_of_each, most_user=0.5),
    *over_file("%d entries past short unused", 20_000, shapes.beside_short_unused, shapes.entries_of_the_first, most_user=0.5),
    *over_file("%d entries past long unused", 20_000, shapes.beside_long_unused, shapes.entries_of_the_first, most_user=0.5),
    *over_file("%d records read backwards", 50_000, shapes.leaves_in_order, shapes.get_backwards, most_user=1),
    *over_file("%d records read at random", 50_000, shapes.leaves_in_order, shapes.get_at_random, most_user=1),
    *shape("%d leaves checked", MB, "check", file=shapes.shuffled_leaves, times_plain=1.5),
    *over_file("%d leaves, index anew", MB, shapes.shuffled_leaves, shapes.make_its_index_anew, times_plain=2),
    *over_file("%d leaves, one more", MB, shapes.shuffled_leaves, shapes.put_one_more, times_plain=2),
    *shape("%d variables of one index", 10_000, "check", file=shapes.variables_of_one_index, most_user=1, most_memory=100 * MB),
    *over_file("%d attributes deleted from the front", 10_000, shapes.attributes_alone, shapes.delete_from_the_front, times_plain=2),
]
