"""The shapes that cost most: the files and the scripts, each a function of a count."""

import random
import struct

from files import (
    ATTRIBUTE, BLOCK, NODE, NODE_ENTRIES, SMALL_NODE, VARIABLE, attribute, attributes, block, blocks_of_one, number,
    size_of_blocks, small_node, variable, variables, with_records,
)

NEW_VARIABLE = b"zvar V INT4 1 vary - -\n"
IN_BLOCKS_OF_ONE = b"set-blocking V 1\n"
NEW_ATTRIBUTE = b"attr a0 global\n"


# ---- scripts over a new file ----


def far_record(count: int) -> bytes:
    """Lines that make a variable and its last record alone; those before it become pads."""
    return NEW_VARIABLE + b"put-rec V %d 7\n" % (count - 1)


def far_record_in_blocks_of_one(count: int) -> bytes:
    return NEW_VARIABLE + IN_BLOCKS_OF_ONE + b"put-rec V %d 7\n" % (count - 1)


def records(count: int) -> bytes:
    """Lines that make a variable and each of its records."""
    return NEW_VARIABLE + b"".join(b"put-rec V %d %d\n" % (num, num) for num in range(count))


def records_in_blocks_of_one(count: int) -> bytes:
    return NEW_VARIABLE + IN_BLOCKS_OF_ONE + records(count)[len(NEW_VARIABLE) :]


def entries_and_records(count: int) -> bytes:
    """Lines that make so many entries of an attribute and as many records of a variable, by turns."""
    pairs = (b"put-entry a0 g %d INT4 %d\nput-rec V %d %d\n" % (num, num, num, num) for num in range(count))
    return NEW_ATTRIBUTE + NEW_VARIABLE + b"".join(pairs)


def entries_of_two_attributes(count: int) -> bytes:
    """Lines that make so many entries, of two attributes by turns."""
    lines = (b"put-entry a%d g %d INT4 %d\n" % (num % 2, num // 2, num) for num in range(count))
    return NEW_ATTRIBUTE + b"attr a1 global\n" + b"".join(lines)


# ---- files, and scripts over them ----


def variables_alone(count: int) -> bytes:
    return variables(404 + count * VARIABLE)


def pad_of_each(count: int) -> bytes:
    """Lines that give a pad value to each variable, whose descriptor has no room for it, and does not fit into one that was left."""
    return b"".join(b"set-pad %d %d\n" % (num, num) for num in range(count))


SHORT_UNUSED = 28
LONG_UNUSED = 80  # longer than an entry of 4 bytes, which does not fit, since less than 28 would be left


def beside_unused(size: int, count: int) -> bytes:
    """A file of an attribute, 0, and so many unused records of a size."""
    first = 404 + ATTRIBUTE

    def place(num: int) -> int:
        return first + num * size if 0 <= num < count else 0

    spare = bytes(size - SHORT_UNUSED)
    unused = (struct.pack(">qiqq", size, -1, place(num + 1), place(num - 1)) + spare for num in range(count))
    return with_records(attribute(404, 0, True) + b"".join(unused), {348: number(8, 404), 368: number(4, 1), 384: number(8, first)})


def beside_short_unused(count: int) -> bytes:
    return beside_unused(SHORT_UNUSED, count)


def beside_long_unused(count: int) -> bytes:
    return beside_unused(LONG_UNUSED, count)


def entries_of_the_first(count: int) -> bytes:
    """Lines that make so many entries of the attribute 0."""
    return b"".join(b"put-entry 0 g %d INT4 %d\n" % (num, num) for num in range(count))


def leaves_in_order(count: int) -> bytes:
    """A file of one variable, 0, with so many blocks of one record, as puts make it."""
    return blocks_of_one(size_of_blocks(count))


def get_backwards(count: int) -> bytes:
    """Lines that show its records, the last one first."""
    return b"".join(b"get-rec 0 %d\n" % num for num in reversed(range(count)))


def get_at_random(count: int) -> bytes:
    return b"".join(b"get-rec 0 %d\n" % num for num in shuffled(count))


def shuffled(count: int) -> list[int]:
    """The numbers below one, each once, in an order without a rule; the same in each call."""
    numbers = list(range(count))
    random.Random(count).shuffle(numbers)
    return numbers


def shuffled_leaves(count: int) -> bytes:
    """The same, the blocks in shuffled places, and behind them the nodes of 7 entries, in shuffled places too."""
    first_block = 404 + VARIABLE
    first_node = first_block + count * BLOCK
    node_count = (count + NODE_ENTRIES - 1) // NODE_ENTRIES
    block_at = [first_block + slot * BLOCK for slot in shuffled(count)]
    node_at = [first_node + slot * NODE for slot in shuffled(node_count)] + [0]
    made = bytearray(count * BLOCK + node_count * NODE)
    block_form, node_form = struct.Struct(">qi"), struct.Struct(">qiqii7i7i7q")
    for num, place in enumerate(block_at):
        at = place - first_block
        block_form.pack_into(made, at, BLOCK, 7)
        made[at + 12 : at + 16] = num.to_bytes(4, "little")
    for num in range(node_count):
        nums = range(num * NODE_ENTRIES, min(count, (num + 1) * NODE_ENTRIES))
        unused = [-1] * (NODE_ENTRIES - len(nums))
        places = [block_at[n] for n in nums]
        at = node_at[num] - first_block
        node_form.pack_into(made, at, NODE, 6, node_at[num + 1], NODE_ENTRIES, len(nums), *nums, *unused, *nums, *unused, *places, *unused)
    vdr = bytearray(variable(404, 0, True))
    vdr[24:28] = number(4, count - 1)
    vdr[28:44] = number(8, node_at[0]) + number(8, node_at[-2])
    vdr[80:84] = number(4, 1)
    return with_records(bytes(vdr + made), {340: number(8, 404), 380: number(4, 1)})


def make_its_index_anew(count: int) -> bytes:
    return b"reindex 0\n"


def put_one_more(count: int) -> bytes:
    return b"put-rec 0 %d 7\n" % count


def variables_of_one_index(count: int) -> bytes:
    """A file of so many variables, all of which name one index: a chain of as many nodes, each over a block of one record. It breaks rule 9.1 alone."""
    first_block = 404 + count * VARIABLE
    first_node = first_block + count * BLOCK
    vdrs = bytearray(b"".join(variable(404 + num * VARIABLE, num, num == count - 1) for num in range(count)))
    index = number(8, first_node) + number(8, first_node + (count - 1) * SMALL_NODE)
    for at in range(0, len(vdrs), VARIABLE):
        vdrs[at + 24 : at + 28] = number(4, count - 1)
        vdrs[at + 28 : at + 44] = index
    blocks = b"".join(block(num) for num in range(count))
    nodes = (small_node(num, first_block + num * BLOCK, 0 if num == count - 1 else first_node + (num + 1) * SMALL_NODE) for num in range(count))
    return with_records(bytes(vdrs) + blocks + b"".join(nodes), {340: number(8, 404), 380: number(4, count)})


def attributes_alone(count: int) -> bytes:
    return attributes(404 + count * ATTRIBUTE)


def delete_from_the_front(count: int) -> bytes:
    """Lines that delete each attribute of such a file, the first one first."""
    return b"".join(b"del-attr %d\n" % num for num in range(count))
