"""Files that the program opens: each is a function of a size in bytes."""

import hashlib
import struct

from places import NEW_FILE


def number(width: int, value: int) -> bytes:
    return value.to_bytes(width, "big", signed=value < 0)


def other_magic(size: int) -> bytes:
    """A file whose first magic number is not that of version 3."""
    return repeated(b"CDF or not?\0\0\0\0\0", size)


def other_eof(size: int) -> bytes:
    """The records of a new file, whose eof is 404, and then more bytes."""
    new = NEW_FILE.read_bytes()
    assert struct.unpack_from(">Q", new, 356) == (404,)
    return new + repeated(b"after the records", size - len(new))


ATTRIBUTE = 324  # the bytes of an Attribute Descriptor Record


def attribute(place: int, num: int, is_last: bool) -> bytes:
    """An attribute of the file without entries, whose name is its number."""
    following = 0 if is_last else place + ATTRIBUTE
    head = number(8, ATTRIBUTE) + number(4, 4) + number(8, following) + number(8, 0) + number(4, 1) + number(4, num)
    chains = number(4, 0) + number(4, -1) + number(4, 0) + number(8, 0) + number(4, 0) + number(4, -1) + number(4, -1)
    return head + chains + str(num).encode().ljust(256, b"\0")


def with_records(records: bytes, changes: dict[int, bytes]) -> bytes:
    """A new file with records behind its two, its eof and these fields of the two."""
    new = bytearray(NEW_FILE.read_bytes() + records)
    for place, field_bytes in {356: number(8, len(new)), **changes}.items():
        new[place : place + len(field_bytes)] = field_bytes
    return bytes(new)


def attributes(size: int) -> bytes:
    """A file of attributes alone."""
    count = (size - 404) // ATTRIBUTE
    records = b"".join(attribute(404 + num * ATTRIBUTE, num, num == count - 1) for num in range(count))
    return with_records(records, {348: number(8, 404), 368: number(4, count)})


VARIABLE = 344  # the bytes of a VDR of a z variable without dimensions


def variable(place: int, num: int, is_last: bool) -> bytes:
    """A z variable of whole numbers without dimensions and without records, which stands at a place."""
    next_one = 0 if is_last else place + VARIABLE
    head = number(8, VARIABLE) + number(4, 8) + number(8, next_one) + number(4, 4) + number(4, -1) + number(8, 0) + number(8, 0)
    rest = b"".join(number(4, n) for n in (1, 0, 0, -1, -1, 1, num)) + number(8, -1) + number(4, 0)
    return head + rest + (b"%d" % num).ljust(256, b"\0") + number(4, 0)


def variables(size: int) -> bytes:
    """A file of z variables alone."""
    count = (size - 404) // VARIABLE
    records = b"".join(variable(404 + num * VARIABLE, num, num == count - 1) for num in range(count))
    return with_records(records, {340: number(8, 404), 380: number(4, count)})


def one_unused(size: int) -> bytes:
    """A file that is one unused record beside its two."""
    return with_records((number(8, size - 404) + number(4, -1)).ljust(size - 404, b"\0"), {384: number(8, 404)})


def sealed(size: int) -> bytes:
    """The same with a checksum behind it."""
    file = bytearray(one_unused(size - 16))
    file[40:44] = number(4, struct.unpack_from(">I", file, 40)[0] | 0b1100)
    return bytes(file) + hashlib.md5(file).digest()


ENTRIES = 30  # of each attribute


ENTRY = 60  # the bytes of an Attribute Entry Descriptor Record with a number of four bytes


def entry_count(size: int) -> int:
    """How many entries a file of one attribute and such entries has."""
    return (size - 404 - ATTRIBUTE) // ENTRY


def entry(place: int, num: int, is_last: bool) -> bytes:
    """An entry of the first attribute, whose value is its number."""
    following = 0 if is_last else place + ENTRY
    head = number(8, ENTRY) + number(4, 5) + number(8, following) + number(4, 0) + number(4, 4) + number(4, num)
    return head + number(4, 1) + number(4, 0) + number(8, 0) + number(4, -1) + number(4, -1) + num.to_bytes(4, "little")


def entries(size: int) -> bytes:
    """A file of one attribute, 0, with entries alone."""
    count, first = entry_count(size), 404 + ATTRIBUTE
    adr = bytearray(attribute(404, 0, True))
    adr[20:28] = number(8, first)
    adr[36:44] = number(4, count) + number(4, count - 1)
    records = b"".join(entry(first + num * ENTRY, num, num == count - 1) for num in range(count))
    return with_records(bytes(adr) + records, {348: number(8, 404), 368: number(4, 1)})


def z_entry(place: int, attr: int, num: int, is_last: bool) -> bytes:
    """The entry of an attribute of variables for a z variable."""
    made = bytearray(entry(place, num, is_last))
    made[8:12] = number(4, 9)
    made[20:24] = number(4, attr)
    return bytes(made)


def z_attribute(place: int, num: int, is_last: bool, first: int, count: int) -> bytes:
    """An attribute of variables with entries for so many z variables, the first of which stands at a place."""
    adr = bytearray(attribute(place, num, is_last))
    adr[28:32] = number(4, 2)
    adr[48:60] = number(8, first) + number(4, count)
    adr[60:64] = number(4, count - 1)
    return bytes(adr)


def described_variables(size: int) -> bytes:
    """A file of z variables, each with an entry of each of 30 attributes."""
    count = described_count(size)
    places = [404 + num * ATTRIBUTE for num in range(ENTRIES)]
    first_variable = 404 + ENTRIES * ATTRIBUTE
    first_entry = first_variable + count * VARIABLE
    firsts = [first_entry + num * count * ENTRY for num in range(ENTRIES)]
    adrs = b"".join(z_attribute(places[num], num, num == ENTRIES - 1, firsts[num], count) for num in range(ENTRIES))
    vdrs = b"".join(variable(first_variable + num * VARIABLE, num, num == count - 1) for num in range(count))
    aedrs = b"".join(
        z_entry(firsts[attr] + num * ENTRY, attr, num, num == count - 1) for attr in range(ENTRIES) for num in range(count)
    )
    heads = {340: number(8, first_variable), 348: number(8, 404), 368: number(4, ENTRIES), 380: number(4, count)}
    return with_records(adrs + vdrs + aedrs, heads)


def described_count(size: int) -> int:
    """How many variables such a file has."""
    return (size - 404 - ENTRIES * ATTRIBUTE) // (VARIABLE + ENTRIES * ENTRY)


def in_any_order(count: int) -> list[int]:
    """The numbers below one that is no multiple of the prime 7919, each once, far from its neighbours."""
    return [n * 7919 % count for n in range(count)]


BLOCK = 28  # the bytes of a VVR with one record of 4 bytes, which are the least
NODE = 140  # the bytes of a VXR of 7 entries
NODE_ENTRIES = 7


def block_place(num: int) -> int:
    """Where the block of a record stands: behind the blocks before it, and the nodes, each of which stands behind its first block."""
    return 404 + VARIABLE + num * BLOCK + (num + NODE_ENTRIES - 1) // NODE_ENTRIES * NODE


def node_place(num: int) -> int:
    return block_place(num * NODE_ENTRIES) + BLOCK


def block(num: int) -> bytes:
    """A block of one record, whose value is its number."""
    return (number(8, BLOCK) + number(4, 7) + num.to_bytes(4, "little")).ljust(BLOCK, b"\0")


def node(num: int, count: int) -> bytes:
    """A node over the blocks of one record each, of which there are so many."""
    nums = range(num * NODE_ENTRIES, min(count, (num + 1) * NODE_ENTRIES))
    unused = NODE_ENTRIES - len(nums)
    following = 0 if nums[-1] == count - 1 else node_place(num + 1)
    records = b"".join(number(4, n) for n in nums) + unused * number(4, -1)
    places = b"".join(number(8, block_place(n)) for n in nums) + unused * number(8, -1)
    return number(8, NODE) + number(4, 6) + number(8, following) + number(4, NODE_ENTRIES) + number(4, len(nums)) + 2 * records + places


def size_of_blocks(count: int) -> int:
    """The bytes of a file of one variable with so many blocks."""
    return block_place(count - 1) + BLOCK + (NODE if count % NODE_ENTRIES == 1 else 0)


def count_of_blocks(size: int) -> int:
    """How many blocks such a file has."""
    group = NODE_ENTRIES * BLOCK + NODE
    groups, rest = divmod(size - 404 - VARIABLE, group)
    return groups * NODE_ENTRIES + max(rest - NODE, 0) // BLOCK


def blocks_of_one(size: int) -> bytes:
    """A file of one variable, 0, as records put one after the other into blocks of one make it: below a chain of nodes of 7 entries."""
    count = count_of_blocks(size)
    vdr = bytearray(variable(404, 0, True))
    vdr[24:28] = number(4, count - 1)
    vdr[28:44] = number(8, node_place(0)) + number(8, node_place((count - 1) // NODE_ENTRIES))
    vdr[80:84] = number(4, 1)
    parts = (block(n) + (b"" if n % NODE_ENTRIES else node(n // NODE_ENTRIES, count)) for n in range(count))
    return with_records(bytes(vdr) + b"".join(parts), {340: number(8, 404), 380: number(4, 1)})


SMALL_NODE = 44  # the bytes of a VXR of one entry


def small_node(num: int, block_at: int, following: int) -> bytes:
    """A node over the block of one record."""
    head = number(8, SMALL_NODE) + number(4, 6) + number(8, following) + number(4, 1) + number(4, 1)
    return head + number(4, num) + number(4, num) + number(8, block_at)


def size_of_small_nodes(count: int) -> int:
    """The bytes of a file of one variable with so many blocks and as many nodes."""
    return 404 + VARIABLE + count * (BLOCK + SMALL_NODE)


def nodes_of_one(size: int) -> bytes:
    """A file of one variable, 0, with blocks of one record below a chain of nodes of one entry: the blocks stand in any order, and so do the nodes, in another one."""
    first_block = 404 + VARIABLE
    count = (size - first_block) // (BLOCK + SMALL_NODE)
    first_node = first_block + count * BLOCK
    slots = in_any_order(count)
    # the block of a record stands at its slot, counted from the front, and its node at its slot, counted from the end
    blocks, nodes = [b""] * count, [b""] * count
    node_at = [first_node + (count - 1 - slot) * SMALL_NODE for slot in slots]
    for num, slot in enumerate(slots):
        blocks[slot] = block(num)
        following = 0 if num == count - 1 else node_at[num + 1]
        nodes[count - 1 - slot] = small_node(num, first_block + slot * BLOCK, following)
    vdr = bytearray(variable(404, 0, True))
    vdr[24:28] = number(4, count - 1)
    vdr[28:44] = number(8, node_at[0]) + number(8, node_at[-1])
    vdr[80:84] = number(4, 1)
    return with_records(bytes(vdr) + b"".join(blocks) + b"".join(nodes), {340: number(8, 404), 380: number(4, 1)})


LARGE_BLOCKS = 4
IN_A_RECORD = 64  # the numbers of 4 bytes in each record of the large blocks
IN_A_LONG_RECORD = 1_000
IN_A_LARGE_RECORD = 250_000


def size_of_large_blocks(size: int) -> int:
    """The bytes of a file of one variable with large blocks, whose records have so many bytes together."""
    return 404 + VARIABLE + 8 + NODE + LARGE_BLOCKS * 12 + size


def blocks_of_records(in_a_record: int, size: int) -> bytes:
    """A file of one variable, 0, along one dimension, all of whose records, of so many numbers, stand in a few blocks below one node."""
    in_block = (size - size_of_large_blocks(0)) // LARGE_BLOCKS
    each = in_block // (4 * in_a_record)
    vdr = bytearray(variable(404, 0, True) + number(4, in_a_record) + number(4, -1))
    node_at = 404 + len(vdr)
    vdr[0:8] = number(8, len(vdr))
    vdr[24:28] = number(4, LARGE_BLOCKS * each - 1)
    vdr[28:44] = 2 * number(8, node_at)
    vdr[340:344] = number(4, 1)
    unused = NODE_ENTRIES - LARGE_BLOCKS
    firsts = b"".join(number(4, n * each) for n in range(LARGE_BLOCKS)) + unused * number(4, -1)
    lasts = b"".join(number(4, (n + 1) * each - 1) for n in range(LARGE_BLOCKS)) + unused * number(4, -1)
    places = b"".join(number(8, node_at + NODE + n * (12 + in_block)) for n in range(LARGE_BLOCKS)) + unused * number(8, -1)
    head = number(8, NODE) + number(4, 6) + number(8, 0) + number(4, NODE_ENTRIES) + number(4, LARGE_BLOCKS)
    one_block = number(8, 12 + in_block) + number(4, 7) + repeated(b"some numbers of four bytes: ", in_block)
    records = bytes(vdr) + head + firsts + lasts + places + LARGE_BLOCKS * one_block
    return with_records(records, {340: number(8, 404), 380: number(4, 1)})


def large_blocks(size: int) -> bytes:
    return blocks_of_records(IN_A_RECORD, size)


def long_records(size: int) -> bytes:
    return blocks_of_records(IN_A_LONG_RECORD, size)


def large_records(size: int) -> bytes:
    return blocks_of_records(IN_A_LARGE_RECORD, size)


IN_A_BLOCK = 64  # the records of a usual block
USUAL_BLOCK = 12 + 4 * IN_A_BLOCK


def size_of_usual_blocks(count: int) -> int:
    """The bytes of a file of one variable with so many usual blocks."""
    return 404 + VARIABLE + (count + NODE_ENTRIES - 1) // NODE_ENTRIES * NODE + count * USUAL_BLOCK


def usual_blocks(size: int) -> bytes:
    """A file of one variable, 0, with blocks of 64 records of 4 bytes, each of which is its number: a chain of nodes of 7 entries, and then the blocks."""
    groups, rest = divmod(size - 404 - VARIABLE, NODE + NODE_ENTRIES * USUAL_BLOCK)
    count = groups * NODE_ENTRIES + max(rest - NODE, 0) // USUAL_BLOCK
    first_node = 404 + VARIABLE
    node_count = (count + NODE_ENTRIES - 1) // NODE_ENTRIES
    first_block = first_node + node_count * NODE
    nodes = []
    for n in range(node_count):
        blocks = range(n * NODE_ENTRIES, min(count, (n + 1) * NODE_ENTRIES))
        unused = NODE_ENTRIES - len(blocks)
        following = 0 if n == node_count - 1 else first_node + (n + 1) * NODE
        head = number(8, NODE) + number(4, 6) + number(8, following) + number(4, NODE_ENTRIES) + number(4, len(blocks))
        firsts = b"".join(number(4, block * IN_A_BLOCK) for block in blocks) + unused * number(4, -1)
        lasts = b"".join(number(4, (block + 1) * IN_A_BLOCK - 1) for block in blocks) + unused * number(4, -1)
        places = b"".join(number(8, first_block + block * USUAL_BLOCK) for block in blocks) + unused * number(8, -1)
        nodes.append(head + firsts + lasts + places)
    block_head = number(8, USUAL_BLOCK) + number(4, 7)
    numbers = struct.pack(f"<{count * IN_A_BLOCK}i", *range(count * IN_A_BLOCK))
    in_block = 4 * IN_A_BLOCK
    bodies = (block_head + numbers[at : at + in_block] for at in range(0, len(numbers), in_block))
    vdr = bytearray(variable(404, 0, True))
    vdr[24:28] = number(4, count * IN_A_BLOCK - 1)
    vdr[28:44] = number(8, first_node) + number(8, first_node + (node_count - 1) * NODE)
    return with_records(bytes(vdr) + b"".join(nodes) + b"".join(bodies), {340: number(8, 404), 380: number(4, 1)})


def entries_against(size: int) -> bytes:
    """A file of one attribute, 0, with entries alone, whose chain leads down their numbers."""
    count, first = entry_count(size), 404 + ATTRIBUTE
    file = bytearray(entries(size))
    for at in range(count):
        place = first + at * ENTRY
        file[place + 28 : place + 32] = number(4, count - 1 - at)
    return bytes(file)


def repeated(part: bytes, size: int) -> bytes:
    return (part * (size // len(part) + 1))[:size]
