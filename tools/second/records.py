"""The records of variables: blocks, nodes, putting, cutting, reindexing."""
from collections import namedtuple

from image import Entry, Leaf, encoded
from layout import (BLOCK_RECORDS, BYTES_LIMIT, CVVR, LAST_NUMBER, PACKED_BYTES, RVDR, VARY, VVR, VXR, Cvvr, Gdr,
                    RecordType, Vdr, Vxr, node_size)
from space import Space

NODE_ENTRIES_NEW = 7
NODE_ENTRIES_BUILT = 64
UNUSED_ENTRY = Entry(-1, -1, -1)

# The later part of a split leaf: its records, their bytes, and its block, None before it has one
Part = namedtuple('Part', 'first last plain at')


class Records(Space):
    """What no rule fixes is a choice, that of the editor where nothing else is said."""

    # A cut frees its blocks after the walk, the last first.
    free_last = False
    # Of a leaf that a cut splits, the later part gets its block before the earlier one is made shorter.
    later_first = False
    # Nodes that are left without entries are freed before the entry of the later part is added.
    nodes_first = False
    # And so they are before it gets its block.
    later_last = False
    # A packed block that is placed anew keeps rfuA.
    keeps_reserved = False

    # Counts

    def block_count(self, vdr):
        if not self[vdr, Vdr.Flags] & VARY:
            return 1
        wanted = self[vdr, Vdr.BlockingFactor]
        return max(1, min(wanted if wanted > 0 else 64, 1_048_576 // self.record_bytes(vdr)))

    def index(self, vdr):
        return self.leaves(self[vdr, Vdr.VXRhead])

    def leaf_of(self, vdr, rec):
        return next((leaf for leaf in self.index(vdr) if leaf.first <= rec <= leaf.last), None)

    def next_first(self, vdr, rec):
        """The least First past `rec` of any entry at any level, or None."""
        firsts = [e.first for node in self.nodes(self[vdr, Vdr.VXRhead]) for e in self.used_entries(node)]
        return min((first for first in firsts if first > rec), default=None)

    def set_max_rec(self, vdr, value):
        if self[vdr, Vdr.MaxRec] != value:
            self[vdr, Vdr.MaxRec] = value
            if self.type(vdr) == RVDR:
                self.write_r_max()

    def write_r_max(self):
        self[self.gdr, Gdr.rMaxRec] = max((self[v, Vdr.MaxRec] for v in self.variables(RVDR)), default=-1)

    # Blocks

    def packs(self, vdr, plain):
        """The packed bytes of a block, or None where it stands as a VVR."""
        if not self.compressed(vdr) or len(plain) > BYTES_LIMIT:
            return None
        packed = encoded(plain)
        return packed if PACKED_BYTES + len(packed) < BLOCK_RECORDS + len(plain) else None

    def fill_block(self, at, plain, packed):
        if packed is None:
            self[at, RecordType] = VVR
            self.write(at + BLOCK_RECORDS, plain)
        else:
            self[at, RecordType] = CVVR
            self[at, Cvvr.cSize] = len(packed)
            self.write(at + PACKED_BYTES, packed)

    def new_block(self, vdr, plain):
        packed = self.packs(vdr, plain)
        at = self.take(BLOCK_RECORDS + len(plain) if packed is None else PACKED_BYTES + len(packed))
        self.fill_block(at, plain, packed)
        return at

    def rewrite(self, vdr, at, plain):
        """The block at `at` holds `plain` now; its place, which changes where it does not fit."""
        packed = self.packs(vdr, plain)
        end = BLOCK_RECORDS + len(plain) if packed is None else PACKED_BYTES + len(packed)
        if self.type(at) == (VVR if packed is None else CVVR) and end <= self.size(at):
            self.fill_block(at, plain, packed)
            return at
        by = self.new_block(vdr, plain)
        if self.keeps_reserved and self.type(at) == self.type(by) == CVVR:
            self[by, Cvvr.rfuA] = self[at, Cvvr.rfuA]
        self.give(at)
        return by

    # Nodes

    def new_node(self, entries):
        at = self.take(node_size(entries))
        self[at, RecordType] = VXR
        self[at, Vxr.Nentries] = entries
        for i in range(entries):
            self.set_entry(at, i, UNUSED_ENTRY)
        return at

    def fill_node(self, at, entries):
        for i, entry in enumerate(entries):
            self.set_entry(at, i, entry)
        self[at, Vxr.NusedEntries] = len(entries)

    def write_tail(self, vdr):
        top = self.chain(self[vdr, Vdr.VXRhead], VXR)
        self[vdr, Vdr.VXRtail] = top[-1] if top else 0

    def add_leaf(self, vdr, first, last, plain):
        block = self.new_block(vdr, plain)
        self.add_entry(vdr, Entry(first, last, block))

    def add_entry(self, vdr, new):
        head = self[vdr, Vdr.VXRhead]
        if head == 0:
            node = self.new_node(NODE_ENTRIES_NEW)
            self.fill_node(node, [new])
            self[vdr, Vdr.VXRhead] = node
            self.write_tail(vdr)
            return
        top = True
        while True:
            before = [(node, i, e) for node, i, e in self.level(head) if e.first <= new.first]
            if not before:
                node, place = head, 0
                break
            node, i, entry = before[-1]
            if self.type(entry.at) != VXR:
                place = i + 1
                break
            self.set_entry(node, i, Entry(entry.first, max(entry.last, new.last), entry.at))
            head, top = entry.at, False
        if self.insert(node, place, new) and top:
            self.write_tail(vdr)

    def insert(self, node, place, new):
        """The entry goes to its place in the node; true where a new node follows."""
        entries, room = self.used_entries(node), self[node, Vxr.Nentries]
        if len(entries) < room:
            self.fill_node(node, entries[:place] + [new] + entries[place:])
            return False
        if place == len(entries):
            later, count = [new], NODE_ENTRIES_NEW
        else:
            later, count = entries[place:], max(NODE_ENTRIES_NEW, len(entries) - place)
        follower = self.new_node(count)
        self.fill_node(follower, later)
        self[follower, Vxr.VXRnext] = self[node, Vxr.VXRnext]
        self[node, Vxr.VXRnext] = follower
        if place < len(entries):
            self.fill_node(node, entries[:place] + [new])
            for i in range(place + 1, len(entries)):
                self.set_entry(node, i, UNUSED_ENTRY)
        return True

    # Putting

    def put(self, vdr, first, data):
        """Writes whole records from `first` on; under a sparse rule there is one."""
        size, old_max = self.record_bytes(vdr), self[vdr, Vdr.MaxRec]
        last = first + len(data) // size - 1
        if self[vdr, Vdr.SRecords] and first > old_max + 1:
            self.cut(vdr, old_max + 1, LAST_NUMBER, False)
        k = first
        while k <= last:
            piece = data[(k - first) * size:]
            leaf = self.leaf_of(vdr, k)
            if leaf is not None:
                end = min(leaf.last, last)
                self.put_covered(vdr, leaf, k, piece[:(end - k + 1) * size])
            else:
                end = self.new_last(vdr, k, old_max)
                count = end - k + 1
                held = piece[:count * size]
                self.add_leaf(vdr, k, end, held + self.pad_record(vdr) * (count - len(held) // size))
            k = end + 1
        self.set_max_rec(vdr, max(old_max, last))

    def new_last(self, vdr, k, old_max):
        if k <= old_max:
            return k
        bound = self.next_first(vdr, k)
        last = min(k + self.block_count(vdr) - 1, LAST_NUMBER)
        return last if bound is None else min(last, bound - 1)

    def put_covered(self, vdr, leaf, rec, data):
        start = (rec - leaf.first) * self.record_bytes(vdr)
        if not self.compressed(vdr):
            self.write(leaf.at + BLOCK_RECORDS + start, data)
            return
        plain = self.plain(vdr, leaf)
        self.move_leaf(vdr, leaf, self.rewrite(vdr, leaf.at, plain[:start] + data + plain[start + len(data):]))

    def move_leaf(self, vdr, leaf, at):
        if at != leaf.at:
            node, i = self.entry_of(self[vdr, Vdr.VXRhead], leaf.at)
            self.set_entry(node, i, Entry(leaf.first, leaf.last, at))

    def entry_of(self, head, at):
        for node in self.nodes(head):
            for i, entry in enumerate(self.used_entries(node)):
                if entry.at == at:
                    return node, i
        raise KeyError(at)

    # Cutting

    def cut(self, vdr, first, last, close):
        """Takes the records from first to last out of the index."""
        leaves = self.index(vdr)
        blocks, late, split = {}, [], None
        for leaf in leaves:
            if leaf.last < first or leaf.first > last:
                blocks[leaf.at] = leaf
            elif first <= leaf.first and leaf.last <= last:
                late.append(leaf.at) if self.free_last else self.give(leaf.at)
            else:
                part, split = self.cut_leaf(vdr, leaf, first, last, close)
                blocks[leaf.at] = part
        shift = last - first + 1 if close else 0
        top = self.chain(self[vdr, Vdr.VXRhead], VXR)
        empty = []
        head = self.kept_level(self[vdr, Vdr.VXRhead], blocks, (last, shift, close), empty)
        self[vdr, Vdr.VXRhead] = head
        freed = late[::-1] + empty
        is_behind = self.nodes_first or self.later_last
        if split is not None and not is_behind:
            self.add_part(vdr, split)
        for at in freed:
            self.give(at)
        if split is not None and is_behind:
            self.add_part(vdr, split)
        if self.chain(head, VXR) != top:
            self.write_tail(vdr)

    def add_part(self, vdr, part):
        at = self.new_block(vdr, part.plain) if part.at is None else part.at
        self.add_entry(vdr, Entry(part.first, part.last, at))

    def cut_leaf(self, vdr, leaf, first, last, close):
        """What stays of a leaf of which some records go, and a leaf for its later part where that is apart."""
        size, plain = self.record_bytes(vdr), self.plain(vdr, leaf)
        before = plain[:max(0, first - leaf.first) * size]
        after = plain[(min(last, leaf.last) - leaf.first + 1) * size:]
        if before and after and not close:
            block = self.new_block(vdr, after) if self.later_first else None
            at = self.shortened(vdr, leaf, before)
            if block is None and not self.later_last:
                block = self.new_block(vdr, after)
            return Leaf(leaf.first, first - 1, at), Part(last + 1, leaf.last, after, block)
        start = leaf.first if before else last + 1
        at = self.shortened(vdr, leaf, before + after)
        return Leaf(start, start + len(before + after) // size - 1, at), None

    def shortened(self, vdr, leaf, plain):
        if self.compressed(vdr):
            return self.rewrite(vdr, leaf.at, plain)
        self.write(leaf.at + BLOCK_RECORDS, plain)
        return leaf.at

    def kept_level(self, head, blocks, closing, empty):
        """A chain of nodes without the leaves that go; its new head. Nodes without entries join `empty`."""
        last, shift, close = closing
        kept_nodes = []
        for node in self.chain(head, VXR):
            entries = self.used_entries(node)
            kept = []
            for entry in entries:
                if self.type(entry.at) == VXR:
                    lower = self.kept_level(entry.at, blocks, closing, empty)
                    if lower:
                        first_last = self.covered(lower) if close else (entry.first, entry.last)
                        kept.append(Entry(*first_last, lower))
                elif entry.at in blocks:
                    leaf = blocks[entry.at]
                    fall = shift if leaf.first > last else 0
                    kept.append(Entry(leaf.first - fall, leaf.last - fall, leaf.at))
            if kept:
                self.fill_node(node, kept)
                for i in range(len(kept), len(entries)):
                    self.set_entry(node, i, UNUSED_ENTRY)
                kept_nodes.append(node)
            else:
                empty.append(node)
        for node, after in zip(kept_nodes, kept_nodes[1:] + [0]):
            self[node, Vxr.VXRnext] = after
        return kept_nodes[0] if kept_nodes else 0

    def covered(self, head):
        leaves = self.leaves(head)
        return leaves[0].first, leaves[-1].last

    def cut_all(self, vdr):
        self.cut(vdr, 0, LAST_NUMBER, False)

    def delete(self, vdr, first, last):
        old_max = self[vdr, Vdr.MaxRec]
        if not self[vdr, Vdr.SRecords]:
            self.cut(vdr, first, last, True)
            self.set_max_rec(vdr, old_max - (last - first + 1))
            return
        self.cut(vdr, first, last, False)
        stored = [min(leaf.last, old_max) for leaf in self.index(vdr) if leaf.first <= old_max]
        self.set_max_rec(vdr, max(stored, default=-1))
        self.cut(vdr, self[vdr, Vdr.MaxRec] + 1, LAST_NUMBER, False)

    # Whole indexes

    def reindex(self, vdr):
        head = self[vdr, Vdr.VXRhead]
        if head == 0:
            return
        old, level = self.nodes(head), [Entry(*leaf) for leaf in self.leaves(head)]
        node = 0
        while level and (node == 0 or len(level) > 1):
            upper = []
            for i in range(0, len(level), NODE_ENTRIES_BUILT):
                part = level[i:i + NODE_ENTRIES_BUILT]
                node = self.new_node(NODE_ENTRIES_BUILT)
                self.fill_node(node, part)
                upper.append(Entry(part[0].first, part[-1].last, node))
            level = upper
        self[vdr, Vdr.VXRhead] = node
        self[vdr, Vdr.VXRtail] = node
        for at in old:
            self.give(at)

    def free_index(self, vdr):
        head = self[vdr, Vdr.VXRhead]
        nodes, leaves = self.nodes(head), self.leaves(head)
        for leaf in leaves:
            self.give(leaf.at)
        for node in nodes:
            self.give(node)
        self[vdr, Vdr.VXRhead] = 0
        self[vdr, Vdr.VXRtail] = 0
