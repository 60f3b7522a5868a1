"""Editors that do one thing wrong. What they make is a good image with the right content, and yet no right one.

Each names in `commands` the commands that it is tried on; None is all that write.
"""
from editor import Editor
from image import Entry
from layout import (ADR, AGREDR, AZEDR, BLOCK_RECORDS, CVVR, GDR, LAST_NUMBER, PACKED_BYTES, RVDR, UIR, VVR, VXR, ZVDR,
                    Adr, Aedr, Cvvr, Gdr, RecordSize, RecordType, Uir, Vdr, Vxr, node_size)

PUTS = ('put-rec', 'put-val')
CUTS = ('del-recs', 'set-sparse', 'set-compress')


class Wrong(Editor):
    commands = None

    def finish(self, c):
        """What is done wrong once the command is carried out."""


# ---- records that are taken

class NodeLonger(Wrong):
    """A new node has 16 bytes more than its entries need."""
    commands, more = PUTS + ('del-recs', 'reindex'), 0

    def take(self, need):
        return super().take(max(28, need) + self.more)

    def new_node(self, entries):
        self.more = 16
        at = super().new_node(entries)
        self.more = 0
        return at


class BlockLonger(Wrong):
    """A new block has 64 bytes more than it needs."""
    commands, more = PUTS + ('del-recs',), 0

    def take(self, need):
        return super().take(max(28, need) + self.more)

    def new_block(self, vdr, plain):
        self.more = 64
        at = super().new_block(vdr, plain)
        self.more = 0
        return at


class RestLost(Wrong):
    """The rest of a split leaves the list."""

    def _unlist(self, at, need):
        size = self.size(at)
        self[at, RecordSize] = need
        super()._unlist(at, need)
        if size > need:
            rest = at + need
            self[rest, RecordSize] = size - need
            self[rest, RecordType] = UIR


class AlwaysAtEof(Wrong):
    """A record is taken at eof past one that fits."""

    def unused_to_take(self):
        return []

    def take(self, need):
        self.at_eof = True
        at = super().take(need)
        self.at_eof = False
        return at

    at_eof = False

    def unused(self):
        return [] if self.at_eof else super().unused()


class LastFit(Wrong):
    """The last record that fits is taken."""
    taking = False

    def take(self, need):
        self.taking = True
        at = super().take(need)
        return at

    def unused(self):
        members = super().unused()
        if self.taking:
            self.taking = False
            return members[::-1]
        return members


class SpareNotZero(Wrong):
    """Spare bytes behind a new block are not 0."""
    commands = PUTS + ('del-recs',)

    def new_block(self, vdr, plain):
        at = super().new_block(vdr, plain)
        end = PACKED_BYTES + self[at, Cvvr.cSize] if self.type(at) == CVVR else BLOCK_RECORDS + len(plain)
        self.write(at + end, b'\x05' * (self.size(at) - end))
        return at


# ---- records that are freed

class GivenUnlisted(Wrong):
    """A freed record does not join the list."""

    def give(self, at):
        self[at, RecordType] = UIR
        self.acts.append(('give', at, self.size(at)))


class GivenInPieces(Wrong):
    """A record is freed as two."""

    def give(self, at):
        size, first = self.size(at), 28 if self.size(at) >= 56 else 12
        if size < 24:
            super().give(at)
            return
        self[at, RecordSize] = first
        self[at + first, RecordSize] = size - first
        super().give(at)
        super().give(at + first)


class GivenLast(Wrong):
    """A freed record joins the list at its end. A cut may free in any order, so what it leaves may be right."""
    commands = ('del-attr', 'put-entry', 'del-entry', 'setup', 'set-pad', 'del-var', 'reindex')

    def give(self, at):
        members = self.unused()
        if self.size(at) < 28 or not members:
            super().give(at)
            return
        self[at, RecordType] = UIR
        self[at, Uir.NextUIR] = 0
        self[at, Uir.PrevUIR] = members[-1]
        self[members[-1], Uir.NextUIR] = at
        self.acts.append(('give', at, self.size(at)))


class BackLinkWrong(Wrong):
    """PrevUIR of the old head is not written."""

    def give(self, at):
        head = self[self.gdr, Gdr.UIRhead]
        was = self[head, Uir.PrevUIR] if head else 0
        super().give(at)
        if head and self.size(at) >= 28:
            self[head, Uir.PrevUIR] = was


class OldLeaked(Wrong):
    """The old block of one that moves is not listed."""
    commands = PUTS + ('del-recs',)

    def rewrite(self, vdr, at, plain):
        by = super().rewrite(vdr, at, plain)
        if by != at and self.size(at) >= 28 and self[self.gdr, Gdr.UIRhead] == at:
            after = self[at, Uir.NextUIR]
            self[self.gdr, Gdr.UIRhead] = after
            if after:
                self[after, Uir.PrevUIR] = 0
        return by


class DeadBytes(Wrong):
    """140 bytes in no use are appended."""
    count = 140

    def finish(self, c):
        at = self.eof
        self.data += bytes(self.count)
        self[self.gdr, Gdr.eof] = at + self.count
        self[at, RecordSize] = self.count
        self[at, RecordType] = UIR


class FewDeadBytes(DeadBytes):
    """12 bytes in no use are appended."""
    count = 12


class RestChanged(Wrong):
    """A byte behind the links of a listed record is changed, of one that the command did not free."""

    def finish(self, c):
        freed = [(at, at + size) for act, at, size in self.acts if act == 'give']
        for at in self.unused():
            if self.size(at) > 28 and not any(first <= at < end for first, end in freed):
                self.write(at + 28, bytes((self.byte(at + 28) ^ 1,)))


class FreedChanged(Wrong):
    """A byte behind the links of a freed record is changed, or behind the type of a small one; of a node it is free."""

    def give(self, at):
        self.nodes_freed = getattr(self, 'nodes_freed', set()) | ({at} if self.type(at) == VXR else set())
        super().give(at)

    def finish(self, c):
        for act, at, size in self.acts:
            free = at in getattr(self, 'nodes_freed', ()) and c.kind != 'reindex'
            if act == 'give' and not free and self.type(at) == UIR and self.size(at) == size:
                self.write(at + size - 1, bytes((self.byte(at + size - 1) ^ 1,)))


class FreedNodeChanged(Wrong):
    """The last byte of a freed node is changed, behind its entries."""
    commands, nodes_freed = PUTS + CUTS, ()

    def give(self, at):
        if self.type(at) == VXR and self.size(at) > node_size(self[at, Vxr.Nentries]):
            self.nodes_freed += (at + self.size(at) - 1,)
        super().give(at)

    def finish(self, c):
        for end in self.nodes_freed:
            self.write(end, bytes((self.byte(end) ^ 1,)))


class FreedEntryChanged(Wrong):
    """The first entry of a node that `set-sparse` frees is changed."""
    commands, nodes_freed = ('set-sparse',), ()

    def give(self, at):
        if self.type(at) == VXR and self.size(at) > 28:
            self.nodes_freed += (at + 28,)
        super().give(at)

    def finish(self, c):
        for entry in self.nodes_freed:
            self.write(entry, bytes((self.byte(entry) ^ 1,)))


class FreedFieldChanged(Wrong):
    """A field of a freed ADR, VDR or GDR holds another number."""
    commands = ('del-attr', 'del-var', 'setup')
    FIELDS = {ADR: (Adr.NgrEntries, Adr.MAXgrEntry, Adr.AzEDRhead, Adr.NzEntries, Adr.MAXzEntry),
              RVDR: (Vdr.VXRhead, Vdr.VXRtail), ZVDR: (Vdr.VXRhead, Vdr.VXRtail), GDR: (Gdr.UIRhead, Gdr.eof)}

    def give(self, at):
        self.fields_freed = getattr(self, 'fields_freed', []) + [(at, f) for f in self.FIELDS.get(self.type(at), ())]
        super().give(at)

    def finish(self, c):
        fields = getattr(self, 'fields_freed', [])
        if fields:
            at, field = fields[len(self.data) // 4 % len(fields)]
            self[at, field] = 77


class IndexNotEmptied(Wrong):
    """VXRhead or VXRtail of a freed VDR stays."""
    commands = ('del-var',)

    def free_index(self, vdr):
        link = (Vdr.VXRhead, Vdr.VXRtail)[len(self.data) // 4 % 2]
        before = self[vdr, link]
        super().free_index(vdr)
        self[vdr, link] = before


# ---- blocks

class FirstCutFreesLate(Wrong):
    """What the first of two cuts frees is freed after what the second one frees."""
    commands, holding = ('del-recs',), False

    def delete(self, vdr, first, last):
        self.held, self.holding = [], True
        super().delete(vdr, first, last)
        for at in self.held:
            super().give(at)

    def cut(self, vdr, first, last, close):
        super().cut(vdr, first, last, close)
        self.holding = False

    def give(self, at):
        self.held.append(at) if self.holding else super().give(at)


class PastMaxRecCutFirst(Wrong):
    """What is past the new MaxRec is cut before the others."""
    commands = ('del-recs',)

    def delete(self, vdr, first, last):
        old_max = self[vdr, Vdr.MaxRec]
        if self[vdr, Vdr.SRecords]:
            stored = [k for leaf in self.index(vdr) for k in (min(leaf.last, old_max), min(leaf.last, first - 1))
                      if leaf.first <= k <= old_max and not first <= k <= last]
            self.cut(vdr, max(stored, default=-1) + 1, LAST_NUMBER, False)
        super().delete(vdr, first, last)


class LostNotWritten(Wrong):
    """What the first of two cuts leaves of a block is not written where the second one frees it."""
    commands, lost_from = ('del-recs',), None

    def delete(self, vdr, first, last):
        if self[vdr, Vdr.SRecords] and last >= self[vdr, Vdr.MaxRec]:
            self.lost_from = last + 1
        super().delete(vdr, first, last)

    def shortened(self, vdr, leaf, plain):
        count = len(plain) // self.record_bytes(vdr)
        if self.lost_from is not None and self.lost_from <= leaf.last + 1 - count and not self.compressed(vdr):
            return leaf.at
        return super().shortened(vdr, leaf, plain)


class BlockFreedAndTaken(Wrong):
    """A block that a cut makes shorter is freed and taken again, with what it leaves on the list."""
    commands = ('del-recs',)

    def shortened(self, vdr, leaf, plain):
        self.give(leaf.at)
        return self.new_block(vdr, plain)


class BlockMoved(Wrong):
    """A block that is written in place, or shortened, is placed anew."""
    commands = PUTS + ('del-recs',)

    def put_covered(self, vdr, leaf, rec, data):
        start = (rec - leaf.first) * self.record_bytes(vdr)
        plain = self.plain(vdr, leaf)
        by = self.new_block(vdr, plain[:start] + data + plain[start + len(data):])
        self.give(leaf.at)
        self.move_leaf(vdr, leaf, by)

    def shortened(self, vdr, leaf, plain):
        by = self.new_block(vdr, plain)
        self.give(leaf.at)
        return by


class BlockMovedOnCut(BlockMoved):
    commands = ('del-recs',)
    put_covered = Editor.put_covered


class BlockMovedLeaked(BlockMoved):
    """A block that is written in place is placed anew, and the old one is not listed."""
    commands = PUTS

    def give(self, at):
        self[at, RecordType] = UIR
        self.acts.append(('give', at, self.size(at)))


class PastMaxRecChanged(Wrong):
    """A record past MaxRec changes in the blocks of the variable that is written or cut."""
    commands = PUTS + ('del-recs',)

    def finish(self, c):
        vdr = self.variable_named(c.name)
        size, last = self.record_bytes(vdr), self[vdr, Vdr.MaxRec]
        for leaf in self.index(vdr):
            if leaf.last > last and self.type(leaf.at) == VVR:
                at = leaf.at + BLOCK_RECORDS + (leaf.last - leaf.first) * size
                self.write(at, bytes((self.byte(at) ^ 1,)))


class PackedPastMaxRecChanged(Wrong):
    """A record past MaxRec changes before a block is packed."""
    commands = PUTS + ('del-recs',)

    def rewrite(self, vdr, at, plain):
        leaf = next((leaf for leaf in self.index(vdr) if leaf.at == at), None)
        last = max(self[vdr, Vdr.MaxRec], self.c.rec if self.c.kind in PUTS else -1)
        if leaf is not None and leaf.last > last:
            plain = plain[:-1] + bytes((plain[-1] ^ 1,))
        return super().rewrite(vdr, at, plain)


class NotLongestRuns(Wrong):
    """A packed block has its runs cut in two."""
    commands = PUTS + ('del-recs',)

    def packs(self, vdr, plain):
        packed = super().packs(vdr, plain)
        if packed is None:
            return None
        out, i = bytearray(), 0
        while i < len(packed):
            if packed[i] == 0:
                n = packed[i + 1]
                out += bytes((0, n)) if n == 0 else bytes((0, 0, 0, n - 1))
                i += 2
            else:
                out.append(packed[i])
                i += 1
        return bytes(out)


class NotPacked(Wrong):
    """A block of a compressed variable is not packed though that is shorter."""
    commands = PUTS + ('del-recs',)

    def packs(self, vdr, plain):
        return None


class ReservedChanged(Wrong):
    """rfuA of a packed block is 7."""
    commands = PUTS + ('del-recs',)

    def fill_block(self, at, plain, packed):
        super().fill_block(at, plain, packed)
        if packed is not None:
            self[at, Cvvr.rfuA] = 7


class PadsMissing(Wrong):
    """The records of a new block that are not written hold other bytes than the pad."""
    commands = PUTS

    def finish(self, c):
        vdr = self.variable_named(c.name)
        size, last = self.record_bytes(vdr), self[vdr, Vdr.MaxRec]
        for leaf in self.index(vdr):
            if leaf.last > last and self.type(leaf.at) == VVR and ('take', leaf.at, self.size(leaf.at)) in self.acts:
                at = leaf.at + BLOCK_RECORDS + (leaf.last - leaf.first) * size
                self.write(at, bytes((self.byte(at) ^ 1,)))


# ---- nodes

class NodeThoughRoom(Wrong):
    """A new node follows though the right one has room."""
    commands = PUTS + ('del-recs',)

    def insert(self, node, place, new):
        entries = self.used_entries(node)
        later = entries[place:] if place < len(entries) else [new]
        follower = self.new_node(max(7, len(later)))
        self.fill_node(follower, later)
        self[follower, Vxr.VXRnext] = self[node, Vxr.VXRnext]
        self[node, Vxr.VXRnext] = follower
        if place < len(entries):
            room = self[node, Vxr.Nentries]
            if room == place:
                return True
            self.fill_node(node, entries[:place] + [new])
            for i in range(place + 1, len(entries)):
                self.set_entry(node, i, Entry(-1, -1, -1))
        return True


class NodeSkipped(Wrong):
    """A full node is not followed by a new one where the next has room."""
    commands = PUTS + ('del-recs',)

    def insert(self, node, place, new):
        after = self[node, Vxr.VXRnext]
        if place == self[node, Vxr.Nentries] and after and self.used(after) < self[after, Vxr.Nentries]:
            return super().insert(after, 0, new)
        return super().insert(node, place, new)


class WidenedTooFar(Wrong):
    """An entry that names a lower chain is widened past the new record."""
    commands = PUTS

    def set_entry(self, node, i, entry):
        if entry.at > 0 and self.type(entry.at) == VXR:
            follower = [e.first for e in self.used_entries(node) if e.first > entry.first]
            if not follower and not self[node, Vxr.VXRnext]:
                entry = Entry(entry.first, LAST_NUMBER, entry.at)
        super().set_entry(node, i, entry)


class EmptyNodeLeft(Wrong):
    """The last node that a cut leaves without entries stays in its chain."""
    commands = ('del-recs',)

    def kept_level(self, head, blocks, closing, empty):
        first = super().kept_level(head, blocks, closing, empty)
        if first and empty and self.chain(head, VXR)[:1] != empty[-1:]:
            node = empty.pop()
            nodes = self.chain(first, VXR)
            for i in range(self.used(node)):
                self.set_entry(node, i, Entry(-1, -1, -1))
            self[node, Vxr.NusedEntries] = 0
            self[node, Vxr.VXRnext] = 0
            self[nodes[-1], Vxr.VXRnext] = node
        return first


class NodeNarrowed(Wrong):
    """A node that stays gets another Nentries."""
    commands = PUTS + CUTS

    def finish(self, c):
        vdr = self.variable_named(c.name)
        for node in self.nodes(self[vdr, Vdr.VXRhead]):
            entries, count = self.used_entries(node), self[node, Vxr.Nentries]
            if len(entries) < count:
                self[node, Vxr.Nentries] = count - 1
                for i, entry in enumerate(entries + [Entry(-1, -1, -1)] * (count - 1 - len(entries))):
                    self.set_entry(node, i, entry)


class NodeShortened(Wrong):
    """A node that stays loses 28 bytes, which are listed."""
    commands = PUTS + CUTS

    def finish(self, c):
        vdr = self.variable_named(c.name)
        for node in self.nodes(self[vdr, Vdr.VXRhead]):
            size = self.size(node)
            if size >= node_size(self[node, Vxr.Nentries]) + 28:
                self[node, RecordSize] = size - 28
                self[node + size - 28, RecordSize] = 28
                self.give(node + size - 28)


class NodeShrunk(Wrong):
    """A node that stays loses an entry and 16 bytes, which are not listed."""
    commands = PUTS + CUTS

    def finish(self, c):
        vdr = self.variable_named(c.name)
        for node in self.nodes(self[vdr, Vdr.VXRhead]):
            entries, count, size = self.used_entries(node), self[node, Vxr.Nentries], self.size(node)
            if len(entries) < count and ('take', node, size) not in self.acts:
                self[node, Vxr.Nentries] = count - 1
                for i, entry in enumerate(entries + [Entry(-1, -1, -1)] * (count - 1 - len(entries))):
                    self.set_entry(node, i, entry)
                self[node, RecordSize] = size - 16
                self[node + size - 16, RecordSize] = 16
                self[node + size - 16, RecordType] = UIR


class EntriesNotCleared(Wrong):
    """Entries that leave a node do not become -1."""
    commands = PUTS + ('del-recs',)

    def set_entry(self, node, i, entry):
        if entry != (-1, -1, -1) or self.filling:
            super().set_entry(node, i, entry)

    filling = False

    def new_node(self, entries):
        self.filling = True
        at = super().new_node(entries)
        self.filling = False
        return at


class UnusedEntriesZero(Wrong):
    """The unused entries of a new node are 0."""
    commands = PUTS + ('del-recs', 'reindex')

    def new_node(self, entries):
        at = super().new_node(entries)
        for i in range(entries):
            self.set_entry(at, i, Entry(0, 0, 0))
        return at


class UnusedCleared(Wrong):
    """Entries that were not used and are not used become -1."""
    commands = PUTS + ('del-recs',)

    def finish(self, c):
        vdr = self.variable_named(c.name)
        for node in self.nodes(self[vdr, Vdr.VXRhead]):
            for i in range(self.used(node), self[node, Vxr.Nentries]):
                self.set_entry(node, i, Entry(-1, -1, -1))


class TailNotWritten(Wrong):
    """VXRtail is not written."""
    commands = PUTS + CUTS + ('reindex',)

    def __setitem__(self, place, value):
        if place[1] != Vdr.VXRtail or self.type(place[0]) not in (3, 8):
            super().__setitem__(place, value)


class TailAlwaysWritten(Wrong):
    """VXRtail is written though the top chain stays."""
    commands = PUTS + ('del-recs',)

    def finish(self, c):
        self.write_tail(self.variable_named(c.name))


class LowerNotTight(Wrong):
    """A cut that closes leaves the ranges of lower chains as they were, or widens them."""
    commands = ('del-recs',)

    def covered(self, head):
        first, last = super().covered(head)
        return max(0, first - 1) if first == 0 else first, last + 1


class LowerNarrowed(Wrong):
    """A cut that does not close narrows the ranges of lower chains."""
    commands = ('del-recs',)

    def finish(self, c):
        vdr = self.variable_named(c.name)
        self.narrow(self[vdr, Vdr.VXRhead])

    def narrow(self, head):
        for node, i, entry in self.level(head):
            if self.type(entry.at) == VXR:
                self.narrow(entry.at)
                self.set_entry(node, i, Entry(*self.covered(entry.at), entry.at))


class ReindexFromRight(Wrong):
    """Nodes of 1 and 64 entries instead of 64 and 1."""
    commands = ('reindex',)
    WIDTH = 64

    def reindex(self, vdr):
        head = self[vdr, Vdr.VXRhead]
        if head == 0:
            return
        old, level = self.nodes(head), [Entry(*leaf) for leaf in self.leaves(head)]
        node = 0
        while level and (node == 0 or len(level) > 1):
            upper, rest = [], len(level) % 64 or 64
            for first, last in [(0, rest)] + [(i, i + 64) for i in range(rest, len(level), 64)]:
                part = level[first:last]
                node = self.new_node(64)
                self.fill_node(node, part)
                upper.append(Entry(part[0].first, part[-1].last, node))
            level = upper
        self[vdr, Vdr.VXRhead] = node
        self[vdr, Vdr.VXRtail] = node
        for at in old:
            self.give(at)


class ReindexRootFirst(Wrong):
    """The root of a new index is placed before its leaves' level."""
    commands = ('reindex',)

    def reindex(self, vdr):
        super().reindex(vdr)
        taken = [at for act, at, _ in self.acts if act == 'take']
        root = self[vdr, Vdr.VXRhead]
        if len(taken) < 2:
            return
        first = taken[0]
        a, b = self.piece(root, 1052), self.piece(first, 1052)
        self.write(root, b)
        self.write(first, a)
        swap = {root: first, first: root}
        for node in (root, first):
            for i, entry in enumerate(self.used_entries(node)):
                if entry.at in swap:
                    self.set_entry(node, i, Entry(entry.first, entry.last, swap[entry.at]))
        self[vdr, Vdr.VXRhead] = first
        self[vdr, Vdr.VXRtail] = first


class ReindexTooHigh(Wrong):
    """A root is made over a node that would do."""
    commands = ('reindex',)

    def reindex(self, vdr):
        leaves = self.index(vdr)
        super().reindex(vdr)
        if leaves:
            old = self[vdr, Vdr.VXRhead]
            node = self.new_node(64)
            self.fill_node(node, [Entry(leaves[0].first, leaves[-1].last, old)])
            self[vdr, Vdr.VXRhead] = node
            self[vdr, Vdr.VXRtail] = node


class NodeSpareChanged(Wrong):
    """A byte behind the entries of a node is changed."""
    commands = PUTS + CUTS + ('reindex',)

    def finish(self, c):
        vdr = self.variable_named(c.name)
        for node in self.nodes(self[vdr, Vdr.VXRhead]):
            if self.size(node) > node_size(self[node, Vxr.Nentries]):
                end = node + self.size(node) - 1
                self.write(end, bytes((self.byte(end) ^ 1,)))


class TakenInVain(Wrong):
    """28 bytes are taken and freed again."""

    def finish(self, c):
        self.give(self.take(28))


# ---- attributes and entries

class EntryFirst(Wrong):
    """A new entry goes first in its chain."""
    commands = ('put-entry',)

    def append(self, chain, at):
        members = self.members(chain)
        self._set_link(chain, None, at)
        self[at, Aedr.AEDRnext] = members[0] if members else 0


class EntriesReversed(Wrong):
    """The chain of the entries is reversed."""
    commands = ('put-entry', 'del-entry')

    def finish(self, c):
        adr = self.attribute_named(c.name)
        chain = self.entry_chain(adr, AZEDR if c.entry == 'z' else AGREDR)
        members = self.members(chain)[::-1]
        self._set_link(chain, None, members[0] if members else 0)
        for at, after in zip(members, members[1:] + [0]):
            self[at, Aedr.AEDRnext] = after


class EntryMovedToEnd(Wrong):
    """A replaced entry goes to the end of its chain."""
    commands = ('put-entry',)

    def replace(self, chain, at, by):
        self.remove(chain, at)
        self.append(chain, by)


class GreatestNotWritten(Wrong):
    """MAXgrEntry and MAXzEntry are not written."""
    commands = ('put-entry', 'del-entry', 'del-var')

    def write_greatest(self, adr, kind):
        pass


class GreatestAlwaysWritten(Wrong):
    """MAXgrEntry and MAXzEntry of other chains are written too."""
    commands = ('put-entry', 'del-entry', 'del-var', 'rename-attr')

    def finish(self, c):
        for adr in self.attributes():
            for kind in (AGREDR, AZEDR):
                self.write_greatest(adr, kind)


class NameNotFilled(Wrong):
    """What stood behind a name stays behind the byte 0 of the new one."""
    commands = ('rename-attr', 'rename-var')

    def write_name(self, at, field, name):
        self.write(at + field.offset, (name + b'\0')[:256])


class StringsKept(Wrong):
    """NumStrings is 1."""
    commands = ('put-entry',)

    def __setitem__(self, place, value):
        super().__setitem__(place, 1 if place[1] == Aedr.NumStrings and self.type(place[0]) in (5, 9) else value)


class AttributeFreedFirst(Wrong):
    """The ADR is freed before its entries, and a VDR before its index."""
    commands = ('del-attr', 'del-var')

    def finish(self, c):
        while True:
            act, at, size = self.acts[-1] if self.acts else ('', 0, 0)
            members = self.unused()
            if act != 'give' or size < 28 or len(members) < 2 or members[0] != at:
                return
            rest = members[1:]
            order = [rest[0], at] + rest[1:]
            self[self.gdr, Gdr.UIRhead] = order[0]
            for i, member in enumerate(order):
                self[member, Uir.NextUIR] = order[i + 1] if i + 1 < len(order) else 0
                if i < 3:
                    self[member, Uir.PrevUIR] = order[i - 1] if i else 0
            return


class RMaxRecNotWritten(Wrong):
    """rMaxRec is not written."""
    commands = PUTS + ('del-recs', 'del-var')

    def write_r_max(self):
        pass


class RMaxRecAlwaysWritten(Wrong):
    """rMaxRec is written though no MaxRec of an r variable changes."""
    commands = PUTS + ('del-recs', 'set-pad', 'set-blocking', 'set-sparse')

    def finish(self, c):
        self.write_r_max()


WRONG = [cls for cls in list(globals().values())
         if isinstance(cls, type) and issubclass(cls, Wrong) and cls is not Wrong]
