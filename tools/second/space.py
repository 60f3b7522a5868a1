"""Taking and giving records, and chains. Each take and give is written down in `acts`."""
from image import NEXT, Image
from layout import ADR, AGREDR, RVDR, UIR, Adr, Gdr, RecordSize, RecordType, Uir

LEAST = 28


class Space(Image):
    def __init__(self, data):
        super().__init__(data)
        self.acts = []

    # The unused list

    def take(self, need):
        """A record of `need` bytes: the first listed one that fits, or at eof."""
        need = max(LEAST, need)
        for at in self.unused():
            size = self.size(at)
            if size == need or size >= need + LEAST:
                self._unlist(at, need)
                break
        else:
            at = self.eof
            self.data += bytes(need)
            self[self.gdr, Gdr.eof] = at + need
        self.data[at:at + need] = bytes(need)
        self[at, RecordSize] = need
        self[at, RecordType] = UIR
        self.acts.append(('take', at, need))
        return at

    def _unlist(self, at, need):
        """The record leaves the list, or its rest takes its place there."""
        members = self.unused()
        i = members.index(at)
        before = members[i - 1] if i else 0
        after = self[at, Uir.NextUIR]
        size = self.size(at)
        if size > need:
            rest = at + need
            self[rest, RecordSize] = size - need
            self[rest, RecordType] = UIR
            self[rest, Uir.NextUIR] = after
            self[rest, Uir.PrevUIR] = before
            now, back = rest, rest
        else:
            now, back = after, before
        if before:
            self[before, Uir.NextUIR] = now
        else:
            self[self.gdr, Gdr.UIRhead] = now
        if after:
            self[after, Uir.PrevUIR] = back

    def give(self, at):
        """A record becomes unused: the head of the list, or unlisted where it is small."""
        size = self.size(at)
        self[at, RecordType] = UIR
        if size >= LEAST:
            head = self[self.gdr, Gdr.UIRhead]
            self[at, Uir.NextUIR] = head
            self[at, Uir.PrevUIR] = 0
            if head:
                self[head, Uir.PrevUIR] = at
            self[self.gdr, Gdr.UIRhead] = at
        self.acts.append(('give', at, size))

    # Chains: a chain is where its head stands and the type of its members

    def attribute_chain(self):
        return self.gdr, Gdr.ADRhead, ADR

    def variable_chain(self, kind):
        return self.gdr, Gdr.rVDRhead if kind == RVDR else Gdr.zVDRhead, kind

    def entry_chain(self, adr, kind):
        return adr, Adr.AgrEDRhead if kind == AGREDR else Adr.AzEDRhead, kind

    def members(self, chain):
        at, head, kind = chain
        return self.chain(self[at, head], kind)

    def _set_link(self, chain, before, to):
        """The link after `before`, or the head where it is None, becomes `to`."""
        at, head, kind = chain
        if before is None:
            self[at, head] = to
        else:
            self[before, NEXT[kind]] = to

    def _before(self, chain, at):
        members = self.members(chain)
        i = members.index(at)
        return members[i - 1] if i else None

    def append(self, chain, at):
        members = self.members(chain)
        self._set_link(chain, members[-1] if members else None, at)
        self[at, NEXT[chain[2]]] = 0

    def remove(self, chain, at):
        self._set_link(chain, self._before(chain, at), self[at, NEXT[chain[2]]])

    def replace(self, chain, at, by):
        self[by, NEXT[chain[2]]] = self[at, NEXT[chain[2]]]
        self._set_link(chain, self._before(chain, at), by)
