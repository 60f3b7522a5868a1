"""The events of a data set, one after the other; what `dump` writes of them; and taps, to which `report` shows them.

An event is a tuple that begins with what it is.
"""
from layout import TYPES
from model import NO_RULE, PAD, PREVIOUS, Refused
from rowscript import quoted
from texts import SCOPES, framed, head_text, list_text, values_text

RULES = {NO_RULE: 'none', PAD: 'pad', PREVIOUS: 'previous'}


def events(d):
    """The head; each attribute and its entries; each r and each z variable and its stored records; the end."""
    yield 'head', d
    for num, a in enumerate(d.attributes):
        yield 'attribute', num, a
        for kind, entries in (('g' if a.is_global() else 'r', a.g), ('z', a.z)):
            for entry in sorted(entries):
                yield 'entry', kind, entry, entries[entry]
    records = 0
    for kind, variables in (('r', d.r), ('z', d.z)):
        for num, v in enumerate(variables):
            yield 'variable', kind, num, v
            for record in sorted(v.recs):
                if record <= v.max_rec:
                    yield 'record', record, v, v.recs[record]
                    records += 1
    yield 'end', len(d.attributes), len(d.r) + len(d.z), records


def variable_text(kind, num, v):
    data_type = TYPES[v.type]
    varys = ''.join('T' if vary else 'F' for vary in v.varys) or '-'
    pad = '-' if v.pad is None else values_text(data_type, v.elems, v.pad)
    return (f'{kind}var {num} {quoted(v.name)} {data_type.name} {v.elems} {"vary" if v.vary else "novary"} '
            f'{list_text(v.dims)} {varys} sparse {RULES[v.sparse]} compress {"rle" if v.rle else "none"} '
            f'blocking {v.blocking} maxrec {v.max_rec} pad {pad}')


def event_text(event):
    """The line of an event."""
    what, *parts = event
    if what == 'head':
        return head_text(*parts)
    if what == 'attribute':
        num, a = parts
        return f'attribute {num} {quoted(a.name)} {SCOPES[a.scope]}'
    if what == 'entry':
        kind, num, (code, elems, network) = parts
        data_type = TYPES[code]
        return f'entry {kind} {num} {data_type.name} {elems} {values_text(data_type, elems, network)}'
    if what == 'variable':
        return variable_text(*parts)
    if what == 'record':
        num, v, network = parts
        return f'record {num} {values_text(TYPES[v.type], v.elems, network)}'
    return 'end attributes {} variables {} records {}'.format(*parts)


def dump(number, d):
    return framed(number, map(event_text, events(d)))


# Taps: each is begun anew at a report, sees events until it has ended, and says a line.

class Tally:
    """Counts attributes, entries, variables and records."""
    name = b'tally'

    def begin(self):
        self.seen = dict.fromkeys(('attribute', 'entry', 'variable', 'record'), 0)
        self.ended = False

    def see(self, event):
        if event[0] in self.seen:
            self.seen[event[0]] += 1

    def line(self):
        return ' '.join(f'{plural} {self.seen[what]}' for what, plural in (
            ('attribute', 'attributes'), ('entry', 'entries'), ('variable', 'variables'), ('record', 'records')))


class NeedsVarType:
    """Ends at the first z variable for which the attribute VAR_TYPE has no entry."""
    name = b'vartype'

    def begin(self):
        self.attribute, self.typed, self.lacking = None, set(), None
        self.ended = False

    def see(self, event):
        what, *parts = event
        if what == 'attribute':
            self.attribute = parts[1].name
        elif what == 'entry' and parts[0] == 'z' and self.attribute == b'VAR_TYPE':
            self.typed.add(parts[1])
        elif what == 'variable' and parts[0] == 'z' and parts[1] not in self.typed:
            self.lacking, self.ended = parts[2].name, True

    def line(self):
        return 'all zvars have VAR_TYPE' if self.lacking is None else f'missing VAR_TYPE {quoted(self.lacking)}'


def shown(tap, d):
    """What a tap says of a data set."""
    tap.begin()
    for event in events(d):
        tap.see(event)
        if tap.ended:
            break
    return tap.line()


def report(number, taps, name, d):
    """The reply to `report`. Those of the taps that ended go; Refused where none has the name."""
    asked = [tap for tap in taps if tap.name == name]
    if not asked:
        raise Refused(4)
    text = framed(number, [shown(tap, d) for tap in asked])
    taps[:] = [tap for tap in taps if tap.name != name or not tap.ended]
    return text
