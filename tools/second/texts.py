"""What is written: replies to the lines of a script, the head of a data set, values."""
from layout import TEXT_TYPES, TYPES
from rowscript import quoted

REASONS = ('BadLine NoSuchAttr NoSuchVar NoSuchTap BadName NameTaken WrongScope NoSuchEntry NumberOutOfRange BadShape '
           'WrongCount BadValue IndexOutOfRange RecordOutOfRange InUse TooLarge').split()
SCOPES = {1: 'global', 2: 'variable', 3: 'global-assumed', 4: 'variable-assumed'}


def values_text(data_type, elems, network):
    if data_type.code in TEXT_TYPES:
        return ' '.join(quoted(network[i:i + elems]) for i in range(0, len(network), elems))
    parts = [network[i:i + data_type.size] for i in range(0, len(network), data_type.size)]
    if data_type.signed is None:
        return ' '.join(part.hex() for part in parts)
    return ' '.join(str(int.from_bytes(part, 'big', signed=data_type.signed)) for part in parts)


def list_text(sizes):
    return ','.join(map(str, sizes)) or '-'


def head_text(d):
    return (f'version 3.{d.release}.{d.increment} encoding {d.encoding} majority {"row" if d.row else "column"} '
            f'checksum {"md5" if d.md5 else "none"} rdims {list_text(d.rdims)} '
            f'attributes {len(d.attributes)} rvars {len(d.r)} zvars {len(d.z)}')


def framed(number, lines):
    """A reply of several lines."""
    return '\n'.join([f'{number} ok', *lines, f'{number} end']) + '\n'


def reply_text(number, c, d, reply):
    """What is written for a command that is done."""
    if c.kind == 'info':
        return f'{number} ok {head_text(d)}\n'
    if c.kind == 'list':
        lines = [f'attribute {i} {quoted(a.name)} {SCOPES[a.scope]}' for i, a in enumerate(d.attributes)]
        lines += [f'{kind}var {i} {quoted(v.name)}' for kind, vs in (('r', d.r), ('z', d.z)) for i, v in enumerate(vs)]
        return framed(number, lines)
    if c.kind in ('get-entry', 'get-rec', 'get-val'):
        data_type, elems, network = TYPES[reply[0]], reply[1], reply[2]
        form = f'{data_type.name} {elems} ' if c.kind == 'get-entry' else ''
        return f'{number} ok {form}{values_text(data_type, elems, network)}\n'
    return f'{number} ok\n'


def refusal_text(number, refusal):
    more = ''.join(f' {n}' for n in refusal.more)
    return f'{number} refused {refusal.number} {REASONS[refusal.number - 1]}{more}\n'
