"""Lines of a script as commands (but for those of packed variables), and quoted text."""
from layout import TYPE_NAMED
from model import NO_RULE, PAD, PREVIOUS, Command

ESCAPED = {ord('"'): ord('"'), ord('\\'): ord('\\')}
RULE_NAMED = {b'none': NO_RULE, b'pad': PAD, b'previous': PREVIOUS}


def quoted_byte(byte):
    if byte in ESCAPED:
        return '\\' + chr(byte)
    return chr(byte) if 32 <= byte < 127 else f'\\x{byte:02x}'


def quoted(data):
    """A text between quotes."""
    return '"' + ''.join(map(quoted_byte, data)) + '"'


def quoted_word(line, at):
    """The bytes of the word whose opening quote stands before a place, and the place behind its closing quote."""
    word = bytearray()
    while line[at] != ord('"'):
        if line[at] != ord('\\'):
            word.append(line[at])
            at += 1
        elif line[at + 1] == ord('x'):
            word.append(int(line[at + 2:at + 4], 16))
            at += 4
        else:
            word.append(ESCAPED[line[at + 1]])
            at += 2
    return bytes(word), at + 1


def words_of(line):
    """The words of a line that is a command."""
    if b'"' not in line:
        return line.replace(b'\t', b' ').split(b' ') if b'  ' not in line and b'\t' not in line else line.split()
    words, at = [], 0
    while at < len(line):
        if line[at] in b' \t':
            at += 1
        elif line[at] == ord('"'):
            word, at = quoted_word(line, at + 1)
            words.append(word)
        else:
            end = at
            while end < len(line) and line[end] not in b' \t':
                end += 1
            words.append(line[at:end])
            at = end
    return words


def numbers_of(word):
    """The sizes of dimensions."""
    return [] if word == b'-' else [int(number) for number in word.split(b',')]


def varys_of(word):
    """Whether each dimension varies."""
    return [] if word == b'-' else [letter == ord('T') for letter in word]


def variable_command(kind, rest):
    """A command on the head of the data set or on variables, or None."""
    if kind == 'setup':
        return Command(kind, encoding=int(rest[0]), row=rest[1] == b'row', dims=numbers_of(rest[2]))
    if kind in ('rvar', 'zvar'):
        dims = {'dims': numbers_of(rest[4])} if kind == 'zvar' else {}
        return Command(kind, name=rest[0], type=TYPE_NAMED[rest[1].decode()].code, elems=int(rest[2]),
                       vary=rest[3] == b'vary', varys=varys_of(rest[-1]), **dims)
    if kind == 'rename-var':
        return Command(kind, name=rest[0], to=rest[1])
    if kind == 'del-var':
        return Command(kind, name=rest[0])
    if kind == 'set-sparse':
        return Command(kind, name=rest[0], rule=RULE_NAMED[rest[1]])
    if kind == 'set-blocking':
        return Command(kind, name=rest[0], n=int(rest[1]))
    if kind == 'set-pad':
        return Command(kind, name=rest[0], words=rest[1:])
    return None


def record_command(kind, rest):
    """A command on records of variables, or None."""
    if kind == 'put-rec':
        return Command(kind, name=rest[0], rec=int(rest[1]), words=rest[2:])
    if kind == 'get-rec':
        return Command(kind, name=rest[0], rec=int(rest[1]))
    if kind == 'del-recs':
        return Command(kind, name=rest[0], first=int(rest[1]), last=int(rest[2]))
    if kind == 'put-val':
        return Command(kind, name=rest[0], rec=int(rest[1]), index=numbers_of(rest[2]), words=rest[3:])
    if kind == 'get-val':
        return Command(kind, name=rest[0], rec=int(rest[1]), index=numbers_of(rest[2]))
    if kind == 'reindex':
        return Command(kind, name=rest[0])
    return None


def attribute_command(kind, rest):
    """A command on attributes or their entries, or None."""
    if kind == 'attr':
        return Command(kind, name=rest[0], scope=1 if rest[1] == b'global' else 2)
    if kind == 'rename-attr':
        return Command(kind, name=rest[0], to=rest[1])
    if kind == 'del-attr':
        return Command(kind, name=rest[0])
    if kind == 'put-entry':
        return Command(kind, name=rest[0], entry=rest[1].decode(), num=int(rest[2]),
                       type=TYPE_NAMED[rest[3].decode()].code, words=rest[4:])
    if kind in ('get-entry', 'del-entry'):
        return Command(kind, name=rest[0], entry=rest[1].decode(), num=int(rest[2]))
    return None


def command_of(words):
    kind, rest = words[0].decode(), words[1:]
    if kind == 'checksum':
        return Command(kind, md5=rest[0] == b'md5')
    if kind == 'report':
        return Command(kind, tap=rest[0])
    return attribute_command(kind, rest) or variable_command(kind, rest) or record_command(kind, rest) or Command(kind)
