"""Decides `Follows` of cdf_edits, as the pages say it, on the images before and after a command.

Here is what the pages say is there without giving it. Acts are given, or looked for (`search.py`); the images between
are those of an editor's log, or else what the second editor makes by the given acts.
"""
from image import encoded
from layout import LAST_NUMBER
from logged import cut_somehow
from pagevalues import (GIVEN, NOTES, Made, acts_value, apply, command_value, force, image_value, numbers, sequence,
                        stretch, value)

KINDS = (Made('R'), Made('Z'))
ENTRY_KINDS = (Made('G'), Made('R'), Made('Z'))
LEVELS = 10


def ask(crate, page, name, *arguments):
    return force(apply(value(crate, page, name), arguments))


def content(image):
    return ask('cdf_format', 'Content', 'content', image)


def shape(image):
    return ask('cdf_format', 'Shape', 'shape', image)


def is_good(image):
    return ask('cdf_format', 'WellFormed', 'Good', image)


def members(record, field):
    return sequence(force(record)[field])


def at_number(found, number):
    return [found[number]] if number < len(found) else []


# ---- the images between, and the acts up to them

class Log:
    """What is known of the case that is asked: its acts, and the images after cuts."""

    def __init__(self, acts=(), cuts=()):
        self.acts, self.cuts = list(acts), list(cuts)

    def images_after_cut(self, image, vdr, first, last):
        """The bytes after a first cut, with how many acts lead to them."""
        for cut in self.cuts[:1]:
            yield cut.image, cut.acts
        for made, acts in cut_somehow(image, vdr, first, last):
            if acts == self.acts[:len(acts)]:
                yield made, len(acts)


LOG = Log()


def once_each(found):
    tried = set()
    for each in found:
        if each not in tried:
            tried.add(each)
            yield each


def variable_in(image, found):
    """The shape of a variable in an image by its kind and number: a list of it, or none."""
    found = force(found)
    field = 'r_variables' if force(found['kind']).tag == 'R' else 'z_variables'
    return at_number(members(shape(image), field), force(found['number']))


def stage(image, found, acts, following=0):
    """The stages of a variable that has an image: one; or none where the image is not good, as each stage has to be."""
    if not is_good(image):
        return []
    return [{'image': image, 'own': own, 'acts': acts, 'next': following} for own in variable_in(image, found)]


def restored(now, before, touches):
    """The bytes of an image, but for these, which are as they were before."""
    now, before = bytearray(numbers(now)), bytes(numbers(before))
    for touch in touches:
        touch = {name: force(part) for name, part in force(touch).items()}
        start = touch['tile'] + touch['place']
        now[start:start + touch['width']] = before[start:start + touch['width']]
    return bytes(now)


def max_rec_restored(env):
    """The image before MaxRec and rMaxRec are written: they are as they were."""
    found = force(env['found'])
    touches = ask('cdf_edits', 'Commands.Puts', 'max_rec_touches', env['b'], found['kind'], force(env['before'])['vdr'])
    return restored(env['now'], env['b'], sequence(touches))


def carried(between, vdr, first, end):
    """An image between with each byte that the second cut leaves as it is in the end."""
    for then, _ in cut_somehow(between, vdr, first, LAST_NUMBER):
        if len(then) == len(end) and then != end:
            yield bytes(end[at] if now == after else now for at, (now, after) in enumerate(zip(between, then)))


def cuts_under_rule(env):
    """The stages between the two cuts of `del-recs` under a rule, and before MaxRec is written."""
    found, first, last = force(env['found']), force(env['first']), force(env['last'])
    vdr, end = force(force(env['before'])['vdr']), max_rec_restored(env)
    past = ask('cdf_edits', 'Index.Blocks', 'extent_after', found['variable'], first, last)

    def images():
        for between, count in LOG.images_after_cut(bytes(numbers(env['b'])), vdr, first, last):
            yield between, count
            for other in carried(between, vdr, past, end):
                yield other, count
    for between, count in once_each(images()):
        for cut in stage(image_value(between), found, acts_value(LOG.acts[:count])):
            for left in stage(image_value(end), found, acts_value(LOG.acts[count:])):
                yield {'cut': cut, 'left': left}


def before_rule_is_written(env):
    vdr = force(force(env['before'])['vdr'])
    field = value('cdf_format', 'Records', 'vdr_s_records')
    touch = ask('cdf_edits', 'Frame.Changed', 'touched_field', vdr, field)
    image = image_value(restored(env['now'], env['b'], [touch]))
    return [{'left': left} for left in stage(image, env['found'], env['acts'])]


def cut_before_put(env):
    """The index between the cut of a put and its puts, with the acts of each."""
    if not ask('cdf_edits', 'Index.Blocks', 'cuts_before_put', env['v'], env['n']):
        yield {'middle': force(env['before'])['index'], 'cut': None, 'put': env['acts']}
        return
    vdr = force(force(env['before'])['vdr'])
    past = ask('cdf_model', 'DataSet', 'extent', force(env['v'])['max_rec'])
    for image, count in once_each(LOG.images_after_cut(bytes(numbers(env['b'])), vdr, past, LAST_NUMBER)):
        for own in all_of(image_value(image), 'r_variables', 'z_variables'):
            if force(force(own)['vdr']) == vdr:
                yield {'middle': force(own)['index'], 'cut': acts_value(LOG.acts[:count]),
                       'put': acts_value(LOG.acts[count:])}


# ---- what else is there

def all_of(image, *fields):
    return [member for field in fields for member in members(shape(image), field)]


def reply_and_acts(env):
    route = ask('cdf_model', 'Step', 'step', content(env['b']), env['c'])
    if route.tag != 'ByStep' or force(route.members[0]).tag != 'Go':
        return []
    return [{'reply': force(route.members[0]).members[1], 'acts': acts_value(LOG.acts)}]


def fronts(env):
    """The front parts of acts: those of the cut, before a CPR is taken or freed."""
    acts = sequence(env['acts'])
    return [{'cut': stretch(acts[:count])} for count in range(len(acts), -1, -1)]


GIVEN.witnesses.update({
    'Follows': reply_and_acts,
    'MakesAttribute': lambda env: [{'made': made} for made in all_of(env['now'], 'attributes')],
    'MakesVariable': lambda env: [{'made': made} for made in all_of(env['now'], 'r_variables', 'z_variables')],
    'PutsEntry': lambda env: [{'aedr': place} for field in ('gr_entries', 'z_entries')
                              for place in members(env["a'"], field)],
    'PutsIndex': cut_before_put, 'SetsCompress': fronts, 'DeletesUnderRule': cuts_under_rule,
    'SetsSparse': before_rule_is_written})


# ---- over what names go

def attributes_of(image):
    return lambda env: at_number(members(shape(env[image]), 'attributes'), force(env['n']))


def found_variables(env):
    data = content(env['b'])
    return [{'kind': kind, 'number': number, 'variable': variable}
            for kind, field in zip(KINDS, ('r_variables', 'z_variables'))
            for number, variable in enumerate(members(data, field))]


def stored_numbers(env):
    """The numbers of all records that blocks hold, before or after."""
    found = set()
    for own in (env['before'], env['after']):
        for leaf in sequence(ask('cdf_format', 'Index', 'leaves_of', force(own)['index'])):
            leaf = force(leaf)
            found.update(range(force(leaf['first']), force(leaf['last']) + 1))
    return sorted(found)


def longest_packing(env):
    """Of all bytes that stand for those of a block, the ones in the longest runs, which alone are asked."""
    plain = ask('cdf_format', 'Content', 'plain_bytes', env['now'], env['vdr'], env['leaf'])
    return [stretch(encoded(bytes(numbers(plain))))]


for owner in ('OfAttribute', 'RenamesAttribute', 'DeletesAttribute', 'DeletesVariable'):
    GIVEN.domains.update({
        (owner, 'n'): lambda env: range(len(members(shape(env['b']), 'attributes'))),
        (owner, 'a'): attributes_of('b'), (owner, "a'"): attributes_of('now')})
for owner in ('OfVariable', 'DeletesNamed'):
    GIVEN.domains.update({
        (owner, 'found'): found_variables, (owner, 'v'): lambda env: variable_in(env['b'], env['found']),
        (owner, "v'"): lambda env: variable_in(env['now'], env['found'])})
GIVEN.domains.update({
    'Kind': lambda env: KINDS, 'EntryKind': lambda env: ENTRY_KINDS, ('OthersStay', 'k'): stored_numbers,
    ('UnwrittenStay', 'k'): stored_numbers, ('IsPyramid', 'levels'): lambda env: range(LEVELS),
    ('WellPacked', 'packed'): longest_packing})


# ---- asking

def why_not(relation, *arguments, log=Log()):
    """The claims that fail, by their paths; none where a relation holds."""
    global LOG
    LOG = log
    NOTES.path.clear()
    NOTES.failed.clear()
    if force(apply(relation, arguments)):
        return []
    return list(dict.fromkeys(NOTES.failed)) or ['it does not hold']


def why_refused(before, c, after, acts, cuts=()):
    """The claims of Follows that fail; none where the image follows by these acts.

    Whether the image is good is asked before all else, since the content of another one may have any number of records.
    """
    now = image_value(after)
    if not is_good(now):
        return ['Follows.good']
    return why_not(value('cdf_edits', 'Follows', 'Follows'), image_value(before), command_value(c), now,
                   log=Log(acts, cuts))
