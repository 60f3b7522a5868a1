"""Decides `PutsBySteps` of cdf_edits, as the page Commands/PutSteps says it, by the stages of an editor's log."""
import asking
from asking import ask, content, stage, variable_in, why_not
from pagevalues import GIVEN, acts_value, force, image_value, sequence, stretch, value


class Stages:
    """What the log of a put has of the variable: its stages, and the bytes of the record."""

    def __init__(self, edited, found):
        self.raw = stretch(edited.stored)
        self.each = [made for step in edited.steps
                     for made in stage(image_value(step.image), found, acts_value(step.acts), step.next)]


def raw_and_last(env):
    return [{'raw': STAGES.raw, 'last': STAGES.each[-1]}] if STAGES.each else []


def leaf_and_node(env):
    """The leaf that is put, among all that there are then, and where a node is taken: behind the block."""
    to = force(env['to'])
    acts = [force(act) for act in sequence(to['acts'])]
    takes = [force(act.members[0]) for act in acts if act.tag == 'Took']
    leaves = sequence(ask('cdf_format', 'Index', 'leaves_of', force(to['own'])['index']))
    return [{'new': leaf, 'at': at} for leaf in leaves for at in takes[1:2] or [0]]


STAGES = None
GIVEN.witnesses.update({
    'PutsBySteps': raw_and_last, 'PutsLeaf': leaf_and_node,
    'PutsUpTo': lambda env: [{'start': STAGES.each[0], 'stages': stretch(STAGES.each[1:])}]})


def found_variable(before, name):
    """The variable of a name, with its kind and its number."""
    option = ask('cdf_model', 'Names', 'variable_named', content(image_value(before)), stretch(name))
    return force(option.members[0])


def why_not_by_steps(before, c, edited):
    """The claims of PutsBySteps that fail, by the log of the editor that put the record."""
    global STAGES
    found = found_variable(before, c.name)
    STAGES = Stages(edited, found)
    own = variable_in(image_value(before), found)[0]
    relation = value('cdf_edits', 'Commands.PutSteps', 'PutsBySteps')
    return why_not(relation, image_value(before), image_value(edited.data), found, c.rec, own, acts_value(edited.acts),
                   log=asking.Log(edited.acts, edited.cuts))
