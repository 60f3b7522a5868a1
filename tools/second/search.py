"""Which acts may lead from one image to another: orders of gives and takes that leave the space that there is.

What an act leaves is as the page Space/Acts says it.
"""
from asking import ask, shape, why_refused
from pagevalues import Made, force, image_value, numbers, sequence

ACTS = 'cdf_edits', 'Space.Acts'
# How many orders are begun at most
MOST = 300
# What Follows says before it speaks of acts
BEFORE_ACTS = ('Follows.goes', 'Follows.good', 'Follows.longer', 'Follows.within', 'Follows.reads')


def used(image):
    """The records in use, each with its size."""
    return {tuple(force(part) for part in force(pair)) for pair in sequence(ask(*ACTS, 'space_before', image)['used'])}


def act_value(act):
    kind, place, size = act
    return Made('Took' if kind == 'take' else 'Gave', (place, size))


class Orders:
    """The orders of some acts by which an image comes to be."""

    def __init__(self, now):
        self.now, self.left_to_try = now, MOST
        self.depth = {place: depth for depth, place in enumerate(numbers(shape(now)['unused']))}

    def is_too_early(self, act, waiting):
        """A record that is listed in the end is freed after those that stand behind it."""
        return act[0] == 'give' and act[1] in self.depth and any(
            other[0] == 'give' and self.depth.get(other[1], -1) > self.depth[act[1]] for other in waiting)

    def from_here(self, left, waiting, done):
        self.left_to_try -= 1
        if self.left_to_try < 0:
            return
        if not waiting and ask(*ACTS, 'HasLeft', self.now, left):
            yield done
        for at, act in enumerate(waiting):
            if ask(*ACTS, 'Happens', left, act_value(act)) and not self.is_too_early(act, waiting):
                then = ask(*ACTS, 'after_act', left, act_value(act))
                yield from self.from_here(then, waiting[:at] + waiting[at + 1:], done + [act])


def candidates(before, after):
    """Lists of acts, each take where it fits first, after which the space is that of the image."""
    was, now = image_value(before), image_value(after)
    gives = [('give', place, size) for place, size in sorted(used(was) - used(now))]
    takes = [('take', place, size) for place, size in sorted(used(now) - used(was))]
    yield from Orders(now).from_here(ask(*ACTS, 'space_before', was), gives + takes, [])


def refused_whatever(before, c, after, acts, cuts=()):
    """The claims that fail for given acts, or none where these or some others make the image follow."""
    why = why_refused(before, c, after, acts, cuts)
    if not why or why[0].split('/')[0] in BEFORE_ACTS:
        return why
    for others in [*candidates(before, after), []]:
        if not why_refused(before, c, after, others):
            return []
    return why
