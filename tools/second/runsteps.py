"""Asks the pages whether records are put into packed variables step by step, and whether wrong editors do.

    python3 runsteps.py FILES COMMANDS [SEED] [SORT] [--wrong]

SORT is `twice` (variables under a sparse rule whose last block is stored in part) or nothing. With --wrong each put is
tried with the editors of wrongsteps.py beside the right one; what is admitted is told.
"""
import sys
from collections import Counter

from editor import Editor
from logged import FAILS, again, carried_out
from pagevalues import with_room
from selfcheck import run
from steps import why_not_by_steps
from wrongsteps import WRONG_STEPS

SORTS = {'': ('put-rec', 'put-rec', 'put-rec', 'put-val', 'put-val', 'set-compress', 'set-compress', 'del-recs',
              'set-sparse', 'set-blocking', 'zvar', 'rvar', 'put-entry'),
         'twice': ('put-rec', 'put-rec', 'put-val', 'del-recs')}
# Of longer images nothing is asked
MOST_BYTES = 9000


def wrong_ones(before, c, right, after):
    """What wrong editors make that is not the right image by the right acts, with their logs."""
    for editor in WRONG_STEPS:
        try:
            made = carried_out(editor, before, c, after)
        except FAILS:
            continue
        if (made.data, made.acts) != (right.data, right.acts):
            yield editor.__name__, made


def main():
    texts = [text for text in sys.argv[1:] if text != '--wrong']
    files, commands = int(texts[0]), int(texts[1])
    start, sort = int(texts[2]) if len(texts) > 2 else 0, texts[3] if len(texts) > 3 else ''
    tried, failed = Counter(), Counter()

    def ask(name, seed, before, c, made, is_right):
        why = why_not_by_steps(before, c, made)
        tried[name] += 1
        if bool(why) == is_right:
            failed[name] += 1
            if failed[name] <= 3:
                print('REFUSED' if is_right else f'ADMITTED {name}', 'seed', seed, c, made.acts, why[:4], flush=True)

    def asked(seed):
        def each(before, data_set, c, edited, after, reply):
            if c.kind not in ('put-rec', 'put-val') or len(edited.data) > MOST_BYTES:
                return
            if not edited.compressed(edited.variable_named(c.name)):
                return
            ask('right', seed, before, c, again(before, c, edited, after), True)
            if '--wrong' in sys.argv:
                right = carried_out(Editor, before, c, after)
                for name, made in wrong_ones(before, c, right, after):
                    ask(name, seed, before, c, made, False)
        return each
    for seed in range(start, start + files):
        run(seed, commands, asked(seed), SORTS[sort], sort)
    print('tried', dict(tried), sum(tried.values()) - tried['right'], 'wrong ones')
    print('told', dict(failed))


if __name__ == '__main__':
    with_room(main)
