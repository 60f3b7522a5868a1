"""Asks the page whether records go from packed variables step by step, and whether they do by wrong editors.

    python3 runcutsteps.py FILES COMMANDS [SEED] [SORT] [--wrong]
"""
import sys
from collections import Counter

from cutsteps import CutsByStep, why_not_cut_so
from content import content
from logged import FAILS
from pagevalues import with_room
from selfcheck import run
from validator import broken, sealed
from wrongcutsteps import WRONG_CUTS

SORTS = {'': ('put-rec', 'put-rec', 'put-rec', 'put-val', 'set-compress', 'set-compress', 'set-sparse', 'del-recs',
              'del-recs', 'del-recs', 'set-blocking', 'zvar', 'rvar'),
         'twice': ('put-rec', 'del-recs', 'del-recs')}
# Of longer images nothing is asked
MOST_BYTES = 9000


def made_by(editor, before, c):
    image = editor(before)
    image.c = c
    image.do_del_recs(c)
    return image


def main():
    texts = [text for text in sys.argv[1:] if text != '--wrong']
    files, commands = int(texts[0]), int(texts[1])
    start, sort = int(texts[2]) if len(texts) > 2 else 0, texts[3] if len(texts) > 3 else ''
    tried, failed, cases = Counter(), Counter(), Counter()

    def ask(name, seed, before, c, made, is_right):
        why = why_not_cut_so(before, c, made)
        tried[name] += 1
        if bool(why) == is_right:
            failed[name] += 1
            if failed[name] <= 3:
                print('REFUSED' if is_right else f'ADMITTED {name}', 'seed', seed, c, made.acts, why[:4], flush=True)

    def asked(seed):
        def each(before, data_set, c, edited, after, reply):
            if c.kind != 'del-recs' or len(edited.data) > MOST_BYTES:
                return
            vdr = edited.variable_named(c.name)
            if not edited.compressed(vdr):
                return
            right = made_by(CutsByStep, before, c)
            assert broken(sealed(right.data)) == [] and content(right) == after, (seed, c)
            cases[len(right.ends), len(right.steps)] += 1
            ask('right', seed, before, c, right, True)
            if '--wrong' in sys.argv:
                for editor in WRONG_CUTS:
                    try:
                        made = made_by(editor, before, c)
                    except (*FAILS, TypeError):
                        continue
                    if (made.data, made.acts) != (right.data, right.acts):
                        ask(editor.__name__, seed, before, c, made, False)
        return each
    for seed in range(start, start + files):
        run(seed, commands, asked(seed), SORTS[sort], sort)
    print('tried', dict(tried), sum(tried.values()) - tried['right'], 'wrong ones; cuts and steps', sorted(cases.items()))
    print('told', dict(failed))


if __name__ == '__main__':
    with_room(main)
