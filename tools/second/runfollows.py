"""Asks the pages whether what the editor makes follows: python3 runfollows.py FILES COMMANDS [SEED] [SORT]."""
import sys
from collections import Counter

from asking import why_refused
from logged import again
from pagevalues import with_room
from scripts import CUTS, KINDS
from selfcheck import run

SORTS = {'': KINDS, 'even': KINDS, 'setup': ('setup', 'checksum', 'list', 'info'),
         'cuts': CUTS + ('put-rec', 'put-val', 'set-blocking', 'zvar', 'rvar'),
         'sparse': ('del-recs', 'del-recs', 'put-rec', 'put-val'),
         'twice': ('del-recs', 'del-recs', 'put-rec', 'put-val'),
         'wide': CUTS + ('put-rec', 'put-val', 'reindex', 'set-blocking'),
         'frees': ('attr', 'put-entry', 'put-entry', 'put-entry', 'del-entry', 'del-attr', 'rvar', 'zvar', 'put-rec',
                   'put-rec', 'set-blocking', 'set-pad', 'set-sparse', 'del-var')}


def is_under_rule(c, data_set):
    return c.kind == 'del-recs' and data_set.variable(c.name).sparse != 0


def main():
    files, commands = int(sys.argv[1]), int(sys.argv[2])
    start = int(sys.argv[3]) if len(sys.argv) > 3 else 0
    sort = sys.argv[4] if len(sys.argv) > 4 else ''
    kinds = SORTS[sort]
    tried, failed = Counter(), Counter()
    for seed in range(start, start + files):
        def each(before, data_set, c, edited, after, reply):
            kind = c.kind + ' under a rule' if is_under_rule(c, data_set) else c.kind
            is_new = sort in ('wide', 'twice') or (seed % 2 and sort not in ('sparse', 'setup'))
            tried[kind, 'new' if is_new else 'foreign'] += 1
            cuts = again(before, c, edited, after).cuts
            why = why_refused(before, c, edited.data, edited.acts, cuts)
            if why:
                key = (kind, tuple(sorted(set(why)))[:3])
                failed[key] += 1
                if failed[key] <= 2:
                    print('REFUSED seed', seed, c, edited.acts, why[:6], flush=True)
        run(seed, commands, each, kinds, sort)
        if (seed - start) % 50 == 49:
            print(seed, sum(tried.values()), 'tried', dict(tried), 'refused', dict(failed), flush=True)
    print('tried', dict(tried))
    print('refused', dict(failed))


if __name__ == '__main__':
    with_room(main)
