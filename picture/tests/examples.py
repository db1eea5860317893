#!/usr/bin/env python3
"""The texts that the tests make pages of: runs of the examples, and small and hostile ones written by hand. As a program
it makes the pages of examples/pages anew."""
import os
import sys

HERE = os.path.dirname(os.path.abspath(__file__))
MODELS = os.path.join(HERE, '..', '..', 'examples')
PAGES = os.path.join(MODELS, 'pages')
NAMES = ('meeting', 'sensors', 'pigeons', 'queens4', 'makespan')
SHOWN = ('meeting', 'pigeons', 'makespan')      # those whose pages stand in examples/pages

sys.path.insert(0, os.path.join(HERE, '..'))

from make import Texts, make_page  # noqa: E402


def text(*path):
    with open(os.path.join(*path), encoding='utf-8') as file:
        return file.read()


def example(name):
    """The texts of a run of an example, by the names that `Texts` has, and its title."""
    own_log = os.path.join(HERE, 'texts', name + '.log')
    found = {'model': text(MODELS, name + '.fzn'), 'story': text(HERE, 'texts', name + '.story'),
             'log': text(own_log) if os.path.exists(own_log) else text(MODELS, name + '.ngd'),
             'measures': text(HERE, 'texts', name + '.measures'), 'title': name}
    if name == 'makespan':
        found['last_log'] = text(MODELS, 'makespan.ngd')
    return found


def written(title, model, story, log, end, kinds=(0, 0, 0), steps=0, **more):
    """Texts written by hand: the lines of the story and of the log between the first and the last."""
    deliveries = 'deliveries %d ok %d nogood %d link %d' % (sum(kinds), *kinds)
    measures = ['measures 1', 'end ' + end, deliveries, 'steps %d' % steps,
                'checks 0 constraints 0 nogoods 0', 'concurrent-checks 0 constraints 0', 'longest-chain %d' % sum(kinds),
                'recorded 0', 'transit 0', 'links-added %d' % kinds[2], 'end']
    return {'title': title, 'model': model, 'story': '\n'.join(['story 1', *story, 'end ' + end]) + '\n',
            'log': '\n'.join(['ngd 1', *log, 'end']) + '\n', 'measures': '\n'.join(measures) + '\n', **more}


def page_of(title, better=None, **texts):
    return make_page(Texts(**texts), title, better)


LONG = 'a' * 5000 + '_%s_' + 'z' * 5000
HOSTILE = ('</script><script>document.title = "broken"</script><img src=x onerror="document.title = 1"> '
           '{{STORY}} "\' & \u2028')


def small():
    """Small runs: without deliveries, without variables, with a false constraint, cut off, with hostile names and texts."""
    first, second = LONG % 'x', LONG % 'y'
    hostile = ('% ' + HOSTILE.replace('\u2028', ' ') + '\nvar bool: constructor;\n'
               'var 0..65535: %s :: mzn_path("</script>\\"<!--");\n'
               'var -9223372036854775808..-9223372036854775807: %s;\nconstraint int_ne(%s,%s);\n'
               'constraint no_such_one(%s,"</script>");\nsolve satisfy;\n' % (first, second, first, second, first))
    told = ['0 v1 takes 0', '0 v2 takes 0', '0 v2 sends v3 ok 0', '0 v3 takes -9223372036854775808',
            '1 v2>v3 ok 0', '1 v3 knows v2=0', '1 v3 out -9223372036854775808:c1 -9223372036854775807:c1',
            '1 v3 makes n1', '1 v3 sends v2 nogood 1',
            '2 v3>v2 nogood 1', '2 v2 keeps n1', '2 v2 out 0:n1', '2 v2 takes 1', '2 v2 sends v3 ok 1']
    pair = 'var 0..1: x;\nvar 0..1: y;\nconstraint int_eq(x,y);\nsolve satisfy;\n'
    backwards = ['0 v2 takes 0', '0 v2 sends v1 ok 0', '0 v1 takes 0', '1 v2>v1 ok 0', '1 v1 knows v2=0', '1 v1 out 1:c1']
    quiet = 'var 2..3: x;\nsolve satisfy;\n'
    never = 'constraint int_eq(1,2);\nsolve satisfy;\n'
    empty = 'var 1..0: x;\nsolve satisfy;\n'
    return {
        'none': written('none', 'solve satisfy;\n', [], [], 'solved'),
        'quiet': written('quiet', quiet, ['0 v1 takes 2'], [], 'solved'),
        'false': written('false', never, ['0 - makes n1'], ['1 - [] <- c1'], 'refuted', steps=1),
        'empty': written('empty', empty, ['0 v1 makes n1'], ['1 v1 [] <-'], 'refuted', steps=1),
        'open': written('open', pair, ['0 v1 takes 0', '0 v1 sends v2 ok 0', '0 v2 takes 0'], [], 'open'),
        'hostile': written(HOSTILE, hostile, told, ['1 v3 [v2=0] <- c1 c1'], 'open', (1, 1, 0), 1),
        'backwards': written('backwards', pair, backwards, [], 'solved', (1, 0, 0), order='order 1\n2\n1\nend\n'),
    }


if __name__ == '__main__':
    for shown in SHOWN:
        with open(os.path.join(PAGES, shown + '.html'), 'w', encoding='utf-8') as page:
            page.write(page_of(**example(shown)))
