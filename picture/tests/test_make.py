#!/usr/bin/env python3
"""Tests of the maker of pages, without a browser."""
import json
import os
import re
import subprocess
import sys
import tempfile
import unittest

from examples import HERE, HOSTILE, MODELS, NAMES, PAGES, SHOWN, example, page_of, small, text
from flatzinc import ModelError, read_model
from make import Refused
from signs import Signs


def block(page, name):
    """The data of a block of the page."""
    return json.loads(re.search('<script type="application/json" id="%s">(.*?)</script>' % name, page)[1])


def labels(model):
    return Signs(read_model(model)).labels


def rules(model):
    read = read_model(model)
    signs = Signs(read)
    return [signs.rule(rule) for rule in read.rules]


class Pages(unittest.TestCase):
    def test_texts_stand_in_the_page(self):
        for name in NAMES:
            texts = example(name)
            page = page_of(**texts)
            for part in ('model', 'story', 'log', 'measures'):
                self.assertEqual(block(page, 'text-' + part), texts[part], name)
            self.assertEqual(block(page, 'run')['title'], name)
            self.assertEqual(set(re.findall(r'https?://[^"\'\s]*', page)), {'http://www.w3.org/2000/svg'}, name)

    def test_pages_of_the_examples_are_as_made_now(self):
        for name in SHOWN:
            self.assertEqual(text(PAGES, name + '.html'), page_of(**example(name)), 'python3 picture/tests/examples.py')

    def test_hostile_texts_are_escaped(self):
        page = page_of(**small()['hostile'])
        self.assertEqual(page.count('</script>'), 6)     # the run, four texts, the script
        self.assertNotIn('<img', page)
        self.assertEqual(block(page, 'run')['title'], HOSTILE)
        self.assertEqual(block(page, 'text-model'), small()['hostile']['model'])
        self.assertIn('{{STORY}}', page)

    def test_long_names_are_shortened_and_told_apart(self):
        found = block(page_of(**small()['hostile']), 'run')['variables']
        self.assertEqual(len({variable['label'] for variable in found}), 3)
        self.assertLess(max(len(variable['label']) for variable in found), 80)

    def test_small_runs_make_pages(self):
        for name, texts in small().items():
            self.assertIn('<h1>', page_of(**texts), name)

    def test_the_best_value_is_found_in_the_last_log(self):
        texts = example('makespan')
        self.assertEqual(block(page_of(**texts), 'run')['best'], '7')
        self.assertEqual(block(page_of(**texts, better=7), 'run')['best'], '7')
        self.assertRaisesRegex(Refused, 'better values than 7', page_of, **texts, better=8)
        self.assertRaisesRegex(Refused, 'no value of the aim', page_of, **texts, better=99)


class Refusals(unittest.TestCase):
    def refuses(self, message, **changed):
        texts = {**example('meeting'), **changed}
        self.assertRaisesRegex(Refused, message, page_of, **texts)

    def test_texts_of_different_runs(self):
        other = example('pigeons')
        self.refuses('log: line 2 does not fit the model', log=other['log'])
        self.refuses('story and measures are of different runs: verdict solved and refuted', measures=other['measures'])
        measures = example('meeting')['measures']
        self.refuses('deliveries 29 and 30', measures=measures.replace('deliveries 29', 'deliveries 30'))
        self.refuses('steps 7 and 8', measures=measures.replace('steps 7', 'steps 8'))
        self.refuses('ok 21 and 20', measures=measures.replace('ok 21', 'ok 20'))
        self.refuses('story: line', model=other['model'])

    def test_logs_of_other_agents_or_ends(self):
        log = example('meeting')['log']
        self.refuses('of other agents', log=re.sub('^1 v3 (.*)$', r'1 v4 \1', log, flags=re.M))
        lines = log.split('\n')
        self.refuses('7 steps, the log has 6', log='\n'.join(lines[:-3] + lines[-2:]))
        self.refuses('log: line 2 does not fit the model', log=log.replace('<- c1', '<- c9', 1))

    def test_stories_that_do_not_fit_together(self):
        story = example('meeting')['story']
        self.refuses('story: line', story=story.replace('1 v2>v4 ok 9', '1 v2>v4 ok 10'))
        self.refuses('story: line', story=story.replace('\n2 v5>v6', '\n3 v5>v6', 1))
        self.refuses('story: line', story=story.replace('v1 takes 9', 'v1 takes 8'))
        self.refuses('story: line', story=story.replace('v1 takes 9', 'v1 takes 09'))
        self.refuses('story: line', story=story.replace('0 v1 sends v3 ok 9', '0 v1 sends v3 ok 8'))
        self.refuses('story: line', story=story.replace('1 v4 knows v2=9', '1 v4 knows v2=8'))
        self.refuses('story: line', story=story.replace('out 11:c2 15:c2', 'out 12:c2 15:c2'))
        self.refuses('story: line', story=story.replace('out 11:c2 15:c2', 'out 11:c2 15:c6'))
        self.refuses('story: line', story=story.replace('makes n1', 'makes n2'))
        self.refuses('story: line', story=story.replace('sends v3 ok 9', 'sends v33 ok 9'))
        self.refuses('story: line', story=story.replace('\n3 v1>v3', '\n' + '9' * 9999 + ' v1>v3', 1))
        self.refuses('story: it has no last line', story=story.replace('end solved\n', ''))
        self.refuses('story: the last line is not whole', story=story[:-1])
        self.refuses('story: line 1', story=story.replace('story 1', 'story 2'))

    def test_measures_that_are_none(self):
        measures = example('meeting')['measures']
        for old, new in (('transit 7', 'transit'), ('v6 learned v5', 'v7 learned v5'), ('v1 sent 7', 'v1 sent'),
                         ('steps 7', 'step 7'), ('end solved', 'end well')):
            self.refuses('measures: line', measures=measures.replace(old, new))
        self.refuses('measures: line', measures='measures 1\nend solved\nend\n')
        self.refuses('measures: it has no last line', measures=measures[:-4])

    def test_models_and_orders(self):
        self.refuses('model: line 1 is not read', model='var 1..2 x;\n')
        self.refuses('order: it is no order', order='order 1\n1\nend\n')
        self.refuses('last log: the model aims at no variable', last_log=example('makespan')['last_log'])
        texts = example('makespan')
        self.assertRaisesRegex(Refused, 'does not refute', page_of, **{**texts, 'last_log': texts['log']})

    def test_a_refused_call_writes_nothing(self):
        with tempfile.TemporaryDirectory() as room:
            page = os.path.join(room, 'page.html')
            story, measures = (os.path.join(HERE, 'texts', 'meeting.' + part) for part in ('story', 'measures'))
            words = [page, '--model', os.path.join(MODELS, 'meeting.fzn'), '--story', story,
                     '--log', os.path.join(MODELS, 'pigeons.ngd'), '--measures', measures]
            call = [sys.executable, os.path.join(HERE, '..', 'make.py'), *words]
            refused = subprocess.run(call, capture_output=True, text=True)
            self.assertEqual((refused.returncode, refused.stdout, os.listdir(room)), (4, '', []))
            self.assertTrue(refused.stderr.startswith('picture: log: line 2 does not fit the model'), refused.stderr)
            call[call.index('--log') + 1] = os.path.join(MODELS, 'meeting.ngd')
            self.assertEqual(subprocess.run(call).returncode, 0)
            self.assertEqual(text(page), page_of(**example('meeting')))


class Models(unittest.TestCase):
    def test_rules_are_numbered_as_the_program_does(self):
        model = ('var 1..3: x;\nvar 1..3: y = x;\narray [1..2] of var 2..3: a = [x,y];\n'
                 'constraint int_ne(x,y);\nsolve satisfy;\n')
        self.assertEqual(rules(model), ['y = x', 'x ∈ 2..3', 'y ∈ 2..3', 'x ≠ y'])

    def test_constraints_in_signs(self):
        head = 'var 0..9: a;\nvar 0..9: b;\nvar 0..9: c;\nvar bool: p;\nvar bool: q;\n'
        table = {
            'int_lin_le([1,-1],[a,b],-2)': 'a + 2 ≤ b', 'int_lin_le([1,-1],[a,b],2)': 'a ≤ b + 2',
            'int_lin_le([-1,-1],[a,b],-2)': 'a + b ≥ 2', 'int_lin_eq([2,3],[a,b],7)': '2·a + 3·b = 7',
            'int_lin_ne([1,-1],[a,b],0)': 'a ≠ b', 'int_lin_le([-1,-2],[a,b],3)': 'a + 2·b + 3 ≥ 0',
            'int_times(a,b,c)': 'c = (a·b)', 'int_max(a,b,c)': 'c = max(a, b)', 'int_abs(a,b)': 'b = |a|',
            'bool_clause([p],[q])': 'p ∨ ¬q', 'bool_clause([],[])': 'false', 'array_bool_or([p,q],true)': 'p ∨ q',
            'array_bool_and([p,q],p)': 'p ⇔ (p ∧ q)', 'int_eq_reif(a,1,p)': 'p ⇔ a = 1',
            'set_in(a,{1,3})': 'a ∈ {1, 3}',
            'array_int_element(a,[4,5],b)': 'b = [4, 5][a]', 'fzn_all_different_int([a,b,c])': 'all different: a, b, c',
            'fzn_table_int([a,b],[0,1,2,3])': '(a, b) ∈ {(0, 1), (2, 3)}', 'int_le(a,-3)': 'a ≤ −3',
            'bool_xor(p,q)': 'p ≠ q',
            'int_eq(a)': 'int_eq(a)', 'int_lin_le(a,b,c)': 'int_lin_le(a, b, c)',
            'int_lin_le([a],[b],1)': 'int_lin_le([a], [b], 1)', 'int_lin_le([1,1],[a,b],-3)': 'a + b ≤ −3',
            'int_lin_eq([1],[a],b)': 'a = b', 'no_such(a,[b,1])': 'no_such(a, [b, 1])',
        }
        for constraint, shown in table.items():
            self.assertEqual(rules(head + 'constraint %s;\nsolve satisfy;\n' % constraint), [shown])

    def test_introduced_variables_are_shown_by_their_constraints(self):
        model = ('var 0..9: a;\nvar 0..9: b;\nvar bool: X_INTRODUCED_1_ ::var_is_introduced :: is_defined_var;\n'
                 'var 0..1: X_INTRODUCED_2_ ::var_is_introduced;\nvar 0..9: X_INTRODUCED_3_;\nvar -9..9: X_INTRODUCED_4_;\n'
                 'var 0..9: X_INTRODUCED_5_;\n'
                 'array [1..2] of var int: xs:: output_array([0..0,1..2]) = [X_INTRODUCED_3_,a];\n'
                 'constraint int_le_reif(a,b,X_INTRODUCED_1_);\nconstraint bool2int(X_INTRODUCED_1_,X_INTRODUCED_2_);\n'
                 'constraint int_lin_eq([1,-1,-1],[a,b,X_INTRODUCED_4_],0):: defines_var(X_INTRODUCED_4_);\n'
                 'constraint int_abs(X_INTRODUCED_4_,X_INTRODUCED_5_);\nsolve minimize b;\n')
        self.assertEqual(labels(model), ['a', 'b', '⟦a ≤ b⟧', '[a ≤ b]', 'xs[0,1]', '(a − b)', '|(a − b)|'])
        self.assertEqual(read_model(model).aim, ('minimize', 1))

    def test_texts_that_are_no_models(self):
        for model in ('var 1..2: x', 'constraint int_eq(x,1);', 'solve minimize;', 'array [1..1] of var int: a = 3;',
                      'var ?: x;', 'var [[[[: x;', 'constraint int_eq([[1]]);', 'var 1..true: x;', 'solve', 'var',
                      'array [1..' + '[' * 9999, 'var 1..%s: x;' % ('9' * 9999)):
            self.assertRaises(ModelError, read_model, model)


if __name__ == '__main__':
    unittest.main()
