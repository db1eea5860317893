#!/usr/bin/env python3
"""make.py PAGE --model M --story S --log L --measures T [--title TEXT] [--order FILE] [--last-log FILE [--better N]]

Makes one HTML file that plays a run of the agents, from the texts that the program writes. The file stands alone: it
asks for nothing from the network. Texts of different runs are refused, and then nothing is written."""
import argparse
import base64
import hashlib
import html
import json
import os
import re
import sys
from dataclasses import dataclass

from flatzinc import ModelError, read_model
from signs import Signs
from texts import StoryReader, TextError, agree, read_log, read_measures, read_order

HERE = os.path.dirname(os.path.abspath(__file__))
SCRIPTS = ('elements', 'texts', 'run', 'names', 'words', 'graph', 'chart_rows', 'chart', 'legend', 'agents', 'derivation',
           'figures', 'strip', 'player', 'saving', 'main')


class Refused(Exception):
    def __init__(self, status, message):
        super().__init__(message)
        self.status = status


@dataclass
class Texts:
    """The texts of a run; the last two where there are such."""
    model: str
    story: str
    log: str
    measures: str
    order: str = None
    last_log: str = None


def make_page(texts, title, better=None):
    """The page of a run, as text. `better` is the best value of a search. Raises `Refused`."""
    try:
        model = read_model(texts.model)
    except ModelError as error:
        raise Refused(3, 'model: %s is not read' % error) from None
    try:
        agree(StoryReader(model).read(texts.story), read_log('log', texts.log, model), read_measures(texts.measures, model))
        order = list(range(len(model.variables))) if texts.order is None else read_order(texts.order, model)
        best = None if texts.last_log is None else best_value(model, texts, better)
    except TextError as error:
        raise Refused(4, str(error)) from None
    run = {'title': title, 'order': order, 'best': None if best is None else str(best), **model_data(model)}
    shown = {'model': texts.model, 'story': texts.story, 'log': texts.log, 'measures': texts.measures,
             'last-log': texts.last_log}
    return fill(title, run, {name: text for name, text in shown.items() if text is not None})


def best_value(model, texts, better):
    """The value at the aim than which the log of the last round refutes every better one, or None where neither the
    log nor the caller tells it."""
    sense, aimed = model.aim or (None, None)
    if aimed is None:
        raise TextError('last log: the model aims at no variable')
    if not texts.story.endswith('\nend solved\n'):
        raise TextError('last log: the run was not solved, so it had no other round')
    log = read_log('last log', texts.last_log, model, aimed)
    if not log.refutes:
        raise TextError('last log: it does not refute')
    values = [value for low, high in model.variables[aimed].ranges for value in range(low, high + 1)]
    if better is not None and better not in values:
        raise TextError('last log: %d is no value of the aim' % better)
    if log.narrowed is None:
        return better
    if log.narrowed == len(values):
        raise TextError('last log: it is of the whole problem')
    found = values[log.narrowed] if sense == 'minimize' else values[-log.narrowed - 1]
    if better not in (None, found):
        raise TextError('last log: it is of better values than %d' % found)
    return found


def model_data(model):
    """What the page shows of the model: names, labels, domains, texts of constraints."""
    signs = Signs(model)
    variables = [{'name': variable.name, 'label': signs.labels[number], 'bool': variable.is_bool,
                  'ranges': [[str(low), str(high)] for low, high in variable.ranges]}
                 for number, variable in enumerate(model.variables)]
    aim = model.aim and {'sense': model.aim[0], 'variable': model.aim[1]}
    return {'variables': variables, 'rules': [signs.rule(rule) for rule in model.rules], 'aim': aim}


def fill(title, run, texts):
    """The template with its marks replaced in one pass, so that no text is searched for marks."""
    script = "(() => {\n'use strict';\n%s})();\n" % '\n'.join(part('script/%s.js' % name) for name in SCRIPTS)
    parts = {'TITLE': html.escape(title), 'STYLE': part('page.css'), 'SCRIPT': script, 'SCRIPT-HASH': hash_of(script),
             'RUN': data_block('run', run),
             'TEXTS': '\n'.join(data_block('text-' + name, text) for name, text in texts.items())}
    return re.sub(r'\{\{([A-Z-]+)\}\}', lambda mark: parts[mark[1]], part('page.html'))


def data_block(name, data):
    """Data that no browser runs. No `<` stands in it, so nothing in it ends the element."""
    written = json.dumps(data, ensure_ascii=False, separators=(',', ':'))
    for sign in '<>&\u2028\u2029':
        written = written.replace(sign, '\\u%04x' % ord(sign))
    return '<script type="application/json" id="%s">%s</script>' % (name, written)


def hash_of(script):
    return 'sha256-' + base64.b64encode(hashlib.sha256(script.encode()).digest()).decode()


def part(name):
    with open(os.path.join(HERE, 'page', name), encoding='utf-8') as file:
        return file.read()


def read_text(name):
    """The text of a file. Comments of a model may have any bytes; those that are no UTF-8 are shown as such."""
    with open(name, 'rb') as file:
        return file.read().decode('utf-8', 'replace')


def words_of(arguments):
    parser = argparse.ArgumentParser(prog='make.py', description='makes a page that plays a run')
    parser.add_argument('page')
    for name in ('model', 'story', 'log', 'measures'):
        parser.add_argument('--' + name, required=True, metavar='FILE')
    parser.add_argument('--title', help='the name of the model where none is given')
    parser.add_argument('--order', metavar='FILE', help='the order of the variables that the run had')
    parser.add_argument('--last-log', metavar='FILE', help='the log of the last round of a search')
    parser.add_argument('--better', type=int, metavar='N', help='the best value that the search found')
    return parser.parse_args(arguments)


def main(arguments):
    words = words_of(arguments)
    title = words.title or os.path.splitext(os.path.basename(words.model))[0]
    title = title.encode('utf-8', 'surrogateescape').decode('utf-8', 'replace')
    files = (words.model, words.story, words.log, words.measures, words.order, words.last_log)
    try:
        page = make_page(Texts(*(name and read_text(name) for name in files)), title, words.better)
        with open(words.page, 'w', encoding='utf-8') as file:
            file.write(page)
    except Refused as refused:
        print('picture: %s' % refused, file=sys.stderr)
        return refused.status
    except OSError as error:
        print('picture: %s' % error, file=sys.stderr)
        return 6
    return 0


if __name__ == '__main__':
    sys.exit(main(sys.argv[1:]))
