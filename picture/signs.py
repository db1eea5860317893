"""Labels of variables and texts of constraints in mathematical signs, from a model as `flatzinc` reads it.

A variable that the model's author named has that name. One that a translator introduced is shown by the place that it
has in an array of the model, or by the constraint that defines it."""
from flatzinc import Reference

LONGEST_LABEL = 64
LONGEST_RULE = 400
MOST_TERMS = 24
MINUS = '−'

COMPARED = {'int_eq': '=', 'int_ne': '≠', 'int_le': '≤', 'int_lt': '<',
            'bool_eq': '=', 'bool_le': '≤', 'bool_lt': '<', 'bool_not': '≠'}
SUMMED = {'int_lin_eq': '=', 'int_lin_ne': '≠', 'int_lin_le': '≤', 'bool_lin_eq': '=', 'bool_lin_le': '≤'}
JOINED = {'int_plus': ' + ', 'int_times': '·', 'int_div': ' div ', 'int_mod': ' mod ',
          'bool_and': ' ∧ ', 'bool_or': ' ∨ ', 'bool_xor': ' ⊕ '}
CALLED = {'int_min': 'min', 'int_max': 'max'}
GATHERED = {'array_bool_and': ' ∧ ', 'array_bool_or': ' ∨ '}
# the arguments of constraints: `s` no list, `l` a list, `n` a list of numbers
SHAPES = {
    'int_lin_eq': 'nls', 'int_lin_ne': 'nls', 'int_lin_le': 'nls', 'bool_lin_eq': 'nls', 'bool_lin_le': 'nls',
    'int_abs': 'ss', 'bool2int': 'ss', 'set_in': 'ss', 'bool_clause': 'll', 'array_bool_xor': 'l',
    'array_bool_and': 'ls', 'array_bool_or': 'ls', 'fzn_all_different_int': 'l',
    'fzn_table_int': 'ln', 'fzn_table_bool': 'ln',
}
LOOKED_UP = ('array_int_element', 'array_var_int_element', 'array_bool_element', 'array_var_bool_element')


def is_shaped(name, arguments):
    """Whether the arguments are as the constraint's signs want them."""
    if name.endswith('_reif'):
        rest = arguments[:-1]
        return bool(rest) and not isinstance(arguments[-1], list) and is_shaped(name[:-len('_reif')], rest)
    if name == 'bool_xor' and len(arguments) == 2:
        return is_shaped('bool_not', arguments)
    shape = SHAPES.get(name) or ('ss' if name in COMPARED else 'sls' if name in LOOKED_UP else 'sss')
    return len(shape) == len(arguments) and all(map(is_formed, shape, arguments))


def is_formed(letter, argument):
    if letter == 's' or not isinstance(argument, list):
        return letter == 's' and not isinstance(argument, list)
    return letter == 'l' or all(isinstance(entry, int) for entry in argument)


def shorten(text, most):
    """The text, with its middle left out where it has more characters than this."""
    if len(text) <= most:
        return text
    tail = most // 4
    return text[:most - tail - 1] + '…' + text[-tail:]


class Signs:
    def __init__(self, model):
        self.model = model
        self.labels = [None if variable.introduced else shorten(variable.name, LONGEST_LABEL)
                       for variable in model.variables]
        self.naming = set()    # the constraints after which a variable is labelled, by identity
        self.label_elements()
        self.label_defined()
        for number, variable in enumerate(model.variables):
            if self.labels[number] is None:
                self.labels[number] = shorten(variable.name, LONGEST_LABEL)
        self.part_labels()

    def label_elements(self):
        """An element of an array that the author named has its place as its label."""
        for array in self.model.arrays:
            if array.name.startswith('X_INTRODUCED_'):
                continue
            for place, element in enumerate(array.elements):
                if isinstance(element, Reference) and self.labels[element.number] is None:
                    indices = ','.join(map(str, indices_of(place, array.ranges)))
                    self.labels[element.number] = shorten(array.name, LONGEST_LABEL) + '[' + indices + ']'

    def label_defined(self):
        """Labels by defining constraints; each pass labels what stands on those labelled before."""
        waiting = [rule for rule in self.model.rules
                   if is_shaped(rule.name, rule.arguments) and self.defined_by(rule) is not None]
        for _ in range(8):
            rest = []
            for rule in waiting:
                number = self.defined_by(rule)
                if number is None:
                    continue
                if all(self.labels[k] is not None for k in variables_of(rule.arguments) if k != number):
                    self.labels[number] = shorten(self.meaning(rule), LONGEST_LABEL)
                    if not (rule.name.endswith('_reif') or rule.name == 'bool2int'):
                        self.naming.add(id(rule))
                else:
                    rest.append(rule)
            if len(rest) == len(waiting):
                break
            waiting = rest

    def defined_by(self, rule):
        """The variable without a label that this constraint defines, or None."""
        last = rule.arguments[-1] if rule.arguments else None
        number = last.number if isinstance(last, Reference) else None
        if rule.name in SUMMED:
            number = None if self.solved_place(rule) is None else rule.defines
        elif not (rule.name.endswith('_reif') or rule.name in DEFINING):
            return None
        return number if number is not None and self.labels[number] is None else None

    def meaning(self, rule):
        """What the variable that the constraint defines is equal to."""
        if rule.name.endswith('_reif'):
            return '⟦' + self.body(rule.name[:-len('_reif')], rule.arguments[:-1]) + '⟧'
        if rule.name == 'bool2int':
            truth = self.term(rule.arguments[0])
            return '[' + (truth[1:-1] if truth.startswith('⟦') else truth) + ']'
        if rule.name in SUMMED:
            return self.solved(rule)
        if rule.name == 'bool_not':
            return '¬' + self.term(rule.arguments[0])
        return self.left_side(rule.name, rule.arguments)

    def solved_place(self, rule):
        """Where in a sum the variable stands that the sum defines, if it can be solved for it."""
        factors, terms, total = rule.arguments
        places = [place for place, term in enumerate(terms) if term == Reference(rule.defines)]
        fits = len(factors) == len(terms) and isinstance(total, int)
        solvable = rule.name.endswith('_eq') and fits and len(places) == 1
        return places[0] if solvable and factors[places[0]] in (1, -1) else None

    def solved(self, rule):
        """What the variable that a sum defines is equal to."""
        factors, terms, total = rule.arguments
        solved = self.solved_place(rule)
        sign = factors[solved]
        rest = [(-sign * factor, term) for place, (factor, term) in enumerate(zip(factors, terms)) if place != solved]
        if total:
            rest.append((sign * total, 1))
        return '(' + self.sum_of(rest) + ')'

    def part_labels(self):
        """No two variables have one label: where they would, the number is put behind."""
        seen = {}
        for number, label in enumerate(self.labels):
            seen.setdefault(label, []).append(number)
        for label, numbers in seen.items():
            for number in numbers if len(numbers) > 1 else []:
                self.labels[number] = '%s·v%d' % (label, number + 1)

    # -- texts

    def rule(self, rule):
        if id(rule) in self.naming:
            number = rule.defines if rule.name in SUMMED else rule.arguments[-1].number
            return 'defines ' + self.labels[number]
        return shorten(self.body(rule.name, rule.arguments), LONGEST_RULE)

    def term(self, term):
        if isinstance(term, Reference):
            label = self.labels[term.number]
            return shorten(self.model.variables[term.number].name, LONGEST_LABEL) if label is None else label
        if isinstance(term, bool):
            return 'true' if term else 'false'
        if isinstance(term, range):
            return '%s..%s' % (number_text(term.start), number_text(term.stop - 1))
        if isinstance(term, tuple):
            return '{' + self.terms(term) + '}'
        if isinstance(term, list):
            return '[' + self.terms(term) + ']'
        return number_text(term)

    def terms(self, terms, between=', ', prefix=''):
        shown = [prefix + self.term(term) for term in terms[:MOST_TERMS]]
        if len(terms) > MOST_TERMS:
            shown.append('… (%d in all)' % len(terms))
        return between.join(shown)

    def body(self, name, arguments):
        """The text of a constraint; one that is not known here is shown as it is written."""
        if not is_shaped(name, arguments):
            return '%s(%s)' % (name, self.terms(arguments))
        if name.endswith('_reif'):
            return '%s ⇔ %s' % (self.term(arguments[-1]), self.body(name[:-len('_reif')], arguments[:-1]))
        if name in COMPARED:
            return '%s %s %s' % (self.term(arguments[0]), COMPARED[name], self.term(arguments[1]))
        if name in SUMMED:
            return self.compared_sums(SUMMED[name], *arguments[:3])
        if name == 'bool_clause':
            return self.clause(*arguments)
        if name in ('fzn_table_int', 'fzn_table_bool'):
            return self.table(*arguments)
        if name == 'set_in':
            return '%s ∈ %s' % (self.term(arguments[0]), self.term(arguments[1]))
        if name == 'fzn_all_different_int':
            return 'all different: ' + self.terms(arguments[0])
        if name == 'array_bool_xor':
            return self.terms(arguments[0], ' ⊕ ')
        if name in GATHERED and arguments[1] is True:
            return self.terms(arguments[0], GATHERED[name])
        if name == 'bool_xor' and len(arguments) == 2:
            return '%s ≠ %s' % (self.term(arguments[0]), self.term(arguments[1]))
        if name in DEFINING:
            middle = ' ⇔ ' if 'bool' in name and name != 'bool2int' else ' = '
            return self.term(arguments[-1]) + middle + self.left_side(name, arguments)
        return '%s(%s)' % (name, self.terms(arguments))

    def left_side(self, name, arguments):
        """What the last argument of such a constraint is equal to."""
        if name in JOINED:
            return '(%s%s%s)' % (self.term(arguments[0]), JOINED[name], self.term(arguments[1]))
        if name in CALLED:
            return '%s(%s)' % (CALLED[name], self.terms(arguments[:2]))
        if name in GATHERED:
            return '(%s)' % self.terms(arguments[0], GATHERED[name]) if len(arguments[0]) > 1 \
                else self.terms(arguments[0])
        if name in LOOKED_UP:
            return '%s[%s]' % (self.term(arguments[1]), self.term(arguments[0]))
        if name == 'int_abs':
            return '|%s|' % self.term(arguments[0])
        return self.term(arguments[0])

    def clause(self, positive, negative):
        parts = [text for text in (self.terms(positive, ' ∨ '), self.terms(negative, ' ∨ ', '¬')) if text]
        return ' ∨ '.join(parts) or 'false'

    def table(self, columns, entries):
        width = max(1, len(columns))
        rows = [entries[at:at + width] for at in range(0, len(entries), width)]
        shown = ['(%s)' % self.terms(row) for row in rows[:8]]
        if len(rows) > len(shown):
            shown.append('… (%d rows)' % len(rows))
        return '(%s) ∈ {%s}' % (self.terms(columns), ', '.join(shown))

    def compared_sums(self, sign, factors, terms, total):
        """Terms that are taken away stand on the other side, so that all signs are plus."""
        left = [(factor, term) for factor, term in zip(factors, terms) if factor > 0]
        right = [(-factor, term) for factor, term in zip(factors, terms) if factor < 0]
        if not isinstance(total, int):
            right.append((1, total))
        elif total > 0 or not right:
            right.append((total, 1))
        elif total < 0:
            left.append((-total, 1))
        if left and not any(isinstance(term, Reference) for _, term in left):
            left, right, sign = right, left, '≥' if sign == '≤' else sign
        if not left:
            left, right, sign = right, [(0, 1)], '≥' if sign == '≤' else sign
        return '%s %s %s' % (self.sum_of(left), sign, self.sum_of(right))

    def sum_of(self, parts):
        text = ''
        for factor, term in parts[:MOST_TERMS]:
            text += (' + ' if factor >= 0 else ' %s ' % MINUS) if text else ('' if factor >= 0 else MINUS)
            if term == 1 and not isinstance(term, Reference):
                text += number_text(abs(factor))
            else:
                text += ('' if abs(factor) == 1 else number_text(abs(factor)) + '·') + self.term(term)
        return text + (' + … (%d terms)' % len(parts) if len(parts) > MOST_TERMS else '')


DEFINING = set(JOINED) | set(CALLED) | set(GATHERED) | set(LOOKED_UP) | {'int_abs', 'bool2int', 'bool_not'}


def number_text(number):
    return str(number).replace('-', MINUS)


def indices_of(place, ranges):
    """The index in each dimension of the element at this place, the last dimension running fastest."""
    found = []
    for low, high in reversed(ranges):
        size = max(1, high - low + 1)
        found.insert(0, low + place % size)
        place //= size
    return found


def variables_of(arguments):
    """The numbers of all variables among these arguments."""
    for argument in arguments:
        if isinstance(argument, Reference):
            yield argument.number
        elif isinstance(argument, list):
            yield from variables_of(argument)
