"""Reads a FlatZinc text for display: the variables with their domains, the arrays, the constraints and the aim.

Nothing is evaluated. The text is one that the program accepted, so little is checked; what is not read is refused with
its line. Variables and constraints are numbered as the program numbers them: the rules of right sides and of element
types first, in the order of the declarations, then the constraints."""
import re
from dataclasses import dataclass, field

TOKEN = re.compile(r'''
  (?P<gap>[ \t\n\r]+|%[^\n]*)
 |(?P<float>-?[0-9]+(?:\.[0-9]+(?:[eE][+-]?[0-9]+)?|[eE][+-]?[0-9]+))
 |(?P<whole>-?(?:0x[0-9a-fA-F]+|0o[0-7]+|[0-9]+))
 |(?P<name>[A-Za-z_][A-Za-z0-9_]*)
 |(?P<text>"(?:[^"\\\n]|\\[^\n])*")
 |(?P<mark>::|\.\.|[:;,=()\[\]{}])
''', re.VERBOSE)


LONGEST_NUMBER = 100     # characters; the program takes numbers of 64 bits, with leading zeros


class ModelError(Exception):
    """The text is not read; the message names the line."""


@dataclass(frozen=True)
class Reference:
    """A variable where it is used: its number, counted from 0."""
    number: int


@dataclass
class Variable:
    name: str
    is_bool: bool
    ranges: list      # the domain as rising pairs of a least and a greatest value
    introduced: bool

    def size(self):
        return sum(high - low + 1 for low, high in self.ranges)

    def has(self, value):
        return any(low <= value <= high for low, high in self.ranges)


@dataclass
class Rule:
    name: str
    arguments: list   # numbers, truth values, references, `range` for a set, tuples for a listed set, lists of these
    defines: int = None   # the variable that the constraint is marked to define


@dataclass
class Array:
    name: str
    elements: list
    ranges: list      # of each dimension


@dataclass
class Model:
    variables: list = field(default_factory=list)
    arrays: list = field(default_factory=list)
    rules: list = field(default_factory=list)
    aim: tuple = None     # 'minimize' or 'maximize', and the number of the variable, or None where it is no variable


def read_model(text):
    return Reader(text).read()


def ranges_of(values):
    """The rising ranges that hold exactly these values."""
    found = []
    for value in sorted(set(values)):
        if found and found[-1][1] == value - 1:
            found[-1][1] = value
        else:
            found.append([value, value])
    return found


def tokens_of(text):
    """The tokens as pairs of kind and text with the place of each, gaps left out."""
    place, found = 0, []
    while place < len(text):
        match = TOKEN.match(text, place)
        if match is None or match.lastgroup == 'whole' and len(match.group()) > LONGEST_NUMBER:
            raise ModelError('line %d' % (text.count('\n', 0, place) + 1))
        if match.lastgroup != 'gap':
            found.append((match.lastgroup, match.group(), place))
        place = match.end()
    return found


class Reader:
    def __init__(self, text):
        self.text = text
        self.tokens = tokens_of(text)
        self.place = 0
        self.names = {}       # what a name of the text stands for
        self.model = Model()

    def read(self):
        constraints = []
        while self.place < len(self.tokens):
            word = self.peek()
            if word == 'predicate':
                self.skip_to(';')
            elif word == 'constraint':
                constraints.append(self.constraint())
            elif word == 'solve':
                self.solve()
            else:
                self.declaration()
            self.take(';')
        self.model.rules += constraints
        return self.model

    # -- tokens

    def peek(self):
        return self.tokens[self.place][1] if self.place < len(self.tokens) else ''

    def next(self):
        if self.place == len(self.tokens):
            self.refuse()
        self.place += 1
        return self.tokens[self.place - 1][1]

    def take(self, wanted):
        if self.next() != wanted:
            self.place -= 1
            self.refuse()

    def took(self, wanted):
        if self.peek() != wanted:
            return False
        self.place += 1
        return True

    def skip_to(self, *ends):
        """Skips to the first of these marks outside brackets, and gives the tokens skipped."""
        depth, begun = 0, self.place
        while self.place < len(self.tokens) and (depth or self.peek() not in ends):
            depth += (self.peek() in ('(', '[', '{')) - (self.peek() in (')', ']', '}'))
            self.place += 1
        return [token[1] for token in self.tokens[begun:self.place]]

    def refuse(self):
        at = self.tokens[min(self.place, len(self.tokens) - 1)][2] if self.tokens else 0
        raise ModelError('line %d' % (self.text.count('\n', 0, at) + 1))

    # -- expressions

    def whole(self):
        word = self.next()
        if self.tokens[self.place - 1][0] != 'whole':
            self.place -= 1
            self.refuse()
        return number_of(word)

    def listed(self, end, read):
        """What stands between commas up to this mark."""
        found = []
        while not self.took(end):
            found.append(read())
            if self.peek() != end:
                self.take(',')
        return found

    def expression(self):
        return self.listed(']', self.atom) if self.took('[') else self.atom()

    def atom(self):
        kind = self.tokens[self.place][0] if self.place < len(self.tokens) else None
        if self.took('{'):
            return tuple(self.listed('}', self.whole))
        if kind == 'whole':
            low = self.whole()
            return range(low, self.whole() + 1) if self.took('..') else low
        word = self.next()
        if word in ('true', 'false'):
            return word == 'true'
        if kind != 'name':
            return word
        if word not in self.names:
            self.place -= 1
            self.refuse()
        return self.names[word]

    # -- items

    def declaration(self):
        is_array = self.took('array')
        if is_array:
            self.skip_to('of')
            self.take('of')
        is_variable = self.took('var')
        base = self.skip_to(':')
        self.take(':')
        name = self.next()
        marks = self.skip_to('=', ';')
        right = self.expression() if self.took('=') else None
        if is_variable and is_array:
            self.variable_array(name, base, marks, right)
        elif is_variable:
            self.variable(name, base, marks, right)
        else:
            self.names[name] = right

    def variable(self, name, base, marks, right):
        variables = self.model.variables
        this = Reference(len(variables))
        is_bool = base == ['bool']
        introduced = 'var_is_introduced' in marks or name.startswith('X_INTRODUCED_')
        domain = range(2) if is_bool else self.set_of(base)
        ranges = [[domain[0], domain[-1]]] if isinstance(domain, range) and domain else ranges_of(domain)
        variables.append(Variable(name, is_bool, ranges, introduced))
        self.names[name] = this
        if right is not None:
            self.model.rules.append(Rule('bool_eq' if is_bool else 'int_eq', [this, right]))

    def variable_array(self, name, base, marks, elements):
        self.names[name] = elements
        if not isinstance(elements, list):
            self.refuse()
        self.model.arrays.append(Array(name, elements, output_ranges(marks) or [[1, len(elements)]]))
        if base not in (['int'], ['bool']):
            members = self.set_of(base)
            self.model.rules += [Rule('set_in', [element, members]) for element in elements]

    def set_of(self, base):
        """The set that these tokens of a type write."""
        try:
            if len(base) == 3 and base[1] == '..':
                return range(number_of(base[0]), number_of(base[2]) + 1)
            if base and base[0] == '{':
                return tuple(number_of(word) for word in base[1:-1] if word != ',')
        except ValueError:
            pass
        self.refuse()

    def constraint(self):
        self.take('constraint')
        name = self.next()
        self.take('(')
        arguments = self.listed(')', self.expression)
        marks = self.skip_to(';')
        defines = None
        if 'defines_var' in marks[:-2]:
            meant = self.names.get(marks[marks.index('defines_var') + 2])
            defines = meant.number if isinstance(meant, Reference) else None
        return Rule(name, arguments, defines)

    def solve(self):
        self.take('solve')
        self.skip_to('satisfy', 'minimize', 'maximize', ';')
        sense = self.next()
        if sense != 'satisfy':
            term = self.expression()
            self.model.aim = (sense, term.number if isinstance(term, Reference) else None)


def output_ranges(marks):
    """The ranges of `output_array([A..B,..])` among the tokens of a declaration's annotations, or None."""
    if 'output_array' not in marks or ']' not in marks:
        return None
    begun = marks.index('output_array') + 3
    words = marks[begun:marks.index(']')]
    try:
        return [[number_of(words[at]), number_of(words[at + 2])] for at in range(0, len(words) - 2, 4)]
    except ValueError:
        return None


def number_of(word):
    """The integer that a token writes, in decimal, hexadecimal or octal digits."""
    return int(word, 0) if 'x' in word or 'o' in word else int(word)
