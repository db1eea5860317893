"""Reads the texts of a run (story, log, measures, order) as far as is needed to tell whether they are of one run.

No constraint and no rule of the agents is evaluated: a story must only fit together (each delivery takes the first
message of its list, each step is made once and in order), and all texts must tell of the same deliveries, steps and
verdict."""
import re
from collections import Counter, deque
from dataclasses import dataclass, field

NUMBER = '(?:0|[1-9][0-9]{0,18})'
VALUE = '(?:0|-?[1-9][0-9]{0,18})'
CARGO = r'(?:ok %s|nogood %s|link)' % (VALUE, NUMBER)
DELIVERY = re.compile(r'(N) v(N)>v(N) (C)'.replace('N', NUMBER).replace('C', CARGO))
DEED = re.compile(r'(N) (?:v(N)|-) (?:(knows) v(N)=(V)|(forgets|keeps|refuses|makes) n(N)'
                  r'|(out)((?: V:[cn]N)*)|(takes) (V)|(sends) v(N) (C))'
                  .replace('N', NUMBER).replace('V', VALUE).replace('C', CARGO))
STEP = re.compile(r'(N) (?:v(N)|-) \[((?:vN=V(?:,vN=V)*)?)\] <-((?: [cn]N)*)'.replace('N', NUMBER).replace('V', VALUE))
PAIR = re.compile(r'v(N)=(V)'.replace('N', NUMBER).replace('V', VALUE))
VERDICTS = ('solved', 'refuted', 'open')


class TextError(Exception):
    """A text is not read, or is of another run; the message says which and where."""


@dataclass
class Run:
    """What the texts of one run have in common."""
    deliveries: int = 0
    kinds: Counter = field(default_factory=Counter)
    steps: int = 0
    verdict: str = None
    makers: list = field(default_factory=list)   # the agent of each step, None for a rule without variables


def lines_of(name, text, head):
    """The lines of a text, of which the first must be one of these; each ends with a line feed."""
    lines = text.split('\n')
    if lines[0] not in head:
        raise TextError('%s: line 1 is not %s' % (name, ' or '.join(head)))
    if lines.pop() != '':
        raise TextError('%s: the last line is not whole' % name)
    return lines


# -- the story

class StoryReader:
    def __init__(self, model):
        self.model = model
        self.run = Run()
        self.lists = {}      # of messages, by sender and receiver
        self.receiver = None

    def read(self, text):
        lines = lines_of('story', text, ['story 1'])
        if len(lines) < 2 or not lines[-1].startswith('end ') or lines[-1][4:] not in VERDICTS:
            raise TextError('story: it has no last line')
        for number, line in enumerate(lines[1:-1], 2):
            match = DELIVERY.fullmatch(line)
            fits = self.delivery(match) if match else self.deed(DEED.fullmatch(line))
            if not fits:
                raise TextError('story: line %d does not fit' % number)
        self.run.verdict = lines[-1][4:]
        return self.run

    def is_agent(self, number):
        return 1 <= int(number) <= len(self.model.variables)

    def is_value(self, agent, value):
        return self.is_agent(agent) and self.model.variables[int(agent) - 1].has(int(value))

    def delivery(self, match):
        number, sender, receiver, cargo = match.groups()
        waiting = self.lists.get((sender, receiver))
        if int(number) != self.run.deliveries + 1 or not waiting or waiting.popleft() != cargo:
            return False
        self.run.deliveries += 1
        self.run.kinds[cargo.split(' ')[0]] += 1
        self.receiver = receiver
        return True

    def deed(self, match):
        """A line that tells what an agent did in the event."""
        if match is None or int(match[1]) != self.run.deliveries:
            return False
        agent = match[2]
        if self.run.deliveries and agent != self.receiver:
            return False
        if agent is None:
            return match[6] == 'makes' and self.step(agent, match[7])
        if not self.is_agent(agent):
            return False
        if match[3]:
            return self.is_value(match[4], match[5])
        if match[6]:
            return self.step(agent, match[7]) if match[6] == 'makes' else 1 <= int(match[7]) <= self.run.steps
        if match[8]:
            return self.reasons_fit(agent, match[9])
        if match[10]:
            return self.is_value(agent, match[11])
        return self.sending(agent, match[13], match[14])

    def step(self, agent, number):
        self.run.steps += 1
        self.run.makers.append(None if agent is None else int(agent) - 1)
        return int(number) == self.run.steps

    def reasons_fit(self, agent, text):
        for word in text.split():
            value, reason = word.split(':')
            if not self.is_value(agent, value):
                return False
            most = len(self.model.rules) if reason[0] == 'c' else self.run.steps
            if not 1 <= int(reason[1:]) <= most:
                return False
        return True

    def sending(self, sender, receiver, cargo):
        if not self.is_agent(receiver) or receiver == sender:
            return False
        if cargo.startswith('ok ') and not self.is_value(sender, cargo[3:]):
            return False
        if cargo.startswith('nogood ') and not 1 <= int(cargo[7:]) <= self.run.steps:
            return False
        self.lists.setdefault((sender, receiver), deque()).append(cargo)
        return True


# -- the log

@dataclass
class Log:
    makers: list
    refutes: bool
    narrowed: int    # how many values the aim's variable has in the log, None where no step is at it


def read_log(name, text, model, aimed=None):
    """The log of a run. The domain of the variable `aimed` may be narrowed, that of the others is the model's."""
    lines = lines_of(name, text, ['ngd 1', 'ngd 2'])
    if len(lines) < 2 or lines[-1] != 'end':
        raise TextError('%s: it has no last line' % name)
    log = Log([], False, None)
    for number, line in enumerate(lines[1:-1], 2):
        if line.startswith('d ') and lines[0] == 'ngd 2':
            continue
        match = STEP.fullmatch(line)
        if not match or int(match[1]) != len(log.makers) + 1 or not step_fits(match, model, log, aimed):
            raise TextError('%s: line %d does not fit the model' % (name, number))
        log.makers.append(int(match[2]) - 1 if match[2] else None)
        log.refutes = not match[3]
    return log


def step_fits(match, model, log, aimed):
    pairs, reasons = PAIR.findall(match[3]), match[4].split()
    count = len(model.variables)
    for variable, value in pairs:
        if not 1 <= int(variable) <= count or not model.variables[int(variable) - 1].has(int(value)):
            return False
    for reason in reasons:
        most = len(model.rules) if reason[0] == 'c' else len(log.makers)
        if not 1 <= int(reason[1:]) <= most:
            return False
    if match[2] is None:
        return len(reasons) == 1
    if not 1 <= int(match[2]) <= count:
        return False
    size = model.variables[int(match[2]) - 1].size()
    if int(match[2]) - 1 == aimed:
        known = log.narrowed
        log.narrowed = len(reasons)
        return len(reasons) <= size and known in (None, len(reasons))
    return len(reasons) == size


# -- the measures

HEADS = ('end (solved|refuted|open)', 'deliveries (N) ok (N) nogood (N) link (N)', 'steps (N)')
FIGURE = r'[a-z-]+ [0-9]+(?: [a-z]+ [0-9]+)*'
OF_AGENT = r'v(N) sent N N N got N N N checks [0-9]+ [0-9]+ recorded N values N'
LEARNED = r'v(N) learned v(N) N of N'
MEASURED = [re.compile(pattern.replace('N', NUMBER)) for pattern in (FIGURE, OF_AGENT, LEARNED)]


def read_measures(text, model):
    """The numbers that the measures have in common with the other texts; the other lines must have their form."""
    lines = lines_of('measures', text, ['measures 1'])
    if lines[-1] != 'end':
        raise TextError('measures: it has no last line')
    heads = [re.fullmatch(pattern.replace('N', NUMBER), line) for pattern, line in zip(HEADS, lines[1:])]
    for number, line in enumerate(lines[1:-1], 2):
        fits = heads[number - 2] if number < len(heads) + 2 else is_measure(line, model)
        if not fits:
            raise TextError('measures: line %d does not fit' % number)
    if len(lines) < len(HEADS) + 2:
        raise TextError('measures: line %d does not fit' % len(lines))
    end, deliveries, steps = heads
    kinds = Counter(ok=int(deliveries[2]), nogood=int(deliveries[3]), link=int(deliveries[4]))
    return Run(int(deliveries[1]), kinds, int(steps[1]), end[1])


def is_measure(line, model):
    for pattern in MEASURED:
        match = pattern.fullmatch(line)
        if match:
            return all(1 <= int(agent) <= len(model.variables) for agent in match.groups())
    return False


# -- the order

def read_order(text, model):
    """The variables from the highest priority to the lowest, counted from 0."""
    lines = lines_of('order', text, ['order 1'])
    numbers = lines[1:-1]
    if lines[-1] != 'end' or sorted(numbers) != sorted(str(k + 1) for k in range(len(model.variables))):
        raise TextError('order: it is no order of the variables of the model')
    return [int(number) - 1 for number in numbers]


# -- agreement

def agree(story, log, measures):
    """Refuses texts of different runs."""
    if story.makers != log.makers:
        raise TextError('story and log are of different runs: the story makes %d steps, the log has %d%s' % (
            story.steps, len(log.makers), '' if story.steps != len(log.makers) else ' of other agents'))
    if (story.verdict == 'refuted') != log.refutes:
        raise TextError('story and log are of different runs: the story ends %s, the log %s' % (
            story.verdict, 'refutes' if log.refutes else 'does not refute'))
    for what in ('verdict', 'deliveries', 'steps'):
        told, measured = getattr(story, what), getattr(measures, what)
        if told != measured:
            raise TextError('story and measures are of different runs: %s %s and %s' % (what, told, measured))
    for kind in ('ok', 'nogood', 'link'):
        if story.kinds[kind] != measures.kinds[kind]:
            raise TextError('story and measures are of different runs: %s %d and %d delivered' % (
                kind, story.kinds[kind], measures.kinds[kind]))
