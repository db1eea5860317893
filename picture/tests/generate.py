#!/usr/bin/env python3
"""generate.py FOLDER DELIVERIES [AGENTS]: texts that fit together like those of a long run, for tests of the page.

No rule of the agents is kept: who takes what and who derives what is drawn from a seed. So these are the texts of no
run, and only their form, their size and their counts are like those of one."""
import os
import random
import sys
from collections import Counter

DOMAIN = 8
NEIGHBOURS = 6


class Generator:
    def __init__(self, agents, deliveries):
        self.random = random.Random(1)
        self.agents, self.deliveries = agents, deliveries
        self.lower = [sorted(set(self.random.choices(range(i + 1, agents), k=NEIGHBOURS))) if i + 1 < agents else []
                      for i in range(agents)]
        self.rules = [(i, j) for i in range(agents) for j in self.lower[i]]
        self.upper = [[i for i in range(agents) if j in self.lower[i]] for j in range(agents)]
        self.story, self.log = ['story 1'], ['ngd 1']
        self.lists, self.kinds = {}, Counter()
        self.steps, self.values = 0, [1] * agents
        self.kept = [[] for _ in range(agents)]

    def run(self):
        for agent in range(self.agents):
            self.take(0, agent, 1)
        for number in range(1, self.deliveries + 1):
            sender, receiver = self.random.choice(self.ready())
            cargo = self.lists[sender, receiver].pop(0)
            self.story.append('%d v%d>v%d %s' % (number, sender + 1, receiver + 1, cargo))
            self.kinds[cargo.split()[0]] += 1
            self.answer(number, sender, receiver, cargo)
        self.story.append('end open')
        self.log.append('end')

    def ready(self):
        """Lists with messages; where there are few, some agent is told of by a message that was left over."""
        if len(self.lists) > 400 or self.random.random() < .02:
            for key in [key for key, waiting in self.lists.items() if not waiting]:
                del self.lists[key]
        return [key for key, waiting in self.random.sample(list(self.lists.items()), min(20, len(self.lists))) if waiting] \
            or [key for key, waiting in self.lists.items() if waiting]

    def tell(self, number, agent, words):
        self.story.append('%d v%d %s' % (number, agent + 1, words))

    def send(self, number, agent, to, cargo):
        self.tell(number, agent, 'sends v%d %s' % (to + 1, cargo))
        self.lists.setdefault((agent, to), []).append(cargo)

    def take(self, number, agent, value):
        self.values[agent] = value
        self.tell(number, agent, 'takes %d' % value)
        for other in self.lower[agent]:
            self.send(number, agent, other, 'ok %d' % value)

    def answer(self, number, sender, agent, cargo):
        kind = cargo.split()[0]
        if kind == 'link':
            return self.send(number, agent, sender, 'ok %d' % self.values[agent])
        if kind == 'ok':
            self.tell(number, agent, 'knows v%d=%s' % (sender + 1, cargo[3:]))
            if self.kept[agent]:
                self.tell(number, agent, 'forgets n%d' % self.kept[agent].pop())
        elif len(self.kept[agent]) < DOMAIN and self.random.random() < .7:
            self.tell(number, agent, 'keeps n' + cargo[7:])
            self.kept[agent].append(int(cargo[7:]))
        else:
            self.tell(number, agent, 'refuses n' + cargo[7:])
        out = sorted(self.random.sample(range(1, DOMAIN + 1), 3))
        self.tell(number, agent, 'out ' + ' '.join('%d:c%d' % (v, self.random.randrange(len(self.rules)) + 1) for v in out))
        waiting = sum(map(len, self.lists.values()))
        if self.upper[agent] and self.random.random() < .25:
            self.derive(number, agent)
        elif waiting < 200 or self.random.random() < .1:
            self.take(number, agent, self.random.randint(1, DOMAIN))
        if waiting < 200 and self.upper[agent]:
            self.send(number, agent, self.random.choice(self.upper[agent]), 'link')

    def derive(self, number, agent):
        self.steps += 1
        pairs = ','.join('v%d=%d' % (k + 1, self.values[k]) for k in self.upper[agent])
        reasons = ' '.join(self.reason() for _ in range(DOMAIN))
        self.log.append('%d v%d [%s] <- %s' % (self.steps, agent + 1, pairs, reasons))
        self.tell(number, agent, 'makes n%d' % self.steps)
        self.send(number, agent, self.upper[agent][-1], 'nogood %d' % self.steps)

    def reason(self):
        if self.steps > 1 and self.random.random() < .3:
            return 'n%d' % self.random.randint(max(1, self.steps - 50), self.steps - 1)
        return 'c%d' % self.random.randint(1, len(self.rules))

    def model(self):
        lines = ['var 1..%d: x%d;' % (DOMAIN, i + 1) for i in range(self.agents)]
        lines += ['constraint int_ne(x%d,x%d);' % (i + 1, j + 1) for i, j in self.rules]
        return '\n'.join(lines) + '\nsolve satisfy;\n'

    def measures(self):
        kinds = [self.kinds[kind] for kind in ('ok', 'nogood', 'link')]
        lines = ['measures 1', 'end open', 'deliveries %d ok %d nogood %d link %d' % (self.deliveries, *kinds),
                 'steps %d' % self.steps, 'checks 0 constraints 0 nogoods 0', 'concurrent-checks 0 constraints 0',
                 'longest-chain 0', 'recorded 0', 'transit 0', 'links-added %d' % self.kinds['link'], 'end']
        return '\n'.join(lines) + '\n'


def main(folder, deliveries, agents=100):
    made = Generator(int(agents), int(deliveries))
    made.run()
    texts = {'model.fzn': made.model(), 'story.txt': '\n'.join(made.story) + '\n',
             'log.ngd': '\n'.join(made.log) + '\n', 'measures.txt': made.measures()}
    for name, text in texts.items():
        with open(os.path.join(folder, name), 'w') as file:
            file.write(text)


if __name__ == '__main__':
    main(*sys.argv[1:])
