"""The states of a run by its story, folded line by line: what the table of agents is to show after each event."""

# An agent that derives a nogood waits from then on, but for the step that ends the run.


def states_of(story, variables, wanted=None):
    """For each event what is shown of each agent after it, or None where only other events are wanted."""
    agents = [{'value': None, 'waits': False, 'out': [], 'view': {}, 'kept': []} for _ in variables]
    lines, event = story.split('\n')[1:-1], 0
    last_step = ' makes n%d' % story.count(' makes n') if lines.pop() == 'end refuted' else None
    for line in lines:
        number, agent, *words = line.split(' ')
        if int(number) != event:
            yield shown(agents, variables) if wanted is None or event in wanted else None
            event = int(number)
        if '>' not in agent and agent != '-' and not (last_step and line.endswith(last_step)):
            apply(agents[int(agent[1:]) - 1], *words)
    yield shown(agents, variables) if wanted is None or event in wanted else None


def apply(agent, deed, *words):
    if deed == 'knows':
        of, value = words[0][1:].split('=')
        agent['view'][int(of) - 1] = value
    elif deed == 'keeps':
        agent['kept'].append(words[0])
    elif deed == 'forgets':
        agent['kept'].remove(words[0])
    elif deed == 'out':
        agent['out'] = words
    elif deed == 'takes':
        agent['value'], agent['waits'] = words[0], False
    elif deed == 'makes':
        agent['waits'] = True


def shown(agents, variables):
    """Views in the order of the agents, with the names of the model."""
    def value_text(agent, value):
        if variables[agent]['bool']:
            return 'true' if value == '1' else 'false'
        return value.replace('-', '−')

    found = []
    for number, agent in enumerate(agents):
        reasons = [word.rsplit(':', 1) for word in agent['out']]
        found.append({
            'value': None if agent['value'] is None else value_text(number, agent['value']),
            'waits': agent['waits'],
            'out': ['%s:%s' % (value_text(number, value), reason) for value, reason in reasons],
            'view': ['%s = %s' % (variables[k]['label'], value_text(k, agent['view'][k])) for k in sorted(agent['view'])],
            'kept': list(agent['kept'])})
    return found
