// ---- Events in words

function deedsNamed(event, name) {
  return event.deeds.filter(deed => deed.name === name);
}

function listed(words) {
  return words.length < 2 ? words.join('') : words.slice(0, -1).join(', ') + ' and ' + words[words.length - 1];
}

/* At most this many names, and how many more there are. */
function someNames(agents, most = 12) {
  const names = agents.slice(0, most).map(agent => nameOf(agent));
  return agents.length > most ? names.join(', ') + ` and ${agents.length - most} more` : listed(names);
}

function startSentence(event) {
  const made = deedsNamed(event, 'makes');
  if (made.length && made[0].agent === null) {
    const reason = log.step(made[0].step).reasons[0];
    return `Start. ${signedReason(reason)}, which has no variables, is false: there is no solution.`;
  }
  if (!agentCount) return 'The model has no variables, so there is nothing to agree on: it is solved.';
  const first = 'Start. Each agent takes the least value that its own constraints allow, '
    + 'and tells it to the agents below it that listen.';
  if (made.length) return `${first} ${nameOf(made[0].agent)} has no such value: there is no solution.`;
  return last === 0 && story.verdict === 'solved' ? first + ' No message is needed: the values are a solution.' : first;
}

function signedReason(reason) {
  return reason[0] === 'c' ? `Constraint ${reason} (${reasonText(reason)})` : `Nogood ${reason} (${reasonText(reason)})`;
}

/* What came in. */
function arrival(event) {
  const { message } = event, receiver = nameOf(event.receiver), sender = nameOf(message.from);
  const known = deedsNamed(event, 'knows');
  if (message.kind === 'ok') {
    const told = `${receiver} is told that ${sender} has ${valueText(message.from, message.cargo)}.`;
    return known.length ? told : told + ' It has this or newer news of it already, so nothing changes.';
  }
  if (message.kind === 'link') return `${sender} asks ${receiver} to be told its values.`;
  const { nogood } = log.step(Number(message.cargo));
  let told = `${receiver} gets nogood n${message.cargo} from ${sender}: ${nogoodText(nogood)}.`;
  if (known.length) told += ` From it, it learns ${listed(known.map(pairText))}.`;
  if (deedsNamed(event, 'keeps').length) told += ' It keeps it.';
  if (deedsNamed(event, 'refuses').length) {
    told += ' It does not keep it, since it knows of other values or has one against this value already.';
  }
  return told;
}

/* What the agent did about it. */
function answer(event, before, after) {
  const took = deedsNamed(event, 'takes')[0], made = deedsNamed(event, 'makes')[0];
  const told = event.sent.filter(message => message.kind === 'ok').map(message => message.to);
  if (took) {
    const value = valueText(event.receiver, took.value);
    if (before.value === null) return ` It takes ${value}.`;
    const change = before.value === took.value ? ` Its value ${value} can stay; it takes it anew.`
      : ` Its value ${valueText(event.receiver, before.value)} is ruled out: it takes ${value}.`;
    return change + (told.length ? ` It tells ${someNames(told)}.` : '');
  }
  if (made) {
    const { nogood } = log.step(made.step);
    const to = event.sent.filter(message => message.kind === 'nogood').map(message => message.to);
    return ` None of its values is left: it derives n${made.step}, ${nogoodText(nogood)}`
      + (nogood.length ? `, sends it to ${someNames(to)} and waits.` : '. There is no solution.');
  }
  if (event.message.kind === 'link') {
    const [sent] = event.sent;
    return sent ? ` ${nameOf(event.receiver)} answers that it has ${valueText(event.receiver, sent.cargo)}.` : '';
  }
  if (!event.deeds.length) return '';
  return after.waits ? ' It still waits.' : ` Its value ${valueText(event.receiver, after.value)} stays.`;
}

/* The event as a sentence or a few. */
function sentenceOf(event, before, after) {
  if (event.number === 0) return startSentence(event);
  let words = arrival(event);
  const forgotten = deedsNamed(event, 'forgets').map(deed => 'n' + deed.step);
  if (forgotten.length) {
    words += ` It forgets ${listed(forgotten)}, which ${forgotten.length > 1 ? 'do' : 'does'} not fit what it knows now.`;
  }
  const asked = event.sent.filter(message => message.kind === 'link').map(message => message.to);
  if (asked.length) words += ` It asks ${someNames(asked)} for a link.`;
  words += answer(event, before, after);
  const endings = {
    solved: ' Nothing is in transit any more: the values are a solution.',
    open: ' The run was stopped here, with messages in transit.',
    refuted: '',
  };
  return event.number === last ? words + endings[story.verdict] : words;
}

/* The event in a few words, with the look that they have in the chart; they follow the name of the agent. */
function outcomeOf(event, before, after) {
  if (event.number === 0) return { look: '', words: agentCount ? 'all take a first value' : '' };
  const [made, took, refused] = ['makes', 'takes', 'refuses'].map(name => deedsNamed(event, name)[0]);
  if (made) {
    const isEmpty = !log.step(made.step).nogood.length;
    return { look: 'nogood', words: `derives n${made.step}${isEmpty ? ', which is empty' : ''}` };
  }
  if (took) {
    const change = before.value === took.value ? 'stays at ' : 'changes to ';
    return { look: 'takes', words: change + valueText(event.receiver, took.value) };
  }
  if (event.message.kind === 'link') return { look: '', words: 'answers' };
  if (!event.deeds.length) return { look: '', words: 'knew already' };
  const dropped = refused ? `drops n${refused.step}, ` : '';
  return { look: '', words: dropped + (after.waits ? 'waits' : 'keeps ' + valueText(event.receiver, after.value)) };
}
