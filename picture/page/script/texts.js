// ---- The texts of the run, as the program wrote them

const page = JSON.parse(byId('run').textContent);

function textOf(name) {
  const block = byId('text-' + name);
  return block ? JSON.parse(block.textContent) : null;
}

/* What the story tells. The lines of an event are found by `starts` and read again where they are needed. */
function readStory(text) {
  const story = {
    text, starts: [], verdict: '',
    messages: [],                                // each with its sending and its delivery
    firstSent: [0],                              // the number of the first message that an event sends
    delivered: [null],                           // the message that an event delivers
    madeAt: [null],                              // the event that makes a step
    linked: new Set(),                           // pairs between which a link was asked for
  };
  const lists = new Map();
  let at = text.indexOf('\n') + 1;
  story.starts.push(at);
  for (;;) {
    const stop = text.indexOf('\n', at);
    const line = text.slice(at, stop);
    if (line.startsWith('end ')) {
      story.verdict = line.slice(4);
      story.starts.push(at);
      story.firstSent.push(story.messages.length);
      return story;
    }
    noteLine(story, lists, line, at);
    at = stop + 1;
  }
}

/* Notes a line that delivers or sends a message, or makes a step; the others are read when they are needed. */
function noteLine(story, lists, line, at) {
  const name = line.indexOf(' ', line.indexOf(' ') + 1) + 1, arrow = line.indexOf('>');
  if (arrow > 0 && arrow < name) noteDelivery(story, lists, line.slice(line.indexOf(' ') + 1, name - 1), at);
  else if (line.startsWith('sends', name)) noteSending(story, lists, line.split(' '));
  else if (line.startsWith('makes', name)) story.madeAt.push(story.delivered.length - 1);
}

function noteDelivery(story, lists, pair, at) {
  const message = lists.get(pair).shift();
  message.got = story.delivered.length;
  story.starts.push(at);
  story.firstSent.push(story.messages.length);
  story.delivered.push(message);
}

function noteSending(story, lists, [, sender, , receiver, kind, cargo]) {
  const from = indexOf(sender), to = indexOf(receiver), pair = sender + '>' + receiver;
  const message = { id: story.messages.length, from, to, kind, cargo, sent: story.delivered.length - 1, got: null };
  if (!lists.has(pair)) lists.set(pair, []);
  lists.get(pair).push(message);
  story.messages.push(message);
  if (kind === 'link') story.linked.add(pairKey(from, to));
}

/* The number, from 0, that a word such as v3 names. */
function indexOf(word) {
  return Number(word.slice(1)) - 1;
}

/* One key for two agents, whichever is named first. */
function pairKey(a, b) {
  return a < b ? a + ' ' + b : b + ' ' + a;
}

/* What the agents did in an event, in the order of the story, but for what they sent. */
function deedsOf(story, number) {
  const deeds = [];
  for (const line of story.text.slice(story.starts[number], story.starts[number + 1]).split('\n')) {
    const name = line.indexOf(' ', line.indexOf(' ') + 1) + 1;
    if (name && !line.startsWith('sends', name) && !/>/.test(line)) deeds.push(deedOf(line.split(' ')));
  }
  return deeds;
}

function deedOf([, agent, name, ...rest]) {
  const deed = { agent: agent === '-' ? null : indexOf(agent), name, step: null, of: null, value: null, reasons: '' };
  if (name === 'knows') {
    const sign = rest[0].indexOf('=');
    deed.of = indexOf(rest[0].slice(0, sign));
    deed.value = rest[0].slice(sign + 1);
  } else if (name === 'takes') deed.value = rest[0];
  else if (name === 'out') deed.reasons = rest.join(' ');
  else deed.step = Number(rest[0].slice(1));
  return deed;
}

/* An event with all that is told of it. */
function eventOf(story, number) {
  const message = story.delivered[number];
  return {
    number, message,
    receiver: message ? message.to : null,
    deeds: deedsOf(story, number),
    sent: story.messages.slice(story.firstSent[number], story.firstSent[number + 1]),
  };
}

/* A log, whose lines are read where they are needed: `step(k)` is step number k. */
function readLog(text) {
  const starts = [null];
  let at = text.indexOf('\n') + 1;
  while (!text.startsWith('end', at)) {
    if (text[at] !== 'd') starts.push(at);
    at = text.indexOf('\n', at) + 1;
  }
  const line = number => text.slice(starts[number], text.indexOf('\n', starts[number]));
  return { count: starts.length - 1, step: number => readStep(line(number)) };
}

function readStep(line) {
  const [, number, maker, pairs, reasons] = /^(\d+) (v\d+|-) \[(.*)\] <-(.*)$/.exec(line);
  return {
    number: Number(number),
    maker: maker === '-' ? null : indexOf(maker),
    nogood: pairs ? pairs.split(',').map(pair => {
      const sign = pair.indexOf('=');
      return { of: indexOf(pair.slice(0, sign)), value: pair.slice(sign + 1) };
    }) : [],
    reasons: reasons.trim() ? reasons.trim().split(' ') : [],
  };
}

/* The measures: the numbers of the run by the words before them, of each agent, and what each learned. */
function readMeasures(text) {
  const measures = { figures: new Map(), agents: [], learned: [] };
  for (const line of text.split('\n')) {
    const words = line.split(' ');
    if (/^v\d+$/.test(words[0]) && words[1] === 'learned') {
      const [by, , of, count, , all] = words;
      measures.learned.push({ by: indexOf(by), of: indexOf(of), count: Number(count), all: Number(all) });
    } else if (/^v\d+$/.test(words[0])) {
      measures.agents.push({ agent: indexOf(words[0]), numbers: words.slice(1).filter(word => /^\d+$/.test(word)) });
    } else {
      measures.figures.set(words[0], words[1]);
      for (let at = 2; at + 1 < words.length; at += 2) measures.figures.set(words[0] + ' ' + words[at], words[at + 1]);
    }
  }
  return measures;
}
