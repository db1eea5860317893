// ---- The state of the agents after an event: a fold over the lines of the story

const SPACING = 1024;                         // events between two states that are kept
const NEAR_SPACING = 64, MOST_NEAR = 128;     // and where the reader is, and how many of these there are at most

const story = readStory(textOf('story'));
const log = readLog(textOf('log'));
const last = story.delivered.length - 1;
const agentCount = page.variables.length;

/* The state before the start. What `agents` holds is shared with kept states, and copied before it is changed. */
function blankState() {
  const part = () => ({ value: null, waits: false, view: new Map(), kept: [], out: '' });
  const agents = Array.from({ length: agentCount }, part);
  return { at: -1, agents, transit: new Set(), own: new Set() };
}

/* The agent's part of the state, to be changed. */
function ownPart(state, agent) {
  if (!state.own.has(agent)) {
    const old = state.agents[agent];
    state.agents[agent] = { ...old, view: new Map(old.view), kept: old.kept.slice() };
    state.own.add(agent);
  }
  return state.agents[agent];
}

/* Whether two parts say the same; parts that were folded anew are other objects. */
function saySame(a, b) {
  if (a === b) return true;
  if (!a || !b || a.value !== b.value || a.waits !== b.waits || a.out !== b.out) return false;
  if (a.view.size !== b.view.size || a.kept.length !== b.kept.length) return false;
  for (const [of, value] of a.view) if (b.view.get(of) !== value) return false;
  return a.kept.every((step, place) => step === b.kept[place]);
}

function applyDeed(state, deed) {
  if (deed.agent === null || deed.name === 'refuses') return;
  const part = ownPart(state, deed.agent);
  if (deed.name === 'knows') part.view.set(deed.of, deed.value);
  else if (deed.name === 'forgets') part.kept = part.kept.filter(step => step !== deed.step);
  else if (deed.name === 'keeps') part.kept.push(deed.step);
  else if (deed.name === 'out') part.out = deed.reasons;
  else if (deed.name === 'takes') {
    part.value = deed.value;
    part.waits = false;
  } else if (deed.name === 'makes') part.waits = log.step(deed.step).nogood.length > 0;
}

/* Makes the next event. Whoever holds parts of the state keeps them as they are. */
function advance(state) {
  state.own.clear();
  step(state);
}

function step(state) {
  state.at += 1;
  if (state.at) state.transit.delete(story.delivered[state.at].id);
  for (const deed of deedsOf(story, state.at)) applyDeed(state, deed);
  for (let id = story.firstSent[state.at]; id < story.firstSent[state.at + 1]; id += 1) state.transit.add(id);
}

/* Every so many events the state is kept; in between it is made again from there. */
const keptStates = [];
const transitCounts = [];

(function keepStates() {
  const state = blankState();
  while (state.at < last) {
    step(state);
    transitCounts.push(state.transit.size);
    if (state.at % SPACING === 0) keptStates.push(keptOf(state));
  }
})();

/* Nearer states, of the part of the run that was gone through last. */
const nearStates = new Map();

/* The state after this event. */
function stateAt(number) {
  if (number < 0) return blankState();
  const begun = number - number % SPACING;
  let from = number - number % NEAR_SPACING;
  while (from > begun && !nearStates.has(from)) from -= NEAR_SPACING;
  const kept = from === begun ? keptStates[begun / SPACING] : nearStates.get(from);
  const state = { at: from, agents: kept.agents.slice(), transit: new Set(kept.transit), own: new Set() };
  while (state.at < number) {
    step(state);
    if (state.at % NEAR_SPACING === 0) keepNear(state);
  }
  return state;
}

function keepNear(state) {
  if (nearStates.size > MOST_NEAR) nearStates.clear();
  nearStates.set(state.at, keptOf(state));
}

/* What is kept of a state, whose parts are not changed from then on. */
function keptOf(state) {
  state.own.clear();
  return { agents: state.agents.slice(), transit: Int32Array.from(state.transit) };
}

/* The state brought to a later event, from where it is or from a kept state, whichever is nearer. */
function seek(state, number) {
  if (state.at > number || number - state.at > number % SPACING + 1) return stateAt(number);
  state.own.clear();
  while (state.at < number) step(state);
  return state;
}

/* Goes through the events from one to another, and tells each with the receiver before and after it. */
function walk(from, to, visit) {
  const state = stateAt(from - 1);
  for (let number = from; number <= to; number += 1) {
    const event = eventOf(story, number);
    const before = event.receiver === null ? null : state.agents[event.receiver];
    advance(state);
    visit(event, before, event.receiver === null ? null : state.agents[event.receiver], state);
  }
}

// -- causal chains of messages

/* For each message the length of the longest chain that ends in its delivery, and the message before it in one. */
function messageChains() {
  const length = new Int32Array(story.messages.length), before = new Int32Array(story.messages.length).fill(-1);
  const longest = new Int32Array(agentCount), ending = new Int32Array(agentCount).fill(-1);
  for (let number = 0; number <= last; number += 1) {
    const message = story.delivered[number];
    if (message && length[message.id] > longest[message.to]) {
      longest[message.to] = length[message.id];
      ending[message.to] = message.id;
    }
    for (let id = story.firstSent[number]; id < story.firstSent[number + 1]; id += 1) {
      length[id] = longest[story.messages[id].from] + 1;
      before[id] = ending[story.messages[id].from];
    }
  }
  return { length, before };
}

let chains = null;

/* The messages of the longest chain of the run, or of the longest that ends in this delivery. */
function chainOf(what, number) {
  if (what === 'none' || last === 0) return new Set();
  if (chains === null) chains = messageChains();
  let end = what === 'here' ? story.delivered[number] : null;
  if (what === 'longest') {
    for (const message of story.delivered) {
      if (message && (!end || chains.length[message.id] > chains.length[end.id])) end = message;
    }
  }
  const found = new Set();
  for (let id = end ? end.id : -1; id >= 0; id = chains.before[id]) found.add(id);
  return found;
}
