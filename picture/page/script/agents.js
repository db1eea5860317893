// ---- The table of agents: values, views, nogoods

const MOST_CHIPS = 24, MOST_PAIRS = 40;
const agentRows = [];

function buildAgents() {
  for (const agent of order) {
    const name = element('button', { class: 'name-button', onclick: () => chooseOrNot(agent) });
    const cells = ['values', 'knows', 'keeps'].map(look => element('div', { role: 'cell', class: look }));
    const head = element('div', { role: 'rowheader' }, name);
    const row = element('div', { role: 'row', class: 'agent-row' }, head, ...cells);
    agentRows[agent] = { row, name, cells, drawn: null, look: '' };
    byId('agent-rows').append(row);
    byId('filter').append(element('option', { value: String(agent) }));
  }
}

/* The names, which change where numbers are asked for. */
function nameAgents() {
  const options = byId('filter').options;
  order.forEach((agent, place) => {
    agentRows[agent].name.textContent = nameOf(agent);
    agentRows[agent].name.title = page.variables[agent].name;
    agentRows[agent].drawn = null;
    options[place + 1].textContent = nameOf(agent, 40);
  });
}

function drawAgents(state, event) {
  for (const agent of order) {
    const drawn = agentRows[agent], part = state.agents[agent];
    const look = 'agent-row' + (event.receiver === agent ? ' now' : '') + (settings.agent === agent ? ' chosen' : '');
    if (drawn.look !== look) drawn.row.className = drawn.look = look;
    if (saySame(drawn.drawn, part)) continue;
    drawn.drawn = part;
    const [values, knows, keeps] = drawn.cells;
    values.replaceChildren(...valueChips(agent, part));
    knows.replaceChildren(...viewPairs(part).map(pairChip), ...rest(part.view.size - MOST_PAIRS));
    keeps.replaceChildren(...part.kept.slice(0, MOST_PAIRS).map(nogoodSign), ...rest(part.kept.length - MOST_PAIRS));
  }
  if (event.receiver !== null) bringToSight(byId('agents-scroll'), agentRows[event.receiver].row);
  drawChosen(state);
}

/* Scrolls the box as far as is needed for the row to be seen whole under the head of the table. */
function bringToSight(box, row) {
  const top = row.offsetTop - 30, bottom = row.offsetTop + row.offsetHeight;
  if (top < box.scrollTop) box.scrollTop = top;
  else if (bottom > box.scrollTop + box.clientHeight) box.scrollTop = bottom - box.clientHeight;
}

function rest(count) {
  return count > 0 ? [element('span', { class: 'sub' }, `and ${grouped(count)} more`)] : [];
}

/* The pairs of the view in the order of the agents. */
function viewPairs(part, most = MOST_PAIRS) {
  const pairs = [...part.view].map(([of, value]) => ({ of, value }));
  return pairs.sort((a, b) => placeOf[a.of] - placeOf[b.of]).slice(0, most);
}

function nogoodSign(step) {
  const sign = signed('n' + step);
  sign.title = nogoodText(log.step(step).nogood);
  return sign;
}

/* The values of the domain; of a large one, its own value and those that are ruled out. */
function valueChips(agent, part) {
  const reasons = reasonsOf(part), size = domainSize(agent), large = size > MOST_CHIPS;
  let values = large ? [...reasons.keys()] : domainOf(agent);
  if (large && part.value !== null && !reasons.has(part.value)) values = [part.value, ...values];
  const chips = values.slice(0, MOST_CHIPS).map(value => valueChip(agent, part, value, reasons.get(value)));
  if (large) chips.push(element('span', { class: 'sub' }, `${grouped(reasons.size)} of ${grouped(size)} ruled out`));
  if (part.waits) chips.push(element('span', { class: 'waiting' }, ' waits'));
  return chips;
}

function valueChip(agent, part, value, reason) {
  const own = value === part.value, made = chip(agent, value, own ? 'current' : reason ? 'out' : 'free');
  if (reason) {
    made.append(element('span', { class: 'why' }, reason));
    if (own) made.classList.add('fallen');
    made.title = `ruled out by ${reason}: ${reasonText(reason)}`;
  } else made.title = own ? 'its value' : 'free';
  return made;
}

// -- the chosen agent, with all in words

function drawChosen(state) {
  const agent = settings.agent;
  if (agent === null) return byId('chosen').replaceChildren();
  const part = state.agents[agent], { name, label } = page.variables[agent];
  const head = `${label}, agent ${numberOf(agent)}` + (name === label ? '' : `, ${shorten(name, 72)} in the FlatZinc`);
  const own = part.value === null ? 'no value' : valueText(agent, part.value);
  const view = viewPairs(part, 500).map(pairText).join(', ');
  const ruledOut = [...reasonsOf(part)].slice(0, 100)
    .map(([value, reason]) => `${valueText(agent, value)} is ruled out by ${reason}: ${reasonText(reason)}`);
  const kept = part.kept.slice(0, 100).map(step => `n${step}: ${nogoodText(log.step(step).nogood)}`);
  byId('chosen').replaceChildren(
    element('h3', {}, head),
    element('span', {}, `It has ${own}${part.waits ? ' and waits' : ''}. Its domain is ${domainText(agent)}.`),
    ...listIfAny(ruledOut),
    element('span', {}, view ? `It knows ${view}. ` : 'It knows no values of others. '),
    element('span', {}, kept.length ? 'It keeps:' : 'It keeps no nogood.'),
    ...listIfAny(kept));
}

function listIfAny(lines) {
  return lines.length ? [element('ul', {}, ...lines.map(line => element('li', {}, line)))] : [];
}

function domainText(agent) {
  const { bool, ranges } = page.variables[agent];
  if (bool) return 'false, true';
  const parts = ranges.slice(0, 12).map(([low, high]) => low === high ? low : `${low}..${high}`);
  return (parts.join(', ') || 'empty').replaceAll('-', MINUS) + (ranges.length > 12 ? ', …' : '');
}
