// ---- The graph of agents, with the messages in transit

const MOST_DOTS = 150, MOST_EDGES = 400;
const stillness = matchMedia('(prefers-reduced-motion: reduce)');

/* Agents stand in the order of their priorities: `order[place]` is the agent, `placeOf[agent]` its place. */
const order = page.order;
const placeOf = new Int32Array(agentCount);
order.forEach((agent, place) => { placeOf[agent] = place; });

const graph = (() => {
  const named = agentCount <= 12 ? 'beside' : agentCount <= 40 ? 'radial' : 'none';
  const width = 540, height = agentCount === 2 ? 210 : { beside: 420, radial: 540, none: 500 }[named];
  const signs = Math.min(18, 5 + Math.max(0, ...page.variables.map(variable => [...variable.label].length)));
  const margin = { beside: 62, radial: 14 + 6.4 * signs, none: 16 }[named];
  const rim = Math.PI * (width + height - 4 * margin) / 2;
  const radius = agentCount <= 8 ? 29 : clamp(rim / agentCount / 2.5, 1.5, agentCount <= 12 ? 22 : 16);
  const across = width / 2 - radius - margin, up = height / 2 - radius - (named === 'beside' ? 30 : margin);
  const placed = order.map((agent, place) => {
    if (agentCount === 1) return { x: width / 2, y: height / 2, angle: 0 };
    if (agentCount === 2) return { x: width * (.24 + .52 * place), y: height / 2, angle: Math.PI / 2 };
    const angle = -Math.PI / 2 + 2 * Math.PI * place / agentCount;
    return { x: width / 2 + across * Math.cos(angle), y: height / 2 + up * Math.sin(angle), angle };
  });
  const spots = placeOf.length ? Array.from(placeOf, place => placed[place]) : [];
  return { width, height, radius, named, spots, nodes: [], edges: new Map(), dots: new Map(), layers: {} };
})();

/* Where the bent line from one agent to another bends to. */
function bendOf(from, to) {
  const a = graph.spots[from], b = graph.spots[to], length = Math.hypot(b.x - a.x, b.y - a.y) || 1;
  const bend = Math.min(26, length * .12);
  return { x: (a.x + b.x) / 2 - (b.y - a.y) / length * bend, y: (a.y + b.y) / 2 + (b.x - a.x) / length * bend, length };
}

/* The point at this share of the way from one agent to another. */
function pointBetween(from, to, share) {
  const a = graph.spots[from], b = graph.spots[to], bend = bendOf(from, to), near = graph.radius / bend.length;
  const at = near + share * (1 - 2.3 * near), left = 1 - at;
  return {
    x: left * left * a.x + 2 * left * at * bend.x + at * at * b.x,
    y: left * left * a.y + 2 * left * at * bend.y + at * at * b.y,
  };
}

function buildGraph() {
  const { layers } = graph;
  for (const layer of ['edges', 'nodes', 'dots']) layers[layer] = shape('g');
  buildEdges();
  for (const agent of order) graph.nodes[agent] = buildNode(agent);
  for (const agent of order) layers.nodes.append(graph.nodes[agent].group);
  const look = 'drawing' + (agentCount > 14 ? ' many' : '');
  byId('graph').append(drawing(graph.width, graph.height, [layers.edges, layers.nodes, layers.dots], look));
}

/* A line for each ordered pair of agents that some message goes over, shown from its first message on. Where they are
   many, those that are there from the start are one shape, and the others are drawn only where they are meant. */
function buildEdges() {
  for (const message of story.messages) {
    const key = message.from + '>' + message.to;
    if (graph.edges.has(key)) continue;
    const added = story.linked.has(pairKey(message.from, message.to));
    const since = added ? message.sent : 0;
    graph.edges.set(key, { path: null, added, from: message.from, to: message.to, since, look: null });
  }
  graph.merged = graph.edges.size > MOST_EDGES;
  const edges = [...graph.edges.values()];
  if (graph.merged) {
    const ways = edges.filter(edge => !edge.added).map(wayOf).join('');
    graph.layers.meant = shape('g');
    graph.layers.edges.append(shape('path', { class: 'edge merged', d: ways }), graph.layers.meant);
  } else {
    for (const edge of edges) graph.layers.edges.append(edge.path = shape('path', { d: wayOf(edge) }));
  }
}

function wayOf({ from, to }) {
  const a = graph.spots[from], b = graph.spots[to], bend = bendOf(from, to);
  return `M${a.x},${a.y}Q${bend.x},${bend.y} ${b.x},${b.y}`;
}

/* How an edge looks: whether it is there yet, carried the message of this delivery, or is of the chosen agent. */
function edgeLook(edge, state, message) {
  const now = message && message.from === edge.from && message.to === edge.to;
  const mine = edge.from === settings.agent || edge.to === settings.agent;
  return 'edge' + (edge.added ? ' added' : '') + (edge.since > state.at ? ' unseen-yet' : '')
    + (now ? ' now ' + message.kind : '') + (mine ? ' mine' : '');
}

function drawEdges(state, message) {
  const meant = [];
  for (const edge of graph.edges.values()) {
    const look = edgeLook(edge, state, message);
    if (graph.merged) {
      if (/ (now|mine)/.test(look)) meant.push(shape('path', { class: look, d: wayOf(edge) }));
    } else if (edge.look !== look) edge.path.setAttribute('class', edge.look = look);
  }
  if (graph.merged) graph.layers.meant.replaceChildren(...meant);
}

function buildNode(agent) {
  const { radius } = graph, spot = graph.spots[agent];
  const value = shape('text', { class: 'value', 'font-size': radius > 20 ? 16 : radius > 12 ? 12 : 9 });
  const body = shape('circle', { class: 'body', r: radius });
  const kept = shape('text');
  const badge = shape('g', { class: 'badge', transform: `translate(${radius * .78},${-radius * .78})` },
    [shape('circle', { r: radius > 20 ? 9 : radius > 9 ? 7 : 3 }), kept]);
  const name = shape('text', nameSpot(spot));
  const title = shape('title');
  const group = shape('g', { transform: `translate(${spot.x},${spot.y})` },
    [shape('circle', { class: 'halo', r: radius + Math.min(5, radius / 3) }), body, value, badge, name, title]);
  group.onclick = () => chooseOrNot(agent);
  return { group, value, body, badge, kept, name, title, drawn: null };
}

/* How the name of a node is put: beside it, or along the radius where there are many. */
function nameSpot(spot) {
  const { radius, height, width } = graph;
  if (graph.named !== 'radial') return { class: 'name', y: spot.y >= height / 2 - 4 ? radius + 16 : -radius - 16 };
  const turn = Math.atan2(spot.y - height / 2, spot.x - width / 2), left = Math.cos(turn) < -.001;
  const away = radius + 10, degrees = turn * 180 / Math.PI + (left ? 180 : 0);
  return { class: 'name radial' + (left ? ' left' : ''), x: left ? -away : away, transform: `rotate(${degrees})` };
}

/* The names, which change where numbers are asked for. */
function nameNodes() {
  for (let agent = 0; agent < agentCount; agent += 1) {
    const { name, title } = graph.nodes[agent];
    const label = page.variables[agent].label;
    title.textContent = nameOf(agent);
    if (graph.named === 'none') continue;
    name.textContent = settings.numbers ? `${numberOf(agent)} ${shorten(label, graph.named === 'radial' ? 12 : 19)}`
      : shorten(label, graph.named === 'radial' ? 18 : 24);
  }
}

function drawGraph(state, event, jumped) {
  const message = event.message;
  for (let agent = 0; agent < agentCount; agent += 1) {
    const look = 'node' + (state.agents[agent].waits ? ' waits' : '') + (message && message.to === agent ? ' now' : '')
      + (settings.agent === agent ? ' chosen' : '');
    drawNode(agent, state.agents[agent], look);
  }
  drawEdges(state, message);
  drawDots(state, jumped);
  const transit = state.transit.size;
  byId('transit').textContent = !transit ? 'nothing in transit'
    : counted(transit, 'message') + ' in transit' + (transit > MOST_DOTS ? `, ${MOST_DOTS} of them drawn` : '');
  byId('graph').setAttribute('aria-label', graphLabel(state));
}

function drawNode(agent, part, look) {
  const node = graph.nodes[agent];
  if (node.look !== look) node.group.setAttribute('class', node.look = look);
  if (saySame(node.drawn, part)) return;
  node.drawn = part;
  node.body.style.fill = colourOf(agent, part.value);
  node.value.style.fill = inkOn(agent, part.value);
  node.value.textContent = part.value === null || graph.radius < 6 ? ''
    : shorten(graph.radius > 20 ? valueText(agent, part.value) : shortValue(agent, part.value), 6);
  node.badge.style.display = part.kept.length ? '' : 'none';
  node.kept.textContent = graph.radius > 9 ? part.kept.length : '';
}

/* The messages in transit: on each line the first to be delivered is the nearest to its receiver. */
function drawDots(state, jumped) {
  const ranks = new Map(), spots = new Map();
  for (const id of state.transit) {
    if (spots.size === MOST_DOTS) break;
    const message = story.messages[id], key = message.from + '>' + message.to, rank = ranks.get(key) || 0;
    ranks.set(key, rank + 1);
    const gap = Math.min(.2, 21 / bendOf(message.from, message.to).length);
    const spot = pointBetween(message.from, message.to, Math.max(.1, .8 - gap * rank));
    spots.set(id, { ...spot, opacity: rank > 5 ? 0 : 1 });
  }
  for (const [id, dot] of [...graph.dots]) {
    if (spots.has(id)) continue;
    removeDot(dot, story.messages[id], !jumped && story.messages[id].got === state.at);
    graph.dots.delete(id);
  }
  for (const [id, spot] of spots) putDot(id, spot, !jumped && story.messages[id].sent === state.at);
}

function moveDot(dot, x, y, opacity) {
  dot.style.transform = `translate(${x}px,${y}px)`;
  dot.style.opacity = opacity;
}

function removeDot(dot, message, arrives) {
  if (!arrives || stillness.matches) return dot.remove();
  const spot = graph.spots[message.to];
  moveDot(dot, spot.x, spot.y, 0);
  setTimeout(() => dot.remove(), 420);
}

function putDot(id, spot, leaves) {
  let dot = graph.dots.get(id);
  if (!dot) {
    const message = story.messages[id];
    dot = buildDot(message);
    graph.dots.set(id, dot);
    graph.layers.dots.append(dot);
    if (leaves && !stillness.matches) {
      moveDot(dot, graph.spots[message.from].x, graph.spots[message.from].y, 0);
      dot.getBoundingClientRect();
    }
  }
  moveDot(dot, spot.x, spot.y, spot.opacity);
}

function buildDot(message) {
  const text = shape('text');
  let body;
  if (message.kind === 'ok') {
    text.textContent = shorten(shortValue(message.from, message.cargo), 7);
    text.style.fill = inkOn(message.from, message.cargo);
    const width = Math.max(17, 7 * text.textContent.length + 9);
    body = shape('rect', { class: 'pill', x: -width / 2, y: -8.5, width, height: 17, rx: 8.5 });
    body.style.fill = colourOf(message.from, message.cargo);
  } else if (message.kind === 'nogood') {
    text.textContent = 'n' + message.cargo;
    const width = 7 * text.textContent.length + 10;
    body = shape('rect', { class: 'pill', x: -width / 2, y: -8.5, width, height: 17, rx: 3 });
    body.style.fill = 'var(--nogood)';
    text.style.fill = 'var(--card)';
  } else {
    text.textContent = '+';
    body = shape('circle', { class: 'pill', r: 8 });
    body.style.fill = 'var(--link)';
    text.style.fill = 'var(--card)';
  }
  return shape('g', { class: 'dot' }, [body, text]);
}

function graphLabel(state) {
  if (agentCount > 30) return counted(agentCount, 'agent') + '; their values stand in the table of agents';
  const values = order.map(agent => {
    const part = state.agents[agent];
    const value = part.value === null ? 'no value' : valueText(agent, part.value);
    return `${nameOf(agent)} ${value}${part.waits ? ', waits' : ''}`;
  });
  const transit = [...state.transit].slice(0, 30).map(id => {
    const { kind, cargo, from, to } = story.messages[id];
    const told = kind === 'nogood' ? 'nogood n' + cargo : 'link request';
    const what = kind === 'ok' ? 'value ' + valueText(from, cargo) : told;
    return `${what} from ${nameOf(from)} to ${nameOf(to)}`;
  });
  return `Values: ${values.join('; ')}. In transit: ${transit.join('; ') || 'nothing'}.`;
}
