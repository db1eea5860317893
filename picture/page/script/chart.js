// ---- The message sequence chart, of which only the rows in sight are drawn

function buildChart() {
  byId('chart').addEventListener('scroll', drawRowsInSight);
  byId('chart-rows').onclick = pressed => {
    const row = Math.floor((pressed.clientY - byId('chart-rows').getBoundingClientRect().top) / ROW);
    go(eventAt(clamp(row, 0, rowCount() - 1)), true);
  };
  new ResizeObserver(fitChart).observe(byId('chart'));
  layChart();
}

/* Lays the chart anew where the room for it has changed. */
function fitChart() {
  const room = byId('chart').clientWidth;
  if (room === 0) return;
  if (room === chart.room) return drawRowsInSight();
  layChart();
  markChart(player.state.at);
}

/* Lays the chart anew, as after a change of its rows, names or room. */
function layChart() {
  chart.room = byId('chart').clientWidth;
  measureColumns(chart.room || 900);
  for (const piece of chart.pieces.values()) piece.remove();
  chart.pieces.clear();
  byId('chart-names').replaceChildren(namesDrawing());
  const rows = byId('chart-rows');
  rows.style.height = rowCount() * ROW + 10 + 'px';
  rows.style.width = chart.width + 'px';
  byId('chart-band').style.width = byId('chart-veil').style.width = `max(100%, ${chart.width}px)`;
  const deliveries = counted(last, 'delivery', 'deliveries');
  byId('chart').setAttribute('aria-label', `Message sequence chart of ${deliveries}; the same stands in words below`);
  drawRowsInSight();
}

function drawRowsInSight() {
  const box = byId('chart'), height = PIECE * ROW;
  const from = Math.max(0, Math.floor((box.scrollTop - 300) / height));
  const end = Math.floor((box.scrollTop + box.clientHeight + 300) / height);
  const to = Math.min(Math.ceil(rowCount() / PIECE) - 1, end);
  for (const [number, piece] of [...chart.pieces]) {
    if (number >= from && number <= to) continue;
    piece.remove();
    chart.pieces.delete(number);
  }
  for (let number = from; number <= to; number += 1) {
    if (chart.pieces.has(number)) continue;
    const piece = drawRows(number * PIECE, Math.min(rowCount(), (number + 1) * PIECE));
    piece.classList.add('piece');
    piece.style.top = number * height + 'px';
    byId('chart-rows').append(piece);
    chart.pieces.set(number, piece);
  }
}

/* Marks the row of the event that is shown, and brings it into sight. */
function markChart(number) {
  const row = rowUpTo(number), box = byId('chart'), y = row * ROW;
  byId('chart-band').style.top = y + 'px';
  byId('chart-band').style.height = ROW + 'px';
  byId('chart-veil').style.top = y + ROW + 'px';
  const column = byId('chart-column').style;
  column.display = settings.agent === null ? 'none' : '';
  if (settings.agent !== null) {
    column.left = columnOf(settings.agent) - chart.column / 2 + 'px';
    column.width = chart.column + 'px';
    column.height = rowCount() * ROW + 'px';
  }
  const message = story.delivered[number], names = byId('chart-names').offsetHeight;
  if (message) bringColumnToSight(message);
  const isSeen = y >= box.scrollTop + 2 * ROW && y + names <= box.scrollTop + box.clientHeight - 3 * ROW;
  if (!isSeen) box.scrollTop = y - box.clientHeight * .5 + names;
  drawRowsInSight();
}

/* Scrolls sideways as far as is needed to see the receiver and the label of the message. */
function bringColumnToSight(message) {
  const box = byId('chart'), { rail, label, width } = levelEnd(message);
  const left = Math.min(rail, label - width / 2) - 24, right = Math.max(rail, label + width / 2) + 24;
  if (left < box.scrollLeft) box.scrollLeft = left;
  else if (right > box.scrollLeft + box.clientWidth) box.scrollLeft = right - box.clientWidth;
}

function namesDrawing() {
  const longestLabel = order.reduce((longest, agent) => Math.max(longest, page.variables[agent].label.length), 0);
  const turned = 8 * longestLabel > chart.column, letters = turned ? (agentCount <= 30 ? 28 : 22) : longestLabel;
  const longest = Math.min(longestLabel, letters);
  const height = (turned ? 20 + longest * 4.3 : 26) + (settings.numbers ? 16 : 0);
  const names = drawing(chart.width, height, []), y = height - (settings.numbers ? 24 : 9);
  for (const agent of order) {
    const x = columnOf(agent), { name, label } = page.variables[agent];
    const spot = turned ? { class: 'column-name turned', transform: `translate(${x - 2},${y}) rotate(-38)` }
      : { class: 'column-name', x, y, 'text-anchor': 'middle' };
    const text = shape('text', spot, [shorten(label, letters)]);
    text.append(shape('title', {}, [name === label ? name : `${label} (${name})`]));
    names.append(text);
    if (settings.numbers) names.append(shape('text', { class: 'column-number', x, y: height - 7 }, [numberOf(agent)]));
  }
  return names;
}

/* The drawing of these rows. */
function drawRows(from, to) {
  const height = (to - from) * ROW + (to === rowCount() ? 10 : 0);
  const layers = { rails: shape('g'), chain: shape('g'), arrows: shape('g'), labels: shape('g') };
  const view = { from, to, height, layers, pattern: 'waits-' + from, y: number => (heightOf(number) - from) * ROW };
  let state = seek(chart.state, eventAt(from) - 1);
  const rails = startRails(view, state), reach = new Set(state.transit);
  for (let row = from; row < to; row += 1) {
    const number = eventAt(row);
    state = seek(state, number - 1);
    const event = eventOf(story, number), before = number ? state.agents[event.receiver] : null;
    advance(state);
    followRails(view, rails, state, event);
    if (event.message) reach.add(event.message.id);
    drawRow(view, event, before, number ? state.agents[event.receiver] : null);
  }
  chart.state = state;
  endRails(view, rails);
  view.reach = new Set([...reach, ...state.transit]);
  drawArrows(view);
  drawChain(view);
  const parts = [waitPattern(view.pattern), layers.rails, layers.chain, layers.arrows, layers.labels];
  return Object.assign(drawing(chart.width, height, parts), { view });
}

/* The arrows of the messages that reach into these rows; of those that only pass, at most so many. */
function drawArrows(view) {
  const end = eventAt(view.to - 1);
  let passing = 0;
  for (const id of view.reach) {
    const message = story.messages[id];
    if (settings.agent !== null && message.from !== settings.agent && message.to !== settings.agent) continue;
    if (message.got === null || message.got > end) passing += 1;
    if (passing <= MOST_PASSING || (message.got !== null && message.got <= end)) drawArrow(view, message);
  }
}

// -- rails: what each agent has over time

function startRails(view, state) {
  const top = view.from === 0 ? ROW / 2 : 0;
  return order.map(agent => {
    const x = columnOf(agent), bottom = view.to === rowCount() ? view.height - 10 - ROW / 2 + 8 : view.height;
    view.layers.rails.append(shape('line', { class: 'rail', x1: x, x2: x, y1: top, y2: bottom }));
    return { agent, part: state.agents[agent], since: 0 };
  });
}

function followRails(view, rails, state, event) {
  const y = view.y(event.number);
  const changed = chart.rows || event.number === 0 ? rails : [rails[placeOf[event.receiver]]];
  for (const rail of changed) {
    const part = state.agents[rail.agent];
    if (part === rail.part) continue;
    if (part.value !== rail.part.value || part.waits !== rail.part.waits) {
      drawRail(view, rail, y);
      rail.since = y;
    }
    rail.part = part;
  }
}

function endRails(view, rails) {
  const bottom = view.to === rowCount() ? view.height - 10 - ROW / 2 + 8 : view.height;
  for (const rail of rails) drawRail(view, rail, bottom);
}

function drawRail(view, rail, until) {
  const { value, waits } = rail.part;
  if (value === null || until <= rail.since) return;
  const box = { x: columnOf(rail.agent) - 5, y: rail.since, width: 10, height: until - rail.since };
  view.layers.rails.append(shape('rect', { ...box, fill: colourOf(rail.agent, value) }));
  if (waits) view.layers.rails.append(shape('rect', { ...box, fill: `url(#${view.pattern})` }));
}

function waitPattern(id) {
  const parts = [
    shape('rect', { width: 5, height: 5, fill: 'var(--card)', opacity: .15 }),
    shape('rect', { width: 2.4, height: 5, fill: 'var(--nogood)' }),
  ];
  const turned = { patternUnits: 'userSpaceOnUse', patternTransform: 'rotate(45)' };
  return shape('defs', {}, [shape('pattern', { id, width: 5, height: 5, ...turned }, parts)]);
}

// -- rows: the number, the outcome, values that are taken, nogoods that are derived

function drawRow(view, event, before, after) {
  const { labels } = view.layers, y = view.y(event.number);
  if (event.number) labels.append(shape('text', { class: 'row-number', x: GUTTER - 14, y: y + 4 }, [event.number]));
  for (const deed of event.deeds) {
    if (deed.agent === null) continue;
    const x = columnOf(deed.agent);
    if (deed.name === 'makes') labels.append(shape('path', { class: 'diamond', d: `M${x},${y - 8}l8,8l-8,8l-8,-8z` }));
    if (deed.name === 'takes' && !(before && before.value === deed.value)) drawTaking(view, event, deed, x, y);
  }
  if (event.message) drawLabel(view, event.message, y);
  const { look, words } = outcomeOf(event, before, after);
  const letters = Math.floor((chart.outcome - 24) / 6.8) - words.length - 1;
  const name = event.message ? shorten(page.variables[event.receiver].label, Math.max(8, letters)) + ' ' : '';
  const x = GUTTER + agentCount * chart.column + 16;
  const outcome = shape('text', { class: 'outcome ' + look, x, y }, [name + words]);
  outcome.append(shape('title', {}, [sentenceOf(event, before, after)]));
  labels.append(outcome);
}

/* The value that is taken stands on the side of the rail that the message does not come from. */
function drawTaking(view, event, deed, x, y) {
  const left = event.message && columnOf(event.message.from) > x;
  const spot = left ? { x: x - 11, y, 'text-anchor': 'end' } : { x: x + 11, y };
  view.layers.labels.append(shape('rect', { class: 'taking', x: x - 7, y: y - 1, width: 14, height: 2 }),
    shape('text', { class: 'value-label', ...spot }, [chartValue(deed.agent, deed.value)]));
}

// -- arrows: slanted from the sending, and level at the delivery, where the label stands

function cargoText(message) {
  if (message.kind === 'ok') return chartValue(message.from, message.cargo);
  return message.kind === 'nogood' ? 'n' + message.cargo : chart.shortValues ? '+' : 'link';
}

/* The level end of an arrow: from the rail of its receiver to where its slanted part begins. */
function levelEnd(message) {
  const x = columnOf(message.to), way = columnOf(message.from) - x, side = Math.sign(way);
  const width = labelWidth(cargoText(message)), length = Math.min(width + 20, Math.abs(way) - 8);
  return { rail: x + side * 7, bend: x + side * Math.max(12, length), label: x + side * (16 + width / 2), width, side };
}

/* The way of an arrow up to its level end. */
function wayTo(view, message, level, y) {
  return `M${columnOf(message.from) - level.side * 6},${view.y(message.sent) + 2}L${level.bend},${y}`;
}

function drawArrow(view, message) {
  const level = levelEnd(message), isOpen = message.got === null;
  const y = isOpen ? (rowCount() - view.from) * ROW + 6 : view.y(message.got), tip = level.rail + level.side * 8;
  const way = wayTo(view, message, level, y), look = `line ${message.kind}` + (isOpen ? ' undelivered' : '');
  view.layers.arrows.append(shape('path', { class: look, d: isOpen ? way : `${way}H${tip}` }));
  if (isOpen) return;
  const head = `M${level.rail},${y}L${tip},${y - 4}V${y + 4}z`;
  view.layers.arrows.append(shape('path', { class: 'tip ' + message.kind, d: head }));
}

/* The messages of the causal chain that is shown, drawn below the arrows. */
function drawChain(view) {
  const parts = [];
  for (const id of view.reach) {
    if (!chart.chain.has(id)) continue;
    const message = story.messages[id], level = levelEnd(message);
    const way = wayTo(view, message, level, view.y(message.got)) + 'H' + level.rail;
    parts.push(shape('path', { class: 'chain', d: way }));
  }
  view.layers.chain.replaceChildren(...parts);
}

function drawLabel(view, message, y) {
  const { label, width } = levelEnd(message), { kind } = message;
  const box = shape('rect', { class: 'label-box ' + kind, x: label - width / 2, y: y - 8, width, height: 16 });
  box.setAttribute('rx', kind === 'ok' ? 8 : 3);
  const text = shape('text', { class: 'message-label ' + kind, x: label, y: y + .5 }, [cargoText(message)]);
  if (kind === 'ok') {
    box.style.fill = colourOf(message.from, message.cargo);
    text.style.fill = inkOn(message.from, message.cargo);
  }
  view.layers.labels.append(box, text);
}
