// ---- Moving through the run

const player = { state: blankState(), event: null, sentence: '', timer: null, naming: null };

/* Shows the run after this delivery. `jumped` leaves out the movement of messages. */
function go(wanted, jumped) {
  const number = clamp(wanted, 0, last), isNext = number === player.state.at + 1;
  player.state = seek(player.state, number - 1);
  const { state } = player, event = eventOf(story, number), { receiver } = event;
  const before = receiver === null ? null : state.agents[receiver];
  advance(state);
  player.event = event;
  player.sentence = sentenceOf(event, before, receiver === null ? null : state.agents[receiver]);
  drawEvent(jumped || !isNext);
}

/* Shows the state of the player in all parts of the page. */
function drawEvent(jumped) {
  const { state, event } = player, number = state.at;
  drawGraph(state, event, jumped);
  drawAgents(state, event);
  if (settings.chain === 'here') showChain();
  markChart(number);
  markStrip(number);
  const count = number ? `Delivery ${grouped(number)} of ${grouped(last)}`
    : `Start of ${counted(last, 'delivery', 'deliveries')}`;
  byId('count').textContent = count;
  byId('sentence').textContent = player.sentence;
  if (!player.timer) byId('live').textContent = `${count}. ${player.sentence}`;
  byId('slider').value = number;
  byId('slider').setAttribute('aria-valuetext', count);
  byId('first').disabled = byId('back').disabled = number === 0;
  byId('last').disabled = byId('next').disabled = number === last;
  if (number === last && player.timer) play(false);
  if (byId('words-box').open) showWords();
  nameInAddress(number);
}

/* The address names the delivery, a moment after the last move, so that it can be handed on; but not where the reader
   has changed it meanwhile. */
function nameInAddress(number) {
  const { hash } = location;
  clearTimeout(player.naming);
  player.naming = setTimeout(() => {
    if (location.hash === hash && addressed() !== number) history.replaceState(null, '', '#d=' + number);
  }, 250);
}

/* The delivery that the address names, or null. */
function addressed() {
  const found = /^#d=(\d{1,9})$/.exec(location.hash);
  return found ? clamp(Number(found[1]), 0, last) : null;
}

function play(on) {
  clearInterval(player.timer);
  player.timer = null;
  if (on) {
    if (player.state.at === last) go(0, true);
    player.timer = setInterval(() => go(shownAfter(player.state.at)), Number(byId('speed').value));
  }
  byId('play').textContent = player.timer ? '❚❚ Pause' : '▶ Play';
}

function move(number, jumped) {
  play(false);
  go(number, jumped);
}

function goToNextNogood() {
  let low = 1, high = story.madeAt.length;
  while (low < high) {
    const middle = (low + high) >> 1;
    if (story.madeAt[middle] > player.state.at) high = middle;
    else low = middle + 1;
  }
  if (low < story.madeAt.length) move(story.madeAt[low], true);
  else byId('live').textContent = 'No nogood is derived after this.';
}

const WHOLE_CHART = byId('chart-hint').textContent;

function chooseOrNot(agent) {
  choose(settings.agent === agent ? null : agent);
}

/* Shows an agent alone in the chart and marks it everywhere, or all agents. */
function choose(agent) {
  settings.agent = agent;
  chart.rows = agent === null ? null : eventsWith(agent);
  byId('filter').value = agent === null ? '' : String(agent);
  const count = agent === null ? '' : counted(chart.rows.length - 1, 'delivery', 'deliveries');
  byId('chart-hint').textContent = agent === null ? WHOLE_CHART
    : `The ${count} to or from ${nameOf(agent, 30)}; steps go from one to the next.`;
  layChart();
  drawEvent(true);
  const box = byId('chart');
  if (agent !== null) box.scrollLeft = columnOf(agent) - box.clientWidth / 2;
}

function showChain() {
  chart.chain = chainOf(settings.chain, player.state.at);
  for (const piece of chart.pieces.values()) drawChain(piece.view);
}

/* Names everything anew, after the choice of numbers. */
function nameAll() {
  nameNodes();
  nameAgents();
  layChart();
  wordsFrom = null;
  buildTrees();
  for (const [id, make] of makers) if (byId(id).open) make();
}

// -- the run in words, some deliveries around the one that is shown

const WORDS = 100;
let wordsFrom = null;

function showWords() {
  const from = Math.floor(player.state.at / WORDS) * WORDS;
  if (from !== wordsFrom) fillWords(wordsFrom = from, Math.min(last, from + WORDS - 1));
  for (const line of byId('words').children) line.classList.toggle('now', line.value === player.state.at);
}

function fillWords(from, to) {
  const lines = [];
  walk(from, to, (event, before, after) => {
    lines.push(element('li', { value: event.number }, sentenceOf(event, before, after)));
  });
  byId('words').replaceChildren(...lines);
  byId('words-range').textContent = to - from === last ? ''
    : `deliveries ${grouped(from)} to ${grouped(to)}, around the one that is shown`;
}

// -- buttons and keys

function listen() {
  const press = (id, handler) => { byId(id).onclick = handler; };
  press('first', () => move(0, true));
  press('last', () => move(last, true));
  press('back', () => move(shownBefore(player.state.at), true));
  press('next', () => move(shownAfter(player.state.at)));
  press('play', () => play(!player.timer));
  press('next-nogood', goToNextNogood);
  byId('speed').onchange = () => player.timer && play(true);
  byId('slider').max = last;
  byId('slider').oninput = () => move(Number(byId('slider').value), true);
  byId('filter').onchange = () => choose(byId('filter').value === '' ? null : Number(byId('filter').value));
  byId('chain').onchange = () => {
    settings.chain = byId('chain').value;
    showChain();
  };
  byId('numbers').onchange = () => {
    settings.numbers = byId('numbers').checked;
    nameAll();
    go(player.state.at, true);
  };
  addEventListener('hashchange', () => addressed() !== null && move(addressed(), true));
  addEventListener('keydown', pressKey);
}

function pressKey(pressed) {
  const { tagName, type } = pressed.target;
  if (pressed.ctrlKey || pressed.metaKey || pressed.altKey || tagName === 'SELECT') return;
  const keys = { n: goToNextNogood };
  if (type !== 'range') {
    keys.ArrowRight = () => move(shownAfter(player.state.at));
    keys.ArrowLeft = () => move(shownBefore(player.state.at), true);
    keys.Home = () => move(0, true);
    keys.End = () => move(last, true);
  }
  if (!['BUTTON', 'SUMMARY', 'INPUT', 'A'].includes(tagName)) keys[' '] = () => play(!player.timer);
  if (!keys[pressed.key]) return;
  keys[pressed.key]();
  pressed.preventDefault();
}
