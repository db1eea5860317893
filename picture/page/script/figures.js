// ---- The measures of the run

const MOST_COLUMNS = 60;

function buildFigures() {
  const measures = readMeasures(textOf('measures')), figure = name => measures.figures.get(name) ?? '?';
  const kinds = [['ok', 'ok?'], ['nogood', 'nogood'], ['link', 'link']]
    .map(([kind, word]) => `${grouped(figure('deliveries ' + kind))} ${word}`);
  const tiles = [
    ['deliveries', `deliveries: ${kinds.join(', ')}`],
    ['steps', 'nogoods derived'],
    ['longest-chain', 'messages in the longest causal chain'],
    ['concurrent-checks', `non-concurrent checks, of ${grouped(figure('checks'))} in all`],
    ['recorded', 'nogoods kept at once, at the most'],
    ['transit', 'messages in transit at once, at the most'],
    ['links-added', 'links added'],
  ];
  for (const [name, words] of tiles) {
    const number = element('b', {}, grouped(figure(name)));
    byId('tiles').append(element('div', { class: 'tile' }, number, element('span', {}, words)));
  }
  whenOpened('each-box', () => byId('each').replaceChildren(eachTable(measures)));
  const learned = agentCount > MOST_COLUMNS ? learnedList : learnedTable;
  whenOpened('learned-box', () => byId('learned').replaceChildren(learned(measures)));
}

/* Parts of the page whose inside is made when they are opened, anew each time. */
const makers = new Map();

function whenOpened(id, make) {
  makers.set(id, make);
  byId(id).addEventListener('toggle', () => byId(id).open && make());
}

/* Opens such a part at once, and tells whether it was closed. */
function openPart(id) {
  const wasOpen = byId(id).open;
  byId(id).open = true;
  if (makers.has(id)) makers.get(id)();
  return !wasOpen;
}

function eachTable(measures) {
  const heads = ['Agent', 'sent: ok?', 'nogood', 'link', 'got: ok?', 'nogood', 'link', 'checks of constraints', 'of nogoods',
    'nogoods kept, at most', 'values taken'];
  const rows = measures.agents.map(({ agent, numbers }) => {
    const cells = numbers.map(number => element('td', {}, grouped(number)));
    return element('tr', {}, element('th', { scope: 'row' }, nameOf(agent, 40)), ...cells);
  });
  return element('table', {}, element('tr', {}, ...heads.map(head => element('th', { scope: 'col' }, head))), ...rows);
}

function learnedTable(measures) {
  const found = new Map(measures.learned.map(entry => [entry.by + ' ' + entry.of, entry]));
  const short = agent => agentCount <= 8 ? shorten(nameOf(agent), 16) : numberOf(agent);
  const named = agentCount <= 8 || settings.numbers;
  const full = agent => named ? nameOf(agent, 40) : `${nameOf(agent, 40)} (${numberOf(agent)})`;
  const heads = order.map(of => element('th', { scope: 'col', title: nameOf(of) }, short(of)));
  const rows = order.map(by => {
    const cells = order.map(of => by === of ? element('td', {}, '·') : shareCell(found.get(by + ' ' + of)));
    return element('tr', {}, element('th', { scope: 'row' }, full(by)), ...cells);
  });
  return element('table', {}, element('tr', {}, element('th'), ...heads), ...rows);
}

function shareCell(entry) {
  if (!entry) return element('td');
  const cell = element('td', { class: 'share' }, `${entry.count}/${entry.all}`);
  cell.style.setProperty('--part', entry.count / entry.all);
  return cell;
}

function learnedList(measures) {
  const lines = measures.learned.slice(0, 1000)
    .map(({ by, of, count, all }) => element('li', {}, `${nameOf(by)} learned ${count} of ${all} values of ${nameOf(of)}`));
  return element('ul', {}, ...lines, ...rest(measures.learned.length - 1000));
}
