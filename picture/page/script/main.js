// ---- The page as it opens

const MOST_RULES = 1000;

function showHead() {
  const verdicts = { solved: '✓ solved', refuted: '✗ no solution', open: 'unfinished' };
  byId('verdict').textContent = verdicts[story.verdict];
  byId('verdict').classList.add(story.verdict);
  const counts = [counted(agentCount, 'agent'), counted(page.rules.length, 'constraint')];
  byId('lead').textContent = counts.join(', ') + searchWords();
}

/* Of a model with an aim: which round is shown, and how the search ended. */
function searchWords() {
  if (!page.aim) return '';
  const { sense, variable } = page.aim;
  if (variable === null) return '. The aim is a number, so any solution is best';
  const wanted = sense === 'minimize' ? 'least' : 'greatest';
  const words = `. Round 1 of a search for the ${wanted} value of ${nameOf(variable)}`;
  return page.best === null ? words : `${words}; the search found ${valueText(variable, page.best)}`;
}

function buildRules() {
  byId('rules-count').textContent = grouped(page.rules.length);
  whenOpened('rules-box', () => {
    const line = (text, place) => element('li', {}, signed('c' + (place + 1)), ' ', text);
    const lines = page.rules.slice(0, MOST_RULES).map(line);
    byId('rules').replaceChildren(...lines, ...rest(page.rules.length - MOST_RULES));
  });
}

function changeTheme() {
  const root = document.documentElement;
  root.dataset.theme = getComputedStyle(root).colorScheme === 'dark' ? 'light' : 'dark';
}

function open() {
  byId('app').hidden = false;
  if (agentCount > 10) byId('grid').classList.add('many');
  buildGraph();
  buildLegend();
  buildAgents();
  nameNodes();
  nameAgents();
  buildChart();
  buildTrees();
  buildFigures();
  buildStrip();
  buildRules();
  showHead();
  whenOpened('texts-box', buildTexts);
  whenOpened('words-box', showWords);
  byId('save-chart').onclick = saveChart;
  byId('theme').onclick = changeTheme;
  addEventListener('beforeprint', preparePrint);
  addEventListener('afterprint', clearPrint);
  listen();
  go(addressed() ?? 0, true);
  document.documentElement.dataset.opened = Math.round(performance.now());
}

open();
