// ---- Pictures to keep, and paper

const TREE_LINE = 22, TREE_INDENT = 22;

/* The rules of this page for drawings, with the light colours. */
function drawingRules() {
  const rules = [...document.styleSheets[0].cssRules];
  const colours = rules[0].cssText.replace(':root', 'svg');
  const ofDrawings = rules.filter(rule => (rule.selectorText || '').startsWith('.drawing'));
  return [colours, ...ofDrawings.map(rule => rule.cssText)].join('\n');
}

function saveDrawing(parts, width, height, name) {
  const style = shape('style', {}, [drawingRules()]);
  const ground = shape('rect', { width, height, fill: '#fff' });
  const whole = drawing(width, height, [style, ground, ...parts]);
  saveFile(new XMLSerializer().serializeToString(whole), 'image/svg+xml', name + '.svg');
}

function saveFile(text, type, name) {
  const address = URL.createObjectURL(new Blob([text], { type }));
  element('a', { href: address, download: fileName(name) }).click();
  setTimeout(() => URL.revokeObjectURL(address), 60000);
}

function fileName(name) {
  return shorten(page.title.replace(/[^A-Za-z0-9_.-]+/g, '-') || 'run', 60) + '-' + name;
}

/* Of a long chart the rows around the delivery that is shown. */
function rowsToKeep() {
  const row = rowUpTo(player.state.at);
  const from = rowCount() <= MOST_AT_ONCE ? 0 : clamp(row - MOST_AT_ONCE / 2, 0, rowCount() - MOST_AT_ONCE);
  return { from, to: Math.min(rowCount(), from + MOST_AT_ONCE) };
}

function saveChart() {
  const { from, to } = rowsToKeep(), names = namesDrawing(), rows = drawRows(from, to);
  const top = Number(names.getAttribute('height')), height = Number(rows.getAttribute('height'));
  rows.setAttribute('y', top);
  saveDrawing([names, rows], chart.width, top + height, 'chart');
}

/* The tree as far as it is unfolded, a line for each step or case. */
function saveTree(tree) {
  const parts = [];
  let row = 0, width = 300;
  for (const line of tree.box.querySelectorAll('summary, .case')) {
    if (!line.checkVisibility()) continue;
    let depth = 0;
    const own = line.tagName === 'SUMMARY' ? line.parentNode : line;
    for (let at = own.parentNode; at !== tree.box; at = at.parentNode) depth += 1;
    const text = shorten(lineText(line), 240), x = depth * TREE_INDENT + 10, y = row * TREE_LINE + 18;
    if (depth) parts.push(shape('path', { class: 'tree-line', d: `M${x - 14},${y - TREE_LINE + 8}V${y - 4}H${x - 4}` }));
    parts.push(shape('text', { class: 'tree-text', x, y }, [text]));
    width = Math.max(width, x + 7.6 * text.length + 20);
    row += 1;
  }
  saveDrawing(parts, width, row * TREE_LINE + 20, tree.prefix === 'n' ? 'derivation' : 'last-round');
}

/* The words of a line of a tree, without its buttons and links. */
function lineText(line) {
  const copy = line.cloneNode(true);
  copy.querySelectorAll('button, a').forEach(part => part.remove());
  copy.querySelectorAll('.chip').forEach(part => part.after(' '));
  return copy.textContent.replace(/\s+/g, ' ').trim();
}

// -- the texts

const MOST_SHOWN = 200000;
const TEXTS = [
  ['story', 'Story', 'story.txt'], ['log', 'Log', 'log.ngd'], ['measures', 'Measures', 'measures.txt'],
  ['model', 'Model', 'model.fzn'], ['last-log', 'Log of the last round', 'last-round.ngd'],
];

function buildTexts() {
  const parts = [];
  for (const [name, head, file] of TEXTS) {
    const text = textOf(name);
    if (text === null) continue;
    const save = element('button', { class: 'small', onclick: () => saveFile(text, 'text/plain', file) }, 'Save');
    const shown = text.length > MOST_SHOWN ? text.slice(0, MOST_SHOWN) + '…' : text;
    parts.push(element('h3', {}, head + ' ', save), element('pre', { tabindex: '0' }, shown));
  }
  byId('texts').replaceChildren(...parts);
}

// -- paper: a large tree is printed as far as it is unfolded, and the chart in pieces that a sheet has room for

const MOST_ON_PAPER = 100, PAPER_ROWS = 20;

let opened = [];      // the parts of the page that were opened for paper alone

function preparePrint() {
  const { from, to } = rowsToKeep(), pieces = [];
  for (let row = from; row < to; row += PAPER_ROWS) {
    pieces.push(element('div', { class: 'paper-piece' }, namesDrawing(), drawRows(row, Math.min(to, row + PAPER_ROWS))));
  }
  byId('chart-print').replaceChildren(...pieces);
  opened = ['legend-box', 'rules-box', 'words-box'].filter(openPart);
  if (last <= MOST_AT_ONCE) fillWords(0, last);
  for (const tree of trees) if (tree.parents.size <= MOST_ON_PAPER) tree.unfoldAll();
}

function clearPrint() {
  byId('chart-print').replaceChildren();
  for (const id of opened) byId(id).open = false;
  wordsFrom = null;
}
