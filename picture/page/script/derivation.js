// ---- Derivations as trees, whose parts are made when they are unfolded

const MOST_UNFOLDED = 2000, MOST_LISTED = 40, MOST_BELOW = 6;

/* A tree in the given section. `steps` has the steps of a log; `place` tells the event that made a step, or null;
   `domain` tells the values of an agent. */
class Tree {
  constructor(section, steps, prefix, place, domain) {
    Object.assign(this, { section, steps, prefix, place, domain });
    this.box = section.querySelector('.tree');
    this.parents = new Map();      // of each step the one under which it is shown whole, and null at the top
    section.querySelector('.unfold').onclick = () => this.unfoldAll();
    section.querySelector('.fold').onclick = () => this.foldAll();
    section.querySelector('.save').onclick = () => saveTree(this);
  }

  /* Shows what the step stands on, and tells how many steps these are. A step is shown whole where it comes first. */
  showProof(root) {
    const waiting = [[root, null]];
    while (waiting.length) {
      const [number, parent] = waiting.pop();
      if (this.parents.has(number)) continue;
      this.parents.set(number, parent);
      const cited = [...new Set(this.steps.step(number).reasons)].filter(reason => reason[0] === 'n');
      for (const reason of cited.reverse()) waiting.push([Number(reason.slice(1)), number]);
    }
    const top = this.part(root, null);
    this.box.append(top);
    this.unfold(top);
    const below = [...top.querySelectorAll(':scope > details')];
    if (below.length <= MOST_BELOW) below.forEach(part => this.unfold(part));
    return this.parents.size;
  }

  /* Shows all steps in their order, as far as they are not too many. */
  showList() {
    for (let number = 1; number <= this.steps.count; number += 1) this.parents.set(number, null);
    this.listMore();
  }

  listMore() {
    const begun = this.box.childElementCount;
    const end = Math.min(this.steps.count, begun + MOST_LISTED);
    for (let number = begun + 1; number <= end; number += 1) this.box.append(this.part(number, null));
    if (end === this.steps.count) return;
    const more = element('button', { class: 'small no-print', onclick: () => { more.remove(); this.listMore(); } },
      `Show more of the ${grouped(this.steps.count)} nogoods`);
    this.box.append(more);
  }

  id(number) {
    return `${this.prefix}${number}`;
  }

  partOf(number) {
    return byId(this.id(number));
  }

  /* The step as it is shown under `parent`, after what stands `before` it. */
  part(number, parent, before = []) {
    const step = this.steps.step(number);
    const words = [...before, signed('n' + number), ' ', ...nogoodParts(step.nogood)];
    if (this.parents.get(number) !== parent) return element('div', { class: 'case' }, ...words, ' ', this.linkTo(number));
    const summary = element('summary', {}, ...words);
    if (step.maker !== null) summary.append(element('span', { class: 'sub' }, ' by ' + nameOf(step.maker)));
    const place = this.place(number);
    if (place !== null) summary.append(placeButton(place));
    const part = element('details', { id: this.id(number) }, summary);
    part.addEventListener('toggle', () => part.open && this.fill(part, step));
    part.step = step;
    return part;
  }

  linkTo(number) {
    const follow = pressed => {
      pressed.preventDefault();
      this.reveal(number);
    };
    return element('a', { href: '#' + this.id(number), onclick: follow }, 'shown elsewhere');
  }

  /* Makes what stands below a step: for each value of its agent the reason, values of one reason together. */
  fill(part, step) {
    if (part.filled) return;
    part.filled = true;
    if (step.maker === null) {
      const [reason] = step.reasons;
      part.append(element('div', { class: 'case' }, signed(reason), ' ', reasonText(reason), ' is false'));
      return;
    }
    const groups = new Map(), values = this.domain(step.maker);
    step.reasons.forEach((reason, place) => groups.set(reason, [...(groups.get(reason) || []), values[place]]));
    for (const [reason, ruledOut] of groups) {
      const chips = ruledOut.slice(0, MOST_CHIPS).map(value => chip(step.maker, value, 'current'));
      const before = [nameOf(step.maker), ' = ', ...chips, ...rest(ruledOut.length - MOST_CHIPS), ' ✗ '];
      const constraint = () => [signed(reason), ' ', element('span', { class: 'reason' }, reasonText(reason))];
      part.append(reason[0] === 'n' ? this.part(Number(reason.slice(1)), step.number, before)
        : element('div', { class: 'case' }, ...before, ...constraint()));
    }
  }

  unfold(part) {
    this.fill(part, part.step);
    part.open = true;
  }

  foldAll() {
    for (const part of this.box.querySelectorAll('details')) part.open = false;
  }

  /* Unfolds all parts, as far as they are not too many. */
  unfoldAll() {
    const waiting = [...this.box.querySelectorAll(':scope > details')].reverse();
    for (let count = 0; waiting.length && count < MOST_UNFOLDED; count += 1) {
      const part = waiting.pop();
      this.unfold(part);
      waiting.push(...[...part.querySelectorAll(':scope > details')].reverse());
    }
  }

  /* Unfolds what leads to a step, and moves to it. */
  reveal(number) {
    const path = [];
    for (let at = number; at !== null && at !== undefined; at = this.parents.get(at)) path.unshift(at);
    for (const at of path) if (this.partOf(at)) this.unfold(this.partOf(at));
    const part = this.partOf(number);
    if (!part) return;
    part.scrollIntoView({ block: 'center', behavior: stillness.matches ? 'auto' : 'smooth' });
    const summary = part.firstChild;
    summary.focus({ preventScroll: true });
    summary.classList.remove('flash');
    summary.getBoundingClientRect();
    summary.classList.add('flash');
  }
}

/* A button in a summary that shows the delivery at which the step was made. */
function placeButton(place) {
  const show = pressed => {
    pressed.preventDefault();
    go(place, true);
  };
  const about = { class: 'at', title: 'Show where it was derived', onclick: show };
  return element('button', about, place ? 'delivery ' + place : 'start');
}

let trees = [];

function buildTrees() {
  for (const tree of trees) tree.box.replaceChildren();
  trees = [];
  buildDerivation();
  buildLastRound();
}

function buildDerivation() {
  const section = byId('derivation'), hint = byId('derivation-hint'), title = byId('derivation-title');
  const tree = new Tree(section, log, 'n', number => story.madeAt[number], domainOf);
  trees.push(tree);
  if (story.verdict === 'refuted') {
    title.textContent = 'Why there is no solution';
    const needed = tree.showProof(log.count);
    hint.textContent = 'The empty nogood, and what each value of its agent fell to. '
      + `It needs ${grouped(needed)} of the ${grouped(log.count)} nogoods derived.`;
    return;
  }
  title.textContent = 'What was derived' + (page.aim && page.aim.variable !== null ? ' in round 1' : '');
  hint.textContent = log.count
    ? `${counted(log.count, 'nogood')}, in order. Each follows from the constraints, whatever the agents’ values are.`
    : 'No nogood was needed.';
  section.querySelector('.tools').hidden = log.count === 0;
  tree.showList();
}

/* The refutation of better values, from the last round of a search. */
function buildLastRound() {
  const text = textOf('last-log');
  if (text === null) return;
  byId('last-round').hidden = false;
  const steps = readLog(text), aimed = page.aim.variable, better = page.aim.sense === 'minimize' ? 'less' : 'greater';
  const domain = agent => agent === aimed && page.best !== null ? betterValues() : domainOf(agent);
  const tree = new Tree(byId('last-round'), steps, 'last-n', () => null, domain);
  trees.push(tree);
  const needed = tree.showProof(steps.count);
  const name = nameOf(aimed), best = page.best === null ? null : valueText(aimed, page.best);
  byId('last-round-title').textContent = best === null ? 'Why there is no better value'
    : `Why no value of ${name} is better than ${best}`;
  byId('last-round-hint').textContent = 'This is the last round of the search, another run than the one above: '
    + (best === null ? `${name} had only better values left. ` : `${name} had only the values ${better} than ${best} left. `)
    + `Its empty nogood needs ${grouped(needed)} of its ${grouped(steps.count)} nogoods.`;
}

/* The values of the aim's variable that are better than the best value found. */
function betterValues() {
  const values = domainOf(page.aim.variable), place = values.indexOf(page.best);
  return page.aim.sense === 'minimize' ? values.slice(0, place) : values.slice(place + 1);
}
