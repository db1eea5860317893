// ---- What the signs mean

function buildLegend() {
  for (const [sign, words] of [...messageSigns(), ...agentSigns(), ...chartSigns(), ...wordSigns()]) {
    byId('legend').append(legendLine(sign, words));
  }
  const keys = legendLine('← →', 'keys: one delivery back and on, Home to the start, End to the end; '
    + 'space plays and pauses, n goes to the next nogood');
  keys.classList.add('no-print');
  byId('legend').append(keys);
}

function legendLine(sign, words) {
  return element('div', {}, element('span', { class: 'sample' }, sign), element('span', {}, words));
}

function sample(...children) {
  return drawing(52, 18, children);
}

function messageSigns() {
  const line = kind => shape('path', { class: 'line ' + kind, d: 'M4,9H40' });
  const tip = kind => shape('path', { class: 'tip ' + kind, d: 'M39,5L48,9L39,13z' });
  const arrow = kind => sample(line(kind), tip(kind));
  return [
    [arrow('ok'), 'ok?: an agent tells its value'],
    [arrow('nogood'), 'a nogood: values that cannot stand together, told to the lowest of the agents in it'],
    [arrow('link'), 'a link request: an agent asks to be told the values of another'],
    [sample(shape('rect', { x: 16, y: 1, width: 20, height: 16, rx: 8, fill: FEW[0] })),
      'a message in transit or an agent’s value; each value has a colour of its own'],
  ];
}

function agentSigns() {
  const halo = () => shape('circle', { class: 'halo', r: 7 });
  const placed = (look, child) => sample(shape('g', { class: look, transform: 'translate(26,9)' }, [child]));
  const badge = shape('g', { class: 'badge' }, [shape('circle', { r: 8 }), shape('text', {}, ['2'])]);
  return [
    [placed('now', halo()), 'the agent that got the message of this delivery'],
    [placed('waits', halo()), 'the agent waits: it has sent a nogood, and its view has not changed since'],
    [placed('node', badge), 'how many nogoods the agent keeps'],
    [placed('', shape('path', { class: 'diamond', d: 'M0,-8l8,8l-8,8l-8,-8z' })), 'a nogood is derived here'],
  ];
}

function chartSigns() {
  const rail = fill => shape('rect', { x: 21, y: 0, width: 10, height: 18, fill });
  return [
    [sample(rail(FEW[1]), shape('rect', { class: 'taking', x: 19, y: 8, width: 14, height: 2 })),
      'in the chart, an agent’s value over time; the bar shows where it is taken'],
    [sample(waitPattern('legend-waits'), rail(FEW[1]), rail('url(#legend-waits)')), 'hatched: the agent waits'],
    [sample(shape('path', { class: 'chain', d: 'M4,9H48' })),
      'the causal chain: each message was sent when the one before it was delivered, or later by the same agent'],
  ];
}

function wordSigns() {
  const ruledOut = element('span', { class: 'chip out' }, element('span', {}, '9'), element('span', { class: 'why' }, 'c2'));
  return [
    [ruledOut, 'a value that is ruled out, with the reason: constraint c2 of the model, or nogood n2'],
    ['⟦x < y⟧', 'true or false: whether the constraint in the brackets holds; [x < y] is the same as 1 or 0'],
    ['¬ ∧ ∨ ⇔', 'not; and; or; exactly where'],
  ];
}
