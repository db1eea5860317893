// ---- Names, values and colours

/* What the reader has chosen. */
const settings = { numbers: false, agent: null, chain: 'none' };

function numberOf(agent) {
  return 'v' + (agent + 1);
}

/* The agent's name in the model, with its number where numbers are asked for. */
function nameOf(agent, most = 72) {
  const label = shorten(page.variables[agent].label, most);
  return settings.numbers && label !== numberOf(agent) ? `${label} (${numberOf(agent)})` : label;
}

function valueText(agent, value) {
  if (page.variables[agent].bool) return value === '1' ? 'true' : 'false';
  return value.replace('-', MINUS);
}

/* The value as it is written where there is little room. */
function shortValue(agent, value) {
  return page.variables[agent].bool ? (value === '1' ? 'T' : 'F') : valueText(agent, value);
}

function pairText(pair) {
  return `${nameOf(pair.of)} = ${valueText(pair.of, pair.value)}`;
}

function nogoodText(nogood) {
  return nogood.length ? `not (${nogood.map(pairText).join(' and ')})` : 'the empty nogood';
}

/* The text of a reason such as c3 or n12. */
function reasonText(reason) {
  const number = Number(reason.slice(1));
  return reason[0] === 'c' ? page.rules[number - 1] : nogoodText(log.step(number).nogood);
}

/* The ruled out values of an agent with their reasons. */
function reasonsOf(part) {
  const found = new Map();
  for (const word of part.out ? part.out.split(' ') : []) {
    const colon = word.lastIndexOf(':');
    found.set(word.slice(0, colon), word.slice(colon + 1));
  }
  return found;
}

// -- domains

function domainSize(agent) {
  let size = 0n;
  for (const [low, high] of page.variables[agent].ranges) size += BigInt(high) - BigInt(low) + 1n;
  return Number(size);
}

/* The values of the domain in rising order, at most this many of them. */
function domainOf(agent, most = Infinity) {
  const values = [];
  for (const [low, high] of page.variables[agent].ranges) {
    for (let value = BigInt(low); value <= BigInt(high) && values.length < most; value += 1n) values.push(String(value));
  }
  return values;
}

// -- colours: one for each value, whoever has it. Each value is also written, so no colour is needed to read the page.
// Those for few values were chosen so that any two are apart in sight of all colours, and where one of three is missing.

const FEW = ['#56a5d8', '#f0a63a', '#24644f', '#f2df7e', '#4a3fb0', '#7d5912', '#c4e9d0', '#99a366',
  '#7d126b', '#eb7099', '#9970eb', '#94e0f0', '#7d1224', '#737345', '#b42d9d', '#b4872d'];
const MANY = ['#00336f', '#3f4c6b', '#666970', '#8b8779', '#b4a76f', '#dfca5a', '#ffe945'];
const TRUE_FALSE = ['#c3cad5', '#4a5f86'];

/* The integers that occur, where they are few, with their places; and the least and the greatest. */
const occurring = (() => {
  const places = new Map();
  let low = Infinity, high = -Infinity;
  for (let agent = 0; agent < agentCount; agent += 1) {
    const { bool, ranges } = page.variables[agent];
    if (bool || !ranges.length) continue;
    low = Math.min(low, Number(ranges[0][0]));
    high = Math.max(high, Number(ranges[ranges.length - 1][1]));
    if (places.size > FEW.length) continue;
    for (const value of domainOf(agent, FEW.length + 1)) places.set(value, 0);
  }
  [...places.keys()].sort((a, b) => Number(a) - Number(b)).forEach((value, place) => places.set(value, place));
  return { places, low, high };
})();

function colourOf(agent, value) {
  if (value === null) return 'var(--rail)';
  if (page.variables[agent].bool) return TRUE_FALSE[Number(value)];
  if (occurring.places.size <= FEW.length) return FEW[occurring.places.get(value)];
  return scaled((Number(value) - occurring.low) / Math.max(1, occurring.high - occurring.low));
}

/* A colour between dark blue and yellow, by its share; the lightness rises with it. */
function scaled(share) {
  const place = clamp(share, 0, 1) * (MANY.length - 1), below = Math.min(MANY.length - 2, Math.floor(place));
  const mixed = [1, 3, 5].map(at => {
    const [a, b] = [MANY[below], MANY[below + 1]].map(colour => parseInt(colour.slice(at, at + 2), 16));
    return Math.round(a + (b - a) * (place - below)).toString(16).padStart(2, '0');
  });
  return '#' + mixed.join('');
}

/* Black or white, whichever is read better on the colour of the value. */
function inkOn(agent, value) {
  if (value === null) return 'var(--ink)';
  const colour = colourOf(agent, value);
  const [red, green, blue] = [1, 3, 5].map(at => parseInt(colour.slice(at, at + 2), 16));
  return .299 * red + .587 * green + .114 * blue > 128 ? '#14181f' : '#ffffff';
}

// -- parts of sentences

function chip(agent, value, look) {
  const made = element('span', { class: 'chip ' + look }, element('span', {}, valueText(agent, value)));
  if (look === 'current') {
    made.style.background = colourOf(agent, value);
    made.style.color = inkOn(agent, value);
  }
  return made;
}

function pairChip(pair) {
  const swatch = element('span', { class: 'swatch' });
  swatch.style.background = colourOf(pair.of, pair.value);
  return element('span', { class: 'pair', title: page.variables[pair.of].name }, swatch, pairText(pair));
}

function nogoodParts(nogood) {
  if (!nogood.length) return [element('b', {}, 'no solution')];
  return ['not (', ...nogood.flatMap((pair, place) => place ? [' and ', pairChip(pair)] : [pairChip(pair)]), ')'];
}
