// ---- Measures of the sequence chart: its columns and rows

const ROW = 26, PIECE = 30;           // the height of a row, and how many rows are drawn at once
const GUTTER = 52;                    // for the numbers of deliveries
const MOST_AT_ONCE = 1500;            // rows of a printed or saved chart
const MOST_PASSING = 1000;            // arrows that only pass a piece

const chart = {
  room: 0, column: 0, width: 0, shortValues: false,
  outcome: 0,                         // the room for what came of each delivery
  rows: null,                         // the events that are shown, null for all
  pieces: new Map(),                  // the drawn pieces by their numbers
  chain: new Set(),                   // the messages of the causal chain that is shown
  state: blankState(),                // where the last drawn piece ended
};

function labelWidth(text) {
  return 6.8 * text.length + 9;
}

/* The widest label of a value, as the chart writes it. */
function widestValue() {
  let widest = 1;
  for (let agent = 0; agent < agentCount; agent += 1) {
    const { bool, ranges } = page.variables[agent];
    if (!bool) for (const ends of ranges) widest = Math.max(widest, ends[0].length, ends[1].length);
  }
  return labelWidth('9'.repeat(widest));
}

function measureColumns(room) {
  const least = Math.max(agentCount <= 12 ? 46 : agentCount <= 30 ? 40 : 34, agentCount <= 12 ? widestValue() + 16 : 0);
  const left = room - 16 - GUTTER - agentCount * least;
  chart.outcome = clamp(left, 270, agentCount <= 8 ? 310 : 270);
  const fair = Math.floor((room - 16 - GUTTER - chart.outcome) / Math.max(1, agentCount));
  chart.column = clamp(fair, least, Math.max(least, 150));
  chart.shortValues = chart.column < 60;
  chart.width = GUTTER + agentCount * chart.column + chart.outcome;
}

/* The middle of the agent's column. */
function columnOf(agent) {
  return GUTTER + chart.column / 2 + placeOf[agent] * chart.column;
}

/* A value as the chart writes it. */
function chartValue(agent, value) {
  return chart.shortValues ? shorten(shortValue(agent, value), 6) : valueText(agent, value);
}

// -- rows: one for each event, or for each in which the chosen agent takes part

/* The events in which the agent gets or has sent the message. */
function eventsWith(agent) {
  const found = [0];
  for (let number = 1; number <= last; number += 1) {
    const message = story.delivered[number];
    if (message.from === agent || message.to === agent) found.push(number);
  }
  return found;
}

function rowCount() {
  return chart.rows ? chart.rows.length : last + 1;
}

function eventAt(row) {
  return chart.rows ? chart.rows[row] : row;
}

/* The last row whose event is not after this one. */
function rowUpTo(number) {
  if (!chart.rows) return number;
  let low = 0, high = chart.rows.length - 1;
  while (low < high) {
    const middle = (low + high + 1) >> 1;
    if (chart.rows[middle] <= number) low = middle;
    else high = middle - 1;
  }
  return low;
}

/* Where an event stands in rows: in the middle of its row, or between two rows where it has none. */
function heightOf(number) {
  const row = rowUpTo(number);
  return eventAt(row) === number ? row + .5 : row + 1;
}

/* The next shown event after this one, or the one before it. */
function shownAfter(number) {
  if (!chart.rows) return number + 1;
  const row = rowUpTo(number) + 1;
  return row < rowCount() ? eventAt(row) : last;
}

function shownBefore(number) {
  if (!chart.rows) return number - 1;
  const row = rowUpTo(number);
  return eventAt(row) < number ? eventAt(row) : eventAt(Math.max(0, row - 1));
}
