// The parts of this script are joined into one function, so what a part defines is known to those behind it. The texts
// were checked by the maker of the page.

// ---- Making elements

const SVG = 'http://www.w3.org/2000/svg';
const MINUS = '−';

function byId(id) {
  return document.getElementById(id);
}

/* An element of a drawing. */
function shape(tag, attributes = {}, children = []) {
  const made = document.createElementNS(SVG, tag);
  for (const name in attributes) made.setAttribute(name, attributes[name]);
  made.append(...children);
  return made;
}

/* An element of the page; a handler is given as `onclick` and the like. */
function element(tag, attributes = {}, ...children) {
  const made = document.createElement(tag);
  for (const name in attributes) {
    if (name.startsWith('on')) made[name] = attributes[name];
    else made.setAttribute(name, attributes[name]);
  }
  made.append(...children.filter(child => child != null && child !== ''));
  return made;
}

/* The text, with its middle left out where it is longer than this. */
function shorten(text, most) {
  if (text.length <= most) return text;
  const tail = Math.floor(most / 4);
  return text.slice(0, most - tail - 1) + '…' + text.slice(text.length - tail);
}

/* A number of the page's small signs, such as n3 or c2. */
function signed(text) {
  return element('span', { class: 'nogood-number' }, text);
}

/* The outermost element of a drawing. */
function drawing(width, height, children, look = 'drawing') {
  return shape('svg', { class: look, width, height, viewBox: `0 0 ${width} ${height}`, 'aria-hidden': 'true' }, children);
}

function counted(count, one, many = one + 's') {
  return `${grouped(count)} ${count === 1 ? one : many}`;
}

/* A number with thin spaces between groups of three digits. */
function grouped(number) {
  return String(number).replace(/\B(?=(\d{3})+$)/g, '\u2009');
}

function clamp(number, low, high) {
  return Math.max(low, Math.min(high, number));
}
