// ---- The overview of the run above the slider

const MOST_BINS = 800, STRIP_HEIGHT = 52;

/* Events side by side: what is delivered, where nogoods are derived, and how much is in transit. Of a long run some
   events share a bin, which shows the most of each. */
function buildStrip() {
  const per = Math.ceil((last + 1) / MOST_BINS), bins = Math.ceil((last + 1) / per), strip = byId('strip');
  const made = new Set(story.madeAt);
  const most = transitCounts.reduce((a, b) => Math.max(a, b), 1);
  let area = `M0,${STRIP_HEIGHT}`;
  const marks = { ok: '', nogood: '', link: '', made: '' };
  for (let bin = 0; bin < bins; bin += 1) {
    let transit = 0;
    const seen = new Set();
    for (let number = bin * per; number < Math.min(last + 1, (bin + 1) * per); number += 1) {
      transit = Math.max(transit, transitCounts[number] || 0);
      if (number) seen.add(story.delivered[number].kind);
      if (made.has(number)) seen.add('made');
    }
    const y = STRIP_HEIGHT - 34 * transit / most;
    area += `L${bin},${y}H${bin + 1}`;
    const kind = ['nogood', 'link', 'ok'].find(wanted => seen.has(wanted));
    if (kind) marks[kind] += `M${bin + .1},0h.8v8h-.8z`;
    if (seen.has('made')) marks.made += `M${bin + .1},10h.8v5h-.8z`;
  }
  strip.setAttribute('viewBox', `0 0 ${bins} ${STRIP_HEIGHT}`);
  strip.parentNode.style.maxWidth = Math.max(360, bins * 34) + 'px';
  strip.append(shape('path', { d: area + `L${bins},${STRIP_HEIGHT}z`, fill: 'var(--rail)', opacity: .6 }));
  const colours = { ok: 'var(--rail)', nogood: 'var(--nogood)', link: 'var(--link)', made: 'var(--nogood)' };
  for (const name in marks) strip.append(shape('path', { d: marks[name], fill: colours[name] }));
  const width = Math.max(1, bins / 300);
  strip.cursor = shape('rect', { y: 0, height: STRIP_HEIGHT, width, fill: 'var(--accent)', opacity: .5 });
  strip.perBin = per;
  strip.append(strip.cursor);
}

function markStrip(number) {
  byId('strip').cursor.setAttribute('x', Math.floor(number / byId('strip').perBin));
}
