// The cake as a strip, what an agent likes as steps, and the table of share-values. An agent has a number, a colour and
// stripes, so that no colour alone tells anything.
const PAD = 8;
let wide = 640;
// Makes pictures as wide as the element that they will stand in, but for a margin, so that letters keep their size.
function drawnIn(room, margin, make) {
  const before = wide;
  wide = Math.max(240, Math.min(680, room.clientWidth || 640) - margin);
  try {
    return make();
  } finally {
    wide = before;
  }
}
const across = length => at => PAD + at / length * (wide - 2 * PAD);

const TURNS = [0, 45, 135, 90, 20, 110, 65, 155];
const colour = agent => `var(--s${agent % 8 + 1})`;
const key = agent => el('span', { class: 'key', style: `background:${colour(agent)}` }, String(agent + 1));
let kits = 0;

// The fillings of so many agents' shares.
function fillings(count) {
  const id = `fill${++kits}`;
  const units = { width: 10, height: 10, patternUnits: 'userSpaceOnUse' };
  const striped = at => svg('pattern', { id: `${id}-${at}`, ...units, patternTransform: `rotate(${TURNS[at % 8]})` },
    svg('rect', { width: 10, height: 10, fill: colour(at) }),
    at % 8 ? svg('rect', { width: 10, height: at % 8 > 3 ? 3 : 1.6, fill: 'var(--on-strip)', opacity: .38 }) : null);
  const defs = svg('defs', {}, Array.from({ length: count }, (_, at) => striped(at)));
  return { defs, of: agent => agent < 0 ? 'var(--left)' : `url(#${id}-${agent})` };
}
const fillingsOf = held => fillings(1 + Math.max(-1, ...held.map(it => it.agent)));

// Who holds each stretch of the cake, from left to right; agent -1 is nobody.
function stretches(line) {
  const list = [];
  const add = (piece, agent) => piece.forEach(([from, to]) => list.push({ from: nearOf(from), to: nearOf(to), names: [from, to], agent }));
  line.shares.forEach(add);
  add(line.left, -1);
  const joined = [];
  for (const it of list.filter(it => it.from < it.to).sort((a, b) => a.from - b.from)) {
    const last = joined.at(-1), goesOn = last && last.agent === it.agent && last.names[1] === it.names[0];
    if (goesOn) Object.assign(last, { to: it.to, names: [last.names[0], it.names[1]] });
    else joined.push(it);
  }
  return joined;
}
// The stretches between cuts, which nobody holds yet.
function uncut(length, cuts) {
  const names = new Map([['0', 0], ...cuts.map(it => [it, nearOf(it)]), [length, nearOf(length)]]);
  const ends = [...names].sort((a, b) => a[1] - b[1]);
  const parts = ends.slice(1).map(([name, to], at) => ({ from: ends[at][1], to, names: [ends[at][0], name], agent: -2 }));
  return parts.filter(it => it.from < it.to);
}

const label = (x, y, words, anchor = 'middle', more = {}) =>
  svg('text', { x, y, 'font-size': 13, fill: 'var(--soft)', 'text-anchor': anchor, ...more }, words);
const BOLD = { 'font-size': 14, 'font-weight': 700, fill: 'var(--on-strip)' };
const numberIn = (from, to, y, agent) =>
  to - from >= 13 && agent >= 0 ? label((from + to) / 2, y, String(agent + 1), 'middle', BOLD) : null;
const block = (from, to, top, ground, more) =>
  svg('rect', { x: from, y: top, width: Math.max(.5, to - from), height: ground - top, ...more });
const upright = (x, top, ground, more) => svg('line', { x1: x, x2: x, y1: top, y2: ground, stroke: 'var(--ink)', ...more });
const pictureOf = (tall, spoken, ...parts) =>
  el('div', { class: 'picture' }, svg('svg', { viewBox: `0 0 ${wide} ${tall}`, role: 'img', 'aria-label': spoken }, ...parts));

// Names of points under a picture, as many as have room: first that of the newest cut, then those of both ends.
function pointLabels(points, x, length, y, newest = null) {
  const rank = at => at === newest ? 0 : at === 0 || at === length ? 1 : 2;
  const taken = [];
  return [...points].sort((a, b) => rank(a[0]) - rank(b[0]) || a[0] - b[0]).map(([at, name]) => {
    const room = name.length * 8, from = x(at) - (at === 0 ? 0 : at === length ? room : room / 2);
    if (taken.some(it => from < it.to + 8 && it.from < from + room + 8)) return null;
    taken.push({ from, to: from + room });
    return label(x(at), y, name, at === 0 ? 'start' : at === length ? 'end' : 'middle');
  });
}
const holder = it => it.agent >= 0 ? `agent ${it.agent + 1}` : it.agent === -1 ? 'nobody' : 'not given yet';

// The cake with who holds what; `fresh` is the point of the newest cut.
function cakeStrip(held, length, fresh) {
  const x = across(length), kit = fillingsOf(held);
  const points = new Map(held.flatMap(it => [[it.from, it.names[0]], [it.to, it.names[1]]]));
  const at = fresh === undefined ? null : x(nearOf(fresh));
  const spoken = `The cake: ${held.map(it => `from ${it.names[0]} to ${it.names[1]} ${holder(it)}`).join(', ')}`;
  const fill = it => it.agent === -2 ? 'var(--paper)' : kit.of(it.agent);
  return pictureOf(74, spoken, kit.defs,
    held.map(it => block(x(it.from), x(it.to), 14, 48, { fill: fill(it), stroke: 'var(--ink)' })),
    held.map(it => numberIn(x(it.from), x(it.to), 37, it.agent)),
    at === null ? null : [svg('path', { d: `M${at} 13l-6 -11h12z`, fill: 'var(--ink)' }), upright(at, 12, 50, { 'stroke-width': 3 })],
    pointLabels(points, x, length, 66, fresh === undefined ? null : nearOf(fresh)));
}

// What an agent likes, in grey. With a run the area under the steps is filled by who got it, so that an area is a value.
function stepChart(taste, held = [{ from: 0, to: Number(taste.ends.at(-1)), agent: -2 }], cuts = [], isRun = false) {
  const ends = taste.ends.map(Number), heights = taste.heights.map(Number), begins = [0, ...ends];
  const length = ends.at(-1), most = Math.max(...heights) || 1, ground = 102;
  const x = across(length), y = height => ground - height / most * 92, kit = fillingsOf(held);
  const areaOf = (it, step) =>
    ({ from: Math.max(begins[step], it.from), to: Math.min(ends[step], it.to), y: y(heights[step]), agent: it.agent });
  const areas = ends.flatMap((_, step) => held.map(it => areaOf(it, step))).filter(it => it.from < it.to && it.y < ground);
  // A share's number stands in the widest area that is tall enough.
  const tall = it => areas.filter(area => area.from >= it.from && area.to <= it.to && area.y < ground - 18);
  const wider = (best, area) => !best || area.to - area.from > best.to - best.from ? area : best;
  const numbers = held.map(it => tall(it).reduce(wider, null)).filter(it => it);
  const outline = ends.map((end, step) => `L${x(begins[step])} ${y(heights[step])}L${x(end)} ${y(heights[step])}`).join('');
  const every = Math.ceil(begins.length / 12);
  const ticks = new Map(begins.filter((_, at) => at % every === 0 || at === ends.length).map(at => [at, String(at)]));
  const spoken = `Steps: ${taste.ends.map((end, at) => `up to ${end} height ${taste.heights[at]}`).join(', ')}`;
  return pictureOf(ground + 24, spoken, kit.defs,
    areas.map(it => block(x(it.from), x(it.to), it.y, ground, { fill: kit.of(it.agent) })),
    cuts.map(at => upright(x(nearOf(at)), 0, ground, { 'stroke-dasharray': '4 3' })),
    svg('path', { d: `M${x(0)} ${ground}${outline}L${x(length)} ${ground}Z`, fill: 'none', stroke: 'var(--ink)', 'stroke-width': 2 }),
    isRun ? numbers.map(it => numberIn(x(it.from), x(it.to), ground - 7, it.agent)) : null,
    pointLabels(ticks, x, length, ground + 17));
}

// What each share is worth to each agent, in rows that scroll by themselves where they are too wide.
function valueTable(line) {
  const isEnvied = (a, b) => line.envy.some(([x, y]) => x === a + 1 && y === b + 1);
  const cell = (value, a, b) => {
    const mark = a === b ? 'own' : isEnvied(a, b) ? '▲ envied' : null;
    const kind = a === b ? 'own' : mark && 'envied', part = fraction(value);
    return el('td', { class: kind }, shown(part), el('small', {}, percent(part)), mark && el('small', {}, mark));
  };
  const rowOf = (row, a) => el('tr', {}, el('th', { scope: 'row' }, `agent ${a + 1}`), row.map((value, b) => cell(value, a, b)));
  const heads = line.values.map((_, b) => el('th', { scope: 'col', 'aria-label': `share of agent ${b + 1}` }, key(b)));
  return el('div', { class: 'scroll', tabindex: 0, role: 'region', 'aria-label': 'What each share is worth to each agent' }, el('table', {},
    el('thead', {}, el('tr', {}, el('th', { class: 'corner' }, 'the share of →', el('br'), 'is worth, to ↓'), heads)),
    el('tbody', {}, line.values.map(rowOf))));
}
