// A run of the protocol: step by step, cut by cut, and what comes of it.

// The steps: nothing yet; each cut, with the values that are asked for after it; and the end.
function stepsOf(line) {
  const steps = [{ cuts: [], asked: [] }];
  line.queries.forEach((it, number) => {
    if (it.kind === 'cut') steps.push({ cuts: [...steps.at(-1).cuts, it.answer], asked: [], cut: it, number });
    else steps.at(-1).asked.push(it);
  });
  const first = steps[0].asked.length || steps.length === 1 ? steps : steps.slice(1);
  return [...first, { cuts: steps.at(-1).cuts, asked: [], isEnd: true }];
}
function stepPicture(step, line, likes, held) {
  const length = likes[0].ends.at(-1);
  const shares = step.isEnd && held ? held : uncut(length, step.cuts);
  const fresh = step.cut ? step.cut.answer : undefined;
  const who = step.cut ? step.cut.agent : step.asked.length ? step.asked[0].agent : null;
  const strip = cakeStrip(shares, Number(length), fresh);
  if (who === null || step.isEnd) return [strip];
  const chart = stepChart(likes[who - 1], uncut(length, step.cuts), step.cuts);
  return [strip, el('figure', {}, el('figcaption', {}, `What agent ${who} likes`), chart)];
}
function stepWords(step, line) {
  const asked = step.asked.map(it => upper(queryWords(it))).map(it => el('div', {}, `${it}.`));
  if (!step.isEnd) return [step.cut ? el('b', {}, `${upper(queryWords(step.cut))}.`) : 'The cake is whole.', asked];
  if (line.outcome === 'stuck') return [el('b', {}, said('outcomes', 'stuck', { query: line.query, side: WORDS.sides[line.side] }))];
  const envies = line.envy.map(pair => `${envyWords(line, pair)} `);
  return [el('b', {}, 'The run is done, and the shares are given. '), envies.length ? envies : WORDS.outcomes.nobody];
}
function stepper(line, likes, held) {
  const steps = stepsOf(line);
  const picture = el('div'), words = el('div', { class: 'words', 'aria-live': 'polite' }), count = el('span', { class: 'count' });
  const limits = { min: 0, max: steps.length - 1, value: 0 };
  const range = el('input', { type: 'range', ...limits, 'aria-label': 'Step of the run', oninput: () => draw() });
  const go = by => { range.value = String(Number(range.value) + by); draw(); };
  const back = button('◀', () => go(-1)), on = button('▶', () => go(1));
  back.setAttribute('aria-label', 'Step back');
  on.setAttribute('aria-label', 'Step on');
  const draw = () => {
    const at = Number(range.value);
    back.disabled = at === 0;
    on.disabled = at === steps.length - 1;
    count.textContent = `Step ${at + 1} of ${steps.length}`;
    range.setAttribute('aria-valuetext', count.textContent);
    words.replaceChildren(...[stepWords(steps[at], line)].flat(9));
    picture.replaceChildren(...drawnIn($('answer'), 26, () => stepPicture(steps[at], line, likes, held)));
  };
  draw();
  return el('div', { class: 'steps', role: 'group', 'aria-label': 'The run, step by step' },
    el('div', { class: 'controls' }, back, range, on, count), words, picture);
}

const stretchesWords = piece => piece.filter(([from, to]) => from !== to).map(([from, to]) => `[${from}, ${to})`).join(' ') || 'nothing';
function shareList(line) {
  const nobody = stretchesWords(line.left);
  return el('ul', { class: 'shares' }, line.shares.map((share, at) => el('li', {}, key(at), `agent ${at + 1}: ${stretchesWords(share)}`)),
    nobody === 'nothing' ? null : el('li', {}, el('span', { class: 'key', style: 'background:var(--left)' }, '–'), `nobody: ${nobody}`));
}
function likesOf(line, likes, held, cuts) {
  const envious = at => (line.envy || []).filter(([a]) => a - 1 === at).map(pair => `▲ ${envyWords(line, pair)}`).join(' ');
  const caption = at => el('figcaption', { class: envious(at) ? 'envious' : null }, envious(at) || `Agent ${at + 1}`);
  return likes.map((it, at) => el('figure', {}, caption(at),
    held ? stepChart(it, held, cuts, true) : stepChart(it, undefined, cuts)));
}
const drawRun = (line, likes) => drawnIn($('answer'), 0, () => runParts(line, likes));
function runParts(line, likes) {
  const cuts = line.queries.filter(it => it.kind === 'cut').map(it => it.answer), count = line.queries.length;
  const held = line.outcome === 'done' ? stretches(line) : null;
  const areas = held ? 'stripes and numbers tell who got it, dashes where it was cut' : 'dashes tell where it was cut';
  const several = count === 1 ? 'The one query, and its answer' : `The ${count} queries, and their answers`;
  const asked = count === 0 ? WORDS.queries.none : several;
  const given = held ? [el('h3', {}, 'Who gets what'), cakeStrip(held, Number(likes[0].ends.at(-1))), shareList(line),
    el('h3', {}, 'What each share is worth to each agent, as a part of the whole cake'), valueTable(line)] : [];
  return [...given,
    el('h3', {}, 'Step by step'), stepper(line, likes, held),
    el('h3', {}, 'What each agent likes'), el('p', { class: 'hint' }, `The area under the steps is value; ${areas}.`),
    likesOf(line, likes, held, cuts),
    el('details', {}, el('summary', {}, asked),
      el('ol', { class: 'asked', start: 0 }, line.queries.map(it => el('li', {}, queryWords(it)))))];
}
