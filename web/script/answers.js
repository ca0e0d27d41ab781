// The answers, put into words: what was shown, and for whom.
const SIGNS = { good: '✓', bad: '▲', warn: '⚠', info: '☰' };
function verdict(kind, title, scope, ...words) {
  return el('div', { class: `verdict ${kind}`, tabindex: -1 },
    el('span', { class: 'sign', 'aria-hidden': 'true' }, SIGNS[kind]),
    el('div', { class: 'words' },
      el('strong', {}, title),
      scope ? el('p', { class: 'scope' }, scope) : null,
      words.length ? el('p', {}, ...words) : null));
}
const broken = words => verdict('warn', 'The program broke off', 'Nothing is said of the protocol.', words);

function save(name, bytes) {
  const address = URL.createObjectURL(new Blob([bytes]));
  el('a', { href: address, download: name }).click();
  setTimeout(() => URL.revokeObjectURL(address), 1000);
}

// A place in the text: a button that goes there, and its line with a caret under it.
function placeOf(mark) {
  const { line, column } = lineAndColumn(mark.from), whole = source().split('\n')[line - 1];
  return [mark.isFirst ? `${upper(WORDS.places.first)}: ` : null,
    button(`line ${line}, column ${column}`, () => goTo(mark), 'linkish'),
    el('div', { class: 'place' }, `${whole}\n${whole.slice(0, column - 1).replace(/[^\t]/g, ' ')}^`)];
}
// A refusal, with its places marked in the editor.
function refusal(line) {
  const wanted = 'at' in line ? [{ byte: line.at }] : [];
  if ('first' in line) wanted.push({ byte: line.first, isFirst: true });
  const isEnd = line.refused === 'Syntax' && line.at >= bytesOf(source()).length;
  const title = ['Refused: ', rich(isEnd ? WORDS.places.end : meaning(line))];
  return verdict('warn', title, 'Nothing is said of fairness.', markBytes(wanted).map(placeOf), el('small', {}, `(${line.refused})`));
}

function checked(line) {
  const counts = {
    'Protocol': line.protocol,
    'Agents': line.agents,
    'Steps, put in line': counted(line.nodes),
    'Steps on a way, at most': line.depth,
    'Cuts on a way, at most': line.cuts,
  };
  return [
    verdict('info', 'It keeps the rules', 'Shown of the text alone.',
      'Every name is bound, and on every way each piece is used at most once. Whether it is fair, Verify tells.'),
    el('dl', { class: 'counts' }, Object.entries(counts).map(([name, value]) => [el('dt', {}, name), el('dd', {}, String(value))])),
  ];
}

function ran(line, likes) {
  const isStuck = line.outcome === 'stuck', isFine = !isStuck && line.envy.length === 0;
  const title = isStuck ? `The run is stuck at query ${line.query}`
    : isFine ? 'With these tastes nobody envies anybody'
    : line.envy.map(([a, b]) => `Agent ${a} envies agent ${b}`).join('. ');
  return [
    verdict(isFine ? 'good' : 'bad', title, 'Seen in one run, with the tastes that were filled in.',
      isStuck ? `${upper(WORDS.sides[line.side])}. ` : null,
      isFine ? 'Of other tastes this says nothing: Verify does.' : 'So the protocol isn’t fair for everybody.'),
    drawRun(line, likes),
  ];
}

function goalBox(line, agents) {
  const parts = (line.rows[0].coefs.length - 1) / agents;
  return el('div', { class: 'goal' },
    el('b', {}, `Goal ${line.goal}: `), `${ending(line.outcome)}. `, el('small', {}, `Way: ${line.trace.join(', ') || 'no choice'}.`),
    el('ul', {}, line.rows.map(row => el('li', {}, rowWords(row, parts)))));
}
// The goals, so many at a time.
function goals(bytes, agents, count) {
  const lines = linesOf(bytes), list = el('div'), more = button('Show more', () => grow());
  let left = count;
  const grow = () => {
    for (let at = 0; at < 40 && left > 0; at++, left--) list.append(goalBox(readLine(lines.next().value), agents));
    more.hidden = left === 0;
  };
  grow();
  return [
    verdict('info', `${counted(count)} goals: the ways in which a run could fail`, 'Nothing is decided yet.',
      `Where the rows of none of them hold together, ${WORDS.outcomes.fair}. `,
      el('small', {}, 'a2.0 is what agent 2 values part 0 of the cake at.')),
    list, more,
  ];
}

const ALL_TASTES = 'whatever the agents like (by steps with whole numbers, of any size)';
const LEFT = 'Nothing is said of what is left: nobody has to get it.';
const refuted = count => count === 0 ? 'there is no way in which a run could fail'
  : count === 1 ? 'the one way in which a run could fail was refuted'
  : `all ${counted(count)} ways in which a run could fail were refuted`;

function envyFree(line, certificate) {
  return [
    verdict('good', 'Envy-free', `Shown for all tastes: ${refuted(line.goals)}.`,
      `So, ${ALL_TASTES}, every run comes to its end, gives shares that don’t overlap, and leaves nobody valuing another’s share`
      + ` above their own, however ties are answered. ${LEFT}`),
    el('p', {}, 'The lines of the proof are a certificate, which anybody can check, with this page or without.'),
    el('div', { class: 'after' },
      button('Save the certificate', () => save(`${nameOf(source())}.cert`, certificate)),
      button('Check it again', () => checkCertificate(certificate, 'the certificate that was just written'))),
  ];
}
function counterexample(line, replayed, own) {
  const { outcome } = line, isStuck = 'query' in outcome;
  return [
    verdict('bad', isStuck ? 'Not fair: a run can get stuck' : `Not fair: agent ${outcome.agent} can envy agent ${outcome.envies}`,
      'Shown by one run, with the tastes and answers below. With other tastes it may go well.',
      isStuck ? `${upper(ending(outcome))}.` : envyWords(replayed, [outcome.agent, outcome.envies])),
    el('div', { class: 'after' }, button('Save the counterexample', () => save(`${nameOf(source())}.json`, bytesOf(`${own}\n`)))),
    drawRun(replayed, line.valuations),
  ];
}
function certified(line, whose) {
  if (line.accepted) {
    return verdict('good', 'The certificate is right', `Shown for all tastes, by ${whose}: ${refuted(line.goals)}.`,
      `So, ${ALL_TASTES}, ${WORDS.outcomes.fair}. ${LEFT}`);
  }
  return verdict('bad', 'The certificate is wrong', 'Nothing is said of the protocol: another certificate may be right.',
    put(WORDS.outcomes.rejected, { fault: put(WORDS.faults[line.fault], line) }));
}
